\echo Use "CREATE EXTENSION fuzzydate" to load this file. \quit

-- Each function depends on its arguments alone. A refusal is raised with SQLSTATE FZ001 to FZ026; in fuzzy_try_.. it is NULL.

CREATE FUNCTION fuzzy_read(reading integer, phrase text, now timestamp) RETURNS timestamp
    AS 'MODULE_PATHNAME', 'fuzzydate_read' LANGUAGE C IMMUTABLE STRICT PARALLEL SAFE COST 20;
CREATE FUNCTION fuzzy_try_read(reading integer, phrase text, now timestamp) RETURNS timestamp
    AS 'MODULE_PATHNAME', 'fuzzydate_try_read' LANGUAGE C IMMUTABLE STRICT PARALLEL SAFE COST 20;

CREATE FUNCTION fuzzy_make_ready(reading integer, phrase text) RETURNS bytea
    AS 'MODULE_PATHNAME', 'fuzzydate_make_ready' LANGUAGE C IMMUTABLE STRICT PARALLEL SAFE COST 20;
CREATE FUNCTION fuzzy_try_make_ready(reading integer, phrase text) RETURNS bytea
    AS 'MODULE_PATHNAME', 'fuzzydate_try_make_ready' LANGUAGE C IMMUTABLE STRICT PARALLEL SAFE COST 20;

CREATE FUNCTION fuzzy_run(ready bytea, now timestamp) RETURNS timestamp
    AS 'MODULE_PATHNAME', 'fuzzydate_run' LANGUAGE C IMMUTABLE STRICT PARALLEL SAFE COST 20;
CREATE FUNCTION fuzzy_try_run(ready bytea, now timestamp) RETURNS timestamp
    AS 'MODULE_PATHNAME', 'fuzzydate_try_run' LANGUAGE C IMMUTABLE STRICT PARALLEL SAFE COST 20;

CREATE FUNCTION fuzzy_next(rule text, start timestamp, asked timestamp) RETURNS timestamp
    AS 'MODULE_PATHNAME', 'fuzzydate_next' LANGUAGE C IMMUTABLE STRICT PARALLEL SAFE COST 20;
CREATE FUNCTION fuzzy_try_next(rule text, start timestamp, asked timestamp) RETURNS timestamp
    AS 'MODULE_PATHNAME', 'fuzzydate_try_next' LANGUAGE C IMMUTABLE STRICT PARALLEL SAFE COST 20;

CREATE FUNCTION fuzzy_read_in_zone(reading integer, phrase text, zone bytea, instant timestamptz) RETURNS timestamptz
    AS 'MODULE_PATHNAME', 'fuzzydate_read_in_zone' LANGUAGE C IMMUTABLE STRICT PARALLEL SAFE COST 20;
CREATE FUNCTION fuzzy_try_read_in_zone(reading integer, phrase text, zone bytea, instant timestamptz) RETURNS timestamptz
    AS 'MODULE_PATHNAME', 'fuzzydate_try_read_in_zone' LANGUAGE C IMMUTABLE STRICT PARALLEL SAFE COST 20;

CREATE FUNCTION fuzzy_run_in_zone(ready bytea, zone bytea, instant timestamptz) RETURNS timestamptz
    AS 'MODULE_PATHNAME', 'fuzzydate_run_in_zone' LANGUAGE C IMMUTABLE STRICT PARALLEL SAFE COST 20;
CREATE FUNCTION fuzzy_try_run_in_zone(ready bytea, zone bytea, instant timestamptz) RETURNS timestamptz
    AS 'MODULE_PATHNAME', 'fuzzydate_try_run_in_zone' LANGUAGE C IMMUTABLE STRICT PARALLEL SAFE COST 20;

CREATE FUNCTION fuzzy_local(zone bytea, instant timestamptz) RETURNS timestamp
    AS 'MODULE_PATHNAME', 'fuzzydate_local' LANGUAGE C IMMUTABLE STRICT PARALLEL SAFE COST 20;
CREATE FUNCTION fuzzy_try_local(zone bytea, instant timestamptz) RETURNS timestamp
    AS 'MODULE_PATHNAME', 'fuzzydate_try_local' LANGUAGE C IMMUTABLE STRICT PARALLEL SAFE COST 20;

CREATE FUNCTION fuzzy_stamp(given text) RETURNS text
    AS 'MODULE_PATHNAME', 'fuzzydate_stamp' LANGUAGE C IMMUTABLE STRICT PARALLEL SAFE COST 20;
CREATE FUNCTION fuzzy_try_stamp(given text) RETURNS text
    AS 'MODULE_PATHNAME', 'fuzzydate_try_stamp' LANGUAGE C IMMUTABLE STRICT PARALLEL SAFE COST 20;

CREATE FUNCTION fuzzy_read_stamp(given text) RETURNS timestamp
    AS 'MODULE_PATHNAME', 'fuzzydate_read_stamp' LANGUAGE C IMMUTABLE STRICT PARALLEL SAFE COST 20;
CREATE FUNCTION fuzzy_try_read_stamp(given text) RETURNS timestamp
    AS 'MODULE_PATHNAME', 'fuzzydate_try_read_stamp' LANGUAGE C IMMUTABLE STRICT PARALLEL SAFE COST 20;

CREATE FUNCTION fuzzy_show(moment timestamp) RETURNS text
    AS 'MODULE_PATHNAME', 'fuzzydate_show' LANGUAGE C IMMUTABLE STRICT PARALLEL SAFE COST 20;
CREATE FUNCTION fuzzy_try_show(moment timestamp) RETURNS text
    AS 'MODULE_PATHNAME', 'fuzzydate_try_show' LANGUAGE C IMMUTABLE STRICT PARALLEL SAFE COST 20;

-- No rule has more occurrences than the years 1 to 9999 have days.
CREATE FUNCTION fuzzy_occurrences(rule text, start timestamp, most integer DEFAULT 3652059) RETURNS SETOF timestamp
    AS 'MODULE_PATHNAME', 'fuzzydate_occurrences' LANGUAGE C IMMUTABLE STRICT PARALLEL SAFE COST 20 ROWS 100;
CREATE FUNCTION fuzzy_try_occurrences(rule text, start timestamp, most integer DEFAULT 3652059) RETURNS SETOF timestamp
    AS 'MODULE_PATHNAME', 'fuzzydate_try_occurrences' LANGUAGE C IMMUTABLE STRICT PARALLEL SAFE COST 20 ROWS 100;

-- Why a call with these arguments is refused; NULL where it is not.
CREATE FUNCTION fuzzy_why(reading integer, phrase text, now timestamp) RETURNS text
    AS 'MODULE_PATHNAME', 'fuzzydate_why_read' LANGUAGE C IMMUTABLE STRICT PARALLEL SAFE COST 20;
CREATE FUNCTION fuzzy_why(reading integer, phrase text) RETURNS text
    AS 'MODULE_PATHNAME', 'fuzzydate_why_make_ready' LANGUAGE C IMMUTABLE STRICT PARALLEL SAFE COST 20;
CREATE FUNCTION fuzzy_why(ready bytea, now timestamp) RETURNS text
    AS 'MODULE_PATHNAME', 'fuzzydate_why_run' LANGUAGE C IMMUTABLE STRICT PARALLEL SAFE COST 20;
CREATE FUNCTION fuzzy_why(rule text, start timestamp) RETURNS text
    AS 'MODULE_PATHNAME', 'fuzzydate_why_list' LANGUAGE C IMMUTABLE STRICT PARALLEL SAFE COST 20;
CREATE FUNCTION fuzzy_why(rule text, start timestamp, asked timestamp) RETURNS text
    AS 'MODULE_PATHNAME', 'fuzzydate_why_next' LANGUAGE C IMMUTABLE STRICT PARALLEL SAFE COST 20;
CREATE FUNCTION fuzzy_why(reading integer, phrase text, zone bytea, instant timestamptz) RETURNS text
    AS 'MODULE_PATHNAME', 'fuzzydate_why_read_in_zone' LANGUAGE C IMMUTABLE STRICT PARALLEL SAFE COST 20;
CREATE FUNCTION fuzzy_why(ready bytea, zone bytea, instant timestamptz) RETURNS text
    AS 'MODULE_PATHNAME', 'fuzzydate_why_run_in_zone' LANGUAGE C IMMUTABLE STRICT PARALLEL SAFE COST 20;
CREATE FUNCTION fuzzy_why(given text) RETURNS text
    AS 'MODULE_PATHNAME', 'fuzzydate_why_stamp' LANGUAGE C IMMUTABLE STRICT PARALLEL SAFE COST 20;

-- A refusal's words, and the library's version.
CREATE FUNCTION fuzzy_refusal(number integer) RETURNS text
    AS 'MODULE_PATHNAME', 'fuzzydate_refusal' LANGUAGE C IMMUTABLE STRICT PARALLEL SAFE COST 20;
CREATE FUNCTION fuzzy_version() RETURNS text
    AS 'MODULE_PATHNAME', 'fuzzydate_version' LANGUAGE C IMMUTABLE STRICT PARALLEL SAFE COST 20;
