-- The sums of bindings/sqlite/tests/rows.c, by PostgreSQL, a line each: read by one worker, read by several, and run from a generated
-- column. Then how many workers there were, and how long each of four functions takes for all rows. The variable rows is their file.
SET client_min_messages = warning;
CREATE EXTENSION IF NOT EXISTS fuzzydate;
CREATE UNLOGGED TABLE rows (
    id integer,
    reading integer,
    now timestamp,
    phrase text,
    ready bytea GENERATED ALWAYS AS (fuzzy_try_make_ready(reading, phrase)) STORED
);
\set copy '\\copy rows (id, reading, now, phrase) FROM ' :'rows'
:copy
ANALYZE rows;
CREATE VIEW read AS SELECT fuzzy_try_read(reading, phrase, now) AS m FROM rows;
CREATE VIEW run AS SELECT fuzzy_try_run(ready, now) AS m FROM rows;
\set sums 'count(*), count(m), sum(floor(extract(epoch FROM m))), sum(extract(milliseconds FROM m)::integer % 1000)'

SET max_parallel_workers_per_gather = 0;
SELECT :sums FROM read;
SET max_parallel_workers_per_gather = 2;
SET parallel_setup_cost = 0;
SELECT :sums FROM read;
SELECT :sums FROM run;
EXPLAIN (ANALYZE, COSTS off, TIMING off, SUMMARY off) SELECT :sums FROM read \g |grep 'Workers Launched'

SET max_parallel_workers_per_gather = 0;
\timing on
SELECT count(fuzzy_try_read(reading, phrase, now)) FROM rows \g /dev/null
SELECT count(fuzzy_try_run(ready, now)) FROM rows \g /dev/null
SELECT count(date_trunc('week', now)) FROM rows \g /dev/null
SELECT count(upper(phrase)) FROM rows \g /dev/null
