-- The hub as a PostgreSQL database: schema.sqlite.sql once more, in PostgreSQL's types. The views give NULL for what is refused.
CREATE EXTENSION IF NOT EXISTS fuzzydate;

CREATE TABLE IF NOT EXISTS side (name text NOT NULL, clock timestamp, day timestamp NOT NULL, step integer NOT NULL DEFAULT 0);
INSERT INTO side (name, day) SELECT :name, :day::timestamp WHERE NOT EXISTS (SELECT 1 FROM side);

CREATE TABLE IF NOT EXISTS reminder (
    id text PRIMARY KEY,
    title text NOT NULL,
    phrase text NOT NULL,
    reading integer NOT NULL,
    authored text NOT NULL,
    zone text,
    standing integer NOT NULL,
    edit integer NOT NULL,
    writer text NOT NULL,
    ready bytea GENERATED ALWAYS AS (fuzzy_try_make_ready(reading, phrase)) STORED,
    due timestamp GENERATED ALWAYS AS (fuzzy_try_read(reading, phrase, fuzzy_read_stamp(authored))) STORED,
    why text GENERATED ALWAYS AS (fuzzy_why(reading, phrase, fuzzy_read_stamp(authored))) STORED
);

CREATE TABLE IF NOT EXISTS zone (digest text PRIMARY KEY, file bytea NOT NULL);

CREATE TABLE IF NOT EXISTS seen (id text, edit integer, writer text, clock timestamp NOT NULL, PRIMARY KEY (id, edit, writer));

CREATE OR REPLACE VIEW shown AS
SELECT r.id, r.title, r.phrase, r.why, CASE
        WHEN r.zone IS NOT NULL THEN fuzzy_try_local(z.file, fuzzy_try_run_in_zone(r.ready, z.file, r.authored::timestamptz))
        WHEN r.standing = 1 THEN fuzzy_try_run(r.ready, s.day)
        ELSE r.due
    END AS moment
FROM reminder r LEFT JOIN zone z ON z.digest = r.zone CROSS JOIN side s;

CREATE OR REPLACE VIEW old AS
SELECT r.id, fuzzy_try_read(r.reading, r.phrase, CASE WHEN r.standing = 1 THEN s.clock ELSE e.clock END) AS moment
FROM reminder r JOIN seen e ON e.id = r.id AND e.edit = r.edit AND e.writer = r.writer CROSS JOIN side s;

CREATE OR REPLACE VIEW zone_in_hex AS SELECT digest, encode(file, 'hex') AS file FROM zone;
