-- A side of the notebook as an SQLite file.
BEGIN IMMEDIATE;

-- The side itself: its name, what its own clock showed last, the day that the hub has announced, and its last step of the story.
CREATE TABLE IF NOT EXISTS side (name TEXT NOT NULL, clock TEXT, day TEXT NOT NULL, step INTEGER NOT NULL DEFAULT 0);
INSERT INTO side (name, day) SELECT :name, :day WHERE NOT EXISTS (SELECT 1 FROM side);

-- A reminder, as it travels: phrase, reading, its author's now as RFC 3339, and the digest of the zone's file, where it has a zone.
-- The last edit wins; edits are counted, since clocks may be wrong. What follows is worked out on each side by itself.
CREATE TABLE IF NOT EXISTS reminder (
    id TEXT PRIMARY KEY,
    title TEXT NOT NULL,
    phrase TEXT NOT NULL,
    reading INTEGER NOT NULL,
    authored TEXT NOT NULL,
    zone TEXT,
    standing INTEGER NOT NULL,
    edit INTEGER NOT NULL,
    writer TEXT NOT NULL,
    ready BLOB GENERATED ALWAYS AS (fuzzy_make_ready(reading, phrase)) STORED,
    due TEXT GENERATED ALWAYS AS (fuzzy_read(reading, phrase, fuzzy_read_stamp(authored))) STORED,
    why TEXT GENERATED ALWAYS AS (fuzzy_why(reading, phrase, fuzzy_read_stamp(authored))) STORED
);

-- Zone files by the SHA-256 of their bytes.
CREATE TABLE IF NOT EXISTS zone (digest TEXT PRIMARY KEY, file BLOB NOT NULL);

-- When this side first saw an edit, by its own clock: the old way needs it.
CREATE TABLE IF NOT EXISTS seen (id TEXT, edit INTEGER, writer TEXT, clock TEXT NOT NULL, PRIMARY KEY (id, edit, writer));

-- What was typed on this side, at which step.
CREATE TABLE IF NOT EXISTS diary (step INTEGER PRIMARY KEY, id TEXT NOT NULL, phrase TEXT NOT NULL);

-- The new way: a phrase is read at its author's now. One that stands is run at each day's now instead.
CREATE VIEW IF NOT EXISTS shown AS
SELECT r.id, r.title, r.phrase, r.why, CASE
        WHEN r.zone IS NOT NULL THEN fuzzy_local(z.file, fuzzy_run_in_zone(r.ready, z.file, r.authored))
        WHEN r.standing = 1 THEN fuzzy_run(r.ready, s.day)
        ELSE r.due
    END AS moment
FROM reminder r LEFT JOIN zone z ON z.digest = r.zone CROSS JOIN side s;

-- The old way: each side reads the phrase by its own clock, when it sees it.
CREATE VIEW IF NOT EXISTS old AS
SELECT r.id, fuzzy_read(r.reading, r.phrase, CASE WHEN r.standing = 1 THEN s.clock ELSE e.clock END) AS moment
FROM reminder r JOIN seen e ON e.id = r.id AND e.edit = r.edit AND e.writer = r.writer CROSS JOIN side s;

CREATE VIEW IF NOT EXISTS zone_in_hex AS SELECT digest, hex(file) AS file FROM zone;

COMMIT;
