-- Every function of the extension. What a query gives stands below it after "--> ", a line for each, and NULL as NULL.
CREATE EXTENSION fuzzydate;
CREATE TABLE zones AS SELECT decode(:'zone', 'hex') AS zone;
SET TimeZone = 'UTC';
SELECT fuzzy_version();
--> 1.0.0
SELECT extversion = fuzzy_version() FROM pg_extension WHERE extname = 'fuzzydate';
--> t

SELECT fuzzy_read(1, 'next friday at 3 pm', '2026-02-11 09:30:15');
--> 2026-02-20 15:00:00
SELECT fuzzy_read(1, 'friday', '2026-02-11 09:30:15.25');
--> 2026-02-13 09:30:15.25
SELECT fuzzy_read(1, 'tuesday in two weeks', '2026-02-11 09:30:15');
--> 2026-01-27 09:30:15
SELECT fuzzy_read(2, 'tuesday in two weeks', '2026-02-11 09:30:15');
--> 2026-03-03 09:30:15
SELECT fuzzy_read(1, '0 days ago', '0001-01-01 00:00:00');
--> 0001-01-01 00:00:00
SELECT fuzzy_read(1, 'now', '9999-12-31 23:59:59.999');
--> 9999-12-31 23:59:59.999

-- a refusal is an error of class FZ, and NULL in fuzzy_try_..
SELECT fuzzy_read(1, 'next fryday at 3 pm', '2026-02-11 09:30:15');
--> ERROR:  FZ002: refused 2 (UNKNOWN): not understood
--> DETAIL:  At byte 5, length 6:
--> next fryday at 3 pm
-->      ^^^^^^
SELECT fuzzy_read(1, 'march 3 5 pm', '2026-02-11 09:30:15');
--> ERROR:  FZ007: refused 7 (LEFT_OVER): not part of the date or time
--> DETAIL:  At byte 10, length 2:
--> march 3 5 pm
-->           ^^
SELECT fuzzy_read(1, 'today é', '2026-02-11 09:30:15');
--> ERROR:  FZ002: refused 2 (UNKNOWN): not understood
--> DETAIL:  At byte 6, length 1:
--> today é
-->       ^
SELECT fuzzy_read(1, E'today\nfryday', '2026-02-11 09:30:15');
--> ERROR:  FZ002: refused 2 (UNKNOWN): not understood
--> DETAIL:  At byte 5, length 1:
--> today\x0Afryday
-->      ^^^^
SELECT fuzzy_read(1, 'a day from now', '9999-12-31 23:59:59.999');
--> ERROR:  FZ012: refused 12 (OUTSIDE): outside the years 1 to 9999
SELECT fuzzy_read(3, 'friday', '2026-02-11 09:30:15');
--> ERROR:  FZ015: refused 15 (NO_READING): no such reading
SELECT fuzzy_read(-1, 'friday', '2026-02-11 09:30:15');
--> ERROR:  FZ015: refused 15 (NO_READING): no such reading
SELECT fuzzy_read(1, repeat('x', 257), '2026-02-11 09:30:15');
--> ERROR:  FZ001: refused 1 (TOO_LONG): longer than 256 bytes
SELECT fuzzy_try_read(1, 'next fryday at 3 pm', '2026-02-11 09:30:15');
--> NULL
SELECT fuzzy_try_read(1, 'friday', '2026-02-11 09:30:15');
--> 2026-02-13 09:30:15
SELECT fuzzy_why(1, 'next fryday at 3 pm', '2026-02-11 09:30:15');
--> refused 2 (UNKNOWN) at byte 5: not understood
--> next fryday at 3 pm
-->      ^^^^^^
SELECT fuzzy_why(1, 'friday', '2026-02-11 09:30:15');
--> NULL
SELECT fuzzy_read(1, NULL, '2026-02-11 09:30:15');
--> NULL

-- 8: parts of a millisecond, infinity, before year 1, after year 9999
SELECT fuzzy_read(1, 'friday', '2026-02-11 09:30:15.2504');
--> ERROR:  FZ008: refused 8 (INVALID_MOMENT): the given moment is not a valid date and time
--> DETAIL:  It has parts of a millisecond, which are not rounded.
--> HINT:  date_trunc('milliseconds', ..) and localtimestamp(3) have whole milliseconds.
SELECT fuzzy_read(1, 'friday', date_trunc('milliseconds', timestamp '2026-02-11 09:30:15.2504'));
--> 2026-02-13 09:30:15.25
SELECT fuzzy_read(1, 'friday', localtimestamp(3)) > localtimestamp(3) - interval '1 day';
--> t
SELECT fuzzy_read(1, 'friday', 'infinity');
--> ERROR:  FZ008: refused 8 (INVALID_MOMENT): the given moment is not a valid date and time
SELECT fuzzy_read(1, 'friday', '-infinity');
--> ERROR:  FZ008: refused 8 (INVALID_MOMENT): the given moment is not a valid date and time
SELECT fuzzy_read(1, 'friday', '0001-12-31 23:59:59 BC');
--> ERROR:  FZ008: refused 8 (INVALID_MOMENT): the given moment is not a valid date and time
SELECT fuzzy_read(1, 'friday', '10000-01-01 00:00:00');
--> ERROR:  FZ008: refused 8 (INVALID_MOMENT): the given moment is not a valid date and time
SELECT fuzzy_try_read(1, 'friday', '2026-02-11 09:30:15.2504');
--> NULL
SELECT fuzzy_why(1, 'friday', '2026-02-11 09:30:15.2504');
--> refused 8 (INVALID_MOMENT): the given moment is not a valid date and time (it has parts of a millisecond)
SELECT fuzzy_why(1, 'fryday', 'infinity');
--> refused 2 (UNKNOWN) at byte 0: not understood
--> fryday
--> ^^^^^^
SELECT to_regprocedure('fuzzy_read(integer, text, timestamptz)') IS NULL;
--> t

SELECT length(fuzzy_make_ready(2, 'tuesday in two weeks')) % 16;
--> 0
SELECT fuzzy_run(fuzzy_make_ready(2, 'tuesday in two weeks'), '2026-02-11 09:30:15');
--> 2026-03-03 09:30:15
SELECT fuzzy_make_ready(1, 'forty days ago');
--> ERROR:  FZ002: refused 2 (UNKNOWN): not understood
--> DETAIL:  At byte 0, length 5:
--> forty days ago
--> ^^^^^
SELECT fuzzy_try_make_ready(1, 'forty days ago');
--> NULL
SELECT fuzzy_why(1, 'forty days ago');
--> refused 2 (UNKNOWN) at byte 0: not understood
--> forty days ago
--> ^^^^^
SELECT fuzzy_run('\x00112233', '2026-02-11 09:30:15');
--> ERROR:  FZ009: refused 9 (NO_SENSE): makes no sense
SELECT fuzzy_try_run('', '2026-02-11 09:30:15');
--> NULL
SELECT fuzzy_why('\x'::bytea, '2026-02-11 09:30:15'::timestamp);
--> refused 9 (NO_SENSE): makes no sense
SELECT fuzzy_run(fuzzy_make_ready(1, 'a year from now'), '2024-02-29 12:00:00');
--> ERROR:  FZ013: refused 13 (NO_LEAP_DAY): 29 February is not in that year

SELECT fuzzy_stamp('2026-02-11t09:30:15.5-05:00');
--> 2026-02-11T09:30:15.500-05:00
SELECT fuzzy_read_stamp('2026-02-11t09:30:15.5-05:00');
--> 2026-02-11 09:30:15.5
SELECT fuzzy_stamp('2026-02-11 09:30:15');
--> ERROR:  FZ014: refused 14 (NO_STAMP): not an RFC 3339 date and time
SELECT fuzzy_try_stamp('2026-02-11T09:30:15.0001Z'), fuzzy_try_read_stamp('noon'), fuzzy_why('noon');
--> NULL|NULL|refused 14 (NO_STAMP): not an RFC 3339 date and time
SELECT fuzzy_show('2026-03-04 09:05:00');
--> march 4 2026 at 9:05
SELECT fuzzy_show('2026-03-04 09:05:00.001');
--> ERROR:  FZ016: refused 16 (NOT_WHOLE): a phrase shows no seconds
SELECT fuzzy_try_show('2026-03-04 09:05:01');
--> NULL
SELECT fuzzy_refusal(0), fuzzy_refusal(2), fuzzy_refusal(27), fuzzy_refusal(-1);
--> done|not understood|a refusal of a newer library|a refusal of a newer library

SELECT fuzzy_next('FREQ=WEEKLY;INTERVAL=2;BYDAY=TU', '2026-02-10 09:30:00', '2027-02-10 09:30:00');
--> 2027-02-23 09:30:00
SELECT fuzzy_next('FREQ=DAILY;COUNT=2', '2026-02-10 09:30:00', '2026-02-12 09:30:00');
--> ERROR:  FZ020: refused 20 (NO_NEXT): no occurrence is left
SELECT fuzzy_try_next('FREQ=YEARLY', '2026-02-10 09:30:00', '2026-02-12 09:30:00');
--> NULL
SELECT fuzzy_why('FREQ=WEEKLY;BYDAY=MO', timestamp '2026-02-10 09:30:00');
--> refused 19 (NO_START): the start is not an occurrence of the rule
SELECT fuzzy_why('FREQ=DAILY;COUNT=2', timestamp '2026-02-10 09:30:00', timestamp '2026-02-12 09:30:00');
--> refused 20 (NO_NEXT): no occurrence is left
SELECT * FROM fuzzy_occurrences('FREQ=WEEKLY;INTERVAL=2;BYDAY=TU', '2026-02-10 09:30:00', 2);
--> 2026-02-10 09:30:00
--> 2026-02-24 09:30:00
SELECT count(*), min(m), max(m) FROM fuzzy_occurrences('FREQ=DAILY', '9990-01-01 12:00:00') m;
--> 3652|9990-01-01 12:00:00|9999-12-31 12:00:00
SELECT count(*), count(DISTINCT m) FROM fuzzy_occurrences('FREQ=DAILY;COUNT=513', '2026-02-10 09:30:00', 512) m;
--> 512|512
SELECT array_agg(m) = ARRAY(SELECT generate_series(timestamp '2026-02-10 09:30', '2039-10-19 09:30', '1 day')), count(*)
FROM fuzzy_occurrences('FREQ=DAILY', '2026-02-10 09:30', 5000) m;
--> t|5000
SELECT count(*) FROM fuzzy_occurrences('FREQ=DAILY;COUNT=513', '2026-02-10 09:30:00', 2147483647);
--> 513
SELECT count(*) FROM fuzzy_occurrences('FREQ=DAILY', '2026-02-10 09:30:00', 0);
--> 0
SELECT fuzzy_occurrences('FREQ=DAILY', '2026-02-10 09:30:00') LIMIT 1;
--> 2026-02-10 09:30:00
SELECT * FROM fuzzy_occurrences('FREQ=YEARLY', '2026-02-10 09:30:00', 3);
--> ERROR:  FZ018: refused 18 (NO_RULE): not a repeating rule that is accepted
SELECT name, m FROM (VALUES ('FREQ=DAILY'), ('FREQ=HOURLY')) r(name) LEFT JOIN fuzzy_try_occurrences(name, '2026-02-10', 1) m ON true;
--> FREQ=DAILY|2026-02-10 00:00:00
--> FREQ=HOURLY|NULL
SELECT * FROM fuzzy_occurrences('FREQ=DAILY', '2026-02-10 09:30:00', -1);
--> ERROR:  22023: most must be 0 or more, not -1

-- zone is the file of New York's clocks, which go forward on 8 March 2026
SELECT fuzzy_read_in_zone(1, 'tomorrow', zone, '2026-03-07 09:00:00-05') FROM zones;
--> 2026-03-08 13:00:00+00
SELECT fuzzy_read_in_zone(1, '1 day from now', zone, '2026-03-07 14:00:00.25Z') FROM zones;
--> 2026-03-08 14:00:00.25+00
SELECT fuzzy_run_in_zone(fuzzy_make_ready(1, 'tomorrow'), zone, '2026-03-07 14:00:00Z') FROM zones;
--> 2026-03-08 13:00:00+00
SELECT fuzzy_local(zone, '2026-03-08 06:59:59.999Z'), fuzzy_local(zone, '2026-03-08 07:00:00Z') FROM zones;
--> 2026-03-08 01:59:59.999|2026-03-08 03:00:00
SELECT fuzzy_read_in_zone(1, 'today 2:00', zone, '2026-03-08 06:30:00Z') FROM zones;
--> ERROR:  FZ023: refused 23 (NO_INSTANT): the zone's clocks skip that time
SELECT fuzzy_try_read_in_zone(1, 'today 2:00', zone, '2026-03-08 06:30:00Z') FROM zones;
--> NULL
SELECT fuzzy_run_in_zone(fuzzy_make_ready(1, 'now'), zone, '2027-03-14 07:00:00Z') FROM zones;
--> ERROR:  FZ022: refused 22 (PAST_LAST): later than the zone's file knows
SELECT fuzzy_why(1, 'now', '\x00'::bytea, '2026-03-08 06:30:00Z');
--> refused 21 (NO_ZONE): not a zone file that is accepted
SELECT fuzzy_why(fuzzy_make_ready(1, 'now'), zone, 'infinity'::timestamptz) FROM zones;
--> refused 8 (INVALID_MOMENT): the given moment is not a valid date and time
SELECT fuzzy_read_in_zone(1, 'now', zone, '2026-03-07 14:00:00.0005Z') FROM zones;
--> ERROR:  FZ008: refused 8 (INVALID_MOMENT): the given moment is not a valid date and time
--> DETAIL:  It has parts of a millisecond, which are not rounded.
--> HINT:  date_trunc('milliseconds', ..) and localtimestamp(3) have whole milliseconds.
SELECT fuzzy_read_in_zone(1, 'now', zone, '0044-03-15 12:00:00Z BC') FROM zones;
--> ERROR:  FZ008: refused 8 (INVALID_MOMENT): the given moment is not a valid date and time
SELECT fuzzy_read_in_zone(1, 'now', zone, '10000-01-01 00:00:00Z') FROM zones;
--> ERROR:  FZ022: refused 22 (PAST_LAST): later than the zone's file knows
SELECT fuzzy_try_local(zone, '1969-07-20 20:17:40.1234Z'), fuzzy_try_run_in_zone('\x00', zone, '2026-03-07 14:00:00Z') FROM zones;
--> NULL|NULL
SET TimeZone = 'Asia/Kolkata';
SELECT fuzzy_read_in_zone(1, 'tomorrow', zone, '2026-03-07 14:00:00Z') = '2026-03-08 13:00:00Z' FROM zones;
--> t
SELECT fuzzy_local(zone, '2026-03-08 07:00:00Z') FROM zones;
--> 2026-03-08 03:00:00

-- a generated column, an index, and a filter that uses it
CREATE TABLE reminder (
    id integer PRIMARY KEY,
    phrase text NOT NULL,
    now timestamp NOT NULL,
    ready bytea GENERATED ALWAYS AS (fuzzy_make_ready(2, phrase)) STORED,
    due timestamp GENERATED ALWAYS AS (fuzzy_read(2, phrase, now)) STORED
);
INSERT INTO reminder VALUES (1, 'next friday', '2026-02-11 09:30:15'), (2, 'tomorrow at noon', '2026-02-11 09:30:15'),
    (3, 'tuesday in two weeks', '2026-02-11 09:30:15');
INSERT INTO reminder VALUES (4, 'fryday', '2026-02-11 09:30:15');
--> ERROR:  FZ002: refused 2 (UNKNOWN): not understood
--> DETAIL:  At byte 0, length 6:
--> fryday
--> ^^^^^^
SELECT id, due FROM reminder ORDER BY due;
--> 2|2026-02-12 12:00:00
--> 1|2026-02-20 09:30:15
--> 3|2026-03-03 09:30:15
CREATE INDEX reminder_monday ON reminder (fuzzy_run(ready, '2026-02-16 00:00:00'));
SET enable_seqscan = off;
SELECT id FROM reminder WHERE fuzzy_run(ready, '2026-02-16 00:00:00') < fuzzy_read(2, 'next friday', '2026-02-16 00:00:00');
--> 2
EXPLAIN (COSTS off) SELECT id FROM reminder WHERE fuzzy_run(ready, '2026-02-16 00:00:00') = '2026-02-17 12:00:00' \g |head -n 1
--> Index Scan using reminder_monday on reminder

-- all are immutable, strict and safe in parallel
SELECT count(*), bool_and(provolatile = 'i' AND proisstrict AND proparallel = 's') FROM pg_proc WHERE proname LIKE 'fuzzy\_%';
--> 32|t

-- what uses it goes with it
SET client_min_messages = warning;
DROP EXTENSION fuzzydate CASCADE;
SELECT * FROM reminder WHERE id = 1;
--> 1|next friday|2026-02-11 09:30:15
