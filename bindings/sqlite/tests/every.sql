-- Every function of the extension. What a query gives stands below it after "--> ", a line for each, and NULL as NULL.
SELECT fuzzy_version();
--> 1.0.0

SELECT fuzzy_read(1, 'next friday at 3 pm', '2026-02-11 09:30:15');
--> 2026-02-20 15:00:00
SELECT fuzzy_read(1, 'friday', '2026-02-11 09:30:15');
--> 2026-02-13 09:30:15
SELECT fuzzy_read(1, 'friday', '2026-02-11T09:30:15.250');
--> 2026-02-13 09:30:15.250
SELECT fuzzy_read(1, 'friday', '2026-02-11 09:30:15.000');
--> 2026-02-13 09:30:15
SELECT fuzzy_read(1, 'tuesday in two weeks', '2026-02-11 09:30:15');
--> 2026-01-27 09:30:15
SELECT fuzzy_read(2, 'tuesday in two weeks', '2026-02-11 09:30:15');
--> 2026-03-03 09:30:15
SELECT fuzzy_read(2, 'march 3 5 pm', '2026-02-11 09:30:15');
--> 2026-03-03 17:00:00
SELECT fuzzy_read(1, 'march 3 5 pm', '2026-02-11 09:30:15');
--> NULL
SELECT fuzzy_read(1, '0 days ago', '0001-01-01 00:00:00');
--> 0001-01-01 00:00:00
SELECT fuzzy_read(1, 'a day from now', '9999-12-31 23:59:59.999');
--> NULL
SELECT fuzzy_read(1, '', '2026-02-11 09:30:15');
--> NULL
SELECT fuzzy_read(3, 'friday', '2026-02-11 09:30:15');
--> NULL
SELECT fuzzy_read(4294967297, 'friday', '2026-02-11 09:30:15');
--> NULL
SELECT fuzzy_read(-1, 'friday', '2026-02-11 09:30:15');
--> NULL

-- NULL in, NULL out
SELECT fuzzy_read(NULL, 'friday', '2026-02-11 09:30:15');
--> NULL
SELECT fuzzy_read(1, NULL, '2026-02-11 09:30:15');
--> NULL
SELECT fuzzy_read(1, 'friday', NULL);
--> NULL
SELECT fuzzy_why(1, NULL, '2026-02-11 09:30:15');
--> NULL
SELECT fuzzy_make_ready(1, NULL);
--> NULL
SELECT fuzzy_refusal(NULL);
--> NULL
SELECT count(*) FROM fuzzy_occurrences(NULL, '2026-02-10 09:30:00', 3);
--> 0
SELECT count(*) FROM fuzzy_occurrences('FREQ=DAILY', '2026-02-10 09:30:00', NULL);
--> 0

-- a moment in any other form is refused with 8, and never rounded
SELECT fuzzy_read(1, 'friday', '2026-02-11 09:30:15.2504');
--> NULL
SELECT fuzzy_read(1, 'friday', '2026-02-11 09:30:15.25');
--> NULL
SELECT fuzzy_read(1, 'friday', '2026-02-11 09:30');
--> NULL
SELECT fuzzy_read(1, 'friday', '2026-02-11');
--> NULL
SELECT fuzzy_read(1, 'friday', '2026-02-11 09:30:15Z');
--> NULL
SELECT fuzzy_read(1, 'friday', '2026-02-11t09:30:15');
--> NULL
SELECT fuzzy_read(1, 'friday', ' 2026-02-11 09:30:15');
--> NULL
SELECT fuzzy_read(1, 'friday', '2026-02-29 09:30:15');
--> NULL
SELECT fuzzy_read(1, 'friday', '2026-02-11 24:00:00');
--> NULL
SELECT fuzzy_read(1, 'friday', '0000-02-11 09:30:15');
--> NULL
SELECT fuzzy_read(1, 'friday', '');
--> NULL
SELECT fuzzy_why(1, 'friday', '2026-02-29 09:30:15');
--> refused 8 (INVALID_MOMENT): the given moment is not a valid date and time
SELECT fuzzy_why(1, 'friday', '2026-02-11 09:30:15.2504');
--> refused 8 (INVALID_MOMENT): the given moment is not a valid date and time (write it as 2026-02-20 15:00:00 or 2026-02-20 15:00:00.250)
SELECT fuzzy_why(1, 'fryday', 'noon');
--> refused 2 (UNKNOWN) at byte 0: not understood
--> fryday
--> ^^^^^^

SELECT length(fuzzy_make_ready(2, 'tuesday in two weeks')) % 16;
--> 0
SELECT fuzzy_run(fuzzy_make_ready(2, 'tuesday in two weeks'), '2026-02-11 09:30:15');
--> 2026-03-03 09:30:15
SELECT fuzzy_run(fuzzy_make_ready(1, 'tuesday in two weeks'), '2026-02-11 09:30:15');
--> 2026-01-27 09:30:15
SELECT fuzzy_make_ready(1, 'forty days ago');
--> NULL
SELECT fuzzy_run(x'', '2026-02-11 09:30:15');
--> NULL
SELECT fuzzy_run(x'00112233', '2026-02-11 09:30:15');
--> NULL
SELECT fuzzy_run(fuzzy_make_ready(1, 'a year from now'), '2024-02-29 12:00:00');
--> NULL

-- fuzzy_why takes the arguments of the call that gave NULL
SELECT fuzzy_why(1, 'next friday at 3 pm', '2026-02-11 09:30:15');
--> NULL
SELECT fuzzy_why(1, 'forty days ago', '2026-02-11 09:30:15');
--> refused 2 (UNKNOWN) at byte 0: not understood
--> forty days ago
--> ^^^^^
SELECT fuzzy_why(1, 'march 3 5 pm', '2026-02-11 09:30:15');
--> refused 7 (LEFT_OVER) at byte 10: not part of the date or time
--> march 3 5 pm
-->           ^^
SELECT fuzzy_why(1, 'today caf' || char(233), '2026-02-11 09:30:15');
--> refused 2 (UNKNOWN) at byte 6: not understood
--> today café
-->       ^^^
SELECT fuzzy_why(1, cast(x'746f646179ff09' AS TEXT), '2026-02-11 09:30:15');
--> refused 2 (UNKNOWN) at byte 5: not understood
--> today\xFF\x09
-->      ^^^^
SELECT fuzzy_why(1, 'this month', '2026-02-11 09:30:15');
--> refused 9 (NO_SENSE): makes no sense
SELECT fuzzy_why(3, 'friday', '2026-02-11 09:30:15');
--> refused 15 (NO_READING): no such reading
SELECT fuzzy_why(1, '');
--> refused 5 (NOTHING): no date or time in it
SELECT fuzzy_why(x'', '2026-02-11 09:30:15');
--> refused 9 (NO_SENSE): makes no sense
SELECT fuzzy_why(fuzzy_make_ready(1, 'a year from now'), '2024-02-29 12:00:00');
--> refused 13 (NO_LEAP_DAY): 29 February is not in that year
SELECT fuzzy_why('FREQ=YEARLY', '2026-02-10 09:30:00');
--> refused 18 (NO_RULE): not a repeating rule that is accepted
SELECT fuzzy_why('FREQ=DAILY;COUNT=2', '2026-02-10 09:30:00', '2026-02-12 09:30:00');
--> refused 20 (NO_NEXT): no occurrence is left
SELECT fuzzy_why('yesterday');
--> refused 14 (NO_STAMP): not an RFC 3339 date and time
SELECT fuzzy_refusal(0);
--> done
SELECT fuzzy_refusal(2);
--> not understood
SELECT fuzzy_refusal(26);
--> no reminder has a moment
SELECT fuzzy_refusal(27);
--> a refusal of a newer library
SELECT fuzzy_refusal(-1);
--> a refusal of a newer library

SELECT fuzzy_stamp('2026-02-11t09:30:15.5-05:00');
--> 2026-02-11T09:30:15.500-05:00
SELECT fuzzy_stamp('2026-02-11T09:30:15+00:00');
--> 2026-02-11T09:30:15Z
SELECT fuzzy_stamp('2026-02-11T09:30:15.0001Z');
--> NULL
SELECT fuzzy_stamp('2026-02-11 09:30:15');
--> NULL
SELECT fuzzy_read_stamp('2026-02-11t09:30:15.5-05:00');
--> 2026-02-11 09:30:15.500
SELECT fuzzy_show('2026-03-04 09:05:00');
--> march 4 2026 at 9:05
SELECT fuzzy_read(2, fuzzy_show('2026-03-04 09:05:00'), '2001-01-01 00:00:00');
--> 2026-03-04 09:05:00
SELECT fuzzy_show('2026-03-04 09:05:01');
--> NULL
SELECT fuzzy_show('2026-03-04 09:05:00.001');
--> NULL

SELECT fuzzy_next('FREQ=WEEKLY;INTERVAL=2;BYDAY=TU', '2026-02-10 09:30:00', '2027-02-10 09:30:00');
--> 2027-02-23 09:30:00
SELECT fuzzy_next('FREQ=DAILY;COUNT=2', '2026-02-10 09:30:00', '2026-02-12 09:30:00');
--> NULL
SELECT moment FROM fuzzy_occurrences('FREQ=WEEKLY;INTERVAL=2;BYDAY=TU', '2026-02-10 09:30:00', 2);
--> 2026-02-10 09:30:00
--> 2026-02-24 09:30:00
SELECT rowid, moment, rule, start, most FROM fuzzy_occurrences('FREQ=DAILY', '2026-02-10 09:30:00', 1);
--> 1|2026-02-10 09:30:00|FREQ=DAILY|2026-02-10 09:30:00|1
SELECT count(*) FROM fuzzy_occurrences('FREQ=DAILY', '2000-01-01 12:00:00.5');
--> 0
SELECT count(*), min(moment), max(moment) FROM fuzzy_occurrences('FREQ=DAILY', '9990-01-01 12:00:00');
--> 3652|9990-01-01 12:00:00|9999-12-31 12:00:00
SELECT count(*) FROM fuzzy_occurrences('FREQ=DAILY;COUNT=513', '2026-02-10 09:30:00', 512);
--> 512
SELECT count(*) FROM fuzzy_occurrences('FREQ=DAILY;COUNT=513', '2026-02-10 09:30:00', 9223372036854775807);
--> 513
SELECT count(*) FROM fuzzy_occurrences('FREQ=DAILY', '2026-02-10 09:30:00', 0);
--> 0
SELECT count(*) FROM fuzzy_occurrences('FREQ=YEARLY', '2026-02-10 09:30:00', 3);
--> 0
SELECT moment FROM fuzzy_occurrences('FREQ=DAILY', '2026-02-10 09:30:00') ORDER BY moment LIMIT 2;
--> 2026-02-10 09:30:00
--> 2026-02-11 09:30:00
SELECT moment FROM fuzzy_occurrences('FREQ=DAILY', '2026-02-10 09:30:00', 3) ORDER BY moment DESC LIMIT 1;
--> 2026-02-12 09:30:00
SELECT moment FROM fuzzy_occurrences WHERE start = '2026-02-10 09:30:00' AND rule = 'FREQ=DAILY' AND moment > '2026-03-01' LIMIT 1;
--> 2026-03-01 09:30:00
WITH rules(name) AS (VALUES ('FREQ=DAILY'), ('FREQ=HOURLY'))
SELECT name, moment FROM rules LEFT JOIN fuzzy_occurrences(name, '2026-02-10 09:30:00', 1);
--> FREQ=DAILY|2026-02-10 09:30:00
--> FREQ=HOURLY|NULL

-- zone is the file of New York's clocks, which go forward on 8 March 2026; an instant is a stamp, or a moment in UTC
SELECT fuzzy_read_in_zone(1, 'tomorrow', zone, '2026-03-07T09:00:00-05:00') FROM zones;
--> 2026-03-08 13:00:00
SELECT fuzzy_read_in_zone(1, '1 day from now', zone, '2026-03-07 14:00:00') FROM zones;
--> 2026-03-08 14:00:00
SELECT fuzzy_read_in_zone(1, 'an hour from now', zone, '2026-03-08T06:30:00.250Z') FROM zones;
--> 2026-03-08 07:30:00.250
SELECT fuzzy_run_in_zone(fuzzy_make_ready(1, 'tomorrow'), zone, '2026-03-07T14:00:00Z') FROM zones;
--> 2026-03-08 13:00:00
SELECT fuzzy_local(zone, '2026-03-08 13:00:00') FROM zones;
--> 2026-03-08 09:00:00
SELECT fuzzy_local(zone, '2026-03-08T06:59:59.999Z') FROM zones;
--> 2026-03-08 01:59:59.999
SELECT fuzzy_read_in_zone(1, 'today 2:00', zone, '2026-03-08 06:30:00') FROM zones;
--> NULL
SELECT fuzzy_why(1, 'today 2:00', zone, '2026-03-08 06:30:00') FROM zones;
--> refused 23 (NO_INSTANT): the zone's clocks skip that time
SELECT fuzzy_why(fuzzy_make_ready(1, 'now'), zone, '2027-03-14 07:00:00') FROM zones;
--> refused 22 (PAST_LAST): later than the zone's file knows
SELECT fuzzy_why(1, 'now', x'00', '2026-03-08 06:30:00');
--> refused 21 (NO_ZONE): not a zone file that is accepted
SELECT substr(fuzzy_why(1, 'now', zone, 'noon'), 1, 27) FROM zones;
--> refused 8 (INVALID_MOMENT):
SELECT fuzzy_read_in_zone(1, 'now', zone, '2026-03-07 14:00:00.2504') FROM zones;
--> NULL
SELECT fuzzy_local(zone, '2026-03-07 25:00:00') FROM zones;
--> NULL
SELECT fuzzy_run_in_zone(NULL, zone, '2026-03-07 14:00:00') FROM zones;
--> NULL
