-- The sums of rows.c, by SQLite. The rows are in the table rows(id, reading, now, phrase).
WITH moments AS (SELECT fuzzy_read(reading, phrase, now) AS m FROM rows)
SELECT count(*), count(m), sum(unixepoch(m)), sum(CAST(substr(m, 21) AS INTEGER)) FROM moments;
