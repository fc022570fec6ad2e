"""Tests SQLite's extension from Python's sqlite3, beside the Python binding: every.py EXTENSION ROWS, where ROWS is a file of rows.c."""

import concurrent.futures
import datetime
import itertools
import pathlib
import random
import re
import sqlite3
import struct
import subprocess
import sys

import fuzzydate

HERE = pathlib.Path(__file__).resolve().parent
ROOT = HERE.parents[2]
EXTENSION, ROWS = sys.argv[1:]
ROWS_COMPARED = 100_000
THREADS = 4


def opened(name=":memory:"):
    """A connection with the extension, as an app opens it."""
    connection = sqlite3.connect(name)
    connection.enable_load_extension(True)
    connection.load_extension(EXTENSION)
    connection.enable_load_extension(False)
    return connection


def queries(text):
    """The queries of a file, one after the other."""
    lines = []
    for line in text.splitlines():
        if not line.startswith("--"):
            lines.append(line)
        if sqlite3.complete_statement("\n".join(lines)):
            yield "\n".join(lines)
            lines = []


def shown(row):
    return "|".join("NULL" if value is None else str(value) for value in row)


def test_every_query():
    """What the shell gives, by Python."""
    connection = opened()
    connection.execute("CREATE TABLE zones(zone BLOB)")
    connection.execute("INSERT INTO zones VALUES (?)", [(ROOT / "bindings/zones/New_York").read_bytes()])
    given = [shown(row) for query in queries((HERE / "every.sql").read_text()) for row in connection.execute(query)]
    expected = subprocess.run([HERE / "given", HERE / "every.sql"], capture_output=True, check=True, text=True).stdout
    assert "\n".join(given) + "\n" == expected
    return f"{expected.count(chr(10))} lines"


def test_names():
    """The version, and the names of the refusals, are the library's."""
    assert opened().execute("SELECT fuzzy_version()").fetchone()[0] == (ROOT / "VERSION").read_text().strip()
    header = re.findall(r"^    FUZZY_([A-Z_]+) = \d+,? +/\*", (ROOT / "include/fuzzy.h").read_text(), re.M)
    assert re.findall(r'\[FUZZY_([A-Z_]+)\] = "\1"', (HERE.parent / "refused.h").read_text()) == header
    return f"{len(header)} refusals"


WRONG = {
    "fuzzy_read('1', 'friday', '2026-02-11 09:30:15')": "fuzzy_read: reading must be INTEGER, not TEXT",
    "fuzzy_read(1.0, 'friday', '2026-02-11 09:30:15')": "fuzzy_read: reading must be INTEGER, not REAL",
    "fuzzy_read(1, x'00', '2026-02-11 09:30:15')": "fuzzy_read: phrase must be TEXT, not BLOB",
    "fuzzy_read(1, 'friday', 1770802215)": "fuzzy_read: now must be TEXT, not INTEGER",
    "fuzzy_read(1, 'friday', julianday('2026-02-11'))": "fuzzy_read: now must be TEXT, not REAL",
    "fuzzy_make_ready(1, 5)": "fuzzy_make_ready: phrase must be TEXT, not INTEGER",
    "fuzzy_run('friday', '2026-02-11 09:30:15')": "fuzzy_run: ready must be BLOB, not TEXT",
    "fuzzy_next(1, '2026-02-11 09:30:15', '2026-02-11 09:30:15')": "fuzzy_next: rule must be TEXT, not INTEGER",
    "fuzzy_local('UTC', '2026-02-11 09:30:15')": "fuzzy_local: zone must be BLOB, not TEXT",
    "fuzzy_read_in_zone(1, 'now', x'00', 0)": "fuzzy_read_in_zone: instant must be TEXT, not INTEGER",
    "fuzzy_refusal('2')": "fuzzy_refusal: number must be INTEGER, not TEXT",
    "fuzzy_why()": "fuzzy_why: takes the arguments of the call that gave NULL",
    "fuzzy_why(1.5, 'friday')": "fuzzy_why: takes the arguments of the call that gave NULL",
    "fuzzy_why(1, 'friday', 5)": "fuzzy_read: now must be TEXT, not INTEGER",
    "fuzzy_read(1, 'friday')": "wrong number of arguments to function fuzzy_read()",
    "moment FROM fuzzy_occurrences": "fuzzy_occurrences: takes a rule, a start and, where not all are wanted, how many at most",
    "moment FROM fuzzy_occurrences(5, '2026-02-10 09:30:00')": "fuzzy_occurrences: rule must be TEXT, not INTEGER",
    "moment FROM fuzzy_occurrences('FREQ=DAILY', 5)": "fuzzy_occurrences: start must be TEXT, not INTEGER",
    "moment FROM fuzzy_occurrences('FREQ=DAILY', '2026-02-10 09:30:00', 'x')": "fuzzy_occurrences: most must be INTEGER, not TEXT",
    "moment FROM fuzzy_occurrences('FREQ=DAILY', '2026-02-10 09:30:00', -1)": "fuzzy_occurrences: most must be 0 or more, not -1",
}


def error_of(connection, query):
    try:
        connection.execute(query).fetchall()
    except sqlite3.OperationalError as error:
        return str(error)
    return None


def test_wrong_types():
    """What is not a refusal but a mistake of the query is an error that says so."""
    connection = opened()
    for query, error in WRONG.items():
        assert error_of(connection, f"SELECT {query}") == error, (query, error_of(connection, f"SELECT {query}"))
    return f"{len(WRONG)} errors"


def test_places():
    """An answer stands in generated columns, indexes and checks, in a schema that is not trusted too, and the index is used."""
    connection = opened()
    connection.executescript("""
        PRAGMA trusted_schema = OFF;
        CREATE TABLE reminder(
            phrase TEXT NOT NULL CHECK (fuzzy_make_ready(2, phrase) IS NOT NULL),
            now TEXT NOT NULL,
            ready BLOB GENERATED ALWAYS AS (fuzzy_make_ready(2, phrase)) STORED,
            due TEXT GENERATED ALWAYS AS (fuzzy_read(2, phrase, now)) VIRTUAL);
        CREATE INDEX reminder_due ON reminder(due);
        CREATE INDEX reminder_monday ON reminder(fuzzy_run(ready, '2026-02-16 00:00:00'));
        CREATE VIEW february AS SELECT phrase FROM reminder WHERE due < '2026-03-01' ORDER BY due;
        CREATE VIEW tuesdays AS SELECT moment FROM fuzzy_occurrences('FREQ=WEEKLY', '2026-02-10 09:30:00', 3);
        INSERT INTO reminder(phrase, now) VALUES ('next friday', '2026-02-11 09:30:15'), ('tomorrow at noon', '2026-02-11 09:30:15'),
            ('tuesday in two weeks', '2026-02-11 09:30:15');
    """)
    assert [row[0] for row in connection.execute("SELECT phrase FROM february")] == ["tomorrow at noon", "next friday"]
    assert connection.execute("SELECT count(*) FROM tuesdays").fetchone() == (3,)
    monday = "FROM reminder WHERE fuzzy_run(ready, '2026-02-16 00:00:00') = '2026-02-17 12:00:00'"
    assert connection.execute(f"SELECT phrase {monday}").fetchall() == [("tomorrow at noon",)]
    plan = connection.execute(f"EXPLAIN QUERY PLAN SELECT phrase {monday}").fetchall()
    assert "USING INDEX reminder_monday" in plan[0][3], plan
    try:
        connection.execute("INSERT INTO reminder(phrase, now) VALUES ('fryday', '2026-02-11 09:30:15')")
        assert False, "a phrase that is refused passed the check"
    except sqlite3.IntegrityError:
        pass
    return "index, generated columns, check, views"


def test_wide_text():
    """A database whose texts are UTF-16 gives the same."""
    connection = opened()
    connection.execute("PRAGMA encoding = 'UTF-16le'")
    connection.executescript("""
        CREATE TABLE reminder(phrase TEXT, now TEXT);
        INSERT INTO reminder VALUES ('next friday at 3 pm', '2026-02-11 09:30:15'), ('x é', '2026-02-11 09:30:15');
        CREATE TABLE rule(rule TEXT, start TEXT);
        INSERT INTO rule VALUES ('FREQ=DAILY', '2026-02-10 09:30:00');
    """)
    rows = connection.execute("SELECT fuzzy_read(1, phrase, now), substr(fuzzy_why(1, phrase, now), -5) FROM reminder").fetchall()
    assert rows == [("2026-02-20 15:00:00", None), (None, "x é\n^")], rows
    moments = connection.execute("SELECT moment, o.rule FROM rule r, fuzzy_occurrences(r.rule, r.start, 2) o").fetchall()
    assert moments == [("2026-02-10 09:30:00", "FREQ=DAILY"), ("2026-02-11 09:30:00", "FREQ=DAILY")], moments
    return "UTF-16"


def moment_text(moment):
    """A datetime as SQLite writes it."""
    fraction = f".{moment.microsecond // 1000:03}" if moment.microsecond else ""
    return f"{moment.year:04}-{moment:%m-%d %H:%M:%S}{fraction}"


def answer_of(call, *arguments):
    """What the Python binding says: what the call gives, or NULL with the number and the place of the refusal."""
    try:
        return call(*arguments), None
    except fuzzydate.Refusal as refusal:
        return None, (refusal.number, refusal.place if refusal.part else 0)


def refused(why):
    """The number and the place in the text of fuzzy_why."""
    if why is None:
        return None
    number, place = re.match(r"refused (\d+) \(\w+\)(?: at byte (\d+))?: ", why).groups()
    return int(number), int(place or 0)


def compare(connection, rows):
    """How many rows of a reading, a phrase as bytes and a now have a moment; SQLite and the Python binding must say the same of each."""
    moments = 0
    query = """SELECT fuzzy_read(r, p, n), fuzzy_make_ready(r, p), fuzzy_run(fuzzy_make_ready(r, p), n), fuzzy_why(r, p, n)
        FROM (SELECT ? AS r, CAST(? AS TEXT) AS p, ? AS n)"""
    for reading, phrase, now in rows:
        read, ready, run, why = connection.execute(query, (reading, phrase, moment_text(now))).fetchone()
        moment, refusal = answer_of(fuzzydate.read, reading, phrase, now)
        assert (read, refused(why)) == (moment and moment_text(moment), refusal), (reading, phrase, now, read, why, moment, refusal)
        assert ready == answer_of(fuzzydate.make_ready, reading, phrase)[0], (reading, phrase)
        assert run == read, (reading, phrase, now)
        moments += read is not None
    return moments


def row_of(line):
    _, reading, now, phrase = line.rstrip("\n").split("\t")
    return int(reading), phrase.encode(), datetime.datetime.fromisoformat(now)


def test_rows_beside_python():
    """100,000 rows, each as the Python binding has it."""
    with open(ROWS, encoding="ascii") as lines:
        moments = compare(opened(), map(row_of, itertools.islice(lines, ROWS_COMPARED)))
    return f"{ROWS_COMPARED} rows, {moments} moments, no difference"


def test_any_bytes():
    """Phrases of any bytes, a zero byte among them, at the first and the last now."""
    generator = random.Random(50)
    parts = [b"friday", b"next ", b" ", b"5 ", b"pm", b"march ", b"\x00", b"\xff", "é".encode(), b"\xc3", b"\xed\xa0\x80", b"\n"]
    nows = [datetime.datetime.min, datetime.datetime(9999, 12, 31, 23, 59, 59, 999000)]
    phrases = [b"".join(generator.choices(parts, k=generator.randrange(5))) for _ in range(5000)]
    rows = [(generator.choice([1, 2]), phrase, generator.choice(nows)) for phrase in phrases]
    return f"{len(rows)} phrases, {compare(opened(), rows)} moments, no difference"


def zone_of(offset):
    """A zone's file with one offset, known up to the last second of 9998."""
    last = int(datetime.datetime(9998, 12, 31, 23, 59, 59, tzinfo=datetime.timezone.utc).timestamp())
    header = b"TZif2" + bytes(15)
    empty = header + struct.pack(">6L", 0, 0, 0, 0, 1, 1) + struct.pack(">lBB", 0, 0, 0) + b"\0"
    return empty + header + struct.pack(">6L", 0, 0, 0, 1, 1, 4) + struct.pack(">qBlBB", last, 0, offset, 0, 0) + b"ZON\0\n\n"


def test_instants():
    """Instants as texts, by Python's own calendar: each of them is "now" at itself, and the clocks show it with the zone's offset."""
    connection, generator = opened(), random.Random(51)
    query = """SELECT fuzzy_read_in_zone(1, 'now', zone, utc), fuzzy_read_in_zone(1, 'now', zone, stamp), fuzzy_local(zone, utc)
        FROM (SELECT ? AS zone, ? AS utc, ? AS stamp)"""
    first, days = datetime.datetime(1, 1, 2), (datetime.datetime(9998, 12, 30) - datetime.datetime(1, 1, 2)).days
    for _ in range(20_000):
        instant = first + datetime.timedelta(days=generator.randrange(days), milliseconds=generator.randrange(86_400_000))
        offset = generator.randrange(-86_399, 86_400)
        text, minutes = moment_text(instant), abs(offset) // 60
        clocks = moment_text(instant + datetime.timedelta(seconds=offset))
        west = datetime.timedelta(minutes=minutes if offset < 0 else -minutes)
        stamp = f"{moment_text(instant - west).replace(' ', 'T')}{'-' if offset < 0 else '+'}{minutes // 60:02}:{minutes % 60:02}"
        row = connection.execute(query, (zone_of(offset), text, stamp)).fetchone()
        assert row == (text, text, clocks), (row, text, stamp, clocks)
    east = "1, '23 hours ago', ?, '0001-01-01 22:30:00'"
    assert connection.execute(f"SELECT fuzzy_read_in_zone({east}), fuzzy_why({east})", [zone_of(3600)] * 2).fetchone() == (
        None,
        "refused 12 (OUTSIDE): outside the years 1 to 9999",
    )
    return "20000 instants"


def test_occurrences():
    """Rows of the table beside the Python binding, around the sizes at which its room grows."""
    connection, start = opened(), datetime.datetime(2026, 2, 10, 9, 30)
    for most in (0, 1, 2, 63, 64, 65, 511, 512, 513, 4096, 4097):
        for rule in ("FREQ=DAILY", "FREQ=WEEKLY;BYDAY=TU,FR;COUNT=512", "FREQ=MONTHLY;UNTIL=20300101"):
            rows = connection.execute("SELECT moment FROM fuzzy_occurrences(?, ?, ?)", (rule, moment_text(start), most)).fetchall()
            assert [row[0] for row in rows] == [moment_text(moment) for moment in fuzzydate.occurrences(rule, start, most)], (rule, most)
    return "33 lists, no difference"


def sums(name):
    """What one thread comes to over the rows, with a connection of its own."""
    query = """WITH answers(moment, ready, why) AS (
        SELECT fuzzy_read(reading, phrase, now), fuzzy_make_ready(reading, phrase), fuzzy_why(reading, phrase, now) FROM rows)
        SELECT count(moment), sum(unixepoch(moment)), sum(length(ready)), count(why), sum(length(why)) FROM answers"""
    return opened(name).execute(query).fetchone()


def test_threads():
    """Four threads at the same time come to what one comes to alone."""
    name = str(pathlib.Path(ROWS).with_name("threads.db"))
    pathlib.Path(name).unlink(missing_ok=True)
    with sqlite3.connect(name) as connection, open(ROWS, encoding="ascii") as lines:
        connection.execute("CREATE TABLE rows(id INTEGER PRIMARY KEY, reading INTEGER, now TEXT, phrase TEXT)")
        rows = (line.rstrip("\n").split("\t") for line in itertools.islice(lines, ROWS_COMPARED))
        connection.executemany("INSERT INTO rows VALUES (?, ?, ?, ?)", rows)
    alone = sums(name)
    with concurrent.futures.ThreadPoolExecutor(THREADS) as threads:
        together = list(threads.map(sums, [name] * 2 * THREADS))
    assert together == [alone] * 2 * THREADS, (alone, together)
    return f"{2 * THREADS} times {ROWS_COMPARED} rows in {THREADS} threads, no difference"


for name, test in list(globals().items()):
    if name.startswith("test_"):
        print(f"bindings/sqlite: {name[5:].replace('_', ' ')}: {test()}", flush=True)
