"""The sides of the notebook: a phone is an SQLite file; the hub is a PostgreSQL database or an SQLite file too.

Both take the same queries, with values as :names, and give every value as text. What is changed together is one transaction: a side
whose program is killed has all of it or nothing.
"""

import csv
import hashlib
import io
import pathlib
import re
import sqlite3
import subprocess
import sys

HERE = pathlib.Path(__file__).resolve().parent
NULL = "\\N"
SAID = "-- said --"

# What travels of a reminder, and beside it the side's day and whether it lacks the zone's file.
COLUMNS = ("id", "title", "phrase", "reading", "authored", "zone", "standing", "edit", "writer")
TRAVELS = f"""
SELECT {", ".join(COLUMNS)}, day, zone IS NOT NULL AND zone NOT IN (SELECT digest FROM zone) AS lacks
FROM reminder, side ORDER BY id
"""

# The last edit wins, and of two with the same number the one whose writer comes later in the alphabet, on every side alike.
MERGE = f"""
INSERT INTO reminder ({", ".join(COLUMNS)}) VALUES ({", ".join(":" + column for column in COLUMNS)})
ON CONFLICT (id) DO UPDATE SET {", ".join(f"{column} = excluded.{column}" for column in COLUMNS[1:])}
WHERE (excluded.edit, excluded.writer) > (reminder.edit, reminder.writer)
"""
SEE = "INSERT INTO seen VALUES (:id, :edit, :writer, fuzzy_read_stamp(:stamp)) ON CONFLICT DO NOTHING"
TELL_TIME = "UPDATE side SET clock = fuzzy_read_stamp(:stamp) WHERE clock IS NULL OR clock < fuzzy_read_stamp(:stamp)"
KEEP_ZONE = "INSERT INTO zone VALUES (:digest, :file) ON CONFLICT DO NOTHING"


def literal(value):
    """A value as SQL has it."""
    if value is None:
        return "NULL"
    if isinstance(value, int):
        return str(value)
    if isinstance(value, bytes):
        return f"'\\x{value.hex()}'"
    return "'" + value.replace("'", "''") + "'"


def filled(query, values):
    """A query with its values in it."""
    return re.sub(r"(?<!:):([a-z]+)", lambda name: literal(values[name[1]]), query)


class Side:
    """What a phone and the hub have in common; rows(), change() and close() are each side's own."""

    def __init__(self, name):
        self.name = name

    def value(self, query, **values):
        """The one value of a query; None where there is no row."""
        found = self.rows(query, **values)
        return found[0][0] if found else None

    def reminders(self):
        """All reminders, as they travel."""
        return [dict(zip((*COLUMNS, "day", "lacks"), row)) for row in self.rows(TRAVELS)]

    def receive(self, reminders, stamp, *more):
        """Merges reminders that come when the side's own clock shows a stamp, and makes other changes with them."""
        merged = [(query, reminder | {"stamp": stamp}) for reminder in reminders for query in (MERGE, SEE)]
        self.change(*merged, (TELL_TIME, {"stamp": stamp}), *more)

    def fetch_zones(self, reminders, giver):
        """Gets the zone files that it lacks, each by the digest of its bytes; other bytes are not accepted."""
        for digest in {reminder["zone"] for reminder in reminders if reminder["lacks"] in ("1", "t")}:
            file = bytes.fromhex(giver.value("SELECT file FROM zone_in_hex WHERE digest = :digest", digest=digest) or "")
            if hashlib.sha256(file).hexdigest() == digest:
                self.keep_zone(file)

    def keep_zone(self, file):
        """Keeps a zone's file; gives the digest that it goes by."""
        digest = hashlib.sha256(file).hexdigest()
        self.change((KEEP_ZONE, {"digest": digest, "file": file}))
        return digest


class SqliteSide(Side):
    """A side that is an SQLite file."""

    def __init__(self, name, day, file, extension):
        super().__init__(name)
        self.connection = sqlite3.connect(file, isolation_level=None, timeout=30)
        self.connection.enable_load_extension(True)
        self.connection.load_extension(str(extension))
        self.connection.enable_load_extension(False)
        self.connection.execute("PRAGMA journal_mode = WAL")
        self.connection.executescript(filled((HERE / "schema.sqlite.sql").read_text(), {"name": name, "day": day}))

    def rows(self, query, **values):
        return [tuple(None if value is None else str(value) for value in row) for row in self.connection.execute(query, values)]

    def change(self, *queries):
        self.connection.execute("BEGIN IMMEDIATE")
        for query, values in queries:
            self.connection.execute(query, values)
        self.connection.execute("COMMIT")

    def close(self):
        self.connection.close()


class PostgresSide(Side):
    """A side that is a PostgreSQL database, by a psql that waits for queries.

    When this program is killed, psql comes to the end of its queries: without its COMMIT a change is undone. What psql had in full may
    still be on its way when this program is back; so changes wait for each other, and none undoes a later one.
    """

    def __init__(self, name, day, database):
        super().__init__(name)
        command = ["psql", "-X", "-q", "-t", "--csv", "-P", f"null={NULL}", "-v", "ON_ERROR_STOP=1", "-d", database]
        self.psql = subprocess.Popen(command, stdin=subprocess.PIPE, stdout=subprocess.PIPE, text=True)
        self.say("SET client_min_messages = warning")
        self.change(((HERE / "schema.postgres.sql").read_text(), {"name": name, "day": day}))

    def say(self, *queries):
        """What psql says to queries, up to the line that it is asked for at their end."""
        self.psql.stdin.write("".join(f"{query};\n" for query in queries) + f"\\echo {SAID}\n")
        self.psql.stdin.flush()
        lines = []
        for line in self.psql.stdout:
            if line == f"{SAID}\n":
                return "".join(lines)
            lines.append(line)
        sys.exit("the hub does not answer")

    def rows(self, query, **values):
        table = csv.reader(io.StringIO(self.say(filled(query, values)), newline=""))
        return [tuple(None if value == NULL else value for value in row) for row in table]

    def change(self, *queries):
        self.say("BEGIN", "SELECT pg_advisory_xact_lock(50)", *(filled(*query) for query in queries), "COMMIT")

    def close(self):
        self.psql.communicate()
