"""Kills the notebook (kill -9) at random points and lets it come back: killed.py COUNT FOLDER ZONE EXTENSION [HOST USER].

Four of five kills come at a random instruction of SQLite or between two pieces of what psql is told, the fifth from outside at a random
time. With a HOST the hub is a PostgreSQL database there, a new one for each story. After each kill every phone still has what it had
confirmed. At the end of each story all sides agree, each reminder was typed once, and the story ends as one that was never killed.
"""

import contextlib
import itertools
import os
import pathlib
import random
import re
import signal
import sqlite3
import subprocess
import sys
import time

import notebook
import sides
import story

CONFIRMED = re.compile(r'^  (\w+) +writes +[^:]*: "([^"]*)"', re.M)
END = "The old way:"
TYPED = sorted((story.NAMES[step.side], step.phrase) for step in story.STEPS if isinstance(step, story.Write))

# A piece that psql is told counts as many points as this, beside one for an instruction of SQLite.
PIECE = 200


class Victim:
    """The program, killed by itself when it comes to a point; at point 0 never."""

    def __init__(self, point):
        self.point, self.passed, self.connections, self.telling = point, 0, [], False
        self.connect, self.start = sqlite3.connect, subprocess.Popen
        sqlite3.connect, subprocess.Popen = self.doomed_connection, self.doomed_process

    def go_by(self, points=1):
        """Goes by some points; at the one that was given it says whether a transaction was open, and is killed."""
        self.passed += points
        if 0 < self.point <= self.passed:
            inside = self.telling or any(connection.in_transaction for connection in self.connections)
            os.write(2, b"inside\n" if inside else b"outside\n")
            os.kill(os.getpid(), signal.SIGKILL)

    def doomed_connection(self, *arguments, **options):
        connection = self.connect(*arguments, **options)
        connection.set_progress_handler(self.go_by, 1)
        self.connections.append(connection)
        return connection

    def doomed_process(self, *arguments, **options):
        process = self.start(*arguments, **options)
        write = process.stdin.write
        process.stdin.write = lambda text: self.write_in_pieces(process.stdin, write, text)
        return process

    def write_in_pieces(self, stdin, write, text):
        for place in range(0, len(text), 500):
            self.go_by(PIECE)
            self.telling = text.startswith("BEGIN")
            write(text[place : place + 500])
            stdin.flush()
        self.telling = False
        self.go_by(PIECE)


def be_victim(point, *arguments):
    """Plays the story as a victim; says at its end how many points there were."""
    victim = Victim(int(point))
    notebook.main(*arguments)
    os.write(2, f"{victim.passed}\n".encode())


class Play:
    """One story in a folder of its own, begun again as often as it is killed."""

    def __init__(self, folder, zone, extension, server, number):
        self.folder, self.extension, self.confirmed = folder / str(number), extension, []
        self.folder.mkdir(parents=True)
        self.arguments = [self.folder, zone, extension]
        if server:
            host, user = server
            self.arguments.append(f"host={host} user={user} dbname=story_{number}")
            create = ["psql", "-X", "-q", "-h", host, "-U", user, "-d", "postgres", "-c", f"CREATE DATABASE story_{number}"]
            subprocess.run(create, check=True)

    def go_on(self, point=0, seconds=None):
        """Goes on, up to a point or for so many seconds where they are given: what it said, aside too, and whether it was killed."""
        command = [sys.executable, "-W", "error", __file__, "victim", str(point), *self.arguments]
        program = subprocess.Popen(command, stdout=subprocess.PIPE, stderr=subprocess.PIPE, text=True, encoding="utf-8")
        try:
            said, aside = program.communicate(timeout=seconds)
        except subprocess.TimeoutExpired:
            program.kill()
            said, aside = program.communicate()
        assert program.returncode in (0, -signal.SIGKILL), (program.returncode, aside)
        self.confirmed += CONFIRMED.findall(said)
        return said, aside, program.returncode != 0

    def rows_on(self, name, table, query):
        """The rows of a query on a phone, once it has the table; its file must be sound."""
        if not (self.folder / f"{name}.db").exists():
            return []
        with contextlib.closing(sqlite3.connect(self.folder / f"{name}.db")) as phone:
            phone.enable_load_extension(True)
            phone.load_extension(self.extension)
            assert phone.execute("PRAGMA integrity_check").fetchone() == ("ok",)
            there = phone.execute("SELECT count(*) FROM sqlite_schema WHERE name = ?", [table]).fetchone() == (1,)
            return phone.execute(query).fetchall() if there else []

    def typed_on(self, name):
        """What was typed on a phone, by its own account."""
        return [(story.NAMES[name], phrase) for (phrase,) in self.rows_on(name, "diary", "SELECT phrase FROM diary")]

    def check_typed(self):
        """Nothing that was confirmed is lost."""
        typed = list(itertools.chain(*map(self.typed_on, story.PHONES)))
        assert all(typed.count(entry) >= self.confirmed.count(entry) for entry in self.confirmed), (self.confirmed, typed)
        return sorted(typed)

    def ending(self, said):
        """How the story ends: what it says, its picture, and the reminders as they travelled."""
        return said[said.index(END) :], (self.folder / "notebook.svg").read_text(), self.rows_on("ada", "reminder", sides.TRAVELS)


def main(count, folder, zone, extension, *server):
    kills, inside, stories, count, folder = 0, 0, 0, int(count), pathlib.Path(folder)
    undisturbed = Play(folder, zone, extension, server, 0)
    before = time.monotonic()
    said, points, _ = undisturbed.go_on()
    whole, points, ending = time.monotonic() - before, int(points), undisturbed.ending(said)
    while kills < count:
        stories += 1
        play, killed = Play(folder, zone, extension, server, stories), True
        while killed:
            outside = random.randrange(5) == 0
            manner = {"seconds": random.uniform(0, whole)} if outside else {"point": random.randint(1, points // 2)}
            said, aside, killed = play.go_on(**manner) if kills < count else play.go_on()
            typed = play.check_typed()
            kills += killed
            inside += aside == "inside\n"
        assert play.ending(said) == ending, said
        assert typed == TYPED, typed
    print(f"killed {kills} times in {stories} stories of {points} points, {inside} times inside a transaction: nothing was lost")


if __name__ == "__main__":
    be_victim(*sys.argv[2:]) if sys.argv[1] == "victim" else main(*sys.argv[1:])
