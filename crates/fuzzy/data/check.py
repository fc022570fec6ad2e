#!/usr/bin/env python3
"""Runs ./fuzzy of this repository against the model of the paper (oracle/model.py) on inputs of many first lines, ends and cuts.

Use: python3 check.py   (from any folder; a line for each case that differs, then the counts)
A piece of an input is written to the program's pipe when the one before has been read, so that each is read by itself.
"""
import fcntl
import pathlib
import random
import subprocess
import sys
import termios
import time

ROOT = pathlib.Path(__file__).resolve().parents[3]
sys.dont_write_bytecode = True
sys.path.insert(0, str(ROOT / "oracle"))
import model

A = b"2026-02-11 09:30:15"
PHRASES = [b"next friday", b"forty days ago", b"5/2", b"", b"friday\r", b"a year from now", b"now".ljust(257), b"january 1, 2010"]
FIRST = [
    A, b"", b" " + A, A + b" ", A + b"\r", A[:-1], b"2026-02-11T09:30:15", b"2026-02-11 09-30-15", b"2026/02/11 09:30:15", b"2026-2-11 09:30:15",
    b"02026-02-11 09:30:15", b"2026-02-30 09:30:15", b"0000-01-01 00:00:00", b"0001-01-01 00:00:00", b"9999-12-31 23:59:59", b"2024-02-29 12:00:00",
    b"2026-02-11 24:00:00", b"2026-02-11 09:60:15", b"2026-02-11 09:30:60", b"2026-13-11 09:30:15", b"2026-00-11 09:30:15", b"2026-02-00 09:30:15",
    b"2026-02-1/ 09:30:15", b"2026-02-1: 09:30:15", b"-026-02-11 09:30:15", b"\xff" * 19, b"\0" * 19, b"x" * 256, b"x" * 257, A + b"x" * 100_000,
]


def waiting(pipe):
    """How many bytes of a pipe are not yet read."""
    return int.from_bytes(fcntl.ioctl(pipe, termios.FIONREAD, bytes(4)), sys.byteorder)


def run(pieces):
    program = subprocess.Popen([ROOT / "fuzzy"], stdin=subprocess.PIPE, stdout=subprocess.PIPE)
    for piece in pieces[:-1]:
        program.stdin.write(piece)
        program.stdin.flush()
        while waiting(program.stdin):
            time.sleep(0.001)
    return program.communicate(pieces[-1])[0]


def cut(text, places):
    places = [0, *sorted(places), len(text)]
    return [text[a:b] for a, b in zip(places, places[1:])]


def cases():
    """A name, and the input in pieces."""
    for first in FIRST:
        yield f"first line {first[:24]!r} of {len(first)} bytes", [b"\n".join([first, *PHRASES]) + b"\n"]
    for text in [b"", b"\n", b"\n\n", b"\n\n\n"]:
        yield f"input {text!r}", [text]
    for text in [b"", b"\n", b"\n\n", b"\nfriday", b"\nfriday\n", b"\nfriday\n\n", b"\n\nfriday"]:
        yield f"input of now and {text!r}", [A + text]
    for size in [*range(254, 260), *range(510, 518), *range(1020, 1030), 100_000, 1_000_000]:
        yield f"a phrase of {size} bytes", [A + b"\n" + b"friday".ljust(size) + b"\nfriday"]
        yield f"a last phrase of {size} bytes", [A + b"\nfriday\n" + b"x" * size]
    listing = model.LISTING_IN
    for place in range(1, len(listing)):
        yield f"the listing cut at {place}", cut(listing, [place])
    yield "the listing byte by byte", cut(listing, range(1, len(listing)))
    chance = random.Random(20260211)
    for number in range(60):
        text = b"\n".join([A, *(chance.choice(PHRASES).ljust(chance.choice([0, 0, 100, 255, 256, 257, 300, 600])) for _ in range(30))])
        text += chance.choice([b"", b"\n"])
        yield f"random pieces {number}", cut(text, chance.sample(range(1, len(text)), chance.randint(1, 12)))


def at_once():
    """A line is answered before the next one comes."""
    program = subprocess.Popen([ROOT / "fuzzy"], stdin=subprocess.PIPE, stdout=subprocess.PIPE)
    program.stdin.write(A + b"\n")
    for phrase, answer in [(b"next friday", b"2026-02-20 09:30:15\n"), (b"5/2", b"refused 7 at 1\n")]:
        program.stdin.write(phrase + b"\n")
        program.stdin.flush()
        if program.stdout.readline() != answer:
            return False
    return program.communicate()[0] == b""


def most_memory(text):
    """The most memory, in KiB, that the program has had in use when all of an input is read."""
    program = subprocess.Popen([ROOT / "fuzzy"], stdin=subprocess.PIPE, stdout=subprocess.DEVNULL)
    program.stdin.write(text)
    program.stdin.flush()
    status = pathlib.Path(f"/proc/{program.pid}/status").read_text()
    program.communicate()
    return int(status.split("VmHWM:")[1].split()[0])


def main():
    failed = count = 0
    for name, pieces in cases():
        count += 1
        if run(pieces) != model.fuzzy(b"".join(pieces)).encode():
            failed += 1
            print(f"differs: {name}")
    if not at_once():
        failed += 1
        print("a line is not answered at once")
    small = most_memory(A + b"\nfriday" * 10_000)
    large = max(most_memory(A + b"\n" + b"x" * 50_000_000), most_memory(A + b"\nfriday" * 300_000))
    if large > small + 1024:
        failed += 1
        print(f"memory in use grows from {small} to {large} KiB")
    print(f"{count} inputs, a line at once, memory in use {small} to {large} KiB: {failed} failed")
    return failed > 0


if __name__ == "__main__":
    sys.exit(main())
