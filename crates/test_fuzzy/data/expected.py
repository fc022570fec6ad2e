#!/usr/bin/env python3
"""Hard input for the loop of the program `fuzzy`, and what it must write: by the model of the paper (oracle/model.py).

Use: python3 expected.py   (it writes ../stdin and ../stdout)
"""
import pathlib
import random
import sys

CRATE = pathlib.Path(__file__).resolve().parent.parent
sys.path.insert(0, str(CRATE.parent.parent / "oracle"))
import model

NOW = b"2026-02-11 09:30:15"
PHRASES = [phrase.encode("latin-1") for now, phrase, _ in model.TABLE if now == model.A]
PIECE = 1024  # as many bytes are read at a time, less what is kept of a line that goes on


def lines():
    yield NOW
    yield from PHRASES
    # empty lines, gaps alone, carriage returns, and every byte but the line feed, alone and behind a phrase
    yield from [b"", b"", b" ", b"\t \t", b"\r", b"friday\r", b"\rfriday", b"fri\0day"]
    yield from (bytes([b]) for b in range(256) if b != 10)
    yield from (b"friday " + bytes([b]) for b in range(256) if b != 10)
    # on each side of 256 bytes, where 257 are kept, and of the pieces
    for size in [255, 256, 257, 258, 513, 514, PIECE - 1, PIECE, PIECE + 1, 2 * PIECE]:
        for filler in [b" ", b"x", b"\xff"]:
            yield b"friday".ljust(size, filler)
            yield b"friday".rjust(size, filler)
        yield b"today"
    yield b"friday".ljust(100_000)
    yield b"today"
    # phrases of many lengths, so that line feeds fall anywhere in a piece
    chance = random.Random(20260211)
    for _ in range(1200):
        phrase = chance.choice(PHRASES)
        yield phrase.center(len(phrase) + chance.choice([0, 1, 2, 40, 200, 240]))
    yield from (b"" for _ in range(3 * PIECE))
    yield b"next friday"  # and no line feed behind it


text = b"\n".join(lines())
(CRATE / "stdin").write_bytes(text)
(CRATE / "stdout").write_text(model.fuzzy(text))
