#!/usr/bin/env python3
"""What calls on a board answer, worked out apart from the code: writes this program's stdin and the stdout that it must give.

The board is oracle/boards.py's, a dict, a scan and a sort; what a phrase means at a now is oracle/model.py's.
Use: python3 expected.py   (it writes ../stdin and ../stdout, and prints what is in them)
"""
import pathlib
import sys
from collections import Counter

crate = pathlib.Path(__file__).resolve().parent.parent
sys.path.insert(0, str(crate.parents[1] / "oracle"))
import boards  # noqa: E402

PIECE = 65536

# the edges that document 02 names: an empty board, ties, one that refuses first and last, the lowest free slot, a stale order, an older now
SMALL = """M 2026-02-30 00:00:00 0000
M 2026-02-11 09:30:15 0250
H
O
R 0000
1 an hour from now
1 60 minutes from now
2 tuesday in two weeks
1 tuesday in two weeks
1 this month
1 noon
O
H
R 0003
R 0003
R 0006
R 0256
R 9999
O
H
1 a year from now
2 an hour ago
R 0000
R 0005
O
2 march 24th
1 now
1 march 24th
0 now
3 5/2
2 next fryday
1 4294967296 days ago
1 
2 five billion days ago
1 5/2
O
H
N 2026-02-11 09:30:15 1000
N 2026-02-12 00:00:00 0000
O
H
N 2024-02-29 12:00:00 0999
O
H
N 0001-01-01 00:00:00 0000
O
H
N 9999-12-31 23:59:59 0999
O
H
N 2026-04-31 00:00:00 0000
O
H
M 2024-02-29 12:00:00 0000
H
O
1 a year from now
2 25:00
H
O
N 2024-03-01 12:00:00 0000
H
O""".encode().split(b"\n")


def full():
    """256 reminders and more, most of them at one moment; 1 to 7 before 24; the lowest free slot of several."""
    yield b"M 2026-02-11 09:30:15 0250"
    for slot in range(boards.SLOTS):
        yield b"%d %s" % (1 + slot % 2, [b"tomorrow", b"tomorrow", b"this month", b"%d minutes ago" % (slot % 5)][slot % 4])
    yield from [b"O", b"H", b"1 now", b"2 tomorrow", b"1 5/2", b"2 fryday", b"3 now", b"1 " + 257 * b" ", b"1 " + 65 * b"1 ", b"O"]
    yield from [b"N 2026-02-12 00:00:00 0000", b"O", b"H", b"R 0255", b"R 0000", b"R 0100", b"O", b"2 now", b"1 now", b"1 now", b"1 now", b"O", b"H"]
    yield from [b"R %04d" % slot for slot in range(3, boards.SLOTS, 4)]
    yield from [b"O", b"H", b"N 2026-02-11 00:00:00 0001", b"O", b"1 a minute ago", b"H", b"M 2026-02-11 09:30:15 0250", b"O", b"H", b"1 now", b"O"]


def in_pieces(lines):
    """As bytes in pieces that end with a line: line feeds fill them up, and are passed over."""
    pieces = [b""]
    for text in lines:
        if len(pieces[-1]) + len(text) > PIECE:
            pieces[-1] = pieces[-1].ljust(PIECE, b"\n")
            pieces.append(b"")
        pieces[-1] += text
    assert len(pieces) <= 4
    return b"".join(pieces)


calls = SMALL + list(full()) + boards.Calls(5545).calls(8000)
answers = boards.answers(calls)
(crate / "stdin").write_bytes(in_pieces(call + b"\n" for call in calls))
(crate / "stdout").write_text("".join(answer + "\n" for answer in answers))
print(len(calls), "calls, by refusal:", sorted(Counter(int(answer.split()[0]) for answer in answers).items()))
orders = [answer.split() for call, answer in zip(calls, answers) if call == b"O"]
print(len(orders), "orders, of 256 reminders:", sum(order[2] == "256" for order in orders))
