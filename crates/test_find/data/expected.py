#!/usr/bin/env python3
"""What looking a word up answers, worked out apart from the code: writes this program's stdin and the stdout that it must give.

The words are those of the paper's model (oracle/model.py), the lexemes' codes follow the order of the Rust's enum, and the search is one of Python's own:
of the sorted words that are left, the middle one, the lower of two, and then all that stand on the word's side of it.
Use: python3 expected.py   (it writes ../stdin and ../stdout, and prints how many words of each table take how many comparisons)
"""
import pathlib
import random
import sys
from collections import Counter

crate = pathlib.Path(__file__).resolve().parent.parent
sys.path.insert(0, str(crate.parent.parent / "oracle"))
import model  # noqa: E402

LEXEMES = """
A An On In At The Dash Today Tomorrow Yesterday From Now And Comma Colon Dot After This Next Monday Tuesday Wednesday Thursday Friday Saturday
Sunday January February March April May June July August September October November December AM PM Day Week Hour Minute Month Year Slash Before
Ago Midnight Noon Zero Hundred Thousand Million Billion Last ST ND RD TH
"""
ONES = "One Two Three Four Five Six Seven Eight Nine Ten Eleven Twelve Thirteen Fourteen Fifteen Sixteen Seventeen Eighteen Nineteen"
TENS = "Twenty Thirty Fourty Fifty Sixty Seventy Eighty Ninety"
# a number word's code is its value; every other lexeme has its code from 100 on
CODES = {name: 100 + k for k, name in enumerate(LEXEMES.split())}
CODES |= {name: k + 1 for k, name in enumerate(ONES.split())} | {name: 20 + 10 * k for k, name in enumerate(TENS.split())}
TABLES = [{word.encode(): CODES[name] for word, name in model.WORDS[reading].items()} for reading in (model.FIRST, model.SECOND)]


def look_up(table, word):
    """The code or 0, and the count. Only A to Z have small letters here, as `bytes.lower` has it."""
    word, left, count = word.lower(), sorted(table), 0
    while left:
        middle = left[(len(left) - 1) // 2]
        count += 1
        if middle == word:
            return table[word], count
        left = [row for row in left if (middle < row if middle < word else row < middle)]
    return 0, count


# bytes that are no letters, with what fills a row up and the neighbours of both
BELOW = b"\0 -./09@[`"
ABOVE = b"{|~\x7f\x80\xc3\xff"


def cases():
    draw = random.Random(7)
    for word in TABLES[1]:
        yield from [word, word.upper(), word.title(), word[:-1], word[1:], word + b"a", word + b"z", word + b"S", word * 2]
        # a byte below the letters and one above them, in front of, between and behind the letters; and in the place of each
        for k in range(len(word) + 1):
            for beside in (BELOW, ABOVE):
                b = bytes([draw.choice(beside)])
                yield word[:k] + b + word[k:]
                yield word[:k] + b + word[k + 1:]
    yield b""
    # what fills a row up, and words as long as a row and longer
    yield from [b".", b" ", b" .", b"a.", b"a .", b"a. .", b"a. . . . . .", b"seventeenth.", b"seventeenth ", b"day. . . . .", b"days . . . ."]
    for n in (7, 8, 9, 10, 11, 12, 13, 14, 16, 255, 256, 257, 300):
        yield from [b"a" * n, b"m" * n, b"Z" * n, b"seventeenth"[:n].ljust(n, b"a"), b"seventeenth"[:n].ljust(n, b"\xff"), b"\xff" * n, b"." * n]


words = list(cases())
assert [len(table) for table in TABLES] == [133, 136] and not any(b"\n" in word for word in words)
text = b"".join(word + b"\n" for word in words)
assert len(text) < 65536
(crate / "stdin").write_bytes(text)
lines = [b"%d %d\n" % look_up(table, word) for table in TABLES for word in [bytes([b]) for b in range(256)] + words]
(crate / "stdout").write_bytes(b"".join(lines) + 3 * b"refused 15 1000 1001\n")
for table in TABLES:
    print(len(table), "words:", sorted(Counter(look_up(table, word)[1] for word in table).items()))
