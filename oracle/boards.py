#!/usr/bin/env python3
"""Boards of reminders (document 02, E14) by a plain dict, a scan and a sort: random calls, and what each answers.

    boards.py CALLS SEED CALLS_FILE ANSWERS_FILE    writes so many random calls, and their answers

A call is a line: `M` or `N` and `YYYY-MM-DD HH:MM:SS mmmm`, a board made at a now, or all run again at one; `R nnnn`, a
slot removed; a digit and a phrase, added in the reading of that number; `H`, the head; `O`, the order. An answer is its
number, place and length; for `H` the seven numbers of the moment behind them, sevens where there is none; for `O` the
slots, and a seven for the first number that stays as it was. What a phrase means is model.py's.
"""

import datetime
import sys

import model
import phrases

SLOTS = 256
INVALID_MOMENT, FULL_BOARD, EMPTY_SLOT, NOTHING_DUE = 8, 24, 25, 26


def made(reading, phrase):
    """The tree of a phrase, or why it is not made ready: 15, and 1 to 7."""
    reading = model.reading_of(reading)
    lexemes, places = model.lex_line(phrase, reading=reading)
    tree, taken = model.read(lexemes, reading)
    model.all_taken(taken, places, phrase)
    return tree


def states_time(tree):
    """Whether a phrase states a time of day, which has millisecond 0: else now's is kept."""
    match tree:
        case ("DateTime", _, time) | ("TimeDate", time, _):
            return time != "Empty"
        case ("After" | "Before", _, inner):
            return states_time(inner)
    return False


def at_now(tree, now):
    """The moment of a tree, as a day's number, a second and a millisecond; none where it is refused."""
    day, second, millisecond = now
    try:
        return *model.Evaluation((day, second)).date_time(tree), 0 if states_time(tree) else millisecond
    except model.Refused:
        return None


def now_of(text):
    """`YYYY-MM-DD HH:MM:SS mmmm` as a moment; none where it is no date and time, or its millisecond passes 999."""
    try:
        day, second = model.read_now(text[:19].encode())
    except model.Refused:
        return None
    millisecond = int(text[20:])
    return (day, second, millisecond) if millisecond < 1000 else None


class Board:
    def __init__(self):
        self.held = {}

    def make(self, now):
        if now is None:
            return INVALID_MOMENT, 0, 0
        self.now, self.held = now, {}
        return 0, 0, 0

    def add(self, reading, phrase):
        try:
            tree = made(reading, phrase)
        except model.Refused as refusal:
            return refusal.number, refusal.place, refusal.end - refusal.place
        free = [slot for slot in range(SLOTS) if slot not in self.held]
        if not free:
            return FULL_BOARD, 0, 0
        self.held[free[0]] = tree
        return 0, 0, free[0]

    def remove(self, slot):
        if slot not in self.held:
            return EMPTY_SLOT, 0, 0
        del self.held[slot]
        return 0, 0, 0

    def again(self, now):
        if now is None:
            return INVALID_MOMENT, 0, 0
        self.now = now
        return 0, 0, 0

    def head(self):
        """A scan of all reminders: the first one that no later one is before."""
        found = None
        for slot in sorted(self.held):
            moment = at_now(self.held[slot], self.now)
            if moment is not None and (found is None or moment < found[1]):
                found = slot, moment
        if found is None:
            return NOTHING_DUE, 0, 0, *[7] * 7
        slot, (day, second, millisecond) = found
        date = datetime.date.fromordinal(day)
        return 0, 0, slot, date.year, date.month, date.day, second // 3600, second // 60 % 60, second % 60, millisecond

    def order(self):
        last = (datetime.date.max.toordinal() + 1, 0, 0)
        slots = sorted(self.held, key=lambda slot: (at_now(self.held[slot], self.now) or last, slot))
        return 0, 0, len(slots), *slots, *[7][:SLOTS - len(slots)]

    def answer(self, call):
        kind, rest = call[:1], call[2:]
        match kind:
            case b"M":
                return self.make(now_of(rest.decode()))
            case b"N":
                return self.again(now_of(rest.decode()))
            case b"R":
                return self.remove(int(rest))
            case b"H":
                return self.head()
            case b"O":
                return self.order()
        return self.add(int(kind), rest)


def answers(calls):
    """The line of each call's answer."""
    board = Board()
    return [" ".join(map(str, board.answer(call))) for call in calls]


# Phrases that often mean one moment, in both readings
TIES = """noon|today at noon|12:00|12 pm|midnight|today at midnight|0:00|now|today|0 days ago|an hour ago|60 minutes ago|1 hour ago|an hour from now
tomorrow|a day from now|24 hours from now|yesterday|a day ago|next friday|friday|friday at 3 pm|15:00 friday|next week|7 days from now
tuesday in two weeks|wednesday in 14 days|march 3 5 pm|march 3 2026 at 17:00|march 3|3 march 2026""".replace("\n", "|").split("|")

# Phrases that are refused at some nows, or at all: outside the years, 29 February, no sense, no such date or time
SOMETIMES = """a year from now|a year ago|4 years from now|february 29|2/29 at noon|next year|last year|tomorrow|yesterday|a minute ago
a minute from now|saturday|last monday|5000 years from now|5000 years ago|february 29 last year|a day after february 29|next month
february 29 next year|this month|25:00|13 pm|4/31/2026|1000/1/1|10000 years ago|a year after 2/29/2024|friday this month""".replace("\n", "|").split("|")

# Nows that are none
NO_NOWS = """2026-02-29 00:00:00 0000|2026-13-01 00:00:00 0000|2026-00-10 12:00:00 0001|0000-01-01 00:00:00 0000|2026-04-31 09:30:15 0250
2026-02-11 24:00:00 0000|2026-02-11 09:60:00 0000|2026-02-11 09:30:60 0000|2026-02-11 09:30:15 1000|2026-02-11 09:30:15 9999""".replace("\n", "|").split("|")

# Nows at which much is refused
EDGES = ["0001-01-01 00:00:00 0000", "9999-12-31 23:59:59 0999", "2024-02-29 12:00:00 0500", "2000-02-29 00:00:00 0000", "2026-02-11 09:30:15 0250"]


class Calls:
    """Random calls: boards of one to 256 reminders, one after another."""

    def __init__(self, seed):
        self.dice = phrases.Dice(seed)
        self.at = datetime.datetime(2026, 2, 11, 9, 30, 15)

    def phrase(self):
        d = self.dice
        kind = d.below(20)
        if kind < 8:
            text = d.pick(TIES)
        elif kind < 12:
            text = d.pick(SOMETIMES)
        elif kind < 19:
            text = d.pick([d.phrase, d.phrase, d.ahead, d.dated, d.ordinal])()
        else:
            text = d.pick([d.soup, d.chain, d.raw, lambda: d.damaged(d.phrase())])()
        text = text if isinstance(text, bytes) else text.encode()
        return text.replace(b"\n", b" ")

    def now(self):
        """A now soon after or before the last one, or an edge; seldom none."""
        d = self.dice
        if d.one_in(8):
            return d.pick(NO_NOWS)
        if d.one_in(6):
            return d.pick(EDGES)
        unit = d.pick([60, 3600, 86400, 86400, 30 * 86400, 365 * 86400])
        seconds = (d.below(50) - 15) * unit
        try:
            self.at += datetime.timedelta(seconds=seconds)
        except OverflowError:
            self.at = datetime.datetime(2024, 2, 29, 12, 0, 0)
        if d.one_in(4):
            self.at = self.at.replace(hour=0, minute=0, second=0)
        return f"{self.at.isoformat(sep=' ')} {d.pick([0, 0, 1, 250, 999]):04}"

    def change(self, size, most):
        """One more or one less: the board is kept near so many reminders."""
        d = self.dice
        if d.below(2 * most) < size:
            return f"R {d.below(min(most + 3, SLOTS + 3)):04}".encode()
        reading = d.pick([1, 1, 1, 2, 2, 2, 1, 2, 1, 2, 0, 3]) if d.one_in(9) else 1 + d.below(2)
        return b"%d " % reading + self.phrase()

    def call(self, size, most):
        d = self.dice
        kind = d.below(12)
        if kind < 6:
            return self.change(size, most)
        if kind < 9:
            return b"H"
        if kind == 9:
            return b"N " + self.now().encode()
        return b"O" if most < 20 or d.one_in(6) else b"H"

    def calls(self, number):
        """So many calls; each board has more than 30 of its own, and one of 256 is filled first."""
        done = []
        while len(done) < number:
            most = self.dice.pick([1, 3, 3, 8, 8, 16, 16, 60, SLOTS])
            done += self.one_board(most, 30 + 2 * most)
        return done[:number]

    def one_board(self, most, count):
        board = Board()
        calls = [b"M " + self.now().encode() for _ in range(2)] + [b"M " + self.dice.pick(EDGES).encode()]
        while most == SLOTS and sum(call[:1] in b"12" for call in calls) < SLOTS + 60:
            calls.append(b"%d " % (1 + self.dice.below(2)) + self.phrase())
        for call in calls:
            board.answer(call)
        for _ in range(count):
            calls.append(self.call(len(board.held), most))
            if calls[-1][:1] not in b"HO":
                board.answer(calls[-1])
        return calls


def main():
    number, seed, calls_file, answers_file = sys.argv[1:]
    calls = Calls(int(seed)).calls(int(number))
    with open(calls_file, "wb") as out:
        out.write(b"".join(call + b"\n" for call in calls))
    with open(answers_file, "w") as out:
        out.write("".join(answer + "\n" for answer in answers(calls)))


if __name__ == "__main__":
    main()
