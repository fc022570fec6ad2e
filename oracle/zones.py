#!/usr/bin/env python3
"""Real zones (document 02, E13): what a TZif file says, what a phrase means at an instant there, and random lines to try.

    zones.py LINES SEED LINES_FILE ANSWERS_FILE    every file of Debian's tzdata, then so many random lines; and their answers

Written from document 02 and RFC 9636. What a phrase means at a civil now is model.py's; of real zones civil times and
instants are those of Python's zoneinfo, which is given the very bytes.

A line, numbers and bytes in hexadecimal: `Z` and a file's bytes; `A` and bytes, put behind it; `S`, a place and two
digits, one byte changed; `T` and a length, the file cut there, or uncut; `F`, a length and two digits, filled up to it
with a byte; `@` and a second, as two's complement; `M` and a millisecond. These are answered: a digit and a phrase, read
in the reading of that number; `a` or `b` and a phrase, made ready in reading 1 or 2 and run; `R` and records, run; `W`
and a second, "now" there and at the two seconds behind it. An answer is 0 or a refusal's number, place and length, and
of a run the second and the civil moment's nine numbers behind them, sevens where nothing is written.
"""

import bisect
import datetime
import functools
import io
import pathlib
import struct
import subprocess
import sys
import tempfile
import zoneinfo

import model
import phrases
from model import BACK, FORWARD, Refused

INVALID_MOMENT, NO_SENSE, OUTSIDE, NO_ZONE, PAST_LAST, NO_INSTANT = 8, 9, 12, 21, 22, 23
DAY, EPOCH = 86_400, datetime.date(1970, 1, 1).toordinal()
ROOM, PIECE = 65_600, 65_536


def year_start(year):
    """The first second of a UTC year, which may be 0, since 1970."""
    cycles, year = divmod(year, 400)
    return (datetime.date(year + 400, 1, 1).toordinal() + 146_097 * (cycles - 1) - EPOCH) * DAY


YEAR_ONE, YEAR_TEN_THOUSAND = year_start(1), year_start(10_000)


# ---------------------------------------------------------------- the file

# RFC 9636, 3.1: magic, version, 15 reserved octets, then the counts
HEADER = struct.Struct(">4sc15x6I")
COUNTED = ("isut", "isstd", "leap", "time", "type", "char")
MOST_BYTES = 65_536


def whole(condition):
    """02: 21 for the file"""
    if not condition:
        raise Refused(NO_ZONE)


class Header:
    def __init__(self, data, at):
        whole(at + HEADER.size <= len(data))
        magic, version, self.isut, self.isstd, self.leap, self.time, self.type, self.char = HEADER.unpack_from(data, at)
        whole(magic == b"TZif" and version >= b"2")

    def block(self, width):
        """The octets of a data block (3.2) whose times have so many."""
        return self.time * (width + 1) + self.type * 6 + self.char + self.leap * (width + 4) + self.isstd + self.isut


def takes_place(time):
    """02: transitions in UTC years 0 and 1 or after 9998 are refused."""
    return time < year_start(0) or year_start(2) <= time < year_start(9999)


def read_file(data):
    """The times of a file's transitions, and the offsets before the first and behind each; or 21."""
    whole(len(data) <= MOST_BYTES)
    at = HEADER.size + Header(data, 0).block(4)
    counts = Header(data, at)
    at += HEADER.size
    end = at + counts.block(8)
    whole(counts.type > 0 and counts.char > 0 and counts.leap == 0)
    whole(counts.isut in (0, counts.type) and counts.isstd in (0, counts.type))
    whole(end <= len(data))
    times = struct.unpack_from(f">{counts.time}q", data, at)
    indexes = data[at + 8 * counts.time:at + 9 * counts.time]
    kinds = [struct.unpack_from(">lBB", data, at + 9 * counts.time + 6 * k) for k in range(counts.type)]
    whole(all(earlier < later for earlier, later in zip(times, times[1:])) and all(map(takes_place, times)))
    whole(all(index < counts.type for index in indexes))
    whole(all(-25 * 3600 < offset < 26 * 3600 and name < counts.char for offset, _, name in kinds))
    # 3.3, the footer: 02 looks for its two newlines only
    whole(data[end:end + 1] == b"\n" and b"\n" in data[end + 1:])
    return list(times), [kinds[index][0] for index in (0, *indexes)]


# ---------------------------------------------------------------- instants and civil seconds
#
# An instant is its second since 1970; a civil second is the instant's with the offset added.


class Zone:
    """A zone by its transitions."""

    def __init__(self, times, offsets):
        self.times, self.offsets = times, offsets
        self.kinds = set(offsets)
        self.last = times[-1] if times else float("-inf")

    def offset(self, second):
        """02: before the first transition type 0 holds; a transition's own second has the offset behind it."""
        return self.offsets[bisect.bisect_right(self.times, second)]

    def instants(self, civil):
        """All seconds at which the clocks show this."""
        return [civil - offset for offset in self.kinds if self.offset(civil - offset) == offset]

    def settle(self, civil):
        """02: the earlier of two; 22 at or past the last transition, 23 for a time that doesn't occur."""
        known = [second for second in self.instants(civil) if second < self.last]
        if known:
            return min(known)
        raise Refused(PAST_LAST if civil >= self.last + self.offset(self.last) else NO_INSTANT)


class Known(Zone):
    """A real zone by Python's zoneinfo, in years 2 to 9998, which is where its datetime is sure to reach."""

    def __init__(self, data, times, offsets):
        super().__init__(times, offsets)
        self.info = zoneinfo.ZoneInfo.from_file(io.BytesIO(data))

    @staticmethod
    def reaches(second):
        return year_start(2) <= second < year_start(9999)

    def seconds_east(self, moment):
        return moment.utcoffset() // datetime.timedelta(seconds=1)

    def offset(self, second):
        if not self.reaches(second):
            return super().offset(second)
        start = datetime.datetime(1970, 1, 1, tzinfo=datetime.timezone.utc)
        return self.seconds_east((start + datetime.timedelta(seconds=second)).astimezone(self.info))

    def instants(self, civil):
        if not self.reaches(civil):
            return super().instants(civil)
        shown = datetime.datetime(1970, 1, 1, tzinfo=self.info) + datetime.timedelta(seconds=civil)
        found = {civil - self.seconds_east(shown.replace(fold=fold)) for fold in (0, 1)}
        return [second for second in found if second + self.offset(second) == civil]


@functools.cache
def zone_of(data, known):
    """The zone of a file, if it is known by zoneinfo; or the refusal."""
    try:
        found = read_file(data)
    except Refused as refusal:
        return refusal
    return Known(data, *found) if known else Zone(*found)


# ---------------------------------------------------------------- a phrase at an instant

UNIT_SECONDS = {"Week": 7 * DAY, "Day": DAY, "Hour": 3600, "Minute": 60}


class InZone:
    """Evaluation and running at an instant; a moment is a second and a millisecond."""

    def __init__(self, zone, second, millisecond):
        if isinstance(zone, Refused):
            raise zone
        self.zone, self.second, self.millisecond = zone, second, millisecond
        # 02: 8, then 22 for now itself; before the last transition 8 is for a civil now outside the years too
        if millisecond > 999:
            raise Refused(INVALID_MOMENT)
        if second >= zone.last:
            raise Refused(PAST_LAST)
        if not self.in_years(second):
            raise Refused(INVALID_MOMENT)
        self.civil = model.Evaluation(self.shown(second))

    def in_years(self, second):
        return YEAR_ONE <= second + self.zone.offset(second) < YEAR_TEN_THOUSAND

    def shown(self, second):
        """The civil day and second of day, as model.py has them."""
        days, rest = divmod(second + self.zone.offset(second), DAY)
        return days + EPOCH, rest

    def settle(self, moment):
        day, rest = moment
        return self.zone.settle((day - EPOCH) * DAY + rest)

    def fixed(self, second, length):
        """02: fixed steps act on the instant, 22 before 12."""
        second += length
        if second >= self.zone.last:
            raise Refused(PAST_LAST)
        if not self.in_years(second):
            raise Refused(OUTSIDE)
        return second

    def civil_step(self, second, direction, count, unit):
        """02: month and year steps act on the civil time, 12 and 13, then 22 or 23."""
        return self.settle(self.civil.step(self.shown(second), direction, count, unit))

    def steps(self, second, direction, duration):
        for count, unit in model.parts(duration):
            if unit in UNIT_SECONDS:
                second = self.fixed(second, direction * count * UNIT_SECONDS[unit])
            else:
                second = self.civil_step(second, direction, count, unit)
        return second

    def date_time(self, tree):
        match tree:
            case "Now":
                return self.second, self.millisecond
            case ("DateTime", _, time) | ("TimeDate", time, _):
                # 02: what is ahead of the time of day acts on civil date and time alone
                return self.settle(self.civil.date_time(tree)), self.millisecond if time == "Empty" else 0
            case ("After", duration, inner):
                second, millisecond = self.date_time(inner)
                return self.steps(second, FORWARD, duration), millisecond
            case ("Before", duration, inner):
                second, millisecond = self.date_time(inner)
                return self.steps(second, BACK, duration), millisecond

    # a list of records, by docs/FORMAT.md

    def start(self, form, kind, a, b, c):
        """The day of a dated start."""
        month, weekday = model.Month.NAMES, model.Weekday.NAMES[a % 7]
        if kind == 4:
            return self.civil.date_expr(("RelativeWeekday", ("This", "Next", "Last")[form], weekday))
        if kind == 5:
            return self.civil.date_expr(("Weekday", weekday))
        dates = [("YearMonthNumDay", a, b, c), ("MonthNumDayYear", a, b, c), ("MonthNumDayYear", b, a, c), ("MonthNumDayYear", a, b, c),
                 ("MonthNumDay", a, b), ("MonthNumDay", a, b), "Today", "Tomorrow", "Yesterday", "Empty"]
        return self.civil.date(dates[form])

    def move(self, moment, record):
        """A step other than a fixed one on a civil moment."""
        kind, form, count = record[1], record[0], record[2]
        day, rest = moment
        if kind == 9:
            return self.civil.inside(day - (model.weekday_of(day) - count) % 7), rest
        if kind == 11:
            return self.civil.inside(day + (count - model.weekday_of(day)) % 7), rest
        return self.civil.step(moment, BACK if form else FORWARD, count, "Month" if kind == 7 else "Year")

    def time_of_day(self, record):
        form, _, hour, minute, _ = record
        return self.civil.time(("Empty", ("HourMin", hour, minute), ("HourMinAM", hour, minute), ("HourMinPM", hour, minute))[form])

    def run(self, data):
        records = records_of(data)
        first, *moves = records
        if first[1] == 1:
            return self.walk(self.second, moves), self.millisecond
        if first[1] == 2:
            raise Refused(NO_SENSE)
        moment = self.start(*first), self.civil.now[1]
        at = next(k for k, record in enumerate(moves) if record[1] == 10)
        for record in moves[:at]:
            moment = self.civil.step(moment, *length_of(record), "Minute") if record[1] == 6 else self.move(moment, record)
        reached = self.settle((moment[0], self.time_of_day(moves[at])))
        return self.walk(reached, moves[at + 1:]), self.millisecond if moves[at][0] == 0 else 0

    def walk(self, second, moves):
        for record in moves:
            if record[1] == 6:
                direction, count = length_of(record)
                second = self.fixed(second, direction * 60 * count)
            else:
                second = self.settle(self.move(self.shown(second), record))
        return second


def length_of(record):
    """The direction and the minutes of a fixed length."""
    return BACK if record[0] else FORWARD, record[2] + 2**32 * record[3]


# how many forms a kind has, and how many numbers each of them
FORMS = {1: [0], 2: [0], 3: [3, 3, 3, 3, 2, 2, 0, 0, 0, 0], 4: [1, 1, 1], 5: [1], 6: [2, 2], 7: [1, 1], 8: [1, 1], 9: [1], 10: [0, 2, 2, 2], 11: [1]}
STARTS, TIME = {1, 2, 3, 4, 5}, 10


def records_of(data):
    """The records of a list that can be run, each (form, kind, three numbers); or 9."""
    if not 16 <= len(data) <= 384 or len(data) % 16:
        raise Refused(NO_SENSE)
    records = []
    for word, *numbers in struct.iter_unpack("<4I", data):
        form, kind = divmod(word, 256)
        if form >= len(FORMS.get(kind, [])) or any(numbers[FORMS[kind][form]:]):
            raise Refused(NO_SENSE)
        records.append((form, kind, *numbers))
    kinds = [record[1] for record in records]
    times = 0 if kinds[0] in (1, 2) else 1
    if kinds[0] not in STARTS or STARTS & set(kinds[1:]) or kinds.count(TIME) != times or kinds[0] == 2 and len(kinds) > 1:
        raise Refused(NO_SENSE)
    return records


# ---------------------------------------------------------------- lines

UNTOUCHED = (7,) * 10


def signed(number):
    return number - 2**64 if number >= 2**63 else number


class Caller:
    """What the lines so far have set, and the answer to the next."""

    def __init__(self, known=()):
        self.file, self.size, self.second, self.millisecond = bytearray(ROOM), 0, 0, 0
        self.known = set(known)

    def take(self, line):
        """The answer to a line, if it has one."""
        kind, rest = line[:1], line[1:]
        if kind in b"ZASTF@M":
            return self.change(kind, rest)
        if kind == b"W":
            return "|".join(self.answer(b"1", b"now", signed(int(rest, 16) + k)) for k in range(3))
        return self.answer(kind, rest, self.second)

    def change(self, kind, rest):
        if kind in b"ZA":
            data = bytes.fromhex(rest.decode())
            at = 0 if kind == b"Z" else self.size
            self.file[at:at + len(data)] = data
            self.size = at + len(data)
            return
        number = int(rest, 16)
        match kind:
            case b"S":
                self.file[number // 256] = number % 256
            case b"T":
                self.size = number
            case b"F":
                end = number // 256
                self.file[self.size:end] = bytes([number % 256]) * (end - self.size)
                self.size = end
            case b"@":
                self.second = signed(number)
            case b"M":
                self.millisecond = number

    def zone(self):
        data = bytes(self.file[:self.size])
        return zone_of(data, data in self.known)

    def answer(self, kind, rest, second):
        try:
            if kind == b"R":
                return self.shown(InZone(self.zone(), second, self.millisecond), lambda there: there.run(bytes.fromhex(rest.decode())))
            tree = read_phrase(kind[0] % 16 if kind <= b"9" else kind[0] % 32, rest)
        except Refused as refusal:
            lent = () if kind >= b"a" else UNTOUCHED
            return numbers(refusal.number, refusal.place, refusal.end - refusal.place, *lent)
        try:
            return self.shown(InZone(self.zone(), second, self.millisecond), lambda there: there.date_time(tree))
        except Refused as refusal:
            return numbers(refusal.number, 0, 0, *UNTOUCHED)

    def shown(self, there, run):
        second, millisecond = run(there)
        day, rest = there.shown(second)
        date = datetime.date.fromordinal(day)
        offset = there.zone.offset(second)
        clock = rest // 3600, rest // 60 % 60, rest % 60, millisecond
        return numbers(0, second % 2**64, date.year, date.month, date.day, *clock, int(offset < 0), abs(offset))


def numbers(*all_of):
    return " ".join(map(str, all_of))


@functools.lru_cache(4096)
def phrase_tree(reading, phrase):
    try:
        reading = model.reading_of(reading)
        lexemes, places = model.lex_line(phrase, reading=reading)
        tree, taken = model.read(lexemes, reading)
        model.all_taken(taken, places, phrase)
    except Refused as refusal:
        return refusal
    return tree


def read_phrase(reading, phrase):
    """The tree of a phrase, or 15, or 1 to 7."""
    tree = phrase_tree(reading, phrase)
    if isinstance(tree, Refused):
        raise tree
    return tree


def answers(lines, known=()):
    """The answers to the lines that have one."""
    caller = Caller(known)
    return [answer for line in lines if line and (answer := caller.take(line)) is not None]


def in_pieces(lines):
    """The lines as bytes, in pieces that each end with a line: line feeds fill them up, and are passed over."""
    pieces = [b""]
    for line in lines:
        if len(pieces[-1]) + len(line) + 1 > PIECE:
            pieces[-1] = pieces[-1].ljust(PIECE, b"\n")
            pieces.append(b"")
        pieces[-1] += line + b"\n"
    return b"".join(pieces)


# ---------------------------------------------------------------- files, and random lines


def built(times=(), indexes=None, kinds=((-18_000, 0, 0),), names=b"EST\0", isut=b"", isstd=b"", leap=b"", versions=b"22", before=None, footer=b"\n\n",
          counts=None):
    """A file: its transitions, the type of each, the types (offset, daylight, name), and what else a block has; counts may be said otherwise."""
    indexes = bytes(len(times)) if indexes is None else bytes(indexes)
    said = dict(zip(COUNTED, (len(isut), len(isstd), len(leap) // 12, len(times), len(kinds), len(names)))) | (counts or {})
    before = before or dict(zip(COUNTED, (0, 0, 0, 0, 1, 1))) | {"block": bytes(7)}
    headers = [HEADER.pack(b"TZif", versions[k:k + 1], *(of[name] for name in COUNTED)) for k, of in enumerate((before, said))]
    block = struct.pack(f">{len(times)}q", *times) + indexes + b"".join(struct.pack(">lBB", *kind) for kind in kinds) + names + leap + isstd + isut
    return headers[0] + before["block"] + headers[1] + block + footer


def compiled(folder):
    """All zones of Debian's tzdata, by its own zic, so that they reach 2100."""
    subprocess.run(["zic", "-b", "fat", "-r", "/@4102444800", "-d", folder, "/usr/share/zoneinfo/tzdata.zi"], check=True)
    return folder


def files_in(folder):
    """Each file of a folder once, by its bytes."""
    found = {path.read_bytes(): path for path in sorted(pathlib.Path(folder).rglob("*")) if path.is_file()}
    return {data: path for data, path in found.items() if len(data) <= MOST_BYTES}


def is_read(data):
    return not isinstance(zone_of(data, False), Refused)


def put(data):
    """The lines that have a file's bytes."""
    parts = [data[at:at + 30_000] for at in range(0, len(data), 30_000)]
    return [kind + part.hex().encode() for kind, part in zip([b"Z"] + len(parts) * [b"A"], parts or [b""])]


def at_second(second):
    return b"@%x" % (second % 2**64)


def civil_phrase(civil):
    """A civil second's date and time of day, without what is below a minute."""
    days, rest = divmod(civil, DAY)
    date = datetime.date.fromordinal(days + EPOCH)
    return f"{date.month}/{date.day}/{date.year} {rest // 3600}:{rest // 60 % 60:02}"


COUNTS = ["a", "1", "2", "3", "7", "11", "12", "24", "25", "31", "48", "100", "400", "5000", "4294967295"]
UNITS = ["day", "days", "hours", "minutes", "weeks", "months", "month", "years"]


class Lines:
    """Random lines: files one after another, each with calls at instants around its transitions."""

    def __init__(self, seed, real):
        self.dice = phrases.Dice(seed)
        self.real = list(real)

    def made(self):
        """A file with offsets and transitions of any kind, often close to each other and to an end."""
        d = self.dice
        offsets = [d.pick([-89_999, 93_599, 0, 3600 * (d.below(50) - 24), d.below(183_599) - 89_999, -18_000, 60 * (d.below(200) - 100)])
                   for _ in range(1 + d.below(5))]
        time = d.pick([year_start(2026), year_start(2026), year_start(2), year_start(0) - 50_000, year_start(9998), -2**63, -2**59, year_start(d.below(9998))])
        times = []
        for _ in range(d.pick([0, 1, 2, 3, 5, 8, 13, 40])):
            time += d.pick([1, 1, 59, 600, 3600, 7200, 43_200, DAY, 40 * DAY, 200 * DAY, d.below(10**9)])
            if takes_place(time):
                times.append(time)
        if d.one_in(2) and (not times or times[-1] < year_start(9999) - 1):
            times.append(year_start(9999) - 1)
        kinds = [(offset, d.below(2), d.below(4)) for offset in offsets]
        indexes = [d.below(len(kinds)) for _ in times]
        return built(times, indexes, kinds, isstd=bytes(len(kinds) if d.one_in(3) else 0), footer=d.pick([b"\n\n", b"\nEST5EDT\n", b"\n<-00>0\nx"]))

    def second(self, zone):
        """A second near a transition, or anywhere."""
        d = self.dice
        near = d.pick(zone.times) if zone.times else year_start(2026)
        if d.one_in(12):
            near = d.pick([YEAR_ONE - zone.offsets[0], year_start(2000), year_start(2026), -2**63, 2**63 - 1, zone.last if zone.times else 0])
        far = d.pick([0, 1, 2, 60, 600, 1800, 3599, 3600, 3601, 5400, 7200, d.below(7200), d.below(2 * DAY), d.below(400 * DAY), d.below(9000 * DAY)])
        second = near + d.pick([-1, 1]) * far
        return max(-2**63, min(2**63 - 1, second))

    def phrase(self, zone):
        d = self.dice
        kind = d.below(10)
        civil = self.second(zone) + d.pick(zone.offsets)
        if kind < 4 and YEAR_ONE <= civil < YEAR_TEN_THOUSAND:
            text = d.pick(["", "", "", "an hour after ", "a day before ", "a month after ", f"{d.pick(COUNTS)} {d.pick(UNITS)} after "]) + civil_phrase(civil)
            return text if d.below(4) else text.split(" ")[-2] if " " in text else text
        if kind < 7:
            parts = " and ".join(f"{d.pick(COUNTS)} {d.pick(UNITS)}" for _ in range(d.pick([1, 1, 1, 2, 3])))
            return f"{parts} {d.pick(['from now', 'ago', 'after today', 'before tomorrow', 'after noon', 'before 2:30', 'after yesterday at 1:30'])}"
        if kind == 7:
            return d.pick(["now", "today", "tomorrow", "yesterday", "noon", "midnight", "today 2:30", "friday", "next sunday", "last month", "next year",
                           "sunday in a week", "saturday in 2 months at 1:59", "this month", "25:00", "feb 29", "2/30/2026", "1/1/0", "12/31/9999 23:59"])
        return d.pick([d.phrase, d.phrase, d.ahead, d.dated, d.ordinal, lambda: d.damaged(d.phrase())])()

    def records(self):
        """A list of records that could often be run, and sometimes not."""
        d = self.dice
        start = d.pick([(1, 0), (1, 0), (3, d.below(10)), (4, d.below(3)), (5, 0), (2, 0), (d.below(13), d.below(4))])
        steps = [d.pick([(6, d.below(2)), (6, d.below(2)), (7, d.below(2)), (8, d.below(2)), (9, 0), (11, 0)]) for _ in range(d.below(5))]
        if start[0] not in (1, 2) or d.one_in(12):
            steps.insert(d.below(len(steps) + 1), (10, d.below(4)))
        return b"".join(self.record(*step) for step in [start, *steps])[:d.pick([400, 400, 400, 400, 400, 15, 16, 17])]

    def record(self, kind, form):
        d = self.dice
        numbers = [0, 0, 0]
        for k in range((FORMS.get(kind, []) + [0] * 4)[form]):
            numbers[k] = d.pick([0, 1, 2, 3, 5, 12, 24, 60, 1440, d.below(40), d.below(2100), d.below(10**6)])
        if kind == 3 and form < 6 and not d.one_in(5):
            numbers[:] = [1 + d.below(12), 1 + d.below(28), 2026 * (form < 4)]
            numbers[:3] = numbers[2:] + numbers[:2] if form == 0 else numbers
        if kind == 6 and not d.one_in(5):
            numbers[1] = 0
        if kind == 10 and form and not d.one_in(5):
            numbers[:2] = [1 + d.below(12), d.below(60)]
        if d.one_in(60):
            numbers[2] += 1
        return struct.pack("<4I", kind + 256 * form, *numbers)

    def now(self, zone):
        """An instant's second, mostly before the last transition."""
        second = self.second(zone)
        return second if second < zone.last or self.dice.one_in(4) else zone.times[-1] - 1 if zone.times else 0

    def call(self, zone):
        d = self.dice
        if d.one_in(6):
            return b"R" + self.records().hex().encode()
        text = self.phrase(zone)
        text = text if isinstance(text, bytes) else text.encode()
        return (b"0" if d.one_in(100) else d.pick([b"1", b"2", b"a", b"b"])) + text.replace(b"\n", b" ")

    def calls(self, zone, number):
        d = self.dice
        done = [b"M%x" % d.pick([0, 1, 250, 999])]
        for _ in range(number):
            if d.one_in(3):
                done.append(at_second(self.now(zone)))
            done.append(self.call(zone))
            if d.one_in(40):
                done += [b"M%x" % d.pick([1000, 2**32 - 1]), self.call(zone), b"M0"]
        return done

    def one_file(self):
        """A file with its calls; then damaged, with a few more."""
        d = self.dice
        data = d.pick(self.real) if d.one_in(2) else self.made()
        zone = zone_of(data, False)
        done = [*put(data), at_second(self.now(zone)), *self.calls(zone, 40)]
        for _ in range(d.pick([0, 2, 5])):
            at = d.below(len(data)) if d.one_in(2) else d.below(min(len(data), 300))
            done += [b"S%x%02x" % (at, d.below(256)), *self.calls(zone, 2), b"S%x%02x" % (at, data[at])]
            done += [b"T%x" % d.below(len(data)), b"1now", b"T%x" % len(data)]
        return done

    def lines(self, number):
        done = []
        while len(done) < number:
            done += self.one_file()
        return done


def every_file(files):
    """Each file with "now" at an instant of today and at its transitions' seconds, the second before and the one behind."""
    for data in files:
        yield from [*put(data), at_second(year_start(2026)), b"1now", b"anoon", b"1a month ago"]
        if is_read(data):
            yield from (b"W%x" % ((time - 1) % 2**64) for time in zone_of(data, False).times if time != 0)


def largest():
    """As many transitions as 65,536 bytes hold, and one byte too many."""
    count = (MOST_BYTES - len(built(kinds=[(0, 0, 0), (0, 0, 0)]))) // 9
    times = [year_start(2) + k * (year_start(9999) - year_start(2)) // count for k in range(count)]
    data = built(times, [k % 2 for k in range(count)], [(-3600, 0, 0), (3600, 0, 0)])
    yield from put(data.ljust(MOST_BYTES, b"\n"))
    yield from (b"W%x" % ((time - 1) % 2**64) for time in times[::97])
    yield from [b"T%x" % MOST_BYTES, b"1now", b"T%x" % (MOST_BYTES + 1), b"1now"]


def main():
    number, seed, lines_file, answers_file = sys.argv[1:]
    with tempfile.TemporaryDirectory() as folder:
        files = files_in("/usr/share/zoneinfo") | files_in(compiled(folder))
    real = [data for data in files if is_read(data)]
    lines = [*every_file(files), *largest(), *Lines(int(seed), real).lines(int(number))]
    print(len(files), "different files,", len(real), "of them read;", len(lines), "lines", flush=True)
    with open(lines_file, "wb") as out:
        out.write(in_pieces(lines))
    with open(answers_file, "w") as out:
        out.write("".join(answer + "\n" for answer in answers(lines, real)))


if __name__ == "__main__":
    main()
