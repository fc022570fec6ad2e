#!/usr/bin/env python3
"""What phrases mean at instants of zones, worked out apart from the code: writes this program's stdin and the stdout that it must give.

Real zones are those of Debian's tzdata, compiled by its zic so that they reach 2100, and some as Debian ships them; their civil times and
instants are those of Python's zoneinfo, which is given the very bytes. All else is oracle/zones.py's, a model of document 02. The zones'
files are those that ../stdin has, so that the machine's own tzdata does not matter: tzdata 2025b's, by the zic of glibc 2.36.
Use: python3 expected.py            (it writes ../stdin and ../stdout, and prints what is in them)
     python3 expected.py --tzdata   (the same with the files of this machine)
"""
import itertools
import pathlib
import struct
import sys
import tempfile
from collections import Counter

crate = pathlib.Path(__file__).resolve().parent.parent
sys.path.insert(0, str(crate.parents[1] / "oracle"))
import zones  # noqa: E402
from zones import COUNTED, at_second, built, civil_phrase, put, year_start  # noqa: E402

DAY = 86_400

# summer times of an hour, two and half of one, less than standard, ended for Ramadan; days skipped and repeated at the date line; offsets in seconds
ZONES = """America/New_York Europe/Dublin Europe/Amsterdam Africa/Casablanca Africa/Monrovia Africa/Cairo Asia/Tehran Asia/Kolkata
Asia/Kathmandu Asia/Tokyo Asia/Manila Asia/Pyongyang Australia/Lord_Howe Pacific/Apia Pacific/Kwajalein Pacific/Kiritimati America/Sao_Paulo
America/Caracas America/Juneau America/St_Johns Antarctica/Troll Antarctica/Casey Etc/UTC""".split()

# as Debian ships them: with a last transition that is past, with none, with leap seconds; and files that are no zones
SHIPPED = "Asia/Tokyo Africa/Monrovia UTC Etc/GMT+5 right/UTC right/Asia/Tokyo Pacific/Apia".split()
NO_ZONES = "zone.tab iso3166.tab".split()

PHRASES = """now|today|today 2:00|today 2:30|today 3:00|noon|midnight|1:30|1:59|tomorrow|tomorrow at 2:30|yesterday at 1:30|an hour from now|2 hours ago
1 day from now|a day ago|24 hours from now|a week from now|a month from now|2 months from now|a month ago|a year from now|12 months ago
a day and an hour from now|an hour and a month from now|a month and an hour from now|a minute before tomorrow at 3:00|an hour after today 1:30
a month before a day after today|sunday|next sunday at 2:30|last sunday|sunday in a week|sunday a week ago|this month|next month|last year|feb 29
february 30|25:00|2:60|13 pm|3/8/2026 2:30|11/1/2026 1:30|1/1/0001|1/1/0|12/31/2099 18:59|12/31/2099 19:00|12/31/9999 23:59|1/1/10000
4294967295 weeks from now|4294967295 weeks ago|4294967295 months from now|a year after 2/29/2096 at noon|40 years from now
3000 years ago""".replace("\n", "|").split("|")

# New York in 2026: ahead of the gap, a day and a month ahead of it, the second of two half past ones, a plain day, and the last hour that is known
NOWS = [1772951400, 1772892000, 1770535800, 1793514600, 1780322415, 4102441200]


def kinds():
    """Both calls in both readings, by turns."""
    while True:
        yield from [b"1", b"b", b"2", b"a"]


turn = kinds()


def new_york(data):
    yield from put(data)
    for now in NOWS:
        yield at_second(now)
        yield b"Mfa"
        for phrase in PHRASES:
            yield from (next(turn) + phrase.encode() for _ in range(4 if now in NOWS[:4] else 2))
    yield b"M0"
    # what is refused first: 15, 1 to 7, 21, 8, 22, then 9 and the steps
    yield at_second(1772951400)
    calls = [b"3fryday", b"cfryday", b"0now", b"1fryday", b"afryday", b"1" + 257 * b" ", b"b4294967296", b"2" + 65 * b"1 ", b"1", b"a5/2",
             b"2five billion days ago", b"1now", b"anow", b"1this month", b"athis month", b"125:00", b"a25:00",
             b"R", b"R00", b"R01" + 30 * b"0", b"R02" + 30 * b"0", b"R0c" + 30 * b"0"]
    for cut in (len(data), len(data) - 1, 40):
        for millisecond in (999, 1000, 4294967295):
            for now in (1772951400, 4102444799, 4102444800, zones.YEAR_ONE + 17_762, zones.YEAR_ONE + 17_761, -2**63, 2**63 - 1):
                yield from [b"T%x" % cut, b"M%x" % millisecond, at_second(now)]
                yield from calls if now in (1772951400, 4102444800) else calls[11:14]
    yield from [b"M0", b"T%x" % len(data)]


def in_order(zone):
    """Each transition, with the offsets before it and behind it."""
    return zip(zone.times, zone.offsets, zone.offsets[1:])


def at_time(zone, civil):
    """An instant, many days before or behind, whose time of day is that of a civil second."""
    for days in (100, -100, 101, -101, 102, -102):
        try:
            return zone.settle(civil + days * DAY)
        except zones.Refused:
            pass


def real(data):
    """Around every transition: its second, the one before and the one behind; civil times at both ends and inside of what is skipped or repeated."""
    zone = zones.zone_of(data, True)
    yield from [*put(data), at_second(year_start(2000) + 12_345)]
    for k, (time, before, behind) in enumerate(in_order(zone)):
        yield b"W%x" % ((time - 1) % 2**64)
        low, high = sorted((time + before, time + behind))
        inside = [] if k % 4 else [(low + high) // 2]
        for civil in sorted({low - 60, low, *inside, high - 60, high}):
            yield next(turn) + civil_phrase(civil).encode()
        # to the second, by now's own time of day
        if low % 60 or high % 60 or k % 16 == 0:
            for civil in (low - 1, low, high - 1, high):
                now = at_time(zone, civil)
                yield from [at_second(now), next(turn) + civil_phrase(civil).split(" ")[0].encode()] if now else []


def made(data, *more):
    """A file, and "now" and a time of day at instants of it."""
    yield from put(data)
    for second in (0, *more):
        yield from [at_second(second), b"1now", next(turn) + b"noon"]


# a last transition as late as may be, and a type
ENDS, KIND = year_start(9999) - 1, (-18_000, 0, 0)


def limits():
    """Each limit of 02 on offsets and transitions, on both sides."""
    for offset in (-90_001, -90_000, -89_999, 93_599, 93_600, 93_601, -2**31, 2**31 - 1):
        yield from made(built([ENDS], kinds=[(offset, 0, 0)]), zones.YEAR_ONE - offset, zones.YEAR_ONE - offset - 1, ENDS - 1)
        yield from made(built([ENDS], kinds=[KIND, (offset, 0, 0)]))
    for year in (-1, 0, 1, 2, 3, 9998, 9999, 10_000):
        for time in (year_start(year) - 1, year_start(year)):
            yield from made(built([time]), time - 1, time)
            yield from made(built([time, ENDS], [0, 1], [KIND, (3600, 0, 0)]), time - 1, time) if time < ENDS else []
    for time in (-2**63, -2**59, 2**63 - 1):
        yield from made(built([time]), time)
        yield from made(built([time, ENDS])) if time < ENDS else []
    for times in ([5, 5], [5, 4], [4, 5], [-1, 0], [0, -1], [1, 2, 2], [1, 3, 2], [], [9], [-9]):
        yield from made(built(times), *times, -1)


def counts():
    """Each limit on indexes and counts; versions; footers."""
    for index, count in ((0, 1), (1, 1), (1, 2), (2, 2), (255, 2), (255, 256), (254, 255), (255, 255)):
        yield from made(built([ENDS], [index], count * [KIND]))
        yield from made(built([ENDS], kinds=[KIND, (0, 0, index)], names=bytes(count)))
    yield from made(built([ENDS], kinds=300 * [KIND], names=bytes(300)))
    for name in ("type", "char", "time", "leap", "isut", "isstd"):
        for count in (0, 1, 2, 3, 255, 65_536, 2**31, 2**32 - 1):
            yield from made(built([ENDS], kinds=[KIND, KIND], counts={name: count}))
    for isut in range(4):
        for isstd in range(4):
            yield from made(built([ENDS], kinds=[KIND, KIND], isut=bytes(isut), isstd=bytes(isstd)))
    for names in (b"", b"EST\0"):
        yield from made(built(kinds=[], names=names))
        yield from made(built([ENDS], kinds=[], names=names))
    yield from made(built([ENDS], leap=bytes(12)))
    yield from made(built([ENDS], leap=struct.pack(">ql", 78_796_800, 1)))
    for version in b"\0\1" + b"0123459A~\x7f\x80\xff":
        yield from made(built([ENDS], versions=bytes([version, 50])))
        yield from made(built([ENDS], versions=bytes([50, version])))
    for footer in (b"", b"\n", b"\n\n", b"\nEST5", b"\nEST5\n", b"EST5\n\n", b"\n\n\n", b"\nEST5\nmore", b"\r\n\n", b"\n\r\n", b"\0\n\n"):
        yield from made(built([ENDS], footer=footer))


def first_blocks():
    """First blocks of many kinds, skipped by their counts."""
    for counts in ((0, 0, 0, 0, 0, 0), (1, 1, 1, 1, 1, 1), (9, 0, 0, 0, 0, 0), (0, 9, 0, 0, 0, 0), (0, 0, 9, 0, 0, 0), (0, 0, 0, 9, 0, 0), (0, 0, 0, 0, 9, 0),
                   (0, 0, 0, 0, 0, 9), (5, 4, 3, 2, 1, 6)):
        isut, isstd, leap, time, kind, char = counts
        size = 5 * time + 6 * kind + char + 8 * leap + isstd + isut
        for more in (-1, 0, 1):
            before = dict(zip(COUNTED, counts)) | {"block": b"\xff" * (size + more)}
            yield from made(built([ENDS], before=before)) if size + more >= 0 else []
    for name in COUNTED:
        for count in (2**16, 2**31, 2**32 - 1, 715_827_883, 536_870_912):
            before = dict.fromkeys(COUNTED, 0) | {name: count, "block": b""}
            yield from made(built([ENDS], before=before))


def sizes():
    """Files of 65,536 bytes, and one more."""
    data = built([ENDS], footer=b"\n")
    for size in (65_535, 65_536, 65_537, 65_538):
        # what is behind the second newline; a second newline at the very end; none
        yield from [*put(data + b"\n"), b"F%x41" % size, b"1now"]
        yield from [*put(data), b"F%x41" % (size - 1), b"F%x0a" % size, b"1now"]
        yield from [*put(data), b"F%x41" % size, b"1now"]
        # a first block that takes up the rest
        room = size - len(built([ENDS])) + 7
        first = dict.fromkeys(COUNTED, 0) | {"char": room, "block": b""}
        head, rest = built([ENDS], before=first)[:44], built([ENDS], before=first)[44:]
        yield from [*put(head), b"F%x54" % (44 + room), b"A" + rest.hex().encode(), b"1now"]


def damaged(data):
    """A small file cut at every byte, and with each byte changed: those of the headers to more values."""
    yield from [*put(data), at_second(0)]
    for size in range(len(data) + 1):
        yield from [b"T%x" % size, b"1now"]
    second = data.index(b"TZif", 4)
    for at, byte in enumerate(data):
        header = at < 44 or second <= at < second + 44
        values = {byte ^ 1, byte ^ 128, 0, 255} | ({1, 2, 4, 49, 50, 51, 127, byte ^ 4, (byte + 1) % 256, (byte - 1) % 256} if header else set())
        for value in sorted(values - {byte}):
            yield from [b"S%x%02x" % (at, value), b"1now"]
            yield from [b"a1/7/1972 0:20"] if at > second + 44 else []
        yield b"S%x%02x" % (at, byte)


def thrice():
    """Transitions so close and far apart in offset that a civil time occurs three times, or that one is skipped in two steps."""
    base = year_start(2026)
    for offsets in ((72_000, 0, -72_000, 0), (-72_000, 0, 72_000, 0), (0, 36_000, -36_000, 72_000), (93_599, -89_999, 93_599, -89_999)):
        times = [base, base + 3600, base + 7200, base + 400 * DAY]
        kinds = [(offset, 0, 0) for offset in (0, *offsets)]
        yield from [*put(built(times, range(1, 5), kinds)), at_second(base - 5 * DAY)]
        yield from (next(turn) + civil_phrase(base + 1800 * step).encode() for step in range(-60, 60))
        yield from (b"W%x" % (time - 1) for time in times)


def of_this_machine():
    """The files of ZONES by its zic, and of SHIPPED and NO_ZONES as they are, of the latter as much as is needed."""
    shipped = pathlib.Path("/usr/share/zoneinfo")
    with tempfile.TemporaryDirectory() as folder:
        compiled = pathlib.Path(zones.compiled(folder))
        known = [(compiled / name).read_bytes() for name in ZONES]
    return known, [(shipped / name).read_bytes() for name in SHIPPED], [(shipped / name).read_bytes()[:4000] for name in NO_ZONES]


def of_the_list(lines):
    """The same files by the lines that put them: New York comes first and is one of ZONES too, and then they follow in their order."""
    files = [b""]
    for line in lines:
        if line[:1] == b"Z":
            files.append(b"")
        if line[:1] in (b"Z", b"A"):
            files[-1] += bytes.fromhex(line[1:].decode())
    counts = itertools.accumulate([2, len(ZONES), len(SHIPPED), len(NO_ZONES)])
    return [files[start:end] for start, end in itertools.pairwise(counts)]


def every(known, shipped, no_zones):
    """All lines."""
    files = dict(zip(ZONES, known, strict=True))
    yield from new_york(files["America/New_York"])
    for data in known:
        yield from real(data)
    for data in shipped:
        yield from made(data, year_start(2026), -3_000_000_000, 10**9)
    for data in no_zones:
        yield from made(data)
    for part in (limits, counts, first_blocks, sizes):
        yield from part()
    yield from damaged(files["Africa/Monrovia"])
    yield from thrice()
    dice = zones.Lines(5545, [files[name] for name in ("America/St_Johns", "Asia/Manila", "Antarctica/Casey")])
    yield from dice.lines(2000)


files = of_this_machine() if sys.argv[1:] == ["--tzdata"] else of_the_list((crate / "stdin").read_bytes().split(b"\n"))
lines = list(every(*files))
answers = zones.answers(lines, files[0])
assert answers == zones.answers(lines), "zoneinfo and the model differ"
(crate / "stdin").write_bytes(zones.in_pieces(lines))
(crate / "stdout").write_text("".join(answer + "\n" for answer in answers))
print(len(lines), "lines,", len(answers), "answers, by refusal:", sorted(Counter(int(answer.split()[0]) for answer in answers).items()))
