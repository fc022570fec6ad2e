"""Every function with good, damaged and empty input, each refusal once, in eight threads too: every.py FUZZY_H ZONE VERSION."""

import ctypes
import math
import pickle
import random
import re
import sys
from concurrent.futures import ThreadPoolExecutor
from datetime import datetime, timedelta, timezone

import fuzzydate
from fuzzydate import Board, Due, FoundWord, Local, Reading, Reason, Refusal, Stamp, _library

NOW = datetime(2026, 2, 11, 9, 30, 15, 250_000)
LEAP_DAY = datetime(2024, 2, 29, 12)
WHOLE = datetime(2026, 3, 4, 9, 5)
TUESDAY = datetime(2026, 2, 10, 9, 30, 15, 250_000)
TUESDAYS = "FREQ=WEEKLY;INTERVAL=2;BYDAY=TU"
MILLISECOND = timedelta(milliseconds=1)
BEFORE_GAP = datetime(2026, 3, 8, 6, 30, 0, 250_000, timezone.utc)
LAST = datetime(2027, 3, 14, 7, tzinfo=timezone.utc)
FIRST_OFFSET = slice(131, 135)  # where the first offset stands in the zone's file
THREADS = 8


def expect(holds, what):
    if not holds:
        raise AssertionError(what)


def raises(kind, call, *arguments):
    try:
        given = call(*arguments)
    except kind as error:
        return error
    raise AssertionError(f"{call.__name__}{arguments} gives {given}")


def refused(reason, call, *arguments):
    refusal = raises(Refusal, call, *arguments)
    expect(refusal.reason == reason, f"{call.__name__}{arguments}: {refusal.reason!r}")
    return refusal


def array(*numbers):
    """Numbers as the library takes them."""
    return (ctypes.c_uint32 * len(numbers))(*numbers)


def moments():
    cases = [
        ("next friday", datetime(2026, 2, 20, 9, 30, 15, 250_000), datetime(2026, 2, 20, 9, 30, 15, 250_000)),
        ("5/2 at noon", datetime(2026, 5, 2, 12), datetime(2026, 5, 2, 12)),
        ("tuesday in two weeks", datetime(2026, 1, 27, 9, 30, 15, 250_000), datetime(2026, 3, 3, 9, 30, 15, 250_000)),
    ]
    for phrase, first, second in cases:
        for reading, moment in [(1, first), (Reading.SECOND, second)]:
            for form in (phrase, phrase.encode(), bytearray(phrase.encode())):
                expect(fuzzydate.read(reading, form, NOW) == moment, phrase)
                ready = fuzzydate.make_ready(reading, form)
                expect(fuzzydate.run(ready, NOW) == moment, phrase + ", made ready")
                refused(Reason.NO_SENSE, fuzzydate.run, ready[:-1], NOW)
    expect(fuzzydate.read(1, "today", datetime.max.replace(microsecond=999_000)).year == 9999, "the last moment")


def refusals():
    cases = [
        (b" " * 257, Reason.TOO_LONG, 0, b"", "longer than 256 bytes"),
        (b"forty days ago", Reason.UNKNOWN, 0, b"forty", "not understood\n    forty days ago\n    ^^^^^"),
        (b"in\ttwo\0days", Reason.UNKNOWN, 6, b"\0", "not understood\n    in two\\x00days\n          ^^^^"),
        ("at \u00e9, noon", Reason.UNKNOWN, 3, b"\xc3", "not understood\n    at \u00e9, noon\n       ^"),
        (b"at \xc3\xff", Reason.UNKNOWN, 3, b"\xc3", "not understood\n    at \\xc3\\xff\n       ^^^^"),
        (b"4294967296 days ago", Reason.LARGE_DIGITS, 0, b"4294967296", "number too large\n    4294967296 days ago\n    ^^^^^^^^^^"),
        (b"1 " * 65, Reason.TOO_MANY, 128, b"1", f"more than 64 words, numbers and marks\n    {'1 ' * 65}\n{' ' * 132}^"),
        (b"", Reason.NOTHING, 0, b"", "no date or time in it"),
        (b"five billion days ago", Reason.LARGE_SUM, 0, b"", "number in words too large\n    five billion days ago"),
        (b"5/2", Reason.LEFT_OVER, 1, b"/2", "not part of the date or time\n    5/2\n     ^^"),
        (b"this month", Reason.NO_SENSE, 0, b"", "makes no sense\n    this month"),
        (b"1000/1/1", Reason.NO_DATE, 0, b"", "no such month or day\n    1000/1/1"),
        (b"january 1, 99", Reason.NO_TIME, 0, b"", "no such time of day\n    january 1, 99"),
        (b"four billion days ago", Reason.OUTSIDE, 0, b"", "outside the years 1 to 9999\n    four billion days ago"),
    ]
    for phrase, reason, place, part, message in cases:
        refusal = refused(reason, fuzzydate.read, 1, phrase, NOW)
        expect((refusal.place, refusal.part, str(refusal)) == (place, part, message), str(refusal))
        expect((refusal.number, refusal.name, refusal.words) == (reason.value, reason.name, reason.words), message)
        expect(str(pickle.loads(pickle.dumps(refusal))) == message, "a refusal that was sent")
        if reason <= Reason.LEFT_OVER:
            expect(str(refused(reason, fuzzydate.make_ready, 1, phrase)) == message, message)
        else:
            refused(reason, fuzzydate.run, fuzzydate.make_ready(1, phrase), NOW)
    for byte in range(128, 256):
        expect(refused(Reason.UNKNOWN, fuzzydate.read, 2, bytes([byte]), NOW).part == bytes([byte]), "a byte above 127")
    refused(Reason.NO_LEAP_DAY, fuzzydate.read, 1, "a year from now", LEAP_DAY)
    no_stamp = refused(Reason.NO_STAMP, fuzzydate.read_stamp, "2026-02-30T09:30:15Z")
    expect(str(no_stamp) == "not an RFC 3339 date and time\n    2026-02-30T09:30:15Z", str(no_stamp))
    refused(Reason.OUTSIDE, fuzzydate.read_stamp, b"0000-02-29T00:00:00Z")
    refused(Reason.NOT_WHOLE, fuzzydate.write_phrase, NOW)


def below():
    """What datetime, Reading and the buffers of this binding keep from arising."""
    moment, text = (ctypes.c_uint32 * 7)(), ctypes.create_string_buffer(29)
    answers = {
        Reason.INVALID_MOMENT: _library.read(1, b"today", 5, array(2026, 2, 30, 0, 0, 0, 0), moment),
        Reason.NO_READING: _library.read(3, b"today", 5, array(2026, 2, 11, 0, 0, 0, 0), moment),
        Reason.NO_ROOM: _library.write_phrase(array(2026, 3, 4, 9, 5, 0, 0), text, 19),
        Reason.NO_STAMP: _library.write_stamp(array(2026, 3, 4, 9, 5, 0, 0, 2, 0), text, 29),
    }
    for reason, answer in answers.items():
        refused(reason, fuzzydate._checked, answer)
    expect(list(moment) == [0] * 7 and text.raw == bytes(29), "nothing written")
    newer = refused(None, fuzzydate._checked, 2 << 32 | 1 << 16 | 999, b"next")
    expect((newer.number, newer.name, newer.place, newer.part) == (999, None, 1, b"ex"), "a newer library")
    expect(str(newer) == "a refusal of a newer library: 999\n    next\n     ^^", str(newer))


def stamps():
    cases = [
        ("2026-02-11t09:30:15z", 0, "2026-02-11T09:30:15Z"),
        ("2026-02-11T09:30:15-00:00", None, "2026-02-11T09:30:15-00:00"),
        ("2026-02-11T09:30:15.5-05:00", -300, "2026-02-11T09:30:15.500-05:00"),
        ("2026-02-11T09:30:15.05+23:59", 1439, "2026-02-11T09:30:15.050+23:59"),
    ]
    for text, offset, written in cases:
        stamp = fuzzydate.read_stamp(text)
        expect(stamp.offset == offset and fuzzydate.write_stamp(stamp) == written, text)
        zone = None if offset is None else timezone(timedelta(minutes=offset))
        expect(stamp.aware() == (None if offset is None else stamp.moment.replace(tzinfo=zone)), text)
    for offset in (1440, -1440, 2**32, -(2**32), 2**64 + 5):
        refused(Reason.NO_STAMP, fuzzydate.write_stamp, Stamp(WHOLE, offset))


def words():
    cases = [
        (1, "Friday", 123, 7), (2, b"th", 160, 4), (1, "forty", None, 7), (2, "FORTY", 40, 5), (1, b"", None, 7), (2, b"fri\xff", None, 7),
    ]
    for reading, word, code, comparisons in cases:
        expect(fuzzydate.find_word(reading, word) == FoundWord(code, comparisons), word)


def phrases():
    expect(fuzzydate.write_phrase(WHOLE) == "march 4 2026 at 9:05", "a phrase")
    for moment in (WHOLE, LEAP_DAY, datetime(9999, 9, 30, 23, 59)):
        for reading in Reading:
            expect(fuzzydate.read(reading, fuzzydate.write_phrase(moment), NOW) == moment, "a phrase that was written")
    early = fuzzydate.write_phrase(datetime(26, 3, 4, 9, 5))
    expect(fuzzydate.read(1, early, NOW) == datetime(26, 3, 4, 9, 5), "a phrase of the year 26")
    expect(refused(Reason.LEFT_OVER, fuzzydate.read, 2, early, NOW).part == b"at 9:05", "a phrase of the year 26 in the second reading")


def rules():
    def on(month, day):
        return TUESDAY.replace(month=month, day=day)

    cases = [
        (TUESDAYS, 3, [TUESDAY, on(2, 24), on(3, 10)]),
        (b"freq=weekly;byday=su,tu,su;interval=02", 4, [TUESDAY, on(2, 15), on(2, 24), on(3, 1)]),
        ("FREQ=DAILY;UNTIL=20260212", 1000, [TUESDAY, on(2, 11), on(2, 12)]),
        (bytearray(b"FREQ=DAILY;UNTIL=20260212T093015"), 9, [TUESDAY, on(2, 11)]),
        ("FREQ=MONTHLY;COUNT=2", 9, [TUESDAY, on(3, 10)]),
        (TUESDAYS, 0, []),
    ]
    for rule, most, wanted in cases:
        expect(fuzzydate.occurrences(rule, TUESDAY, most) == wanted, rule)
        for moment, following in zip(wanted, wanted[1:] + [None]):
            expect(fuzzydate.next(rule, TUESDAY, moment) == moment, rule)
            if following is not None:
                expect(fuzzydate.next(rule, TUESDAY, moment + MILLISECOND) == following, rule)
            elif len(wanted) < most:
                refused(Reason.NO_NEXT, fuzzydate.next, rule, TUESDAY, moment + MILLISECOND)
    last = TUESDAY.replace(year=9999, month=12, day=31)
    expect(fuzzydate.occurrences("FREQ=DAILY", last.replace(day=30), 9) == [last.replace(day=30), last], "the last days")
    expect(fuzzydate.next("FREQ=DAILY", TUESDAY, last) == last, "the last day")
    refused(Reason.NO_NEXT, fuzzydate.next, "FREQ=DAILY", TUESDAY, last + MILLISECOND)
    for asked in (datetime.min, TUESDAY - MILLISECOND):
        expect(fuzzydate.next(TUESDAYS, TUESDAY, asked) == TUESDAY, "asked before the start")


def parts_of_milliseconds():
    """An asked moment is rounded up, past the last millisecond too; another datetime is cut only by a call that says so."""
    later = TUESDAY.replace(day=24)
    for microseconds, wanted in [(-1000, TUESDAY), (-999, TUESDAY), (-1, TUESDAY), (0, TUESDAY), (1, later), (1000, later)]:
        asked = TUESDAY + timedelta(microseconds=microseconds)
        expect(fuzzydate.next(TUESDAYS, TUESDAY, asked) == wanted, asked)
    start, after_last = datetime.max.replace(microsecond=999_000), datetime.max.replace(microsecond=999_001)
    expect(fuzzydate.next("FREQ=DAILY", start, start) == start, "the last millisecond")
    refused(Reason.NO_NEXT, fuzzydate.next, "FREQ=DAILY", start, after_last)
    refused(Reason.NO_RULE, fuzzydate.next, "FREQ=YEARLY", start, after_last)
    refused(Reason.NO_START, fuzzydate.next, "FREQ=MONTHLY;BYMONTHDAY=1", start, after_last)
    for zone in (None, timezone.utc):
        time = NOW.replace(microsecond=250_999, tzinfo=zone, fold=1)
        cut = fuzzydate.cut_to_milliseconds(time)
        expect(cut == NOW.replace(tzinfo=zone) and cut.tzinfo is zone and cut.fold == 1, "a datetime cut")


def unlisted(reason, rule):
    """A rule that both calls refuse alike, with room and without."""
    for most in (0, 2):
        refused(reason, fuzzydate.occurrences, rule, TUESDAY, most)
    refused(reason, fuzzydate.next, rule, TUESDAY, TUESDAY)


def refused_rules():
    for rule in ("", "FREQ=YEARLY", "RRULE:FREQ=DAILY", "FREQ=DAILY;", "FREQ=DAILY;COUNT=0", b"FREQ=DAILY\0", "FREQ=DAILY\u00e9"):
        unlisted(Reason.NO_RULE, rule)
    for rule in ("FREQ=WEEKLY;BYDAY=MO", "FREQ=MONTHLY;BYMONTHDAY=31", "FREQ=DAILY;UNTIL=20260210T093015"):
        unlisted(Reason.NO_START, rule)


def rows():
    """The buffers of listing and asking: rows at the front, all else unchanged, and nothing on a refusal."""
    start, daily, once, mondays = (2026, 2, 10, 9, 30, 15, 250), b"FREQ=DAILY", b"FREQ=DAILY;COUNT=1", b"FREQ=WEEKLY;BYDAY=MO"
    later, no_day = (2026, 2, 11, 9, 30, 15, 250), (2026, 2, 29, 9, 30, 15, 250)
    kept = [0xA5] * 20
    for rule, given, answer, written in [
        (daily, start, 2 << 32, [*start, *later]),
        (once, start, 1 << 32, [*start]),
        (b"FREQ=YEARLY", start, Reason.NO_RULE, []),
        (mondays, start, Reason.NO_START, []),
        (b"FREQ=YEARLY", no_day, Reason.INVALID_MOMENT, []),
    ]:
        listed = array(*kept)
        expect(_library.list_in(rule, len(rule), array(*given), listed, 20) == answer, rule)
        expect(list(listed) == written + kept[len(written) :], rule)
    for rule, given, asked, answer, written in [
        (daily, start, later, 0, [*later]),
        (once, start, later, Reason.NO_NEXT, []),
        (b"FREQ=YEARLY", start, later, Reason.NO_RULE, []),
        (mondays, start, later, Reason.NO_START, []),
        (mondays, no_day, later, Reason.INVALID_MOMENT, []),
        (daily, start, no_day, Reason.INVALID_MOMENT, []),
    ]:
        found = array(*kept)
        expect(_library.next(rule, len(rule), array(*given), array(*asked), found) == answer, rule)
        expect(list(found) == written + kept[len(written) :], rule)


def due(reading, phrase, zone, now):
    """What a phrase means at an instant in a zone, read and run."""
    local = fuzzydate.read_in_zone(reading, phrase, zone, now)
    expect(fuzzydate.run_in_zone(fuzzydate.make_ready(reading, phrase), zone, now) == local, phrase)
    return local


def undue(reason, phrase, zone, now):
    """A phrase that both calls refuse alike."""
    refused(reason, due, 1, phrase, zone, now)
    if reason > Reason.LEFT_OVER:
        refused(reason, fuzzydate.run_in_zone, fuzzydate.make_ready(1, phrase), zone, now)


def zones():
    for phrase, now, wanted in [
        ("now", "2026-03-08T06:30:00.250+00:00", "2026-03-08T01:30:00.250-05:00"),
        ("today 3:00", "2026-03-08T01:30:00.250-05:00", "2026-03-08T03:00:00-04:00"),
        (b"an hour from now", "2026-03-08T12:00:00.250+05:30", "2026-03-08T03:30:00.250-04:00"),
        ("1 day from now", "2026-03-07T14:00:00+00:00", "2026-03-08T10:00:00-04:00"),
        ("tomorrow", "2026-03-07T14:00:00+00:00", "2026-03-08T09:00:00-04:00"),
        ("2 months from now", "2026-02-08T07:30:00.999+00:00", "2026-04-08T02:30:00.999-04:00"),
        ("now", "2026-11-01T06:30:00+00:00", "2026-11-01T01:30:00-05:00"),
        ("today", "2026-11-01T06:30:00+00:00", "2026-11-01T01:30:00-04:00"),
        ("now", "1969-12-31T23:59:59.999+00:00", "1969-12-31T18:59:59.999-05:00"),
    ]:
        time = datetime.fromisoformat(wanted)
        for reading in Reading:
            local = due(reading, phrase, NEW_YORK, datetime.fromisoformat(now))
            expect(local == Local(math.floor(time.timestamp()), time.replace(tzinfo=None), time.utcoffset().total_seconds()), wanted)
            expect(local.aware() == time and local.aware().utcoffset() == time.utcoffset(), wanted)


def refused_in_zones():
    for reason, phrase, now in [
        (Reason.NO_INSTANT, "today 2:00", BEFORE_GAP),
        (Reason.NO_INSTANT, "a month from now", datetime(2026, 2, 8, 7, 30, tzinfo=timezone.utc)),
        (Reason.PAST_LAST, "2 years from now", BEFORE_GAP),
        (Reason.PAST_LAST, "now", LAST),
        (Reason.PAST_LAST, "this month", datetime.max.replace(microsecond=0, tzinfo=timezone(-timedelta(hours=23)))),
        (Reason.INVALID_MOMENT, "now", datetime.min.replace(tzinfo=timezone.utc)),
        (Reason.NO_SENSE, "this month", BEFORE_GAP),
        (Reason.NO_DATE, "1000/1/1", BEFORE_GAP),
        (Reason.NO_TIME, "january 1, 99", BEFORE_GAP),
        (Reason.OUTSIDE, "four billion days ago", BEFORE_GAP),
        (Reason.NO_LEAP_DAY, "a year from now", datetime(2024, 2, 29, 17, tzinfo=timezone.utc)),
    ]:
        undue(reason, phrase, NEW_YORK, now)
        undue(Reason.NO_ZONE, phrase, b"", now)
    refusal = refused(Reason.UNKNOWN, fuzzydate.read_in_zone, 1, "next forty", b"", LAST)
    expect((refusal.place, refusal.part) == (5, b"forty"), "a word before the zone")
    refused(Reason.NO_SENSE, fuzzydate.run_in_zone, bytes(400), NEW_YORK, BEFORE_GAP)
    refused(Reason.NO_ZONE, fuzzydate.run_in_zone, bytes(400), bytes(400), LAST)


def zone_offsets():
    """Offsets of less than 24 hours are datetime's, and others are seconds alone."""
    now = datetime(2026, 2, 1, 12, tzinfo=timezone.utc)
    for seconds in (0, 1, -1, 19_800, -17_762, 86_399, -86_399, 86_400, -86_400, 93_599, -89_999):
        zone = bytearray(NEW_YORK)
        zone[FIRST_OFFSET] = seconds.to_bytes(4, "big", signed=True)
        local = due(1, "now", zone, now)
        expect(local == Local(now.timestamp(), now.replace(tzinfo=None) + timedelta(seconds=seconds), seconds), seconds)
        expect(local.aware() == (now if abs(seconds) < 86_400 else None), seconds)
    for seconds in (93_600, -90_000, 2**31 - 1, -(2**31)):
        zone = bytearray(NEW_YORK)
        zone[FIRST_OFFSET] = seconds.to_bytes(4, "big", signed=True)
        undue(Reason.NO_ZONE, "now", zone, now)


def zone_files():
    """The file cut short, with each bit changed, and with as many bytes after it as a zone may have, and one more."""
    for length in range(len(NEW_YORK)):
        undue(Reason.NO_ZONE, "now", NEW_YORK[:length], BEFORE_GAP)
    kept = 0
    for bit in range(8 * len(NEW_YORK)):
        zone = bytearray(NEW_YORK)
        zone[bit // 8] ^= 1 << bit % 8
        try:
            due(2, "tomorrow", zone, BEFORE_GAP)
            kept += 1
        except Refusal as refusal:
            others = (Reason.INVALID_MOMENT, Reason.OUTSIDE, Reason.NO_ZONE, Reason.PAST_LAST, Reason.NO_INSTANT)
            expect(refusal.reason in others, f"bit {bit}: {refusal}")
    expect(kept > 0, "other zones")
    longest = NEW_YORK.ljust(65_536, b"\0")
    expect(due(1, "now", longest, BEFORE_GAP) == due(1, "now", NEW_YORK, BEFORE_GAP), "the longest file")
    undue(Reason.NO_ZONE, "now", longest + b"\0", BEFORE_GAP)


def buffers_in_zones():
    """The buffers of both calls: written on success, and unchanged on a refusal."""
    ready = fuzzydate.make_ready(1, "now")
    for zone, second, millisecond, answer in [
        (NEW_YORK, 1772951400, 999, 0),
        (NEW_YORK, 1772951400, 1000, Reason.INVALID_MOMENT),
        (NEW_YORK, -(2**63), 0, Reason.INVALID_MOMENT),
        (NEW_YORK, 2**63 - 1, 0, Reason.PAST_LAST),
        (b"TZif2", 1772951400, 1000, Reason.NO_ZONE),
    ]:
        for call, given in [(_library.read_in_zone, (1, b"now", 3)), (_library.run_in_zone, (ready, len(ready)))]:
            due, local = ctypes.c_int64(0xA5), array(*[0xA5] * 10)
            expect(call(*given, zone, len(zone), second, millisecond, due, local) == answer, second)
            written = [2026, 3, 8, 1, 30, 0, 999, 1, 18000] if answer == 0 else [0xA5] * 9
            expect(due.value == (second if answer == 0 else 0xA5) and list(local) == [*written, 0xA5], second)


def memory(board):
    """All bytes of a board."""
    return b"".join(map(bytes, (board._ready, board._lengths, board._keys, board._state)))


def left(board, reason, call, *arguments):
    """A call that is refused leaves every byte of its board."""
    before = memory(board)
    refusal = refused(reason, call, *arguments)
    expect(memory(board) == before, f"a board after {call.__name__}{arguments}")
    return refusal


def boards():
    board = Board(NOW)
    left(board, Reason.NOTHING_DUE, board.head)
    expect(board.order() == [], "an empty order")
    reminders = ["next friday", b"tuesday in two weeks", "noon", "an hour ago", "60 minutes ago", "this month"]
    expect([board.add(1, phrase) for phrase in reminders] == [0, 1, 2, 3, 4, 5], "slots")
    expect(board.order() == [1, 3, 4, 2, 0, 5], "an order")
    expect(board.head() == Due(1, datetime(2026, 1, 27, 9, 30, 15, 250_000)), "a head")
    expect(board.remove(1) is None and board.head() == Due(3, NOW.replace(hour=8)), "the head of equal ones")
    expect(board.add(Reading.SECOND, "tuesday in two weeks") == 1, "a slot used again")
    expect(board.order() == [3, 4, 2, 0, 1, 5], "an order with the second reading")
    expect(board.again(LEAP_DAY) is None and board.head() == Due(3, LEAP_DAY.replace(hour=11)), "the head at an older now")


def refused_boards():
    board = Board(LEAP_DAY)
    expect(board.add(1, "a year from now") == 0, "a phrase that refuses at the board's now")
    left(board, Reason.NOTHING_DUE, board.head)
    expect(board.again(NOW) is None and board.head() == Due(0, NOW.replace(year=2027)), "which has a moment at another")
    for slot in (1, 255, 256, 2**32, 2**70, -1, -(2**32)):
        left(board, Reason.EMPTY_SLOT, board.remove, slot)
    expect(left(board, Reason.UNKNOWN, board.add, 1, "next forty").part == b"forty", "the part of a refused phrase")
    expect([board.add(2, "tomorrow") for _ in range(255)] == list(range(1, 256)), "a board filled")
    left(board, Reason.FULL_BOARD, board.add, 1, "now")
    left(board, Reason.LEFT_OVER, board.add, 1, "5/2")
    expect(board.order() == [*range(1, 256), 0], "the order of a full board")
    expect(board.remove(77) is None and board.add(1, "now") == 77 and board.head() == Due(77, NOW), "a slot of a full board")
    # what datetime and Reading keep from arising
    before, no_day = memory(board), array(2026, 2, 30, 0, 0, 0, 0)
    answers = {
        Reason.INVALID_MOMENT: _library.board_again(board._ready, board._lengths, board._keys, board._state, no_day),
        Reason.NO_READING: _library.board_add(board._ready, board._lengths, board._keys, board._state, 3, b"now", 3),
    }
    for reason, answer in answers.items():
        refused(reason, fuzzydate._checked, answer)
    refused(Reason.INVALID_MOMENT, fuzzydate._checked, _library.board_make(board._lengths, board._state, no_day))
    expect(memory(board) == before, "a board after what is refused")


def any_memory(seed):
    """Whatever the memory holds, every call answers."""
    chosen, board = random.Random(seed), Board(NOW)
    for part in (board._ready, board._lengths, board._keys, board._state):
        ctypes.memmove(part, chosen.randbytes(ctypes.sizeof(part)), ctypes.sizeof(part))
    for call, arguments, reasons in [
        (board.head, (), {Reason.NOTHING_DUE}),
        (board.order, (), set()),
        (board.remove, (chosen.randrange(258),), {Reason.EMPTY_SLOT}),
        (board.add, (1, "noon"), {Reason.FULL_BOARD}),
        (board.again, (NOW,), set()),
        (board.head, (), {Reason.NOTHING_DUE}),
    ]:
        try:
            call(*arguments)
        except Refusal as refusal:
            expect(refusal.reason in reasons, f"{call.__name__} of any memory: {refusal.reason!r}")
    expect(all(slot < 256 for slot in board.order()), "an order of any memory")


def longest():
    """The most that can be wanted."""
    months = fuzzydate.occurrences("FREQ=MONTHLY", datetime.min, 2**70)
    expect(len(months) == 12 * 9999 and months[-1] == datetime(9999, 12, 1), "all months")


def names_of_datetimes():
    """An error names the parameter, and tells an aware datetime from a naive one and from a part of a millisecond."""
    aware, part = NOW.replace(tzinfo=timezone.utc), NOW.replace(microsecond=1)
    for error, words in [
        (raises(ValueError, fuzzydate.read, 1, "today", aware), "now must be a naive datetime, and is an aware one"),
        (raises(ValueError, fuzzydate.read, 1, "today", part), "now must have whole milliseconds, and has a part of one"),
        (raises(ValueError, fuzzydate.next, TUESDAYS, aware, NOW), "start must be a naive datetime, and is an aware one"),
        (raises(ValueError, fuzzydate.next, TUESDAYS, NOW, aware), "asked must be a naive datetime, and is an aware one"),
        (raises(ValueError, fuzzydate.write_phrase, aware), "moment must be a naive datetime, and is an aware one"),
        (raises(ValueError, fuzzydate.read_in_zone, 1, "today", NEW_YORK, NOW), "now must be an aware datetime, and is a naive one"),
        (raises(TypeError, fuzzydate.read, 1, "today", NOW.date()), "now must be a datetime, and is a date"),
        (raises(TypeError, fuzzydate.read_in_zone, 1, "today", NEW_YORK, NOW.date()), "now must be a datetime, and is a date"),
    ]:
        expect(str(error).startswith(words), str(error))


def misused():
    ready = fuzzydate.make_ready(1, "today")
    for now in (NOW.replace(microsecond=1), NOW.replace(tzinfo=timezone.utc)):
        raises(ValueError, fuzzydate.read, 1, "today", now)
        raises(ValueError, fuzzydate.run, ready, now)
        raises(ValueError, fuzzydate.write_phrase, now)
        raises(ValueError, fuzzydate.write_stamp, Stamp(now, 0))
        raises(ValueError, fuzzydate.occurrences, TUESDAYS, now, 1)
        raises(ValueError, fuzzydate.next, TUESDAYS, now, TUESDAY)
        raises(ValueError, Board, now)
        raises(ValueError, Board(NOW).again, now)
    for now in (NOW, BEFORE_GAP.replace(microsecond=1), BEFORE_GAP.replace(tzinfo=timezone(timedelta(microseconds=1)))):
        raises(ValueError, fuzzydate.read_in_zone, 1, "today", NEW_YORK, now)
        raises(ValueError, fuzzydate.run_in_zone, ready, NEW_YORK, now)
    for reading in (0, 3, None, 2**32 + 1):
        raises(ValueError, fuzzydate.read, reading, "today", NOW)
        raises(ValueError, fuzzydate.read_in_zone, reading, "today", NEW_YORK, LAST)
        raises(ValueError, Board(NOW).add, reading, "today")
    for phrase in (None, 5):
        raises(TypeError, fuzzydate.read, 1, phrase, NOW)
        raises(TypeError, fuzzydate.make_ready, 1, phrase)
        raises(TypeError, fuzzydate.run, phrase, NOW)
        raises(TypeError, fuzzydate.read_stamp, phrase)
        raises(TypeError, fuzzydate.find_word, 1, phrase)
        raises(TypeError, fuzzydate.occurrences, phrase, TUESDAY, 1)
        raises(TypeError, fuzzydate.next, phrase, TUESDAY, TUESDAY)
        raises(TypeError, fuzzydate.read_in_zone, 1, phrase, NEW_YORK, LAST)
        raises(TypeError, fuzzydate.read_in_zone, 1, "today", phrase, LAST)
        raises(TypeError, fuzzydate.run_in_zone, phrase, NEW_YORK, LAST)
        raises(TypeError, fuzzydate.run_in_zone, ready, phrase, LAST)
        raises(TypeError, Board(NOW).add, 1, phrase)
    raises(UnicodeEncodeError, fuzzydate.read, 1, "\ud800", NOW)
    raises(TypeError, fuzzydate.read, 1, "today", None)
    raises(TypeError, fuzzydate.read_in_zone, 1, "today", NEW_YORK, None)
    raises(ValueError, fuzzydate.occurrences, TUESDAYS, TUESDAY, -1)
    raises(TypeError, Board(NOW).remove, None)


def garbage(seed):
    chosen = random.Random(seed)
    for length in range(401):
        some = chosen.randbytes(length)
        refused(Reason.NO_SENSE, fuzzydate.run, some, NOW)
        refused(Reason.NO_STAMP, fuzzydate.read_stamp, some)
        unlisted(Reason.NO_RULE, some)
        undue(Reason.NO_ZONE, "now", some, BEFORE_GAP)
        refused(Reason.NO_SENSE, fuzzydate.run_in_zone, some, NEW_YORK, BEFORE_GAP)
        expect(fuzzydate.find_word(2, some).comparisons <= 8, "comparisons")
        try:
            fuzzydate.read(2, some, NOW)
        except Refusal as refusal:
            expect(some[refusal.place :].startswith(refusal.part), "a part")


def one_board():
    """One board that all threads add to and remove from."""
    board = Board(NOW)

    def turns(_):
        for _ in range(200):
            board.remove(board.add(1, "noon"))
            board.again(NOW)

    with ThreadPoolExecutor(THREADS) as pool:
        list(pool.map(turns, range(THREADS)))
    expect(board.order() == [], "a board of all threads")


def as_the_header(header):
    """The names, numbers and words of the refusals, and the sizes, are those of fuzzy.h."""
    numbers = dict(re.findall(r"^ *FUZZY_(\w+) = (\d+),? +/\*", header, re.M))
    said = dict(re.findall(r"case FUZZY_(\w+): return \"(.*)\";", header))
    wanted = {name: (numbers[name], said[name]) for name in numbers}
    expect({reason.name: (str(reason.value), reason.words) for reason in Reason} == wanted, "refusals of the header")
    sizes = re.findall(r"^#define FUZZY_(?!VERSION)(\w+) (\d+)$", header, re.M)
    expect(sizes != [] and all(getattr(_library, name) == int(size) for name, size in sizes), "sizes of the header")
    newer = re.search(r"default: return \"(.*)\";", header)[1]
    expect(Refusal(999, 0, 0, b"").words == newer, "words of a newer library")


def versions(version):
    """The version of the binding is that of the repository, and the library says the same of itself."""
    expect(fuzzydate.__version__ == version, f"version {version} of the binding")
    expect(fuzzydate.version() == version, f"version {version} of the library")
    for number in (1_000_000, 1_000_007, 1_999_000):
        _library.check_version(number)
    for number, said in [(999_999, "0.999.999"), (2_000_000, "2.0.0"), (0, "0.0.0")]:
        error = raises(ImportError, _library.check_version, number)
        expect("needs version 1.0.0 of its library" in str(error) and str(error).endswith(f" is {said}"), str(error))


def every(seed):
    for part in (moments, refusals, below, stamps, words, phrases, rules, parts_of_milliseconds, refused_rules, rows):
        part()
    for part in (zones, refused_in_zones, zone_offsets, zone_files, buffers_in_zones):
        part()
    for part in (boards, refused_boards, names_of_datetimes, misused):
        part()
    garbage(seed)
    any_memory(seed)


with open(sys.argv[1]) as header:
    as_the_header(header.read())
with open(sys.argv[2], "rb") as file:
    NEW_YORK = file.read()
with open(sys.argv[3]) as version:
    versions(version.read().strip())
every(0)
longest()
one_board()
with ThreadPoolExecutor(THREADS) as pool:
    list(pool.map(every, range(1, 1 + 2 * THREADS)))
print(f"bindings/python: every call answered as it should, and in {THREADS} threads at once")
