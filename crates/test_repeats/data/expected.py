#!/usr/bin/env python3
"""What listing a rule's occurrences answers, worked out apart from the code: writes this program's stdin and the stdout that it must give.

The occurrences are those of Debian's python3-dateutil (rrule, weeks from Monday). Refusals 8, 18 and 19 are judged here, from document 02.
Use: python3 expected.py   (it writes ../stdin and ../stdout, and prints what is in them)
"""
import pathlib
import random
import re
from calendar import monthrange
from collections import Counter
from datetime import date, datetime, time, timedelta
from itertools import islice

from dateutil.rrule import DAILY, MO, MONTHLY, WEEKLY, rrule

FREQS = {"DAILY": DAILY, "WEEKLY": WEEKLY, "MONTHLY": MONTHLY}
DAYS = ["MO", "TU", "WE", "TH", "FR", "SA", "SU"]
PIECE, ROOM = 65536, 7168
INVALID_MOMENT, NO_RULE, NO_START = 8, 18, 19
draw = random.Random(5545)


class Refused(Exception):
    pass


def capitals(text):
    """Letters in either case: those of ASCII."""
    return text.encode("latin-1").upper().decode("latin-1")


def number(value, least, most, form="[0-9]+"):
    """A number with any zeros in front."""
    if not re.fullmatch(form, value) or not least <= int(value) <= most:
        raise Refused(NO_RULE)
    return int(value)


def until(value):
    """The last moment: of a civil date, that day's; of a date-time, itself."""
    m = re.fullmatch("([0-9]{4})([0-9]{2})([0-9]{2})(?:T([0-9]{2})([0-9]{2})([0-9]{2}))?", value)
    try:
        n = [int(x) for x in m.groups() if x is not None]
        return datetime(*n) if m[4] else datetime.combine(date(*n), time.max)
    except (AttributeError, ValueError):
        raise Refused(NO_RULE)


def weekdays(value):
    if any(day not in DAYS for day in value.split(",")):
        raise Refused(NO_RULE)
    return {DAYS.index(day) for day in value.split(",")}


def week_start(value):
    if value != "MO":
        raise Refused(NO_RULE)


READERS = {
    "INTERVAL": lambda value: number(value, 1, 999),
    "COUNT": lambda value: number(value, 1, 4294967295),
    "UNTIL": until,
    "BYDAY": weekdays,
    "BYMONTHDAY": lambda value: number(value, 1, 31, "[+]?[0-9]+"),
    "WKST": week_start,
}


def reading(text):
    """The parts of a rule, FREQ in front of them, each once."""
    first, *parts = [part.partition("=") for part in capitals(text).split(";")]
    if first[:2] != ("FREQ", "=") or first[2] not in FREQS:
        raise Refused(NO_RULE)
    rule = {"FREQ": first[2]}
    for name, equals, value in parts:
        if name in rule or not equals or name not in READERS:
            raise Refused(NO_RULE)
        rule[name] = READERS[name](value)
    belongs = {"BYDAY": "WEEKLY", "BYMONTHDAY": "MONTHLY"}
    if "COUNT" in rule and "UNTIL" in rule or any(part in rule and rule["FREQ"] != freq for part, freq in belongs.items()):
        raise Refused(NO_RULE)
    return rule


def starting(numbers):
    *parts, millisecond = numbers
    try:
        return datetime(*parts, 1000 * millisecond)
    except ValueError:
        raise Refused(INVALID_MOMENT)


def occurrences(rule, start, most):
    """Up to so many of dateutil's. It drops what is below a second, and fails in a week that goes on behind year 9999."""
    fraction = timedelta(microseconds=start.microsecond)
    last = rule.get("UNTIL")
    if last and last.microsecond == 0 and fraction:
        last -= timedelta(seconds=1)
    days = rrule(
        FREQS[rule["FREQ"]], dtstart=start, interval=rule.get("INTERVAL", 1), wkst=MO, count=rule.get("COUNT"), until=last,
        byweekday=rule.get("BYDAY"), bymonthday=rule.get("BYMONTHDAY"))
    found = []
    try:
        for t in islice(days, most):
            found.append(t + fraction)
    except (ValueError, OverflowError):
        assert found[-1].date() > date(9999, 12, 31) - timedelta(7 * rule.get("INTERVAL", 1)), (rule, start)
    return found


def listed(numbers, room, text):
    start = starting(numbers)
    rule = reading(text)
    matches = start.weekday() in rule.get("BYDAY", {start.weekday()}) and start.day == rule.get("BYMONTHDAY", start.day)
    if not matches or start > rule.get("UNTIL", start):
        raise Refused(NO_START)
    found = occurrences(rule, start, room // 7)
    assert room < 7 or found[0] == start
    return found


def answer(case):
    try:
        found, refusal = listed(*case), 0
    except Refused as e:
        found, refusal = [], e.args[0]
    shown = found if len(found) <= 12 else found[:6] + found[-6:]
    rows = [f"{t.year} {t.month} {t.day} {t.hour} {t.minute} {t.second} {t.microsecond // 1000}" for t in shown]
    return refusal, "|".join([f"{refusal} {len(found)}", *rows, "7"])


def line(numbers, room, text):
    year, month, day, hour, minute, second, millisecond = numbers
    return f"{year:04}-{month:02}-{day:02} {hour:02}:{minute:02}:{second:02} {millisecond:04} {room:04} {text}\n".encode("latin-1")


# the edges that the papers name, from Tuesday 2026-02-10 09:30:15.250 on where nothing else is said
TUESDAY = (2026, 2, 10, 9, 30, 15, 250)
EDGES = [
    (TUESDAY, "FREQ=WEEKLY;INTERVAL=2;BYDAY=SU,TU,SU"), (TUESDAY, "FREQ=DAILY;UNTIL=20260212"),
    (TUESDAY, "FREQ=DAILY;UNTIL=20260212T093015"), (TUESDAY, "FREQ=DAILY;UNTIL=20260212T093016"), (TUESDAY, "FREQ=WEEKLY;BYDAY=MO"),
    ((2026, 1, 31, 9, 30, 15, 250), "FREQ=MONTHLY"), ((2026, 1, 31, 9, 30, 15, 250), "FREQ=MONTHLY;COUNT=4"),
    ((1896, 2, 29, 0, 0, 0, 0), "FREQ=MONTHLY;INTERVAL=12"), ((2000, 2, 29, 23, 59, 59, 999), "FREQ=MONTHLY;INTERVAL=300"),
    ((2096, 2, 29, 0, 0, 0, 0), "FREQ=MONTHLY;INTERVAL=12"), ((1, 1, 1, 0, 0, 0, 0), "FREQ=DAILY;INTERVAL=999"),
    ((1, 1, 1, 0, 0, 0, 0), "FREQ=WEEKLY;INTERVAL=999;BYDAY=MO,SU"), ((1, 1, 31, 0, 0, 0, 0), "FREQ=MONTHLY;INTERVAL=999"),
    ((9999, 12, 31, 23, 59, 59, 999), "FREQ=DAILY"), ((9999, 12, 31, 23, 59, 59, 999), "FREQ=WEEKLY;BYDAY=FR,SA,SU"),
    ((9999, 12, 31, 23, 59, 59, 999), "FREQ=MONTHLY"), ((9999, 12, 27, 0, 0, 0, 0), "FREQ=WEEKLY;BYDAY=SU,SA,FR,MO"),
    ((9999, 12, 31, 23, 59, 59, 999), "FREQ=DAILY;UNTIL=99991231"), ((9999, 12, 31, 23, 59, 59, 1), "FREQ=DAILY;UNTIL=99991231T235959"),
    (TUESDAY, "FREQ=DAILY;COUNT=" + 300 * "0" + "4294967295"), (TUESDAY, "FREQ=DAILY;INTERVAL=" + 300 * "0" + "999"),
    (TUESDAY, "FREQ=MONTHLY;BYMONTHDAY=+" + 30 * "0" + "10"), (TUESDAY, "FREQ=DAILY;COUNT=4294967296"), (TUESDAY, "FREQ=DAILY;COUNT=0"),
    (TUESDAY, "FREQ=DAILY;COUNT=18446744073709551617"), (TUESDAY, "FREQ=DAILY;INTERVAL=1000"), (TUESDAY, "FREQ=DAILY;INTERVAL=000"),
    (TUESDAY, "FREQ=DAILY;INTERVAL=4294967297"), (TUESDAY, "FREQ=MONTHLY;BYMONTHDAY=32"), (TUESDAY, "FREQ=MONTHLY;BYMONTHDAY=0"),
    ((2026, 2, 29, 0, 0, 0, 0), "FREQ=YEARLY"), ((2026, 2, 10, 24, 0, 0, 0), "FREQ=DAILY"), ((2026, 2, 10, 0, 60, 0, 0), "FREQ=DAILY"),
    ((2026, 2, 10, 0, 0, 60, 0), "FREQ=DAILY"), ((2026, 2, 10, 0, 0, 0, 1000), "FREQ=DAILY"), ((0, 2, 10, 0, 0, 0, 0), "FREQ=DAILY"),
    ((2026, 13, 10, 0, 0, 0, 0), ""), ((2026, 0, 10, 0, 0, 0, 0), "FREQ=WEEKLY;BYDAY=MO"), ((2026, 2, 0, 0, 0, 0, 9999), "FREQ=DAILY"),
]

# texts that are no rule here
OUTSIDE = """
FREQ=YEARLY FREQ=HOURLY FREQ=MINUTELY FREQ=SECONDLY FREQ= FREQ FREQ=DAILY; ;FREQ=DAILY FREQ=DAILY;;COUNT=2 RRULE:FREQ=DAILY FREQ=DAILY,WEEKLY
FREQ:DAILY FREQ==DAILY FREQ=DAILY=COUNT INTERVAL=2;FREQ=DAILY COUNT=2;FREQ=DAILY FREQ=DAILY;FREQ=DAILY FREQ=DAILY;COUNT=2;COUNT=2
FREQ=DAILY;INTERVAL=2;INTERVAL=2 FREQ=WEEKLY;BYDAY=TU;BYDAY=TU FREQ=MONTHLY;BYMONTHDAY=10;BYMONTHDAY=10 FREQ=DAILY;WKST=MO;WKST=MO
FREQ=DAILY;UNTIL=20270101;UNTIL=20270101 FREQ=DAILY;COUNT=2;UNTIL=20270101 FREQ=DAILY;UNTIL=20270101;COUNT=2 FREQ=DAILY;BYDAY=TU
FREQ=MONTHLY;BYDAY=TU FREQ=DAILY;BYMONTHDAY=10 FREQ=WEEKLY;BYMONTHDAY=10 FREQ=MONTHLY;BYMONTHDAY=-1 FREQ=MONTHLY;BYMONTHDAY=10,11
FREQ=MONTHLY;BYMONTHDAY= FREQ=MONTHLY;BYMONTHDAY=+ FREQ=MONTHLY;BYMONTHDAY=++10 FREQ=MONTHLY;BYMONTHDAY=10+ FREQ=WEEKLY;BYDAY=
FREQ=WEEKLY;BYDAY=2TU FREQ=WEEKLY;BYDAY=+1TU FREQ=WEEKLY;BYDAY=-1TU FREQ=WEEKLY;BYDAY=TU, FREQ=WEEKLY;BYDAY=,TU FREQ=WEEKLY;BYDAY=TU,,WE
FREQ=WEEKLY;BYDAY=TUE FREQ=WEEKLY;BYDAY=TUWE FREQ=WEEKLY;BYDAY=T FREQ=WEEKLY;BYDAY=TU;WE FREQ=DAILY;WKST=SU FREQ=DAILY;WKST= FREQ=DAILY;WKST=M
FREQ=DAILY;WKST=MO,MO FREQ=DAILY;INTERVAL= FREQ=DAILY;INTERVAL=+2 FREQ=DAILY;INTERVAL=-2 FREQ=DAILY;INTERVAL=2.0 FREQ=DAILY;INTERVAL=2x
FREQ=DAILY;INTERVAL FREQ=DAILY;COUNT= FREQ=DAILY;COUNT=+2 FREQ=DAILY;COUNT=1,2 FREQ=DAILY;UNTIL= FREQ=DAILY;UNTIL=2027 FREQ=DAILY;UNTIL=2027010
FREQ=DAILY;UNTIL=202701011 FREQ=DAILY;UNTIL=20270229 FREQ=DAILY;UNTIL=20271301 FREQ=DAILY;UNTIL=20270001 FREQ=DAILY;UNTIL=20270100
FREQ=DAILY;UNTIL=00000101 FREQ=DAILY;UNTIL=00000101T000000 FREQ=DAILY;UNTIL=20270101T FREQ=DAILY;UNTIL=20270101T0000 FREQ=DAILY;UNTIL=20270101T0000000
FREQ=DAILY;UNTIL=20270101T000000Z FREQ=DAILY;UNTIL=20270101Z FREQ=DAILY;UNTIL=20270101T240000 FREQ=DAILY;UNTIL=20270101T006000
FREQ=DAILY;UNTIL=20270101T235960 FREQ=DAILY;UNTIL=2027-01-01 FREQ=DAILY;UNTIL=20270229T000000 FREQ=DAILY;UNTIL=20270101-000000 FREQ=DAILY;BYHOUR=9
FREQ=MONTHLY;BYSETPOS=1 FREQ=MONTHLY;BYMONTH=2 FREQ=DAILY;X-NAME=1 FREQ=DAILY;=2 FREQ=DAILY;COUNT:2 FREQ=DAILY&COUNT=2 DAILY FREQ=DAIL FREQ=DAILYS
""".split() + ["", " FREQ=DAILY", "FREQ=DAILY ", "FREQ= DAILY", "FREQ =DAILY", "FREQ=DAILY; COUNT=2", "FREQ=DAILY;COUNT=2 ", "FREQ=DAILY;COUNT= 2",
               "FREQ=DAILY\r", "FREQ=DAILY\0", "FREQ=WEEKLY;BYDAY=TU, WE", "FREQ=DAILY;COUNT=2;", "FREQ=DA\xccLY", "FREQ=DAILY;COUNT=\xb2"]


def some_start():
    """A moment: often near an end of the calendar, at a month's end, or on 29 February."""
    year = draw.choice([1, 1, 1, 2, 4, 1896, 1999, 2000, 2024, 2026, 2027, 9990, 9996, 9998, 9999, 9999, 9999, *draw.sample(range(1, 10000), 12)])
    month = draw.randint(1, 12)
    day = draw.choice([1, 10, 28, 29, 30, 31, draw.randint(1, 31)])
    if draw.random() < 0.15:
        year, month, day = max(4, year // 4 * 4), 2, 29
    day = min(day, monthrange(year, month)[1])
    clock = draw.choice([(0, 0, 0, 0), (23, 59, 59, 999), (9, 30, 15, 250), (9, 30, 15, 0), tuple(draw.randrange(n) for n in (24, 60, 60, 1000))])
    return (year, month, day, *clock)


def some_number(n):
    return draw.choice(["", "", "", "0", "00000"]) + str(n)


def some_bound(freq, numbers, interval):
    """COUNT, or UNTIL at, right before or right behind one of the first occurrences, or anywhere."""
    if draw.random() < 0.4:
        return "COUNT=" + some_number(draw.choice([1, 2, 3, 4, 7, 12, 100, 999, 4294967295]))
    found = occurrences({"FREQ": freq, "INTERVAL": interval}, starting(numbers), 5)
    t = draw.choice([found[-1], draw.choice(found), draw.choice(found)])
    try:
        t += draw.choice([timedelta(0), timedelta(0), timedelta(seconds=1), timedelta(seconds=-1), timedelta(1), timedelta(-1), timedelta(400)])
    except OverflowError:
        pass
    stamp = f"{t.year:04}{t.month:02}{t.day:02}"
    return "UNTIL=" + (stamp if draw.random() < 0.4 else f"{stamp}T{t.hour:02}{t.minute:02}{t.second:02}")


def some_days(numbers, matching):
    """Weekdays with repeats, the start's own among them where they are to match."""
    own = DAYS[starting(numbers).weekday()]
    days = [draw.choice(DAYS) for _ in range(draw.randint(1, 8))]
    days = [*days, own] if matching else [day for day in days if day != own] or [draw.choice([day for day in DAYS if day != own])]
    draw.shuffle(days)
    return "BYDAY=" + ",".join(days)


def some_rule(freq, numbers, matching):
    interval = draw.choice([1, 1, 2, 3, 4, 5, 6, 7, 11, 12, 13, 24, 48, 52, 100, 300, 400, 999, *draw.sample(range(1, 1000), 9)])
    parts = [f"INTERVAL={some_number(interval)}"] if interval > 1 or draw.random() < 0.2 else []
    if draw.random() < 0.6:
        parts.append(some_bound(freq, numbers, interval))
    if freq == "WEEKLY" and (not matching or draw.random() < 0.7):
        parts.append(some_days(numbers, matching))
    if freq == "MONTHLY" and (not matching or draw.random() < 0.5):
        day = numbers[2] if matching else draw.choice([d for d in range(1, 32) if d != numbers[2]])
        parts.append("BYMONTHDAY=" + draw.choice(["", "", "+"]) + some_number(day))
    if draw.random() < 0.2:
        parts.append("WKST=MO")
    draw.shuffle(parts)
    text = ";".join([f"FREQ={freq}", *parts])
    return draw.choice([text, text, text.lower(), text.title(), "".join(draw.choice([c, c.lower()]) for c in text)])


def some_room():
    """In numbers: seldom less than a row's, often a part of a row more than whole ones."""
    if draw.random() < 0.03:
        return draw.randrange(7)
    return draw.choice([7, 13, 14, 20, 21, 28, 35, 41, 42, 42, 49, 56, 70, 84, 91, 700, ROOM])


def cases():
    for numbers, text in EDGES:
        yield from [(numbers, 35, text), (numbers, ROOM, text)]
    for text in OUTSIDE:
        yield TUESDAY, 14, text
    # every byte of a rule left out, doubled and changed
    for text in ["FREQ=WEEKLY;INTERVAL=3;COUNT=4;BYDAY=TU,SA;WKST=MO", "freq=monthly;until=20260610t093016;bymonthday=+10"]:
        for k in range(len(text)):
            yield from [(TUESDAY, 14, text[:k] + x + text[k + 1:]) for x in ("", 2 * text[k], draw.choice("0123456789;,=+-TZtz \x7f\xff"))]
    for freq in FREQS:
        for k in range(840):
            numbers = some_start()
            yield numbers, some_room(), some_rule(freq, numbers, k % 40 != 0)


def in_pieces(lines):
    """As bytes in pieces that end with a line: line feeds fill them up, and are passed over."""
    pieces = [b""]
    for text in lines:
        if len(pieces[-1]) + len(text) > PIECE:
            pieces[-1] = pieces[-1].ljust(PIECE, b"\n")
            pieces.append(b"")
        pieces[-1] += text
    assert len(pieces) <= 4
    return b"".join(pieces)


listings = list(cases())
answers = [answer(case) for case in listings]
crate = pathlib.Path(__file__).resolve().parent.parent
(crate / "stdin").write_bytes(in_pieces(line(*case) for case in listings))
(crate / "stdout").write_text("".join(text + "\n" for _, text in answers))
print(len(listings), "lines, by refusal:", sorted(Counter(refusal for refusal, _ in answers).items()))
rules = {capitals(text) for (_, room, text), (refusal, _) in zip(listings, answers) if refusal == 0 and room >= 7}
print(len(rules), "different rules are listed with room for one row or more")
