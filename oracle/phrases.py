#!/usr/bin/env python3
"""The fixed lists of lines NOW|PHRASE, the same at every run; and the makers of random phrases.

    phrases.py > crates/test_replay/stdin               the list for reading 1
    phrases.py --reading 2 > crates/test_second/stdin   the list for reading 2

Each section below takes the alternatives of one parser or one rule of documents 01 and 02, taken and given up, on both
sides of each limit.
"""

import datetime
import re
import sys

from model import KEYWORDS, Month, READINGS_TABLE, SECOND, TABLE, Weekday, escape

A = "2026-02-11 09:30:15"
B = "2024-02-29 12:00:00"

# Nows at both ends of the calendar, on and beside 29 February, in century years, at ends of months, years and days
NOWS = [
    A, B,
    "0001-01-01 00:00:00", "0001-01-01 23:59:59", "0001-01-02 00:00:00", "0001-01-07 12:00:00", "0001-03-31 06:07:08",
    "0004-02-29 01:02:03", "0100-02-28 10:00:00", "0999-12-31 23:59:59", "1600-02-29 00:00:00", "1900-02-28 23:59:59",
    "1999-12-31 23:59:59", "2000-01-01 00:00:00", "2000-02-29 08:00:00", "2023-10-31 17:45:00", "2024-01-31 00:00:01",
    "2024-12-30 05:00:00", "2025-03-01 00:00:00", "2026-01-04 09:00:00", "2100-02-28 15:00:00", "2100-03-01 00:00:00",
    "9600-02-29 12:34:56", "9996-02-29 00:00:00", "9999-01-01 00:00:00", "9999-11-30 10:10:10", "9999-12-27 00:00:00",
    "9999-12-31 00:00:00", "9999-12-31 23:59:59",
]

# Nows that are none: no such date or time, a year out of range, another form
NO_NOWS = [
    "2026-02-29 00:00:00", "2026-13-01 00:00:00", "2026-00-10 00:00:00", "2026-01-00 00:00:00", "2026-04-31 00:00:00",
    "1900-02-29 00:00:00", "2026-01-01 24:00:00", "2026-01-01 00:60:00", "2026-01-01 00:00:60", "2026-1-1 00:00:00",
    "0000-01-01 00:00:00", "0000-12-31 23:59:59", "", "now", "2026-02-11T09:30:15", "2026-02-11 09:30:15 ",
    "12026-02-11 09:30:15", "2026-02-11 09:30", "-026-02-11 09:30:15", "2026/02/11 09:30:15",
]

UNITS = ["day", "week", "month", "year", "hour", "minute"]
WEEKDAYS = [name.lower() for name in Weekday.NAMES]
MONTHS = [name.lower() for name in Month.NAMES]
SPECIFIERS = ["this", "next", "last"]

# Literals on both sides of each limit in `Ones` to `Num`, and of u32 and i32
LITERALS = [
    "0", "1", "9", "10", "19", "20", "21", "99", "100", "101", "999", "1000", "1001", "9999", "10000", "2147483647",
    "2147483648", "4294967295", "4294967296", "00", "007", "0000000000000000001", "00000000000000000020",
    "000000000000000000021", "99999999999999999999",
]

NUMBERS = LITERALS + [
    "zero", "one", "nine", "ten", "nineteen", "twenty", "twenty one", "twenty-one", "twenty-", "twenty ten", "twenty-ten",
    "ninety nine", "ninety-nine", "fourty", "forty", "fourtieth", "eight", "eigth", "eighth", "second", "third",
    "hundred", "a hundred", "one hundred", "hundred one", "hundred and one", "one hundred and one", "hundred and",
    "one hundred and", "nine hundred ninety-nine", "nine hundred and ninety nine", "ten hundred", "hundred hundred",
    "two hundred and 5", "2 hundred 50", "2 hundred and 15th", "2nd hundred", "10 hundred", "hundred 100", "hundred 99",
    "thousand", "one thousand", "thousand one", "thousand and one", "thousand and", "one thousand and",
    "one thousand two thousand", "thousand thousand", "thousand thousand thousand", "one thousand and million",
    "million", "billion", "one billion one million one thousand one hundred and one", "hundred thousand",
    "999 thousand 999", "1000 thousand", "5 thousand 2000", "5 thousand and 2000", "twenty-five thousand and twenty-",
    "two billion one hundred fourty-seven million four hundred eighty-three thousand six hundred fourty-seven",
    "two billion one hundred fourty-seven million four hundred eighty-three thousand six hundred fourty-eight",
    "four billion two hundred ninety-four million nine hundred sixty-seven thousand two hundred ninety-five",
    "four billion two hundred ninety-four million nine hundred sixty-seven thousand two hundred ninety-six",
    "four billion 294967295", "four billion 294967296", "four billion and 294967296", "billion 3294967295",
    "billion 3294967296", "five billion", "billion billion billion billion", "billion billion billion billion billion",
    "999 million", "999 billion", "billion four billion", "one billion four billion", "four billion and four billion",
    "five billion and", "thousand five billion", "thousand and five billion",
    "1st", "2nd", "3rd", "4th", "0th", "1 st", "9th", "10th", "19th", "20th", "24th", "100th", "101st", "999th", "1000th",
    "1001st", "first", "first st", "tenth", "tenth th", "twentieth", "twenty first", "twenty-first", "twenty st",
    "twentieth th", "hundredth", "two hundredth", "hundred st", "hundred 5th", "thousandth", "th", "st",
]

# Where a number may stand
NUMBER_PLACES = ["{} days ago", "{}", "march {}", "march 1 {}", "{} march 2020", "1/{}/2020", "{}/1/1", "today 5:{}"]

DATES = [
    "today", "tomorrow", "yesterday", "march", "march 3", "march 3 2024", "march 3, 2024", "march third", "march 3rd 1999",
    "march 0", "march 31", "march 32", "april 31", "february 28", "february 29", "february 30", "february 29 1900",
    "february 29 2000", "february 29 2023", "february 29 2024", "feb 29 0", "feb 30 0", "feb 29 10000", "feb 30 10000",
    "feb 29 9996", "jan 1 1", "dec 31 9999", "jan 1 10000", "dec 31 0", "march 3 22", "march 3 99", "march 3 100",
    "march march", "march 3 march", "5 march", "5 march 2024", "5 march 24", "5th of march", "5th march 2024",
    "32 march 2024", "29 february 2023", "29 february 2024", "5 march 2024 5",
    "101st march 2024", "102nd march 2024", "103rd march 2024", "104 st march 2024", "twenty-march 2024", "5/2", "5/2/2022",
    "5-2-2022", "5.2.2022", "2022/5/2", "2022-5-2", "2022.5.2", "1000/1/1", "1001/1/1", "1000-1-1", "1001.1.1",
    "13/1/2022", "1/32/2022", "0/1/2022", "1/0/2022", "1/1/0", "1/1/1", "1/1/99", "1/1/100", "1/1/22", "1/1/36", "1/1/37",
    "1/1/2036", "2/29/2023", "2/29/2024", "2/29/1900", "2/29/0", "2/30/0", "2/29/4", "2/29/96", "2/29/99", "13/1/10000",
    "1/1/9999", "12/31/9999", "1/1/10000", "9999/12/31", "10000/1/1", "10000/13/1", "4294967295/1/1", "2147483648/1/1",
    "1/1/4294967295", "1/1/2147483648", "1/1/262143", "1/1/262144", "5/2/", "5/", "/5", "5/2-2022", "5-2/2022", "5.2/2022",
    "5/2.2022", "5/2/x", "5/2/march", "5//2", "5/2//2022", "5/march/2022", "five/two/2022", "twenty-five/two/2022",
    "twenty-5-2022", "twenty-5-2-2022", "2022-twenty-5", "5-twenty-2022", "5/2 ", "5/2,", "5/2 at", "5.2 at", "5-2 at",
    "5/2 at noon", "5.2 at noon", "5-2 at noon", "13/1 at noon", "2/29 at noon", "2/30 at noon", "29.2 at noon",
    "1001/1 at noon", "0/0 at noon", "1/2/3/4", "1.2.3.4", "1-2-3-4", "2022-05-02", "2022-5-2 5:00", "1001-2 at noon",
]

# Tails behind a date or a weekday: taken whole, given up, swallowed
TAILS = (
    [""] + [f"{s} {u}" for s in SPECIFIERS for u in UNITS] + [f"{s}" for s in SPECIFIERS] + [f"{s} 5:00" for s in SPECIFIERS]
    + [f"a {u} ago" for u in UNITS] + [f"in a {u}" for u in UNITS] + [f"in 3 {u}s" for u in UNITS]
    + ["next friday", "this next week", "3 days", "3 days before", "3 hours", "3 hours 5:00", "3 days 5:00", "in", "in 5:00",
       "in 3", "in hours", "in an hour 5:00", "in two weeks at noon", "in a year and a month", "in a year and an hour",
       "a year and a month ago", "a year and an hour ago", "two weeks ago at noon", "two weeks ago, 5 pm", "two weeks and ago",
       "two weeks and 5:00", "0 days ago", "in 0 days", "in 0 years", "five billion days ago", "in five billion days",
       "4294967295 years ago", "in 4294967295 years", "in 4294967295 months", "4294967295 weeks ago", "in 9999 years",
       "2025 years ago", "2026 years ago", "in 7973 years", "in 7974 years", "ago", "at", ",", "at noon", ", noon", "noon",
       "at 5", "at 5 pm", "at 17:45", "at 24:00", "at 5:60", "on", "on monday", "from now", "monday", "today"]
)

TIMES = (
    [f"{h} am" for h in range(0, 15)] + [f"{h}:30 pm" for h in range(0, 15)] + [f"{h}" for h in (0, 1, 12, 13, 23, 24, 25)]
    + ["0:00", "0:59", "0:60", "12:59 am", "12:60 am", "12:59 pm", "23:59", "23:60", "24:00", "24:00 am", "100 pm", "99 am",
       "13 pm", "23:59 pm", "0:00 am", "midnight", "noon", "midnight am", "noon pm", "5:", "5: pm", "5:am", "5::30", ":30",
       "5:30:15", "five thirty", "five thirty pm", "five:thirty pm", "twelve pm", "twenty-three:fifty-nine", "5 30 pm", "am",
       "pm", "5pm", "5:30pm", "5:30 PM", "4294967295:4294967295", "4294967295 pm", "5 pm pm", "5 am pm", "5th pm", "0 pm"]
)

# Words around a time
TIME_PLACES = ["{}", "today {}", "today, {}", "friday at {}", "{} today", "{}, today", "{} on friday", "{} on", "an hour before {}"]

DURATIONS = (
    [f"{a} {u}" for a in ("a", "an", "the", "1", "two", "0", "25", "1000") for u in UNITS]
    + ["a", "the", "5", "a 5 days", "a day and", "a day and a week", "a day and 5", "a day and a", "a day and an hour",
       "a month and a day", "a day and a month", "a year and a month and a week and a day", "an hour and 30 minutes",
       "1 day 2 hours", "a day, a week", "a day and and a week", "one hundred and one days", "one hundred and days",
       "thousand and a day", "thousand and days", "12 months", "48 months", "1200 months", "4800 months", "24318 months",
       "24313 months", "400 years", "36500 days", "146097 days", "3652058 days", "3652059 days", "4294967295 minutes",
       "4294967295 hours", "4294967295 days", "4294967295 months", "4294967295 years", "2147483647 years",
       "2147483648 years", "2147483648 months", "2147483647 months", "4 years", "days", "a days", "the 5 days"]
)

DURATION_PLACES = ["{}", "{} ago", "{} from now", "{} after now", "{} before now", "{} after", "{} from today",
                   "{} before today", "{} after tomorrow 5 pm", "{} from march 31", "{} before friday", "{} after 5:00",
                   "in {}", "{} ago at noon", "{} ago ago", "friday {} ago", "jan 31 in {}", "{} before a day ago"]

# Durations with the word behind them, that a chain is made of
LINKS = ["a day after", "2 months before", "a year from", "90 minutes before", "a week and a day after", "13 hours from"]

# Phrases that reach the ends of the calendar, month ends, 29 February, weeks across years
AT_EVERY_NOW = (
    ["now", "today", "tomorrow", "yesterday", "noon", "midnight", "a minute ago", "a minute from now", "an hour ago",
     "an hour from now", "24 hours ago", "24 hours from now", "a month ago", "a month from now", "a year ago",
     "a year from now", "4 years ago", "4 years from now", "12 months ago", "12 months from now", "1 month after yesterday",
     "next month", "last month", "next year", "last year", "next week", "last week", "next day", "last day", "february 29",
     "feb 29 next year", "feb 28 next year", "jan 31 last year", "5 days before 5 days from now",
     "5 days after 5 days ago", "a year after a day ago", "a year before a day from now", "monday a week ago",
     "sunday in a month", "wednesday a year ago", "monday 0 days ago", "sunday 0 days ago", "friday in 0 weeks",
     "thursday a day and a month ago", "monday last week", "sunday this week", "friday next week", "1 month after jan 31",
     "a month before march 31", "a year after feb 29 2024", "a year before feb 29 2024", "100 years after feb 29 2000",
     "400 years after feb 29 2000", "a minute before midnight", "a minute after midnight", "2 hours after 11 pm",
     "1 month and 1 month from now", "2 months from now", "1/1/22", "5/5/36"]
    + WEEKDAYS + [f"{s} {d}" for s in SPECIFIERS for d in ("monday", "wednesday", "friday", "saturday", "sunday")]
)

QUIRKS = [
    "next friday", "friday next", "friday next 5:00", "friday next month", "friday next week", "friday last", "friday this 7",
    "friday 3 days", "friday 3 days 5:00", "friday in", "friday in 5", "friday in 5:00 pm", "friday in 3 hours",
    "friday 3 hours ago", "march 3 next", "march 3 3 days", "march 3 in", "march 3 in 3 hours", "march 3 3 hours ago",
    "next next friday", "next", "this", "last", "next 5", "next march", "this today", "next now", "now now", "now 5:00",
    "now ago", "now next week", "in 3 days", "in two weeks", "at noon", "on friday", "at friday", "5 on friday",
    "5, friday", "5 friday", "noon on", "noon,", "noon at", "today on", "today at", "today,", "today, at 5", "today at, 5",
    "a day from", "a day after", "a day before", "a day", "a day ago ago", "a day before yesterday",
    "a day after the day after tomorrow", "the day after tomorrow", "the day before yesterday", "an hour before the day ago",
    "a month after march 31 at noon", "an hour after march 31 at noon", "a week from friday", "a week after next friday",
    "two weeks from monday next week", "3 days after 5/2", "3 days after 5/2 at noon", "3 hours after 5/2 at noon",
    "3 hours after 5", "3 days after 5", "3 days after 5 pm", "january 1, 2010", "january 1 2010 5:00",
    "fifty-five days from january 1, 2010 5:00", "Five days after 2/12/22 5:00 PM", "tomorrow at at 5pm", "Hello World",
    "this month", "this year", "this hour", "next hour", "last minute", "this day", "next day 5 pm", "5 pm next month",
    "second day", "second second", "a second ago", "three seconds ago", "sunday sunday", "may", "may may", "may 5", "mar 5",
    "sept 5", "sep 5", "mon", "tue", "thurs", "5 o'clock", "5 days", "days ago", "ago", "and", "a day and ago", "-5 days ago",
    "5-days ago", "twenty-days ago", "5.5 days ago", "1,000 days ago", "1 000 days ago", "5days ago", "5daysago", "5th",
    "fivedays ago", "24th march 2020", "4th march 2020", "100th day ago", "5 st days ago", "20 st days ago", "+5 days ago",
    "tuesday in two weeks", "tuesday two weeks ago", "tuesday two weeks", "tuesday in two", "tuesday at 5 in two weeks",
    "a year from now and a day", "a year and a day from now", "5 pm a day ago", "5 pm 3 days ago", "5 3 days ago",
    "5 days ago 5", "5 days ago, 5 pm", "5 days ago at", "5 hours ago at 5", "today today", "monday tuesday",
    "1may0", "may1 0", "1may1", "1may9999", "1may10000", "5 years from 2/29/2024", "4 years from 2/29/2024",
    "9999 years from today", "0 years from now", "0 months ago",
]


def joined(*parts):
    return " ".join(part for part in parts if part)


def close_up(parts):
    """The parts as one phrase, with blanks only where two words or two numbers would run together."""
    phrase = parts[0]
    for part in parts[1:]:
        together = phrase[-1].isalpha() and part[0].isalpha() or phrase[-1].isdigit() and part[0].isdigit()
        phrase += " " + part if together else part
    return phrase


def words_section():
    """Every word: alone, in capitals, one letter short, one letter long, and inside phrases."""
    for word in KEYWORDS:
        yield from (word, word.upper(), word[:-1], word + "x", f"{word} days ago")


def bytes_section():
    """Every byte: alone, and between the parts of a phrase."""
    for b in range(256):
        yield bytes([b])
        yield b"5" + bytes([b]) + b"days ago"


def text_section():
    """Letters and white space outside ASCII, and bytes that are no UTF-8."""
    for text in ("wee\u212a ago", "a wee\u212a ago", "a wee\u212A from now", "a\u00a0day ago", "a\u2003day ago", "a\u3000day ago",
                 "\u0130n", "\u00e9", "5\u0663 days ago", "a day\u200b ago", "\ufeffnow", "now\u2028", "\u00a0", "m\u00e4rz 5"):
        yield text.encode()
    yield from (b"a\x0bday ago", b"a\rday ago", b"now\r", b"5\r", b"a\x0cday ago", b"a\x1fday ago", b"a\x85day ago", b"\xc2", b"a \xff")
    yield from (b"\xe2\x84 now", b"now \xf0\x9f\x98\x80", b"\xc0\xa0now", b"a\tday\tago", b"\tnow\t", b" \t ", b"now\x00")


def limits_section():
    """256 bytes, 64 lexemes and 20 characters, on both sides; what is judged before it is counted."""
    for length in (255, 256, 257, 300):
        yield from ("now".ljust(length), "now".rjust(length), " " * length, "x" * length, "." * length, "foo".rjust(length))
        yield from ("5".rjust(length, "0"), "5 days ago".rjust(length, "0"), "9" * length, ("a day and " * 99)[:length])
    for count in (15, 19, 20, 21, 22):
        chain = "a day and " * count
        yield from (chain + "a day ago", chain + "a day from now", chain + "a day", chain, chain + "a day from today at")
        yield from ("friday " + chain + "a day ago", "3/4/2020 in " + chain + "a day", chain + "foo", chain + "a day from foo")
        yield from ("an hour after " * count + "now", "an hour after " * count + "noon", "a day before " * count + "friday")
    for count in (62, 63, 64, 65, 66):
        yield from (". " * count, "-" * count, "5 " * count, "thousand " * count, "th " * (count - 1) + "now")
        yield from ("." * count + "foo", "." * count + "4294967296", "." * count + "?", "." * (count - 3) + "a day ago")
        yield from ("," * count + "  5", "," * count + "12 days", "," * count + "monday", "," * count + "\\")
    yield "1st day and " * 2 + "1day and " * 18 + "1day ago"
    for digits in (1, 9, 10, 11, 19, 20, 21, 22, 40):
        yield from ("5".rjust(digits, "0") + " days ago", "9" * digits, "march " + "3".rjust(digits, "0") + "rd")
    for letters in (11, 12, 19, 20, 21, 40):
        yield from ("a" * letters, "a day " + "b" * letters, "seventeenth".rjust(letters, "x"), "x" * letters + "5", "x" * letters + ",")
    yield from ("4294967295", "4294967296", "04294967296", "4294967295 4294967296", "foo 4294967296", "4294967296 foo", "5 foo bar")


def chains_section():
    """Durations over durations: mixed directions and units, hours over dates, overflow deep inside."""
    bases = ["now", "today", "noon", "friday", "next friday", "march 31", "2/29/2024 5 pm", "a day ago", "5/2", "foo", "march", ""]
    for first in LINKS:
        for second in LINKS:
            for base in bases:
                yield joined(first, second, base)
    for links_count in (5, 10, 15):
        yield joined(*(LINKS * 3)[:links_count], "now")
        yield joined(*(LINKS * 3)[:links_count], "five billion days ago")


def fixed_list():
    """Every line of the list for reading 1, each once, in order."""
    lines = [(now, phrase) for now, phrase, _ in TABLE]
    for section in (words_section, bytes_section, text_section, limits_section, chains_section):
        lines += [(A, phrase) for phrase in section()]
    lines += [(A, place.format(number)) for number in NUMBERS for place in NUMBER_PLACES]
    lines += [(now, date) for date in DATES for now in (A, B)]
    lines += [(now, f"{month} {day}") for month in MONTHS for day in range(28, 33) for now in (A, B)]
    lines += [(A, f"{count} months after jan 31") for count in range(25)]
    lines += [(A, joined(date, tail)) for tail in TAILS for date in ("march 31", "5/2", "2/29/2024", "today", "friday", "5 march 2024")]
    lines += [(A, place.format(time)) for time in TIMES for place in TIME_PLACES]
    lines += [(A, place.format(duration)) for duration in DURATIONS for place in DURATION_PLACES]
    lines += [(now, phrase) for now in NOWS for phrase in AT_EVERY_NOW]
    lines += [(now, phrase) for phrase in QUIRKS for now in (A, "2023-10-31 17:45:00")]
    lines += [(now, phrase) for now in NO_NOWS for phrase in ("now", "5/2", "foo", "this month", "a day ago", "5/2 at 25")]
    dice = Dice(1)
    lines += [(dice.pick(NOWS), dice.damaged(dice.pick(QUIRKS + AT_EVERY_NOW))) for _ in range(600)]
    lines += [(dice.pick(NOWS), dice.phrase()) for _ in range(600)]
    lines += [(dice.pick(NOWS), dice.soup()) for _ in range(300)]
    lines += [(dice.pick(NOWS), dice.chain()) for _ in range(300)]
    return as_lines(lines)


def as_lines(pairs):
    """`NOW|PHRASE` for each pair, each line once."""
    made = (f"{now}|{escape(phrase if isinstance(phrase, bytes) else phrase.encode())}" for now, phrase in pairs)
    return list(dict.fromkeys(made))


# Durations behind a weekday and "in": each unit, in digits and words, joined ones, some with hours or minutes
AHEAD = (
    [f"{count} {unit}" for count in ("a", "0", "two") for unit in UNITS]
    + ["an week", "the day", "the month", "1 year", "3 weeks", "6 days", "7 days", "13 months", "24th day", "25 weeks",
       "twenty-one days", "one hundred and one days", "a thousand days", "thousand days", "fourty months", "a second week",
       "a day and a week", "a week and a day", "a month and a day", "a day and a month", "a month and a year", "a month and a month",
       "a year and a month and a week and a day", "0 days and 0 weeks", "a day and an hour", "an hour and a day", "30 minutes"]
)

# Durations on both sides of each limit, from A
AHEAD_LIMITS = (
    [f"{count} {unit}s" for count in (2147483647, 2147483648, 4294967295, 4294967296) for unit in UNITS]
    + ["7973 years", "7974 years", "9999 years", "95686 months", "95687 months", "416056 weeks", "416057 weeks", "416058 weeks",
       "2912393 days", "2912394 days", "2912395 days", "2912400 days", "2912401 days", "2912402 days", "four billion days",
       "five billion days", "a day and five billion days", "a year and five billion hours", "an hour and five billion days",
       "7973 years and 10 months", "7973 years and 11 months", "4294967295 days and five billion days"]
)

# What else may stand behind "in": no duration, half of one, lexemes left over
NOT_AHEAD = [
    "", "5", "5:00", "5 pm", "at noon", ", noon", "noon", "hours", "days", "two", "a", "the", "a day and", "a day and 5", "a day and a",
    "zero days", "a 5 days", "5 st days", "a day ago", "a day ago at noon", "a day a week", "a day, a week", "a day from now",
    "a day after today", "foo", "in a day", "a day in a week", "march", "march 3", "friday", "next week", "next", "and", "in", "now",
    "an hour 5:00", "an hour ago", "an hour and a day 5:00", "a week next", "a week next week", "a week and 5:00", "a week friday",
]

# Phrases around a weekday with "in" and a duration
AHEAD_PLACES = (
    ["{}", "{} at noon", "{}, noon", "{} noon", "{} at 5 pm", "{}, 17:45", "{} 5:00", "{} midnight", "{} at", "{},", "{} on", "{} 5",
     "{} at 24:00", "{} at 5:60", "{} at 13 pm", "{} 5 6", "{} on monday", "{} now", "{} ago", "{} at noon ago", "{} 5 days ago",
     "5 pm on {}", "noon, {}", "noon {}", "25:00 {}", "5 on {}", "5 {}", "noon on {} at 5", "{} {}", "{}, {}", "now {}", "next {}",
     "on {}", "at {}", "in {}", "the {}", "march 3 {}", "today {}", "a day and {}", "a day {}", "an hour before {} at noon",
     "a month after noon on {}", "five billion days after {}", "9999 years before {}", "0 minutes after {}"]
    + [f"{link} {{}}" for link in LINKS] + [f"{first} {second} {{}}" for first in LINKS for second in LINKS]
)

# Phrases with a weekday and "in" that read as in reading 1, and others close to them
NEAR_AHEAD = [
    "tuesday in in two weeks", "tuesday two weeks", "tuesday two weeks in", "tuesday two weeks ago",
    "tuesday two weeks ago in two weeks", "tuesday next in two weeks", "next tuesday in two weeks", "this tuesday in two weeks",
    "last friday in a week", "tuesday next week in two weeks", "tuesday, in two weeks", "tuesday at in two weeks",
    "tuesday at 5 in two weeks", "tuesday 5 pm in two weeks", "tuesday noon in two weeks", "in two weeks tuesday", "in two weeks",
    "in two weeks on tuesday", "two weeks from tuesday", "two weeks after tuesday", "two weeks in tuesday", "two weeks tuesday",
    "tuesday from two weeks", "tuesday after two weeks", "tuesday and two weeks", "tuesday in", "tuesday wednesday in two weeks",
    "tuesday in wednesday in two weeks", "tuesday in two weeks in two weeks", "tuesday - in two weeks", "today in two weeks",
    "tomorrow in two weeks", "yesterday in a month", "march 3 in two weeks", "march 31 in a month", "5/2 in two weeks",
    "5/2/2022 in two weeks", "2/29/2024 in a year", "5 march 2024 in a day", "now in two weeks", "noon in two weeks",
    "a day in two weeks", "next week in two weeks", "two weeks ago in two weeks", "march in two weeks",
    "tuesday 3 hours in two weeks", "tuesday a day in two weeks", "TUESDAY IN TWO WEEKS", "Tuesday In Two Weeks",
    " tuesday  in two   weeks ", "tuesday\tin\ttwo\tweeks", "tuesday in 2weeks", "tuesday in2weeks", "tuesdayin two weeks",
    "tuesday intwo weeks", "tuesday-in-two-weeks", "tuesday in twenty-weeks", "tuesday in two-weeks", "tuesday in two weeks.",
    "tuesday in two weeks?", "tues in two weeks", "tuesdays in two weeks", "tuesday on two weeks",
    "tuesday in 2 weeks and 3rd day", "tuesday in one hundred and days", "tuesday in hundred and a day",
    "tuesday in thousand and a day",
]

# A number behind month and day: runs of one digit to the most that a phrase has room for, and numbers that are no single run
YEARS = ["5", "05", "27", "027", "0027", "2027", "02027", "00002027", "0000", "0001", "999", "9999", "10000", "4294967295", "04294967295",
         "4294967296", "twenty", "five", "twenty-five", "twenty 0005", "hundred", "five hundred", "0005 hundred", "2 thousand", "thousand 0005",
         "2027 thousand", "five billion", "2027st", "5th", "0005th", "0012th", "0100th", "2027/1", "2027-1", "2027 2028"]
BEHIND_YEARS = ["", "5 pm", "0500 pm", "at noon", ", 5 pm", "5:00", "17:45", ", 2028", "next year", "in a week", "2 weeks ago", "5 weeks"]
YEAR_PLACES = ["march 3 {}", "march 3rd {}", "march 0003 {}", "march third {}", "march twenty-3 {}", "february 29 {}", "5 pm march 3 {}",
               "noon on march 3 {}", "a day after march 3 {}", "a day before march 3 {}", "3 march {}", "5/2/{}", "2.5.{}"]

# Literals of every size with each ending, numbers in words with one, and the spellings that reading 2 adds
ORDINALS = [f"{n}{ending}" for n in (0, 1, 2, 3, 4, 9, 10, 11, 12, 13, 19, 20, 21, 24, 31, 32, 99, 100, 101, 999, 1000, 1001, 2027, 4294967295)
            for ending in ("st", "nd", "rd", "th")]
ORDINAL_WORDS = ["forty", "fortieth", "fourty", "fourtieth", "eighth", "eigth", "forty-eighth", "fortieth-eighth", "forty eight", "forty th",
                 "fortieth th", "eighth th", "eight th", "twenty th", "twentieth st", "ten st", "tenth th", "five th", "hundred th", "5 th",
                 "24 th", "24 - th", "24thth", "24th th", "24th st", "0024th", "24 hundredth", "5th hundred", "24th hundred", "24th thousand",
                 "1000th thousand", "2 thousand 24th", "thousand and 24th", "FORTY", "24TH", "Eighth", "forties", "ths", "th", "st"]
ORDINAL_PLACES = ["march {}", "march {} 2027", "march {}, 2027", "march {} 5 pm", "{} march 2027", "{} days ago", "{} day from now", "at {}",
                  "{}:30 pm", "5:{}", "friday at {} pm", "tuesday in {} days", "5/{}/2027", "{}/5/2027", "2027-5-{}", "{}"]
# A comma behind month and day
COMMAS = ["march 3,{}", "march 3 , {}", "march 3,, {}", "march 3rd, {}", "march 24th,{}", "march, {}", "march 3 2027, {}", "3 march, {}",
          "5/2, {}", "5/2/2022, {}", "a day after march 3, {}", "noon on march 3, {}", "5 pm, march 3, {}", "march 3, {} at noon",
          "march 3, {}, 5 pm", "march 3, {} 5:00", "march 3, {} next year"]

# At every now: month ends and new years, the weekday that the duration reaches, the way on alone
AHEAD_AT_EVERY_NOW = [f"{day} in a month" for day in WEEKDAYS] + [
    "monday in 0 days", "friday in a day", "saturday in 0 weeks", "sunday in a week", "thursday in two weeks", "wednesday in a year",
    "tuesday in 4 years", "tuesday in a month and a day at noon", "a year before friday in a year"]


def ahead_nows():
    """The nows of reading 1's list, each weekday of one week, and the last days of the calendar."""
    return NOWS + [f"{day} 09:30:15" for day in days("2026-02-09", 7)] + [f"{day} 12:00:00" for day in days("9999-12-21", 8)]


def ahead_limits():
    """256 bytes, 64 lexemes and 21 parts, none of which join, on both sides."""
    for length in (255, 256, 257):
        phrase = "tuesday in two weeks"
        yield from (phrase.ljust(length), phrase.rjust(length), phrase.replace(" in ", " in ".ljust(length - 16)))
    for count in (19, 20, 21):
        yield from ("friday in " + "a day and " * count + end for end in ("a day", "a day at noon", "an hour", "", "a day ago"))
        yield "friday in " + " and ".join(f"1 {unit}" for unit in (["day", "month", "week", "year"] * 6)[:count + 1])
        yield "1day after " * count + "friday in a day"


def second_list():
    """Every line of the list for reading 2, each once, in order; the last of them are ordinary lines of the list for reading 1."""
    lines = [(now, phrase) for reading, now, phrase, _ in READINGS_TABLE if reading == SECOND]
    lines += [(A, f"{day} in {duration}") for day in WEEKDAYS for duration in AHEAD]
    lines += [(A, f"{day} in {duration}") for duration in AHEAD_LIMITS for day in ("thursday", "friday")]
    lines += [(A, joined("tuesday in", rest)) for rest in NOT_AHEAD]
    lines += [(A, place.format(*[phrase] * 2)) for place in AHEAD_PLACES for phrase in ("tuesday in two weeks", "friday in a month")]
    lines += [(A, phrase) for phrase in NEAR_AHEAD]
    lines += [(A, phrase) for phrase in ahead_limits()]
    lines += [(now, phrase) for now in ahead_nows() for phrase in AHEAD_AT_EVERY_NOW]
    lines += [(A, joined("march 3", year, behind)) for year in YEARS for behind in BEHIND_YEARS]
    lines += [(A, place.format(year)) for place in YEAR_PLACES for year in YEARS]
    lines += [(A, f"march 3 {year.rjust(length - len('march 3 '), '0')}") for year in ("5", "2027") for length in (255, 256, 257)]
    lines += [(A, place.format(ordinal)) for place in ORDINAL_PLACES[:8] for ordinal in ORDINALS]
    lines += [(A, place.format(word)) for place in ORDINAL_PLACES for word in ORDINAL_WORDS]
    lines += [(A, place.format(year)) for place in COMMAS for year in YEARS]
    lines += [(now, phrase) for now in NO_NOWS for phrase in ("tuesday in two weeks", "tuesday in an hour", "march 3 5 pm")]
    dice = Dice(2)
    for made in (dice.ahead, dice.dated, dice.ordinal):
        lines += [(dice.pick(NOWS), made()) for _ in range(100)]
        lines += [(dice.pick(NOWS), dice.damaged(made())) for _ in range(100)]
    return list(dict.fromkeys(as_lines(lines) + fixed_list()[::33]))


WEEK_PHRASES = (
    WEEKDAYS + [f"{s} {d}" for s in SPECIFIERS for d in WEEKDAYS] + [f"{d} {s} week" for s in SPECIFIERS for d in WEEKDAYS]
    + [f"{d} in a week" for d in WEEKDAYS]
)
STEP_PHRASES = [f"{count} {unit}s {way}" for count in (1, 13) for unit in UNITS for way in ("ago", "from now")] + [
    f"{s} {u}" for s in ("next", "last") for u in UNITS]


def sweep():
    """Nows day by day: at both ends of the calendar, across new years (weeks), and over leap and century years (steps)."""
    ends = [*days("0001-01-01", 21), *days("9999-12-11", 21)]
    years = [1, 400, 999, *range(1895, 1906), *range(1990, 2032), *range(2095, 2106), 9997]
    new_years = [day for year in years for day in days(f"{year:04}-12-22", 21)]
    around = [*days("1899-12-01", 500), *days("2023-01-01", 800), *days("2000-01-01", 400), *days("2099-12-01", 200)]
    for day in ends + new_years:
        yield from (f"{day} 09:30:15|{phrase}" for phrase in WEEK_PHRASES)
    for day in ends + around:
        yield from (f"{day} 00:30:00|{phrase}" for phrase in STEP_PHRASES)


def second_sweep():
    """Nows day by day for reading 2: at both ends of the calendar, across new years, and over leap and century years."""
    durations = ("0 days", "a week", "a month", "a year", "a month and a year")
    around = [*days("1899-12-20", 75), *days("2000-01-20", 45), *days("2023-12-20", 800), *days("2100-01-20", 45)]
    for day in [*days("0001-01-01", 21), *days("9998-12-01", 396), *around]:
        yield from (f"{day} 09:30:15|{weekday} in {duration}" for duration in durations for weekday in WEEKDAYS)


def days(first, count):
    """The dates from a first one on"""
    start = datetime.date.fromisoformat(first).toordinal()
    return (datetime.date.fromordinal(day).isoformat() for day in range(start, start + count))


class Dice:
    """A small generator of its own, so that a seed gives the same phrases everywhere."""

    def __init__(self, seed):
        self.state = seed

    def below(self, n):
        self.state = (self.state * 6364136223846793005 + 1442695040888963407) % 2**64
        return (self.state >> 33) % n

    def pick(self, choices):
        return choices[self.below(len(choices))]

    def one_in(self, n):
        return self.below(n) == 0

    # a phrase by the grammar of the Rust's lib.rs

    def phrase(self):
        return joined(*self.datetime(3))

    def datetime(self, depth):
        kind = self.below(10)
        if depth > 0 and kind < 4:
            link = self.pick(["after", "from", "before"])
            return [self.duration(), link, *self.datetime(depth - 1)]
        if kind == 4:
            return [self.duration(), "ago"]
        if kind == 5:
            return ["now"]
        if kind == 6:
            return [self.time(), self.pick(["", ",", "on"]), self.date_expr()]
        if kind == 7:
            return [self.time()]
        return [self.date_expr(), self.pick(["", ",", "at"]), self.pick(["", self.time()])]

    def date_expr(self):
        kind = self.below(9)
        tail = self.pick(["", f"{self.pick(SPECIFIERS)} {self.unit()}", f"{self.duration()} ago", f"in {self.duration()}"])
        if kind < 3:
            return joined(self.date(), tail)
        if kind < 5:
            return joined(self.pick(WEEKDAYS), tail)
        if kind == 5:
            return f"{self.duration()} ago"
        if kind == 6:
            return f"{self.duration()} {self.pick(['after', 'from'])} {self.date()}"
        return f"{self.pick(SPECIFIERS)} {self.pick(WEEKDAYS + UNITS)}"

    def date(self):
        kind = self.below(6)
        month, day, year = self.pick(MONTHS), self.near(31), self.year()
        if kind == 0:
            return self.pick(["today", "tomorrow", "yesterday"])
        if kind == 1:
            return f"{month} {day}"
        if kind == 2:
            return f"{month} {day} {year}"
        if kind == 3:
            return f"{day} {month} {year}"
        mark = self.pick("/-.")
        return mark.join(self.pick([(self.near(12), day, year), (year, self.near(12), day), (self.near(12), day)]))

    def year(self):
        if self.one_in(8):
            return self.number()
        return str(self.pick([self.below(10002), 1900 + self.below(200), 4 * self.below(2500), 100 * self.below(100), self.below(110)]))

    def near(self, most):
        """A number mostly from 1 to one above `most`, in digits or words"""
        if self.one_in(12):
            return self.number()
        number = self.below(most + 1) + 1
        return self.pick([str(number), str(number), f"{number}{self.pick(['st', 'nd', 'rd', 'th'])}", self.in_words(number)])

    def time(self):
        if self.one_in(6):
            return self.pick(["noon", "midnight"])
        minute = self.pick(["", f":{self.near(59)}", f":{self.below(60):02}"])
        return joined(self.near(self.pick([12, 24])) + minute, self.pick(["", "am", "pm"]))

    def duration(self):
        if self.one_in(4):
            return joined(self.concrete(), "and", self.duration())
        return self.concrete()

    def concrete(self):
        if self.one_in(3):
            return f"{self.pick(['a', 'an', 'the'])} {self.unit()}"
        return f"{self.pick([self.near(50), self.near(9), self.number()])} {self.unit()}{self.pick(['', 's'])}"

    def unit(self):
        return self.pick(UNITS)

    def number(self):
        """A number of any size, in digits or words"""
        size = self.pick([10, 100, 1000, 10**4, 10**5, 10**6, 10**9, 2**31, 2**32, 2**32 + 9, 10**11])
        if self.one_in(10):
            return self.pick(NUMBERS)
        number = self.below(size) if self.one_in(2) else max(0, size - 1 - self.below(5))
        return self.pick([str(number), self.in_words(number)])

    def in_words(self, number):
        """The words of a number, with "and", dashes and digits thrown in"""
        if number == 0:
            return "zero"
        for value, word in ((10**9, "billion"), (10**6, "million"), (10**3, "thousand"), (100, "hundred")):
            if number >= value:
                head = self.in_words(number // value) if not self.one_in(4) else str(number // value)
                rest = self.in_words(number % value) if number % value else ""
                return joined(head, word, "and" if rest and self.one_in(2) else "", rest)
        if number < 20:
            return self.pick(SMALL[number].split())
        return SMALL_TENS[number // 10] + (self.pick(["-", " "]) + self.in_words(number % 10) if number % 10 else "")

    # a phrase that reading 2 takes otherwise

    def ahead(self):
        """A weekday with "in" and a duration: with a time of day, in a chain, or alone"""
        duration = self.pick([self.duration(), f"{self.near(50)} {self.pick(UNITS[:4])}s"])
        phrase = [self.pick(WEEKDAYS), "in", duration]
        if self.one_in(8):
            phrase = [self.time(), self.pick(["", ",", "on"]), *phrase]
        elif self.one_in(3):
            phrase += [self.pick(["", ",", "at"]), self.time()]
        for _ in range(self.pick([0, 0, 0, 1, 1, 2])):
            phrase = [self.duration(), self.pick(["after", "from", "before"]), *phrase]
        return joined(*phrase)

    def dated(self):
        """Month and day with a number behind them, which may be their year"""
        run = str(self.below(self.pick([10, 100, 1000, 10000, 100000]))).rjust(self.pick([0, 0, 2, 3, 4, 4, 5]), "0")
        phrase = [self.pick(MONTHS), self.near(33), self.pick([run, run, run, self.number()])]
        if self.one_in(3):
            phrase += [self.pick(["", ",", "at"]), self.time()]
        elif self.one_in(6):
            phrase = [self.time(), self.pick(["", ",", "on"]), *phrase]
        for _ in range(self.pick([0, 0, 0, 1])):
            phrase = [self.duration(), self.pick(["after", "from", "before"]), *phrase]
        return joined(*phrase)

    def ordinal(self):
        """A phrase of the first grammar with endings behind literals, commas before numbers, and the spellings that reading 2 adds"""
        phrase = self.pick([self.phrase, self.dated, self.ahead])()
        words = {"fourty": "forty", "fourtieth": "fortieth", "eigth": "eighth"}
        phrase = re.sub("|".join(words), lambda word: words[word[0]], phrase)
        if self.one_in(2):
            phrase = re.sub(r"(\d)(?=[ ,]|$)", lambda digit: digit[1] + self.pick(["", "st", "nd", "rd", "th"]), phrase)
        if self.one_in(2):
            phrase = re.sub(r" (?=\d)", lambda _: self.pick([" ", ", ", ","]), phrase)
        return phrase

    # phrases by no grammar

    def soup(self):
        """Words, marks and numbers in any order"""
        words = list(KEYWORDS) + ["-", "/", ".", ",", ":"] * 3 + ["5", "12", "24", "2024", "31", "0", "1000"] * 3
        return "".join(self.pick(words) + self.pick([" ", " ", " ", "", "  ", "\t"]) for _ in range(1 + self.below(12)))

    def chain(self):
        """A long chain of short parts, about 64 lexemes or 256 bytes"""
        most = 10 + self.below(16)
        if self.one_in(4):
            return close_up([self.pick(SHORT) for _ in range(3 * most)])
        link = self.pick(["and", "after", "from", "before"])
        parts = []
        for _ in range(most):
            parts += [self.pick(["a", "1", "1st", "2", "9"]), self.pick(["day", "min", "week", "hour", "year"]), link]
            if self.one_in(12):
                link = self.pick(["and", "after", "from", "before"])
        head = self.pick(["", "", "friday", "5/2/2022in", "may1", "noon"])
        return joined(head, close_up(parts[:-1]), self.pick(["ago", "ago", "from now", "before today at 5", "", "and", "foo"]))

    def damaged(self, phrase):
        """A copy with words dropped, doubled, swapped, put in, or single characters changed"""
        words = phrase.split(" ")
        for _ in range(1 + self.below(2)):
            place, kind = self.below(len(words)), self.below(6)
            if kind == 0:
                words[place] = ""
            elif kind == 1:
                words[place] += " " + words[place]
            elif kind == 2:
                other = self.below(len(words))
                words[place], words[other] = words[other], words[place]
            elif kind == 3:
                words[place] += " " + self.pick(list(KEYWORDS))
            elif kind == 4:
                words[place] = self.pick(list(KEYWORDS) + LITERALS)
            else:
                cut = self.below(len(words[place]) + 1)
                words[place] = words[place][:cut] + self.pick("abdeinorsty0159-/.,: '") + words[place][cut + self.below(2):]
        return joined(*words)

    def raw(self):
        """Bytes of any value, mostly near a phrase"""
        if self.one_in(3):
            return bytes(self.below(256) for _ in range(self.below(20)))
        phrase = bytearray(self.phrase().encode())
        for _ in range(1 + self.below(3)):
            cut = self.below(len(phrase) + 1)
            phrase[cut:cut + self.below(2)] = self.pick(STRANGE) if self.one_in(2) else bytes([self.below(256)])
        return bytes(phrase)

    def now(self):
        """A now at random, or one of the list's, at the calendar's ends, or on 29 February; seldom none"""
        kind = self.below(6)
        if self.one_in(200):
            return self.pick(NO_NOWS)
        if kind == 0:
            return self.pick(NOWS)
        year = self.pick([1, 9999, 1 + self.below(3), 9997 + self.below(3)]) if kind == 1 else 1 + self.below(9999)
        month, day = 1 + self.below(12), 1 + self.below(28)
        if kind == 2:
            year, month, day = self.pick([4 * (1 + self.below(2499)), 2000, 1600]), 2, 29
            if year % 100 == 0 and year % 400:
                year += 4
        return f"{year:04}-{month:02}-{day:02} {self.below(24):02}:{self.below(60):02}:{self.below(60):02}"


SMALL = ["zero", "one first", "two second", "three third", "four fourth", "five fifth", "six sixth", "seven seventh",
         "eight eigth", "nine ninth", "ten tenth", "eleven eleventh", "twelve twelfth", "thirteen thirteenth",
         "fourteen fourteenth", "fifteen fifteenth", "sixteen sixteenth", "seventeen seventeenth", "eighteen eighteenth",
         "nineteen nineteenth"]
SMALL_TENS = ["", "", "twenty", "thirty", "fourty", "fifty", "sixty", "seventy", "eighty", "ninety"]

# Short words, marks and digits
SHORT = [word for word in KEYWORDS if len(word) < 4] + ["-", "/", ".", ",", ":", "1", "5", "12"] * 2

# White space and letters outside ASCII, pieces of UTF-8, control bytes
STRANGE = [text.encode() for text in ("\u212a", "\u00a0", "\u2003", "\u3000", "\u0130", "\u00e9", "\u0663", "\u200b", "\x0b", "\r")] + [
    b"\xff", b"\xc2", b"\x00", b"\x7f", b"'", b"+", b"\x1f"]


def main():
    match sys.argv[1:]:
        case []:
            print("\n".join(fixed_list()))
        case ["--reading", "2"]:
            print("\n".join(second_list()))
        case _:
            sys.exit(__doc__)


if __name__ == "__main__":
    main()
