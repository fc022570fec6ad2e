#!/usr/bin/env python3
"""Document 01 as a program: what a phrase means at a now, from the paper and from the Rust's lexer.rs and ast.rs.

The parsers stand in the Rust's order under the Rust's names, so that both can be read side by side. Where the paper
and the Rust differ, the paper decides, and a comment with "01:" says so. Document 02 adds a second reading beside this
first one; a comment with "02:" says where they part.

    model.py                    lines NOW|PHRASE in, lines LEXEMES|TREE|TAKEN|MOMENT out, in reading 1
    model.py --reading NUMBER   the same in the reading of that number: 1, 2, or refusal 15
    model.py --fuzzy            what the program `fuzzy` prints for standard input
    model.py --selftest         every row of the papers' tables, and the paper's listing

A line ends at the stage that refuses, with `refused NUMBER at PLACE to END` in that stage's field: the offending part
of the phrase is its bytes from PLACE up to but not END. In PHRASE, \\xHH is one byte.
"""

import datetime
import re
import sys

U32_MAX = 4_294_967_295
MOST_BYTES = 256
MOST_LEXEMES = 64

# 02: the readings that a caller may choose
FIRST, SECOND = 1, 2


class Literal(int):
    """`Lexeme::Num(n)`: a number that was written with digits, and 02: how many, leading zeros counted."""

    def __new__(cls, text):
        literal = super().__new__(cls, text)
        literal.digits = len(text)
        return literal


class Refused(Exception):
    """One of the papers' refusals: its number, its place, and the end of the offending part."""

    def __init__(self, number, place=0, end=0):
        super().__init__(number, place, end)
        self.number, self.place, self.end = number, place, end

    def __str__(self):
        return f"refused {self.number} at {self.place} to {self.end}"


def reading_of(number):
    """02: the reading that a caller's number chooses, or refusal 15, before everything else."""
    if number not in (FIRST, SECOND):
        raise Refused(15)
    return number


# ---------------------------------------------------------------- lexer.rs

# The 133 words in byte order. A lexeme is the Rust's name of it, and Num(n) is the literal n itself.
KEYWORDS = {
    "a": "A", "after": "After", "ago": "Ago", "am": "AM", "an": "An", "and": "And", "apr": "April", "april": "April",
    "at": "At", "aug": "August", "august": "August", "before": "Before", "billion": "Billion", "billionth": "Billion",
    "day": "Day", "days": "Day", "dec": "December", "december": "December", "eight": "Eight", "eighteen": "Eighteen",
    "eighteenth": "Eighteen", "eightieth": "Eighty", "eighty": "Eighty", "eigth": "Eight", "eleven": "Eleven",
    "eleventh": "Eleven", "feb": "February", "february": "February", "fifteen": "Fifteen", "fifteenth": "Fifteen",
    "fifth": "Five", "fiftieth": "Fifty", "fifty": "Fifty", "first": "One", "five": "Five", "four": "Four",
    "fourteen": "Fourteen", "fourteenth": "Fourteen", "fourth": "Four", "fourtieth": "Fourty", "fourty": "Fourty",
    "friday": "Friday", "from": "From", "hour": "Hour", "hours": "Hour", "hundred": "Hundred", "hundredth": "Hundred",
    "in": "In", "jan": "January", "january": "January", "jul": "July", "july": "July", "jun": "June", "june": "June",
    "last": "Last", "mar": "March", "march": "March", "may": "May", "midnight": "Midnight", "million": "Million",
    "millionth": "Million", "min": "Minute", "mins": "Minute", "minute": "Minute", "minutes": "Minute",
    "monday": "Monday", "month": "Month", "months": "Month", "nd": "ND", "next": "Next", "nine": "Nine",
    "nineteen": "Nineteen", "nineteenth": "Nineteen", "ninetieth": "Ninety", "ninety": "Ninety", "ninth": "Nine",
    "noon": "Noon", "nov": "November", "november": "November", "now": "Now", "oct": "October", "october": "October",
    "on": "On", "one": "One", "pm": "PM", "rd": "RD", "saturday": "Saturday", "second": "Two", "sep": "September",
    "september": "September", "seven": "Seven", "seventeen": "Seventeen", "seventeenth": "Seventeen",
    "seventh": "Seven", "seventieth": "Seventy", "seventy": "Seventy", "six": "Six", "sixteen": "Sixteen",
    "sixteenth": "Sixteen", "sixth": "Six", "sixtieth": "Sixty", "sixty": "Sixty", "st": "ST", "sunday": "Sunday",
    "ten": "Ten", "tenth": "Ten", "th": "RD", "the": "The", "third": "Three", "thirteen": "Thirteen",
    "thirteenth": "Thirteen", "thirtieth": "Thirty", "thirty": "Thirty", "this": "This", "thousand": "Thousand",
    "thousandth": "Thousand", "three": "Three", "thursday": "Thursday", "today": "Today", "tomorrow": "Tomorrow",
    "tuesday": "Tuesday", "twelfth": "Twelve", "twelve": "Twelve", "twentieth": "Twenty", "twenty": "Twenty",
    "two": "Two", "wednesday": "Wednesday", "week": "Week", "weeks": "Week", "year": "Year", "years": "Year",
    "yesterday": "Yesterday", "zero": "Zero",
}

# 02: the words of each reading; the second has "th" as `TH`, and the usual spellings beside the Rust's: 136
WORDS = {FIRST: KEYWORDS, SECOND: KEYWORDS | {"th": "TH", "forty": "Fourty", "fortieth": "Fourty", "eighth": "Eight"}}

MARKS = {"-": "Dash", "/": "Slash", ".": "Dot", ",": "Comma", ":": "Colon"}

# A word, a number, a mark, separators, or one byte with no meaning (latin-1 gives each byte one character)
PART = re.compile(r"(?P<word>[A-Za-z]+)|(?P<number>[0-9]+)|(?P<mark>[-/.,:])|(?P<blank>[ \t]+)|(?P<other>.)", re.DOTALL)


def lex_line(phrase, most_bytes=MOST_BYTES, most_lexemes=MOST_LEXEMES, reading=FIRST):
    """`Lexeme::lex_line` by 01's rule, with the words of a reading: the lexemes and the place of each, or refusal 1, 2, 3 or 4."""
    if len(phrase) > most_bytes:
        raise Refused(1)
    lexemes, places = [], []
    for part in PART.finditer(phrase.decode("latin-1")):
        if part["blank"]:
            continue
        lexeme = judge(part, WORDS[reading])
        # 01: a word or number is judged before it is counted
        if len(lexemes) == most_lexemes:
            raise Refused(4, part.start(), part.end())
        lexemes.append(lexeme)
        places.append(part.start())
    return lexemes, places


def judge(part, words):
    """The lexeme of one part of the phrase, or refusal 2 or 3."""
    if part["mark"]:
        return MARKS[part["mark"]]
    if part["number"]:
        if int(part["number"]) > U32_MAX:
            raise Refused(3, part.start(), part.end())
        return Literal(part["number"])
    word = (part["word"] or "").lower()
    if word not in words:
        raise Refused(2, part.start(), part.end())
    return words[word]


# ---------------------------------------------------------------- ast.rs, the parsers
#
# A parser takes the lexemes from its place on and answers None, or what it read and how many lexemes it took.
# A tree is the Rust's: a variant with fields is a tuple that begins with its name, one without is its name.
# Those parsers take the reading that it matters for.


def get(l, i):
    """`l.get(i)`"""
    return l[i] if i < len(l) else None


def is_literal(lexeme):
    """`Lexeme::Num(_)`"""
    return isinstance(lexeme, Literal)


def digits_of(number):
    """02: the digits of the run that a number is, 0 where it is not one single run: a sum or a word is no Literal."""
    return number.digits if is_literal(number) else 0


def literal_tokens(l, tokens, reading):
    """The lexemes of a literal that takes so many in the Rust. 02: in reading 2 any ending may follow any literal."""
    if reading == SECOND:
        return 2 if get(l, 1) in ("ST", "RD", "ND", "TH") else 1
    return tokens


def u32(n):
    """A sum or product in a number. 01: beyond u32 the whole reading stops (the Rust's overflow check panics)."""
    if n > U32_MAX:
        raise Refused(6)
    return n


class DateTime:
    @staticmethod
    def parse(l, reading):
        tokens = 0

        if get(l, tokens) == "Now":
            return "Now", 1

        if found := DateExpr.parse(l, reading):
            date_expr, t = found
            tokens += t
            # a comma or "at" is taken even if no time follows
            if get(l, tokens) in ("Comma", "At"):
                tokens += 1
            if found := Time.parse(l[tokens:], reading):
                time, t = found
                return ("DateTime", date_expr, time), tokens + t
            return ("DateTime", date_expr, "Empty"), tokens

        if found := Duration.parse(l, reading):
            dur, t = found
            tokens += t
            if get(l, tokens) in ("After", "From"):
                if found := DateTime.parse(l[tokens + 1:], reading):
                    inner, t = found
                    return ("After", dur, inner), tokens + 1 + t
                return None
            if get(l, tokens) == "Before":
                if found := DateTime.parse(l[tokens + 1:], reading):
                    inner, t = found
                    return ("Before", dur, inner), tokens + 1 + t
                return None
            if get(l, tokens) == "Ago":
                return ("Before", dur, "Now"), tokens + 1
            return None

        if found := Time.parse(l, reading):
            time, t = found
            tokens += t
            # a comma or "on" is taken even if no date follows
            if get(l, tokens) in ("Comma", "On"):
                tokens += 1
            if found := DateExpr.parse(l[tokens:], reading):
                date_expr, t = found
                return ("TimeDate", time, date_expr), tokens + t
            return ("TimeDate", time, "Empty"), tokens

        return None


class DateExpr:
    @staticmethod
    def parse(l, reading):
        if found := Date.parse(l, reading):
            date, date_tokens = found
            # a tail that fails gives its lexemes back
            return DateExpr.dated(l[date_tokens:], date, date_tokens, reading) or (("Date", date), date_tokens)

        if found := Duration.parse(l, reading):
            duration, tokens = found
            if is_sub_daily(duration):
                return None
            if get(l, tokens) == "Ago":
                return ("Before", duration, "Empty"), tokens + 1
            if get(l, tokens) in ("After", "From"):
                if found := Date.parse(l[tokens + 1:], reading):
                    date, t = found
                    return ("After", duration, date), tokens + 1 + t
                return None
            return None

        if found := Weekday.parse(l):
            weekday, tokens = found
            return DateExpr.weekday(l, weekday, tokens, reading)

        if found := RelativeSpecifier.parse(l):
            relspec, tokens = found
            if found := Weekday.parse(l[tokens:]):
                weekday, t = found
                return ("RelativeWeekday", relspec, weekday), tokens + t
            if found := Unit.parse(l[tokens:]):
                unit, t = found
                return ("UnitRelative", relspec, unit), tokens + t
            return None

        return None

    @staticmethod
    def dated(l, date, tokens, reading):
        """The tail behind a date, or None if there is none; `tokens` stand before it."""
        if found := RelativeSpecifier.parse(l):
            spec, t = found
            if found := Unit.parse(l[t:]):
                unit, u = found
                return ("DateRelative", date, spec, unit), tokens + t + u
            return None

        if found := Duration.parse(l, reading):
            duration, t = found
            if get(l, t) == "Ago" and not is_sub_daily(duration):
                return ("DateExpressionBefore", date, duration), tokens + t + 1
            return None

        if get(l, 0) == "In":
            if found := Duration.parse(l[1:], reading):
                duration, t = found
                if not is_sub_daily(duration):
                    return ("DateExpressionAfter", date, duration), tokens + 1 + t
        return None

    @staticmethod
    def weekday(l, weekday, tokens, reading):
        """The tail behind a weekday. A tail that fails keeps the lexemes it took: they are swallowed."""
        if found := RelativeSpecifier.parse(l[tokens:]):
            relspec, t = found
            tokens += t
            if found := Unit.parse(l[tokens:]):
                unit, t = found
                return ("WeekdayRelative", weekday, relspec, unit), tokens + t
            return ("Weekday", weekday), tokens

        if found := Duration.parse(l[tokens:], reading):
            duration, t = found
            tokens += t
            if get(l, tokens) == "Ago" and not is_sub_daily(duration):
                return ("WeekdayExpressionBefore", weekday, duration), tokens + 1
            return ("Weekday", weekday), tokens

        if get(l, tokens) == "In":
            tokens += 1
            if found := Duration.parse(l[tokens:], reading):
                duration, t = found
                if not is_sub_daily(duration):
                    # 02: ahead in reading 2 (the Rust has that node, and its parser never gives it)
                    node = "WeekdayExpressionAfter" if reading == SECOND else "WeekdayExpressionBefore"
                    return (node, weekday, duration), tokens + t
        return ("Weekday", weekday), tokens


class Date:
    @staticmethod
    def parse(l, reading):
        if get(l, 0) in ("Today", "Tomorrow", "Yesterday"):
            return l[0], 1

        if found := Num.parse(l, reading):
            day, tokens = found
            if found := Month.parse(l[tokens:]):
                month, t = found
                tokens += t
                if found := Num.parse(l[tokens:], reading):
                    year, t = found
                    return ("DayMonthYear", day, month, year), tokens + t

        if found := Month.parse(l):
            month, tokens = found
            found = Num.parse(l[tokens:], reading)
            if not found:
                return None
            num, t = found
            tokens += t
            # 02: in reading 2 a comma may stand before the year, which is a run of four digits; any other number is left to what follows
            comma = reading == SECOND and get(l, tokens) == "Comma"
            if found := Num.parse(l[tokens + comma:], reading):
                year, t = found
                if reading == FIRST or digits_of(year) == 4:
                    return ("MonthDayYear", month, num, year), tokens + comma + t
            return ("MonthDay", month, num), tokens

        if found := Num.parse(l, reading):
            num1, tokens = found
            delim = get(l, tokens)
            if delim in ("Slash", "Dash", "Dot"):
                tokens += 1
                if found := Num.parse(l[tokens:], reading):
                    num2, t = found
                    return Date.delimited(l, num1, delim, num2, tokens + t, reading)

        return None

    @staticmethod
    def delimited(l, num1, delim, num2, tokens, reading):
        """What stands behind two numbers and the mark between them. At the end of the phrase there is no date."""
        if get(l, tokens) is None:
            return None
        if l[tokens] == delim:
            tokens += 1
            found = Num.parse(l[tokens:], reading)
            if not found:
                return None
            num3, t = found
            tokens += t
            if num1 > 1000:
                return ("YearMonthNumDay", num1, num2, num3), tokens
            if delim == "Dot":
                return ("MonthNumDayYear", num2, num1, num3), tokens
            return ("MonthNumDayYear", num1, num2, num3), tokens
        if delim == "Dot":
            return ("MonthNumDay", num2, num1), tokens
        return ("MonthNumDay", num1, num2), tokens


class RelativeSpecifier:
    @staticmethod
    def parse(l):
        return one_of(("This", "Next", "Last"), l)


class Weekday:
    NAMES = ("Monday", "Tuesday", "Wednesday", "Thursday", "Friday", "Saturday", "Sunday")

    @staticmethod
    def parse(l):
        return one_of(Weekday.NAMES, l)


class Month:
    NAMES = ("January", "February", "March", "April", "May", "June",
             "July", "August", "September", "October", "November", "December")

    @staticmethod
    def parse(l):
        return one_of(Month.NAMES, l)


class Time:
    @staticmethod
    def parse(l, reading):
        if get(l, 0) == "Midnight":
            return ("HourMin", 0, 0), 1
        if get(l, 0) == "Noon":
            return ("HourMin", 12, 0), 1

        if found := Num.parse(l, reading):
            hour, tokens = found
            minute = 0
            if get(l, tokens) == "Colon":
                # the colon is taken even if no number follows
                tokens += 1
                if found := Num.parse(l[tokens:], reading):
                    minute, t = found
                    tokens += t
            if get(l, tokens) == "AM":
                return ("HourMinAM", hour, minute), tokens + 1
            if get(l, tokens) == "PM":
                return ("HourMinPM", hour, minute), tokens + 1
            return ("HourMin", hour, minute), tokens

        return None


class Article:
    @staticmethod
    def parse(l):
        return one_of(("A", "An", "The"), l)


class Duration:
    @staticmethod
    def parse(l, reading):
        if found := Duration.parse_concrete(l, reading):
            d, t = found
            if get(l, t) == "And":
                if found := Duration.parse(l[t + 1:], reading):
                    dur2, t2 = found
                    return ("Concat", d, dur2), t + 1 + t2
            return d, t
        return None

    @staticmethod
    def parse_concrete(l, reading):
        if found := Num.parse(l, reading):
            num, t = found
            if found := Unit.parse(l[t:]):
                unit, u = found
                return ("Specific", num, unit), t + u

        if found := Article.parse(l):
            _, t = found
            if found := Unit.parse(l[t:]):
                unit, u = found
                return ("Article", unit), t + u

        return None


def is_sub_daily(duration):
    """`Duration::is_sub_daily`: some part of it is in hours or minutes."""
    return any(unit in ("Hour", "Minute") for _, unit in parts(duration))


def parts(duration):
    """A duration's parts as counts and units, first to last; an article is a count of 1."""
    match duration:
        case ("Concat", dur1, dur2):
            return parts(dur1) + parts(dur2)
        case ("Article", unit):
            return [(1, unit)]
        case ("Specific", num, unit):
            return [(num, unit)]


class Unit:
    @staticmethod
    def parse(l):
        return one_of(("Day", "Week", "Month", "Year", "Minute", "Hour"), l)


def one_of(names, l):
    """A parser that takes one lexeme if it has one of the names."""
    return (l[0], 1) if get(l, 0) in names else None


class Ones:
    VALUES = dict(One=1, Two=2, Three=3, Four=4, Five=5, Six=6, Seven=7, Eight=8, Nine=9)

    @staticmethod
    def parse(l):
        tokens = 2 if get(l, 1) in ("ST", "RD", "ND", "TH") else 1
        first = get(l, 0)
        if first in Ones.VALUES:
            return Ones.VALUES[first], tokens
        if is_literal(first) and first < 10:
            return first, tokens
        return None


class Teens:
    VALUES = dict(Ten=10, Eleven=11, Twelve=12, Thirteen=13, Fourteen=14,
                  Fifteen=15, Sixteen=16, Seventeen=17, Eighteen=18, Nineteen=19)

    @staticmethod
    def parse(l, reading):
        tokens = 2 if get(l, 1) == "TH" else 1
        first = get(l, 0)
        if first in Teens.VALUES:
            return Teens.VALUES[first], tokens
        if is_literal(first) and 10 <= first < 20:
            return first, literal_tokens(l, tokens, reading)
        return None


class Tens:
    VALUES = dict(Twenty=20, Thirty=30, Fourty=40, Fifty=50, Sixty=60, Seventy=70, Eighty=80, Ninety=90)

    @staticmethod
    def parse(l):
        tokens = 2 if get(l, 1) == "TH" else 1
        first = get(l, 0)
        if first in Tens.VALUES:
            return Tens.VALUES[first], tokens
        return None


class NumDouble:
    @staticmethod
    def parse(l, reading):
        if found := Tens.parse(l):
            tens, tokens = found
            # the dash is taken even if no ones follow
            if get(l, tokens) == "Dash":
                tokens += 1
            ones, t = Ones.parse(l[tokens:]) or (0, 0)
            return tens + ones, tokens + t

        if found := Teens.parse(l, reading) or Ones.parse(l):
            return found

        first = get(l, 0)
        if is_literal(first) and 19 < first < 100:
            return first, literal_tokens(l, 1, reading)
        return None


class NumTriple:
    @staticmethod
    def parse(l, reading):
        if found := Ones.parse(l):
            ones, tokens = found
            if get(l, tokens) == "Hundred":
                if found := NumTriple.after_hundred(l, ones * 100, tokens + 1, reading):
                    return found

        if get(l, 0) == "Hundred":
            if found := NumTriple.after_hundred(l, 100, 1, reading):
                return found

        if found := NumDouble.parse(l, reading):
            return found

        first = get(l, 0)
        if is_literal(first) and 99 < first < 1000:
            return first, 2 if get(l, 1) in ("ST", "RD", "ND", "TH") else 1
        return None

    @staticmethod
    def after_hundred(l, hundreds, tokens, reading):
        """Behind "hundred": an "and" must be followed by a number, else one may follow."""
        required = get(l, tokens) == "And"
        if required:
            tokens += 1
        double = NumDouble.parse(l[tokens:], reading)
        if required and not double:
            return None
        double, t = double or (0, 0)
        return hundreds + double, tokens + t


class NumTripleUnit:
    VALUES = dict(Thousand=1_000, Million=1_000_000, Billion=1_000_000_000)

    @staticmethod
    def parse(l):
        first = get(l, 0)
        return (NumTripleUnit.VALUES[first], 1) if first in NumTripleUnit.VALUES else None


class Num:
    @staticmethod
    def parse(l, reading):
        if found := NumTriple.parse(l, reading):
            triple, tokens = found
            if found := NumTripleUnit.parse(l[tokens:]):
                unit, t = found
                if found := Num.after_unit(l, triple, unit, tokens + t, reading):
                    return found

        if found := NumTripleUnit.parse(l):
            unit, tokens = found
            if found := Num.after_unit(l, 1, unit, tokens, reading):
                return found

        if found := NumTriple.parse(l, reading):
            return found

        first = get(l, 0)
        if is_literal(first) and first >= 1000:
            return first, literal_tokens(l, 1, reading)
        return None

    @staticmethod
    def after_unit(l, triple, unit, tokens, reading):
        """Behind a unit word the number begins again: an "and" must be followed by one, else one may follow."""
        required = get(l, tokens) == "And"
        if required:
            tokens += 1
        num = Num.parse(l[tokens:], reading)
        if required and not num:
            return None
        num, t = num or (0, 0)
        return u32(u32(triple * unit) + num), tokens + t


def read(lexemes, reading=FIRST):
    """The tree and the lexemes taken, or refusal 5 or 6."""
    found = DateTime.parse(lexemes, reading)
    if not found:
        raise Refused(5)
    return found


def all_taken(taken, places, phrase):
    """Refusal 7 if lexemes are left; its part goes to the end of the phrase."""
    if taken < len(places):
        raise Refused(7, places[taken], len(phrase))


# ---------------------------------------------------------------- ast.rs, the evaluation
#
# A day is its number, 1 for 0001-01-01, a Monday. A moment is a day and the second of that day.

DAY_SECONDS = 86_400
UNIT_DAYS = {"Day": 1, "Week": 7}
UNIT_SECONDS = {"Hour": 3_600, "Minute": 60}
FORWARD, BACK = 1, -1


class Evaluation:
    """`to_chrono`, `after`, `before`, `after_date` and `before_date` at one now, by 01's rules."""

    FIRST_YEAR, LAST_YEAR = 1, 9999

    def __init__(self, now):
        self.now = now
        self.today = now[0]

    # the calendar

    def day_number(self, year, month, day):
        return datetime.date(year, month, day).toordinal()

    def civil(self, day):
        date = datetime.date.fromordinal(day)
        return date.year, date.month, date.day

    def inside(self, day):
        """The day itself, or 12 if it lies outside the calendar."""
        first = self.day_number(self.FIRST_YEAR, 1, 1)
        last = self.day_number(self.LAST_YEAR, 12, 31)
        if not first <= day <= last:
            raise Refused(12)
        return day

    def year_inside(self, year):
        if not self.FIRST_YEAR <= year <= self.LAST_YEAR:
            raise Refused(12)

    def stated(self, year, month, day):
        """One stated date. 01: the year's range (12) is tested before month and day (10)."""
        self.year_inside(year)
        if not (1 <= month <= 12 and 1 <= day <= month_length(year, month)):
            raise Refused(10)
        return self.day_number(year, month, day)

    # rules of 01 that differ from the Rust

    def stated_year(self, year, in_numbers):
        """01: a stated year is taken as it stands (the Rust moves a year below 100 of a date all in numbers)."""
        return year

    def half_day_hour(self, hour, half):
        """01: with am or pm hours 1 to 12, else 11 (the Rust takes any hour modulo 12)."""
        if not 1 <= hour <= 12:
            raise Refused(11)
        return hour % 12 + (12 if half == "HourMinPM" else 0)

    def year_count(self, count):
        """01: a count of years is never cast to a signed number."""
        return count

    # steps; each step's own result is tested

    def step_date(self, day, direction, count, unit):
        """A step by days, weeks, months or years, on a date."""
        if unit in UNIT_DAYS:
            return self.inside(day + direction * count * UNIT_DAYS[unit])
        year, month, day_of_month = self.civil(day)
        if unit == "Month":
            year, month = divmod(year * 12 + month - 1 + direction * count, 12)
            month += 1
            self.year_inside(year)
            return self.day_number(year, month, min(day_of_month, month_length(year, month)))
        year += direction * self.year_count(count)
        # 01: the year's range (12) comes before 29 February in a common year (13)
        self.year_inside(year)
        if day_of_month > month_length(year, month):
            raise Refused(13)
        return self.day_number(year, month, day_of_month)

    def step(self, moment, direction, count, unit):
        """A step on a moment: hours and minutes may change the day, all else keeps the time of day."""
        day, second = moment
        if unit in UNIT_SECONDS:
            days, second = divmod(second + direction * count * UNIT_SECONDS[unit], DAY_SECONDS)
            return self.inside(day + days), second
        return self.step_date(day, direction, count, unit), second

    def steps_date(self, day, direction, duration):
        """`after_date` and `before_date`: the parts act first to last."""
        for count, unit in parts(duration):
            day = self.step_date(day, direction, count, unit)
        return day

    def steps(self, moment, direction, duration):
        """`after` and `before`: the parts act first to last."""
        for count, unit in parts(duration):
            moment = self.step(moment, direction, count, unit)
        return moment

    # to_chrono

    def date_time(self, tree):
        """`DateTime::to_chrono`. 01: the date, the time of day, then outer durations, innermost first."""
        match tree:
            case "Now":
                return self.now
            case ("DateTime", date, time) | ("TimeDate", time, date):
                day = self.date_expr(date)
                return day, self.time(time)
            case ("After", dur, inner):
                return self.steps(self.date_time(inner), FORWARD, dur)
            case ("Before", dur, inner):
                return self.steps(self.date_time(inner), BACK, dur)

    def date_expr(self, expr):
        """`DateExpr::to_chrono`"""
        match expr:
            case ("Date", date):
                return self.date(date)
            case ("DateRelative", date, relspec, unit):
                if unit != "Year" or date[0] not in ("MonthNumDay", "MonthDay"):
                    raise Refused(9)
                day = self.date(date)
                return day if relspec == "This" else self.step_date(day, direction_of(relspec), 1, unit)
            case ("WeekdayExpressionAfter", weekday, duration):
                # 02: forward from now, each part tested, then on to the weekday
                day, _ = self.steps(self.now, FORWARD, duration)
                return self.first_weekday(weekday, day)
            case ("WeekdayExpressionBefore", weekday, duration):
                # 01: back from now with its time of day, then back to the weekday (0 to 6 days), for "in" as for "ago"
                day, _ = self.steps(self.now, BACK, duration)
                return self.inside(day - (weekday_of(day) - Weekday.NAMES.index(weekday)) % 7)
            case ("DateExpressionAfter", date, duration) | ("After", duration, date):
                return self.steps_date(self.date(date), FORWARD, duration)
            case ("DateExpressionBefore", date, duration) | ("Before", duration, date):
                return self.steps_date(self.date(date), BACK, duration)
            case ("UnitRelative", spec, unit):
                if spec == "This" or unit in UNIT_SECONDS:
                    raise Refused(9)
                return self.step_date(self.today, direction_of(spec), 1, unit)
            case ("RelativeWeekday", spec, weekday):
                return self.weekday_of_week(spec, weekday)
            case ("WeekdayRelative", weekday, relspec, unit):
                if unit != "Week":
                    raise Refused(9)
                return self.weekday_of_week(relspec, weekday)
            case ("Weekday", weekday):
                return self.first_weekday(weekday, self.today)
            case "Empty":
                return self.today

    def first_weekday(self, weekday, day):
        """The first such weekday from a day on, that day included."""
        return self.inside(day + (Weekday.NAMES.index(weekday) - weekday_of(day)) % 7)

    def weekday_of_week(self, spec, weekday):
        """The weekday in today's ISO week, the one after or the one before. 01: only the date reached is tested."""
        monday = self.today - weekday_of(self.today)
        weeks = {"This": 0, "Next": 1, "Last": -1}[spec]
        return self.inside(monday + 7 * weeks + Weekday.NAMES.index(weekday))

    def date(self, date):
        """`Date::to_chrono`"""
        match date:
            case "Today" | "Empty":
                return self.today
            case "Yesterday":
                return self.inside(self.today - 1)
            case "Tomorrow":
                return self.inside(self.today + 1)
            case ("MonthNumDay", month, day):
                return self.stated(self.civil(self.today)[0], month, day)
            case ("MonthNumDayYear", month, day, year) | ("YearMonthNumDay", year, month, day):
                return self.stated(self.stated_year(year, True), month, day)
            case ("MonthDay", month, day):
                return self.stated(self.civil(self.today)[0], month_number(month), day)
            case ("MonthDayYear", month, day, year) | ("DayMonthYear", day, month, year):
                return self.stated(self.stated_year(year, False), month_number(month), day)

    def time(self, time):
        """`Time::to_chrono`, as the second of the day; a stated time has second 0."""
        if time == "Empty":
            return self.now[1]
        half, hour, minute = time
        if half != "HourMin":
            hour = self.half_day_hour(hour, half)
        if not (hour <= 23 and minute <= 59):
            raise Refused(11)
        return (hour * 60 + minute) * 60


def month_length(year, month):
    leap = year % 4 == 0 and year % 100 != 0 or year % 400 == 0
    return (31, 29 if leap else 28, 31, 30, 31, 30, 31, 31, 30, 31, 30, 31)[month - 1]


def month_number(month):
    return Month.NAMES.index(month) + 1


def weekday_of(day):
    """0 for Monday"""
    return (day - 1) % 7


def direction_of(spec):
    return FORWARD if spec == "Next" else BACK


# ---------------------------------------------------------------- lines


NOW_FORM = re.compile(rb"([0-9]{4})-([0-9]{2})-([0-9]{2}) ([0-9]{2}):([0-9]{2}):([0-9]{2})")


def read_now(text):
    """`YYYY-MM-DD HH:MM:SS` as a moment, or refusal 8: another form, or no date and time in years 1 to 9999."""
    form = NOW_FORM.fullmatch(text)
    if not form:
        raise Refused(8)
    try:
        now = datetime.datetime(*map(int, form.groups()))
    except ValueError:
        raise Refused(8) from None
    return now.toordinal(), (now.hour * 60 + now.minute) * 60 + now.second


def show_lexemes(lexemes):
    return " ".join(f"Num({lexeme})" if is_literal(lexeme) else lexeme for lexeme in lexemes)


def show_tree(tree):
    """The Rust's Debug form without blanks."""
    if isinstance(tree, tuple):
        name, *fields = tree
        return f"{name}({','.join(map(show_tree, fields))})"
    return str(tree)


def show_moment(evaluation, moment):
    day, second = moment
    year, month, day_of_month = evaluation.civil(day)
    minute, second = divmod(second, 60)
    hour, minute = divmod(minute, 60)
    return f"{year:04}-{month:02}-{day_of_month:02} {hour:02}:{minute:02}:{second:02}"


def answer(now_text, phrase, number=FIRST):
    """The line for a phrase at a now: one field for each stage, the last one a moment or a refusal."""
    fields = []
    try:
        reading = reading_of(number)
        lexemes, places = lex_line(phrase, reading=reading)
        fields.append(show_lexemes(lexemes))
        tree, taken = read(lexemes, reading)
        fields += [show_tree(tree), str(taken)]
        all_taken(taken, places, phrase)
        at_now = Evaluation(read_now(now_text))
        fields.append(show_moment(at_now, at_now.date_time(tree)))
    except Refused as refusal:
        fields.append(str(refusal))
    return "|".join(fields)


def unescape(text):
    """The bytes of a PHRASE: \\xHH is one byte, every other byte stands for itself."""
    return re.sub(rb"\\x([0-9A-Fa-f]{2})", lambda escape: bytes([int(escape[1], 16)]), text)


def escape(phrase):
    """The PHRASE of some bytes: printable ASCII but the backslash stands for itself."""
    return "".join(chr(b) if 32 <= b < 127 and b != 92 else f"\\x{b:02x}" for b in phrase)


def fuzzy(text):
    """What the program `fuzzy` prints: a first line with now, then one phrase a line."""
    now, *phrases = text.removesuffix(b"\n").split(b"\n")
    last = (answer(now, phrase).rsplit("|", 1)[-1] for phrase in phrases)
    return "".join(field.split(" to ")[0] + "\n" for field in last)


# ---------------------------------------------------------------- the papers' own examples

A = "2026-02-11 09:30:15"
B = "2024-02-29 12:00:00"

# Every row of the paper's table: now, phrase, and the answer as a date (with now's time of day), a moment or a refusal
TABLE = [
    (A, "friday", "2026-02-13"),
    (A, "wednesday", "2026-02-11"),
    (A, "next friday", "2026-02-20"),
    (A, "last friday", "2026-02-06"),
    (A, "this monday", "2026-02-09"),
    (A, "tuesday in two weeks", "2026-01-27"),
    (A, "friday next 5:00", "2026-02-13 05:00:00"),
    (A, "5/2/2022", "2022-05-02"),
    (A, "5.2.2022", "2022-02-05"),
    (A, "1000/1/1", "refused 10 at 0 to 0"),
    (A, "1001/1/1", "1001-01-01"),
    (A, "5/2", "refused 7 at 1 to 3"),
    (A, "5/2 at noon", "2026-05-02 12:00:00"),
    (A, "march 4th", "2026-03-04"),
    (A, "march 24th", "refused 7 at 8 to 10"),
    (A, "january 1, 2010", "refused 11 at 0 to 0"),
    (A, "march 3 5 pm", "refused 7 at 10 to 12"),
    (A, "twenty-march 2024", "2024-03-20"),
    (A, "0 days ago", "2026-02-11"),
    (A, "zero days ago", "refused 5 at 0 to 0"),
    (A, "one hundred and days ago", "refused 7 at 4 to 24"),
    (A, "four billion days ago", "refused 12 at 0 to 0"),
    (A, "five billion days ago", "refused 6 at 0 to 0"),
    (A, "4294967295 years from now", "refused 12 at 0 to 0"),
    (A, "this month", "refused 9 at 0 to 0"),
    (B, "a year from now", "refused 13 at 0 to 0"),
    (B, "12 months from now", "2025-02-28 12:00:00"),
    # also run
    (A, "", "refused 5 at 0 to 0"),
    (A, "   ", "refused 5 at 0 to 0"),
    (A, "now".ljust(256), "2026-02-11 09:30:15"),
    (A, "now".ljust(257), "refused 1 at 0 to 0"),
    (A, "5 " + "and a day " * 20 + "ago", "refused 7 at 2 to 205"),
    (A, "a day and " * 20 + "a day from now", "2026-03-04 09:30:15"),
    (A, "a day and " * 20 + "a day from now,", "refused 4 at 214 to 215"),
    ("0001-01-01 00:00:00", "yesterday", "refused 12 at 0 to 0"),
    ("0001-01-01 00:00:00", "a minute ago", "refused 12 at 0 to 0"),
    ("0001-01-01 00:00:00", "monday", "0001-01-01"),
    ("9999-12-31 23:59:59", "tomorrow", "refused 12 at 0 to 0"),
    ("9999-12-31 23:59:59", "a minute from now", "refused 12 at 0 to 0"),
    ("9999-12-31 23:59:59", "friday", "9999-12-31"),
    ("9999-12-31 23:59:59", "saturday", "refused 12 at 0 to 0"),
    ("2026-02-29 00:00:00", "now", "refused 8 at 0 to 0"),
    ("2026-02-29 00:00:00", "5/2", "refused 7 at 1 to 3"),
]

# 02's row in both readings, and the edges of its rule: reading, now, phrase, and the answer as above
READINGS_TABLE = [
    (FIRST, A, "tuesday in two weeks", "2026-01-27"),
    (SECOND, A, "tuesday in two weeks", "2026-03-03"),
    # the day reached counts: A is a Wednesday
    (SECOND, A, "wednesday in two weeks", "2026-02-25"),
    (SECOND, A, "wednesday in 0 days", "2026-02-11"),
    (SECOND, A, "tuesday in 0 days at noon", "2026-02-17 12:00:00"),
    (SECOND, A, "a day after tuesday in two weeks", "2026-03-04"),
    # each part is tested, first to last; a month step takes the month's last day
    (SECOND, B, "thursday in a year", "refused 13 at 0 to 0"),
    (SECOND, "2024-01-31 00:00:01", "thursday in a month", "2024-02-29"),
    (SECOND, "2024-01-30 00:00:01", "thursday in a day and a month", "2024-02-29"),
    (SECOND, "2024-01-30 00:00:01", "thursday in a month and a day", "2024-03-07"),
    (SECOND, "2024-01-31 00:00:01", "friday in a month and a year", "refused 13 at 0 to 0"),
    (SECOND, "2024-01-31 00:00:01", "friday in a year and a month", "2025-02-28"),
    # the last day of year 9999 is a Friday
    (SECOND, "9999-12-17 12:00:00", "friday in two weeks", "9999-12-31"),
    (SECOND, "9999-12-17 12:00:00", "saturday in two weeks", "refused 12 at 0 to 0"),
    (SECOND, "9999-12-17 12:00:00", "friday in 15 days", "refused 12 at 0 to 0"),
    # with hours or minutes the duration is passed over: "in" is swallowed, and a time of day may follow
    (SECOND, A, "tuesday in an hour", "refused 7 at 11 to 18"),
    (SECOND, A, "tuesday in two weeks and an hour", "refused 7 at 15 to 32"),
    # the year behind month and day is a run of four digits
    (FIRST, A, "march 3 5 pm", "refused 7 at 10 to 12"),
    (SECOND, A, "march 3 5 pm", "2026-03-03 17:00:00"),
    (SECOND, A, "march 3 2027 5 pm", "2027-03-03 17:00:00"),
    (SECOND, A, "march 3 0027", "0027-03-03"),
    (SECOND, A, "march 3 027", "refused 11 at 0 to 0"),
    (SECOND, A, "march 3 02027", "refused 11 at 0 to 0"),
    (SECOND, A, "march 3 twenty", "2026-03-03 20:00:00"),
    (SECOND, A, "march 3 five billion", "refused 6 at 0 to 0"),
    (SECOND, A, "march 0003 2027", "2027-03-03"),
    (SECOND, A, "a day after march 3 5 pm", "2026-03-04 17:00:00"),
    (SECOND, A, "3 march 5", "0005-03-03"),
    (SECOND, A, "5/2/22", "0022-05-02"),
    # ordinals, the usual spellings, and a comma before the year
    (FIRST, A, "march 24th", "refused 7 at 8 to 10"),
    (SECOND, A, "march 24th", "2026-03-24"),
    (SECOND, A, "march 24th, 2027", "2027-03-24"),
    (SECOND, A, "march 3rd, 2027th", "2027-03-03"),
    (FIRST, A, "january 1, 2010 5:00", "refused 7 at 16 to 20"),
    (SECOND, A, "january 1, 2010 5:00", "2010-01-01 05:00:00"),
    (SECOND, A, "january 1, 2010", "2010-01-01"),
    (SECOND, A, "january 1, 5:00", "2026-01-01 05:00:00"),
    (SECOND, A, "january 1, 20", "2026-01-01 20:00:00"),
    (SECOND, A, "january 1,, 2010", "refused 7 at 10 to 16"),
    (SECOND, A, "january 1, five billion", "refused 6 at 0 to 0"),
    (SECOND, A, "1 january, 2010", "refused 7 at 2 to 15"),
    (FIRST, A, "forty days ago", "refused 2 at 0 to 5"),
    (SECOND, A, "forty days ago", "2026-01-02"),
    (SECOND, A, "fortieth day from now", "2026-03-23"),
    (SECOND, A, "eighth of march", "refused 2 at 7 to 9"),
    (SECOND, A, "march eighth", "2026-03-08"),
    (SECOND, A, "march eigth", "2026-03-08"),
    (FIRST, A, "1001st day from now", "refused 7 at 4 to 19"),
    (SECOND, A, "1001st day from now", "2028-11-08"),
    (SECOND, A, "twenty-first day from now", "2026-03-04"),
    (SECOND, A, "twentieth st day from now", "refused 7 at 10 to 25"),
    # all else is as in reading 1
    (SECOND, A, "tuesday two weeks ago", "2026-01-27"),
    (SECOND, A, "today in two weeks", "2026-02-25"),
    (SECOND, A, "tuesday in five billion days", "refused 6 at 0 to 0"),
    # no such reading comes before 1, 2 and 8
    (0, A, "now", "refused 15 at 0 to 0"),
    (3, A, "tuesday in two weeks", "refused 15 at 0 to 0"),
    (3, A, "now".ljust(257), "refused 15 at 0 to 0"),
    (2**32 - 1, "2026-02-29 00:00:00", "foo", "refused 15 at 0 to 0"),
]

LISTING_IN = b"2026-02-11 09:30:15\nnext friday\nforty days ago\n5/2\n"
LISTING_OUT = "2026-02-20 09:30:15\nrefused 2 at 0\nrefused 7 at 1\n"


def selftest():
    failed = 0
    rows = [(FIRST, *row) for row in TABLE] + READINGS_TABLE
    for reading, now, phrase, expected in rows:
        if len(expected) == len("2026-02-13"):
            expected += now[10:]
        found = answer(now.encode(), phrase.encode(), reading)
        if found.rsplit("|", 1)[-1] != expected:
            failed += 1
            print(f"reading {reading}, {now}|{phrase}: {found} and not {expected}")
    if len(KEYWORDS) != 133 or list(KEYWORDS) != sorted(KEYWORDS) or len(WORDS[SECOND]) != 136:
        failed += 1
        print("the words are not 133 in byte order, and 136")
    if fuzzy(LISTING_IN) != LISTING_OUT:
        failed += 1
        print(f"the listing: {fuzzy(LISTING_IN)!r}")
    print(f"{len(rows)} rows, {failed} failed")
    return failed


def answer_lines(number):
    """Standard input's lines, answered in the reading of that number."""
    for line in sys.stdin.buffer:
        now, _, phrase = line.removesuffix(b"\n").partition(b"|")
        print(answer(now, unescape(phrase), number))


def main():
    match sys.argv[1:]:
        case []:
            answer_lines(FIRST)
        case ["--reading", number]:
            answer_lines(int(number))
        case ["--fuzzy"]:
            sys.stdout.write(fuzzy(sys.stdin.buffer.read()))
        case ["--selftest"]:
            sys.exit(selftest() > 0)
        case _:
            sys.exit(__doc__)


if __name__ == "__main__":
    main()
