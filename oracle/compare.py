#!/usr/bin/env python3
"""The Rust, the model and our own programs: every difference is sorted into a class, or is a bug until document 01 decides.

    compare.py --all COUNT SEED   the fixed lists, all phrases of up to three lexemes, sweeps of nows, and COUNT random phrases
                                  (for reading 2 a fifth of them)
    compare.py --differs          the class of each line of the fixed list at which the recorded answer differs from the model's
    compare.py --random COUNT SEED  COUNT random lines, the second half as they are made for reading 2
    compare.py --check            the fixed lists, the recorded answers (if the Rust is built), the model's and the classes are as made

A class is one rule by which the Rust differs from document 01. `Like` is the model with some of these rules the Rust's
way; a difference belongs to the fewest classes under which the model then gives the Rust's own line, field by field.
Ours has to give the model's own line: test_replay in reading 1, test_second in reading 2, which the Rust does not have.
There the model's two readings are compared besides: document 02 says where they may differ.
"""

import collections
import itertools
import pathlib
import re
import subprocess
import sys

import model
import phrases
from model import Refused

HERE = pathlib.Path(__file__).resolve().parent
ROOT = HERE.parent
ORACLE = ROOT / "target" / "oracle" / "release" / "oracle"
RUST = [ORACLE]
OURS = [HERE / "ours", "test_replay"]
OURS_SECOND = [HERE / "ours", "test_second"]
LIST = ROOT / "crates" / "test_replay" / "stdin"
EXPECTED = ROOT / "crates" / "test_replay" / "stdout"
SECOND_LIST = ROOT / "crates" / "test_second" / "stdin"
SECOND_EXPECTED = ROOT / "crates" / "test_second" / "stdout"
RECORDED = HERE / "recorded.txt"
DIFFERS = HERE / "differs.txt"

TWO_DIGITS = "two-digit stated year"
HALF_DAY = "am or pm with an hour outside 1 to 12"
OUTSIDE = "outside years 1 to 9999"
YEAR_CAST = "year count above 2,147,483,647"
LONG_RUN = "run of more than 20 characters"
TEXT = "white space besides space and tab, or letters outside ASCII"
SIZE = "more than 256 bytes or 64 lexemes"
NEW_YEAR_WEEK = "ISO week across a new year (chrono 0.4.23)"
YEAR_0_NOW = "now in year 0"
CLASSES = [TWO_DIGITS, HALF_DAY, OUTSIDE, YEAR_CAST, LONG_RUN, TEXT, SIZE, NEW_YEAR_WEEK, YEAR_0_NOW]
NO_CLASS = "no class"

# What the Rust's char::is_whitespace takes, but for space and tab
WHITE = "\n\x0b\x0c\r\x85\xa0\u1680\u2028\u2029\u202f\u205f\u3000" + "".join(map(chr, range(0x2000, 0x200B)))
RUST_LONGEST_RUN = 20
CYCLE_DAYS, CYCLE_YEARS = 146_097, 400


def signed(n):
    """A u32 cast to i32"""
    return n - 2**32 if n >= 2**31 else n


class Like(model.Evaluation):
    """The model's evaluation with the rules in `classes` the Rust's way."""

    def __init__(self, now, classes):
        super().__init__(now)
        self.classes = classes
        if OUTSIDE in classes:
            # chrono's own ends
            self.FIRST_YEAR, self.LAST_YEAR = -262_144, 262_143

    def day_number(self, year, month, day):
        cycles, year = divmod(year - 1, CYCLE_YEARS)
        return super().day_number(year + 1, month, day) + cycles * CYCLE_DAYS

    def civil(self, day):
        cycles, day = divmod(day - 1, CYCLE_DAYS)
        year, month, day_of_month = super().civil(day + 1)
        return year + cycles * CYCLE_YEARS, month, day_of_month

    def stated_year(self, year, in_numbers):
        if TWO_DIGITS in self.classes and in_numbers and year < 100:
            return year + (1900 if self.civil(self.today)[0] + 10 < 2000 + year else 2000)
        return signed(year) if OUTSIDE in self.classes else year

    def half_day_hour(self, hour, half):
        if HALF_DAY in self.classes:
            return hour % 12 + (12 if half == "HourMinPM" else 0)
        return super().half_day_hour(hour, half)

    def year_count(self, count):
        return signed(count) if YEAR_CAST in self.classes else count

    def weekday_of_week(self, spec, weekday):
        if NEW_YEAR_WEEK not in self.classes:
            return super().weekday_of_week(spec, weekday)
        # the Rust's walk: out of the week, for "this" one day back into it, then on to the weekday
        way = 1 if spec == "Next" else -1
        day = self.today
        while self.same_week(day):
            day = self.inside(day + way)
        if spec == "This":
            way = 1
            day += 1
        while model.weekday_of(day) != model.Weekday.NAMES.index(weekday):
            day = self.inside(day + way)
        return self.inside(day)

    def same_week(self, day):
        """`day.iso_week() == this_week` in chrono 0.4.23, whose weeks also hold the flags of the day's own calendar year."""
        same_days = (day - 1) // 7 == (self.today - 1) // 7
        return same_days and self.civil(day)[0] == self.civil(self.today)[0]


def lex_like(phrase, classes):
    """The model's lexing with the rules in `classes` the Rust's way."""
    if SIZE not in classes and len(phrase) > model.MOST_BYTES:
        raise Refused(1)
    if TEXT in classes:
        phrase = rust_text(phrase)
    lexemes, places = model.lex_line(phrase, len(phrase), len(phrase) if SIZE in classes else model.MOST_LEXEMES)
    if LONG_RUN in classes:
        if any(part["number"] and len(part["number"]) > RUST_LONGEST_RUN for part in parts_of(phrase)):
            raise Refused(2)
    return lexemes, places


def parts_of(phrase):
    return model.PART.finditer(phrase.decode("latin-1"))


def rust_text(phrase):
    """Lower case and white space as the Rust takes them; bytes that are no UTF-8 stay."""
    if not is_utf8(phrase):
        return phrase
    text = phrase.decode("utf-8").lower()
    return "".join(" " if c in WHITE else c for c in text).encode("utf-8")


def is_utf8(phrase):
    try:
        phrase.decode("utf-8")
    except UnicodeDecodeError:
        return False
    return True


def now_like(now, classes):
    """A now; in chrono year 0 has days too."""
    if YEAR_0_NOW in classes and now[:4] == b"0000":
        day, second = model.read_now(b"0400" + now[4:])
        return day - CYCLE_DAYS, second
    return model.read_now(now)


def answer_like(now, phrase, classes):
    """`model.answer` with the rules in `classes` the Rust's way."""
    fields = []
    try:
        lexemes, places = lex_like(phrase, classes)
        fields.append(model.show_lexemes(lexemes))
        tree, taken = model.read(lexemes)
        fields += [model.show_tree(tree), str(taken)]
        model.all_taken(taken, places, phrase)
        at_now = Like(now_like(now, classes), classes)
        fields.append(model.show_moment(at_now, at_now.date_time(tree)))
    except Refused as refusal:
        fields.append(str(refusal))
    return "|".join(fields)


# What the Rust answers where the model refuses: only an overflow in a number panics in the parsers, and only steps after them
RUST_FAILS = {1: ["error"], 2: ["error"], 3: ["error"], 4: ["error"], 5: ["error"], 6: ["panic"], 7: ["error"], 8: ["no now"],
              9: ["error"], 10: ["error"], 11: ["error"], 12: ["error", "panic"], 13: ["error", "panic"]}


def agree(rust, told):
    """The same fields; and where the model refuses, the Rust fails at the same stage in a way that fits the refusal."""
    *rust_fields, rust_last = rust.split("|")
    *fields, last = told.split("|")
    if rust_fields != fields:
        return False
    if last.startswith("refused "):
        return rust_last in RUST_FAILS[int(last.split(" ")[1])]
    return rust_last == last


def class_of(now, phrase, rust):
    """The classes of a difference, the fewest that explain it."""
    for size in range(1, len(CLASSES) + 1):
        for classes in itertools.combinations(CLASSES, size):
            if agree(rust, answer_like(now, phrase, classes)):
                return classes
    return (NO_CLASS,)


def split_line(line):
    now, _, phrase = line.encode("latin-1").partition(b"|")
    return now, model.unescape(phrase)


def difference(line, rust):
    """The model's line for `line`, and the classes by which the Rust's differs from it: none where they agree."""
    now, phrase = split_line(line)
    told = model.answer(now, phrase)
    return told, () if agree(rust, told) else class_of(now, phrase, rust)


def size_of(line):
    """By what the smallest line is chosen: the phrase's bytes, then the list's first now before others."""
    now, phrase = split_line(line)
    return len(phrase), now != phrases.A.encode(), line


def both_fail(rust, told):
    return last_field(rust) in ("error", "panic", "no now") and last_field(told).startswith("refused")


# 02: a weekday directly followed by "in", among the lexemes as they are shown
WEEKDAY_IN = re.compile(rf"\b({'|'.join(model.Weekday.NAMES)}) In\b")

# 02: a month, a lexeme that a number begins with, and more that may belong to numbers
NUMBER_WORDS = [*model.Ones.VALUES, *model.Teens.VALUES, *model.Tens.VALUES, "Hundred", *model.NumTripleUnit.VALUES]
NUMBER = rf"(Num\(\d+\)|{'|'.join(NUMBER_WORDS)})"
MONTH_NUMBERS = re.compile(rf"\b({'|'.join(model.Month.NAMES)}) {NUMBER}( ({NUMBER}|Dash|And|ST|ND|RD|TH|Comma))+(?= |$)")
# 02: a literal with an ordinal's ending, and the words that differ
ORDINAL = re.compile(r"Num\(\d+\) (ST|ND|RD|TH)\b")
NEW_WORD = re.compile(rb"(?<![a-z])(th|forty|fortieth|eighth)(?![a-z])", re.IGNORECASE)


def may_differ(phrase, first, second):
    """Whether the model's lines in the two readings may differ as 02 says: where a word of reading 2 stands, a literal with an ending, or two
    numbers behind a month; else by the node of a weekday with "in", and by the answer."""
    other_way = second.replace("WeekdayExpressionAfter", "WeekdayExpressionBefore")
    fields = other_way.split("|")
    if NEW_WORD.search(phrase) or ORDINAL.search(fields[0]) or MONTH_NUMBERS.search(fields[0]):
        return True
    return bool(WEEKDAY_IN.search(fields[0])) and other_way != second and fields[:-1] == first.split("|")[:-1]


def last_field(line):
    return line.rsplit("|", 1)[-1]


def run(command, lines):
    """What a program answers, line by line."""
    text = "".join(line + "\n" for line in lines)
    done = subprocess.run(command, input=text.encode("latin-1"), stdout=subprocess.PIPE, check=True)
    answers = done.stdout.decode("latin-1").removesuffix("\n").split("\n")
    assert len(answers) == len(lines)
    return answers


class Tally:
    """Counts over the lines of one source: by the model's outcome, and where ours is not the model's."""

    def __init__(self):
        self.lines = self.ours_differ = 0
        self.outcomes = collections.Counter()

    def add_line(self, line, ours, told):
        self.lines += 1
        last = last_field(told)
        self.outcomes[int(last.split(" ")[1]) if last.startswith("refused") else 0] += 1
        if ours != told:
            self.ours_differ += 1
            print(f"OURS IS NOT THE MODEL'S: {line}\n    ours  {ours}\n    model {told}")

    def merge(self, other):
        """Adds every number and counter of another tally."""
        for name, value in vars(other).items():
            if isinstance(value, int):
                setattr(self, name, getattr(self, name) + value)
            elif isinstance(value, collections.Counter):
                getattr(self, name).update(value)

    def report(self, name):
        print(f"{name}: {self.lines} lines, {self.found()}, {self.ours_differ} of ours are not the model's", flush=True)

    def report_outcomes(self):
        outcomes = (f"{'refused ' + str(number) if number else 'moment'} {self.outcomes[number]}" for number in sorted(self.outcomes))
        print("by the model: " + ", ".join(outcomes))


class FirstTally(Tally):
    """Reading 1, beside the Rust: also the counts by class, and the smallest phrase of each single class."""

    def __init__(self):
        super().__init__()
        self.differ = self.no_utf8 = 0
        self.classes = collections.Counter()
        self.alone = collections.Counter()
        self.both_fail = collections.Counter()
        self.smallest = {}

    def add(self, lines):
        for line, rust, ours in zip(lines, run(RUST, lines), run(OURS, lines), strict=True):
            told, classes = difference(line, rust)
            self.add_line(line, ours, told)
            self.no_utf8 += not is_utf8(split_line(line)[1])
            if classes:
                self.count(classes, line, rust, told)

    def count(self, classes, line, rust, told):
        self.differ += 1
        self.classes.update(classes)
        if classes == (NO_CLASS,):
            print(f"NO CLASS: {line}\n    rust  {rust}\n    model {told}")
        if len(classes) > 1:
            return
        # a phrase that only one of the two answers shows more than one that both refuse at different stages
        fail = both_fail(rust, told)
        self.alone[classes[0]] += 1
        self.both_fail[classes[0]] += fail
        size = (fail, *size_of(line))
        self.smallest[classes[0]] = min(size, self.smallest.get(classes[0], size))

    def found(self):
        return f"{self.differ} differ from the Rust's, {self.classes[NO_CLASS]} in no class"

    def failed(self):
        return self.classes[NO_CLASS] + self.ours_differ


class SecondTally(Tally):
    """Reading 2: also where the model's two readings differ, and where they must not."""

    def __init__(self):
        super().__init__()
        self.readings_differ = self.answers_differ = self.wrongly = 0

    def add(self, lines):
        for line, ours in zip(lines, run(OURS_SECOND, lines), strict=True):
            now, phrase = split_line(line)
            first, second = model.answer(now, phrase, model.FIRST), model.answer(now, phrase, model.SECOND)
            self.add_line(line, ours, second)
            if first != second:
                self.count(line, first, second)

    def count(self, line, first, second):
        self.readings_differ += 1
        self.answers_differ += last_field(first) != last_field(second)
        if not may_differ(split_line(line)[1], first, second):
            self.wrongly += 1
            print(f"THE READINGS MUST NOT DIFFER SO: {line}\n    first  {first}\n    second {second}")

    def found(self):
        return f"at {self.readings_differ} the readings differ, at {self.answers_differ} in the answer, at {self.wrongly} wrongly"

    def failed(self):
        return self.wrongly + self.ours_differ


def representatives():
    """The shortest word of each lexeme, and literals on both sides of the limits that the parsers test."""
    words = {}
    for word in sorted(model.KEYWORDS, key=len):
        words.setdefault(model.KEYWORDS[word], word)
    return list(words.values()) + list(model.MARKS) + ["0", "5", "12", "25", "100", "1000", "2024", "4294967295"]


def exhaustive_lines(lexemes, *head):
    """All phrases of so many lexemes behind the words of `head`."""
    for parts in itertools.product(representatives(), repeat=lexemes):
        yield f"{phrases.A}|{phrases.close_up((*head, *parts))}"


def behind_weekday_in():
    """All phrases of two lexemes behind each weekday with "in": no shorter ones have a duration there."""
    return itertools.chain.from_iterable(exhaustive_lines(2, weekday, "in") for weekday in phrases.WEEKDAYS)


def behind_month_and_day():
    """Every lexeme and every two behind month, day and a number that may be their year."""
    for year in phrases.YEARS:
        yield from exhaustive_lines(1, "march", "3", year)
    for year in ("5", "0005", "2027", "twenty"):
        yield from exhaustive_lines(2, "march", "3", year)


def behind_ordinal():
    """Every lexeme behind a literal of each size with each ending, and behind month, day and comma."""
    for ordinal in phrases.ORDINALS:
        yield from exhaustive_lines(1, "march", ordinal)
        yield from exhaustive_lines(1, ordinal)
    yield from exhaustive_lines(2, "march", "3", ",")


def random_lines(count, seed):
    """Grammar-made phrases (half of all), damaged copies, word soup, long chains and raw bytes."""
    dice = phrases.Dice(seed)
    known = phrases.QUIRKS + phrases.AT_EVERY_NOW
    makers = [*[dice.phrase] * 5, lambda: dice.damaged(dice.phrase()), lambda: dice.damaged(dice.pick(known)),
              dice.soup, dice.chain, dice.raw]
    return made_lines(count, dice, makers)


def second_random_lines(count, seed):
    """As above, but most phrases have a weekday, "in" and a duration, month and day and a number behind them, endings or commas."""
    dice = phrases.Dice(seed)
    makers = [*[dice.ahead, dice.dated, dice.ordinal] * 2, lambda: dice.damaged(dice.ahead()), lambda: dice.damaged(dice.ordinal()), dice.phrase,
              lambda: dice.damaged(dice.phrase()), lambda: dice.pick([dice.soup, dice.chain, dice.raw])()]
    return made_lines(count, dice, makers)


def mixed_random_lines(count, seed):
    """Half of each."""
    return itertools.chain(random_lines(count - count // 2, seed), second_random_lines(count // 2, seed))


def made_lines(count, dice, makers):
    for _ in range(count):
        phrase = dice.pick(makers)()
        yield f"{dice.now()}|{model.escape(phrase if isinstance(phrase, bytes) else phrase.encode())}"


def batches(lines, size=50_000):
    while batch := list(itertools.islice(lines, size)):
        yield batch


def tallies_of(kind, sources):
    """A tally of each source and one of all, each reported."""
    tallies, total = {}, kind()
    for name, lines in sources.items():
        tally = tallies[name] = kind()
        for batch in batches(iter(lines)):
            tally.add(batch)
        tally.report(name)
        total.merge(tally)
    total.report("in all")
    return tallies, total


def compare_first(count, seed):
    """Every source compared in reading 1, and what was found; the number of differences that must not be."""
    tallies, total = tallies_of(FirstTally, {
        "the fixed list": read_lines(LIST),
        "up to two lexemes": itertools.chain(exhaustive_lines(1), exhaustive_lines(2)),
        "three lexemes": exhaustive_lines(3),
        "sweeps of nows": phrases.sweep(),
        f"random with seed {seed}": random_lines(count, seed),
    })
    print(f"{total.no_utf8} of them are no UTF-8")
    total.report_outcomes()
    for name in CLASSES:
        by_source = ", ".join(f"{source} {tally.classes[name]}" for source, tally in tallies.items())
        alone = f"{total.alone[name]} of no other class, {total.both_fail[name]} of these refused by both at different stages"
        print(f"{name}: {total.classes[name]} lines ({by_source}); {alone}")
    for name in CLASSES:
        if found := [tally.smallest[name][-1] for tally in tallies.values() if name in tally.smallest]:
            show_smallest(name, found)
    return total.failed()


def compare_second(count, seed):
    """Every source compared in reading 2; the number of differences that must not be."""
    _, total = tallies_of(SecondTally, {
        "the second list": read_lines(SECOND_LIST),
        "up to two lexemes": itertools.chain(exhaustive_lines(1), exhaustive_lines(2)),
        "three lexemes": exhaustive_lines(3),
        "two lexemes behind a weekday and in": behind_weekday_in(),
        "one or two lexemes behind month, day and number": behind_month_and_day(),
        "a lexeme behind a literal with an ending, two behind a comma": behind_ordinal(),
        "sweeps of nows": phrases.second_sweep(),
        f"random with seed {seed}": second_random_lines(count, seed),
    })
    total.report_outcomes()
    return total.failed()


def compare(count, seed):
    """Both readings; the number of differences that must not be."""
    print("reading 1, beside the Rust:")
    failed = compare_first(count, seed)
    print("reading 2:")
    return failed + compare_second(count // 5, seed)


def show_smallest(name, lines):
    """The smallest phrase of a class, reached from those that the sources found, with the answers to it."""
    line = min((shrink(line, (name,)) for line in lines), key=size_of)
    print(f"{name}\n    {line}\n    ours {run(OURS, [line])[0]}\n    rust {run(RUST, [line])[0]}")


def shrink(line, classes):
    """The shortest phrase reached by leaving out parts of this one, of the same class and not refused by both."""
    now, phrase = split_line(line)
    while True:
        ends = itertools.combinations(range(len(phrase) + 1), 2)
        shorter = sorted({phrase[:start] + phrase[end:] for start, end in ends}, key=lambda p: (len(p), p))
        lines = [f"{now.decode()}|{model.escape(p)}" for p in shorter]
        for candidate, found, rust in zip(shorter, lines, run(RUST, lines)):
            told, found_classes = difference(found, rust)
            if found_classes == classes and not both_fail(rust, told):
                phrase = candidate
                break
        else:
            return f"{now.decode()}|{model.escape(phrase)}"


def read_lines(path):
    return path.read_text(encoding="latin-1").removesuffix("\n").split("\n")


def differs_lines():
    """`LINE|CLASSES` for each line of the fixed list, counted from 1, whose recorded answer differs from the model's."""
    for number, (line, rust) in enumerate(zip(read_lines(LIST), read_lines(RECORDED), strict=True), 1):
        _, classes = difference(line, rust)
        if classes:
            yield f"{number}|{' + '.join(classes)}"


def check():
    """Whether the recorded files are what their makers make; the number of those that are not."""
    made = {
        LIST: phrases.fixed_list(),
        EXPECTED: [model.answer(*split_line(line)) for line in read_lines(LIST)],
        DIFFERS: list(differs_lines()),
        SECOND_LIST: phrases.second_list(),
        SECOND_EXPECTED: [model.answer(*split_line(line), model.SECOND) for line in read_lines(SECOND_LIST)],
    }
    if ORACLE.exists():
        made[RECORDED] = run(RUST, read_lines(LIST))
    wrong = [str(path.relative_to(ROOT)) for path, lines in made.items() if read_lines(path) != lines]
    if NO_CLASS in DIFFERS.read_text():
        wrong.append(NO_CLASS)
    counts = f"{len(read_lines(LIST))} and {len(read_lines(SECOND_LIST))} lines"
    print(f"{counts}, {'not as made: ' + ', '.join(wrong) if wrong else 'all as made'}")
    return len(wrong)


def main():
    match sys.argv[1:]:
        case ["--all", count, seed]:
            sys.exit(compare(int(count), int(seed)) > 0)
        case ["--differs"]:
            print("\n".join(differs_lines()))
        case ["--random", count, seed]:
            for line in mixed_random_lines(int(count), int(seed)):
                print(line)
        case ["--check"]:
            sys.exit(check() > 0)
        case _:
            sys.exit(__doc__)


if __name__ == "__main__":
    main()
