"""Compares the tables of the documents with the library, with include/fuzzy.h and with the definitions.

A table is known by the first cells of its header row, and every row of it is compared:

    | Phrase | Reading 1 | Reading 2 |                       at A, Wednesday, 2026-02-11 09:30:15
    | Phrase | Now | Reading 1 | Reading 2 |                 at another now
    | People write | Refused | Write instead | It means |    refused in both readings, and what to write, at A
    | Phrase | Asked at | Means |                            in New York, by bindings/zones/New_York
    | A phrase is | For example |                            each phrase is accepted, in both readings
    | Part | Forms |                                         so is each form, alone or before "from now" or "days ago"
    | Words | Reading 1 | Reading 2 |                        all words of both readings, as crates/lexer/specs/Keywords.antt has them
    | Number | Name | Words |                                the refusals of include/fuzzy.h, all of them
    | Constant | Value |                                     its other constants, all of them

An answer is written as "Fri 2026-02-20 15:00:00", or as "refused 7 at `pm`" with the refused part where there is one. "the same" stands
for the answer of the column before it. Each function of the header has its heading and its declaration in docs/API.md, in its order.
"""

import datetime
import functools
import re
import sys

from blocks import Wrong

A = datetime.datetime(2026, 2, 11, 9, 30, 15)
SECOND_WORDS = ["forty", "fortieth", "eighth"]


def cells(line):
    return [cell.strip() for cell in line.strip().strip("|").split("|")]


def tables_of(text):
    """Each table as its header and its rows."""
    for block in re.findall(r"(?m)(?:^\|.*\n?)+", text):
        lines = block.splitlines()
        if len(lines) > 2 and set(lines[1]) <= set("|-: "):
            yield tuple(cells(lines[0])), [cells(line) for line in lines[2:]]


def expect(what, wanted, said):
    if wanted != said:
        raise Wrong(f"{what}: it should be\n  {wanted}\nand is written as\n  {said}")


class Library:
    """The library by its Python binding, with answers as the tables write them."""

    def __init__(self, folder, root):
        sys.path.insert(0, str(folder))
        import fuzzydate

        self.calls = fuzzydate
        self.new_york = (root / "bindings" / "zones" / "New_York").read_bytes()

    def answer(self, call, *given):
        try:
            return call(*given)
        except self.calls.Refusal as refusal:
            part = bytes(refusal.part).decode()
            return f"refused {refusal.number}" + (f" at `{part}`" if part else "")

    def moment(self, reading, phrase, now):
        moment = self.calls.read(reading, phrase, now)
        return f"{moment:%a} {moment.isoformat(' ')}"

    def read(self, reading, phrase, now=A):
        return self.answer(self.moment, reading, phrase, now)

    def local(self, phrase, asked):
        instant = datetime.datetime.fromisoformat(asked.replace(" -", "-"))
        shown = self.calls.read_in_zone(1, phrase, self.new_york, instant).aware()
        return shown.strftime("%Y-%m-%d %H:%M ") + shown.isoformat()[-6:]

    def in_zone(self, phrase, asked):
        return self.answer(self.local, phrase, asked)


def compare_readings(library, phrase, now, first, second):
    """A phrase in both readings."""
    answers = [library.read(reading, phrase, now) for reading in (1, 2)]
    expect(f"{phrase}, reading 1", answers[0], first)
    expect(f"{phrase}, reading 2", "the same" if answers[0] == answers[1] else answers[1], second)


def compare_phrases(library, root, rows):
    for row in rows:
        compare_readings(library, row[0].strip("`"), A, row[1], row[2])


def compare_nows(library, root, rows):
    for row in rows:
        compare_readings(library, row[0].strip("`"), datetime.datetime.fromisoformat(row[1]), row[2], row[3])


def compare_instead(library, root, rows):
    for written, refused, instead, means, *_ in rows:
        for reading in (1, 2):
            expect(f"{written}, reading {reading}", library.read(reading, written.strip("`")), refused)
            expect(f"{instead}, reading {reading}", library.read(reading, instead.strip("`")), means)


def compare_zones(library, root, rows):
    for phrase, asked, means, *_ in rows:
        expect(f"{phrase} at {asked}", library.in_zone(phrase.strip("`"), asked), means)


def compare_examples(library, root, rows, endings=("",)):
    """Each phrase between backticks is accepted, with one of the endings."""
    for phrase in re.findall("`(.*?)`", " ".join(cell for row in rows for cell in row)):
        for reading in (1, 2):
            answers = [library.read(reading, phrase + ending) for ending in endings]
            expect(f"{phrase}, refused in reading {reading}", False, all(answer.startswith("refused") for answer in answers))


def compare_forms(library, root, rows):
    compare_examples(library, root, rows, ("", " from now", " days ago"))


def compare_words(library, root, rows):
    """The listed words are the keywords; those that only the second reading has stand in its column."""
    keywords = re.findall(r'(?m)^    word "([a-z]+)"', (root / "crates/lexer/specs/Keywords.antt").read_text())
    first, second = [" ".join(row[column] for row in rows).replace(",", " ").split() for column in (1, 2)]
    expect("the words of both readings", sorted(keywords), sorted(first))
    expect("the words of reading 2 alone", sorted(SECOND_WORDS), sorted(second))
    for reading, words in ((1, keywords), (2, keywords + SECOND_WORDS)):
        absent = [word for word in words if not library.calls.find_word(reading, word).code]
        expect(f"the listed words that reading {reading} does not have", [], absent)


def compare_refusals(library, root, rows):
    header = (root / "include/fuzzy.h").read_text()
    names = re.findall(r"(?m)^    FUZZY_([A-Z_]+) = (\d+),? *(?:/\*|$)", header[header.index("enum fuzzy_refusal {"):])
    words = dict(re.findall(r'case FUZZY_([A-Z_]+): return "(.*)";', header))
    wanted = [[number, name, words[name]] for name, number in names]
    expect("the refusals", wanted, [[row[0], row[1].strip("`"), row[2]] for row in rows])


def compare_constants(library, root, rows):
    header = (root / "include/fuzzy.h").read_text()
    wanted = re.findall(r"(?m)^#define (FUZZY_(?!H$|ASSERT)\w+) (.+)$", header)
    expect("the constants", sorted(wanted), sorted((row[0].strip("`"), row[1]) for row in rows))


KINDS = {
    ("Phrase", "Reading 1", "Reading 2"): compare_phrases,
    ("Phrase", "Now", "Reading 1", "Reading 2"): compare_nows,
    ("People write", "Refused", "Write instead", "It means"): compare_instead,
    ("Phrase", "Asked at", "Means"): compare_zones,
    ("A phrase is", "For example"): compare_examples,
    ("Part", "Forms"): compare_forms,
    ("Words", "Reading 1", "Reading 2"): compare_words,
    ("Number", "Name", "Words"): compare_refusals,
    ("Constant", "Value"): compare_constants,
}


def declarations(text):
    """What the header declares for callers, by name, in its order: functions that it exports, and those that are inline."""
    code = re.sub(r"(?s)/\*.*?\*/", "", text)
    found = re.findall(r"(?m)^(?:static inline )?((?:uint(?:32|64)_t|int|const char \*)\s*\**(fuzzy_\w+)\([^;{]*\))\s*[;{]", code)
    return {name: " ".join(declaration.split()) for declaration, name in found}


def compare_calls(root, text):
    """API.md has a heading and the declaration of every function of the header."""
    header = declarations((root / "include/fuzzy.h").read_text())
    sections = re.split(r"(?m)^### ", text)[1:]
    named = {}
    for section in sections:
        for declaration in re.findall(r"(?ms)^```c\n((?:uint|int|const).*?)^```", section):
            named.update(declarations(declaration))
    missing = [name for name in header if name not in named and not name.endswith("_in")]
    expect("functions of the header that docs/API.md does not have", [], missing)
    for name, declaration in named.items():
        expect(name, header.get(name), declaration)


def tries(root, folder, files):
    """What is compared, each with its name."""
    library = Library(folder, root)
    for file in files:
        text = (root / file).read_text()
        for header, rows in tables_of(text):
            for kind, compare in KINDS.items():
                if header[: len(kind)] == kind:
                    yield f"{file}, {len(rows)} rows of {', '.join(kind)}", functools.partial(compare, library, root, rows)
        if file == "docs/API.md":
            yield f"{file}, declarations", functools.partial(compare_calls, root, text)
