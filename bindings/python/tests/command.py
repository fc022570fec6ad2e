"""The command, the steps in words, and what is said where the library is missing or another: command.py ZONE PYTHON..

PYTHON.. is how a Python with the package is started, as by an emulator.
"""

import _ctypes
import os
import pathlib
import shutil
import subprocess
import sys
import tempfile

import fuzzydate
from fuzzydate import steps

ZONE, *PYTHON = sys.argv[1:]
NOW = ["--now", "2026-02-11T09:30:15"]
IN_ZONE = ["--zone", ZONE]
BEFORE = ["--now", "2026-03-07T09:00:00"]


def expect(given, wanted, what):
    if given != wanted:
        raise AssertionError(f"{what}: {given!r}, and not {wanted!r}")


def run(*arguments):
    done = subprocess.run([*PYTHON, "-m", "fuzzydate", *arguments], stdout=subprocess.PIPE, stderr=subprocess.PIPE)
    return done.returncode, done.stdout.decode(), done.stderr.decode()


def answers():
    """What is written for a moment: itself, and the steps that lead to it."""
    for arguments, moment, *lines in [
        (["next friday", *NOW, "--reading", "2"], "2026-02-20T09:30:15", "start on Friday of next week", "keep now's time of day"),
        (["an hour ago", "--now", "2026-02-11T09:30:15.250"], "2026-02-11T08:30:15.250", "start at now", "go back 1 hour"),
        (["tomorrow", *BEFORE, *IN_ZONE], "2026-03-08T09:00:00-04:00", "start tomorrow", "keep now's time of day"),
        (["1 day from now", *BEFORE, *IN_ZONE], "2026-03-08T10:00:00-04:00", "start at now", "go forward 1 day"),
        (["now", "--now", "2026-03-07T14:00:00Z", *IN_ZONE], "2026-03-07T09:00:00-05:00", "start at now"),
        (["now", "--now", "2026-03-07T14:00:00-00:00", *IN_ZONE], "2026-03-07T09:00:00-05:00", "start at now"),
        (["now", "--now", "2026-11-01T01:30:15.5", *IN_ZONE], "2026-11-01T01:30:15.500-04:00", "start at now"),
        (["march 3 5 pm", *NOW], "2026-03-03T17:00:00", "start on 3 March of now's year", "set the time to 5:00 pm"),
    ]:
        said = "".join(f"  {number}. {line}\n" for number, line in enumerate(lines, 1))
        expect(run(*arguments), (0, f"{moment}\n{said}", ""), arguments)
    status, said, clock = run("now")
    expect((status, clock), (0, f"now is {said.splitlines()[0]}, by this machine's clock\n"), "no now")


def refusals():
    """What is written for a refusal: its words, and what it is about."""
    for arguments, said in [
        (["next forty", *NOW, "--reading", "1"], "not understood\n    next forty\n         ^^^^^"),
        ([b"at \xff", *NOW], "not understood\n    at \\xff\n       ^^^^"),
        (["march 3 5 pm", *NOW, "--reading", "1"], "not part of the date or time\n    march 3 5 pm\n              ^^"),
        (["this month", *NOW], "makes no sense\n    this month"),
        (["today 2:00", "--now", "2026-03-08T01:30:00", *IN_ZONE], "the zone's clocks skip that time\n    today 2:00"),
        (["now", "--now", "2026-03-08T02:30:15", *IN_ZONE], "the zone's clocks skip that time\n    2026-03-08T02:30:15"),
        (["now", "--now", "2027-03-14T03:00:00", *IN_ZONE], "later than the zone's file knows\n    2027-03-14T03:00:00"),
        (["now", "--now", "2027-03-14T07:00:00Z", *IN_ZONE], "later than the zone's file knows\n    now"),
        (["now", *NOW, "--zone", os.devnull], f"not a zone file that is accepted\n    {os.devnull}"),
    ]:
        expect(run(*arguments), (1, "", said + "\n"), arguments)


def wrong_options():
    for arguments, said in [
        (["now", "--now", "2026-02-11T09:30:15Z"], "--now has an offset, which is used only with --zone"),
        (["now", "--now", "2026-02-11T09:30:15.0001"], "not a date and time such as 2026-02-11T09:30:15: 2026-02-11T09:30:15.0001"),
        (["now", "--now", "2026-02-30T09:30:15"], "not a date and time such as 2026-02-11T09:30:15: 2026-02-30T09:30:15"),
        (["now", "--reading", "3"], "invalid choice: 3"),
        (["now", *NOW, "--zone", ZONE + "/none"], "none"),
    ]:
        status, answer, error = run(*arguments)
        expect((status, answer, said in error), (2, "", True), f"{arguments}: {error}")
    version = f"fuzzydate {fuzzydate.__version__}, library {fuzzydate.version()}\n"
    expect(run("--version"), (0, version, ""), "the version")


def words():
    """Every kind and form of a step in words, those that no phrase makes too."""
    for phrase, said in [
        ("2026/3/4", "start on 4 March 2026"),
        ("3/4/2026", "start on 4 March 2026"),
        ("4 march 2026", "start on 4 March 2026"),
        ("march 4 2026", "start on 4 March 2026"),
        ("3/4 at noon", "start on 4 March of now's year"),
        ("march 4", "start on 4 March of now's year"),
        ("2026/13/40", "start on day 40 of month 13, 2026"),
        ("today", "start today"),
        ("tomorrow", "start tomorrow"),
        ("yesterday", "start yesterday"),
        ("5 pm", "start today"),
        ("this friday", "start on Friday of this week"),
        ("last friday", "start on Friday of last week"),
        ("friday", "start on the first Friday from today on, today included"),
        ("now", "start at now"),
        ("this month", "refuse, since the phrase makes no sense"),
    ]:
        expect(steps.in_words(fuzzydate.make_ready(1, phrase))[0], said, phrase)
    for phrase, said in [
        ("two years from now", "go forward 2 years"),
        ("a month ago", "go back 1 month"),
        ("1000 days from now", "go forward 1,000 days"),
        ("1 day and 61 minutes ago", "go back 1 day 1 hour 1 minute"),
        ("0 minutes ago", "go back 0 minutes"),
        ("4294967295 weeks ago", "go back 30,064,771,065 days"),
        ("tuesday in two weeks", "go forward to a Tuesday, that day included"),
        ("tuesday two weeks ago", "go back to a Tuesday, that day included"),
        ("today at 9:05", "set the time to 9:05"),
        ("today at 9:05 am", "set the time to 9:05 am"),
    ]:
        expect(said in steps.in_words(fuzzydate.make_ready(2, phrase)), True, phrase)
    for kind, form, said in [
        (3, 9, "start today, since no date is stated"),
        (3, 10, "a step of a newer library, of kind 3 and form 10"),
        (4, 3, "a step of a newer library, of kind 4 and form 3"),
        (12, 1, "a step of a newer library, of kind 12 and form 1"),
    ]:
        expect(steps.in_words(bytes([kind, form]).ljust(16, b"\0")), [said], said)
    for length in (0, 15, 17, 400):
        try:
            raise AssertionError(f"{length} bytes: {steps.in_words(bytes(length))}")
        except ValueError as error:
            expect(str(error).endswith(f" and this has {length} bytes"), True, error)


def other_libraries():
    """No library, one that is none, and one without a version: an ImportError says so."""
    with tempfile.TemporaryDirectory() as room:
        package = pathlib.Path(room, "fuzzydate")
        shutil.copytree(pathlib.Path(fuzzydate.__file__).parent, package, ignore=shutil.ignore_patterns("*.so", "__pycache__"))
        library = package / "libfuzzydate.so"
        for write, said in [
            (lambda: None, "ImportError: fuzzydate 1.0.0 cannot load its library: "),
            (lambda: library.write_bytes(b"another"), "ImportError: fuzzydate 1.0.0 cannot load its library: "),
            (lambda: shutil.copy(_ctypes.__file__, library), f"{library} has no version"),
        ]:
            write()
            load = f"import sys; sys.path.insert(0, {room!r}); import fuzzydate"
            done = subprocess.run([*PYTHON, "-c", load], stderr=subprocess.PIPE)
            expect((done.returncode, said in done.stderr.decode()), (1, True), done.stderr)


for part in (answers, refusals, wrong_options, words, other_libraries):
    part()
print("bindings/python: the command and the steps in words say what they should")
