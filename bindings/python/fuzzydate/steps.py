"""What a ready phrase will do when it is run, in plain words; docs/FORMAT.md has its bytes."""

from __future__ import annotations

import struct
from typing import Callable, Dict, Iterator, List, NamedTuple

from . import Bytes, _bytes

_RECORD = struct.Struct("<IIII")
_MOST_STEPS = 24

_MONTHS = (
    "January", "February", "March", "April", "May", "June", "July", "August", "September", "October", "November", "December",
)
_WEEKDAYS = ("Monday", "Tuesday", "Wednesday", "Thursday", "Friday", "Saturday", "Sunday")
_DAYS = {6: "start today", 7: "start tomorrow", 8: "start yesterday", 9: "start today, since no date is stated"}
_WEEKS = ("of this week", "of next week", "of last week")
_WAYS = ("go forward", "go back")
_HALVES = {1: "", 2: " am", 3: " pm"}


class _Step(NamedTuple):
    kind: int
    form: int
    first: int
    second: int
    third: int


def _steps(ready: bytes) -> Iterator[_Step]:
    for head, first, second, third in _RECORD.iter_unpack(ready):
        yield _Step(head & 0xFF, head >> 8, first, second, third)


def _counted(count: int, unit: str) -> str:
    return f"{count:,} {unit}" if count == 1 else f"{count:,} {unit}s"


def _length(minutes: int) -> str:
    """A length of time, such as "1 day 2 hours"; a day is 24 hours."""
    parts = [(minutes // 1440, "day"), (minutes // 60 % 24, "hour"), (minutes % 60, "minute")]
    return " ".join(_counted(count, unit) for count, unit in parts if count > 0) or "0 minutes"


def _day(day: int, month: int, year: str) -> str:
    """A date as it is stated; the phrase may state one that does not exist, which is refused when it is run."""
    return f"start on {day} {_MONTHS[month - 1]} {year}" if 1 <= month <= 12 else f"start on day {day} of month {month}, {year}"


def _date(form: int, a: int, b: int, c: int) -> str:
    """A date by its form, which says in which order the phrase stated year, month and day."""
    if form == 0:
        return _day(c, b, str(a))
    if form in (1, 3):
        return _day(b, a, str(c))
    if form == 2:
        return _day(a, b, str(c))
    return _day(b, a, "of now's year") if form in (4, 5) else _DAYS[form]


def _time(form: int, hour: int, minute: int) -> str:
    return "keep now's time of day" if form == 0 else f"set the time to {hour}:{minute:02}{_HALVES[form]}"


def _known(step: _Step) -> str:
    """A step in words; a KeyError or IndexError for a kind or form that this version does not have."""
    kind, form, first, second, third = step
    weekday = _WEEKDAYS[first % 7]
    words: Dict[int, Callable[[], str]] = {
        1: lambda: "start at now",
        2: lambda: "refuse, since the phrase makes no sense",
        3: lambda: _date(form, first, second, third),
        4: lambda: f"start on {weekday} {_WEEKS[form]}",
        5: lambda: f"start on the first {weekday} from today on, today included",
        6: lambda: f"{_WAYS[form]} {_length(first + (second << 32))}",
        7: lambda: f"{_WAYS[form]} {_counted(first, 'month')}",
        8: lambda: f"{_WAYS[form]} {_counted(first, 'year')}",
        9: lambda: f"go back to a {weekday}, that day included",
        10: lambda: _time(form, first, second),
        11: lambda: f"go forward to a {weekday}, that day included",
    }
    return words[kind]()


def _in_words(step: _Step) -> str:
    try:
        return _known(step)
    except (KeyError, IndexError):
        return f"a step of a newer library, of kind {step.kind} and form {step.form}"


def in_words(ready: Bytes) -> List[str]:
    """The steps of a ready phrase, each in plain words, in the order in which they are run."""
    steps = _bytes(ready)
    if len(steps) % _RECORD.size != 0 or not 0 < len(steps) <= _MOST_STEPS * _RECORD.size:
        raise ValueError(f"a ready phrase has 1 to {_MOST_STEPS} records of {_RECORD.size} bytes, and this has {len(steps)} bytes")
    return [_in_words(step) for step in _steps(steps)]
