"""Reminder phrases such as "next friday at 3 pm", read at a now that the caller gives.

A text is its bytes; a str stands for its UTF-8. A moment is a naive datetime and an instant an aware one, both of whole
milliseconds: another datetime is a ValueError that says what is wrong with it, since a part of it would be lost, and
cut_to_milliseconds cuts that part off. (A naive datetime's fold is ignored, as == ignores it.) What is refused raises a Refusal.
All functions may run in any thread.
"""

from __future__ import annotations

import ctypes
import enum
import threading
from datetime import datetime, timedelta, timezone
from typing import Iterable, List, NamedTuple, Optional, Tuple, Union

from . import _library
from ._library import VERSION as __version__
from ._refusals import Reason, Refusal

__all__ = [
    "Board", "Bytes", "Due", "FoundWord", "Local", "Reading", "Reason", "Refusal", "Stamp", "Text", "__version__",
    "cut_to_milliseconds", "find_word", "make_ready", "next", "occurrences", "read", "read_in_zone", "read_stamp", "run",
    "run_in_zone", "version", "write_phrase", "write_stamp",
]

Bytes = Union[bytes, bytearray, memoryview]
Text = Union[str, Bytes]

_EPOCH = datetime(1970, 1, 1, tzinfo=timezone.utc)
_LAST_MOMENT = datetime.max.replace(microsecond=999_000)


class Reading(enum.IntEnum):
    """The two readings of a phrase; the first is the original Rust library's."""

    FIRST = 1
    SECOND = 2


class Stamp(NamedTuple):
    """A moment as RFC 3339 text has it, and its offset in minutes, negative to the west; None is "-00:00", an unknown offset."""

    moment: datetime
    offset: Optional[int]

    def aware(self) -> Optional[datetime]:
        """The moment with its offset as its zone; None where the offset is not known."""
        return None if self.offset is None else self.moment.replace(tzinfo=timezone(timedelta(minutes=self.offset)))


class FoundWord(NamedTuple):
    """What looking a word up gives: its lexeme's code, None where the reading has no such word, and the number of comparisons."""

    code: Optional[int]
    comparisons: int


class Local(NamedTuple):
    """What the clocks of a zone show at an instant.

    The instant's second, counted from 1970-01-01T00:00:00Z, the moment on the clocks, and its distance from UTC in seconds,
    negative to the west.
    """

    second: int
    moment: datetime
    offset: int

    def aware(self) -> Optional[datetime]:
        """The moment with its offset as its zone, which is the instant; None for an offset of 24 hours or more, which no datetime has."""
        return None if abs(self.offset) >= 86_400 else self.moment.replace(tzinfo=timezone(timedelta(seconds=self.offset)))


class Due(NamedTuple):
    """A slot of a board, and its reminder's moment."""

    slot: int
    moment: datetime


def _bytes(text: Text) -> bytes:
    return text.encode() if isinstance(text, str) else bytes(memoryview(text))


def _check_naive(name: str, moment: datetime) -> None:
    if not isinstance(moment, datetime):
        raise TypeError(f"{name} must be a datetime, and is a {type(moment).__name__}")
    if moment.tzinfo is not None:
        raise ValueError(f"{name} must be a naive datetime, and is an aware one, with a tzinfo: {moment}")


def _check_whole(name: str, time: datetime, microseconds: int) -> None:
    if microseconds % 1000 != 0:
        raise ValueError(f"{name} must have whole milliseconds, and has a part of one, which cut_to_milliseconds cuts off: {time}")


def _numbers(name: str, moment: datetime) -> ctypes.Array[ctypes.c_uint32]:
    """A moment as the library takes it."""
    _check_naive(name, moment)
    _check_whole(name, moment, moment.microsecond)
    return _library.MomentNumbers(
        moment.year, moment.month, moment.day, moment.hour, moment.minute, moment.second, moment.microsecond // 1000
    )


def _moment(numbers: Iterable[int]) -> datetime:
    year, month, day, hour, minute, second, millisecond = numbers
    return datetime(year, month, day, hour, minute, second, millisecond * 1000)


def _instant(now: datetime) -> Tuple[int, int]:
    """An instant as the library takes it: the second, counted from 1970, and the millisecond."""
    if not isinstance(now, datetime):
        raise TypeError(f"now must be a datetime, and is a {type(now).__name__}")
    if now.utcoffset() is None:
        raise ValueError(f"now must be an aware datetime, and is a naive one, without an offset from UTC: {now}")
    passed = now - _EPOCH
    _check_whole("now", now, passed.microseconds)
    return passed // timedelta(seconds=1), passed.microseconds // 1000


def _local(second: ctypes.c_int64, numbers: Iterable[int]) -> Local:
    *moment, west, offset = numbers
    return Local(second.value, _moment(moment), offset if west == 0 else -offset)


def _checked(answer: int, text: bytes = b"") -> int:
    """The length of an answer, unless it is a refusal: that is raised."""
    number, place, length = answer & 0xFFFF, answer >> 16 & 0xFFFF, answer >> 32
    if number != 0:
        raise Refusal(number, place, length, text)
    return length


def version() -> str:
    """The version of the library, such as "1.0.0"; that of this binding is __version__."""
    return _library.in_digits(_library.version())


def cut_to_milliseconds(time: datetime) -> datetime:
    """A datetime, naive or aware, without its part of a millisecond, as of datetime.now()."""
    return time.replace(microsecond=time.microsecond // 1000 * 1000)


def read(reading: int, phrase: Text, now: datetime) -> datetime:
    """Reads a phrase at a now. Where it states a time, noon and midnight included, second and millisecond are 0; else they are now's."""
    text, moment = _bytes(phrase), _library.MomentNumbers()
    _checked(_library.read(Reading(reading), text, len(text), _numbers("now", now), moment), text)
    return _moment(moment)


def make_ready(reading: int, phrase: Text) -> bytes:
    """Makes a phrase ready without a now, as bytes that can be stored, sent and run later."""
    text, ready = _bytes(phrase), ctypes.create_string_buffer(_library.READY_SIZE)
    length = _checked(_library.make_ready(Reading(reading), text, len(text), ready), text)
    return ready.raw[:length]


def run(ready: Bytes, now: datetime) -> datetime:
    """Runs a ready phrase at a now: gives what read gives for its phrase at that now, in the reading that it was made in."""
    steps, moment = _bytes(ready), _library.MomentNumbers()
    _checked(_library.run(steps, len(steps), _numbers("now", now), moment))
    return _moment(moment)


def read_stamp(text: Text) -> Stamp:
    """Reads a whole text as an RFC 3339 stamp: letters in either case, and after the second one to three digits of a fraction or none."""
    given, stamp = _bytes(text), _library.StampNumbers()
    _checked(_library.read_stamp(given, len(given), stamp), given)
    *moment, west, minutes = stamp
    return Stamp(_moment(moment), minutes if west == 0 else -minutes if minutes > 0 else None)


def write_stamp(stamp: Tuple[datetime, Optional[int]]) -> str:
    """Writes a stamp as text, which reads back as the same stamp."""
    moment, offset = stamp
    west, minutes = (1, 0) if offset is None else (int(offset < 0), abs(offset))
    # ctypes would cut a number above 32 bits; every number above 1439 is refused
    numbers = _library.StampNumbers(*_numbers("moment", moment), west, min(minutes, 0xFFFFFFFF))
    text = ctypes.create_string_buffer(_library.STAMP_SIZE)
    length = _checked(_library.write_stamp(numbers, text, _library.STAMP_SIZE))
    return text.raw[:length].decode("ascii")


def write_phrase(moment: datetime) -> str:
    """Writes a moment of whole minutes as a phrase that people can edit: "march 4 2026 at 9:05".

    read gives the moment back at every now, in both readings for the years 1000 to 9999 and in the first for the years 1 to 999.
    """
    text = ctypes.create_string_buffer(_library.PHRASE_SIZE)
    length = _checked(_library.write_phrase(_numbers("moment", moment), text, _library.PHRASE_SIZE))
    return text.raw[:length].decode("ascii")


def find_word(reading: int, word: Text) -> FoundWord:
    """Says of a word, while it is typed, whether it is one of a reading's words: letters in either case, at most 8 comparisons."""
    text, found = _bytes(word), _library.FoundNumbers()
    _checked(_library.find_word(Reading(reading), text, len(text), found))
    return FoundWord(found[0] or None, found[1])


def occurrences(rule: Text, start: datetime, most: int) -> List[datetime]:
    """Lists the first occurrences of a repeating rule of RFC 5545, in order, from its start on: at most so many.

    The start is the first one, and every one has its time of day; COUNT, UNTIL and the year 9999 end them. The rule is its text,
    such as "FREQ=WEEKLY;INTERVAL=2;BYDAY=TU"; fuzzy.h says which are accepted. There is memory for `most`, whatever the rule has.
    """
    size = _library.MOMENT_NUMBERS
    text, moments = _bytes(rule), (ctypes.c_uint32 * (size * min(most, _library.MOST_OCCURRENCES)))()
    count = _checked(_library.list_in(text, len(text), _numbers("start", start), moments, len(moments)), text)
    return [_moment(moments[size * row : size * (row + 1)]) for row in range(count)]


def _up_to_milliseconds(asked: datetime) -> Optional[datetime]:
    """The first whole millisecond at or after an asked moment; None after the last one of the year 9999."""
    _check_naive("asked", asked)
    try:
        return asked + timedelta(microseconds=-asked.microsecond % 1000)
    except OverflowError:
        return None


def next(rule: Text, start: datetime, asked: datetime) -> datetime:
    """Finds which occurrence comes next: the first at or after the asked moment, the start included.

    The occurrences before it are not gone through. Where none is left, by COUNT, UNTIL or the year 9999, it is refused. An asked
    moment with a part of a millisecond is rounded up, which changes no answer: every occurrence has whole milliseconds.
    """
    text, moment, whole = _bytes(rule), _library.MomentNumbers(), _up_to_milliseconds(asked)
    first, from_then = _numbers("start", start), _numbers("asked", whole or _LAST_MOMENT)
    _checked(_library.next(text, len(text), first, from_then, moment), text)
    if whole is None:
        raise Refusal(Reason.NO_NEXT, 0, 0, text)
    return _moment(moment)


def read_in_zone(reading: int, phrase: Text, zone: Bytes, now: datetime) -> Local:
    """Reads a phrase at an instant in a zone: gives what run_in_zone gives for the phrase made ready."""
    text, file = _bytes(phrase), _bytes(zone)
    due, local = ctypes.c_int64(), _library.LocalNumbers()
    _checked(_library.read_in_zone(Reading(reading), text, len(text), file, len(file), *_instant(now), due, local), text)
    return _local(due, local)


def run_in_zone(ready: Bytes, zone: Bytes, now: datetime) -> Local:
    """Runs a ready phrase at an instant in a zone, which is the bytes of its TZif file; fuzzy.h says which are accepted.

    Dates, weekdays, months and years go by the clocks. Minutes and hours are lengths of time. Days and weeks go by the clocks in
    "1 day ago" and after or from today, tomorrow or a date, and are lengths in "1 day from now", "1 day before now", before
    anything else, and after a weekday. Of a time that the clocks show twice the earlier is meant. A time that they skip is
    refused, and so is any moment at or after the file's last transition.
    """
    steps, file = _bytes(ready), _bytes(zone)
    due, local = ctypes.c_int64(), _library.LocalNumbers()
    _checked(_library.run_in_zone(steps, len(steps), file, len(file), *_instant(now), due, local))
    return _local(due, local)


class Board:
    """Up to 256 reminders, each in a slot of 0 to 255, and the order of their moments at the board's now.

    A refused call leaves all of it unchanged. Calls on one board wait for each other.
    """

    def __init__(self, now: datetime) -> None:
        """An empty board at a now."""
        self._lock = threading.Lock()
        self._ready = ctypes.create_string_buffer(_library.BOARD_READY_SIZE)
        self._lengths = (ctypes.c_uint32 * _library.BOARD_SLOTS)()
        self._keys = (ctypes.c_uint64 * _library.BOARD_SLOTS)()
        self._state = (ctypes.c_uint32 * (_library.MOMENT_NUMBERS + 1))()
        _checked(_library.board_make(self._lengths, self._state, _numbers("now", now)))

    def add(self, reading: int, phrase: Text) -> int:
        """Adds a reminder, made ready in a reading, and gives its slot, the lowest that was free.

        Refused as make_ready, then where the board is full. A phrase without a moment at the board's now is accepted: it comes
        last, and may have a moment at another now.
        """
        number, text = Reading(reading), _bytes(phrase)
        with self._lock:
            answer = _library.board_add(self._ready, self._lengths, self._keys, self._state, number, text, len(text))
        return _checked(answer, text)

    def remove(self, slot: int) -> None:
        """Removes a reminder: its slot is free again."""
        # ctypes would cut a number above 32 bits; every number that is no slot's is refused
        slot = slot if 0 <= slot < _library.BOARD_SLOTS else _library.BOARD_SLOTS
        with self._lock:
            answer = _library.board_remove(self._lengths, self._keys, self._state, slot)
        _checked(answer)

    def again(self, now: datetime) -> None:
        """Runs all reminders again at another now, later or earlier, which is then the board's."""
        numbers = _numbers("now", now)
        with self._lock:
            answer = _library.board_again(self._ready, self._lengths, self._keys, self._state, numbers)
        _checked(answer)

    def head(self) -> Due:
        """Finds what is due first: the earliest moment of all reminders at the board's now, and of equal ones the lowest slot."""
        moment = _library.MomentNumbers()
        with self._lock:
            answer = _library.board_head(self._keys, self._state, moment)
        return Due(_checked(answer), _moment(moment))

    def order(self) -> List[int]:
        """Lists the filled slots, each once: by moment and, for equal ones, by slot; after them those without a moment, by slot."""
        slots = (ctypes.c_uint32 * _library.BOARD_SLOTS)()
        with self._lock:
            answer = _library.board_order(self._keys, self._state, slots)
        return slots[: _checked(answer)]
