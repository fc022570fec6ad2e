"""Why a call is refused, and the text that shows it to people."""

from __future__ import annotations

import enum
from typing import Optional

_NEWER = "a refusal of a newer library"

# The most of a phrase that a refusal's text shows, in bytes; a longer one is refused anyway.
_MOST_SHOWN = 256


class Reason(enum.IntEnum):
    """Why something is refused, by the names and numbers of fuzzy.h, with its words."""

    words: str

    def __new__(cls, number: int, words: str) -> Reason:
        reason = int.__new__(cls, number)
        reason._value_ = number
        reason.words = words
        return reason

    TOO_LONG = 1, "longer than 256 bytes"
    UNKNOWN = 2, "not understood"
    LARGE_DIGITS = 3, "number too large"
    TOO_MANY = 4, "more than 64 words, numbers and marks"
    NOTHING = 5, "no date or time in it"
    LARGE_SUM = 6, "number in words too large"
    LEFT_OVER = 7, "not part of the date or time"
    INVALID_MOMENT = 8, "the given moment is not a valid date and time"
    NO_SENSE = 9, "makes no sense"
    NO_DATE = 10, "no such month or day"
    NO_TIME = 11, "no such time of day"
    OUTSIDE = 12, "outside the years 1 to 9999"
    NO_LEAP_DAY = 13, "29 February is not in that year"
    NO_STAMP = 14, "not an RFC 3339 date and time"
    NO_READING = 15, "no such reading"
    NOT_WHOLE = 16, "a phrase shows no seconds"
    NO_ROOM = 17, "no room for the text"
    NO_RULE = 18, "not a repeating rule that is accepted"
    NO_START = 19, "the start is not an occurrence of the rule"
    NO_NEXT = 20, "no occurrence is left"
    NO_ZONE = 21, "not a zone file that is accepted"
    PAST_LAST = 22, "later than the zone's file knows"
    NO_INSTANT = 23, "the zone's clocks skip that time"
    FULL_BOARD = 24, "no slot is free"
    EMPTY_SLOT = 25, "the slot is empty"
    NOTHING_DUE = 26, "no reminder has a moment"


_REASONS = {int(reason): reason for reason in Reason}


def _on_one_line(text: bytes) -> str:
    """A text for people: blanks are spaces, and what cannot be printed is escaped."""
    return "".join(
        " " if letter.isspace() else letter if letter.isprintable() else ascii(letter)[1:-1]
        for letter in text.decode("utf-8", "backslashreplace")
    )


def _character_end(text: bytes, place: int) -> int:
    """The end of the UTF-8 character that a place may stand in: a refused part can be its first byte alone."""
    while place < len(text) and text[place] & 0xC0 == 0x80:
        place += 1
    return place


class Refusal(Exception):
    """A refusal: its number, where the refused part of the text begins and how long it is, in bytes, and the text itself.

    The text is the phrase, the stamp or the rule, and is empty where there is none; so is the part where nothing stands out. For a
    number that only a newer library has, reason and name are None.
    """

    def __init__(self, number: int, place: int, length: int, text: bytes) -> None:
        super().__init__(number, place, length, text)
        self.number, self.place, self.text = number, place, text
        self.part = text[place : place + length]
        self.reason = _REASONS.get(number)

    @property
    def name(self) -> Optional[str]:
        """The reason's name in fuzzy.h, without FUZZY_."""
        return None if self.reason is None else self.reason.name

    @property
    def words(self) -> str:
        """What is wrong, in words for people."""
        return _NEWER if self.reason is None else self.reason.words

    def __str__(self) -> str:
        """The words, and below them the text with its part underlined."""
        words = f"{self.words}: {self.number}" if self.reason is None else self.words
        if self.text == b"" or len(self.text) > _MOST_SHOWN:
            return words
        end = _character_end(self.text, self.place + len(self.part)) if self.part else self.place
        before, part, after = map(_on_one_line, (self.text[: self.place], self.text[self.place : end], self.text[end:]))
        underlined = f"\n    {' ' * len(before)}{'^' * len(part)}" if part else ""
        return f"{words}\n    {before}{part}{after}{underlined}"
