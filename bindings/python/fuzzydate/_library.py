"""libfuzzydate.so, which stands beside this file: its functions as fuzzy.h declares them, and whether its version fits."""

from __future__ import annotations

import ctypes
import pathlib
from typing import Any, Callable

VERSION = "1.0.0"

MOMENT_NUMBERS, STAMP_NUMBERS, FOUND_NUMBERS, LOCAL_NUMBERS = 7, 9, 2, 9
READY_SIZE, STAMP_SIZE, PHRASE_SIZE = 384, 29, 26
BOARD_SLOTS, BOARD_READY_SIZE = 256, 98_304
MOST_OCCURRENCES = 3_652_059

# What a call takes and fills in; each call gets its own, so that no two buffers of a call overlap.
MomentNumbers = ctypes.c_uint32 * MOMENT_NUMBERS
StampNumbers = ctypes.c_uint32 * STAMP_NUMBERS
FoundNumbers = ctypes.c_uint32 * FOUND_NUMBERS
LocalNumbers = ctypes.c_uint32 * LOCAL_NUMBERS

_FILE = pathlib.Path(__file__).resolve().with_name("libfuzzydate.so")
_MAJOR, _MINOR, _ = map(int, VERSION.split("."))
_NEEDS = f"fuzzydate {VERSION} needs version {VERSION} of its library or a later one of {_MAJOR}.*"


def _loaded() -> ctypes.CDLL:
    """The library; an ImportError says that it is missing, made for another processor, or older than version 1.0.0."""
    try:
        library = ctypes.CDLL(str(_FILE))
    except OSError as error:
        raise ImportError(f"fuzzydate {VERSION} cannot load its library: {error}") from error
    if not hasattr(library, "fuzzy_version"):
        raise ImportError(f"{_NEEDS}, and {_FILE} has no version")
    return library


def in_digits(version: int) -> str:
    """A version such as "1.0.0" from the number that fuzzy_version gives."""
    return f"{version // 1_000_000}.{version // 1000 % 1000}.{version % 1000}"


def check_version(version: int) -> None:
    """Raises an ImportError unless a library of this version has all that this binding calls, in the same form."""
    if version // 1_000_000 != _MAJOR or version // 1000 % 1000 < _MINOR:
        raise ImportError(f"{_NEEDS}, and {_FILE} is {in_digits(version)}")


def _declare(name: str, *parts: str, gives: Any = ctypes.c_uint64) -> Callable[..., int]:
    """A function of fuzzy.h, by the kinds of its parameters in their order."""
    number, numbers, length = ctypes.c_uint32, ctypes.POINTER(ctypes.c_uint32), ctypes.c_uint64
    kinds: dict[str, list[Any]] = {
        "number": [number],
        "numbers": [numbers],
        "rows": [numbers, length],
        "keys": [ctypes.POINTER(ctypes.c_uint64)],
        "bytes": [ctypes.c_char_p],
        "text": [ctypes.c_char_p, length],
        "instant": [ctypes.c_int64, number],
        "due": [ctypes.POINTER(ctypes.c_int64)],
    }
    function = getattr(_library, name)
    function.argtypes = [kind for part in parts for kind in kinds[part]]
    function.restype = gives
    call: Callable[..., int] = function
    return call


_library = _loaded()
version = _declare("fuzzy_version", gives=ctypes.c_uint32)
check_version(version())

read = _declare("fuzzy_read", "number", "text", "numbers", "numbers")
make_ready = _declare("fuzzy_make_ready", "number", "text", "bytes")
run = _declare("fuzzy_run", "text", "numbers", "numbers")
read_stamp = _declare("fuzzy_read_stamp", "text", "numbers")
write_stamp = _declare("fuzzy_write_stamp", "numbers", "text")
write_phrase = _declare("fuzzy_write_phrase", "numbers", "text")
find_word = _declare("fuzzy_find_word", "number", "text", "numbers")
list_in = _declare("fuzzy_list_in", "text", "numbers", "rows")
next = _declare("fuzzy_next", "text", "numbers", "numbers", "numbers")
read_in_zone = _declare("fuzzy_read_in_zone", "number", "text", "text", "instant", "due", "numbers")
run_in_zone = _declare("fuzzy_run_in_zone", "text", "text", "instant", "due", "numbers")
board_make = _declare("fuzzy_board_make_in", "numbers", "numbers", "numbers")
board_add = _declare("fuzzy_board_add_in", "bytes", "numbers", "keys", "numbers", "number", "text")
board_remove = _declare("fuzzy_board_remove_in", "numbers", "keys", "numbers", "number")
board_again = _declare("fuzzy_board_again_in", "bytes", "numbers", "keys", "numbers", "numbers")
board_head = _declare("fuzzy_board_head_in", "keys", "numbers", "numbers")
board_order = _declare("fuzzy_board_order_in", "keys", "numbers", "numbers")
