"""Reads a phrase and says what it means: python3 -m fuzzydate "next friday" --now 2026-02-11T09:30:15 --reading 2.

Writes the moment, and below it the steps that lead there, in words. A refusal is written to standard error, with the refused part
of the phrase underlined, and the exit status is 1; it is 2 for wrong options.
"""

from __future__ import annotations

import argparse
import os
import pathlib
import sys
from datetime import datetime, timedelta, timezone
from typing import List, Optional

from . import Local, Reading, Reason, Refusal, __version__, cut_to_milliseconds, make_ready, read_stamp, run, run_in_zone, steps
from . import version, write_phrase

# A now that a zone's file knows, however early its last transition is: none is in the years 0 and 1.
_EARLY = datetime(1, 7, 1, tzinfo=timezone.utc)
_EPOCH = datetime(1970, 1, 1, tzinfo=timezone.utc)


def _time(text: str) -> datetime:
    """An RFC 3339 stamp, or one without an offset, which is naive."""
    try:
        stamp = read_stamp(text)
        return stamp.aware() or stamp.moment.replace(tzinfo=timezone.utc)
    except Refusal:
        pass
    try:
        return read_stamp(text + "Z").moment
    except Refusal:
        raise argparse.ArgumentTypeError(f"not a date and time such as 2026-02-11T09:30:15: {text}") from None


def _options(arguments: Optional[List[str]]) -> argparse.Namespace:
    parser = argparse.ArgumentParser(prog="python3 -m fuzzydate", description="Reads a reminder phrase and says what it means.")
    parser.add_argument("phrase", help='such as "next friday at 3 pm"')
    parser.add_argument("--now", type=_time, help="when it is read, such as 2026-02-11T09:30:15; otherwise by this machine's clock")
    parser.add_argument("--reading", type=int, choices=[1, 2], default=2, help="one of the two readings of a phrase; otherwise 2")
    parser.add_argument("--zone", metavar="FILE", help="a TZif file: then the answer goes by that zone's clocks, and now too")
    parser.add_argument("--version", action="version", version=f"fuzzydate {__version__}, library {version()}")
    options = parser.parse_args(arguments)
    if options.now is not None and options.now.tzinfo is not None and options.zone is None:
        parser.error("--now has an offset, which is used only with --zone")
    return options


def _written(moment: datetime) -> str:
    return moment.isoformat(timespec="milliseconds" if moment.microsecond else "seconds")


def _with_offset(local: Local) -> str:
    """A moment with its offset, of any size, as in 2026-03-08T09:00:00-04:00."""
    sign, offset = "-" if local.offset < 0 else "+", abs(local.offset)
    seconds = f":{offset % 60:02}" if offset % 60 else ""
    return f"{_written(local.moment)}{sign}{offset // 3600:02}:{offset // 60 % 60:02}{seconds}"


def _on_clocks(zone: bytes, moment: datetime) -> datetime:
    """The instant at which the zone's clocks show a moment, the earlier of two; refused where they skip it."""
    minute, text = moment.replace(second=0, microsecond=0), _written(moment).encode()
    try:
        begun = run_in_zone(make_ready(Reading.FIRST, write_phrase(minute)), zone, _EARLY)
        instant = _EPOCH + timedelta(seconds=begun.second) + (moment - minute)
        shown = run_in_zone(make_ready(Reading.FIRST, "now"), zone, instant).moment
    except Refusal as refusal:
        raise Refusal(refusal.number, 0, 0, text) from None
    except OverflowError:
        raise Refusal(Reason.OUTSIDE, 0, 0, text) from None
    # the clocks can change in the middle of a minute
    if shown != moment:
        raise Refusal(Reason.NO_INSTANT, 0, 0, text)
    return instant


def _now(given: Optional[datetime], zone: Optional[bytes]) -> datetime:
    """The now that is given, or else this machine's clock, which is then said."""
    if given is not None:
        return given if zone is None or given.tzinfo is not None else _on_clocks(zone, given)
    now = cut_to_milliseconds(datetime.now(None if zone is None else timezone.utc))
    print(f"now is {_written(now)}, by this machine's clock", file=sys.stderr)
    return now


def _answer(ready: bytes, zone: Optional[bytes], now: datetime) -> str:
    return _written(run(ready, now)) if zone is None else _with_offset(run_in_zone(ready, zone, now))


def _refused(refusal: Refusal, options: argparse.Namespace, phrase: bytes) -> str:
    """A refusal's text, with what it is about: the zone's file, the now, or the phrase."""
    about = os.fsencode(options.zone) if refusal.reason == Reason.NO_ZONE else refusal.text or phrase
    return str(Refusal(refusal.number, refusal.place, len(refusal.part), about))


def main(arguments: Optional[List[str]] = None) -> int:
    """Runs the command; gives its exit status."""
    options = _options(arguments)
    phrase = os.fsencode(options.phrase)
    try:
        zone = None if options.zone is None else pathlib.Path(options.zone).read_bytes()
        ready = make_ready(options.reading, phrase)
        print(_answer(ready, zone, _now(options.now, zone)))
    except OSError as error:
        print(f"python3 -m fuzzydate: {error}", file=sys.stderr)
        return 2
    except Refusal as refusal:
        print(_refused(refusal, options, phrase), file=sys.stderr)
        return 1
    for number, step in enumerate(steps.in_words(ready), 1):
        print(f"  {number}. {step}")
    return 0


if __name__ == "__main__":
    sys.exit(main())
