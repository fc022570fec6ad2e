"""The story that the notebook plays: who writes what on which phone, when the phones meet the hub, and when midnight passes.

No clock is read: the story has its own time, so that it comes out the same every time.
"""

import datetime
from typing import NamedTuple

READING = 2
NAMES = {"hub": "Hub", "ada": "Ada", "ben": "Ben", "cleo": "Cleo"}
PHONES = ("ada", "ben", "cleo")
NEW_YORK = datetime.timezone(datetime.timedelta(hours=-5))
YEARS_AHEAD = {"cleo": 2}


def clock(side, at):
    """What a side's own clock shows when it is `at` in New York, as RFC 3339: the hub's is UTC, and Cleo's two years ahead."""
    moment = datetime.datetime.fromisoformat(at).replace(tzinfo=NEW_YORK)
    if side == "hub":
        return moment.astimezone(datetime.timezone.utc).isoformat().replace("+00:00", "Z")
    return moment.replace(year=moment.year + YEARS_AHEAD.get(side, 0)).isoformat()


class Write(NamedTuple):
    """Someone writes a reminder, or writes it again. In a zone it goes by the zone's file; a standing one is run anew each day."""

    side: str
    at: str
    id: str
    title: str
    phrase: str
    zoned: bool = False
    standing: bool = False


class Sync(NamedTuple):
    """A phone meets the hub."""

    side: str
    at: str


class Midnight(NamedTuple):
    """A new day begins in New York, and the hub announces it."""

    at: str
    side: str = "hub"


class Chapter(NamedTuple):
    """What happens, and what is to be said of it."""

    heading: str
    steps: tuple
    after: str


TITLE = "A notebook on three phones and a hub"
BEGINNING = """\
It is Saturday evening, 7 March 2026, in New York, and tonight the clocks go forward.
Ada's phone is right. So is Ben's, but Ben sits in a train under the river until after midnight.
Cleo's phone believes that it is 2028. The hub is {hub}, and its clock is UTC."""

CHAPTERS = (
    Chapter(
        "21:00, they write",
        (
            Write("ada", "2026-03-07 21:00", "plumber", "Call the plumber", "tomorrow at 9:00"),
            Write("ada", "2026-03-07 21:01", "pill", "Take the second pill", "1 day from now", zoned=True),
            Write("ada", "2026-03-07 21:02", "plants", "Water the plants", "saturday at 10:00", standing=True),
            Write("ben", "2026-03-07 21:03", "band", "Band practice", "next friday at 3 pm"),
            Write("ben", "2026-03-07 21:04", "bins", "Put the bins out", "fryday at noon"),
            Write("cleo", "2026-03-07 21:05", "dentist", "Dentist", "monday at noon"),
        ),
        """\
The pill is due after 24 hours, and the clocks skip one tonight: so it is 22:01, not 21:01.
The bins are refused, and the phone says why. Ben's words stay as he wrote them, and nothing waits for them.""",
    ),
    Chapter(
        "21:10, Cleo moves the plumber",
        (
            Sync("ada", "2026-03-07 21:10"),
            Sync("cleo", "2026-03-07 21:11"),
            Write("cleo", "2026-03-07 21:12", "plumber", "Call the plumber", "tomorrow at 10:00"),
            Sync("cleo", "2026-03-07 21:13"),
            Sync("ada", "2026-03-07 21:14"),
        ),
        """\
Now Ada's phone says 2028 too, for the plumber and for the dentist. That is what Cleo's phone meant, and every
side shows the same: so Ada sees the mistake, and mends it.""",
    ),
    Chapter(
        "21:20, Ada mends it",
        (
            Write("ada", "2026-03-07 21:20", "plumber", "Call the plumber", "tomorrow at 8:30"),
            Write("ada", "2026-03-07 21:21", "dentist", "Dentist", "monday at noon"),
            Sync("ada", "2026-03-07 21:22"),
            Sync("cleo", "2026-03-07 21:23"),
        ),
        """\
By the clocks Cleo would have the last word until 2028. Edits are counted instead: Ada's third comes after Cleo's second.""",
    ),
    Chapter(
        "00:00, midnight passes",
        (Midnight("2026-03-08 00:00"), Sync("ada", "2026-03-08 00:01"), Sync("cleo", "2026-03-08 00:02")),
        "What stands is run again from its ready phrase: the plants were Saturday's, and now they are next Saturday's.",
    ),
    Chapter(
        "00:30, Ben's train comes up",
        (Sync("ben", "2026-03-08 00:30"), Sync("ada", "2026-03-08 00:31"), Sync("cleo", "2026-03-08 00:32")),
        """\
Ben has never seen New York's zone file: he asks the hub for the bytes with the digest that came with the pill.""",
    ),
)

STEPS = tuple(step for chapter in CHAPTERS for step in chapter.steps)
FIRST_DAY = "2026-03-07 00:00:00"
ASKED_AT = "2026-03-08 00:45"
ASKED = "next friday"
