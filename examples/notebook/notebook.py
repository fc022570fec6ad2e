"""A notebook of reminders on three phones and a hub, as a story: notebook.py FOLDER ZONE EXTENSION [DATABASE].

The phones are files in FOLDER; so is the hub, unless DATABASE names one of PostgreSQL's. ZONE is the file of New York's clocks, and
EXTENSION is SQLite's fuzzydate. Killed at any point and called again, it goes on where it was. At its end all sides show the same, and
FOLDER/notebook.svg is the picture of it.
"""

import datetime
import pathlib
import sys
import textwrap

import drawing
import story
from sides import PostgresSide, SqliteSide

FILTER = "SELECT title FROM shown WHERE moment < fuzzy_read(2, :phrase, fuzzy_read_stamp(:stamp)) ORDER BY moment, id"
SHOWN = "SELECT id, title, phrase, moment, why FROM shown ORDER BY moment IS NULL, moment, id"
OLD = "SELECT id, moment FROM old"


def day_and_time(moment):
    """A moment for people: Sun 8 Mar 08:30, with its year where that is not the story's."""
    if moment is None:
        return "-"
    at = datetime.datetime.fromisoformat(moment)
    year = "" if at.year == 2026 else f" {at.year}"
    return f"{at:%a} {at.day} {at:%b}{year} {at:%H:%M}"


class Notebook:
    """The sides, and what the steps of the story do with them. A step is done when its side has the step's number."""

    def __init__(self, folder, zone, extension, database):
        day = story.FIRST_DAY
        files = {name: SqliteSide(name, day, folder / f"{name}.db", extension) for name in story.PHONES}
        hub = PostgresSide("hub", day, database) if database else SqliteSide("hub", day, folder / "hub.db", extension)
        self.sides = {"hub": hub, **files}
        self.digest = self.sides["ada"].keep_zone(zone.read_bytes())
        self.done = {name: int(side.value("SELECT step FROM side")) for name, side in self.sides.items()}

    def play(self, number, step):
        """Does a step, unless it was done before; says what is to be said of it."""
        if self.done[step.side] >= number:
            return None
        manners = {story.Write: self.write, story.Sync: self.sync, story.Midnight: self.pass_midnight}
        return manners[type(step)](step, number, ("UPDATE side SET step = :number WHERE step < :number", {"number": number}))

    def write(self, step, number, done):
        """A reminder is written with its author's now; the diary and the step are changed with it."""
        phone, stamp = self.sides[step.side], story.clock(step.side, step.at)
        reminder = {
            "id": step.id,
            "title": step.title,
            "phrase": step.phrase,
            "reading": story.READING,
            "authored": stamp,
            "zone": self.digest if step.zoned else None,
            "standing": int(step.standing),
            "edit": int(phone.value("SELECT edit FROM reminder WHERE id = :id", id=step.id) or 0) + 1,
            "writer": step.side,
        }
        diary = ("INSERT INTO diary VALUES (:number, :id, :phrase)", {"number": number, "id": step.id, "phrase": step.phrase})
        phone.receive([reminder], stamp, diary, done)
        return self.written(step, phone)

    def written(self, step, phone):
        """What the phone says of a reminder that was just written: its moment, or why it is refused."""
        moment, why = phone.rows("SELECT moment, why FROM shown WHERE id = :id", id=step.id)[0]
        manner = ", in New York" if step.zoned else ", anew each day" if step.standing else ""
        said = f'  {story.NAMES[step.side]:<5} writes  {step.title}: "{step.phrase}"{manner}'
        return f"{said:<70}{day_and_time(moment)}" if why is None else f"{said}\n{textwrap.indent(why, ' ' * 16)}"

    def sync(self, step, number, done):
        """A phone and the hub tell each other all that they have. Done twice, it changes nothing more."""
        phone, hub = self.sides[step.side], self.sides["hub"]
        own = phone.reminders()
        hub.receive(own, story.clock("hub", step.at))
        common = hub.reminders()
        hub.fetch_zones(common, phone)
        day = ("UPDATE side SET day = :day WHERE day < :day", {"day": common[0]["day"]})
        phone.receive(common, story.clock(step.side, step.at), day)
        phone.fetch_zones(phone.reminders(), hub)
        phone.change(done)
        known = {(reminder["id"], reminder["edit"], reminder["writer"]) for reminder in own}
        news = [reminder["title"] for reminder in common if (reminder["id"], reminder["edit"], reminder["writer"]) not in known]
        return f"  {story.NAMES[step.side]:<5} syncs   " + (f"and gets {', '.join(news)}" if news else "and has it all")

    def pass_midnight(self, step, number, done):
        """The hub works out from UTC and the zone's file what New York's clocks show, and announces the day."""
        hub = self.sides["hub"]
        plants = "SELECT moment FROM shown WHERE id = 'plants'"
        day = "UPDATE side SET day = (SELECT fuzzy_local(file, :stamp) FROM zone WHERE digest = :digest)"
        before = hub.value(plants)
        hub.change((day, {"stamp": story.clock("hub", step.at), "digest": self.digest}), done)
        return f"  Hub   says    a new day begins. Water the plants: {day_and_time(before)} becomes {day_and_time(hub.value(plants))}"

    def compare(self):
        """What every side shows, when all have the same reminders and show the same of each."""
        travelled = [[{**reminder, "lacks": None} for reminder in side.reminders()] for side in self.sides.values()]
        shown = [side.rows(SHOWN) for side in self.sides.values()]
        if any(other != travelled[0] for other in travelled) or any(other != shown[0] for other in shown):
            sys.exit(f"the sides do not agree: {travelled} {shown}")
        return shown[0]

    def filtered(self):
        """What is due before the asked phrase, when all sides list the same."""
        values = {"phrase": story.ASKED, "stamp": story.clock("ada", story.ASKED_AT)}
        lists = {name: [title for (title,) in side.rows(FILTER, **values)] for name, side in self.sides.items()}
        if any(titles != lists["hub"] for titles in lists.values()):
            sys.exit(f"the filters do not agree: {lists}")
        return lists["hub"]


def print_table(heading, shown, moments):
    """The moments of all reminders on all sides."""
    print(f"\n{heading}")
    print(" " * 24 + "".join(f"{name:<21}" for name in story.NAMES.values()).rstrip())
    for id, title, _, _, why in shown:
        cells = [day_and_time(moments[side][id]) if why is None else "refused" for side in story.NAMES]
        print((f"  {title:<22}" + "".join(f"{cell:<21}" for cell in cells)).rstrip())


def end(notebook, folder):
    """Compares all sides, and shows the old way beside the new one."""
    shown = notebook.compare()
    old = {name: dict(side.rows(OLD)) for name, side in notebook.sides.items()}
    new = {name: {id: moment for id, _, _, moment, _ in shown} for name in notebook.sides}
    print_table("The old way: every side reads the phrase by its own clock, when it sees it", shown, old)
    print_table("The new way: every side reads the phrase at its author's now", shown, new)
    print(f'\nAda asks all sides at 00:45: what is due before "{story.ASKED}"?')
    print(f"  Hub, Ada, Ben and Cleo say: {', '.join(notebook.filtered())}")
    print("\nAll four sides agree. The picture is notebook.svg.")
    (folder / "notebook.svg").write_text(drawing.picture(shown, old, new, day_and_time))


def main(folder, zone, extension, database=None):
    folder = pathlib.Path(folder)
    notebook = Notebook(folder, pathlib.Path(zone), extension, database)
    beginning = story.BEGINNING.format(hub="a PostgreSQL server" if database else "an SQLite file")
    print("The notebook goes on." if any(notebook.done.values()) else f"{story.TITLE}\n\n{beginning}", flush=True)
    numbers = iter(range(1, len(story.STEPS) + 1))
    for chapter in story.CHAPTERS:
        said = 0
        for step in chapter.steps:
            line = notebook.play(next(numbers), step)
            if line is None:
                continue
            print(f"\n{chapter.heading}\n{line}" if said == 0 else line, flush=True)
            said += 1
        if said > 0:
            print(chapter.after, flush=True)
    end(notebook, folder)
    for side in notebook.sides.values():
        side.close()


if __name__ == "__main__":
    main(*sys.argv[1:])
