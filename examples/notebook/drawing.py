"""The picture of the notebook: what each side shows of each reminder, the old way above and the new way below."""

from html import escape

import story

WIDTH, MARGIN = 958, 32
LABEL, CELL, GAP = 180, 180, 6
HEAD, ROW = 84, 46

NOTES = {"hub": "its clock is UTC", "ada": "her clock is right", "ben": "no net until 00:30", "cleo": "two years ahead"}

STYLE = """
    text { font: 14px system-ui, sans-serif; fill: #1c1c1e; }
    .title { font-size: 22px; font-weight: 600; }
    .heading { font-size: 17px; font-weight: 600; }
    .name { font-weight: 600; }
    .note { font-size: 12px; fill: #6b6b70; }
    .page { fill: #ffffff; }
    .same { fill: #f1f1f4; }
    .other { fill: #c2410c; }
    .answer { font-size: 13px; }
    @media (prefers-color-scheme: dark) {
        text { fill: #f2f2f4; }
        .note { fill: #a0a0a8; }
        .page { fill: #17171a; }
        .same { fill: #2a2a2f; }
    }
    .on-other { font-size: 13px; fill: #ffffff; }"""


def write(x, y, text, kind, anchor="start"):
    return f'    <text class="{kind}" x="{x}" y="{y}" text-anchor="{anchor}">{escape(text)}</text>'


def cell(x, y, text, kind):
    """A side's answer; one that is not what the author meant stands out."""
    box = f'    <rect class="{kind}" x="{x}" y="{y}" width="{CELL - GAP}" height="{ROW - GAP}" rx="8"/>'
    return [box, write(x + (CELL - GAP) // 2, y + 25, text, "on-other" if kind == "other" else "answer", "middle")]


def row(reminder, y, moments, new, text):
    """A reminder on all sides."""
    id, title, phrase, _, why = reminder
    parts = [write(MARGIN, y + 17, title, "name"), write(MARGIN, y + 34, f"“{phrase}”", "note")]
    for place, side in enumerate(story.NAMES):
        meant = moments[side][id] == new[side][id]
        answer = text(moments[side][id]) if why is None else "refused"
        parts += cell(MARGIN + LABEL + place * CELL, y, answer, "same" if meant else "other")
    return parts


def legend(y):
    """What the accent says."""
    swatch = f'    <rect class="other" x="{WIDTH - MARGIN - GAP - 190}" y="{y - 11}" width="22" height="13" rx="4"/>'
    return [swatch, write(WIDTH - MARGIN - GAP, y, "not what its author meant", "note", "end")]


def table(heading, y, reminders, moments, new, text):
    """All reminders on all sides, under a heading."""
    parts = [write(MARGIN, y + 20, heading, "heading")]
    for place, (side, name) in enumerate(story.NAMES.items()):
        middle = MARGIN + LABEL + place * CELL + (CELL - GAP) // 2
        parts += [write(middle, y + 50, name, "name", "middle"), write(middle, y + 67, NOTES[side], "note", "middle")]
    for place, reminder in enumerate(reminders):
        parts += row(reminder, y + HEAD + place * ROW, moments, new, text)
    return parts


def picture(reminders, old, new, text):
    """The whole picture, as SVG."""
    tall = HEAD + len(reminders) * ROW
    first, second = 70, 70 + tall + 34
    parts = [write(MARGIN, 44, story.TITLE, "title"), *legend(44)]
    parts += table("The old way: every side reads the phrase by its own clock", first, reminders, old, new, text)
    parts += table("The new way: every side reads the phrase at its author’s now", second, reminders, new, new, text)
    height = second + tall + 26
    frame = f'<svg xmlns="http://www.w3.org/2000/svg" viewBox="0 0 {WIDTH} {height}" role="img" aria-labelledby="title">'
    page = f'    <rect class="page" width="{WIDTH}" height="{height}"/>'
    return "\n".join([frame, f'    <title id="title">{story.TITLE}</title>', f"    <style>{STYLE}\n    </style>", page, *parts, "</svg>\n"])
