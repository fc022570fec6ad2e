#!/usr/bin/env python3
"""What phrases answer at several nows, directly and made ready, how many steps they are made ready as, and the part that reading refuses.

The answers are those of the paper's model (oracle/model.py). The steps are counted here, from the model's reading and the paper's "Steps of a ready phrase".
The offending part is the phrase's own bytes from the refusal's place up to its end.
Use: python3 expected.py   (it writes ../stdin and ../stdout)
"""
import pathlib
import re
import sys

crate = pathlib.Path(__file__).resolve().parent.parent
sys.path.insert(0, str(crate.parent.parent / "oracle"))
import model  # noqa: E402

# an ordinary day, 29 February, both ends of the calendar, and nows that are none
NOWS = [
    "2026-02-11 09:30:15", "2024-02-29 12:00:00", "0001-01-01 00:00:00", "9999-12-31 23:59:59",
    "0000-01-01 00:00:00", "2026-02-29 00:00:00", "2026-02-11 24:00:00",
]

# 21 parts, no two of which join, behind a weekday: 64 lexemes
LONGEST = "friday in " + " and ".join(f"1 {unit}" for unit in ["day", "month", "week", "year"] * 5 + ["day"])

PHRASES = """now|today|tomorrow|yesterday|friday|wednesday|next friday|last friday|this monday|tuesday in two weeks|friday next 5:00|5/2/2022|5.2.2022
1000/1/1|1001/1/1|5/2|5/2 at noon|march 4th|march 24th|january 1, 2010|march 3 5 pm|twenty-march 2024|0 days ago|zero days ago|one hundred and days ago
four billion days ago|five billion days ago|4294967295 years from now|this month|a year from now|12 months from now|february 29|february 29 next year
february 29 last year|march 4 this year|march 4 next month|today next year|next week|last month|next year|next hour|this week|friday next week|friday last week
friday next month|5:00|noon|midnight|12 am|12 pm|13 pm|0 am|25:00|5:60|5:00 friday|at 5:00|friday at 3 pm|friday, 3:30 pm|3 days after friday|3 days after tomorrow
2 days before 5/2/2022|2 hours before noon|2 hours ago|30 minutes from now|90 minutes before tomorrow at noon|5 days after 5 days before today
5 days after 5 days after today|5 days and 3 hours ago|3 weeks and 2 days from now|1 month and 1 day ago|1 day and 1 month ago|a month and a month ago
2 weeks after 3 days before 1 month after now|2 weeks before 3 days before 1 hour before now|tuesday 1 year and 2 weeks ago at 5:30 pm|tuesday 2 days ago
1 day before 1 day before 1 day after this month|4294967295 weeks and 4294967295 weeks ago|forty|x|""".replace("\n", "|").split("|") + [LONGEST]


def kinds(duration, direction):
    """What a duration's parts are: fixed lengths of a direction, months or years."""
    return [("fixed", direction) if unit in ("Day", "Week", "Hour", "Minute") else unit for _, unit in model.parts(duration)]


def added(steps, more):
    """Neighbouring fixed lengths of one direction become one; a refusal stands alone."""
    for step in more:
        if steps == ["refusal"] or (steps[-1] == step and step[0] == "fixed"):
            continue
        steps = steps + [step]
    return steps


def date_steps(expr):
    match expr:
        case ("DateRelative", date, spec, unit):
            if unit != "Year" or date[0] not in ("MonthNumDay", "MonthDay"):
                return ["refusal"]
            return ["date"] + ([] if spec == "This" else ["Year"])
        case ("WeekdayExpressionBefore", _, duration):
            return added(["date"], kinds(duration, "back") + ["weekday"])
        case ("DateExpressionAfter", _, duration) | ("After", duration, _):
            return added(["date"], kinds(duration, "on"))
        case ("DateExpressionBefore", _, duration) | ("Before", duration, _):
            return added(["date"], kinds(duration, "back"))
        case ("UnitRelative", spec, unit):
            if spec == "This" or unit in ("Hour", "Minute"):
                return ["refusal"]
            return ["date", "one unit"]
        case ("WeekdayRelative", _, _, unit) if unit != "Week":
            return ["refusal"]
    return ["date"]


def steps(reading):
    match reading:
        case "Now":
            return ["now"]
        case ("DateTime", date, _) | ("TimeDate", _, date):
            return added(date_steps(date), ["time"])
        case ("After", duration, inner):
            return added(steps(inner), kinds(duration, "on"))
        case ("Before", duration, inner):
            return added(steps(inner), kinds(duration, "back"))


def count(phrase):
    try:
        lexemes, places = model.lex_line(phrase)
        reading, taken = model.read(lexemes)
        model.all_taken(taken, places, phrase)
        return len(steps(reading))
    except model.Refused:
        return 0


def part(answer, phrase):
    """The offending part of a phrase that reading refuses, behind a bar."""
    refused = re.fullmatch(r"refused [1-7] at (\d+) to (\d+)", answer)
    return "|" + phrase[int(refused[1]):int(refused[2])] if refused else ""


lines, answers = [], []
for phrase in PHRASES:
    for now in NOWS:
        lines.append(f"{now}|{phrase}\n")
        answer = model.answer(now.encode(), phrase.encode()).rsplit("|", 1)[-1]
        answers.append(f"{answer}|{answer}|{count(phrase.encode())}{part(answer, phrase)}\n")
text = "".join(lines)
assert len(text) < 65536
(crate / "stdin").write_text(text)
(crate / "stdout").write_text("".join(answers))
print(len(lines), "lines, at most", max(int(a.split("|")[2]) for a in answers), "steps")
