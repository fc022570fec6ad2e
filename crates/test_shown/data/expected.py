# Prints what test_shown must print, by Python's own datetime and calendar, and in years below 1000 what the second reading gives by the paper's
# model: python3 expected.py > ../stdout
import pathlib
import sys
from calendar import month_name
from datetime import date, datetime, time

sys.path.insert(0, str(pathlib.Path(__file__).resolve().parents[3] / "oracle"))
import model  # noqa: E402


def phrase(t):
    return f"{month_name[t.month].lower()} {t.day} {t.year} at {t.hour}:{t.minute:02}"


def second(s):
    """What the second reading gives, at the last moment of the calendar."""
    return model.answer(b"9999-12-31 23:59:59", s.encode(), model.SECOND).rsplit("|", 1)[-1].split(" to ")[0]


def line(t):
    s = phrase(t)
    return f"{s}|{t}|{t if t.year >= 1000 else second(s)}"


def days(first, count):
    n = first.toordinal() - 1
    return [line(datetime.combine(date.fromordinal(i + 1), time(i % 24, i % 60))) for i in range(n, n + count)]


def written(year, month, day, hour, minute, second, millisecond, room):
    """The whole buffer, the refusal's number and the count."""
    s, number = "", 0
    try:
        if millisecond > 999:
            raise ValueError
        t = datetime(year, month, day, hour, minute, second)
    except ValueError:
        number = 8
    else:
        if second or millisecond:
            number = 16
        elif len(phrase(t)) > room:
            number = 17
        else:
            s = phrase(t)
    return f"{s:.<27} {number} {len(s)}"


lines = days(date(1, 1, 1), 365) + days(date(999, 1, 1), 730) + days(date(2001, 1, 1), 10227) + days(date(9999, 1, 1), 365)
ROOMS = [
    (1, 5, 1, 0, 0, 0, 0, 27), (1, 5, 1, 0, 0, 0, 0, 15), (1, 5, 1, 0, 0, 0, 0, 14),
    (2026, 9, 30, 23, 59, 0, 0, 27), (2026, 9, 30, 23, 59, 0, 0, 26), (2026, 9, 30, 23, 59, 0, 0, 25),
    (2026, 9, 30, 23, 59, 1, 0, 0), (2026, 9, 30, 23, 59, 0, 1, 0), (2026, 9, 30, 23, 59, 59, 999, 27),
    (2026, 9, 30, 23, 59, 60, 0, 0), (2026, 9, 30, 23, 59, 0, 1000, 27), (2026, 2, 29, 0, 0, 0, 0, 0),
    (0, 5, 1, 0, 0, 0, 0, 27), (10000, 5, 1, 0, 0, 0, 0, 27), (2026, 0, 1, 0, 0, 0, 0, 27), (2026, 13, 1, 0, 0, 0, 0, 27),
]
lines += [written(*row) for row in ROOMS]
print("\n".join(lines))
