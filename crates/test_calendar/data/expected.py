# Prints what test_calendar must print, by Python's own calendar: python3 expected.py > ../stdout
from calendar import isleap, monthrange
from datetime import date, datetime, timedelta

STARTS = [(1900, 1, 31), (2024, 1, 31), (2024, 2, 29), (9996, 2, 29), (9999, 12, 31)]
SIZES = [0, 1, 4, 9998, 9999, 119987, 119988, 5258964959, 5258964960, 18446744073709551615]


def day_line(d):
    return f"{d.isoformat()} is day {d.toordinal() - 1}, weekday {d.weekday()}"


def day(n):
    try:
        return day_line(date.fromordinal(n + 1))
    except ValueError:
        return "refused 12"


def leap_day(y):
    try:
        return day_line(date(y, 2, 29))
    except ValueError:
        return f"{y % 10000:04}-02-29 is no date"


def minutes(t, k):
    try:
        return t + timedelta(minutes=k)
    except OverflowError:
        return "refused 12"


def months(t, k):
    y, m = divmod(12 * t.year + t.month - 1 + k, 12)
    if not 1 <= y <= 9999:
        return "refused 12"
    return t.replace(year=y, month=m + 1, day=min(t.day, monthrange(y, m + 1)[1]))


def years(t, k):
    if not 1 <= t.year + k <= 9999:
        return "refused 12"
    if (t.month, t.day) == (2, 29) and not isleap(t.year + k):
        return "refused 13"
    return t.replace(year=t.year + k)


for n in range(0, 997 * 3664, 997):
    print(day(n))
print(day(date.max.toordinal() - 1))
print(day(date.max.toordinal()))
for i in range(101):
    print(leap_day(100 * i))
    print(leap_day(1700 + 4 * i))
for t in [datetime.min] + [datetime(*d, 23, 59, 59) for d in STARTS]:
    for k in SIZES:
        for name, step in (("minutes", minutes), ("months", months), ("years", years)):
            print(f"{t}, {k} {name} later: {step(t, k)}")
            print(f"{t}, {k} {name} earlier: {step(t, -k)}")
