# Prints what test_stamp must print, by Python's own datetime: python3 expected.py > ../stdout
import re
from datetime import date, datetime, time, timedelta, timezone

FORM = re.compile(rb"(\d{4})-(\d\d)-(\d\d)[Tt](\d\d):(\d\d):(\d\d)(?:\.(\d{1,3}))?(?:[Zz]|([+-])(\d\d):(\d\d))")


def reading(s):
    """Nine numbers, or a refusal's number. Year 0000 is judged as 2000, since both divide by 400."""
    m = FORM.fullmatch(s)
    if not m:
        return 14
    year, *rest = (int(x) for x in m.groups()[:6])
    try:
        t = datetime(year or 2000, *rest)
        offset = time(int(m[9]), int(m[10])) if m[8] else time()
    except ValueError:
        return 14
    if year == 0:
        return 12
    millisecond = int((m[7] or b"").ljust(3, b"0"))
    return [t.year, t.month, t.day, t.hour, t.minute, t.second, millisecond, int(m[8] == b"-"), 60 * offset.hour + offset.minute]


def line(s):
    r = reading(s)
    return s + (b" refused %d" % r if isinstance(r, int) else b"".join(b" %d" % n for n in r))


def text(t, west, minutes):
    size = "milliseconds" if t.microsecond else "seconds"
    if (west, minutes) == (1, 0):
        return t.isoformat(timespec=size) + "-00:00"
    offset = timezone(timedelta(minutes=-minutes if west else minutes))
    return t.replace(tzinfo=offset).isoformat(timespec=size).replace("+00:00", "Z")


def written(year, ms, west, minutes, room):
    """The whole buffer, the refusal's number and the count."""
    s, number = "", 0
    try:
        t = datetime(year, 2, 29, 23, 59, 59, 1000 * ms)
    except ValueError:
        number = 8
    else:
        if west > 1 or minutes > 1439:
            number = 14
        elif len(text(t, west, minutes)) > room:
            number = 17
        else:
            s = text(t, west, minutes)
    return f"{s:.<30} {number} {len(s)}"


def changes(s):
    counts = {12: 0, 14: 0}
    for i in range(len(s)):
        for b in range(256):
            t = s[:i] + bytes([b]) + s[i + 1:]
            r = reading(t)
            if isinstance(r, int):
                counts[r] += 1
            else:
                yield line(t)
    yield b"refused %d %d 0" % (counts[12], counts[14])


lines = []
for i in range(731):
    n = date(2023, 1, 1).toordinal() - 1 + i
    t = datetime.combine(date.fromordinal(n + 1), time(n % 24, n % 60, n % 59, n % 1000 * 1000))
    lines.append(line(text(t, 0, 0).encode()))
for west in (0, 1):
    lines += [line(text(datetime(2024, 2, 29, 23, 59, 59, m % 1000 * 1000), west, m).encode()) for m in range(1440)]
ROOMS = [
    (2024, 0, 0, 0, 30), (2024, 0, 0, 0, 20), (2024, 0, 0, 0, 19), (2024, 0, 0, 1439, 25), (2024, 0, 0, 1439, 24),
    (2024, 0, 1, 0, 25), (2024, 0, 1, 0, 24), (2024, 1, 0, 0, 24), (2024, 1, 0, 0, 23), (2024, 999, 1, 1439, 30),
    (2024, 999, 1, 1439, 29), (2024, 999, 1, 1439, 28), (2024, 999, 0, 1440, 0), (2024, 1, 2, 0, 0), (2026, 0, 2, 1440, 0),
    (2024, 1000, 2, 1440, 0), (0, 0, 0, 0, 30),
]
lines += [written(*row).encode() for row in ROOMS]
EDGES = [
    "2024-02-29t23:59:59z", "2024-02-29T23:59:59+24:00", "2024-02-29T23:59:59-24:00", "2024-02-29T23:59:59+23:60",
    "2026-02-29T23:59:59Z", "2024-00-29T23:59:59Z", "2024-13-29T23:59:59Z", "2024-02-00T23:59:59Z", "2024-02-29T24:00:00Z",
    "2024-02-29T23:60:59Z", "2024-02-29T23:59:60Z", "0000-02-29T00:00:00Z", "0000-02-30T00:00:00Z",
    "0000-02-29T00:00:00+24:00", "2024-02-29 23:59:59Z", "2024-02-29T23:59:59", "2024-02-29T23:59:59.5Z",
    "2024-02-29T23:59:59.05z", "2024-02-29T23:59:59.005Z", "2024-02-29T23:59:59.0005Z", "2024-02-29T23:59:59.000Z",
    "2024-02-29T23:59:59.Z", "2024-02-29T23:59:59.-01:00", "2024-02-29T23:59:59.9-01:00", "2024-02-29T23:59:59.99+01:00",
    "2024-02-29T23:59:59.999-00:00", "2024-02-29T23:59:59.9999+01:00", "2024-02-29T23:59:59,5Z", "2024-02-29T23:59:59.5",
    "2024-02-29T23:59:60.5Z", "0000-02-29T23:59:59.5Z", "2024-02-29T23:59:59.5+24:00",
    "2024-02-29T23:59:59ZZ", "2024-02-29T23:59:59+00:000", "2024-02-29T23:59:59Z\n", "",
]
lines += [line(s.encode()) for s in EDGES]
lines += changes(b"0004-02-29T23:59:59Z")
lines += changes(b"2024-02-29T12:34:56-05:30")
lines += changes(b"2024-02-29T12:34:56.070+05:30")
print("\n".join(x.decode() for x in lines))
