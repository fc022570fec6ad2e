// The steps of a ready phrase in plain words, by docs/FORMAT.md.
import { DAYS, joined, MONTHS, plural, two } from "./calendar.mjs";
import { fuzzy, tried } from "./library.mjs";

const RECORD = 16, KEEP_TIME = [10, ...Array(15).fill(0)];
const LENGTHS = [[10_080n, "week"], [1_440n, "day"], [60n, "hour"], [1n, "minute"]];

function lengthWords(minutes) {
    let left = minutes;
    const parts = LENGTHS.map(([unit, word]) => {
        const n = Number(left / unit);
        left %= unit;
        return [n, word];
    });
    const said = parts.filter(([n]) => n > 0).map(([n, word]) => plural(n, word));
    return said.length === 0 ? "0 minutes" : joined(said);
}

const dayOf = (weekday) => DAYS[weekday % 7];
const monthOf = (month) => MONTHS[month - 1] ?? `month ${month}`;
const dated = (year, month, day) => `Start on ${day} ${monthOf(month)} ${year}`;
const thisYear = (month, day) => `Start on ${day} ${monthOf(month)} of this year`;
const go = (form, length) => `Go ${form === 0 ? "forward" : "back"} ${length}`;

// The forms of a start at a date, in the order of the format.
const DATES = [
    (a, b, c) => dated(a, b, c), (a, b, c) => dated(c, a, b), (a, b, c) => dated(c, b, a), (a, b, c) => dated(c, a, b),
    (a, b) => thisYear(a, b), (a, b) => thisYear(a, b), () => "Start today", () => "Start tomorrow", () => "Start yesterday",
    () => "Start today, since no date is stated",
];

function timeWords(form, hour, minute) {
    if (form === 0) return "Keep now’s time of day";
    return `Set the time to ${hour}:${two(minute)}${["", " am", " pm"][form - 1]}`;
}

// A step by its kind, from the form and the three numbers of its record.
const STEPS = {
    1: () => "Start now",
    2: () => "Makes no sense",
    3: (form, a, b, c) => DATES[form](a, b, c),
    4: (form, weekday) => `Start on ${dayOf(weekday)} of ${["this", "next", "last"][form]} week`,
    5: (form, weekday) => `Start on the first ${dayOf(weekday)} from today on`,
    6: (form, low, high) => go(form, lengthWords((BigInt(high) << 32n) + BigInt(low))),
    7: (form, months) => go(form, plural(months, "month")),
    8: (form, years) => go(form, plural(years, "year")),
    9: (form, weekday) => `Go back to a ${dayOf(weekday)}, unless it is one`,
    10: timeWords,
    11: (form, weekday) => `Go forward to a ${dayOf(weekday)}, unless it is one`,
};

function wordsOf(record) {
    const view = new DataView(record.buffer, record.byteOffset, RECORD), head = view.getUint32(0, true);
    return STEPS[head & 255](head >>> 8, ...[4, 8, 12].map((at) => view.getUint32(at, true)));
}

// Where some first steps lead: they are a ready phrase too, with now's time of day where none is set yet.
function reached(steps, now) {
    const { value } = tried(() => fuzzy.run(steps, now));
    return value ?? tried(() => fuzzy.run(Uint8Array.of(...steps, ...KEEP_TIME), now)).value;
}

// Each step in words, with the moment that it leads to; none where it is refused.
export function stepsOf(ready, now) {
    return Array.from({ length: ready.length / RECORD }, (_, i) => {
        const end = RECORD * (i + 1);
        return { words: wordsOf(ready.subarray(end - RECORD, end)), moment: reached(ready.subarray(0, end), now) };
    });
}
