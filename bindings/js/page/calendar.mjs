// Moments in words and numbers, for show only: what a phrase means is worked out by the library.

export const MONTHS = ["January", "February", "March", "April", "May", "June", "July", "August", "September", "October", "November",
    "December"];
export const DAYS = ["Monday", "Tuesday", "Wednesday", "Thursday", "Friday", "Saturday", "Sunday"];
export const SECOND = 1000;
export const MINUTE = 60 * SECOND;
export const HOUR = 60 * MINUTE;
export const DAY = 24 * HOUR;

export const two = (n) => String(n).padStart(2, "0");
export const plural = (n, word) => `${n.toLocaleString("en")} ${word}${n === 1 ? "" : "s"}`;

// "a", "a and b", "a, b and c", or with another last word.
export function joined(parts, last = "and") {
    return parts.length < 2 ? parts.join("") : `${parts.slice(0, -1).join(", ")} ${last} ${parts.at(-1)}`;
}

export const capital = (text) => `${text[0].toUpperCase()}${text.slice(1)}`;

// --- numbers

// Milliseconds since 1970, as if the moment were one of UTC.
export function millisecondsOf({ year, month, day, hour, minute, second, millisecond }) {
    const date = new Date(0);
    date.setUTCFullYear(year, month - 1, day);
    return date.setUTCHours(hour, minute, second, millisecond);
}

export function momentAt(milliseconds) {
    const date = new Date(milliseconds);
    return {
        year: date.getUTCFullYear(), month: date.getUTCMonth() + 1, day: date.getUTCDate(), hour: date.getUTCHours(),
        minute: date.getUTCMinutes(), second: date.getUTCSeconds(), millisecond: date.getUTCMilliseconds(),
    };
}

export const midnight = (year, month, day) => ({ year, month, day, hour: 0, minute: 0, second: 0, millisecond: 0 });

export function daysIn(year, month) {
    return momentAt(millisecondsOf(midnight(year, month + 1, 0))).day;
}

// 0 for a Monday.
export const weekdayOf = (moment) => (new Date(millisecondsOf(moment)).getUTCDay() + 6) % 7;

// The same day and time so many months later, or the last day of that month.
export function monthsLater(moment, months) {
    const count = 12 * moment.year + moment.month - 1 + months, year = Math.floor(count / 12), month = (count % 12) + 1;
    return { ...moment, year, month, day: Math.min(moment.day, daysIn(year, month)) };
}

export const isSameDay = (a, b) => a.year === b.year && a.month === b.month && a.day === b.day;

// --- words

export const dayText = (moment) => `${DAYS[weekdayOf(moment)]}, ${moment.day} ${MONTHS[moment.month - 1]} ${moment.year}`;

export function shortDay(moment) {
    return `${DAYS[weekdayOf(moment)].slice(0, 3)} ${moment.day} ${MONTHS[moment.month - 1].slice(0, 3)} ${moment.year}`;
}

// Hour and minute, and the rest where there is one.
export function timeText({ hour, minute, second, millisecond }) {
    const seconds = second === 0 && millisecond === 0 ? "" : `:${two(second)}`;
    const fraction = millisecond === 0 ? "" : `.${String(millisecond).padStart(3, "0")}`;
    return `${two(hour)}:${two(minute)}${seconds}${fraction}`;
}

export const fullText = (moment) => `${shortDay(moment)}, ${timeText(moment)}`;

export function offsetText(seconds) {
    const distance = Math.abs(seconds), rest = distance % 60;
    const clock = `${two(Math.floor(distance / 3600))}:${two(Math.floor((distance % 3600) / 60))}`;
    return `${seconds < 0 ? "−" : "+"}${clock}${rest === 0 ? "" : `:${two(rest)}`}`;
}

// The months from one moment to a later one, and the milliseconds that are left.
function monthsAndRest(from, to) {
    let months = 12 * (to.year - from.year) + to.month - from.month;
    const rest = () => millisecondsOf(to) - millisecondsOf(monthsLater(from, months));
    if (rest() < 0) months -= 1;
    return [months, rest()];
}

// The distance of two moments by the calendar, in its three largest parts.
function distanceText(a, b) {
    const [from, to] = millisecondsOf(a) <= millisecondsOf(b) ? [a, b] : [b, a];
    const [months, rest] = monthsAndRest(from, to);
    const parts = [
        [Math.floor(months / 12), "year"], [months % 12, "month"], [Math.floor(rest / DAY), "day"],
        [Math.floor((rest % DAY) / HOUR), "hour"], [Math.floor((rest % HOUR) / MINUTE), "minute"],
        [Math.floor((rest % MINUTE) / SECOND), "second"],
    ];
    return joined(parts.filter(([n]) => n > 0).slice(0, 3).map(([n, word]) => plural(n, word)));
}

// Where a moment is as seen from a now.
export function fromNow(now, moment) {
    const passed = millisecondsOf(moment) - millisecondsOf(now);
    if (Math.abs(passed) < SECOND) return "right now";
    return passed > 0 ? `in ${distanceText(now, moment)}` : `${distanceText(now, moment)} ago`;
}

const UNITS = [[DAY, "day"], [HOUR, "hour"], [MINUTE, "minute"], [SECOND, "second"], [1, "millisecond"]];

// How far apart two moments are, in one unit, and in years where that is nearly whole.
export function apartText(a, b) {
    const passed = Math.abs(millisecondsOf(a) - millisecondsOf(b)), years = passed / (365.2425 * DAY), near = Math.round(years);
    const [unit, word] = UNITS.find(([length]) => passed >= 2 * length) ?? UNITS.at(-1);
    const days = plural(Math.floor(passed / unit), word);
    return near > 0 && Math.abs(years - near) < 0.1 ? `${days} (about ${plural(near, "year")})` : days;
}
