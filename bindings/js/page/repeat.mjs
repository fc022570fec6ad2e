// Repeat: the occurrences of a rule of RFC 5545 in a year's picture, and which comes next.
import {
    capital, DAY, DAYS, dayText, fromNow, isSameDay, joined, midnight, millisecondsOf, momentAt, MONTHS, plural, shortDay, timeText,
} from "./calendar.mjs";
import { byId, fill, make, paragraph, say } from "./elements.mjs";
import { get, set, stampIn } from "./fields.mjs";
import { fuzzy, tried } from "./library.mjs";
import { markOf, momentBlock, monthTable, noneBlock } from "./pictures.mjs";

const UNITS = { DAILY: "day", WEEKLY: "week", MONTHLY: "month" }, RULE_DAYS = ["MO", "TU", "WE", "TH", "FR", "SA", "SU"];
const NO_RULE = 18, NO_NEXT = 20;

// --- a rule in words

function everyWords({ FREQ, INTERVAL = "1" }) {
    const every = Number(INTERVAL), unit = UNITS[FREQ];
    return every === 1 ? `Every ${unit}` : `Every ${every} ${unit}s`;
}

function onWords({ BYDAY, BYMONTHDAY }) {
    if (BYDAY) return ` on ${joined([...new Set(BYDAY.split(","))].map((day) => DAYS[RULE_DAYS.indexOf(day)]))}`;
    return BYMONTHDAY ? ` on day ${Number(BYMONTHDAY)}` : "";
}

function endWords({ COUNT, UNTIL }) {
    if (COUNT) return `, ${plural(Number(COUNT), "time")}`;
    if (!UNTIL) return "";
    const [year, month, day] = [UNTIL.slice(0, 4), UNTIL.slice(4, 6), UNTIL.slice(6, 8)].map(Number);
    const time = UNTIL.length > 8 ? ` at ${UNTIL.slice(9, 11)}:${UNTIL.slice(11, 13)}:${UNTIL.slice(13, 15)}` : "";
    return `, until ${day} ${MONTHS[month - 1]} ${year}${time}`;
}

// Of a rule that the library accepts.
function ruleWords(rule) {
    const parts = Object.fromEntries(rule.toUpperCase().split(";").map((pair) => pair.split("=")));
    return `${everyWords(parts)}${onWords(parts)}${endWords(parts)}`;
}

function drawRule(rule, { value, refusal }) {
    const hint = byId("repeat-words"), isBad = refusal?.number === NO_RULE;
    const accepted = "First FREQ, which is DAILY, WEEKLY or MONTHLY; then INTERVAL, COUNT or UNTIL, BYDAY, BYMONTHDAY";
    hint.textContent = isBad ? accepted : "";
    if (value) hint.textContent = ruleWords(rule);
    hint.classList.toggle("bad", isBad);
    byId("repeat-rule").setAttribute("aria-invalid", String(isBad));
}

// --- what comes next

// The occurrences from a moment on, at most so many and as long as `isWanted`, each found without those before it.
function occurrencesFrom(rule, start, asked, most, isWanted = () => true) {
    const found = [];
    let from = asked;
    while (found.length < most) {
        const { value } = tried(() => fuzzy.next(rule, start, from));
        if (!value || !isWanted(value)) break;
        found.push(value);
        from = momentAt(millisecondsOf(value) + 1);
    }
    return found;
}

const thenRow = (moment) => make("li", {}, make("span", {}, shortDay(moment)), make("span", { class: "at" }, timeText(moment)));

function nextBlocks(asked, [next, ...later]) {
    const then = later.length > 0 ? make("ol", {}, later.map(thenRow)) : paragraph("quiet", "None: it is the last.");
    return [make("div", { class: "left" }, paragraph("label", "Next"), momentBlock(next, fromNow(asked, next))),
        make("div", { class: "then" }, paragraph("label", "Then"), then)];
}

function drawNone(title, words) {
    fill("repeat-answer", noneBlock(title, words));
    say(`${title}. ${words}`);
}

function drawNext(rule, start, asked) {
    if (!start || !asked) return drawNone("No start", "Write both moments as RFC 3339 dates and times.");
    const { refusal } = tried(() => fuzzy.next(rule, start, asked)), isLast = refusal?.number === NO_NEXT;
    if (refusal) return drawNone(isLast ? "None is left" : "No occurrences", `${capital(refusal.words)}. Refusal ${refusal.number}.`);
    const coming = occurrencesFrom(rule, start, asked, 5);
    fill("repeat-answer", nextBlocks(asked, coming));
    return say(`Next: ${dayText(coming[0])}, ${timeText(coming[0])}, ${fromNow(asked, coming[0])}`);
}

// --- the year

export function yearOf(text, otherwise) {
    const year = Number.parseInt(text, 10);
    return Number.isNaN(year) ? otherwise : Math.min(9999, Math.max(1, year));
}

function drawYear(year, days, next, asked) {
    const marked = [...days.map((day) => ["on", "an occurrence", day]), ...(next ? [["next", "the next one", next]] : []),
        ...(asked ? [["asked", "asked from", asked]] : [])];
    const markAt = (day) => markOf(marked.filter(([, , other]) => isSameDay(day, other)));
    const months = Array.from({ length: 12 }, (_, i) => i + 1);
    fill("repeat-months", months.map((month) => monthTable(year, month, (day) => markAt({ year, month, day }), true)));
    byId("repeat-count").textContent = `${days.length === 0 ? "No occurrence" : plural(days.length, "occurrence")} in ${year}.`;
}

export function drawRepeat() {
    const rule = get("repeat-rule").trim(), start = stampIn("repeat-start")?.moment, asked = stampIn("repeat-asked")?.moment;
    const year = yearOf(get("repeat-year"), asked?.year ?? 2026), first = start ? tried(() => fuzzy.occurrences(rule, start, 1)) : {};
    const next = first.value && asked ? tried(() => fuzzy.next(rule, start, asked)).value : undefined;
    const days = first.value ? occurrencesFrom(rule, start, midnight(year, 1, 1), 366, (moment) => moment.year === year) : [];
    drawRule(rule, first);
    drawNext(rule, start, asked);
    drawYear(year, days, next, asked);
}

// A start that the rule accepts: the first day from the start on that is an occurrence, within two months.
export function fitStart() {
    const { value: stamp } = tried(() => fuzzy.readStamp(get("repeat-start"))), rule = get("repeat-rule");
    if (!stamp) return;
    const days = Array.from({ length: 62 }, (_, day) => momentAt(millisecondsOf(stamp.moment) + day * DAY));
    const moment = days.find((day) => tried(() => fuzzy.occurrences(rule, day, 1)).value);
    if (moment) set("repeat-start", fuzzy.writeStamp({ moment, offset: stamp.offset }));
}
