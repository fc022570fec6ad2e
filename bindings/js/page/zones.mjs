// Zones: the same phrase around a change of the clocks, on a line of the hours that pass.
import {
    DAY, fromNow, fullText, dayText, HOUR, millisecondsOf, momentAt, MONTHS, offsetText, plural, SECOND, shortDay, timeText, two,
} from "./calendar.mjs";
import { byId, fill, make, paragraph, say } from "./elements.mjs";
import { get, readingOf, set, stampIn, stampOf } from "./fields.mjs";
import { carried, fromBase64, fuzzy, toBase64, tried } from "./library.mjs";
import { drawMirror, momentBlock, noneBlock, refusalBlock, refusalSentence } from "./pictures.mjs";

const HOUR_SECONDS = 3600, DAY_SECONDS = 86_400, NO_INSTANT = 23, MAKES_NO_READY = 8;
const NOW = fuzzy.makeReady(1, "now");

// --- the zones

// The files that the user took, by name: as text that an address can hold, and all files that were used, as bytes.
const own = new Map(), bytes = new Map();

function zoneFile(name) {
    if (!bytes.has(name)) bytes.set(name, fromBase64(own.get(name) ?? carried.zones[name]));
    return bytes.get(name);
}

const cityOf = (name) => name.slice(name.lastIndexOf("/") + 1).replaceAll("_", " ");

function addOption(name, title) {
    const select = byId("zones-zone");
    if (![...select.options].some((option) => option.value === name)) select.append(make("option", { value: name }, title));
}

export function makeZones() {
    const names = Object.keys(carried.zones).sort((a, b) => cityOf(a).localeCompare(cityOf(b), "en"));
    for (const name of names) addOption(name, cityOf(name));
}

function takeOwn(name, text) {
    own.set(name, text);
    bytes.delete(name);
    addOption(name, name);
    set("zones-zone", name);
}

// Takes the user's own file, under its name.
export async function takeFile(file) {
    takeOwn(file.name, toBase64(new Uint8Array(await file.arrayBuffer())));
}

const isBase64 = (text) => /^[\w-]*$/.test(text) && text.length % 4 !== 1;

// The zone of an address: one that the page carries, or a file that comes with it.
export function takeZone(name, text) {
    if (Object.hasOwn(carried.zones, name)) set("zones-zone", name);
    else if (text !== null && isBase64(text)) takeOwn(name, text);
}

// --- its clocks

// What the clocks show at a second; the library is asked, no file is read here.
const clockAt = (zone, second) => tried(() => fuzzy.runInZone(NOW, zone, { second })).value;

// The first second of the second offset, between two seconds with different ones.
function firstSecond(zone, from, to, offset) {
    let low = from, high = to;
    while (high - low > 1) {
        const middle = Math.floor((low + high) / 2);
        if (clockAt(zone, middle).offset === offset) low = middle;
        else high = middle;
    }
    return high;
}

// The changes of the clocks from a second on, at most so many and within so many days.
function findChanges(zone, from, days, most) {
    const changes = [];
    let before = clockAt(zone, from)?.offset;
    for (let day = 0; day < days && changes.length < most; day += 1) {
        const at = from + day * DAY_SECONDS, after = clockAt(zone, at + DAY_SECONDS)?.offset;
        if (before === undefined || after === undefined) break;
        if (after !== before) changes.push({ second: firstSecond(zone, at, at + DAY_SECONDS, before), before, after });
        before = after;
    }
    return changes;
}

let found = { zone: null, instant: 0, changes: [] };

// The changes near an instant, looked for once.
function changesNear(zone, instant) {
    if (found.zone !== zone || found.instant !== instant) {
        found = { zone, instant, changes: findChanges(zone, instant - 3 * DAY_SECONDS, 403, 3) };
    }
    return found.changes;
}

const isForward = ({ before, after }) => after > before;
const civilBefore = ({ second, before }) => momentAt((second + before) * SECOND);

// How long a change is: "an hour", "30 minutes".
function lengthText({ before, after }) {
    const minutes = Math.abs(after - before) / 60;
    if (minutes === 60) return "an hour";
    return minutes % 60 === 0 ? plural(minutes / 60, "hour") : plural(minutes, "minute");
}

// Nine in the morning on the day before a change.
function eveOf(change) {
    const day = millisecondsOf(civilBefore(change)), nine = Math.floor(day / DAY) * DAY - 15 * HOUR;
    return fuzzy.writeStamp({ moment: momentAt(nine), offset: Math.round(change.before / 60) });
}

// A now to begin with: before the next change of New York's clocks.
export function firstNow() {
    const second = Math.floor(Date.now() / SECOND), [change] = findChanges(zoneFile("America/New_York"), second, 400, 1);
    return change ? eveOf(change) : stampOf(new Date());
}

// --- the line of hours

// The seconds between which hours are shown: around now and the due instant, or around the due one where that is far.
function spanOf(instant, due, changes) {
    const other = due?.second ?? changes.find(({ second }) => second > instant && second < instant + 40 * HOUR_SECONDS)?.second ?? instant;
    const low = Math.min(instant, other) - HOUR_SECONDS, high = Math.max(instant, other) + 3 * HOUR_SECONDS;
    if (high - low <= 36 * HOUR_SECONDS) return { low, high, isCut: false };
    return { low: other - 12 * HOUR_SECONDS, high: other + 12 * HOUR_SECONDS, isCut: true };
}

const sinceFull = (second, offset) => (((second + offset) % HOUR_SECONDS) + HOUR_SECONDS) % HOUR_SECONDS;

// Whether an hour is shown for the first or the second time.
function timesShown(at, changes) {
    for (const { second, before, after } of changes) {
        if (at >= second - (before - after) && at < second) return "first time";
        if (at >= second && at < second + before - after) return "again";
    }
    return "";
}

// The hours that pass from a second to another: where each begins and ends, what the clocks show, and the change that begins it.
function hoursOf(zone, low, high, changes) {
    const hours = [], first = clockAt(zone, low);
    let at = first ? low - sinceFull(low, first.offset) : high;
    while (at < high) {
        const shows = clockAt(zone, at);
        if (!shows) break;
        const full = at + HOUR_SECONDS - sinceFull(at, shows.offset), change = changes.find(({ second }) => second === at);
        const end = Math.min(full, ...changes.map(({ second }) => second).filter((second) => second > at));
        const isLater = changes.some(({ second }) => at >= second), times = timesShown(at, changes.filter((each) => !isForward(each)));
        hours.push({ at, end, shows, change, isLater, times });
        at = end;
    }
    return hours;
}

const hourText = ({ hour, minute }) => (minute === 0 ? two(hour) : `${two(hour)}:${two(minute)}`);
const pin = (kind, text) => make("em", { class: kind }, text);

function gapCell(change, skipped) {
    const from = civilBefore(change), to = momentAt((change.second + change.after) * SECOND);
    const isInside = skipped && millisecondsOf(skipped) >= millisecondsOf(from) && millisecondsOf(skipped) < millisecondsOf(to);
    return make("li", { class: "gap" }, make("b", {}, hourText(from)),
        make("span", { class: "what" }, "skipped", make("span", { class: "unseen" }, ` up to ${timeText(to)}`)),
        isInside ? make("span", { class: "pins" }, pin("no", `no ${timeText(skipped)}`)) : null);
}

function hourCell({ at, end, shows, isLater, times }, dayShown, pinned) {
    const here = pinned.filter(({ second }) => second >= at && second < end);
    const kinds = [isLater && "later", times !== "" && "twice", ...here.map(({ kind }) => `has-${kind}`)].filter(Boolean);
    const pins = here.map(({ kind, moment }) => pin(kind, `${kind} ${two(moment.hour)}:${two(moment.minute)}`));
    return make("li", { class: kinds.length > 0 ? kinds.join(" ") : undefined },
        dayShown === "" ? null : make("span", { class: "date" }, dayShown), make("b", {}, hourText(shows.moment)),
        times === "" ? null : make("span", { class: "what" }, times), pins.length > 0 ? make("span", { class: "pins" }, pins) : null);
}

const dayName = ({ day, month }) => `${day} ${MONTHS[month - 1].slice(0, 3)}`;

// The cells of the line: each hour, and before it the gap where its change skips one. `skipped` is a time that is not shown.
function cellsOf(hours, pinned, skipped) {
    return hours.flatMap((hour, i) => {
        const day = dayName(hour.shows.moment), isNew = i === 0 || day !== dayName(hours[i - 1].shows.moment);
        const gap = hour.change && isForward(hour.change) ? [gapCell(hour.change, skipped)] : [];
        return [...gap, hourCell(hour, isNew ? day : "", pinned)];
    });
}

function changeSentence(change) {
    const length = lengthText(change), isMany = !length.startsWith("an "), day = shortDay(civilBefore(change));
    if (isForward(change)) return `On ${day} the clocks go forward: ${length} ${isMany ? "are" : "is"} skipped.`;
    return `On ${day} the clocks go back: ${length} ${isMany ? "come" : "comes"} twice, and the first time is meant.`;
}

function lineSentence([change], isCut) {
    if (change) return `Each cell is an hour that passes. ${changeSentence(change)}`;
    return `Each cell is an hour that passes. The clocks do not change in them${isCut ? "; now is further away" : ""}.`;
}

const legendItem = (kind, text) => make("span", {}, make("i", { class: `dot ${kind}` }), text);

function drawLegend(hours, [change]) {
    const offsets = change ? [change.before, change.after] : [hours[0].shows.offset];
    fill("zones-legend", offsets.map((offset, i) => legendItem(i === 0 ? "before" : "later", `clocks at ${offsetText(offset)}`)));
}

function drawHours(zone, now, due, changes, skipped) {
    const { low, high, isCut } = spanOf(now.second, due, changes), inside = changes.filter(({ second }) => second > low && second < high);
    const hours = hoursOf(zone, low, high, inside), pinned = [{ kind: "now", ...now }, ...(due ? [{ kind: "due", ...due }] : [])];
    if (hours.length === 0) return drawNoHours("The file says nothing about this time.");
    const cells = cellsOf(hours, pinned, skipped), line = byId("zones-line");
    fill("zones-line", cells);
    line.classList.toggle("few", cells.length < 12);
    line.classList.toggle("both", line.querySelector("em + em") !== null);
    byId("zones-line-said").textContent = lineSentence(inside, isCut);
    return drawLegend(hours, inside);
}

function drawNoHours(text) {
    fill("zones-line");
    fill("zones-legend");
    byId("zones-line-said").textContent = text;
}

// --- the answer

function passedText(instant, { second }) {
    const hours = (second - instant) / HOUR_SECONDS;
    if (hours === 0) return "right now";
    const isWhole = Number.isInteger(hours) && Math.abs(hours) < 100, length = plural(Math.abs(hours), "hour");
    const passed = isWhole ? `${length} ${hours > 0 ? "from now" : "ago"}` : fromNow(momentAt(instant * SECOND), momentAt(second * SECOND));
    return `${passed}, as time passes`;
}

const labelled = (label, value, kind = "") => [paragraph("label", label), paragraph(`value ${kind}`.trim(), value)];

// Beside the moment: the instant, and what a clock without a zone would give.
function besideBlock(local, plain) {
    const isSame = plain && millisecondsOf(plain) === millisecondsOf(local.moment);
    return make("div", { class: "aside" }, labelled("The instant", local.date.toISOString().replace(".000Z", "Z"), "mono"),
        labelled("By a clock without a zone", plain ? fullText(plain) : "No moment"),
        paragraph("sub", isSame ? "The same here." : "It differs: the clocks change in between."));
}

function skippedBlock(plain) {
    return make("div", { class: "aside" }, labelled("Without the zone", fullText(plain)),
        paragraph("sub", "The clocks of this zone never show that time."));
}

function drawLocal(local, instant, plain) {
    fill("zones-answer", momentBlock(local.moment, passedText(instant, local), offsetText(local.offset)), besideBlock(local, plain));
    fill("zones-brief", `${fullText(local.moment)} ${offsetText(local.offset)}`);
    say(`${dayText(local.moment)}, ${timeText(local.moment)}, ${offsetText(local.offset)}`);
}

function drawRefusal(refusal, phrase, plain) {
    fill("zones-answer", refusalBlock(refusal, phrase), refusal.number === NO_INSTANT && plain ? skippedBlock(plain) : null);
    fill("zones-brief", refusalSentence(refusal, refusal.part));
    say(`No moment. ${refusalSentence(refusal, refusal.part)}`);
}

function changeButton(change, redraw) {
    const text = `${shortDay(civilBefore(change))}: ${lengthText(change)} ${isForward(change) ? "forward" : "back"}`;
    return make("button", { type: "button", onclick: () => {
        set("zones-now", eveOf(change));
        redraw();
    } }, text);
}

function drawChanges(changes, here, redraw) {
    const none = here ? "The clocks of this zone do not change in the next year." : "The file says nothing about this time.";
    const buttons = changes.map((change) => changeButton(change, redraw));
    fill("zones-changes", buttons.length > 0 ? buttons : make("span", { class: "quiet" }, none));
}

function drawNoNow() {
    drawMirror(byId("zones-phrase"), null);
    fill("zones-answer", noneBlock("No now", "It is not an RFC 3339 date and time with a known offset."));
    for (const id of ["zones-brief", "zones-changes", "zones-zone-said"]) fill(id);
    drawNoHours("");
}

// The second and the millisecond of the stamp in the field, or null.
function instantIn(field) {
    const stamp = stampIn(field);
    if (stamp === null || stamp.offset === null) return null;
    const { moment, offset } = stamp, { millisecond } = moment;
    return { second: (millisecondsOf(moment) - millisecond) / SECOND - 60 * offset, millisecond };
}

function drawHere(here) {
    fill("zones-zone-said", here ? `Clocks show ${timeText(here.moment)} ${offsetText(here.offset)}` : null);
    if (here) byId("zones-now-said").textContent = `There: ${fullText(here.moment)}`;
}

export function drawZones(redraw) {
    const instant = instantIn("zones-now"), name = get("zones-zone"), zone = zoneFile(name);
    set("zones-file", own.get(name) ?? "");
    if (instant === null) return drawNoNow();
    const phrase = get("zones-phrase"), reading = readingOf("zones"), changes = changesNear(zone, instant.second);
    const here = tried(() => fuzzy.runInZone(NOW, zone, instant)).value;
    const { value, refusal } = tried(() => fuzzy.readInZone(reading, phrase, zone, instant));
    const plain = here ? tried(() => fuzzy.read(reading, phrase, here.moment)).value : undefined;
    drawHere(here);
    drawChanges(changes, here, redraw);
    drawMirror(byId("zones-phrase"), refusal && refusal.number < MAKES_NO_READY ? refusal : null);
    if (refusal) drawRefusal(refusal, phrase, plain);
    else drawLocal(value, instant.second, plain);
    if (!here) return drawNoHours("The file says nothing about this time.");
    return drawHours(zone, here, value, changes, refusal?.number === NO_INSTANT ? plain : undefined);
}
