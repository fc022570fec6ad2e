// Why did it move? Hub, phone, and a phone whose clock is two years ahead: each by its own clock, and with the author's now.
import { apartText, fullText, joined, MINUTE, millisecondsOf, momentAt, monthsLater, SECOND } from "./calendar.mjs";
import { byId, fill, icon, make, say } from "./elements.mjs";
import { get, readingOf, set, stampIn } from "./fields.mjs";
import { fuzzy, tried } from "./library.mjs";
import { drawMirror, lineOf, refusalSentence } from "./pictures.mjs";

const PHONE = "M8 3h8v18H8z M11 18h2";
const DEVICES = [
    { name: "hub", title: "Hub", said: "the hub", picture: "M4 7h16v10H4z M8 20h8 M8 11h.01 M12 11h4" },
    { name: "phone", title: "Phone", said: "the phone", picture: PHONE },
    { name: "ahead", title: "Phone, wrong clock", said: "the phone with the wrong clock", picture: "M8 3h8v18H8z M12 8v4 M12 15h.01" },
];

// --- clocks

const inCalendar = (year) => Math.min(9999, Math.max(1, year));

function yearsLater(moment, years) {
    return monthsLater(moment, 12 * (inCalendar(moment.year + years) - moment.year));
}

const later = (moment, milliseconds) => momentAt(millisecondsOf(moment) + milliseconds);

// The hub's clock is 40 seconds on, the phone's 25 minutes, and the other phone's two years.
export function resetClocks() {
    const { value: stamp } = tried(() => fuzzy.readStamp(get("why-now")));
    if (!stamp) return;
    const { moment, offset } = stamp, moments = [later(moment, 40 * SECOND), later(moment, 25 * MINUTE), yearsLater(moment, 2)];
    DEVICES.forEach(({ name }, i) => {
        const { value } = tried(() => fuzzy.writeStamp({ moment: moments[i], offset }));
        set(`why-${name}`, value ?? get("why-now"));
    });
}

function stepClock(field, years) {
    const { value: stamp } = tried(() => fuzzy.readStamp(get(field)));
    if (stamp) set(field, fuzzy.writeStamp({ moment: yearsLater(stamp.moment, years), offset: stamp.offset }));
}

const deviceHead = ({ title, picture }) => make("div", { class: "who" }, icon(picture), make("b", {}, title));

function clockRow({ name, title }, redraw) {
    const field = `why-${name}`;
    const step = (years, text, said) => make("button", { type: "button", "aria-label": `${title}: ${said}`, onclick: () => {
        stepClock(field, years);
        redraw();
    } }, text);
    return make("div", { class: "clock" }, make("label", { for: field, class: "unseen" }, `Clock of ${title}`),
        step(-1, "−1 y", "a year back"), make("input", { id: field, type: "text", autocomplete: "off", spellcheck: "false" }),
        step(1, "+1 y", "a year on"));
}

export function makeClocks(redraw) {
    fill("why-own", DEVICES.map((device) => make("li", {}, deviceHead(device), clockRow(device, redraw),
        make("div", { class: "got", id: `why-${device.name}-got` }))));
}

// --- what each device shows

const asMeant = () => make("span", { class: "tag" }, "as meant");
const moved = ({ value, apart }, meant) => `${apartText(meant, value)} ${apart > 0 ? "late" : "early"}`;

// What a device works out by its own clock, and how far that is from what is meant.
function ownAnswer(device, reading, phrase, meant) {
    const clock = stampIn(`why-${device.name}`);
    const { value } = clock ? tried(() => fuzzy.read(reading, phrase, clock.moment)) : {};
    const apart = value && meant ? millisecondsOf(value) - millisecondsOf(meant) : 0;
    return { ...device, clock, value, apart, isOff: Boolean(clock && meant) && (!value || apart !== 0) };
}

function ownBlocks(entry, meant) {
    const { clock, value, isOff } = entry;
    if (!clock) return [make("span", { class: "value quiet" }, "Not a date and time")];
    if (!value) return [make("span", { class: "value quiet" }, "No moment")];
    const tag = isOff ? make("span", { class: "tag bad" }, moved(entry, meant)) : asMeant();
    return [make("span", { class: "value" }, fullText(value)), meant ? tag : null];
}

function sentRow(device, phrase, stamp, meant) {
    const at = stamp ? `at ${get("why-now").trim()}` : "at no now";
    const value = make("span", { class: meant ? "value" : "value quiet" }, meant ? fullText(meant) : "No moment");
    return make("li", {}, deviceHead(device), make("div", { class: "sent" }, make("q", {}, phrase), make("span", {}, at)),
        make("div", { class: "got" }, value, meant ? asMeant() : null));
}

// --- the verdict, and the lines of time

const shownBy = (entry, meant) => `${entry.said} shows ${entry.value ? `the reminder ${moved(entry, meant)}` : "no moment"}`;

function verdictText(stamp, { value, refusal }, own) {
    if (!stamp) return "The author’s now is not an RFC 3339 date and time.";
    if (refusal) return `The phrase has no moment. ${refusalSentence(refusal, refusal.part)}`;
    const off = own.filter(({ isOff }) => isOff);
    if (off.length === 0) return "Here all clocks are close enough: every device shows the same moment either way. Change one of them.";
    const shown = joined(off.map((entry) => shownBy(entry, value)));
    return `By its own clock, ${shown}. With the author’s now, all three show ${fullText(value)}.`;
}

function drawLines(own, meant) {
    const pins = own.filter(({ value }) => value).map(({ title, value, isOff }) => ({ name: title, moment: value, isOff }));
    const times = [...pins.map(({ moment }) => moment), ...(meant ? [meant] : [])].map(millisecondsOf);
    const earliest = Math.min(...times), latest = Math.max(...times);
    const sent = DEVICES.map(({ title }) => ({ name: title, moment: meant, isOff: false }));
    fill("why-own-line", pins.length > 0 ? lineOf(pins, earliest, latest) : null);
    fill("why-sent-line", meant ? lineOf(sent, earliest, latest) : null);
}

export function drawWhy() {
    const phrase = get("why-phrase"), reading = readingOf("why"), stamp = stampIn("why-now");
    const answer = stamp ? tried(() => fuzzy.read(reading, phrase, stamp.moment)) : {}, meant = answer.value;
    const own = DEVICES.map((device) => ownAnswer(device, reading, phrase, meant)), verdict = verdictText(stamp, answer, own);
    drawMirror(byId("why-phrase"), answer.refusal);
    for (const entry of own) fill(`why-${entry.name}-got`, ownBlocks(entry, meant));
    fill("why-sent", DEVICES.map((device) => sentRow(device, phrase, stamp, meant)));
    drawLines(own, meant);
    byId("why-verdict").textContent = verdict;
    say(verdict);
}
