// What is drawn on more than one tab: months, a line of time, a moment, and a refusal.
import {
    capital, DAYS, daysIn, fullText, isSameDay, midnight, millisecondsOf, MONTHS, shortDay, timeText, weekdayOf,
} from "./calendar.mjs";
import { make, paragraph } from "./elements.mjs";

const unseen = (text) => make("span", { class: "unseen" }, text);

function dayCell(day, mark) {
    if (day === 0) return make("td");
    const current = mark?.kinds.includes("now") ? "date" : undefined;
    return make("td", { class: mark?.kinds.join(" "), "aria-current": current },
        make("span", {}, String(day)), mark ? unseen(`, ${mark.said}`) : null);
}

// The days of a month in rows of a week, with 0 before the first and after the last.
function weeksOf(year, month) {
    const before = weekdayOf(midnight(year, month, 1)), count = daysIn(year, month);
    return Array.from({ length: Math.ceil((before + count) / 7) }, (_, week) => Array.from({ length: 7 }, (_, weekday) => {
        const day = 7 * week + weekday - before + 1;
        return day < 1 || day > count ? 0 : day;
    }));
}

function dayHead(day, isSmall) {
    return make("th", { scope: "col" }, make("span", { "aria-hidden": "true" }, day.slice(0, isSmall ? 1 : 2)), unseen(day));
}

// A month as a table: `markOf` gives a day's kinds and what is said of it, or null.
export function monthTable(year, month, markOf, isSmall = false) {
    const title = isSmall ? MONTHS[month - 1] : `${MONTHS[month - 1]} ${year}`;
    const rows = weeksOf(year, month).map((week) => make("tr", {}, week.map((day) => dayCell(day, day === 0 ? null : markOf(day)))));
    return make("table", { class: isSmall ? "month small" : "month" }, make("caption", {}, title),
        make("thead", {}, make("tr", {}, DAYS.map((day) => dayHead(day, isSmall)))), make("tbody", {}, rows));
}

// A day's mark out of pairs of a kind and what is said of it; null where there are none.
export function markOf(pairs) {
    return pairs.length === 0 ? null : { kinds: pairs.map(([kind]) => kind), said: pairs.map(([, said]) => said).join(" and ") };
}

// The months of now and of the moment, one where they are the same or there is no moment.
export function monthsOf(now, moment = now) {
    const shown = [["now", "the author’s now", now], ...(moment === now ? [] : [["due", "the moment", moment]])];
    const marks = (day) => markOf(shown.filter(([, , other]) => isSameDay(day, other)));
    const months = [now, moment].map(({ year, month }) => 12 * year + month - 1).sort((a, b) => a - b);
    return make("div", { class: "months" }, [...new Set(months)].map((count) => {
        const year = Math.floor(count / 12), month = (count % 12) + 1;
        return monthTable(year, month, (day) => marks({ year, month, day }));
    }));
}

// Those that fall together are one pin.
function grouped(entries) {
    const groups = new Map();
    for (const { name, moment, isOff } of entries) {
        const at = millisecondsOf(moment);
        groups.set(at, { at, moment, isOff, names: [...(groups.get(at)?.names ?? []), name] });
    }
    return [...groups.values()];
}

function sideOf(share) {
    if (share < 0.34) return "left";
    return share > 0.66 ? "right" : "middle";
}

// Moments as pins on one line from the earliest to the latest; for the eye only, since the text says the same.
export function lineOf(entries, earliest, latest) {
    const pins = grouped(entries).map(({ at, moment, isOff, names }) => {
        const share = earliest === latest ? 0.5 : (at - earliest) / (latest - earliest);
        const title = names.length === entries.length ? "all three" : names.join(", ");
        const pin = make("div", { class: `pin ${sideOf(share)}${isOff ? " off" : ""}` }, make("i"), make("b", {}, title),
            make("span", {}, shortDay(moment)));
        pin.style.left = `${8 + 84 * share}%`;
        return pin;
    });
    return make("div", { class: "line", "aria-hidden": "true" }, make("div", { class: "rule" }), pins);
}

// A moment, shown large, with a note below and an offset beside the time.
export function momentBlock(moment, note, offset = "") {
    return make("div", { class: "moment" },
        paragraph("day", `${DAYS[weekdayOf(moment)]},`, make("br"), `${moment.day} ${MONTHS[moment.month - 1]} ${moment.year}`),
        paragraph("time", timeText(moment), offset === "" ? null : make("span", { class: "offset" }, offset)),
        paragraph("note", note));
}

// What is shown in place of a moment.
export function noneBlock(title, ...reason) {
    return make("div", { class: "none" }, paragraph("day", title), paragraph("reason", ...reason));
}

// A refusal in one sentence; `part` is the refused part as it is shown, or "" where there is none.
export function refusalSentence({ words }, part) {
    return part === "" ? `${capital(words)}.` : `“${part}”: ${words}.`;
}

// A refusal in words, with the phrase and its refused part underlined.
export function refusalBlock(refusal, phrase) {
    const { index, width, number } = refusal, part = phrase.slice(index, index + width);
    const quote = paragraph("quote", phrase.slice(0, index), make("mark", {}, part), phrase.slice(index + width));
    const block = noneBlock("No moment", refusalSentence(refusal, part));
    block.append(...(part === "" ? [] : [quote]), paragraph("note", `Refusal ${number}`));
    return block;
}

// The text behind an input: its refused part underlined, and the rest of a word that would fit.
export function drawMirror(input, refusal, rest = "") {
    const { value } = input, behind = input.parentElement.querySelector(".mirror");
    const [begin, end] = refusal ? [refusal.index, refusal.index + refusal.width] : [value.length, value.length];
    behind.replaceChildren(value.slice(0, begin), make("mark", {}, value.slice(begin, end)), value.slice(end), make("i", {}, rest));
    behind.scrollLeft = input.scrollLeft;
    input.setAttribute("aria-invalid", String(Boolean(refusal)));
}

// A row of a list: what, and when.
export function row(what, moment) {
    return make("li", {}, make("span", {}, what), make("span", { class: "at" }, moment ? fullText(moment) : "refused here"));
}
