// Try: what a phrase means, at each keystroke.
import { dayText, fromNow, fullText, joined, plural, timeText } from "./calendar.mjs";
import { byId, fill, make, paragraph, say } from "./elements.mjs";
import { get, READINGS, readingOf, stampIn } from "./fields.mjs";
import { carried, fuzzy, tried } from "./library.mjs";
import { drawMirror, momentBlock, monthsOf, noneBlock, refusalBlock, refusalSentence, row } from "./pictures.mjs";
import { stepsOf } from "./steps.mjs";

const MOST_FITS = 5;

// --- the word that is being typed

// Its letters up to the caret, and where they begin.
function wordIn(input) {
    const before = input.value.slice(0, input.selectionStart ?? input.value.length);
    const word = /[a-z]*$/i.exec(before)[0];
    return { word, begin: before.length - word.length, end: before.length };
}

const isKnown = (reading, word) => fuzzy.findWord(reading, word).code !== null;

// The words of the reading that it may become.
function fitsOf(reading, word) {
    if (word === "") return [];
    const low = word.toLowerCase();
    const longer = carried.words.filter((other) => other.startsWith(low) && other !== low);
    return longer.filter((other) => isKnown(reading, other)).slice(0, MOST_FITS);
}

// What is typed: the word, whether it is known, what it may become, and the rest of the first of these.
function typingIn(input, reading) {
    const isTyping = document.activeElement === input, { word } = wordIn(input), isAtEnd = input.selectionStart === input.value.length;
    const known = word !== "" && isKnown(reading, word), fits = isTyping ? fitsOf(reading, word) : [];
    return { word, known, fits, rest: isAtEnd && !known && fits.length > 0 ? fits[0].slice(word.length) : "" };
}

function wordHint({ word, known, fits, rest }) {
    if (word === "") return [];
    if (known) return [make("b", { class: "known" }, "✓"), ` “${word}” is a known word`];
    if (fits.length === 0) return [`“${word}” is not a known word in this reading`];
    return [`“${word}…” begins a known word`, rest === "" ? "" : "; the right arrow completes it"];
}

function complete(other, redraw) {
    const input = byId("try-phrase"), { begin, end } = wordIn(input), { value } = input;
    const after = value.slice(end), space = after.startsWith(" ") ? "" : " ";
    input.value = `${value.slice(0, begin)}${other}${space}${after}`;
    input.focus();
    input.setSelectionRange(begin + other.length + 1, begin + other.length + 1);
    redraw();
}

// Completes the word at the right arrow, where its rest is shown.
export function completeAtArrow(event, redraw) {
    const { rest, fits } = typingIn(event.target, readingOf("try"));
    if (event.key !== "ArrowRight" || rest === "") return;
    event.preventDefault();
    complete(fits[0], redraw);
}

// --- the answer

function answerBlocks(phrase, now, { value, refusal }, unfinished) {
    if (phrase.trim() === "") return [noneBlock("Type a phrase", "Or take one of the examples above.")];
    if (unfinished) return [noneBlock("Keep typing", unfinished), monthsOf(now)];
    if (refusal) return [refusalBlock(refusal, phrase), monthsOf(now)];
    const written = tried(() => fuzzy.writePhrase(value)).value;
    const also = written ? paragraph("also", "Written out: ", make("q", {}, written)) : null;
    return [make("div", { class: "left" }, momentBlock(value, fromNow(now, value)), also), monthsOf(now, value)];
}

function answerSaid(now, { value, refusal }) {
    if (refusal) return `No moment. ${refusalSentence(refusal, refusal.part)}`;
    return `${dayText(value)}, ${timeText(value)}, ${fromNow(now, value)}`;
}

// One line below the phrase, where the screen is narrow and the answer far down.
function briefText({ value, refusal }) {
    return value ? fullText(value) : refusalSentence(refusal, refusal.part);
}

// A last word that may still become a known one is not refused yet: then what it may become.
function unfinishedText(phrase, { refusal }, { word, fits }) {
    if (refusal?.number !== 2 || fits.length === 0 || refusal.index + refusal.width !== phrase.length) return "";
    return `“${word}” may become ${joined(fits.slice(0, 3).map((other) => `“${other}”`), "or")}.`;
}

// --- both readings, and the steps

const told = ({ value, refusal }) => (value ? fuzzy.toISO(value) : `${refusal.number} ${refusal.place} ${refusal.length}`);

function readingBlock(now, { value, refusal }, { name }, isChosen) {
    return make("div", { class: isChosen ? "chosen" : undefined },
        paragraph("label", `${name} reading`, isChosen ? make("span", { class: "tag" }, "chosen") : null),
        paragraph("value", value ? fullText(value) : "No moment"),
        paragraph("sub", value ? fromNow(now, value) : refusalSentence(refusal, refusal.part)));
}

function readingsCard(now, answers, reading) {
    if (told(answers[0]) === told(answers[1])) return [];
    const blocks = answers.map((answer, i) => readingBlock(now, answer, READINGS[i], i + 1 === reading));
    return [make("section", { class: "card panel" }, make("h2", {}, "The two readings differ here"),
        make("div", { class: "compare" }, blocks))];
}

function stepsCard(now, reading, phrase) {
    const { value: ready } = tried(() => fuzzy.makeReady(reading, phrase));
    if (!ready) return [];
    const size = `${plural(ready.length / 16, "step")}, ${ready.length} bytes, without a now`;
    return [make("section", { class: "card panel" }, make("h2", {}, "How it is worked out"),
        paragraph("sub", `The ready phrase: ${size}. It can be stored, sent, and run later.`),
        make("ol", { class: "steps" }, stepsOf(ready, now).map(({ words, moment }) => row(words, moment))))];
}

// --- all of it

function drawWord(typing, redraw) {
    fill("try-word", wordHint(typing));
    fill("try-fits", typing.fits.map((other) => make("button", { type: "button", onclick: () => complete(other, redraw) }, other)));
}

function drawAnswers(phrase, now, reading, typing) {
    const answers = [1, 2].map((other) => tried(() => fuzzy.read(other, phrase, now))), answer = answers[reading - 1];
    const unfinished = unfinishedText(phrase, answer, typing), isEmpty = phrase.trim() === "";
    drawMirror(byId("try-phrase"), isEmpty || unfinished ? null : answer.refusal, typing.rest);
    fill("try-answer", answerBlocks(phrase, now, answer, unfinished));
    fill("try-brief", isEmpty || unfinished ? "" : briefText(answer));
    fill("try-readings", isEmpty || unfinished ? [] : readingsCard(now, answers, reading));
    fill("try-steps", stepsCard(now, reading, phrase));
    if (!isEmpty && !unfinished) say(answerSaid(now, answer));
}

function drawNoNow(typing) {
    drawMirror(byId("try-phrase"), null, typing.rest);
    fill("try-answer", noneBlock("No now", "The author’s now is not an RFC 3339 date and time."));
    for (const id of ["try-brief", "try-readings", "try-steps"]) fill(id);
}

export function drawTry(redraw) {
    const reading = readingOf("try"), stamp = stampIn("try-now"), typing = typingIn(byId("try-phrase"), reading);
    drawWord(typing, redraw);
    if (stamp === null) drawNoNow(typing);
    else drawAnswers(get("try-phrase"), stamp.moment, reading, typing);
}
