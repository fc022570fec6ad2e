// The page: four tabs, whose state is in the address. What is typed goes to the library at each keystroke, and what it answers
// is drawn.
import { byId, make } from "./elements.mjs";
import { addressOf, get, makeReadings, set, stampOf, TABS } from "./fields.mjs";
import { drawRepeat, fitStart, yearOf } from "./repeat.mjs";
import { completeAtArrow, drawTry } from "./try.mjs";
import { drawWhy, makeClocks, resetClocks } from "./why.mjs";
import { drawZones, firstNow, makeZones, takeFile, takeZone } from "./zones.mjs";

const NAMES = Object.keys(TABS), DRAWN = { try: drawTry, why: drawWhy, repeat: drawRepeat, zones: drawZones };
const all = (selector) => document.querySelectorAll(selector);
let tab = "try";

// --- drawing, and the address

let writing = 0;

// The address follows when typing pauses: browsers refuse a page that changes it at each keystroke.
function writeAddress() {
    clearTimeout(writing);
    writing = 0;
    if (location.hash !== addressOf(tab)) history.replaceState(null, "", addressOf(tab));
}

function draw() {
    DRAWN[tab](draw);
    clearTimeout(writing);
    writing = setTimeout(writeAddress, 300);
}

function selectTab(name) {
    for (const other of NAMES) {
        byId(other).hidden = other !== name;
        byId(`tab-${other}`).setAttribute("aria-selected", String(other === name));
        byId(`tab-${other}`).tabIndex = other === name ? 0 : -1;
    }
    const chosen = byId(`tab-${name}`), list = chosen.parentElement;
    list.scrollLeft = chosen.offsetLeft - (list.clientWidth - chosen.offsetWidth) / 2;
}

function show(name) {
    tab = name;
    selectTab(name);
    if (name === "zones" && get("zones-now") === "") set("zones-now", firstNow());
    DRAWN[name](draw);
}

// Goes to another tab, which is then in the history.
function go(name) {
    if (writing !== 0) writeAddress();
    show(name);
    history.pushState(null, "", addressOf(name));
}

function takeFields(name, given) {
    for (const field of TABS[name]) {
        if (given.has(field) && !["zone", "file"].includes(field)) set(`${name}-${field}`, given.get(field));
    }
    if (name === "zones" && given.has("zone")) takeZone(given.get("zone"), given.get("file"));
    if (name === "why" && given.has("now") && !given.has("ahead")) resetClocks();
}

function fromAddress() {
    const given = new URLSearchParams(location.hash.slice(1)), name = given.get("tab") ?? "try";
    const chosen = NAMES.includes(name) ? name : "try";
    takeFields(chosen, given);
    show(chosen);
}

// --- examples

const EXAMPLES = {
    "try-phrase": ["next friday at 3 pm", "tuesday in two weeks", "the day after tomorrow at noon", "march 3 5 pm",
        "three weeks before christmas", "90 minutes from now"].map((phrase) => [phrase, phrase]),
    "repeat-rule": [["Every second Tuesday", "FREQ=WEEKLY;INTERVAL=2;BYDAY=TU"], ["Workdays", "FREQ=WEEKLY;BYDAY=MO,TU,WE,TH,FR"],
        ["On the 31st", "FREQ=MONTHLY;BYMONTHDAY=31"], ["Every 10 days, 12 times", "FREQ=DAILY;INTERVAL=10;COUNT=12"]],
    "zones-phrase": ["1 day from now", "tomorrow", "tomorrow at 2:30", "tomorrow at 1:30", "18 hours from now"]
        .map((phrase) => [phrase, phrase]),
};

function takeExample(field, value) {
    set(field, value);
    if (field === "repeat-rule") fitStart();
    draw();
}

function makeExamples() {
    for (const group of all("[data-examples]")) {
        const field = group.dataset.examples, button = ([name, value]) => make("button", { type: "button", onclick: () => {
            takeExample(field, value);
        } }, name);
        group.append(...EXAMPLES[field].map(button));
    }
}

// --- what is pressed and typed

function takeNow(field) {
    set(field, stampOf(new Date()));
    if (field === "why-now") resetClocks();
    if (field === "repeat-asked") set("repeat-year", String(new Date().getFullYear()));
    draw();
}

function stepYear(years) {
    const year = yearOf(get("repeat-year"), new Date().getFullYear());
    set("repeat-year", String(yearOf(String(year + years), year)));
    draw();
}

function tabKey(event, i) {
    const last = NAMES.length - 1;
    const keys = { ArrowRight: i === last ? 0 : i + 1, ArrowLeft: i === 0 ? last : i - 1, Home: 0, End: last };
    if (!Object.hasOwn(keys, event.key)) return;
    event.preventDefault();
    go(NAMES[keys[event.key]]);
    byId(`tab-${tab}`).focus();
}

async function copyLink({ target }) {
    writeAddress();
    const copied = await navigator.clipboard?.writeText(location.href).then(() => true, () => false);
    target.textContent = copied ? "copied" : "copy it from the address bar";
    setTimeout(() => { target.textContent = "copy the link"; }, 2000);
}

async function chooseFile({ target }) {
    if (target.files.length === 0) return;
    await takeFile(target.files[0]);
    target.value = "";
    draw();
}

// The words that fit go when the phrase is left, unless one of them is pressed.
function redrawWords() {
    setTimeout(() => {
        if (tab === "try" && !byId("try-fits").contains(document.activeElement)) drawTry(draw);
    }, 150);
}

function scrollMirror({ target }) {
    const mirror = target.parentElement?.querySelector(".mirror");
    if (mirror) mirror.scrollLeft = target.scrollLeft;
}

function listenToTabs() {
    NAMES.forEach((name, i) => {
        byId(`tab-${name}`).addEventListener("click", () => go(name));
        byId(`tab-${name}`).addEventListener("keydown", (event) => tabKey(event, i));
    });
    addEventListener("popstate", fromAddress);
    addEventListener("hashchange", fromAddress);
}

function listenToButtons() {
    for (const button of all("[data-now]")) button.addEventListener("click", () => takeNow(button.dataset.now));
    for (const button of all("[data-year]")) button.addEventListener("click", () => stepYear(Number(button.dataset.year)));
    for (const form of all("form")) form.addEventListener("submit", (event) => event.preventDefault());
    byId("copy").addEventListener("click", copyLink);
    byId("zones-zone").addEventListener("change", draw);
    byId("zones-own").addEventListener("change", chooseFile);
    document.querySelector(".skip").addEventListener("click", (event) => {
        event.preventDefault();
        byId("main").focus();
    });
}

function listenToTyping() {
    byId("main").addEventListener("input", ({ target }) => { if (target.type !== "file") draw(); });
    byId("main").addEventListener("scroll", scrollMirror, true);
    byId("try-phrase").addEventListener("keydown", (event) => completeAtArrow(event, draw));
    for (const kind of ["focusin", "focusout"]) byId("try-phrase").addEventListener(kind, redrawWords);
}

// --- the start

function setFirst() {
    const now = stampOf(new Date());
    for (const field of ["try-now", "why-now", "repeat-asked", "repeat-start"]) set(field, now);
    for (const field of ["try-phrase", "why-phrase"]) set(field, "next friday at 3 pm");
    set("repeat-rule", "FREQ=WEEKLY;INTERVAL=2;BYDAY=TU");
    set("repeat-year", now.slice(0, 4));
    set("zones-phrase", "1 day from now");
    set("zones-zone", "America/New_York");
    resetClocks();
    fitStart();
}

makeReadings();
makeClocks(draw);
makeZones();
makeExamples();
listenToTabs();
listenToButtons();
listenToTyping();
setFirst();
fromAddress();
document.documentElement.dataset.ready = String(Math.round(performance.now()));
