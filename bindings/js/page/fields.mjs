// The fields of the tabs, and the address that holds them all.
import { momentAt, MINUTE, SECOND, shortDay } from "./calendar.mjs";
import { byId, make } from "./elements.mjs";
import { fuzzy, tried } from "./library.mjs";

// The fields of each tab, by their names in the address.
export const TABS = {
    try: ["phrase", "now", "reading"],
    why: ["phrase", "now", "reading", "hub", "phone", "ahead"],
    repeat: ["rule", "start", "asked", "year"],
    zones: ["phrase", "zone", "file", "now", "reading"],
};

export const READINGS = [
    { value: "1", name: "First", said: "the Rust library’s" },
    { value: "2", name: "Second", said: "what people mean" },
];

// The choice of a reading, on each tab that has one.
export function makeReadings() {
    for (const set of document.querySelectorAll("[data-reading]")) {
        const choices = READINGS.map(({ value, name, said }) => make("label", {},
            make("input", { type: "radio", name: `${set.dataset.reading}-reading`, value, checked: value === "2" }),
            make("span", {}, name, make("small", {}, said))));
        set.append(make("legend", {}, "Reading"), make("div", { class: "segments" }, choices));
    }
}

const choiceOf = (field, value) => document.querySelector(`[name="${field}"]${value}`);

// A field's text; a lone surrogate, which no text can have, becomes a replacement character.
export function get(field) {
    const { value } = field.endsWith("-reading") ? choiceOf(field, ":checked") : byId(field);
    return value.replace(/\p{Surrogate}/gu, "\ufffd");
}

export function set(field, value) {
    if (field.endsWith("-reading")) choiceOf(field, `[value="${value === "1" ? 1 : 2}"]`).checked = true;
    else byId(field).value = value;
}

export const readingOf = (tab) => Number(get(`${tab}-reading`));

export function addressOf(tab) {
    const pairs = TABS[tab].map((name) => [name, get(`${tab}-${name}`)]).filter(([name, value]) => name !== "file" || value !== "");
    return `#${new URLSearchParams([["tab", tab], ...pairs])}`;
}

// --- stamps

// A date in this device's zone as a stamp, without its milliseconds.
export function stampOf(date) {
    const offset = -date.getTimezoneOffset(), civil = date.getTime() + offset * MINUTE;
    return fuzzy.writeStamp({ moment: momentAt(civil - (((civil % SECOND) + SECOND) % SECOND)), offset });
}

// The stamp of a field, or null, and then the field says so.
export function stampIn(field) {
    const { value = null } = tried(() => fuzzy.readStamp(get(field).trim())), said = byId(`${field}-said`);
    byId(field).setAttribute("aria-invalid", String(value === null));
    if (said) {
        said.textContent = value === null ? "Write it as 2026-02-11T09:30:15+01:00" : shortDay(value.moment);
        said.classList.toggle("bad", value === null);
    }
    return value;
}
