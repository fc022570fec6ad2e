// Elements of the page: found, made and filled, and what a screen reader is told.

export const byId = (id) => document.getElementById(id);

const isThere = (child) => child !== null && child !== undefined && child !== "";

// An element with attributes, listeners (names that begin with "on") and children; what is null is left out.
export function make(tag, properties = {}, ...children) {
    const element = document.createElement(tag);
    for (const [name, value] of Object.entries(properties)) {
        if (value === undefined || value === false) continue;
        if (name.startsWith("on")) element.addEventListener(name.slice(2), value);
        else element.setAttribute(name, value === true ? "" : value);
    }
    element.append(...children.flat().filter(isThere));
    return element;
}

export function fill(id, ...children) {
    byId(id).replaceChildren(...children.flat().filter(isThere));
}

export const paragraph = (kind, ...children) => make("p", { class: kind }, ...children);

const SVG = "http://www.w3.org/2000/svg";

export function icon(path) {
    const picture = document.createElementNS(SVG, "svg"), shape = document.createElementNS(SVG, "path");
    picture.setAttribute("viewBox", "0 0 24 24");
    picture.setAttribute("aria-hidden", "true");
    shape.setAttribute("d", path);
    picture.append(shape);
    return picture;
}

let saying = 0;

// Tells a screen reader, once typing pauses.
export function say(text) {
    clearTimeout(saying);
    saying = setTimeout(() => { byId("live").textContent = text; }, 500);
}
