// Writes the page as one file: style, script, WebAssembly, words and zones are put into index.html, with a policy that lets it
// load nothing else, since a page from disk cannot load files beside it. node pack.mjs WASM
import { createHash } from "node:crypto";
import { readdirSync, readFileSync } from "node:fs";
import { basename } from "node:path";

const here = (name) => new URL(name, import.meta.url);
const textOf = (name) => readFileSync(here(name), "utf8");

function stop(what) {
    throw new Error(`page/pack.mjs: ${what}`);
}

// --- the script: each module as a function of its own, in an order in which each follows what it imports

const MODULES = ["../fuzzydate.mjs", "elements.mjs", "library.mjs", "calendar.mjs", "steps.mjs", "pictures.mjs", "fields.mjs", "try.mjs",
    "why.mjs", "repeat.mjs", "zones.mjs", "page.mjs"];
const IMPORT = /^import \{([^}]*)\} from "([^"]*)";\n/gm, EXPORT = /^export (?=(?:async function|function|class|const) (\w+))/gm;
const variableOf = (name) => `module_${basename(name, ".mjs")}`;
const exportsOf = (name) => [...textOf(name).matchAll(EXPORT)].map(([, exported]) => exported);
const listed = (names) => names.split(",").map((name) => name.trim()).filter((name) => name !== "");

// What a module imports, taken out of the variable of one before it.
function taken(name, imported, from) {
    const earlier = MODULES.slice(0, MODULES.indexOf(name)).find((other) => basename(other) === basename(from));
    if (!earlier) stop(`${name} imports ${from}, which is not before it`);
    const missing = listed(imported).find((each) => !exportsOf(earlier).includes(each));
    if (missing) stop(`${name} imports ${missing}, which ${from} does not export`);
    return `const {${imported}} = ${variableOf(from)};\n`;
}

// A module as a function that gives its exports.
function wrapped(name) {
    const body = textOf(name).replace(EXPORT, "").replace(IMPORT, (_, imported, from) => taken(name, imported, from));
    if (/^(import|export)\b/m.test(body) || /<\/script|<!--/i.test(body)) stop(`${name} cannot be put into the page`);
    return `const ${variableOf(name)} = await (async () => {\n${body}return { ${exportsOf(name).join(", ")} };\n})();\n`;
}

// --- what the page carries

function wordsOf(name) {
    const words = [...textOf(name).matchAll(/word "([a-z]+)"/g)].map(([, word]) => word);
    return words.length < 133 ? stop("the lexer's words were not found") : [...new Set(words)];
}

function zonesOf(folder) {
    const areas = readdirSync(here(folder), { withFileTypes: true }).filter((entry) => entry.isDirectory()).map(({ name }) => name);
    const names = areas.flatMap((area) => readdirSync(here(`${folder}/${area}`)).map((city) => `${area}/${city}`)).sort();
    return Object.fromEntries(names.map((name) => [name, readFileSync(here(`${folder}/${name}`)).toString("base64")]));
}

// --- the page

// Puts something in place of what must be in the page once.
function put(page, from, to) {
    return page.split(from).length === 2 ? page.replace(from, () => to) : stop(`not once in the page: ${from}`);
}

const hashOf = (content) => `'sha256-${createHash("sha256").update(content).digest("base64")}'`;

function packed(wasm) {
    const script = `\n${MODULES.map(wrapped).join("")}`, style = `\n${textOf("style.css")}`;
    const carried = JSON.stringify({
        words: wordsOf("../../../crates/lexer/specs/Keywords.antt"), zones: zonesOf("zones"), wasm: readFileSync(wasm).toString("base64"),
    });
    const policy = ["default-src 'none'", `script-src ${hashOf(script)} 'wasm-unsafe-eval'`, `style-src ${hashOf(style)}`, "img-src data:",
        "base-uri 'none'", "form-action 'none'"].join("; ");
    const head = `<meta charset="utf-8">\n<meta http-equiv="Content-Security-Policy" content="${policy}">`;
    const scripts = `<script type="application/json" id="carried">${carried}</script>\n<script type="module">${script}</script>`;
    const headed = put(textOf("index.html"), '<meta charset="utf-8">', head);
    const styled = put(headed, '<link rel="stylesheet" href="style.css">', `<style>${style}</style>`);
    return put(styled, '<script type="module" src="page.mjs"></script>', scripts);
}

process.stdout.write(packed(process.argv[2]));
