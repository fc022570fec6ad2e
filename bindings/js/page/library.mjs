// The library, and what the build puts into the page: the WebAssembly, the lexer's words, and zones.
import { byId } from "./elements.mjs";
import { load, Refusal } from "../fuzzydate.mjs";

// Bytes of base64, also of the kind that an address can hold.
export function fromBase64(text) {
    const letters = atob(text.replaceAll("-", "+").replaceAll("_", "/")), bytes = new Uint8Array(letters.length);
    for (let i = 0; i < letters.length; i += 1) bytes[i] = letters.charCodeAt(i);
    return bytes;
}

// Bytes as base64 that an address can hold.
export function toBase64(bytes) {
    const text = btoa(Array.from(bytes, (byte) => String.fromCharCode(byte)).join(""));
    return text.replaceAll("+", "-").replaceAll("/", "_").replaceAll("=", "");
}

export const carried = JSON.parse(byId("carried").textContent);

async function loaded() {
    try {
        return await load(new WebAssembly.Module(fromBase64(carried.wasm)));
    } catch (error) {
        byId("failed").hidden = false;
        throw error;
    }
}

export const fuzzy = await loaded();

// What a call gives, as `value`, or its `refusal`; any other error is a fault of the page.
export function tried(call) {
    try {
        return { value: call() };
    } catch (error) {
        if (!(error instanceof Refusal)) throw error;
        return { refusal: error };
    }
}
