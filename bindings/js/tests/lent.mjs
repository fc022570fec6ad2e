// What bindings/c/lent.h is, for the WebAssembly: buffers in its memory with a pattern beside them, random numbers, a
// digest, and the lines of the replayed list. Numbers and digests are those of the C programs.
import { readFileSync } from "node:fs";

const PATTERN = 0xa5, BESIDE = 64, PAGE = 65_536;

export function stop(what) {
    throw new Error(`failed: ${what}`);
}

export const root = new URL("../../../", import.meta.url);

// The lines of a file, as bytes.
export function linesOf(name) {
    const bytes = readFileSync(new URL(name, root)), lines = [];
    for (let at = 0; at < bytes.length;) {
        const end = bytes.indexOf(10, at);
        lines.push(bytes.subarray(at, end < 0 ? bytes.length : end));
        at = end < 0 ? bytes.length : end + 1;
    }
    return lines;
}

// --- xorshift64 in two halves

let high = 0x0139_408d, low = 0xcbbf_7a44;

export function randomBelow(n) {
    high ^= (high << 13) | (low >>> 19);
    low ^= low << 13;
    low ^= (low >>> 7) | (high << 25);
    high ^= high >>> 7;
    high ^= (high << 17) | (low >>> 15);
    low ^= low << 17;
    return ((high >>> 0) * 2 ** 21 + (low >>> 11)) % n;
}

// --- FNV-1a of 64 bits in two halves: the prime is 2^40 + 435

let upper = 0xcbf2_9ce4, lower = 0x8422_2325;

export function add(bytes, at = 0, end = bytes.length) {
    for (let i = at; i < end; i += 1) {
        const mixed = lower ^ bytes[i], a = (mixed & 0xffff) * 435, b = (mixed >>> 16) * 435 + (a >>> 16);
        upper = (Math.imul(upper, 435) + (b >>> 16) + (mixed << 8)) | 0;
        lower = (b << 16) | (a & 0xffff);
    }
}

const number = new DataView(new ArrayBuffer(8)), numberBytes = new Uint8Array(number.buffer);

export function addNumber(value) {
    number.setBigInt64(0, value, true);
    add(numberBytes);
}

const hex = (half) => (half >>> 0).toString(16).padStart(8, "0");

export const digest = () => `${hex(upper)}${hex(lower)}`;

// --- answers

export const numberOf = (answer) => Number(answer & 0xffffn);
export const placeOf = (answer) => Number((answer >> 16n) & 0xffffn);
export const lengthOf = (answer) => Number((answer >> 32n) & 0xffff_ffffn);

// --- buffers

// The module's memory, and fields of it: a buffer ends at a field's upper end or begins at its lower one.
export class Memory {
    constructor(memory, size) {
        const pages = Math.ceil(size / PAGE);
        this.top = memory.grow(pages) * PAGE;
        this.bytes = new Uint8Array(memory.buffer);
        this.view = new DataView(memory.buffer);
    }

    field(size) {
        const first = this.top + BESIDE, whole = Math.ceil(size / 16) * 16;
        this.top = first + whole + BESIDE;
        if (this.top > this.bytes.length) stop("no memory");
        return { first, size: whole };
    }

    // A buffer of n bytes at one end of a field or the other, full of the pattern as what is beside it.
    lend(field, n, isUpper) {
        const at = isUpper ? field.first + field.size - n : field.first;
        this.bytes.fill(PATTERN, at - BESIDE, at + n + BESIDE);
        return at;
    }

    lendCopy(field, bytes, n, isUpper) {
        const at = this.lend(field, n, isUpper);
        for (let i = 0; i < n; i += 1) this.bytes[at + i] = bytes[i];
        return at;
    }

    // Whether of a buffer of n bytes and what is beside it only the first bytes were written.
    keptBut(at, n, written) {
        const { bytes } = this;
        for (let i = at - BESIDE; i < at; i += 1) if (bytes[i] !== PATTERN) return false;
        for (let i = at + written; i < at + n + BESIDE; i += 1) if (bytes[i] !== PATTERN) return false;
        return true;
    }

    // Whether a buffer still has the n bytes that it was given, and nothing beside it was written.
    unchanged(at, given, n) {
        for (let i = 0; i < n; i += 1) if (this.bytes[at + i] !== given[i]) return false;
        return this.keptBut(at, n, n);
    }

    putNumbers(at, numbers) {
        for (let i = 0; i < numbers.length; i += 1) this.view.setUint32(at + 4 * i, numbers[i], true);
        return at;
    }

    numbers(at, count) {
        return Array.from({ length: count }, (_, i) => this.view.getUint32(at + 4 * i, true));
    }

    add(at, n) {
        add(this.bytes, at, at + n);
    }
}

// --- the replayed list

const isDigit = (byte) => byte >= 48 && byte <= 57;

// The numbers of a now such as "2026-02-11 09:30:15"; any other form stands for zeros.
function nowOf(bytes) {
    const form = "0000-00-00 00:00:00";
    const fits = bytes.length === form.length && bytes.every((byte, i) => (form[i] === "0" ? isDigit(byte) : byte === form.charCodeAt(i)));
    return fits ? bytes.toString("latin1").split(/[-: ]/).map(Number) : [0, 0, 0, 0, 0, 0];
}

// A phrase of the list, in which \xHH is one byte.
function phraseOf(bytes) {
    const text = bytes.toString("latin1").split("\0", 1)[0];
    return Buffer.from(text.replace(/\\x([0-9a-fA-F]{2})/g, (_, code) => String.fromCharCode(Number.parseInt(code, 16))), "latin1");
}

// A line `NOW|PHRASE`. The list has no milliseconds: a now gets random ones.
export function lineOf(bytes) {
    const bar = bytes.indexOf(124);
    if (bar < 0) stop("a line of the list");
    const now = nowOf(bytes.subarray(0, bar));
    return { now: [...now, randomBelow(1000)], phrase: phraseOf(bytes.subarray(bar + 1)) };
}
