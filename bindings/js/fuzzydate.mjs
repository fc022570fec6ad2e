// Reads reminder phrases such as "next friday at 3 pm" at a now that the caller gives: the library of fuzzy.h as
// WebAssembly, for browsers, Node 18 and later, and bundlers. Nothing is parsed or worked out here: bytes and numbers
// are handed over. `load` gives the functions; fuzzydate.d.ts describes them.

const PARTS = ["year", "month", "day", "hour", "minute", "second", "millisecond"];
const READY_SIZE = 384, STAMP_SIZE = 29, PHRASE_SIZE = 26;
const MOST_OCCURRENCES = 3_652_059;

export const Reading = Object.freeze({ FIRST: 1, SECOND: 2 });

// Why a call is refused, by its number: the name and the words of fuzzy.h.
export const REASONS = Object.freeze([
    ["DONE", "done"],
    ["TOO_LONG", "longer than 256 bytes"],
    ["UNKNOWN", "not understood"],
    ["LARGE_DIGITS", "number too large"],
    ["TOO_MANY", "more than 64 words, numbers and marks"],
    ["NOTHING", "no date or time in it"],
    ["LARGE_SUM", "number in words too large"],
    ["LEFT_OVER", "not part of the date or time"],
    ["INVALID_MOMENT", "the given moment is not a valid date and time"],
    ["NO_SENSE", "makes no sense"],
    ["NO_DATE", "no such month or day"],
    ["NO_TIME", "no such time of day"],
    ["OUTSIDE", "outside the years 1 to 9999"],
    ["NO_LEAP_DAY", "29 February is not in that year"],
    ["NO_STAMP", "not an RFC 3339 date and time"],
    ["NO_READING", "no such reading"],
    ["NOT_WHOLE", "a phrase shows no seconds"],
    ["NO_ROOM", "no room for the text"],
    ["NO_RULE", "not a repeating rule that is accepted"],
    ["NO_START", "the start is not an occurrence of the rule"],
    ["NO_NEXT", "no occurrence is left"],
    ["NO_ZONE", "not a zone file that is accepted"],
    ["PAST_LAST", "later than the zone's file knows"],
    ["NO_INSTANT", "the zone's clocks skip that time"],
    ["FULL_BOARD", "no slot is free"],
    ["EMPTY_SLOT", "the slot is empty"],
    ["NOTHING_DUE", "no reminder has a moment"],
].map(([reason, words]) => Object.freeze({ reason, words })));

const NEWER = Object.freeze({ reason: null, words: "a refusal of a newer library" });

// What every function throws where the library refuses. Place and length count bytes of UTF-8; index and width count
// the UTF-16 units of a string, of whole characters.
export class Refusal extends Error {
    constructor(number, place, length, text) {
        const { reason, words } = REASONS[number] ?? NEWER, isPlain = place + length === 0 || typeof text !== "string" || isASCII(text);
        let index = place, end = place + length;
        if (!isPlain) [index, end] = unitsOf(text, index, end);
        const part = partOf(text, index, end);
        super(`${reason === null ? `${words}: ${number}` : words}${part.length === 0 ? "" : underlined(text, index, end, isPlain)}`);
        this.number = number;
        this.reason = reason;
        this.words = words;
        this.place = place;
        this.length = length;
        this.index = index;
        this.width = end - index;
        this.part = part;
    }
}
Object.defineProperty(Refusal.prototype, "name", { value: "Refusal", configurable: true, writable: true });

// Whether a text is of printable characters of one byte each.
const isASCII = (text) => !/[^ -~]/.test(text);

// A part of a string, or a copy of a part of bytes.
function partOf(text, begin, end) {
    if (text === undefined) return "";
    return typeof text === "string" ? text.slice(begin, end) : Uint8Array.prototype.slice.call(text, begin, end);
}

// Two more lines of a message: the text, and marks below its refused part.
function underlined(text, begin, end, isPlain) {
    if (typeof text !== "string") return ` at byte ${begin}`;
    if (isPlain) return `\n    ${text}\n    ${" ".repeat(begin)}${"^".repeat(end - begin)}`;
    const columns = (string) => [...string].length, line = text.replace(/\p{Cc}/gu, "\ufffd");
    return `\n    ${line}\n    ${" ".repeat(columns(text.slice(0, begin)))}${"^".repeat(columns(text.slice(begin, end)))}`;
}

// --- arguments

function shown(value) {
    if (typeof value === "string") return JSON.stringify(value);
    if (typeof value === "bigint") return `${value}n`;
    return typeof value === "object" && value !== null ? kindOf(value) : String(value);
}

// What an object is, also one of another window: "Date", "Temporal.PlainDateTime", "Uint8Array".
const kindOf = (value) => Object.prototype.toString.call(value).slice(8, -1);

const isU32 = (value) => typeof value === "number" && value >>> 0 === value;

function refuseNumber(value, name, low, high) {
    if (typeof value !== "number") throw new TypeError(`${name} is not a number: ${shown(value)}`);
    throw new RangeError(`${name} is not a whole number from ${low} to ${high}: ${value}`);
}

function u32(value, name) {
    return isU32(value) ? value : refuseNumber(value, name, 0, 0xffff_ffff);
}

function whole(value, name, low, high) {
    return Number.isInteger(value) && value >= low && value <= high ? value : refuseNumber(value, name, low, high);
}

function bytesOf(value, name, accepted = "a Uint8Array") {
    if (ArrayBuffer.isView(value) && value[Symbol.toStringTag] === "Uint8Array") return value;
    throw new TypeError(`${name} is not ${accepted}: ${shown(value)}`);
}

const encoder = new TextEncoder();
const decoder = new TextDecoder();

function utf8Of(text, name) {
    if (/\p{Surrogate}/u.test(text)) throw new RangeError(`${name} has a lone surrogate, which UTF-8 cannot hold`);
    return encoder.encode(text);
}

function utf8Length(point) {
    if (point < 0x80) return 1;
    if (point < 0x800) return 2;
    return point < 0x1_0000 ? 3 : 4;
}

// The characters that have bytes between two places of a text's UTF-8: where they begin and end, in UTF-16 units.
function unitsOf(text, from, to) {
    let place = 0, index = 0, begin = -1;
    while (index < text.length && (place < to || place <= from)) {
        const point = text.codePointAt(index);
        place += utf8Length(point);
        if (begin < 0 && place > from) begin = index;
        if (begin >= 0 && from === to) break;
        index += point > 0xffff ? 2 : 1;
    }
    return begin < 0 ? [index, index] : [begin, from === to ? begin : index];
}

// What Temporal has and the library has not must be nothing.
function checkMilliseconds({ microsecond = 0, nanosecond = 0 }, name) {
    if (microsecond !== 0 || nanosecond !== 0) throw new RangeError(`${name} has parts of a millisecond`);
}

// A moment's class must not hide a zone or another calendar.
function checkMomentKind(moment, name) {
    const kind = kindOf(moment);
    if (kind === "Temporal.PlainDateTime") {
        if (moment.calendarId === "iso8601") return;
        throw new RangeError(`${name} is not of the ISO calendar: ${shown(moment.calendarId)}`);
    }
    if (kind === "Date" || kind.startsWith("Temporal.")) {
        throw new TypeError(`${name} is a ${kind}, and a moment has no zone: give a Temporal.PlainDateTime or the numbers`);
    }
    if (kind !== "Object") throw new TypeError(`${name} is not a moment: ${kind}`);
}

// The seven numbers of a moment that is an object.
function numbersOf(moment, name) {
    if (typeof moment !== "object" || moment === null) throw new TypeError(`${name} is not a moment: ${shown(moment)}`);
    if (Object.getPrototypeOf(moment) !== Object.prototype) checkMomentKind(moment, name);
    const { year, month, day, hour = 0, minute = 0, second = 0, millisecond = 0 } = moment;
    const numbers = [year, month, day, hour, minute, second, millisecond];
    for (let i = 0; i < numbers.length; i += 1) {
        if (!isU32(numbers[i])) refuseNumber(numbers[i], `${name}.${PARTS[i]}`, 0, 0xffff_ffff);
    }
    checkMilliseconds(moment, name);
    return numbers;
}

// A moment's text must not have an offset, which a moment cannot hold.
function checkCivil(text, name) {
    if (/z$|[+-]\d\d:?\d\d$/i.test(text.slice(10))) {
        throw new RangeError(`${name} has an offset, and a moment has none: ${shown(text)}`);
    }
}

const fromMilliseconds = (n) => ({ second: BigInt(Math.floor(n / 1000)), millisecond: ((n % 1000) + 1000) % 1000 });

function instantOfDate(date, name) {
    const time = date.getTime();
    if (Number.isNaN(time)) throw new RangeError(`${name} is an invalid Date`);
    return fromMilliseconds(time);
}

function instantOfTemporal(instant, name) {
    if (instant.epochNanoseconds % 1_000_000n !== 0n) throw new RangeError(`${name} has parts of a millisecond`);
    return fromMilliseconds(instant.epochMilliseconds);
}

// The instant of a stamp's nine numbers; "-00:00" has an offset that is not known, and so no instant.
function instantOfStamp([year, month, day, hour, minute, second, millisecond, west, offset], name) {
    if (west === 1 && offset === 0) throw new RangeError(`${name} has the unknown offset -00:00`);
    const civil = new Date(0);
    civil.setUTCFullYear(year, month - 1, day);
    civil.setUTCHours(hour, minute, second, millisecond);
    return fromMilliseconds(civil.getTime() + (west === 1 ? 60_000 : -60_000) * offset);
}

function instantOfNumbers(instant, name) {
    if (instant.year !== undefined) throw new TypeError(`${name} is a moment, and an instant is wanted`);
    checkMilliseconds(instant, name);
    const { second, millisecond = 0 } = instant;
    if (typeof second !== "bigint") whole(second, `${name}.second`, Number.MIN_SAFE_INTEGER, Number.MAX_SAFE_INTEGER);
    const wide = BigInt(second);
    if (BigInt.asIntN(64, wide) !== wide) throw new RangeError(`${name}.second has more than 64 bits: ${second}`);
    return { second: wide, millisecond: u32(millisecond, `${name}.millisecond`) };
}

// An instant that is an object, as its second since 1970 and its millisecond.
function instantOf(instant, name) {
    if (typeof instant !== "object" || instant === null) throw new TypeError(`${name} is not an instant: ${shown(instant)}`);
    const kind = kindOf(instant);
    if (kind === "Date") return instantOfDate(instant, name);
    if (kind === "Temporal.Instant") return instantOfTemporal(instant, name);
    if (kind !== "Object") throw new TypeError(`${name} is not an instant: ${kind}`);
    return instantOfNumbers(instant, name);
}

// --- the module's memory

const PAGE = 65_536;

// Where the buffers of a call stand, from the first page that is ours: two moments or a stamp that are given, the numbers
// that are written, the second that is written, the text or ready phrase that is written, and texts that are given.
const GIVEN = 0, ASKED = 64, NUMBERS = 128, DUE = 192, WRITTEN = 256, TEXT = 1024;

// The pages behind those that the module was made with: nothing but these calls uses them.
class Room {
    constructor(exports) {
        this.exports = exports;
        this.memory = exports.memory;
        this.base = this.memory.grow(1) * PAGE;
        this.renew();
    }

    // The memory's views, which growing takes away.
    renew() {
        this.bytes = new Uint8Array(this.memory.buffer);
        this.view = new DataView(this.memory.buffer);
    }

    reserve(end) {
        if (end <= this.bytes.length) return;
        this.memory.grow(Math.ceil((end - this.bytes.length) / PAGE));
        this.renew();
    }

    // Puts a text's UTF-8, or bytes, at a place, and gives their count.
    put(at, text, name) {
        if (typeof text === "string") return this.putString(at, text, name);
        return this.putBytes(at, bytesOf(text, name, "a string or a Uint8Array"));
    }

    putString(at, text, name) {
        this.reserve(at + text.length);
        for (let i = 0; i < text.length; i += 1) {
            const unit = text.charCodeAt(i);
            if (unit > 127) return this.putBytes(at, utf8Of(text, name));
            this.bytes[at + i] = unit;
        }
        return text.length;
    }

    putBytes(at, bytes) {
        this.reserve(at + bytes.length);
        this.bytes.set(bytes, at);
        return bytes.length;
    }

    putNumbers(at, numbers) {
        for (let i = 0; i < numbers.length; i += 1) this.view.setUint32(at + 4 * i, numbers[i], true);
        return at;
    }

    number(at) {
        return this.view.getUint32(at, true);
    }

    numbers(at, count) {
        return Array.from({ length: count }, (_, i) => this.number(at + 4 * i));
    }

    moment(at) {
        return {
            year: this.number(at), month: this.number(at + 4), day: this.number(at + 8), hour: this.number(at + 12),
            minute: this.number(at + 16), second: this.number(at + 20), millisecond: this.number(at + 24),
        };
    }

    text(at, length) {
        return decoder.decode(this.bytes.subarray(at, at + length));
    }
}

function limitStack(frames) {
    try {
        Error.stackTraceLimit = frames;
    } catch {
        // where Error is frozen a refusal has a stack
    }
}

// A refusal is an answer, not a fault of the caller's: it has no stack, since collecting one takes longer than the call.
function refusalOf(number, place, length, text) {
    const frames = Error.stackTraceLimit;
    if (frames === undefined) return new Refusal(number, place, length, text);
    limitStack(0);
    const refusal = new Refusal(number, place, length, text);
    limitStack(frames);
    return refusal;
}

const answered = new DataView(new ArrayBuffer(8));

// The length of an answer, unless it is a refusal, which is thrown; `text` is what its place is in.
function checked(answer, text) {
    answered.setBigInt64(0, answer);
    const number = answered.getUint16(6), length = answered.getUint32(0);
    if (number !== 0) throw refusalOf(number, answered.getUint16(4), length, text);
    return length;
}

// --- the functions, each group over one room

function stampCalls(room) {
    const { exports, base } = room;

    function stampNumbers(text, name) {
        const length = room.put(base + TEXT, text, name);
        checked(exports.fuzzy_read_stamp(base + TEXT, BigInt(length), base + NUMBERS), text);
        return room.numbers(base + NUMBERS, 9);
    }

    function momentNumbers(moment, name) {
        if (typeof moment !== "string") return numbersOf(moment, name);
        checkCivil(moment, name);
        return stampNumbers(`${moment}Z`, name).slice(0, 7);
    }

    function instantNumbers(instant, name) {
        return typeof instant === "string" ? instantOfStamp(stampNumbers(instant, name), name) : instantOf(instant, name);
    }

    function readStamp(text) {
        const [west, minutes] = stampNumbers(text, "text").slice(7), offset = west === 0 ? minutes : -minutes;
        return { moment: room.moment(base + NUMBERS), offset: west === 1 && minutes === 0 ? null : offset };
    }

    function writeNumbers(numbers) {
        room.putNumbers(base + GIVEN, numbers);
        const length = checked(exports.fuzzy_write_stamp(base + GIVEN, base + WRITTEN, BigInt(STAMP_SIZE)));
        return room.text(base + WRITTEN, length);
    }

    function writeStamp(stamp) {
        if (typeof stamp !== "object" || stamp === null) throw new TypeError(`stamp is not a stamp: ${shown(stamp)}`);
        const { moment, offset } = stamp;
        const minutes = offset === null ? 0 : whole(offset, "offset", -0xffff_ffff, 0xffff_ffff);
        const west = offset === null || minutes < 0 ? 1 : 0;
        return writeNumbers([...momentNumbers(moment, "moment"), west, Math.abs(minutes)]);
    }

    function fromISO(text) {
        if (typeof text !== "string") throw new TypeError(`text is not a string: ${shown(text)}`);
        momentNumbers(text, "text");
        return room.moment(base + NUMBERS);
    }

    const toISO = (moment) => writeNumbers([...momentNumbers(moment, "moment"), 0, 0]).slice(0, -1);

    return { momentNumbers, instantNumbers, calls: { readStamp, writeStamp, fromISO, toISO } };
}

function phraseCalls(room, { momentNumbers }) {
    const { exports, base } = room;

    function read(reading, phrase, now) {
        u32(reading, "reading");
        const numbers = momentNumbers(now, "now"), length = room.put(base + TEXT, phrase, "phrase");
        room.putNumbers(base + GIVEN, numbers);
        checked(exports.fuzzy_read(reading, base + TEXT, BigInt(length), base + GIVEN, base + NUMBERS), phrase);
        return room.moment(base + NUMBERS);
    }

    function makeReady(reading, phrase) {
        u32(reading, "reading");
        const length = room.put(base + TEXT, phrase, "phrase");
        const size = checked(exports.fuzzy_make_ready(reading, base + TEXT, BigInt(length), base + WRITTEN), phrase);
        return room.bytes.slice(base + WRITTEN, base + WRITTEN + size);
    }

    function run(ready, now) {
        const numbers = momentNumbers(now, "now"), length = room.putBytes(base + TEXT, bytesOf(ready, "ready"));
        room.putNumbers(base + GIVEN, numbers);
        checked(exports.fuzzy_run(base + TEXT, BigInt(length), base + GIVEN, base + NUMBERS));
        return room.moment(base + NUMBERS);
    }

    function findWord(reading, word) {
        u32(reading, "reading");
        const length = room.put(base + TEXT, word, "word");
        checked(exports.fuzzy_find_word(reading, base + TEXT, BigInt(length), base + NUMBERS));
        const [code, comparisons] = room.numbers(base + NUMBERS, 2);
        return { code: code === 0 ? null : code, comparisons };
    }

    function writePhrase(moment) {
        room.putNumbers(base + GIVEN, momentNumbers(moment, "moment"));
        const length = checked(exports.fuzzy_write_phrase(base + GIVEN, base + WRITTEN, BigInt(PHRASE_SIZE)));
        return room.text(base + WRITTEN, length);
    }

    return { read, makeReady, run, findWord, writePhrase };
}

function ruleCalls(room, { momentNumbers }) {
    const { exports, base } = room;

    // Lists a rule that is in its place, with room for so many moments: where they are, and how many.
    function list(length, most) {
        const rows = Math.ceil((base + TEXT + length) / 16) * 16;
        room.reserve(rows + 28 * most);
        return [rows, checked(exports.fuzzy_list_in(base + TEXT, BigInt(length), base + GIVEN, rows, BigInt(7 * most)))];
    }

    // The room grows with what is found, so that a large `most` takes no memory that is not needed.
    function occurrences(rule, start, most) {
        const wanted = Math.min(u32(most, "most"), MOST_OCCURRENCES);
        const numbers = momentNumbers(start, "start"), length = room.put(base + TEXT, rule, "rule");
        room.putNumbers(base + GIVEN, numbers);
        let tried = Math.min(wanted, 64), [rows, count] = list(length, tried);
        while (count === tried && tried < wanted) {
            tried = Math.min(wanted, 8 * tried);
            [rows, count] = list(length, tried);
        }
        return Array.from({ length: count }, (_, i) => room.moment(rows + 28 * i));
    }

    function next(rule, start, asked) {
        const first = momentNumbers(start, "start"), later = momentNumbers(asked, "asked");
        const length = room.put(base + TEXT, rule, "rule");
        room.putNumbers(base + GIVEN, first);
        room.putNumbers(base + ASKED, later);
        checked(exports.fuzzy_next(base + TEXT, BigInt(length), base + GIVEN, base + ASKED, base + NUMBERS));
        return room.moment(base + NUMBERS);
    }

    return { occurrences, next };
}

function zoneCalls(room, { instantNumbers }) {
    const { exports, base } = room;

    // Puts a zone's bytes behind a text of so many bytes: where, and how many.
    function putZone(length, zone) {
        const at = base + TEXT + length;
        return [at, BigInt(room.putBytes(at, zone))];
    }

    function local() {
        const moment = room.moment(base + NUMBERS), [west, distance] = room.numbers(base + NUMBERS + 28, 2), { millisecond } = moment;
        const second = Number(room.view.getBigInt64(base + DUE, true)), date = new Date(second * 1000 + millisecond);
        return { second, millisecond, moment, offset: west === 0 ? distance : -distance, date };
    }

    function runInZone(ready, zone, now) {
        bytesOf(zone, "zone");
        const { second, millisecond } = instantNumbers(now, "now");
        const length = room.putBytes(base + TEXT, bytesOf(ready, "ready")), [at, size] = putZone(length, zone);
        checked(exports.fuzzy_run_in_zone(base + TEXT, BigInt(length), at, size, second, millisecond, base + DUE, base + NUMBERS));
        return local();
    }

    function readInZone(reading, phrase, zone, now) {
        u32(reading, "reading");
        bytesOf(zone, "zone");
        const { second, millisecond } = instantNumbers(now, "now");
        const length = room.put(base + TEXT, phrase, "phrase"), [at, size] = putZone(length, zone);
        checked(exports.fuzzy_read_in_zone(reading, base + TEXT, BigInt(length), at, size, second, millisecond, base + DUE,
            base + NUMBERS), phrase);
        return local();
    }

    return { runInZone, readInZone };
}

// The parts of struct fuzzy_board: what is asked often is 3,104 bytes at its beginning, and the ready phrases follow.
const BOARD_SLOTS = 256, KEYS = 0, LENGTHS = 8 * BOARD_SLOTS, STATE = LENGTHS + 4 * BOARD_SLOTS, READY = STATE + 32;
const BOARD_SIZE = READY + READY_SIZE * BOARD_SLOTS;

function boardClass(room, { momentNumbers }) {
    const { exports, base } = room, board = base + PAGE;
    const keys = board + KEYS, lengths = board + LENGTHS, state = board + STATE, ready = board + READY;

    // A board's memory is its own, and copied into the room for each call, so that it is freed with the board.
    return class Board {
        #memory = new Uint8Array(BOARD_SIZE);

        constructor(now) {
            const numbers = momentNumbers(now, "now");
            this.#change(READY, () => exports.fuzzy_board_make_in(lengths, state, room.putNumbers(base + GIVEN, numbers)));
        }

        // Lends so many of the board's bytes to a call.
        #ask(size, call) {
            room.reserve(board + size);
            room.bytes.set(size === BOARD_SIZE ? this.#memory : this.#memory.subarray(0, size), board);
            return call();
        }

        // Keeps what a call changed, unless it was refused.
        #change(size, call, text) {
            const length = checked(this.#ask(size, call), text);
            this.#memory.set(room.bytes.subarray(board, board + size));
            return length;
        }

        add(reading, phrase) {
            u32(reading, "reading");
            const at = board + BOARD_SIZE, length = BigInt(room.put(at, phrase, "phrase"));
            return this.#change(BOARD_SIZE,
                () => exports.fuzzy_board_add_in(ready, lengths, keys, state, reading, at, length), phrase);
        }

        remove(slot) {
            u32(slot, "slot");
            this.#change(READY, () => exports.fuzzy_board_remove_in(lengths, keys, state, slot));
        }

        again(now) {
            const numbers = momentNumbers(now, "now");
            this.#change(BOARD_SIZE,
                () => exports.fuzzy_board_again_in(ready, lengths, keys, state, room.putNumbers(base + GIVEN, numbers)));
        }

        head() {
            const slot = checked(this.#ask(READY, () => exports.fuzzy_board_head_in(keys, state, base + NUMBERS)));
            return { slot, moment: room.moment(base + NUMBERS) };
        }

        order() {
            const count = checked(this.#ask(READY, () => exports.fuzzy_board_order_in(keys, state, base + TEXT)));
            return room.numbers(base + TEXT, count);
        }
    };
}

function temporalCalls({ fromISO, toISO }) {
    function toTemporal(moment) {
        if (globalThis.Temporal === undefined) throw new TypeError("this engine has no Temporal");
        return globalThis.Temporal.PlainDateTime.from(toISO(moment));
    }

    function fromTemporal(moment) {
        const kind = shown(moment);
        if (kind !== "Temporal.PlainDateTime") throw new TypeError(`moment is not a Temporal.PlainDateTime: ${kind}`);
        return fromISO(toISO(moment));
    }

    return { toTemporal, fromTemporal };
}

// --- loading

async function bytesAt(url) {
    if (url.protocol === "file:" && globalThis.process?.versions?.node !== undefined) {
        const files = "node:fs/promises"; // in a variable, so that bundlers leave it alone
        const { readFile } = await import(/* webpackIgnore: true */ /* @vite-ignore */ files);
        return readFile(url);
    }
    return bytesOfResponse(await fetch(url));
}

async function bytesOfResponse(response) {
    if (!response.ok) throw new Error(`fuzzydate.wasm was not loaded: ${response.status} ${response.url}`);
    return response.arrayBuffer();
}

// The module compiled: from a module, a URL, a Response or bytes; without a source it is fuzzydate.wasm beside this file.
async function compiled(source = new URL("./fuzzydate.wasm", import.meta.url)) {
    if (typeof WebAssembly === "undefined") {
        throw new Error("this engine has no WebAssembly: in React Native take the Java and Swift bindings");
    }
    const given = await source;
    if (given instanceof WebAssembly.Module) return given;
    if (typeof given === "string") return WebAssembly.compile(await bytesAt(new URL(given, globalThis.document?.baseURI)));
    if (given instanceof URL) return WebAssembly.compile(await bytesAt(given));
    if (typeof Response !== "undefined" && given instanceof Response) return WebAssembly.compile(await bytesOfResponse(given));
    return WebAssembly.compile(given);
}

// The library's version as text. Another major version has other calls.
function versionOf(exports) {
    if (exports.fuzzy_version === undefined) throw new TypeError("this is not fuzzydate.wasm of version 1.0.0 or later");
    const number = exports.fuzzy_version();
    const version = [number / 1e6, (number / 1000) % 1000, number % 1000].map(Math.floor).join(".");
    if (!version.startsWith("1.")) throw new TypeError(`fuzzydate.wasm is of version ${version}, and this module needs 1`);
    return version;
}

export async function load(source) {
    const { exports } = await WebAssembly.instantiate(await compiled(source), {});
    const version = versionOf(exports), room = new Room(exports), stamps = stampCalls(room), { calls } = stamps;
    return Object.freeze({
        version, ...calls, ...temporalCalls(calls), ...phraseCalls(room, stamps), ...ruleCalls(room, stamps), ...zoneCalls(room, stamps),
        Board: boardClass(room, stamps),
    });
}
