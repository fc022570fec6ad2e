// The module's functions, its refusals and every wrong argument: node --test every.mjs, after bindings/js/build. FUZZYDATE_JS
// names the folder of the module where it is another.
import assert from "node:assert/strict";
import { readFileSync } from "node:fs";
import { test } from "node:test";
import { pathToFileURL } from "node:url";
import vm from "node:vm";
import { linesOf, lineOf, root } from "./lent.mjs";

const folder = process.env.FUZZYDATE_JS ? pathToFileURL(`${process.env.FUZZYDATE_JS}/`) : new URL("target/bindings/js/package/", root);
const { load, Reading, Refusal, REASONS } = await import(new URL("fuzzydate.mjs", folder));
const fuzzy = await load();
const { read, toISO } = fuzzy;
const fileOf = (name) => readFileSync(new URL(name, root));
const newYork = new Uint8Array(fileOf("bindings/zones/New_York"));
const now = { year: 2026, month: 2, day: 11, hour: 9, minute: 30, second: 15, millisecond: 0 };

// The refusal that a call throws, which must have that number.
function refusal(number, call) {
    try {
        call();
    } catch (error) {
        assert.ok(error instanceof Refusal && error instanceof Error, String(error));
        assert.equal(error.number, number, error.message);
        assert.deepEqual({ reason: error.reason, words: error.words }, REASONS[number]);
        return error;
    }
    return assert.fail(`no refusal ${number}`);
}

// A call with a wrong argument: a TypeError or RangeError that names it.
function wrong(name, call) {
    assert.throws(call, (error) => {
        assert.ok(error instanceof TypeError || error instanceof RangeError, String(error));
        assert.ok(error.message.startsWith(name), `${name}: ${error.message}`);
        return true;
    });
}

test("what the header and VERSION say is what the module says", () => {
    const header = fileOf("include/fuzzy.h").toString(), version = fileOf("VERSION").toString().trim();
    const names = [...header.matchAll(/^ {4}FUZZY_([A-Z_]+) = (\d+),? +\/\*/gm)].map(([, name, number]) => [Number(number), name]);
    const words = [...header.matchAll(/^ {4}case (?:0|FUZZY_[A-Z_]+): return "(.*)";$/gm)].map(([, text]) => text);
    assert.deepEqual(names, REASONS.map(({ reason }, number) => [number, reason]).slice(1));
    assert.deepEqual(words, REASONS.map((each) => each.words));
    assert.deepEqual(header.match(/FUZZY_(FIRST|SECOND) = \d/g), [`FUZZY_FIRST = ${Reading.FIRST}`, `FUZZY_SECOND = ${Reading.SECOND}`]);
    assert.equal(header.match(/default: return "(.*)";/)[1], new Refusal(27, 0, 0).words);
    const { version: packaged } = JSON.parse(readFileSync(new URL("package.json", folder)));
    assert.deepEqual([fuzzy.version, packaged], [version, version]);
});

test("phrases and ready phrases", () => {
    assert.equal(toISO(read(Reading.FIRST, "next friday at 3 pm", now)), "2026-02-20T15:00:00");
    assert.equal(toISO(read(1, new TextEncoder().encode("next friday at 3 pm"), "2026-02-11T09:30:15")), "2026-02-20T15:00:00");
    assert.equal(toISO(read(1, Buffer.from("now"), now)), "2026-02-11T09:30:15");
    assert.equal(toISO(fuzzy.run(fuzzy.makeReady(2, "tuesday in two weeks"), now)), "2026-03-03T09:30:15");
    assert.equal(toISO(read(1, "an hour ago", { ...now, millisecond: 7 })), "2026-02-11T08:30:15.007");
    assert.equal(toISO(read(1, "now", { year: 2026, month: 3, day: 4 })), "2026-03-04T00:00:00");
    assert.equal(fuzzy.writePhrase({ year: 2026, month: 3, day: 4, hour: 9, minute: 5 }), "march 4 2026 at 9:05");
    assert.equal(fuzzy.findWord(2, "Friday").code, fuzzy.findWord(1, "friday").code);
    assert.ok(fuzzy.findWord(2, "friday").comparisons <= 8);
    assert.equal(fuzzy.findWord(1, "forty").code, null);
    assert.equal(fuzzy.findWord(2, "").code, null);
    assert.equal(fuzzy.makeReady(1, "tuesday 1 year and 2 weeks ago at 5:30 pm").length, 80);
});

test("stamps and ISO text", () => {
    assert.deepEqual(fuzzy.readStamp("2026-02-11t09:30:15-05:00"), { moment: now, offset: -300 });
    const texts = ["2026-02-11T09:30:15Z", "2026-02-11T09:30:15.250+05:30", "2026-02-11T09:30:15-00:00", "0001-01-01T00:00:00-23:59"];
    for (const text of texts) assert.equal(fuzzy.writeStamp(fuzzy.readStamp(text)), text);
    assert.equal(fuzzy.readStamp("2026-02-11T09:30:15-00:00").offset, null);
    assert.equal(fuzzy.writeStamp({ moment: "2026-02-11T09:30:15", offset: -0 }), "2026-02-11T09:30:15Z");
    assert.deepEqual(fuzzy.fromISO("2026-02-11T09:30:15"), now);
    assert.equal(toISO("2026-02-11t09:30:15.5"), "2026-02-11T09:30:15.500");
    assert.equal(toISO({ year: 1, month: 1, day: 1 }), "0001-01-01T00:00:00");
    refusal(8, () => toISO({ ...now, month: 13 }));
    refusal(14, () => fuzzy.fromISO("2026-02-30T00:00:00"));
    refusal(14, () => fuzzy.readStamp("2026-02-30T00:00:00Z"));
    refusal(12, () => fuzzy.readStamp("0000-01-01T00:00:00Z"));
    refusal(14, () => fuzzy.writeStamp({ moment: now, offset: 1440 }));
    refusal(14, () => fuzzy.writeStamp({ moment: now, offset: -0xffff_ffff }));
    refusal(16, () => fuzzy.writePhrase(now));
});

test("rules", () => {
    const rule = "FREQ=WEEKLY;INTERVAL=2;BYDAY=TU", start = "2026-02-10T09:30:00";
    assert.deepEqual(fuzzy.occurrences(rule, start, 3).map((moment) => moment.day), [10, 24, 10]);
    assert.deepEqual(fuzzy.occurrences(rule, start, 0), []);
    for (const most of [1, 63, 64, 65, 511, 512, 513]) assert.equal(fuzzy.occurrences(rule, start, most).length, most);
    assert.equal(fuzzy.occurrences("FREQ=DAILY;COUNT=64", start, 0xffff_ffff).length, 64);
    assert.equal(fuzzy.occurrences("FREQ=DAILY", "0001-01-01T00:00:00", 0xffff_ffff).length, 3_652_059);
    assert.equal(toISO(fuzzy.next(rule, start, now)), "2026-02-24T09:30:00");
    assert.equal(toISO(fuzzy.next(rule, start, "2027-02-10T00:00:00")), "2027-02-23T09:30:00");
    refusal(18, () => fuzzy.occurrences("FREQ=HOURLY", now, 1));
    refusal(18, () => fuzzy.occurrences(`FREQ=DAILY;COUNT=${"0".repeat(100_000)}x`, now, 1));
    assert.equal(fuzzy.occurrences(`FREQ=DAILY;COUNT=${"0".repeat(100_000)}3`, now, 9).length, 3);
    refusal(19, () => fuzzy.next("FREQ=WEEKLY;BYDAY=TU", now, now));
    refusal(20, () => fuzzy.next("FREQ=DAILY;COUNT=1", now, { ...now, day: 12 }));
});

test("zones", () => {
    const second = 1_772_892_000, text = "2026-03-07T14:00:00Z";
    const instants = [text, "2026-03-07T09:00:00-05:00", new Date(text), { second }, { second: BigInt(second), millisecond: 0 },
        vm.runInNewContext(`new Date("${text}")`)];
    for (const instant of instants) {
        const local = fuzzy.readInZone(1, "1 day from now", newYork, instant);
        assert.deepEqual([toISO(local.moment), local.offset, local.second], ["2026-03-08T10:00:00", -14_400, 1_772_978_400]);
        assert.equal(local.date.toISOString(), "2026-03-08T14:00:00.000Z");
        assert.deepEqual(fuzzy.runInZone(fuzzy.makeReady(1, "1 day from now"), newYork, instant), local);
    }
    const precise = fuzzy.readInZone(1, "now", newYork, { second, millisecond: 7 });
    assert.deepEqual(fuzzy.readInZone(1, "now", newYork, precise), precise);
    assert.equal(precise.date.getTime(), 1000 * second + 7);
    assert.equal(fuzzy.readInZone(1, "now", newYork, new Date(1000 * second + 7)).millisecond, 7);
    const past = fuzzy.readInZone(1, "now", newYork, new Date("1066-10-14T09:00:00.250Z"));
    assert.deepEqual([past.second, past.millisecond, past.date.toISOString()], [-28_502_722_800, 250, "1066-10-14T09:00:00.250Z"]);
    refusal(23, () => fuzzy.readInZone(1, "today 2:00", newYork, "2026-03-08T06:30:00Z"));
    refusal(22, () => fuzzy.readInZone(1, "today", newYork, { second: 2n ** 63n - 1n }));
    refusal(8, () => fuzzy.readInZone(1, "today", newYork, { second: -(2n ** 63n) }));
    refusal(8, () => fuzzy.readInZone(1, "today", newYork, { second, millisecond: 1000 }));
    refusal(21, () => fuzzy.readInZone(1, "today", new Uint8Array(), { second: 0 }));
    refusal(21, () => fuzzy.readInZone(1, "today", new Uint8Array(1_000_000), { second: 0 }));
    assert.equal(refusal(2, () => fuzzy.readInZone(1, "on christmas", newYork, text)).part, "christmas");
});

test("boards", () => {
    const board = new fuzzy.Board(now), other = new fuzzy.Board(now);
    refusal(26, () => board.head());
    assert.deepEqual([board.add(1, "friday at 3 pm"), board.add(1, "noon"), board.add(1, "february 30")], [0, 1, 2]);
    assert.deepEqual(board.head(), { slot: 1, moment: { ...now, hour: 12, minute: 0, second: 0 } });
    assert.deepEqual([board.order(), other.order()], [[1, 0, 2], []]);
    board.again("2026-02-14T16:00:00");
    assert.equal(toISO(board.head().moment), "2026-02-14T12:00:00");
    board.remove(1);
    refusal(25, () => board.remove(1));
    refusal(25, () => board.remove(256));
    refusal(25, () => board.remove(0xffff_ffff));
    refusal(8, () => board.again({ ...now, month: 13 }));
    refusal(8, () => new fuzzy.Board({ ...now, month: 13 }));
    assert.equal(refusal(2, () => board.add(1, "christmas")).part, "christmas");
    assert.deepEqual(board.order(), [0, 2]);
    for (let i = 0; i < 254; i += 1) board.add(2, "now");
    refusal(24, () => board.add(1, "now"));
    refusal(1, () => board.add(1, "x".repeat(500_000)));
    assert.equal(board.order().length, 256);
});

test("a refusal's place in bytes and in UTF-16 units, and its text", () => {
    const tree = refusal(2, () => read(2, "next 🎄 friday", now));
    assert.deepEqual([tree.reason, tree.place, tree.length, tree.index, tree.width, tree.part], ["UNKNOWN", 5, 1, 5, 2, "🎄"]);
    const late = refusal(2, () => read(2, "friday christmas", now));
    assert.deepEqual([late.place, late.length, late.index, late.width, late.part, late.name], [7, 9, 7, 9, "christmas", "Refusal"]);
    assert.equal(String(late), "Refusal: not understood\n    friday christmas\n           ^^^^^^^^^");
    assert.equal(tree.message, "not understood\n    next 🎄 friday\n         ^");
    const bytes = refusal(2, () => read(2, new Uint8Array([0xff]), now));
    assert.deepEqual([bytes.part, bytes.message], [new Uint8Array([0xff]), "not understood at byte 0"]);
    assert.equal(refusal(1, () => read(2, "x".repeat(300), now)).reason, "TOO_LONG");
    assert.equal(refusal(1, () => read(2, "x".repeat(1_000_000), now)).reason, "TOO_LONG");
    assert.equal(refusal(1, () => read(2, "ß".repeat(129), now)).message, "longer than 256 bytes");
    refusal(15, () => read(3, "now", now));
    refusal(15, () => read(3, "x".repeat(300), now));
    refusal(8, () => read(1, "now", { ...now, year: 0xffff_ffff }));
    refusal(9, () => fuzzy.run(new Uint8Array(15), now));
    refusal(5, () => fuzzy.makeReady(1, ""));
});

test("places of every character and byte, beside a slow count", () => {
    const text = "aß€🎄\u0000z", ends = [...text].map((_, i, all) => all.slice(0, i + 1).join(""));
    const slow = (place) => ends.find((end) => Buffer.byteLength(end) > place);
    for (let place = 0; place < Buffer.byteLength(text); place += 1) {
        for (let length = 1; place + length <= Buffer.byteLength(text); length += 1) {
            const { index, width, part } = new Refusal(2, place, length, text), end = slow(place + length - 1).length;
            const begin = slow(place).length - [...slow(place)].at(-1).length;
            assert.deepEqual([index, width, part], [begin, end - begin, text.slice(begin, end)]);
        }
    }
    assert.deepEqual([new Refusal(2, 3, 0, text).index, new Refusal(2, 99, 0, text).index], [2, text.length]);
    const long = `${"ß".repeat(300)}christmas`;
    assert.deepEqual([new Refusal(2, 600, 9, long).index, new Refusal(2, 600, 9, long).part], [300, "christmas"]);
});

test("a refusal of a newer library is carried", () => {
    const { number, reason, words, message } = new Refusal(27, 0, 3, "now");
    assert.deepEqual([number, reason, words], [27, null, "a refusal of a newer library"]);
    assert.equal(message, "a refusal of a newer library: 27\n    now\n    ^^^");
});

test("a refusal has no stack, and leaves Error as it was", () => {
    const before = Error.stackTraceLimit;
    assert.equal(refusal(5, () => read(1, "", now)).stack, "Refusal: no date or time in it");
    assert.equal(Error.stackTraceLimit, before);
    assert.ok(new Error("any").stack.includes("every.mjs"));
    Object.defineProperty(Error, "stackTraceLimit", { value: before, writable: false, configurable: true });
    try {
        refusal(5, () => read(1, "", now));
    } finally {
        Object.defineProperty(Error, "stackTraceLimit", { value: before, writable: true, configurable: true });
    }
});

const NO_NUMBERS = [undefined, null, NaN, 1.5, -1, 2 ** 32, Infinity, -Infinity, "1", 1n, {}, [], true, Symbol("s"), Object.create(null),
    () => 1];
const NO_TEXTS = [undefined, null, NaN, 1, 1n, {}, [], true, Symbol("s"), new ArrayBuffer(3), new Uint16Array(3), ["now"]];
const NO_MOMENTS = [undefined, null, NaN, 1, 1n, {}, [], true, Symbol("s"), new Date(), new Map(), [2026, 2, 11]];

test("wrong numbers", () => {
    for (const value of NO_NUMBERS) {
        wrong("reading is not", () => read(value, "now", now));
        wrong("reading is not", () => fuzzy.makeReady(value, "now"));
        wrong("reading is not", () => fuzzy.findWord(value, "now"));
        wrong("reading is not", () => fuzzy.readInZone(value, "now", newYork, { second: 0 }));
        wrong("reading is not", () => new fuzzy.Board(now).add(value, "now"));
        wrong("slot is not", () => new fuzzy.Board(now).remove(value));
        wrong("most is not", () => fuzzy.occurrences("FREQ=DAILY", now, value));
        for (const part of Object.keys(now)) {
            if (value === undefined && !["year", "month", "day"].includes(part)) continue;
            wrong(`now.${part} is not`, () => read(1, "now", { ...now, [part]: value }));
        }
        if (value !== -1 && value !== null) wrong("offset is not", () => fuzzy.writeStamp({ moment: now, offset: value }));
        const at = (instant) => () => fuzzy.readInZone(1, "now", newYork, instant);
        if (value !== undefined) wrong("now.millisecond is not", at({ second: 0, millisecond: value }));
        if (![-1, 2 ** 32, 1n].includes(value)) wrong("now.second is not", at({ second: value }));
    }
    for (const second of [2n ** 63n, -(2n ** 63n) - 1n]) wrong("now.second has", () => fuzzy.readInZone(1, "now", newYork, { second }));
    wrong("offset is not", () => fuzzy.writeStamp({ moment: now, offset: -(2 ** 32) }));
});

test("wrong texts and bytes", () => {
    const ready = fuzzy.makeReady(1, "now");
    for (const value of NO_TEXTS) {
        wrong("phrase is not", () => read(1, value, now));
        wrong("phrase is not", () => fuzzy.makeReady(1, value));
        wrong("phrase is not", () => new fuzzy.Board(now).add(1, value));
        wrong("word is not", () => fuzzy.findWord(1, value));
        wrong("rule is not", () => fuzzy.next(value, now, now));
        wrong("text is not", () => fuzzy.readStamp(value));
        wrong("text is not", () => fuzzy.fromISO(value));
    }
    for (const value of [...NO_TEXTS, "now"]) {
        wrong("ready is not", () => fuzzy.run(value, now));
        wrong("ready is not", () => fuzzy.runInZone(value, newYork, { second: 0 }));
        wrong("zone is not", () => fuzzy.runInZone(ready, value, { second: 0 }));
    }
    for (const text of ["\ud800", "now \udc00", "\udc00\ud800", "🎄\ud83c"]) {
        wrong("phrase has a lone surrogate", () => read(1, text, now));
        wrong("rule has a lone surrogate", () => fuzzy.occurrences(text, now, 1));
        wrong("now has a lone surrogate", () => read(1, "now", text));
    }
});

test("wrong moments and instants", () => {
    for (const value of NO_MOMENTS) {
        wrong("now", () => read(1, "now", value));
        wrong("start", () => fuzzy.next("FREQ=DAILY", value, now));
        wrong("asked", () => fuzzy.next("FREQ=DAILY", now, value));
        wrong("moment", () => toISO(value));
        wrong("now", () => new fuzzy.Board(value));
        if (!(value instanceof Date)) wrong("now", () => fuzzy.readInZone(1, "now", newYork, value));
    }
    for (const text of ["2026-02-11T09:30:15Z", "2026-02-11T09:30:15z", "2026-02-11T09:30:15+01:00", "2026-02-11T09:30:15.250-0500"]) {
        wrong("now has an offset", () => read(1, "now", text));
    }
    wrong("now has parts of a millisecond", () => read(1, "now", { ...now, microsecond: 1 }));
    wrong("now is an invalid Date", () => fuzzy.readInZone(1, "now", newYork, new Date(NaN)));
    wrong("now has the unknown offset", () => fuzzy.readInZone(1, "now", newYork, "2026-02-11T09:30:15-00:00"));
    wrong("now is a moment", () => fuzzy.readInZone(1, "now", newYork, now));
    for (const value of [undefined, null, 1, "2026-02-11T09:30:15Z"]) wrong("stamp is not", () => fuzzy.writeStamp(value));
    refusal(14, () => read(1, "now", "2026-02-11"));
    refusal(14, () => fuzzy.readInZone(1, "now", newYork, "2026-02-11T09:30:15"));
    assert.equal(toISO(read(1, "now", now)), "2026-02-11T09:30:15", "all is as before");
});

const plainDateTime = (more = {}) => Object.assign(Object.create({ [Symbol.toStringTag]: "Temporal.PlainDateTime" }),
    { ...now, microsecond: 0, nanosecond: 0, calendarId: "iso8601", ...more });
const temporal = (kind, more) => Object.assign(Object.create({ [Symbol.toStringTag]: `Temporal.${kind}` }), more);

test("Temporal, by stand-ins", () => {
    assert.equal(toISO(read(1, "tomorrow", plainDateTime())), "2026-02-12T09:30:15");
    assert.deepEqual(fuzzy.fromTemporal(plainDateTime({ millisecond: 5 })), { ...now, millisecond: 5 });
    wrong("now has parts", () => read(1, "now", plainDateTime({ microsecond: 1 })));
    wrong("now has parts", () => read(1, "now", plainDateTime({ nanosecond: 1 })));
    wrong("now is not of the ISO calendar", () => read(1, "now", plainDateTime({ calendarId: "hebrew" })));
    wrong("now is a Temporal.ZonedDateTime", () => read(1, "now", temporal("ZonedDateTime", now)));
    wrong("now is not an instant", () => fuzzy.readInZone(1, "now", newYork, plainDateTime()));
    wrong("now is not an instant", () => fuzzy.readInZone(1, "now", newYork, temporal("ZonedDateTime", { second: 5 })));
    wrong("moment is not a Temporal.PlainDateTime", () => fuzzy.fromTemporal(now));
    const instant = { epochMilliseconds: 1_772_892_000_007, epochNanoseconds: 1_772_892_000_007_000_000n };
    assert.equal(fuzzy.readInZone(1, "now", newYork, temporal("Instant", instant)).millisecond, 7);
    const fine = { ...instant, epochNanoseconds: instant.epochNanoseconds + 1n, toString: () => "text" };
    wrong("now has parts", () => fuzzy.readInZone(1, "now", newYork, temporal("Instant", fine)));
});

test("Temporal, where the engine has it", { skip: globalThis.Temporal === undefined && "no Temporal" }, () => {
    const { PlainDateTime, Instant } = globalThis.Temporal;
    assert.equal(fuzzy.toTemporal(now).toString(), "2026-02-11T09:30:15");
    assert.deepEqual(fuzzy.fromTemporal(PlainDateTime.from("2026-02-11T09:30:15")), now);
    assert.equal(fuzzy.readInZone(1, "now", newYork, Instant.from("2026-03-07T14:00:00Z")).second, 1_772_892_000);
});

test("Temporal, where the engine does not have it", { skip: globalThis.Temporal !== undefined && "Temporal is there" }, () => {
    wrong("this engine has no Temporal", () => fuzzy.toTemporal(now));
});

test("moments and bytes of another window, and what calls back", () => {
    assert.equal(toISO(read(1, vm.runInNewContext("new Uint8Array([110, 111, 119])"), now)), "2026-02-11T09:30:15");
    assert.equal(toISO(read(1, "now", vm.runInNewContext("({ year: 2026, month: 2, day: 11 })"))), "2026-02-11T00:00:00");
    const nosy = { ...now, get millisecond() { return read(2, "tomorrow", "2030-01-01T00:00:00").hour; } };
    assert.equal(toISO(fuzzy.next("FREQ=DAILY", nosy, nosy)), "2026-02-11T09:30:15");
    assert.equal(toISO(read(1, "now", nosy)), "2026-02-11T09:30:15");
});

test("what the module is loaded from", async () => {
    const wasm = readFileSync(new URL("fuzzydate.wasm", folder)), response = new Response(wasm);
    const sources = [wasm, wasm.buffer.slice(wasm.byteOffset, wasm.byteOffset + wasm.length), new WebAssembly.Module(wasm), response,
        Promise.resolve(wasm), new URL("fuzzydate.wasm", folder), String(new URL("fuzzydate.wasm", folder))];
    for (const source of sources) assert.equal(toISO((await load(source)).read(1, "tomorrow", now)), "2026-02-12T09:30:15");
    await assert.rejects(load(new Response("none", { status: 404 })), /was not loaded: 404/);
    await assert.rejects(load("fuzzydate.wasm"), TypeError);
    await assert.rejects(load(new URL("none.wasm", folder)), /none\.wasm/);
    await assert.rejects(load(null), TypeError);
    await assert.rejects(load(Uint8Array.of(0, 97, 115, 109, 1, 0, 0, 0)), /not fuzzydate\.wasm/);
});

// --- the replayed lists, through the module

function said(call) {
    try {
        return call();
    } catch (error) {
        if (!(error instanceof Refusal)) throw error;
        return error;
    }
}

for (const [reading, list] of [[1, "test_replay"], [2, "test_second"]]) {
    test(`the replayed list of reading ${reading}`, () => {
        const answers = linesOf(`crates/${list}/stdout`).map((line) => line.toString("latin1"));
        const lines = linesOf(`crates/${list}/stdin`).map(lineOf);
        lines.forEach(({ now: [year, month, day, hour, minute, second], phrase }, i) => {
            const answer = said(() => read(reading, phrase, { year, month, day, hour, minute, second }));
            const text = answer instanceof Refusal ? `refused ${answer.number} at ${answer.place} to ${answer.place + answer.length}`
                : toISO(answer).replace("T", " ");
            assert.equal(text, answers[i].slice(answers[i].lastIndexOf("|") + 1), phrase.toString("latin1"));
        });
        assert.ok(lines.length > 5000, `${lines.length}`);
    });
}

test("the list of rules", () => {
    const expected = linesOf("crates/test_repeats/stdout").map(String);
    const lines = linesOf("crates/test_repeats/stdin").filter((line) => line.length >= 30);
    lines.forEach((line, i) => {
        const numbers = line.toString("latin1", 0, 30).trim().split(/[-: ]/).map(Number), parts = Object.keys(now);
        const start = Object.fromEntries(parts.map((part, at) => [part, numbers[at]]));
        const answer = said(() => fuzzy.occurrences(line.subarray(30), start, Math.floor(numbers[7] / 7)));
        const rows = answer instanceof Refusal ? [] : answer.map((moment) => `|${parts.map((part) => moment[part]).join(" ")}`);
        const shown = rows.length > 12 ? [...rows.slice(0, 6), ...rows.slice(-6)] : rows;
        assert.equal(`${answer.number ?? 0} ${rows.length}${shown.join("")}|7`, expected[i]);
    });
    assert.ok(lines.length > 2000, `${lines.length}`);
});

test("the calls on boards", () => {
    const expected = linesOf("crates/test_board/stdout").map(String);
    const lines = linesOf("crates/test_board/stdin").filter((line) => line.length > 0);
    const parts = Object.keys(now), numbersOf = (moment) => parts.map((part) => moment[part]);
    let board = null;
    const calls = {
        M: (text) => { board = new fuzzy.Board(momentOf(text)); },
        N: (text) => board.again(momentOf(text)),
        R: (text) => board.remove(Number(text)),
        H: () => { const { slot, moment } = board.head(); return [slot, ...numbersOf(moment)]; },
        O: () => { const order = board.order(); return [order.length, ...order, ...(order.length < 256 ? [7] : [])]; },
    };
    const momentOf = (text) => Object.fromEntries(text.split(/[-: ]/).map((number, i) => [parts[i], Number(number)]));
    lines.forEach((line, i) => {
        const text = line.toString("latin1", 2), add = () => [board.add(line[0] - 48, line.subarray(2))];
        const answer = said(() => (calls[String.fromCharCode(line[0])] ?? add)(text)), sevens = line[0] === 72 ? [7, 7, 7, 7, 7, 7, 7] : [];
        const shown = answer instanceof Refusal ? [answer.number, answer.place, answer.length, ...sevens] : [0, 0, ...(answer ?? [0])];
        assert.equal(shown.join(" "), expected[i], String(line));
    });
    assert.ok(lines.length > 2000, `${lines.length}`);
});
