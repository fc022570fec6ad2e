// The digests of bindings/c (digest, rules, zones, boards) out of the WebAssembly: node digests.mjs WASM KIND [COUNT], where
// KIND is 1 or 2 for a reading, or rules, zones or boards. Prints the line that the C program prints, which goes with the same
// lists, random numbers and checks. Where C has a fence, there is a pattern beside each buffer: nothing else may be written.
// Of an assignment that draws a place and a value the value comes first, as it does in C by gcc.
import { readFileSync } from "node:fs";
import { add, addNumber, digest, lengthOf, lineOf, linesOf, Memory, numberOf, placeOf, randomBelow, root, stop } from "./lent.mjs";

const NUMBERS = 7, MOMENT_SIZE = 28, LOCAL_SIZE = 36, READY_SIZE = 384;
const isOk = (answer) => (answer & 0xffffn) === 0n;
const putAnywhere = (array, n, value) => { array[randomBelow(n)] = value; };
const same = (a, b) => a.length === b.length && a.every((value, i) => value === b[i]);

function opened(file) {
    const { exports } = new WebAssembly.Instance(new WebAssembly.Module(readFileSync(file)), {});
    return { exports, memory: new Memory(exports.memory, 2 ** 20) };
}

// --- phrases

function phraseDriver(file, reading) {
    const { exports, memory } = opened(file);
    const phrases = memory.field(2049), nows = memory.field(MOMENT_SIZE), moments = memory.field(MOMENT_SIZE);
    const readies = memory.field(READY_SIZE), lines = [];
    let read = 0;

    // A buffer may hold a moment where the call succeeded, and else nothing new.
    function addMoment(answer, moment) {
        const written = isOk(answer) ? MOMENT_SIZE : 0;
        if (!memory.keptBut(moment, MOMENT_SIZE, written)) stop("something else than the moment was written");
        addNumber(answer);
        memory.add(moment, written);
    }

    function runAt(ready, length, now, isUpper) {
        const moment = memory.lend(moments, MOMENT_SIZE, isUpper);
        const answer = exports.fuzzy_run(ready, BigInt(length), now, moment);
        addMoment(answer, moment);
        return [answer, memory.numbers(moment, NUMBERS)];
    }

    function readAt(phrase, n, now, isUpper) {
        const moment = memory.lend(moments, MOMENT_SIZE, isUpper);
        const answer = exports.fuzzy_read(reading, phrase, BigInt(n), now, moment);
        addMoment(answer, moment);
        return [answer, memory.numbers(moment, NUMBERS)];
    }

    function madeReady(phrase, bytes, n, isUpper) {
        const ready = memory.lend(readies, READY_SIZE, isUpper);
        const made = exports.fuzzy_make_ready(reading, phrase, BigInt(n), ready);
        if (!memory.unchanged(phrase, bytes, n)) stop("a phrase was changed");
        const length = isOk(made) ? lengthOf(made) : 0;
        if (!memory.keptBut(ready, READY_SIZE, length)) stop("something else than the ready phrase was written");
        addNumber(made);
        memory.add(ready, length);
        return [made, ready, length];
    }

    // Runs what was made ready, and once more with a byte changed.
    function runTwice(ready, length, now, isUpper, answer, moment) {
        const at = isUpper ? ready + READY_SIZE - length : ready;
        memory.bytes.copyWithin(at, ready, ready + length);
        const [ran, again] = runAt(at, length, now, isUpper);
        if (ran !== answer || !same(again, moment)) stop("running gives something else than reading");
        const change = 1 + randomBelow(255);
        memory.bytes[at + randomBelow(length)] ^= change;
        runAt(at, length - randomBelow(2), now, isUpper);
    }

    // A phrase keeps now's second and millisecond, or it states a time: then both are 0.
    function checkSeconds(now, moment) {
        const kept = moment[5] === now[5] && moment[6] === now[6], stated = moment[5] === 0 && moment[6] === 0;
        if (!kept && !stated) stop("second and millisecond are neither now's nor 0");
    }

    // One phrase at one now, by all three functions.
    function answered(bytes, n, numbers) {
        const isUpper = randomBelow(2) === 1, phrase = memory.lendCopy(phrases, bytes, n, isUpper);
        const now = memory.putNumbers(memory.lend(nows, MOMENT_SIZE, isUpper), numbers);
        const [answer, moment] = readAt(phrase, n, now, isUpper);
        if (isOk(answer)) checkSeconds(numbers, moment);
        const [made, ready, length] = madeReady(phrase, bytes, n, isUpper);
        if (length > 0) runTwice(ready, length, now, isUpper, answer, moment);
        else if (made !== answer) stop("making ready refuses otherwise than reading");
        if (!same(memory.numbers(now, NUMBERS), numbers)) stop("a now was changed");
        return [answer, moment];
    }

    // The answer as the replayed list has it, after the last bar of its line, without milliseconds.
    function compare(expected, answer, [year, month, day, hour, minute, second]) {
        const two = (n) => String(n).padStart(2, "0"), place = placeOf(answer);
        const date = `${String(year).padStart(4, "0")}-${two(month)}-${two(day)}`;
        const text = isOk(answer) ? `${date} ${two(hour)}:${two(minute)}:${two(second)}`
            : `refused ${numberOf(answer)} at ${place} to ${place + lengthOf(answer)}`;
        if (expected.slice(expected.lastIndexOf("|") + 1) !== text) stop(`an answer of the list: ${expected} is ${text}`);
    }

    function replay(list, answers) {
        const expected = linesOf(answers).map((line) => line.toString("latin1"));
        linesOf(list).forEach((bytes, i) => {
            const line = lineOf(bytes);
            lines.push(line);
            const [answer, moment] = answered(line.phrase, line.phrase.length, line.now);
            if (isOk(answer)) read += 1;
            compare(expected[i], answer, moment);
        });
    }

    const phrase = Buffer.alloc(2049), CHANGES = Buffer.from("0123456789 -,:/.");

    // A phrase that begins as one of the list and ends as another, with up to three bytes changed.
    function randomPhrase() {
        const a = lines[randomBelow(lines.length)].phrase, b = lines[randomBelow(lines.length)].phrase;
        const begin = a.length === 0 || randomBelow(2) === 0 ? a.length : randomBelow(a.length);
        const rest = b.length === 0 || randomBelow(2) === 0 ? 0 : randomBelow(b.length);
        const changes = randomBelow(4);
        let n = a.copy(phrase, 0, 0, begin);
        if (begin < a.length || randomBelow(4) === 0) {
            phrase[n] = 32;
            n += 1 + b.copy(phrase, n + 1, b.length - rest);
        }
        for (let i = 1; i < changes && n > 0; i += 1) putAnywhere(phrase, n, CHANGES[randomBelow(16)]);
        if (randomBelow(16) === 0 && n > 0) putAnywhere(phrase, n, randomBelow(256));
        return n;
    }

    const MOST = [9999, 12, 28, 24, 60, 60, 1000];

    // Mostly a moment of the calendar, at times any numbers.
    function randomNow() {
        const now = MOST.map((most, i) => randomBelow(most) + (i < 3 ? 1 : 0));
        if (randomBelow(8) === 0) now[2] = 29 + randomBelow(3);
        if (randomBelow(32) === 0) putAnywhere(now, NUMBERS, randomBelow(2 ** 32));
        return now;
    }

    return (count) => {
        const name = reading === 1 ? "test_replay" : "test_second";
        replay(`crates/${name}/stdin`, `crates/${name}/stdout`);
        for (let i = 0; i < count; i += 1) {
            const n = randomPhrase();
            if (isOk(answered(phrase, n, randomNow())[0])) read += 1;
        }
        return `reading ${reading}: ${lines.length} listed and ${count} random phrases, ${read} moments`;
    };
}

// --- rules

function ruleDriver(file) {
    const HEAD = 30, MOST_RULE = 512, MOST_NUMBERS = 7168;
    const { exports, memory } = opened(file);
    const rules = memory.field(MOST_RULE), starts = memory.field(MOMENT_SIZE), asks = memory.field(MOMENT_SIZE);
    const rows = memory.field(4 * MOST_NUMBERS), nexts = memory.field(MOMENT_SIZE), listings = [];
    let listed = 0, found = 0;

    function lendRule({ rule, start }, isUpper) {
        const at = memory.lendCopy(rules, rule, rule.length, isUpper);
        return [at, memory.putNumbers(memory.lend(starts, MOMENT_SIZE, isUpper), start)];
    }

    function checkRule({ rule, start }, at, from) {
        if (!memory.unchanged(at, rule, rule.length)) stop("a rule was changed");
        if (!same(memory.numbers(from, NUMBERS), start) || !memory.keptBut(from, MOMENT_SIZE, MOMENT_SIZE)) stop("a start was changed");
    }

    // Lists a rule: the answer, and where its rows are.
    function answered(listing) {
        const isUpper = randomBelow(2) === 1, [rule, start] = lendRule(listing, isUpper), size = 4 * listing.room;
        const moments = memory.lend(rows, size, isUpper);
        const answer = exports.fuzzy_list_in(rule, BigInt(listing.rule.length), start, moments, BigInt(listing.room));
        const count = isOk(answer) ? lengthOf(answer) : 0, written = MOMENT_SIZE * count;
        checkRule(listing, rule, start);
        if (written > size || !memory.keptBut(moments, size, written)) stop("something else than rows was written");
        addNumber(answer);
        memory.add(moments, written);
        listed += count;
        return [answer, count, moments];
    }

    // Asks a rule: the answer, and the moment that comes next.
    function asked(listing, numbers) {
        const isUpper = randomBelow(2) === 1, [rule, start] = lendRule(listing, isUpper);
        const at = memory.putNumbers(memory.lend(asks, MOMENT_SIZE, isUpper), numbers), moment = memory.lend(nexts, MOMENT_SIZE, isUpper);
        const answer = exports.fuzzy_next(rule, BigInt(listing.rule.length), start, at, moment), written = isOk(answer) ? MOMENT_SIZE : 0;
        checkRule(listing, rule, start);
        if (!memory.keptBut(moment, MOMENT_SIZE, written)) stop("something else than a moment was written");
        addNumber(answer);
        memory.add(moment, written);
        found += isOk(answer) ? 1 : 0;
        return [answer, memory.numbers(moment, NUMBERS)];
    }

    // Asks at a row that was listed, which is then the answer, and at the start of another line, which may be no moment.
    function ask(listing, [, count, moments]) {
        if (count > 0) {
            const row = memory.numbers(moments + MOMENT_SIZE * randomBelow(count), NUMBERS), [answer, next] = asked(listing, row);
            if (!isOk(answer) || !same(next, row)) stop("a listed row does not come next at itself");
        }
        asked(listing, listings[randomBelow(listings.length)].start);
    }

    // The answer as the list has it: number, count, the first six rows and the last six.
    function compare(expected, [answer, count, moments]) {
        let text = `${numberOf(answer)} ${count}`;
        for (let i = 0; i < count; i += 1) {
            if (i < 6 || count - i <= 6) text += `|${memory.numbers(moments + MOMENT_SIZE * i, NUMBERS).join(" ")}`;
        }
        if (expected !== `${text}|7`) stop(`an answer of the list: ${expected} is ${text}|7`);
    }

    function replay(list, answers) {
        const expected = linesOf(answers).map((line) => line.toString("latin1"));
        for (const bytes of linesOf(list)) {
            if (bytes.length < HEAD) continue;
            const numbers = bytes.toString("latin1", 0, HEAD).trim().split(/[-: ]/).map(Number);
            const listing = { start: numbers.slice(0, NUMBERS), room: numbers[NUMBERS], rule: bytes.subarray(HEAD) };
            const answer = answered(listing);
            compare(expected[listings.length], answer);
            listings.push(listing);
            ask(listing, answer);
        }
        if (listings.length !== expected.length) stop("too few lines");
    }

    const CHANGES = Buffer.from("0123456789;,=+TZ");

    function nextPart(rule, from) {
        const at = rule.indexOf(59, from);
        return at < 0 ? rule.length : at;
    }

    // A rule that begins as one of the list and at a place between two parts goes on as another, at times with a byte
    // changed; from a start of the list on, with room for up to 12 rows.
    function randomListing() {
        const a = listings[randomBelow(listings.length)].rule, b = listings[randomBelow(listings.length)].rule;
        const first = randomBelow(a.length + 1), second = randomBelow(b.length + 1);
        const begin = nextPart(a, first);
        let rest = nextPart(b, second);
        const { start } = listings[randomBelow(listings.length)], room = randomBelow(12 * NUMBERS + 1);
        if (begin + b.length - rest > MOST_RULE) rest = b.length;
        const rule = Buffer.concat([a.subarray(0, begin), b.subarray(rest)]);
        if (rule.length > 0 && randomBelow(4) === 0) putAnywhere(rule, rule.length, CHANGES[randomBelow(16)]);
        return { start, room, rule };
    }

    return (count) => {
        replay("crates/test_repeats/stdin", "crates/test_repeats/stdout");
        for (let i = 0; i < count; i += 1) {
            const listing = randomListing();
            ask(listing, answered(listing));
        }
        return `rules: ${listings.length} listed and ${count} random ones, ${listed} rows, ${found} that come next`;
    };
}

// --- zones

function zoneDriver(file) {
    const { exports, memory } = opened(file), whole = readFileSync(new URL("bindings/zones/New_York", root));
    const phrases = memory.field(1024), zones = memory.field(whole.length), readies = memory.field(READY_SIZE);
    const dues = memory.field(8), locals = memory.field(LOCAL_SIZE), size = BigInt(whole.length);
    const lines = linesOf("crates/test_replay/stdin").map(lineOf), byNumber = Array(32).fill(0), nothing = Buffer.alloc(LOCAL_SIZE);

    // An answer with what was written, which is an instant and what the clocks show then, or nothing.
    function taken(call, isUpper) {
        const due = memory.lend(dues, 8, isUpper), local = memory.lend(locals, LOCAL_SIZE, isUpper), answer = call(due, local);
        const given = isOk(answer);
        if (!memory.keptBut(due, 8, given ? 8 : 0)) stop("something else than the instant was written");
        if (!memory.keptBut(local, LOCAL_SIZE, given ? LOCAL_SIZE : 0)) stop("something else than what the clocks show was written");
        if (!given) return { answer, due: 0n, local: nothing };
        return { answer, due: memory.view.getBigInt64(due, true), local: Buffer.from(memory.bytes.subarray(local, local + LOCAL_SIZE)) };
    }

    const alike = (a, b) => a.answer === b.answer && a.due === b.due && a.local.equals(b.local);

    function readIn(reading, phrase, n, zone, { second, millisecond }, isUpper) {
        return taken((due, local) => exports.fuzzy_read_in_zone(reading, phrase, n, zone, size, second, millisecond, due, local), isUpper);
    }

    // The same by running what is made ready, where that can be; else the refusal is that of making ready.
    function runAgain(reading, phrase, n, zone, { second, millisecond }, isUpper, read) {
        const ready = memory.lend(readies, READY_SIZE, isUpper), made = exports.fuzzy_make_ready(reading, phrase, n, ready);
        if (!isOk(made)) {
            if (read.answer !== made) stop("reading in a zone refuses otherwise than making ready");
            return;
        }
        const length = BigInt(lengthOf(made));
        const run = taken((due, local) => exports.fuzzy_run_in_zone(ready, length, zone, size, second, millisecond, due, local), isUpper);
        if (!alike(run, read)) stop("running in a zone gives something else than reading");
    }

    const nows = memory.field(3);

    // At the instant that was given the clocks show the same.
    function readBack(reading, zone, read, isUpper) {
        const now = memory.lendCopy(nows, Buffer.from("now"), 3, isUpper), millisecond = read.local.readUInt32LE(24);
        const again = readIn(reading, now, 3n, zone, { second: read.due, millisecond }, isUpper);
        if (!alike(again, read)) stop("at the instant that is given the clocks show something else");
    }

    // One phrase at one instant in one zone, by both calls.
    function answered(reading, bytes, changed, now) {
        const isUpper = randomBelow(2) === 1, phrase = memory.lendCopy(phrases, bytes, bytes.length, isUpper);
        const zone = memory.lendCopy(zones, changed, changed.length, isUpper), n = BigInt(bytes.length);
        const read = readIn(reading, phrase, n, zone, now, isUpper);
        runAgain(reading, phrase, n, zone, now, isUpper, read);
        if (isOk(read.answer)) readBack(reading, zone, read, isUpper);
        if (!memory.unchanged(phrase, bytes, bytes.length)) stop("a phrase was changed");
        if (!memory.unchanged(zone, changed, changed.length)) stop("a zone was changed");
        byNumber[numberOf(read.answer) % 32] += 1;
        addNumber(read.answer);
        addNumber(read.due);
        add(read.local);
    }

    // Any second, most often one of few bits.
    function randomSecond() {
        const unit = 1n << BigInt(randomBelow(40)), high = BigInt(randomBelow(2 ** 32));
        return BigInt.asIntN(64, (high << 32n) | BigInt(randomBelow(2 ** 32))) / unit;
    }

    const TRANSITIONS = [1767225600, 1772953200, 1793512800, 1805007600];

    function secondOf(kind) {
        if (kind < 10) return BigInt(TRANSITIONS[randomBelow(4)] - 15_000 + randomBelow(20_000));
        return kind < 15 ? BigInt(randomBelow(4_102_444_800) - 2_208_988_800) : randomSecond();
    }

    // Mostly near a transition of New York's file, else in the years 1900 to 2030, at times any; mostly with milliseconds.
    function randomInstant() {
        const second = secondOf(randomBelow(16));
        return { second, millisecond: randomBelow(randomBelow(32) === 0 ? 2 ** 32 : 1000) };
    }

    // The file, in half of all cases with up to three bytes of its second header and block changed, of any value or by one.
    function randomFile() {
        const changed = Buffer.from(whole), changes = randomBelow(2) === 0 ? 0 : 1 + randomBelow(3), third = Math.floor(whole.length / 3);
        for (let i = 0; i < changes; i += 1) {
            const at = third + randomBelow(whole.length - third);
            changed[at] = randomBelow(2) === 0 ? randomBelow(256) : changed[at] + 1;
        }
        return changed;
    }

    return (count) => {
        for (let i = 0; i < count; i += 1) {
            const { phrase } = lines[randomBelow(lines.length)], changed = randomFile();
            answered(1 + (i % 2), phrase, changed, randomInstant());
        }
        const [instants, none, past, skipped] = [0, 21, 22, 23].map((n) => byNumber[n]);
        return `zones: ${count} phrases, ${instants} instants, ${none} refused with 21, ${past} with 22, ${skipped} with 23`;
    };
}

// --- boards

function boardDriver(file) {
    const SLOTS = 256, LENGTHS = 8 * SLOTS, STATE = LENGTHS + 4 * SLOTS, READY = STATE + 32, SIZE = READY + READY_SIZE * SLOTS;
    const { exports, memory } = opened(file), { bytes, view } = memory;
    const boards = memory.field(SIZE), phrases = memory.field(1024), nows = memory.field(MOMENT_SIZE);
    const moments = memory.field(MOMENT_SIZE), orders = memory.field(4 * SLOTS), before = new Uint8Array(SIZE);
    const NO_DATE = 8, LEFT_OVER = 7, FULL = 24, EMPTY = 25, NOTHING_DUE = 26;
    let board = memory.lend(boards, SIZE, false), calls = 0, refused = 0;
    bytes.fill(0, board, board + SIZE);

    const held = () => bytes.subarray(board, board + SIZE);
    const parts = () => [board + READY, board + LENGTHS, board, board + STATE];
    const lendNow = (now) => memory.putNumbers(memory.lend(nows, MOMENT_SIZE, calls % 2 === 1), now);

    // The board moved to one end of its field or the other, with what it holds.
    function moveBoard() {
        before.set(held());
        board = memory.lend(boards, SIZE, randomBelow(2) === 1);
        bytes.set(before, board);
    }

    // A call: of the board's field only the board is written, and not even that by a refused call or by one that asks.
    function answered(call, asks = false) {
        before.set(held());
        const answer = call(...parts());
        if (!memory.keptBut(board, SIZE, SIZE)) stop("something beside a board was written");
        if ((asks || !isOk(answer)) && Buffer.compare(held(), before) !== 0) stop("a board was written by refusing, or by asking");
        addNumber(answer);
        calls += 1;
        refused += isOk(answer) ? 0 : 1;
        return answer;
    }

    const make = (now) => answered((_, lengths, keys, state) => exports.fuzzy_board_make_in(lengths, state, lendNow(now)));
    const again = (now) => answered((...all) => exports.fuzzy_board_again_in(...all, lendNow(now)));
    const takeOut = (slot) => answered((_, lengths, keys, state) => exports.fuzzy_board_remove_in(lengths, keys, state, slot));

    function putIn(reading, text) {
        const phrase = memory.lendCopy(phrases, text, text.length, randomBelow(2) === 1), n = BigInt(text.length);
        const answer = answered((...all) => exports.fuzzy_board_add_in(...all, reading, phrase, n));
        if (!memory.unchanged(phrase, text, text.length)) stop("a phrase was changed");
        return answer;
    }

    // The head and its moment; sevens where there is none.
    function head() {
        const moment = memory.lend(moments, MOMENT_SIZE, randomBelow(2) === 1);
        const answer = answered((_, lengths, keys, state) => exports.fuzzy_board_head_in(keys, state, moment), true);
        const written = isOk(answer) ? MOMENT_SIZE : 0;
        if (!memory.keptBut(moment, MOMENT_SIZE, written)) stop("something else than a moment was written");
        memory.add(moment, written);
        return [answer, isOk(answer) ? memory.numbers(moment, NUMBERS) : Array(NUMBERS).fill(7)];
    }

    function order() {
        const slots = memory.lend(orders, 4 * SLOTS, randomBelow(2) === 1);
        const answer = answered((_, lengths, keys, state) => exports.fuzzy_board_order_in(keys, state, slots), true);
        const count = lengthOf(answer);
        if (!isOk(answer) || count > SLOTS || !memory.keptBut(slots, 4 * SLOTS, 4 * count)) stop("something else than slots was written");
        memory.add(slots, 4 * count);
        return [answer, memory.numbers(slots, count)];
    }

    function ordered() {
        const [answer, slots] = order();
        return [answer, slots.length < SLOTS ? [...slots, 7] : slots];
    }

    function made(now) {
        moveBoard();
        return make(now);
    }

    // `M` or `N` and a now, `R` and a slot, a digit and a phrase, `H`, `O`: as crates/test_board has it.
    function call(line) {
        const kind = String.fromCharCode(line[0]), text = line.toString("latin1", 2), now = text.split(/[-: ]/).map(Number);
        const [answer, numbers] = { M: () => [made(now), []], N: () => [again(now), []], R: () => [takeOut(Number(text)), []], H: head,
            O: ordered }[kind]?.() ?? [putIn(line[0] - 48, line.subarray(2)), []];
        return [numberOf(answer), placeOf(answer), lengthOf(answer), ...numbers].join(" ");
    }

    function replay(list, answers) {
        const expected = linesOf(answers).map((line) => line.toString("latin1"));
        const lines = linesOf(list).filter((line) => line.length > 0);
        if (lines.length !== expected.length) stop("too few lines");
        lines.forEach((line, i) => {
            const found = call(line);
            if (found !== expected[i]) stop(`an answer of the list: ${line} is ${found}, not ${expected[i]}`);
        });
    }

    const randomKey = () => BigInt(randomBelow(2 ** 53)) * 2048n + BigInt(randomBelow(2048));

    // Memory that no call made: a board of the calls with some numbers of its parts changed, or all of a part.
    function randomMemory() {
        const kind = randomBelow(4), changed = 1 + randomBelow(40);
        if (kind === 0) for (let i = 0; i < SIZE; i += 1) bytes[board + i] = randomBelow(256);
        for (let i = 0; i < changed; i += 1) {
            const key = randomKey();
            view.setBigUint64(board + 8 * randomBelow(SLOTS), key, true);
            const length = kind < 2 ? randomBelow(2 ** 32) : 16 * randomBelow(26);
            view.setUint32(board + LENGTHS + 4 * randomBelow(SLOTS), length, true);
            const change = randomBelow(256);
            bytes[board + READY + randomBelow(READY_SIZE * SLOTS)] ^= change;
        }
        const number = kind === 3 ? 0 : randomBelow(randomBelow(2) === 0 ? 300 : 2 ** 32);
        if (kind !== 3) view.setUint32(board + STATE + 4 * randomBelow(8), number, true);
    }

    const TEXTS = ["next friday", "an hour ago", "a year from now", "2 months before 3 weeks after tomorrow at 5:00", "5/2"]
        .map((text) => Buffer.from(text));
    const allow = (answer, numbers, what) => numbers.includes(numberOf(answer)) || stop(what);

    function checkAdd(text) {
        const answer = putIn(1 + randomBelow(2), text);
        allow(answer, [0, LEFT_OVER, FULL], "adding to any memory");
        if (isOk(answer) && lengthOf(answer) >= SLOTS) stop("a slot of any memory");
    }

    function checkHead() {
        const [answer, moment] = head();
        allow(answer, [0, NOTHING_DUE], "a head of any memory");
        if (lengthOf(answer) >= SLOTS) stop("a head of any memory");
        if (!isOk(answer)) return;
        const now = lendNow(moment), phrase = memory.lendCopy(phrases, Buffer.from("now"), 3, true);
        if (!isOk(exports.fuzzy_read(1, phrase, 3n, now, memory.lend(moments, MOMENT_SIZE, true)))) stop("a head that is no moment");
    }

    function checkOrder() {
        if (order()[1].some((slot) => slot >= SLOTS)) stop("an order of any memory");
    }

    // One call on whatever the board holds.
    function randomCall() {
        const text = TEXTS[randomBelow(5)], now = [1 + randomBelow(9999), 1 + randomBelow(13), 1, 0, 0, 0, 0];
        switch (randomBelow(5)) {
            case 0: return checkAdd(text);
            case 1: return allow(takeOut(randomBelow(258)), [0, EMPTY], "removing from any memory");
            case 2: return allow(again(now), [0, NO_DATE], "running any memory again");
            case 3: return checkHead();
            default: return checkOrder();
        }
    }

    return (count) => {
        moveBoard();
        replay("crates/test_board/stdin", "crates/test_board/stdout");
        for (let i = 0; i < count; i += 1) {
            moveBoard();
            randomMemory();
            for (let k = 0; k < 20; k += 1) randomCall();
            memory.add(board, SIZE);
        }
        return `boards: ${calls} calls, ${refused} refused, ${count} times on memory that no call made`;
    };
}

// --- one of them

const DRIVERS = {
    1: (file) => phraseDriver(file, 1), 2: (file) => phraseDriver(file, 2), rules: ruleDriver, zones: zoneDriver, boards: boardDriver,
};
const [file, kind, count = kind === "boards" ? "2000" : "1000000"] = process.argv.slice(2);
if (!Object.hasOwn(DRIVERS, kind ?? "")) stop("usage: digests.mjs WASM 1|2|rules|zones|boards [COUNT]");
const said = DRIVERS[kind](file)(Number(count));
console.log(`${said}: digest ${digest()}`);
