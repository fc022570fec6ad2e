// What a read through the module costs beside the bare call of the WebAssembly, over the phrases of the replayed list:
// node speed.mjs FOLDER [OTHER]. Fails where it is over 3 times. OTHER is another fuzzydate.wasm, as of another level of
// optimization: then it says how much slower the module's own is. The least of many rounds is taken, which other work on the
// machine does not lengthen.
import { readFileSync } from "node:fs";
import { resolve } from "node:path";
import { pathToFileURL } from "node:url";
import { lineOf, linesOf } from "./lent.mjs";

const MOST = 3, ROUNDS = 60, PAGE = 65_536, PARTS = ["year", "month", "day", "hour", "minute", "second", "millisecond"];
const [folder, other] = process.argv.slice(2);
const { load } = await import(pathToFileURL(resolve(folder, "fuzzydate.mjs")));

// The phrases that are plain text, at their nows.
const lines = linesOf("crates/test_replay/stdin").map(lineOf).map(({ now, phrase }) => ({
    numbers: now, bytes: phrase, phrase: phrase.toString("latin1"), now: Object.fromEntries(PARTS.map((part, i) => [part, now[i]])),
})).filter(({ phrase }) => /^[ -~]*$/.test(phrase));

// The bare calls of some lines, which stand in the memory already, and an address that the moment goes to.
function bareCalls(module, chosen) {
    const { exports } = new WebAssembly.Instance(module, {}), size = chosen.reduce((sum, { bytes }) => sum + bytes.length + 32, 64);
    const base = exports.memory.grow(Math.ceil(size / PAGE)) * PAGE, bytes = new Uint8Array(exports.memory.buffer);
    const view = new DataView(exports.memory.buffer);
    let top = base + 64;
    const calls = chosen.map((line) => {
        const now = top, phrase = now + 28;
        line.numbers.forEach((number, i) => view.setUint32(now + 4 * i, number, true));
        bytes.set(line.bytes, phrase);
        top = (phrase + line.bytes.length + 3) & ~3;
        return { now, phrase, length: BigInt(line.bytes.length) };
    });
    return () => calls.filter(({ now, phrase, length }) => exports.fuzzy_read(1, phrase, length, now, base) === 0n).length;
}

function typedCalls(fuzzy, chosen) {
    return () => {
        let moments = 0;
        for (const { phrase, now } of chosen) {
            try {
                fuzzy.read(1, phrase, now);
                moments += 1;
            } catch {
                // a refusal
            }
        }
        return moments;
    };
}

// The least time of each, in nanoseconds a call, by turns so that all have the same machine.
function leastOf(runs, count) {
    const least = runs.map(() => Infinity);
    for (let round = 0; round < ROUNDS; round += 1) {
        runs.forEach((run, i) => {
            const begin = process.hrtime.bigint();
            run();
            least[i] = Math.min(least[i], Number(process.hrtime.bigint() - begin));
        });
    }
    return least.map((time) => time / count);
}

const moduleOf = (file) => new WebAssembly.Module(readFileSync(file)), own = moduleOf(resolve(folder, "fuzzydate.wasm"));
const fuzzy = await load(own), isMoment = (line) => typedCalls(fuzzy, [line])() === 1;
const moments = lines.filter(isMoment), refusals = lines.filter((line) => !isMoment(line));
const ratios = [["moments", moments], ["refusals", refusals], ["all", lines]].map(([name, chosen]) => {
    const [bare, typed] = leastOf([bareCalls(own, chosen), typedCalls(fuzzy, chosen)], chosen.length), ratio = typed / bare;
    console.log(`${name}: ${typed.toFixed(0)} ns through the module, ${bare.toFixed(0)} ns bare: ${ratio.toFixed(2)} times`);
    return ratio;
});
if (other) {
    const [ours, others] = leastOf([bareCalls(own, lines), bareCalls(moduleOf(other), lines)], lines.length);
    console.log(`${ours.toFixed(0)} ns bare, ${others.toFixed(0)} ns in the other: ${(ours / others).toFixed(2)} times`);
}
if (ratios[2] > MOST) {
    console.error(`a read through the module costs more than ${MOST} times the bare call`);
    process.exitCode = 1;
}
