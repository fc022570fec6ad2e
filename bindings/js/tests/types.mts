// The types as an app uses them: compiled, not run. Each use below "@ts-expect-error" must be refused.
import { load, Reading, Refusal, REASONS, type Due, type Local, type Moment, type Reason, type Stamp } from "fuzzydate";

const fuzzy = await load();
const moment: Moment = fuzzy.read(Reading.SECOND, "next friday at 3 pm", { year: 2026, month: 2, day: 11 });
const ready: Uint8Array = fuzzy.makeReady(1, new Uint8Array([110, 111, 119]));
const again: Moment = fuzzy.run(ready, "2026-02-11T09:30:15");
const stamp: Stamp = fuzzy.readStamp(fuzzy.writeStamp({ moment, offset: null }));
const code: number | null = fuzzy.findWord(2, "friday").code;
const moments: Moment[] = fuzzy.occurrences("FREQ=DAILY", moment, 3);
const next: Moment = fuzzy.next("FREQ=DAILY", moment, again);
const local: Local = fuzzy.readInZone(1, "now", new Uint8Array(), new Date());
const later: Local = fuzzy.runInZone(ready, new Uint8Array(), local);
const board = new fuzzy.Board(stamp.moment);
const slot: number = board.add(2, fuzzy.writePhrase(next));
const due: Due = board.head();
const text: string = fuzzy.toISO(fuzzy.fromISO("2026-02-11T09:30:15"));
const reasons: readonly { reason: Reason | "DONE"; words: string }[] = REASONS;

try {
    board.remove(slot);
} catch (error) {
    if (error instanceof Refusal) console.log(error.number, error.reason, error.words, error.place, error.part, error.index, error.width);
}
console.log(moments, code, later.date, due.slot, text, reasons, fuzzy.version, fuzzy.toTemporal(moment));
await load(new URL("https://example.org/fuzzydate.wasm"));
await load(fetch("fuzzydate.wasm"));

// @ts-expect-error a reading is 1 or 2
fuzzy.read(3, "now", moment);
// @ts-expect-error a Date has a zone, and a moment has none
fuzzy.read(1, "now", new Date());
// @ts-expect-error a month is missing
fuzzy.read(1, "now", { year: 2026, day: 11 });
// @ts-expect-error a moment is not an instant
fuzzy.readInZone(1, "now", new Uint8Array(), moment);
// @ts-expect-error a ready phrase is bytes
fuzzy.run("now", moment);
// @ts-expect-error a refusal does not change
new Refusal(1, 0, 0).number = 2;
