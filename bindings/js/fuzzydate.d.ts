/** Reads reminder phrases such as "next friday at 3 pm" at a now that the caller gives: the proved library as WebAssembly. */

/** A date and time of the years 1 to 9999, without a zone. */
export interface Moment {
    year: number;
    /** 1 to 12. */
    month: number;
    day: number;
    hour: number;
    minute: number;
    second: number;
    millisecond: number;
}

/**
 * What is accepted for a moment: its numbers, of which those of the time may be left out for 0, a Temporal.PlainDateTime, or
 * ISO text without an offset such as "2026-02-11T09:30:15".
 */
export type MomentLike = (Pick<Moment, "year" | "month" | "day"> & Partial<Moment>) | PlainDateTimeLike | string;

/** A Temporal.PlainDateTime of the ISO calendar and whole milliseconds. */
export interface PlainDateTimeLike extends Readonly<Moment> {
    readonly [Symbol.toStringTag]: "Temporal.PlainDateTime";
}

/**
 * What is accepted for an instant: its second since 1970-01-01T00:00:00Z and its millisecond, 0 where it is left out, a Date, a
 * Temporal.Instant of whole milliseconds, or RFC 3339 text with an offset.
 */
export type InstantLike =
    | { readonly second: number | bigint; readonly millisecond?: number; readonly year?: never }
    | Date
    | { readonly epochMilliseconds: number; readonly [Symbol.toStringTag]: "Temporal.Instant" }
    | string;

/** A string, which stands for its UTF-8, or bytes. */
export type Text = string | Uint8Array;

/** The two readings of a phrase; the first is the original Rust library's, the second what people mean. */
export declare const Reading: { readonly FIRST: 1; readonly SECOND: 2 };
export type Reading = 1 | 2;

/** Why a call is refused, by the names of fuzzy.h. */
export type Reason =
    | "TOO_LONG" | "UNKNOWN" | "LARGE_DIGITS" | "TOO_MANY" | "NOTHING" | "LARGE_SUM" | "LEFT_OVER" | "INVALID_MOMENT"
    | "NO_SENSE" | "NO_DATE" | "NO_TIME" | "OUTSIDE" | "NO_LEAP_DAY" | "NO_STAMP" | "NO_READING" | "NOT_WHOLE" | "NO_ROOM"
    | "NO_RULE" | "NO_START" | "NO_NEXT" | "NO_ZONE" | "PAST_LAST" | "NO_INSTANT" | "FULL_BOARD" | "EMPTY_SLOT"
    | "NOTHING_DUE";

/** The name and the words of each refusal, by its number; 0 is "DONE". */
export declare const REASONS: readonly { readonly reason: Reason | "DONE"; readonly words: string }[];

/**
 * What every function throws where the library refuses; nothing has been changed then. Its message shows the text with the
 * refused part underlined. It is an answer, not a fault of the caller's, and has no stack.
 */
export declare class Refusal extends Error {
    constructor(number: number, place: number, length: number, text?: Text);
    readonly name: "Refusal";
    /** The number of fuzzy.h. */
    readonly number: number;
    /** null for a number that only a newer library has. */
    readonly reason: Reason | null;
    /** To be shown to people. */
    readonly words: string;
    /** Where the refused part of the text begins, in bytes of UTF-8. */
    readonly place: number;
    /** How many bytes the refused part has; 0 where there is none. */
    readonly length: number;
    /** Where the refused part begins, in UTF-16 units of the string. */
    readonly index: number;
    /** How many UTF-16 units it has: whole characters. */
    readonly width: number;
    /** The refused part: a string of a string, bytes of bytes, "" where there is no text. */
    readonly part: Text;
}

/** A moment and its offset from UTC in minutes, negative to the west; null is "-00:00", an unknown offset. */
export interface Stamp {
    moment: Moment;
    offset: number | null;
}

export interface FoundWord {
    /** The same for words of one meaning; null where the reading has no such word. */
    code: number | null;
    /** At most 8. */
    comparisons: number;
}

/** An instant, and what the clocks of a zone show then. It is accepted as an instant again. */
export interface Local {
    /** Since 1970-01-01T00:00:00Z. */
    second: number;
    millisecond: number;
    moment: Moment;
    /** Seconds from UTC, negative to the west. */
    offset: number;
    /** The instant with its millisecond. */
    date: Date;
}

/** A slot of a board, and its reminder's moment. */
export interface Due {
    slot: number;
    moment: Moment;
}

/**
 * Up to 256 reminders, each in a slot of 0 to 255, and the order of their moments at the board's now. A refused call changes
 * nothing.
 */
export interface Board {
    /**
     * Adds a reminder: gives its slot, the lowest that was free. A phrase without a moment at the board's now is accepted: it
     * comes last, and may have a moment at another now.
     */
    add(reading: Reading, phrase: Text): number;
    /** Removes a reminder: its slot is free again. */
    remove(slot: number): void;
    /** Runs all reminders again at another now, later or earlier, which is then the board's. */
    again(now: MomentLike): void;
    /** Finds what is due first: the earliest moment, and of equal ones the lowest slot. */
    head(): Due;
    /** Lists the filled slots, each once: by moment, and after them those without a moment at the board's now. */
    order(): number[];
}

export interface Fuzzydate {
    /** The library's version, such as "1.0.0". */
    readonly version: string;
    /** Reads a phrase at a now. Where it states a time, second and millisecond are 0; else they are now's. */
    read(reading: Reading, phrase: Text, now: MomentLike): Moment;
    /** Makes a phrase ready without a now: bytes to be stored, sent and run later. */
    makeReady(reading: Reading, phrase: Text): Uint8Array;
    /** Runs a ready phrase at a now: gives what `read` gives for its phrase at that now. */
    run(ready: Uint8Array, now: MomentLike): Moment;
    /** Reads a whole text as an RFC 3339 stamp: "2026-02-11T09:30:15Z", or with an offset, and with up to three digits of a fraction. */
    readStamp(text: Text): Stamp;
    /** Writes a stamp as text, which reads back as the same. */
    writeStamp(stamp: { readonly moment: MomentLike; readonly offset: number | null }): string;
    /** Says of a word, while it is typed, whether it is one of a reading's words. */
    findWord(reading: Reading, word: Text): FoundWord;
    /** Writes a moment of whole minutes as a phrase that people can edit: "march 4 2026 at 9:05". */
    writePhrase(moment: MomentLike): string;
    /** Lists the occurrences of a rule of RFC 5545 from its start on, up to so many. */
    occurrences(rule: Text, start: MomentLike, most: number): Moment[];
    /** Finds which occurrence comes next: the first at or after the asked moment, the start included. */
    next(rule: Text, start: MomentLike, asked: MomentLike): Moment;
    /** Reads a phrase at an instant in a zone, which is the bytes of its TZif file. */
    readInZone(reading: Reading, phrase: Text, zone: Uint8Array, now: InstantLike): Local;
    /** Runs a ready phrase at an instant in a zone. */
    runInZone(ready: Uint8Array, zone: Uint8Array, now: InstantLike): Local;
    /** A moment of ISO text without an offset. */
    fromISO(text: string): Moment;
    /** A moment as ISO text without an offset; the fraction only where there is one. */
    toISO(moment: MomentLike): string;
    /** A moment of a Temporal.PlainDateTime. */
    fromTemporal(moment: PlainDateTimeLike): Moment;
    /** A moment as a Temporal.PlainDateTime; a TypeError where the engine has no Temporal. */
    toTemporal(moment: MomentLike): any;
    /** Makes an empty board at a now. */
    readonly Board: new (now: MomentLike) => Board;
}

/** What the module is loaded from. */
export type Source = BufferSource | Response | URL | string | WebAssembly.Module;

/** Gives the functions. Without a source the module is fuzzydate.wasm beside this file. Each call has a memory of its own. */
export declare function load(source?: Source | Promise<Source>): Promise<Fuzzydate>;
