// Reminder phrases such as "next friday at 3 pm", read at a now that the caller gives. A text is its bytes; a String stands for its
// UTF-8. Any bytes and any numbers get an answer: what the call gives, or a Refusal, which is thrown. All functions may run in any
// thread.
import CFuzzydate

/// All calls, and the types that they take and give.
public enum Fuzzydate {
    /// The two readings of a phrase; the first is the original Rust library's.
    public enum Reading: UInt32, Sendable, CaseIterable {
        case first = 1, second
    }

    /// What looking a word up gives: its lexeme's code, nil where the reading has no such word, and the number of comparisons.
    public struct FoundWord: Hashable, Sendable {
        public let code: UInt32?
        public let comparisons: UInt32
    }

    /// Reads a phrase at a now. Where it states a time, noon and midnight included, second and millisecond are 0; else they are now's.
    public static func read(_ reading: Reading, _ phrase: [UInt8], now: Moment) throws -> Moment {
        var now = now.forC, moment = fuzzy_moment()
        try answered(phrase) { fuzzy_read(reading.rawValue, $0, $1, &now, &moment) }
        return Moment(moment)
    }

    public static func read(_ reading: Reading, _ phrase: String, now: Moment) throws -> Moment {
        try read(reading, Array(phrase.utf8), now: now)
    }

    /// Makes a phrase ready without a now, as bytes that can be stored, sent and run later.
    public static func makeReady(_ reading: Reading, _ phrase: [UInt8]) throws -> [UInt8] {
        var ready = [UInt8](repeating: 0, count: Int(FUZZY_READY_SIZE))
        let length = try answered(phrase) { fuzzy_make_ready(reading.rawValue, $0, $1, &ready) }
        return Array(ready.prefix(length))
    }

    public static func makeReady(_ reading: Reading, _ phrase: String) throws -> [UInt8] {
        try makeReady(reading, Array(phrase.utf8))
    }

    /// Runs a ready phrase at a now: gives what `read` gives for its phrase at that now, in the reading that it was made in.
    public static func run(_ ready: [UInt8], now: Moment) throws -> Moment {
        var now = now.forC, moment = fuzzy_moment()
        try answered { fuzzy_run(ready, UInt64(ready.count), &now, &moment) }
        return Moment(moment)
    }

    /// Reads a whole text as an RFC 3339 stamp: letters in either case, and after the second one to three digits of a fraction or none.
    public static func readStamp(_ text: [UInt8]) throws -> Stamp {
        var stamp = fuzzy_stamp()
        try answered(text) { fuzzy_read_stamp($0, $1, &stamp) }
        return Stamp(stamp)
    }

    public static func readStamp(_ text: String) throws -> Stamp {
        try readStamp(Array(text.utf8))
    }

    /// Writes a stamp as text, which reads back as the same stamp.
    public static func writeStamp(_ stamp: Stamp) throws -> String {
        var stamp = stamp.forC
        return try written(FUZZY_STAMP_SIZE) { fuzzy_write_stamp(&stamp, $0, $1) }
    }

    /// Writes a moment of whole minutes as a phrase that people can edit: "march 4 2026 at 9:05". `read` gives the moment back at
    /// every now, in both readings for the years 1000 to 9999 and in the first for the years 1 to 999.
    public static func writePhrase(_ moment: Moment) throws -> String {
        var moment = moment.forC
        return try written(FUZZY_PHRASE_SIZE) { fuzzy_write_phrase(&moment, $0, $1) }
    }

    /// Says of a word, while it is typed, whether it is one of a reading's words: letters in either case, at most 8 comparisons.
    public static func findWord(_ reading: Reading, _ word: [UInt8]) throws -> FoundWord {
        var found = numbers(FUZZY_FOUND_NUMBERS)
        try answered(word) { fuzzy_find_word(reading.rawValue, $0, $1, &found) }
        return FoundWord(code: found[0] == 0 ? nil : found[0], comparisons: found[1])
    }

    public static func findWord(_ reading: Reading, _ word: String) throws -> FoundWord {
        try findWord(reading, Array(word.utf8))
    }

    /// Lists the first occurrences of a repeating rule of RFC 5545, in order, from its start on: at most so many. The start is the
    /// first one, and every one has its time of day; COUNT, UNTIL and the year 9999 end them. The rule is its text, such as
    /// "FREQ=WEEKLY;INTERVAL=2;BYDAY=TU"; fuzzy.h says which are accepted. There is memory for `most`, whatever the rule has.
    public static func occurrences(_ rule: [UInt8], from start: Moment, most: UInt) throws -> [Moment] {
        var start = start.forC
        var moments = [fuzzy_moment](repeating: fuzzy_moment(), count: Int(min(most, UInt(FUZZY_MOST_OCCURRENCES))))
        let room = UInt64(moments.count)
        let count = try answered(rule) { fuzzy_list($0, $1, &start, &moments, room) }
        return moments.prefix(count).map { Moment($0) }
    }

    public static func occurrences(_ rule: String, from start: Moment, most: UInt) throws -> [Moment] {
        try occurrences(Array(rule.utf8), from: start, most: most)
    }

    /// Finds which occurrence comes next: the first at or after the asked moment, the start included. The occurrences before it are
    /// not gone through. Where none is left, by COUNT, UNTIL or the year 9999, it is refused.
    public static func next(_ rule: [UInt8], from start: Moment, asked: Moment) throws -> Moment {
        var start = start.forC, asked = asked.forC, moment = fuzzy_moment()
        try answered(rule) { fuzzy_next($0, $1, &start, &asked, &moment) }
        return Moment(moment)
    }

    public static func next(_ rule: String, from start: Moment, asked: Moment) throws -> Moment {
        try next(Array(rule.utf8), from: start, asked: asked)
    }

    /// Reads a phrase at an instant in a zone: gives what `runInZone` gives for the phrase made ready.
    public static func readInZone(_ reading: Reading, _ phrase: [UInt8], zone: [UInt8], now: Instant) throws -> Local {
        var due: Int64 = 0, local = fuzzy_local()
        try answered(phrase) {
            fuzzy_read_in_zone(reading.rawValue, $0, $1, zone, UInt64(zone.count), now.second, now.millisecond, &due, &local)
        }
        return Local(due, local)
    }

    public static func readInZone(_ reading: Reading, _ phrase: String, zone: [UInt8], now: Instant) throws -> Local {
        try readInZone(reading, Array(phrase.utf8), zone: zone, now: now)
    }

    /// Runs a ready phrase at an instant in a zone, which is the bytes of its TZif file; fuzzy.h says which are accepted. Dates,
    /// weekdays, months and years go by the clocks. Minutes and hours are lengths of time. Days and weeks go by the clocks in
    /// "1 day ago" and after or from today, tomorrow or a date, and are lengths in "1 day from now", "1 day before now", before
    /// anything else, and after a weekday. Of a time that the clocks show twice the earlier is meant. A time that they skip is
    /// refused, and so is any moment at or after the file's last transition.
    public static func runInZone(_ ready: [UInt8], zone: [UInt8], now: Instant) throws -> Local {
        var due: Int64 = 0, local = fuzzy_local()
        try answered {
            fuzzy_run_in_zone(ready, UInt64(ready.count), zone, UInt64(zone.count), now.second, now.millisecond, &due, &local)
        }
        return Local(due, local)
    }

    static func numbers(_ count: Int32) -> [UInt32] {
        Array(repeating: 0, count: Int(count))
    }

    /// The length of a call's answer, unless it is a refusal: that is thrown, with the text that it is about.
    @discardableResult
    static func answered(about text: [UInt8] = [], _ call: () -> UInt64) throws -> Int {
        try checkVersion()
        let answer = call(), length = Int(fuzzy_length(answer))
        if fuzzy_ok(answer) != 0 {
            return length
        }
        throw Refusal(number: fuzzy_number(answer), place: Int(fuzzy_place(answer)), length: length, text: text)
    }

    /// The same for a call on the bytes of a text, which C takes as characters.
    @discardableResult
    static func answered(_ text: [UInt8], _ call: (UnsafePointer<CChar>?, UInt64) -> UInt64) throws -> Int {
        try text.withUnsafeBytes { bytes in
            try answered(about: text) { call(bytes.bindMemory(to: CChar.self).baseAddress, UInt64(bytes.count)) }
        }
    }

    /// The text that a call writes into a buffer of so many bytes.
    private static func written(_ size: Int32, _ call: (UnsafeMutablePointer<CChar>?, UInt64) -> UInt64) throws -> String {
        var text = [UInt8](repeating: 0, count: Int(size))
        let length = try text.withUnsafeMutableBytes { bytes in
            try answered { call(bytes.bindMemory(to: CChar.self).baseAddress, UInt64(size)) }
        }
        return String(decoding: text.prefix(length), as: UTF8.self)
    }
}
