// Every function with good, damaged and empty input, each refusal that can arise here, and all of it in eight threads:
// every FUZZY_H ZONE VERSION.
import CFuzzydate
import Dispatch
import Foundation

@testable import Fuzzydate

typealias Board = Fuzzydate.Board
typealias Due = Fuzzydate.Due
typealias FoundWord = Fuzzydate.FoundWord
typealias Instant = Fuzzydate.Instant
typealias Local = Fuzzydate.Local
typealias Moment = Fuzzydate.Moment
typealias Offset = Fuzzydate.Offset
typealias Reading = Fuzzydate.Reading
typealias Reason = Fuzzydate.Reason
typealias Refusal = Fuzzydate.Refusal
typealias Stamp = Fuzzydate.Stamp

let now = Moment(year: 2026, month: 2, day: 11, hour: 9, minute: 30, second: 15, millisecond: 250)
let leapDay = Moment(year: 2024, month: 2, day: 29, hour: 12)
let whole = Moment(year: 2026, month: 3, day: 4, hour: 9, minute: 5)
let noDay = Moment(year: 2026, month: 2, day: 30)

func expect(_ holds: Bool, _ what: String) {
    if !holds {
        fatalError(what)
    }
}

func refusal(_ reason: Reason, _ what: String, _ call: () throws -> Any) -> Refusal {
    do {
        let given = try call()
        fatalError("\(what) gives \(given)")
    } catch let refusal as Refusal {
        expect(refusal.reason == reason, "\(what): \(refusal)")
        return refusal
    } catch {
        fatalError("\(what): \(error)")
    }
}

func moments() throws {
    let cases: [(String, Reading, Moment)] = [
        ("next friday", .first, Moment(year: 2026, month: 2, day: 20, hour: 9, minute: 30, second: 15, millisecond: 250)),
        ("5/2 at noon", .second, Moment(year: 2026, month: 5, day: 2, hour: 12, minute: 0, second: 0, millisecond: 0)),
        ("tuesday in two weeks", .first, Moment(year: 2026, month: 1, day: 27, hour: 9, minute: 30, second: 15, millisecond: 250)),
        ("tuesday in two weeks", .second, Moment(year: 2026, month: 3, day: 3, hour: 9, minute: 30, second: 15, millisecond: 250)),
    ]
    for (phrase, reading, moment) in cases {
        expect(try Fuzzydate.read(reading, phrase, now: now) == moment, phrase)
        let ready = try Fuzzydate.makeReady(reading, phrase)
        expect(try Fuzzydate.run(ready, now: now) == moment, phrase + ", made ready")
        _ = refusal(.noSense, phrase + ", cut short") { try Fuzzydate.run(Array(ready.dropLast()), now: now) }
    }
}

func momentsInOrder() throws {
    let inOrder = [on(1, 12, 31), on(2025, 12, 31), on(2026, 2, 10), on(2026, 2, 10, 251), now, on(2026, 3, 1)].map { $0 }
    for (i, one) in inOrder.enumerated() {
        for (k, other) in inOrder.enumerated() {
            expect((one < other) == (i < k) && (one == other) == (i == k), "\(one) and \(other)")
        }
        expect(try JSONDecoder().decode(Moment.self, from: JSONEncoder().encode(one)) == one, "\(one) sent")
    }
    expect("\(now), \(Moment(year: 1, month: 2, day: 3))" == "2026-02-11T09:30:15.250, 0001-02-03T00:00:00", "moments as text")
}

/// What a conversion says that cannot hold what it is given.
func unheld(_ words: String, _ call: () throws -> Any) {
    do {
        let given = try call()
        fatalError("\(given), and not: \(words)")
    } catch let error as Fuzzydate.ConversionError {
        expect(error.description == words && error.localizedDescription == words, "\(error), and not: \(words)")
    } catch {
        fatalError("\(error)")
    }
}

func components() throws {
    for moment in [now, whole, leapDay, noDay, on(9999, 12, 31, 999)] {
        expect(try Moment(moment.components) == moment, "\(moment) as components")
    }
    var given = DateComponents(year: 2026, month: 3, day: 4)
    expect(try Moment(given) == Moment(year: 2026, month: 3, day: 4), "a date alone")
    given.nanosecond = 250_999_999
    unheld("nanosecond 250999999 is not of whole milliseconds") { try Moment(given) }
    expect(try Moment(cuttingToMilliseconds: given).millisecond == 250, "nanoseconds cut")
    (given.nanosecond, given.calendar, given.era) = (nil, Calendar(identifier: .gregorian), 1)
    expect(try Moment(given) == Moment(year: 2026, month: 3, day: 4), "a Gregorian date")
    given.era = 0
    unheld("a moment has no place for era") { try Moment(given) }
    (given.era, given.weekday) = (nil, 4)
    unheld("a moment has no place for weekday") { try Moment(given) }
    (given.weekday, given.timeZone) = (nil, TimeZone(secondsFromGMT: 0))
    unheld("a moment has no place for timeZone") { try Moment(given) }
    given.calendar = Calendar(identifier: .buddhist)
    unheld("the calendar is not the Gregorian") { try Moment(given) }
    unheld("there is no day") { try Moment(DateComponents(year: 2026, month: 3)) }
    unheld("there is no month -1") { try Moment(DateComponents(year: 2026, month: -1, day: 1)) }
    unheld("there is no year 4294967296") { try Moment(DateComponents(year: 4_294_967_296, month: 1, day: 1)) }
}

/// A date so many seconds after 1970, which need not be whole.
func since1970(_ seconds: Double) -> Date { Date(timeIntervalSince1970: seconds) }

func dates() throws {
    let utc = TimeZone(secondsFromGMT: 0)!, east = TimeZone(secondsFromGMT: 19_800)!
    let cases: [(Double, TimeZone, Moment)] = [
        (1_770_802_215.25, utc, now),
        (1_770_802_215.25 - 19_800, east, now),
        (0, utc, Moment(year: 1970, month: 1, day: 1)),
        (-0.25, utc, Moment(year: 1969, month: 12, day: 31, hour: 23, minute: 59, second: 59, millisecond: 750)),
        (951_782_400, utc, Moment(year: 2000, month: 2, day: 29)),
        (-62_135_596_800, utc, Moment(year: 1, month: 1, day: 1)),
        (-12_219_292_800, utc, Moment(year: 1582, month: 10, day: 15)),
        (-12_219_379_200, utc, Moment(year: 1582, month: 10, day: 14)),
        (253_402_300_799, utc, Moment(year: 9999, month: 12, day: 31, hour: 23, minute: 59, second: 59)),
    ]
    for (seconds, zone, moment) in cases {
        expect(try Moment(since1970(seconds), in: zone) == moment, "\(seconds): \(try Moment(since1970(seconds), in: zone))")
        expect(try moment.date(in: zone) == since1970(seconds), "\(moment): \(try moment.date(in: zone))")
    }
    for day: UInt32 in 1...28 {
        for (year, month) in [(1, 1), (4, 2), (1900, 2), (2000, 3), (2026, 12), (9999, 7)] as [(UInt32, UInt32)] {
            let moment = on(year, month, day, 37 * day - 37)
            expect(try Moment(moment.date(in: east), in: east) == moment, "\(moment) there and back")
        }
    }
    unheld("1770802215.25 seconds since 1970 are not of whole milliseconds") {
        try Moment(Date(timeIntervalSinceReferenceDate: (1_770_802_215.25 - 978_307_200).nextUp), in: utc)
    }
    for (part, millisecond) in [(0.25, 250), (0.2501, 250), (0.2509999, 250), (0.251, 251), (0.1, 100)] as [(Double, UInt32)] {
        let cut = try Moment(cuttingToMilliseconds: Date(timeIntervalSinceReferenceDate: 792_495_015 + part), in: utc)
        expect(cut == on(2026, 2, 11, millisecond), "\(part) cut: \(cut)")
    }
    expect(try Moment(cuttingToMilliseconds: Date(), in: utc) > now, "the clock")
    for seconds in [-62_135_596_800.25, 253_402_300_800, 1e300, .infinity, .nan] {
        unheld("the date is outside the years 1 to 9999") { try Moment(since1970(seconds), in: utc) }
    }
    if let clocks = TimeZone(identifier: "America/New_York") {
        let skipped = Moment(year: 2026, month: 3, day: 8, hour: 2, minute: 30)
        unheld("2026-03-08T02:30:00 is a time that the clocks of America/New_York skip") { try skipped.date(in: clocks) }
        let twice = Moment(year: 2026, month: 11, day: 1, hour: 1, minute: 30)
        expect(try twice.date(in: clocks) == since1970(1_793_511_000), "the earlier of two")
        for seconds in [1_772_953_199, 1_772_953_200, 1_793_512_799, 1_793_516_400] as [Double] {
            expect(try Moment(since1970(seconds), in: clocks).date(in: clocks) == since1970(seconds), "\(seconds) there and back")
        }
        expect(try Moment(since1970(1_793_514_600), in: clocks) == twice, "the later of two")
    }
    unheld("2026-02-30T00:00:00 is not a valid date and time") { try noDay.date(in: utc) }
    unheld("2026-03-04T24:00:00 is not a valid date and time") { try Moment(year: 2026, month: 3, day: 4, hour: 24).date(in: utc) }
}

func instants() throws {
    for (seconds, instant) in [(0, Instant(second: 0, millisecond: 0)), (-0.25, Instant(second: -1, millisecond: 750)),
        (1_772_951_400.25, beforeGap)] as [(Double, Instant)]
    {
        expect(try Instant(since1970(seconds)) == instant && instant.date == since1970(seconds), "\(seconds)")
    }
    let part = Date(timeIntervalSinceReferenceDate: 0.0001)
    unheld("978307200.0001 seconds since 1970 are not of whole milliseconds") { try Instant(part) }
    expect(try Instant(cuttingToMilliseconds: part) == Instant(second: 978_307_200, millisecond: 0), "an instant cut")
    expect(try Instant(cuttingToMilliseconds: since1970(-0.0001)) == Instant(second: -1, millisecond: 999), "an instant cut back")
    expect(beforeGap < last && Instant(second: 0, millisecond: 1) > Instant(second: 0, millisecond: 0), "instants in order")
    for instant in [Instant(second: .max, millisecond: 0), Instant(second: .min, millisecond: 0), Instant(second: 0, millisecond: 1000)] {
        unheld("second \(instant.second) and millisecond \(instant.millisecond) are no Date") { try instant.date }
    }
    expect(try due(.first, "tomorrow", newYork, beforeGap).date == since1970(1_773_034_200.25), "the date of what is due")
}

func refusals() throws {
    let cases: [([UInt8], Reason, Int, [UInt8])] = [
        (Array(repeating: 32, count: 257), .tooLong, 0, []),
        (Array("forty days ago".utf8), .unknown, 0, Array("forty".utf8)),
        (Array("in\ttwo\0days".utf8), .unknown, 6, [0]),
        (Array("at \u{e9}".utf8), .unknown, 3, [0xc3]),
        ([255], .unknown, 0, [255]),
        (Array("4294967296 days ago".utf8), .largeDigits, 0, Array("4294967296".utf8)),
        (Array(String(repeating: "1 ", count: 65).utf8), .tooMany, 128, [49]),
        ([], .nothing, 0, []),
        (Array("five billion days ago".utf8), .largeSum, 0, []),
        (Array("5/2".utf8), .leftOver, 1, Array("/2".utf8)),
        (Array("this month".utf8), .noSense, 0, []),
        (Array("1000/1/1".utf8), .noDate, 0, []),
        (Array("january 1, 99".utf8), .noTime, 0, []),
        (Array("four billion days ago".utf8), .outside, 0, []),
    ]
    for (phrase, reason, place, part) in cases {
        let wanted = Refusal(number: reason.number, place: place, length: part.count, text: phrase)
        expect(refusal(reason, "\(reason)") { try Fuzzydate.read(.first, phrase, now: now) } == wanted, "\(wanted)")
        expect(wanted.part == part && wanted.reason == reason && wanted.name == "\(reason)", "\(reason)")
        if reason.number <= Reason.leftOver.number {
            expect(refusal(reason, "\(reason)") { try Fuzzydate.makeReady(.first, phrase) } == wanted, "\(wanted), made ready")
        }
    }
    _ = refusal(.noLeapDay, "29 February") { try Fuzzydate.read(.first, "a year from now", now: leapDay) }
    _ = refusal(.invalidMoment, "30 February") { try Fuzzydate.read(.first, "today", now: noDay) }
    _ = refusal(.invalidMoment, "30 February shown") { try Fuzzydate.writePhrase(noDay) }
    _ = refusal(.notWhole, "seconds shown") { try Fuzzydate.writePhrase(now) }
}

/// The text of a refusal, and of one that only a newer library has, which does not stop the app.
func shown() {
    let cases: [(String, String)] = [
        ("next forty", "not understood\n    next forty\n         ^^^^^"),
        ("in\ttwo\0days", "not understood\n    in two\\0days\n          ^^"),
        ("at \u{e9}, noon", "not understood\n    at \u{e9}, noon\n       ^"),
        ("5/2", "not part of the date or time\n    5/2\n     ^^"),
        ("this month", "makes no sense\n    this month"),
        ("", "no date or time in it"),
        (String(repeating: " ", count: 257), "longer than 256 bytes"),
    ]
    for (phrase, text) in cases {
        do {
            let given = try Fuzzydate.read(.first, phrase, now: now)
            fatalError("\(phrase) gives \(given)")
        } catch {
            expect("\(error)" == text && error.localizedDescription == text, "\(error)")
        }
    }
    let newer = Refusal(number: 999, place: 1, length: 2, text: Array("next".utf8))
    expect(newer.reason == nil && newer.name == nil && newer.words == "a refusal of a newer library", "a newer library")
    expect("\(newer)" == "a refusal of a newer library: 999\n    next\n     ^^", "\(newer)")
    expect("\(Refusal(number: 999, place: 9, length: 9, text: Array("next".utf8)))".hasSuffix("    next"), "a place outside the text")
}

/// The names, numbers and words of the refusals are those of fuzzy.h.
func asTheHeader() throws {
    let header = try String(contentsOfFile: CommandLine.arguments[1], encoding: .utf8)
    let expression = try NSRegularExpression(pattern: "^ *FUZZY_(\\w+) = (\\d+),? +/\\*", options: .anchorsMatchLines)
    let found = expression.matches(in: header, range: NSRange(header.startIndex..., in: header)).map { match in
        (1...2).map { String(header[Range(match.range(at: $0), in: header)!]) }
    }
    expect(found.count == Reason.allCases.count, "as many reasons as the header")
    for (name, number) in found.map({ ($0[0], UInt32($0[1])!) }) {
        let words = name.lowercased().split(separator: "_")
        let own = String(words[0]) + words.dropFirst().map { $0.capitalized }.joined()
        expect(Reason(number: number)?.rawValue == own && Reason(rawValue: own)?.number == number, name)
        expect(header.contains("case FUZZY_\(name): return \"\(Reason(number: number)!.words)\";"), "words of \(name)")
    }
    expect(Reason(number: 0) == nil && Reason(number: UInt32(found.count) + 1) == nil && Reason(number: .max) == nil, "no reason")
}

func stamps() throws {
    let cases: [(String, Offset, String)] = [
        ("2026-02-11t09:30:15.25z", .east(0), "2026-02-11T09:30:15.250Z"),
        ("2026-02-11T09:30:15.25-00:00", .unknown, "2026-02-11T09:30:15.250-00:00"),
        ("2026-02-11T09:30:15.25-05:00", .west(300), "2026-02-11T09:30:15.250-05:00"),
        ("2026-02-11T09:30:15.25+23:59", .east(1439), "2026-02-11T09:30:15.250+23:59"),
    ]
    for (text, offset, written) in cases {
        let stamp = try Fuzzydate.readStamp(text)
        expect(stamp == Stamp(moment: now, offset: offset), text)
        expect(try Fuzzydate.writeStamp(stamp) == written, text)
    }
    expect(try Fuzzydate.writeStamp(Stamp(moment: whole, offset: .west(0))) == "2026-03-04T09:05:00-00:00", "west by 0 minutes")
    _ = refusal(.noStamp, "an offset of 1440") { try Fuzzydate.writeStamp(Stamp(moment: whole, offset: .east(1440))) }
    _ = refusal(.invalidMoment, "a stamp of 30 February") { try Fuzzydate.writeStamp(Stamp(moment: noDay, offset: .unknown)) }
    _ = refusal(.outside, "year 0") { try Fuzzydate.readStamp("0000-02-29T00:00:00Z") }
}

func wordsAndPhrases() throws {
    expect(try Fuzzydate.findWord(.first, "Friday") == FoundWord(code: 123, comparisons: 7), "Friday")
    expect(try Fuzzydate.findWord(.second, "FORTY") == FoundWord(code: 40, comparisons: 5), "FORTY")
    expect(try Fuzzydate.findWord(.first, "") == FoundWord(code: nil, comparisons: 7), "an empty word")
    expect(try Fuzzydate.writePhrase(whole) == "march 4 2026 at 9:05", "a phrase")
    for reading in [Reading.first, .second] {
        expect(try Fuzzydate.read(reading, Fuzzydate.writePhrase(whole), now: now) == whole, "a phrase that was written")
    }
    let early = Moment(year: 26, month: 3, day: 4, hour: 9, minute: 5), phrase = try Fuzzydate.writePhrase(early)
    expect(try Fuzzydate.read(.first, phrase, now: now) == early, "a phrase of the year 26")
    _ = refusal(.leftOver, "a phrase of the year 26 in the second reading") { try Fuzzydate.read(.second, phrase, now: now) }
}

/// A moment of 09:30:15 and so many milliseconds.
func on(_ year: UInt32, _ month: UInt32, _ day: UInt32, _ millisecond: UInt32 = 250) -> Moment {
    Moment(year: year, month: month, day: day, hour: 9, minute: 30, second: 15, millisecond: millisecond)
}

let tuesday = on(2026, 2, 10)
let tuesdays = "FREQ=WEEKLY;INTERVAL=2;BYDAY=TU"

func rules() throws {
    let cases: [(String, UInt, [Moment])] = [
        (tuesdays, 3, [tuesday, on(2026, 2, 24), on(2026, 3, 10)]),
        ("freq=weekly;byday=su,tu,su;interval=02", 4, [tuesday, on(2026, 2, 15), on(2026, 2, 24), on(2026, 3, 1)]),
        ("FREQ=DAILY;UNTIL=20260212", 1000, [tuesday, on(2026, 2, 11), on(2026, 2, 12)]),
        ("FREQ=DAILY;UNTIL=20260212T093015", 9, [tuesday, on(2026, 2, 11)]),
        ("FREQ=MONTHLY;COUNT=2", 9, [tuesday, on(2026, 3, 10)]),
        (tuesdays, 0, []),
    ]
    for (rule, most, wanted) in cases {
        expect(try Fuzzydate.occurrences(rule, from: tuesday, most: most) == wanted, rule)
        for (i, moment) in wanted.enumerated() {
            expect(try Fuzzydate.next(rule, from: tuesday, asked: moment) == moment, rule + ", asked at an occurrence")
            var after = moment
            after.millisecond += 1
            if i + 1 < wanted.count {
                expect(try Fuzzydate.next(rule, from: tuesday, asked: after) == wanted[i + 1], rule + ", asked a millisecond later")
            } else if wanted.count < most {
                _ = refusal(.noNext, rule) { try Fuzzydate.next(rule, from: tuesday, asked: after) }
            }
        }
    }
    expect(try Fuzzydate.next(tuesdays, from: tuesday, asked: on(1, 1, 1)) == tuesday, "asked before the start")
    expect(try Fuzzydate.next(tuesdays, from: tuesday, asked: on(2026, 2, 10, 249)) == tuesday, "asked a millisecond before the start")
    let lastDays = [on(9999, 12, 30), on(9999, 12, 31)]
    expect(try Fuzzydate.occurrences("FREQ=DAILY", from: lastDays[0], most: 9) == lastDays, "the last days")
    expect(try Fuzzydate.next("FREQ=DAILY", from: tuesday, asked: lastDays[1]) == lastDays[1], "the last day")
    _ = refusal(.noNext, "after the last day") { try Fuzzydate.next("FREQ=DAILY", from: tuesday, asked: on(9999, 12, 31, 251)) }
}

/// A rule or a start that both calls refuse alike, with room and without.
func unlisted(_ rule: [UInt8], _ start: Moment, _ reason: Reason) {
    let wanted = Refusal(number: reason.number, place: 0, length: 0, text: rule)
    for most: UInt in [0, 2] {
        expect(refusal(reason, "\(rule)") { try Fuzzydate.occurrences(rule, from: start, most: most) } == wanted, "\(rule)")
    }
    expect(refusal(reason, "\(rule)") { try Fuzzydate.next(rule, from: start, asked: tuesday) } == wanted, "\(rule), asked")
}

func refusedRules() {
    for rule in ["", "FREQ=YEARLY", "RRULE:FREQ=DAILY", "FREQ=DAILY;", "FREQ=DAILY;COUNT=0", "FREQ=DAILY\0", "FREQ=DAILY\u{e9}"] {
        unlisted(Array(rule.utf8), tuesday, .noRule)
    }
    for rule in ["FREQ=WEEKLY;BYDAY=MO", "FREQ=MONTHLY;BYMONTHDAY=31", "FREQ=DAILY;UNTIL=20260210T093015"] {
        unlisted(Array(rule.utf8), tuesday, .noStart)
    }
    unlisted(Array("FREQ=YEARLY".utf8), noDay, .invalidMoment)
    unlisted(Array(tuesdays.utf8), on(2026, 2, 10, 1000), .invalidMoment)
    _ = refusal(.invalidMoment, "asked on 30 February") { try Fuzzydate.next(tuesdays, from: tuesday, asked: noDay) }
}

/// 09:30:15.250 on a day of February 2026, as the library takes it.
func february(_ day: UInt32) -> fuzzy_moment {
    fuzzy_moment(year: 2026, month: 2, day: day, hour: 9, minute: 30, second: 15, millisecond: 250)
}

/// A call on the bytes of a text, which C takes as characters.
func characters(_ text: [UInt8], _ call: (UnsafePointer<CChar>?, UInt64) -> UInt64) -> UInt64 {
    text.withUnsafeBytes { call($0.bindMemory(to: CChar.self).baseAddress, UInt64(text.count)) }
}

/// The buffers of listing and asking: rows at the front, all else unchanged, and nothing on a refusal.
func rows() {
    let cases: [(String, Int, UInt32)] = [
        ("FREQ=DAILY", 2, 0), ("FREQ=DAILY;COUNT=1", 1, 20), ("FREQ=YEARLY", 0, 18), ("FREQ=WEEKLY;BYDAY=MO", 0, 19),
    ]
    for (rule, count, refused) in cases {
        let text = Array(rule.utf8), untouched = [UInt32](repeating: 0xa5, count: 20)
        var listed = untouched, next = fuzzy_moment()
        next.year = 0xa5
        var start = february(10), asked = february(11)
        let answer = characters(text) { fuzzy_list_in($0, $1, &start, &listed, 20) }
        expect(fuzzy_length(answer) == count && Array(listed[(7 * count)...]) == Array(untouched[(7 * count)...]), rule + ", listed")
        let found = characters(text) { fuzzy_next($0, $1, &start, &asked, &next) }
        expect(fuzzy_number(found) == refused && (refused == 0 || next.year == 0xa5), rule + ", asked")
    }
}

/// The most that can be wanted.
func longest() throws {
    let months = try Fuzzydate.occurrences("FREQ=MONTHLY", from: on(1, 1, 1), most: UInt.max)
    expect(months.count == 12 * 9999 && months.last == on(9999, 12, 1), "all months")
}

/// The bytes of bindings/zones/New_York.
let newYork = [UInt8](FileManager.default.contents(atPath: CommandLine.arguments[2])!)

/// 01:30:00 on 8 March 2026 in New York, half an hour before clocks go forward; the last transition of the file.
let beforeGap = Instant(second: 1_772_951_400, millisecond: 250)
let last = Instant(second: 1_805_007_600, millisecond: 0)

/// What a phrase means at an instant in a zone, read as bytes and as a String, and run.
func due(_ reading: Reading, _ phrase: String, _ zone: [UInt8], _ now: Instant) throws -> Local {
    let local = try Fuzzydate.readInZone(reading, phrase, zone: zone, now: now)
    expect(try Fuzzydate.readInZone(reading, Array(phrase.utf8), zone: zone, now: now) == local, phrase + ", as bytes")
    expect(try Fuzzydate.runInZone(Fuzzydate.makeReady(reading, phrase), zone: zone, now: now) == local, phrase + ", made ready")
    return local
}

func zones() throws {
    let cases: [(String, Int64, Int64, (UInt32, UInt32, UInt32, UInt32, UInt32), Int32)] = [
        ("now", 1_772_951_400, 1_772_951_400, (3, 8, 1, 30, 250), -18000),
        ("today 3:00", 1_772_951_400, 1_772_953_200, (3, 8, 3, 0, 0), -14400),
        ("an hour from now", 1_772_951_400, 1_772_955_000, (3, 8, 3, 30, 250), -14400),
        ("1 day from now", 1_772_892_000, 1_772_978_400, (3, 8, 10, 0, 250), -14400),
        ("tomorrow", 1_772_892_000, 1_772_974_800, (3, 8, 9, 0, 250), -14400),
        ("2 months from now", 1_770_535_800, 1_775_629_800, (4, 8, 2, 30, 250), -14400),
        ("now", 1_793_514_600, 1_793_514_600, (11, 1, 1, 30, 250), -18000),
        ("today", 1_793_514_600, 1_793_511_000, (11, 1, 1, 30, 250), -14400),
    ]
    for (phrase, now, second, (month, day, hour, minute, millisecond), offset) in cases {
        let wanted = Moment(year: 2026, month: month, day: day, hour: hour, minute: minute, second: 0, millisecond: millisecond)
        for reading in [Reading.first, .second] {
            let local = try due(reading, phrase, newYork, Instant(second: now, millisecond: 250))
            expect(local.instant == Instant(second: second, millisecond: millisecond), phrase + ": the instant")
            expect(local.moment == wanted && local.offset == offset, phrase + ": \(local)")
        }
    }
}

/// A phrase that both calls refuse alike.
func undue(_ reason: Reason, _ phrase: String, _ zone: [UInt8], _ now: Instant) {
    func wanted(_ text: String) -> Refusal { Refusal(number: reason.number, place: 0, length: 0, text: Array(text.utf8)) }
    expect(refusal(reason, phrase) { try Fuzzydate.readInZone(.first, phrase, zone: zone, now: now) } == wanted(phrase), phrase)
    let run = refusal(reason, phrase) { try Fuzzydate.runInZone(Fuzzydate.makeReady(.first, phrase), zone: zone, now: now) }
    expect(run == wanted(""), phrase + ", made ready")
}

func refusedInZones() {
    let cases: [(Reason, String, Instant)] = [
        (.noInstant, "today 2:00", beforeGap),
        (.noInstant, "a month from now", Instant(second: 1_770_535_800, millisecond: 0)),
        (.pastLast, "2 years from now", beforeGap),
        (.pastLast, "now", last),
        (.pastLast, "this month", Instant(second: Int64.max, millisecond: 0)),
        (.invalidMoment, "now", Instant(second: Int64.min, millisecond: 0)),
        (.invalidMoment, "now", Instant(second: last.second, millisecond: 1000)),
        (.noSense, "this month", beforeGap),
        (.noDate, "1000/1/1", beforeGap),
        (.noTime, "january 1, 99", beforeGap),
        (.outside, "four billion days ago", beforeGap),
        (.noLeapDay, "a year from now", Instant(second: 1_709_226_000, millisecond: 0)),
    ]
    for (reason, phrase, now) in cases {
        undue(reason, phrase, newYork, now)
        undue(.noZone, phrase, [], now)
    }
    let unknown = refusal(.unknown, "a word before the zone") { try Fuzzydate.readInZone(.first, "next forty", zone: [], now: last) }
    expect(unknown.place == 5 && unknown.part == Array("forty".utf8), "a word before the zone")
}

/// The file cut short, with each bit changed, and with as many bytes after it as a zone may have, and one more.
func zoneFiles() throws {
    for length in 0..<newYork.count {
        undue(.noZone, "now", Array(newYork.prefix(length)), beforeGap)
    }
    var kept = 0
    for bit in 0..<8 * newYork.count {
        var zone = newYork
        zone[bit / 8] ^= 1 << UInt8(bit % 8)
        do {
            _ = try due(.second, "tomorrow", zone, beforeGap)
            kept += 1
        } catch let refusal as Refusal {
            let others: [Reason?] = [.invalidMoment, .outside, .noZone, .pastLast, .noInstant]
            expect(others.contains(refusal.reason), "bit \(bit): \(refusal)")
        }
    }
    expect(kept > 0, "other zones")
    var longest = newYork + [UInt8](repeating: 0, count: 65_536 - newYork.count)
    expect(try due(.first, "now", longest, beforeGap) == due(.first, "now", newYork, beforeGap), "the longest file")
    longest.append(0)
    undue(.noZone, "now", longest, beforeGap)
    for (offset, bytes) in [(93_599, [0, 1, 109, 159]), (-89_999, [255, 254, 160, 113])] as [(Int32, [UInt8])] {
        var zone = newYork
        zone.replaceSubrange(131..<135, with: bytes)  // the first offset
        expect(try due(.first, "now", zone, beforeGap).offset == offset, "an offset of \(offset)")
    }
}

/// The buffers of both calls are unchanged on a refusal.
func buffersInZones() throws {
    let ready = try Fuzzydate.makeReady(.first, "now")
    for (zone, number) in [(newYork, 22), ([], 21)] as [([UInt8], UInt32)] {
        var due: Int64 = 0xa5, local = fuzzy_local(moment: february(10), west: 0xa5, offset: 0xa5)
        let read = characters(Array("now".utf8)) {
            fuzzy_read_in_zone(1, $0, $1, zone, UInt64(zone.count), last.second, 0, &due, &local)
        }
        let run = fuzzy_run_in_zone(ready, UInt64(ready.count), zone, UInt64(zone.count), last.second, 0, &due, &local)
        expect(fuzzy_number(read) == number && fuzzy_number(run) == number, "a refusal in a zone")
        expect(due == 0xa5 && local.west == 0xa5 && local.moment.day == 10, "nothing written for what is refused in a zone")
    }
}

func boards() throws {
    var board = try Board(now: now)
    expect(board.order() == [], "an empty order")
    let reminders = ["next friday", "tuesday in two weeks", "noon", "an hour ago", "60 minutes ago", "this month"]
    for (slot, phrase) in reminders.enumerated() {
        expect(try board.add(.first, phrase) == UInt32(slot), phrase)
    }
    expect(board.order() == [1, 3, 4, 2, 0, 5], "an order")
    expect(try board.head() == Due(slot: 1, moment: on(2026, 1, 27)), "a head")
    try board.remove(1)
    var hourAgo = now
    hourAgo.hour = 8
    expect(try board.head() == Due(slot: 3, moment: hourAgo), "the head of equal ones")
    let copied = board
    expect(try board.add(.second, Array("tuesday in two weeks".utf8)) == 1, "a slot used again")
    expect(board.order() == [3, 4, 2, 0, 1, 5] && copied.order() == [3, 4, 2, 0, 5], "an order, and that of a copy")
    try board.again(now: leapDay)
    hourAgo = leapDay
    hourAgo.hour = 11
    expect(try board.head() == Due(slot: 3, moment: hourAgo), "the head at an older now")
}

/// A call that is refused leaves every byte of its board.
func left(_ board: inout Board, _ reason: Reason, _ call: (inout Board) throws -> Any) -> Refusal {
    let before = board
    let refused = refusal(reason, "\(reason) of a board") { try call(&board) }
    let same = before.ready == board.ready && before.lengths == board.lengths && before.keys == board.keys
    expect(same && before.state == board.state, "\(reason)")
    return refused
}

func refusedBoards() throws {
    var board = try Board(now: leapDay)
    _ = left(&board, .nothingDue) { try $0.head() }
    expect(try board.add(.first, "a year from now") == 0, "a phrase that refuses at the board's now")
    _ = left(&board, .nothingDue) { try $0.head() }
    try board.again(now: now)
    expect(try board.head().moment.year == 2027, "which has a moment at another")
    for slot: UInt32 in [1, 255, 256, UInt32.max] {
        _ = left(&board, .emptySlot) { try $0.remove(slot) }
    }
    _ = refusal(.invalidMoment, "a board on 30 February") { try Board(now: noDay) }
    _ = left(&board, .invalidMoment) { try $0.again(now: noDay) }
    expect(left(&board, .unknown) { try $0.add(.first, "next forty") }.part == Array("forty".utf8), "the part of a refused phrase")
    for slot: UInt32 in 1..<256 {
        expect(try board.add(.second, "tomorrow") == slot, "a board filled")
    }
    _ = left(&board, .fullBoard) { try $0.add(.first, "now") }
    _ = left(&board, .leftOver) { try $0.add(.first, "5/2") }
    let answer = fuzzy_board_add_in(&board.ready, &board.lengths, &board.keys, &board.state, 3, nil, 0)
    expect(fuzzy_number(answer) == Reason.noReading.number, "no reading on a full board")
    try board.remove(77)
    expect(try board.add(.first, "now") == 77 && board.head() == Due(slot: 77, moment: now), "a slot of a full board")
}

/// Whether a call on any memory answers; its refusal may only be this one.
func answers(_ reason: Reason, _ call: () throws -> Void) {
    do {
        try call()
    } catch let refusal as Refusal {
        expect(refusal.reason == reason, "\(refusal) on any memory")
    } catch {
        fatalError("\(error)")
    }
}

/// Whatever the memory holds, every call answers.
func anyMemory() throws {
    var board = try Board(now: now)
    board.ready = board.ready.map { _ in UInt8.random(in: 0...255) }
    board.lengths = board.lengths.map { _ in UInt32.random(in: 0...UInt32.max) }
    board.keys = board.keys.map { _ in UInt64.random(in: 0...UInt64.max) }
    board.state = board.state.map { _ in UInt32.random(in: 0...UInt32.max) }
    answers(.nothingDue) { _ = try board.head() }
    answers(.emptySlot) { try board.remove(UInt32.random(in: 0...257)) }
    answers(.fullBoard) { _ = try board.add(.first, "noon") }
    expect(board.order().allSatisfy { $0 < 256 }, "an order of any memory")
    try board.again(now: now)
    answers(.nothingDue) { _ = try board.head() }
}

func garbage() throws {
    for length in 0...400 {
        let bytes = (0..<length).map { _ in UInt8.random(in: 0...255) }
        undue(.noZone, "now", bytes, beforeGap)
        _ = refusal(.noSense, "random bytes as a ready phrase in a zone") { try Fuzzydate.runInZone(bytes, zone: newYork, now: beforeGap) }
        _ = refusal(.noSense, "random bytes as a ready phrase") { try Fuzzydate.run(bytes, now: now) }
        _ = refusal(.noStamp, "random bytes as a stamp") { try Fuzzydate.readStamp(bytes) }
        unlisted(bytes, tuesday, .noRule)
        expect(try Fuzzydate.findWord(.second, bytes).comparisons <= 8, "comparisons")
    }
}

/// The version of the binding is that of the repository, and the library says the same of itself.
func versions() throws {
    let version = try String(contentsOfFile: CommandLine.arguments[3], encoding: .utf8).trimmingCharacters(in: .newlines)
    expect(Fuzzydate.version == version && Fuzzydate.libraryVersion == version, "version \(version)")
    try Fuzzydate.checkVersion()
    for library: UInt32 in [1_000_000, 1_000_007, 1_999_000] {
        expect(Fuzzydate.versionError(of: library) == nil, "library \(library)")
    }
    for (library, said) in [(999_999, "0.999.999"), (2_000_000, "2.0.0"), (0, "0.0.0")] as [(UInt32, String)] {
        let text = "fuzzydate 1.0.0 needs version 1.0.0 of its library or a later one of 1.*, and it is \(said)"
        let error = Fuzzydate.versionError(of: library)!
        expect("\(error)" == text && error.localizedDescription == text, "\(error)")
    }
}

func every() throws {
    try moments()
    try momentsInOrder()
    try components()
    try dates()
    try instants()
    try refusals()
    shown()
    try stamps()
    try wordsAndPhrases()
    try rules()
    refusedRules()
    rows()
    try zones()
    refusedInZones()
    try zoneFiles()
    try buffersInZones()
    try boards()
    try refusedBoards()
    try garbage()
    try anyMemory()
}

try asTheHeader()
try versions()
try every()
try longest()
DispatchQueue.concurrentPerform(iterations: 8) { _ in try! every() }
print("bindings/swift: every call answered as it should, and in eight threads at once")
