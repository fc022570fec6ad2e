// Moments and instants from and to Foundation's DateComponents and Date. What a type cannot hold is an error; only a call whose name
// says so cuts.
import Foundation

extension Fuzzydate {
    /// What a type cannot hold, in words for people.
    public struct ConversionError: Error, Hashable, Sendable, CustomStringConvertible, LocalizedError {
        public let description: String

        public var errorDescription: String? { description }
    }
}

extension Fuzzydate.Moment {
    /// The moment of a Gregorian calendar's components, of which hour, minute, second and nanosecond are 0 where they are missing.
    /// A ConversionError says which is missing, has no place in a moment (a time zone, a weekday, another calendar's), or is too
    /// large or too small; a nanosecond must be of whole milliseconds.
    public init(_ components: DateComponents) throws {
        if let nanosecond = components.nanosecond, nanosecond % nanosecondsAMillisecond != 0 {
            throw Fuzzydate.ConversionError(description: "nanosecond \(nanosecond) is not of whole milliseconds")
        }
        try self.init(cuttingToMilliseconds: components)
    }

    /// The same, but that a nanosecond is cut to whole milliseconds.
    public init(cuttingToMilliseconds components: DateComponents) throws {
        try components.checkOnlyDateAndTime()
        func number(_ name: String, _ value: Int?) throws -> UInt32 {
            guard let value = value else { throw Fuzzydate.ConversionError(description: "there is no \(name)") }
            guard let number = UInt32(exactly: value) else { throw Fuzzydate.ConversionError(description: "there is no \(name) \(value)") }
            return number
        }
        self.init(
            year: try number("year", components.year), month: try number("month", components.month),
            day: try number("day", components.day), hour: try number("hour", components.hour ?? 0),
            minute: try number("minute", components.minute ?? 0), second: try number("second", components.second ?? 0),
            millisecond: try number("nanosecond", components.nanosecond ?? 0) / UInt32(nanosecondsAMillisecond))
    }

    /// The same numbers as components, without a calendar and a time zone.
    public var components: DateComponents {
        DateComponents(
            year: Int(year), month: Int(month), day: Int(day), hour: Int(hour), minute: Int(minute), second: Int(second),
            nanosecond: Int(millisecond) * nanosecondsAMillisecond)
    }

    /// What the clocks of a time zone show at a date. A ConversionError is thrown for a date that is not of whole milliseconds, as
    /// the clock's seldom is, and for one outside the years 1 to 9999.
    public init(_ date: Date, in zone: TimeZone) throws {
        try self.init(shownAt: try date.wholeMilliseconds(), zone)
    }

    /// What the clocks of a time zone show at a date, cut to whole milliseconds, as for the clock's: `Date()`.
    public init(cuttingToMilliseconds date: Date, in zone: TimeZone) throws {
        try self.init(shownAt: try date.cutMilliseconds(), zone)
    }

    private init(shownAt milliseconds: Int64, _ zone: TimeZone) throws {
        let offset = Int64(zone.secondsFromGMT(for: Date(milliseconds: milliseconds)))
        let passed = milliseconds + 1000 * (offset + secondsToReference)
        let (seconds, millisecond) = passed.quotientAndRemainder(dividingBy: 1000)
        guard passed >= 0, let (year, month, day) = calendarDate(seconds / secondsADay) else {
            throw Fuzzydate.ConversionError(description: "the date is outside the years 1 to 9999")
        }
        let second = UInt32(seconds % secondsADay)
        self.init(
            year: year, month: month, day: day, hour: second / 3600, minute: second / 60 % 60, second: second % 60,
            millisecond: UInt32(millisecond))
    }

    /// The date at which the clocks of a time zone show this moment, the earlier of two. A ConversionError is thrown for a moment
    /// that is not a valid date and time, and for one that the clocks skip.
    public func date(in zone: TimeZone) throws -> Date {
        guard let day = dayNumber, hour < 24, minute < 60, second < 60, millisecond < 1000 else {
            throw Fuzzydate.ConversionError(description: "\(self) is not a valid date and time")
        }
        let shown = secondsADay * day + Int64(3600 * hour + 60 * minute + second) - secondsToReference
        func offset(_ second: Int64) -> Int64 { Int64(zone.secondsFromGMT(for: Date(milliseconds: 1000 * second))) }
        let candidates = [-secondsADay, 0, secondsADay].map { shown - offset(shown + $0) }
        guard let second = candidates.filter({ $0 + offset($0) == shown }).min() else {
            throw Fuzzydate.ConversionError(description: "\(self) is a time that the clocks of \(zone.identifier) skip")
        }
        return Date(milliseconds: 1000 * second + Int64(millisecond))
    }

    /// The days from 1 January of year 1 to this date; nil for a date that does not exist.
    private var dayNumber: Int64? {
        guard (1...9999).contains(year), (1...12).contains(month), (1...31).contains(day) else { return nil }
        let early: Int64 = month < 3 ? 1 : 0  // years are counted from March on, so that a leap day is the last
        let years = Int64(year) - early, months = Int64(month) + 12 * early - 3
        let number = Int64(day) + (153 * months + 2) / 5 + 365 * years + years / 4 - years / 100 + years / 400 - 307
        return calendarDate(number).map { $0 == (year, month, day) } == true ? number : nil
    }
}

extension Fuzzydate.Instant {
    /// The instant of a date. A ConversionError is thrown for a date that is not of whole milliseconds, as the clock's seldom is.
    public init(_ date: Date) throws {
        self.init(milliseconds: try date.wholeMilliseconds())
    }

    /// The instant of a date, cut to whole milliseconds, as for the clock's: `Date()`.
    public init(cuttingToMilliseconds date: Date) throws {
        self.init(milliseconds: try date.cutMilliseconds())
    }

    private init(milliseconds: Int64) {
        let millisecond = (milliseconds % 1000 + 1000) % 1000
        self.init(second: (milliseconds - millisecond) / 1000 + referenceSecond, millisecond: UInt32(millisecond))
    }

    /// The date of this instant. A ConversionError is thrown where Date cannot hold it to the millisecond.
    public var date: Date {
        get throws {
            guard (-mostSeconds...mostSeconds).contains(second), millisecond < 1000 else {
                throw Fuzzydate.ConversionError(description: "second \(second) and millisecond \(millisecond) are no Date")
            }
            return Date(milliseconds: 1000 * (second - referenceSecond) + Int64(millisecond))
        }
    }
}

extension Fuzzydate.Local {
    /// The date of the instant.
    public var date: Date { get throws { try instant.date } }
}

private let nanosecondsAMillisecond = 1_000_000
private let secondsADay: Int64 = 86_400

/// Date counts from 2001-01-01T00:00:00Z: the seconds to there from 1970, and from year 1.
private let referenceSecond: Int64 = 978_307_200
private let secondsToReference: Int64 = 730_485 * 86_400

/// Beyond so many seconds, some ten thousand years, a Date is outside every calendar here.
private let mostSeconds: Int64 = 1_000_000_000_000

/// The date of a day that is counted from 1 January of year 1, by the Gregorian rule throughout; nil outside the years 1 to 9999.
private func calendarDate(_ number: Int64) -> (UInt32, UInt32, UInt32)? {
    guard (0..<3_652_059).contains(number) else { return nil }
    let cycle = (number + 306) / 146_097, day = (number + 306) % 146_097  // 400 years from March on
    let year = (day - day / 1460 + day / 36_524 - day / 146_096) / 365
    let dayOfYear = day - (365 * year + year / 4 - year / 100), month = (5 * dayOfYear + 2) / 153
    let dayOfMonth = dayOfYear - (153 * month + 2) / 5 + 1
    return (UInt32(400 * cycle + year + (month < 10 ? 0 : 1)), UInt32(month < 10 ? month + 3 : month - 9), UInt32(dayOfMonth))
}

extension Date {
    fileprivate init(milliseconds: Int64) {
        self.init(timeIntervalSinceReferenceDate: Double(milliseconds) / 1000)
    }

    /// The milliseconds since 2001, where this is the date nearest to them.
    fileprivate func wholeMilliseconds() throws -> Int64 {
        let milliseconds = try nearestMilliseconds()
        guard Date(milliseconds: milliseconds) == self else {
            throw Fuzzydate.ConversionError(description: "\(timeIntervalSince1970) seconds since 1970 are not of whole milliseconds")
        }
        return milliseconds
    }

    /// The last whole millisecond that is not after this.
    fileprivate func cutMilliseconds() throws -> Int64 {
        let milliseconds = try nearestMilliseconds()
        return Date(milliseconds: milliseconds) <= self ? milliseconds : milliseconds - 1
    }

    private func nearestMilliseconds() throws -> Int64 {
        guard abs(timeIntervalSinceReferenceDate) < Double(mostSeconds) else {
            throw Fuzzydate.ConversionError(description: "the date is outside the years 1 to 9999")
        }
        return Int64((timeIntervalSinceReferenceDate * 1000).rounded())
    }
}

extension DateComponents {
    /// Throws for what a moment has no place for.
    fileprivate func checkOnlyDateAndTime() throws {
        if let calendar = calendar, ![.gregorian, .iso8601].contains(calendar.identifier) {
            throw Fuzzydate.ConversionError(description: "the calendar is not the Gregorian")
        }
        let placeless: [(String, Int?)] = [
            ("quarter", quarter), ("weekday", weekday), ("weekdayOrdinal", weekdayOrdinal), ("weekOfMonth", weekOfMonth),
            ("weekOfYear", weekOfYear), ("yearForWeekOfYear", yearForWeekOfYear), ("era", era == 1 ? nil : era),
        ]
        let names = placeless.filter { $0.1 != nil }.map { $0.0 } + (timeZone == nil ? [] : ["timeZone"])
        if let name = names.first {
            throw Fuzzydate.ConversionError(description: "a moment has no place for \(name)")
        }
    }
}
