// What the calls take and give as times: moments, stamps, instants, and what a zone's clocks show.
import CFuzzydate

extension Fuzzydate {
    /// A date and time of the years 1 to 9999, with milliseconds from 0 to 999. Other numbers fit too: such a moment is refused.
    public struct Moment: Hashable, Codable, Sendable {
        public var year, month, day, hour, minute, second, millisecond: UInt32

        public init(
            year: UInt32, month: UInt32, day: UInt32, hour: UInt32 = 0, minute: UInt32 = 0, second: UInt32 = 0, millisecond: UInt32 = 0
        ) {
            (self.year, self.month, self.day) = (year, month, day)
            (self.hour, self.minute, self.second, self.millisecond) = (hour, minute, second, millisecond)
        }

        init(_ m: fuzzy_moment) {
            (year, month, day) = (m.year, m.month, m.day)
            (hour, minute, second, millisecond) = (m.hour, m.minute, m.second, m.millisecond)
        }

        /// A copy as the library takes it, so that no two buffers of a call overlap.
        var forC: fuzzy_moment {
            fuzzy_moment(year: year, month: month, day: day, hour: hour, minute: minute, second: second, millisecond: millisecond)
        }
    }

    /// A distance from UTC in minutes, 0 to 1439.
    public enum Offset: Hashable, Codable, Sendable {
        /// By 0 minutes it is "Z".
        case east(UInt32)
        /// By 0 minutes it is written as `unknown` is.
        case west(UInt32)
        /// "-00:00": the moment is UTC, and the offset where it was written is not known.
        case unknown
    }

    /// A moment as RFC 3339 text has it, and its offset.
    public struct Stamp: Hashable, Codable, Sendable {
        public var moment: Moment
        public var offset: Offset

        public init(moment: Moment, offset: Offset) {
            (self.moment, self.offset) = (moment, offset)
        }

        init(_ stamp: fuzzy_stamp) {
            moment = Moment(stamp.moment)
            offset = stamp.west == 0 ? .east(stamp.offset) : stamp.offset == 0 ? .unknown : .west(stamp.offset)
        }

        var forC: fuzzy_stamp {
            switch offset {
            case .east(let minutes): return fuzzy_stamp(moment: moment.forC, west: 0, offset: minutes)
            case .west(let minutes): return fuzzy_stamp(moment: moment.forC, west: 1, offset: minutes)
            case .unknown: return fuzzy_stamp(moment: moment.forC, west: 1, offset: 0)
            }
        }
    }

    /// An instant: a second, counted from 1970-01-01T00:00:00Z and negative before it, and a millisecond of it from 0 to 999. Other
    /// milliseconds fit too: such a now is refused.
    public struct Instant: Hashable, Codable, Sendable {
        public var second: Int64
        public var millisecond: UInt32

        public init(second: Int64, millisecond: UInt32) {
            (self.second, self.millisecond) = (second, millisecond)
        }
    }

    /// What the clocks of a zone show at an instant: a moment, and its distance from UTC in seconds, negative to the west.
    public struct Local: Hashable, Codable, Sendable {
        public let instant: Instant
        public let moment: Moment
        public let offset: Int32

        init(_ second: Int64, _ local: fuzzy_local) {
            (instant, moment) = (Instant(second: second, millisecond: local.moment.millisecond), Moment(local.moment))
            offset = local.west == 0 ? Int32(local.offset) : -Int32(local.offset)
        }
    }
}

extension Fuzzydate.Moment: Comparable, CustomStringConvertible {
    private var inOrder: [UInt32] { [year, month, day, hour, minute, second, millisecond] }

    public static func < (one: Self, other: Self) -> Bool {
        one.inOrder.lexicographicallyPrecedes(other.inOrder)
    }

    /// As in "2026-02-11T09:30:15.250"; a millisecond of 0 is left out.
    public var description: String {
        func digits(_ number: UInt32, _ count: Int) -> String {
            let text = String(number)
            return String(repeating: "0", count: max(0, count - text.count)) + text
        }
        let date = "\(digits(year, 4))-\(digits(month, 2))-\(digits(day, 2))"
        let time = "\(digits(hour, 2)):\(digits(minute, 2)):\(digits(second, 2))"
        return millisecond == 0 ? "\(date)T\(time)" : "\(date)T\(time).\(digits(millisecond, 3))"
    }
}

extension Fuzzydate.Instant: Comparable {
    public static func < (one: Self, other: Self) -> Bool {
        (one.second, one.millisecond) < (other.second, other.millisecond)
    }
}
