// Why a call is refused, and the text that shows it to people.
import CFuzzydate
import Foundation

extension Fuzzydate {
    /// Why something is refused, by the names and in the order of fuzzy.h, which says more of each.
    public enum Reason: String, Sendable, CaseIterable {
        case tooLong, unknown, largeDigits, tooMany, nothing, largeSum, leftOver, invalidMoment, noSense, noDate, noTime, outside
        case noLeapDay, noStamp, noReading, notWhole, noRoom, noRule, noStart, noNext, noZone, pastLast, noInstant, fullBoard
        case emptySlot, nothingDue

        /// The reason of a number of fuzzy.h; nil for a number that only a newer library has.
        public init?(number: UInt32) {
            guard (1...UInt32(Self.allCases.count)).contains(number) else { return nil }
            self = Self.allCases[Int(number) - 1]
        }

        /// Its number in fuzzy.h.
        public var number: UInt32 { UInt32(Self.allCases.firstIndex(of: self)!) + 1 }

        /// What is wrong, in words for people.
        public var words: String { String(cString: fuzzy_words(number)) }
    }

    /// A refusal: its number, where the refused part of the text begins, in bytes, that part, and the text itself. The text is the
    /// phrase, the stamp or the rule, and is empty where there is none; so is the part where nothing stands out.
    public struct Refusal: Error, Hashable, Sendable {
        public let number: UInt32
        public let place: Int
        public let part: [UInt8]
        public let text: [UInt8]

        init(number: UInt32, place: Int, length: Int, text: [UInt8]) {
            (self.number, self.place, self.text) = (number, place, text)
            part = Array(text.dropFirst(place).prefix(length))
        }

        /// Why it is refused; nil for a number that only a newer library has.
        public var reason: Reason? { Reason(number: number) }

        /// The reason's name, as in "unknown"; nil for a number that only a newer library has.
        public var name: String? { reason?.rawValue }

        /// What is wrong, in words for people.
        public var words: String { String(cString: fuzzy_words(number)) }
    }

    /// The library that is linked is of another major version than this binding, or older.
    public struct VersionError: Error, Hashable, Sendable {
        /// The version of the library.
        public let library: String
    }

    /// The version of this binding; `libraryVersion` is that of the library.
    public static let version = "1.0.0"

    /// The version of the library, such as "1.0.0".
    public static var libraryVersion: String { inDigits(fuzzy_version()) }

    /// Throws a VersionError unless the library has all that this binding calls, in the same form. Every call that throws does this
    /// first.
    public static func checkVersion() throws {
        if let error = linkedError {
            throw error
        }
    }

    private static let linkedError = versionError(of: fuzzy_version())

    /// What is wrong with a library of this version.
    static func versionError(of library: UInt32) -> VersionError? {
        let own = version.split(separator: ".").compactMap { UInt32($0) }
        let fits = library / 1_000_000 == own[0] && library / 1000 % 1000 >= own[1]
        return fits ? nil : VersionError(library: inDigits(library))
    }

    private static func inDigits(_ version: UInt32) -> String {
        "\(version / 1_000_000).\(version / 1000 % 1000).\(version % 1000)"
    }
}

extension Fuzzydate.VersionError: CustomStringConvertible, LocalizedError {
    public var description: String {
        let own = Fuzzydate.version
        return "fuzzydate \(own) needs version \(own) of its library or a later one of \(own.prefix { $0 != "." }).*, and it is \(library)"
    }

    public var errorDescription: String? { description }
}

extension Fuzzydate.Refusal: CustomStringConvertible, LocalizedError {
    /// The most of a text that is shown, in bytes; a longer phrase is refused anyway.
    private static let mostShown = 256

    /// The words, and below them the text with its part underlined.
    public var description: String {
        let said = reason == nil ? "\(words): \(number)" : words
        if text.isEmpty || text.count > Self.mostShown {
            return said
        }
        let before = Self.onOneLine(text.prefix(place))
        let refused = Self.onOneLine(text.dropFirst(place).prefix(underlined))
        let after = Self.onOneLine(text.dropFirst(place + underlined))
        let line = "\(said)\n    \(before)\(refused)\(after)"
        let blanks = String(repeating: " ", count: before.count), marks = String(repeating: "^", count: refused.count)
        return part.isEmpty ? line : "\(line)\n    \(blanks)\(marks)"
    }

    public var errorDescription: String? { description }

    /// How many bytes are underlined: the part, up to the end of a UTF-8 character, of which it can be the first byte alone.
    private var underlined: Int {
        part.isEmpty ? 0 : part.count + text.dropFirst(place + part.count).prefix { $0 & 0xc0 == 0x80 }.count
    }

    /// A text for people: blanks are spaces, and what cannot be shown is escaped.
    private static func onOneLine(_ bytes: ArraySlice<UInt8>) -> String {
        let hidden: [Unicode.GeneralCategory] = [.control, .format, .surrogate, .privateUse, .unassigned]
        return String(decoding: bytes, as: UTF8.self).unicodeScalars.map { scalar in
            if scalar.properties.isWhitespace {
                return " "
            }
            return hidden.contains(scalar.properties.generalCategory) ? scalar.escaped(asASCII: true) : String(scalar)
        }.joined()
    }
}
