// What is due first.
import CFuzzydate

extension Fuzzydate {
    /// A slot of a board, and its reminder's moment.
    public struct Due: Hashable, Sendable {
        public let slot: UInt32
        public let moment: Moment
    }

    /// Up to 256 reminders, each in a slot of 0 to 255, and the order of their moments at the board's now. A refused call leaves all
    /// of it unchanged.
    public struct Board: Sendable {
        var ready = [UInt8](repeating: 0, count: Int(FUZZY_BOARD_READY_SIZE))
        var lengths = Fuzzydate.numbers(FUZZY_BOARD_SLOTS)
        var keys = [UInt64](repeating: 0, count: Int(FUZZY_BOARD_SLOTS))
        var state = Fuzzydate.numbers(FUZZY_MOMENT_NUMBERS + 1)

        /// An empty board at a now.
        public init(now: Moment) throws {
            var now = now.forC
            try Fuzzydate.answered { fuzzy_board_make_in(&lengths, &state, &now) }
        }

        /// Adds a reminder, made ready in a reading, and gives its slot, the lowest that was free. Refused as `makeReady`, then where
        /// the board is full. A phrase without a moment at the board's now is accepted: it comes last, and may have a moment at
        /// another now.
        @discardableResult
        public mutating func add(_ reading: Reading, _ phrase: [UInt8]) throws -> UInt32 {
            let slot = try Fuzzydate.answered(phrase) {
                fuzzy_board_add_in(&ready, &lengths, &keys, &state, reading.rawValue, $0, $1)
            }
            return UInt32(slot)
        }

        @discardableResult
        public mutating func add(_ reading: Reading, _ phrase: String) throws -> UInt32 {
            try add(reading, Array(phrase.utf8))
        }

        /// Removes a reminder: its slot is free again.
        public mutating func remove(_ slot: UInt32) throws {
            try Fuzzydate.answered { fuzzy_board_remove_in(&lengths, &keys, &state, slot) }
        }

        /// Runs all reminders again at another now, later or earlier, which is then the board's.
        public mutating func again(now: Moment) throws {
            var now = now.forC
            try Fuzzydate.answered { fuzzy_board_again_in(ready, lengths, &keys, &state, &now) }
        }

        /// Finds what is due first: the earliest moment of all reminders at the board's now, and of equal ones the lowest slot.
        /// Refused where no reminder has a moment.
        public func head() throws -> Due {
            var moment = fuzzy_moment()
            let slot = try Fuzzydate.answered { fuzzy_board_head_in(keys, state, &moment) }
            return Due(slot: UInt32(slot), moment: Moment(moment))
        }

        /// Lists the filled slots, each once: by moment and, for equal ones, by slot; after them those without a moment at the
        /// board's now, by slot.
        public func order() -> [UInt32] {
            var slots = Fuzzydate.numbers(FUZZY_BOARD_SLOTS)
            let count = Int(fuzzy_length(fuzzy_board_order_in(keys, state, &slots)))  // never refused
            return Array(slots.prefix(count))
        }
    }
}
