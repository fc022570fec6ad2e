use alloc::boxed::Box;
use alloc::string::String;
use core::fmt;

use crate::calls::Answer;

/// Why a call is refused. Of several reasons the first in this order is given, except that `NoReading` comes first of all, `NoStamp` before
/// `Outside`, `NoZone` just before `InvalidMoment`, `PastLast` for the now just after it, and `PastLast` and `NoInstant` for any other
/// moment where it arises.
#[non_exhaustive]
#[derive(Clone, Copy, Debug, PartialEq, Eq, PartialOrd, Ord, Hash)]
pub enum Reason {
    /// The phrase has more than 256 bytes.
    TooLong,
    /// A word that is not known, or a byte without a meaning.
    Unknown,
    /// Digits above 4,294,967,295.
    LargeDigits,
    /// More than 64 words, numbers and marks.
    TooMany,
    /// No date or time in the phrase.
    Nothing,
    /// A number in words above 4,294,967,295.
    LargeSum,
    /// Something follows the date or time.
    LeftOver,
    /// A given moment (now, start, asked or written) is not a date and time of the years 1 to 9999.
    InvalidMoment,
    /// The phrase has no sense, or the bytes are not a ready phrase.
    NoSense,
    /// No such month or day.
    NoDate,
    /// No such time of day.
    NoTime,
    /// Outside the years 1 to 9999.
    Outside,
    /// A step of years from 29 February into a year without one.
    NoLeapDay,
    /// Not an RFC 3339 stamp: another form, or no such date, time or offset.
    NoStamp,
    /// A reading other than 1 and 2, which [`Reading`](crate::Reading) cannot be.
    NoReading,
    /// A phrase cannot show the moment's second or millisecond.
    NotWhole,
    /// The buffer for the text is too short; those of this crate never are.
    NoRoom,
    /// Not an RFC 5545 rule, or one that is not accepted.
    NoRule,
    /// The start does not match the rule, or is after its UNTIL.
    NoStart,
    /// No occurrence of the rule is at or after the asked moment.
    NoNext,
    /// Not a TZif file of version 2 or later, or one beyond the limits.
    NoZone,
    /// At or after the last transition of the zone's file.
    PastLast,
    /// A time that the zone's clocks skip.
    NoInstant,
    /// No slot of the board is free.
    FullBoard,
    /// The slot is empty.
    EmptySlot,
    /// No reminder of the board has a moment.
    NothingDue,
    /// A reason of a newer library, by its number.
    Other(u32),
}

/// The reasons that are known, in the order of their numbers, which begin with 1, and the words of fuzzy.h for each.
const KNOWN: [(Reason, &str); 26] = [
    (Reason::TooLong, "longer than 256 bytes"),
    (Reason::Unknown, "not understood"),
    (Reason::LargeDigits, "number too large"),
    (Reason::TooMany, "more than 64 words, numbers and marks"),
    (Reason::Nothing, "no date or time in it"),
    (Reason::LargeSum, "number in words too large"),
    (Reason::LeftOver, "not part of the date or time"),
    (Reason::InvalidMoment, "the given moment is not a valid date and time"),
    (Reason::NoSense, "makes no sense"),
    (Reason::NoDate, "no such month or day"),
    (Reason::NoTime, "no such time of day"),
    (Reason::Outside, "outside the years 1 to 9999"),
    (Reason::NoLeapDay, "29 February is not in that year"),
    (Reason::NoStamp, "not an RFC 3339 date and time"),
    (Reason::NoReading, "no such reading"),
    (Reason::NotWhole, "a phrase shows no seconds"),
    (Reason::NoRoom, "no room for the text"),
    (Reason::NoRule, "not a repeating rule that is accepted"),
    (Reason::NoStart, "the start is not an occurrence of the rule"),
    (Reason::NoNext, "no occurrence is left"),
    (Reason::NoZone, "not a zone file that is accepted"),
    (Reason::PastLast, "later than the zone's file knows"),
    (Reason::NoInstant, "the zone's clocks skip that time"),
    (Reason::FullBoard, "no slot is free"),
    (Reason::EmptySlot, "the slot is empty"),
    (Reason::NothingDue, "no reminder has a moment"),
];

impl Reason {
    /// The reason of a number in fuzzy.h: `Other` for one that is not known here; none for 0, which is success.
    ///
    /// ```
    /// # use fuzzydate::Reason;
    /// assert_eq!(Reason::from_number(2), Some(Reason::Unknown));
    /// assert_eq!(Reason::from_number(900).map(Reason::words), Some("a refusal of a newer library"));
    /// assert_eq!(Reason::from_number(0), None);
    /// ```
    pub fn from_number(number: u32) -> Option<Reason> {
        let place = (number as usize).checked_sub(1)?;
        Some(KNOWN.get(place).map_or(Reason::Other(number), |(reason, _)| *reason))
    }

    /// Its number in fuzzy.h.
    pub fn number(self) -> u32 {
        match self {
            Reason::Other(number) => number,
            _ => (1..).zip(KNOWN).find(|(_, (reason, _))| *reason == self).map_or(0, |(number, _)| number),
        }
    }

    /// What is wrong, in words to be shown to people.
    pub fn words(self) -> &'static str {
        KNOWN.into_iter().find(|(reason, _)| *reason == self).map_or("a refusal of a newer library", |(_, words)| words)
    }
}

impl fmt::Display for Reason {
    fn fmt(&self, f: &mut fmt::Formatter<'_>) -> fmt::Result {
        f.write_str(self.words())
    }
}

/// A refusal: why, and which part of the phrase, where a part of it is refused. It owns what it says, and its text shows the phrase with
/// the part underlined:
///
/// ```
/// # use fuzzydate::{make_ready, Reading, Reason};
/// let refusal = make_ready(Reading::First, "next forty").unwrap_err();
/// assert_eq!((refusal.number(), refusal.reason(), refusal.words()), (2, Reason::Unknown, "not understood"));
/// assert_eq!((refusal.place(), refusal.part()), (5, &b"forty"[..]));
/// assert_eq!(refusal.to_string(), "\
/// not understood
///   next forty
///        ^^^^^");
///
/// fn due(field: &[u8]) -> Result<Vec<u8>, Box<dyn std::error::Error>> {
///     let phrase = String::from_utf8(field.to_vec())?;
///     Ok(make_ready(Reading::First, &phrase)?.as_bytes().to_vec())
/// }
/// assert!(due(b"forty days ago").is_err());
/// ```
#[derive(Clone, PartialEq, Eq)]
pub struct Refusal {
    reason: Reason,
    place: usize,
    length: usize,
    /// The whole phrase where a part of it is refused, else nothing.
    phrase: Box<[u8]>,
}

impl Refusal {
    /// The refusal of a phrase that an answer is.
    pub(crate) fn new(answer: Answer, phrase: &[u8]) -> Refusal {
        let (place, length) = (answer.place(), answer.length() as usize);
        let has_part = length > 0 && place.checked_add(length).is_some_and(|end| end <= phrase.len());
        Refusal {
            reason: Reason::from_number(u32::from(answer.number())).unwrap_or(Reason::Other(0)),
            place,
            length: if has_part { length } else { 0 },
            phrase: if has_part { phrase.into() } else { Box::default() },
        }
    }

    /// Its number in fuzzy.h.
    pub fn number(&self) -> u32 {
        self.reason.number()
    }

    /// Why.
    pub fn reason(&self) -> Reason {
        self.reason
    }

    /// What is wrong, in words to be shown to people.
    pub fn words(&self) -> &'static str {
        self.reason.words()
    }

    /// Where the refused part begins, in bytes.
    pub fn place(&self) -> usize {
        self.place
    }

    /// The word, byte or digits that are refused, or all that is left over; empty where no part of the phrase is refused.
    pub fn part(&self) -> &[u8] {
        self.phrase.get(self.place..self.place + self.length).unwrap_or_default()
    }

    /// The phrase for people to read, and a line that underlines its refused part. A control character, and a byte that is not UTF-8, is
    /// shown by its number.
    fn underlined(&self) -> (String, String) {
        let mut lines = Underlined { text: String::new(), line: String::new() };
        let mut place = 0;
        for chunk in self.phrase.utf8_chunks() {
            for character in chunk.valid().chars() {
                let end = place + character.len_utf8();
                let mark = self.mark(place, end);
                match character.is_control() {
                    true => lines.push_numbers(&self.phrase[place..end], mark),
                    false => lines.push(character, mark),
                }
                place = end;
            }
            for byte in chunk.invalid() {
                lines.push_numbers(&[*byte], self.mark(place, place + 1));
                place += 1;
            }
        }
        (lines.text, lines.line)
    }

    /// What stands under the bytes of a character.
    fn mark(&self, begin: usize, end: usize) -> char {
        if begin < self.place + self.length && end > self.place {
            '^'
        } else {
            ' '
        }
    }
}

/// A text, and under each of its characters a mark.
struct Underlined {
    text: String,
    line: String,
}

impl Underlined {
    fn push(&mut self, character: char, mark: char) {
        self.text.push(character);
        self.line.push(mark);
    }

    fn push_numbers(&mut self, bytes: &[u8], mark: char) {
        for byte in bytes {
            for character in alloc::format!("\\x{byte:02x}").chars() {
                self.push(character, mark);
            }
        }
    }
}

impl fmt::Display for Refusal {
    fn fmt(&self, f: &mut fmt::Formatter<'_>) -> fmt::Result {
        f.write_str(self.words())?;
        if self.part().is_empty() {
            return Ok(());
        }
        let (text, line) = self.underlined();
        write!(f, "\n  {text}\n  {}", line.trim_end())
    }
}

/// The reason and, where a part is refused, the phrase, the place and the part.
impl fmt::Debug for Refusal {
    fn fmt(&self, f: &mut fmt::Formatter<'_>) -> fmt::Result {
        let mut shown = f.debug_struct("Refusal");
        shown.field("reason", &self.reason);
        if !self.part().is_empty() {
            shown.field("phrase", &format_args!("\"{}\"", self.phrase.escape_ascii()));
            shown.field("place", &self.place);
            shown.field("part", &format_args!("\"{}\"", self.part().escape_ascii()));
        }
        shown.finish()
    }
}

impl core::error::Error for Refusal {}

#[cfg(test)]
mod tests {
    use alloc::string::ToString;

    use super::*;

    /// An answer as a library gives it.
    fn answer(number: u64, place: u64, length: u64) -> Answer {
        Answer(number | place << 16 | length << 32)
    }

    #[test]
    fn carries_what_a_newer_library_refuses() {
        let refusal = Refusal::new(answer(900, 3, 1), b"at 5");
        assert_eq!((refusal.number(), refusal.reason(), refusal.place(), refusal.part()), (900, Reason::Other(900), 3, &b"5"[..]));
        assert_eq!(refusal.to_string(), "a refusal of a newer library\n  at 5\n     ^");
    }

    #[test]
    fn has_no_part_outside_the_phrase() {
        for (place, length) in [(0, 5), (4, 1), (5, 0), (0xffff, 0xffff_ffff)] {
            let refusal = Refusal::new(answer(2, place, length), b"at 5");
            assert_eq!((refusal.part(), refusal.to_string().as_str()), (&b""[..], "not understood"));
        }
    }
}
