use crate::calls::{fuzzy_find_word, fuzzy_read};
use crate::{Moment, Refusal};

/// The two readings of a phrase. They differ in what "in" after a weekday means, in what the year after month and day is, and in
/// ordinals, spellings and commas.
///
/// ```
/// # use fuzzydate::{read, Moment, Reading};
/// let wednesday = Moment { year: 2026, month: 2, day: 11, hour: 9, minute: 30, second: 15, millisecond: 0 };
/// let due = |reading| read(reading, "tuesday in two weeks", wednesday).unwrap().to_string();
/// assert_eq!(due(Reading::First), "2026-01-27 09:30:15");
/// assert_eq!(due(Reading::Second), "2026-03-03 09:30:15");
///
/// assert!(read(Reading::First, "march 3 5 pm", wednesday).is_err());
/// assert_eq!(read(Reading::Second, "march 3 5 pm", wednesday).unwrap().to_string(), "2026-03-03 17:00:00");
/// assert_eq!(read(Reading::Second, "3 march 5", wednesday).unwrap().to_string(), "0005-03-03 09:30:15");
///
/// assert!(read(Reading::First, "january 1st, 2010", wednesday).is_err());
/// assert_eq!(read(Reading::Second, "january 1st, 2010", wednesday).unwrap().to_string(), "2010-01-01 09:30:15");
/// ```
#[derive(Clone, Copy, Debug, PartialEq, Eq, Hash)]
#[repr(u32)]
pub enum Reading {
    /// As the original Rust library reads it: "in" after a weekday goes back in time, and any number after month and day is a year.
    First = 1,
    /// "in" after a weekday goes forward by the duration, and on to the first such weekday, that day included. After month and day only a
    /// number of exactly four digits is a year, and a comma may come before it. Any ending may follow digits; "forty", "fortieth" and
    /// "eighth" are words.
    Second = 2,
}

/// Reads a phrase at a now, in one of the two readings.
///
/// ```
/// # use fuzzydate::{read, Moment, Reading, Reason};
/// let now = Moment { year: 2024, month: 2, day: 29, hour: 12, minute: 0, second: 0, millisecond: 0 };
/// assert_eq!(read(Reading::First, "12 months from now", now).unwrap().to_string(), "2025-02-28 12:00:00");
/// assert_eq!(read(Reading::First, "5/2", now).unwrap_err().part(), b"/2");
/// assert_eq!(read(Reading::First, "", now).unwrap_err().reason(), Reason::Nothing);
/// ```
pub fn read<P: AsRef<[u8]> + ?Sized>(reading: Reading, phrase: &P, now: Moment) -> Result<Moment, Refusal> {
    let bytes = phrase.as_ref();
    let mut moment = Moment::NONE;
    // SAFETY: the pointer is that of a slice, whose size is said.
    let answer = unsafe { fuzzy_read(reading as u32, bytes.as_ptr(), bytes.len() as u64, &now, &mut moment) };
    answer.check(bytes).map(|_| moment)
}

/// What looking a word up says.
#[derive(Clone, Copy, Debug, PartialEq, Eq, Hash)]
pub struct FoundWord {
    /// The code of the word's lexeme, the same for words of one meaning; none where the reading has no such word.
    pub code: Option<u32>,
    /// How many words of the reading's table it was compared with: at most 8.
    pub comparisons: u32,
}

/// Says of a word, while it is typed, whether it is one of a reading's words; letters in either case. An empty word, and one with bytes
/// other than letters, is none, and its comparisons are counted like any other's.
///
/// ```
/// # use fuzzydate::{find_word, Reading};
/// let days = find_word(Reading::First, "Days");
/// assert_eq!(days.code, find_word(Reading::First, "day").code);
/// assert!(days.comparisons <= 8);
///
/// assert_eq!(find_word(Reading::First, "forty").code, None);
/// assert_eq!(find_word(Reading::Second, "forty").code, find_word(Reading::Second, "fourty").code);
/// ```
pub fn find_word<W: AsRef<[u8]> + ?Sized>(reading: Reading, word: &W) -> FoundWord {
    let bytes = word.as_ref();
    let mut found = [0; 2];
    // SAFETY: the pointer is that of a slice, whose size is said. A `Reading` is never refused.
    unsafe { fuzzy_find_word(reading as u32, bytes.as_ptr(), bytes.len() as u64, &mut found) };
    let [code, comparisons] = found;
    FoundWord { code: (code != 0).then_some(code), comparisons }
}
