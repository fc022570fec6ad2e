//! Reminder phrases such as "next friday at 3 pm", read at a now that the caller gives.
//!
//! ```
//! use fuzzydate::{read, Moment, Reading};
//!
//! let now = Moment { year: 2026, month: 2, day: 11, hour: 9, minute: 30, second: 15, millisecond: 0 };
//! assert_eq!(read(Reading::First, "next friday at 3 pm", now).unwrap().to_string(), "2026-02-20 15:00:00");
//!
//! let refusal = read(Reading::First, "forty days ago", now).unwrap_err();
//! assert_eq!(refusal.part(), b"forty");
//! assert_eq!(refusal.to_string(), "\
//! not understood
//!   forty days ago
//!   ^^^^^");
//! ```
//!
//! A phrase can be made ready without a now, stored, sent, and run at any now:
//!
//! ```
//! use fuzzydate::{make_ready, Moment, Reading, Ready, Reason};
//!
//! let ready = make_ready(Reading::First, "a year from now").unwrap();
//! let stored = ready.as_bytes().to_vec();
//!
//! let leap_day = Moment { year: 2024, month: 2, day: 29, hour: 12, minute: 0, second: 0, millisecond: 0 };
//! let refusal = Ready::from_bytes(&stored).unwrap().run(leap_day).unwrap_err();
//! assert_eq!(refusal.reason(), Reason::NoLeapDay);
//! ```
//!
//! Times are exchanged as RFC 3339 text:
//!
//! ```
//! use fuzzydate::{read_stamp, write_stamp, Offset};
//!
//! let stamp = read_stamp("2026-02-11t09:30:15-05:00").unwrap();
//! assert_eq!((stamp.moment.hour, stamp.offset), (9, Offset::West(300)));
//! assert_eq!(write_stamp(stamp).unwrap(), "2026-02-11T09:30:15-05:00");
//!
//! let refusal = read_stamp("2026-02-30T09:30:15Z").unwrap_err();
//! assert_eq!(refusal.to_string(), "not an RFC 3339 date and time");
//! ```
//!
//! Words can be looked up while they are typed, with at most 8 comparisons each:
//!
//! ```
//! use fuzzydate::{find_word, Reading};
//!
//! assert!(find_word(Reading::First, "Friday").code.is_some());
//! assert!(find_word(Reading::First, "Frid").code.is_none());
//! ```
//!
//! A moment can be shown as a phrase for people to edit, by [`write_phrase`].
//!
//! Repeating rules of RFC 5545 are listed from a start on, as here every second Tuesday:
//!
//! ```
//! use fuzzydate::{Moment, Rule};
//!
//! let rule = Rule::parse("FREQ=WEEKLY;INTERVAL=2;BYDAY=TU").unwrap();
//! let start = Moment { year: 2026, month: 2, day: 10, hour: 9, minute: 30, second: 0, millisecond: 0 };
//! let due: Vec<String> = rule.occurrences(start, 3).unwrap().iter().map(Moment::to_string).collect();
//! assert_eq!(due, ["2026-02-10 09:30:00", "2026-02-24 09:30:00", "2026-03-10 09:30:00"]);
//!
//! let a_year_later = Moment { year: 2027, ..start };
//! assert_eq!(rule.next(start, a_year_later).unwrap().to_string(), "2027-02-23 09:30:00");
//! ```
//!
//! Where clocks change, a phrase is read at an instant, in the zone of a TZif file:
//!
//! ```
//! use fuzzydate::{read_in_zone, Instant, Reading, Zone};
//!
//! let new_york = Zone::parse(&std::fs::read("../zones/New_York").unwrap()).unwrap();
//! let now = Instant { second: 1772892000, millisecond: 0 }; // 2026-03-07 09:00:00 -05:00, the day before the clocks go forward
//! let due = |phrase| read_in_zone(Reading::First, phrase, &new_york, now).unwrap().to_string();
//! assert_eq!(due("tomorrow"), "2026-03-08 09:00:00 -04:00");
//! assert_eq!(due("1 day from now"), "2026-03-08 10:00:00 -04:00");
//! ```
//!
//! Up to 256 reminders are kept on a [`Board`], which says all day what is due first.
//!
//! The features `chrono`, `time` and `serde` convert the types here to and from those of the crates of these names. What a type cannot hold
//! is an error. The crate needs an allocator, and nothing else of the standard library.
#![no_std]
#![warn(missing_docs)]

extern crate alloc;

mod board;
mod calls;
#[cfg(any(feature = "chrono", feature = "time"))]
mod conversion;
mod moment;
mod reading;
mod ready;
mod refusal;
mod rule;
mod stamp;
#[cfg(feature = "chrono")]
mod with_chrono;
#[cfg(feature = "serde")]
mod with_serde;
#[cfg(feature = "time")]
mod with_time;
mod zone;

pub use board::{Board, BOARD_SLOTS};
#[cfg(any(feature = "chrono", feature = "time"))]
pub use conversion::ConversionError;
pub use moment::{write_phrase, Moment};
pub use reading::{find_word, read, FoundWord, Reading};
pub use ready::{make_ready, Ready, READY_SIZE};
pub use refusal::{Reason, Refusal};
pub use rule::Rule;
pub use stamp::{read_stamp, write_stamp, Offset, Stamp};
pub use zone::{read_in_zone, Instant, Local, Zone};

pub(crate) use board::BOARD_READY_SIZE;

/// Runs the lines of README.md as tests.
#[cfg(doctest)]
#[doc = include_str!("../README.md")]
struct Readme;

/// The version of this crate; [`version`] gives that of the library.
pub const VERSION: &str = env!("CARGO_PKG_VERSION");

/// The version of the linked library: 1000000 for 1.0.0, by 1000000 * major + 1000 * minor + patch.
pub fn version() -> u32 {
    // SAFETY: the call takes nothing.
    unsafe { calls::fuzzy_version() }
}
