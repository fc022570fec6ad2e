use alloc::string::String;
use core::fmt;
use core::str::FromStr;

use crate::calls::{fuzzy_read_stamp, fuzzy_write_stamp, MomentAt};
use crate::moment::written;
use crate::{Moment, Refusal};

/// The most bytes that a stamp's text has.
const STAMP_SIZE: usize = 29;

/// A stamp's offset from UTC in minutes, 0 to 1439. Other numbers may stand here too: such a stamp is refused when it is written.
#[derive(Clone, Copy, Debug, PartialEq, Eq, Hash)]
pub enum Offset {
    /// `East(0)` is "Z".
    East(u32),
    /// `West(0)` is written as `Unknown` is.
    West(u32),
    /// "-00:00": the moment is UTC, and where it was written is not known.
    Unknown,
}

impl Offset {
    fn new(west: u32, minutes: u32) -> Offset {
        match (west, minutes) {
            (0, _) => Offset::East(minutes),
            (_, 0) => Offset::Unknown,
            _ => Offset::West(minutes),
        }
    }

    fn numbers(self) -> (u32, u32) {
        match self {
            Offset::East(minutes) => (0, minutes),
            Offset::West(minutes) => (1, minutes),
            Offset::Unknown => (1, 0),
        }
    }

    /// The offset of seconds east of UTC, where they are whole minutes.
    #[cfg(any(feature = "chrono", feature = "time"))]
    pub(crate) fn from_seconds(seconds: i32) -> Result<Offset, crate::ConversionError> {
        let minutes = seconds.unsigned_abs() / 60;
        match seconds % 60 {
            0 if seconds < 0 => Ok(Offset::West(minutes)),
            0 => Ok(Offset::East(minutes)),
            _ => Err(crate::ConversionError::OffsetWithSeconds),
        }
    }

    /// The seconds east of UTC, where the offset is known and one of a stamp.
    #[cfg(any(feature = "chrono", feature = "time"))]
    pub(crate) fn seconds(self) -> Result<i32, crate::ConversionError> {
        match self {
            Offset::Unknown | Offset::West(0) => Err(crate::ConversionError::UnknownOffset),
            Offset::East(minutes @ 0..=1439) => Ok(60 * minutes as i32),
            Offset::West(minutes @ 0..=1439) => Ok(-60 * (minutes as i32)),
            _ => Err(crate::ConversionError::OutOfRange),
        }
    }
}

/// A moment as RFC 3339 text has it, and its offset from UTC. Milliseconds are written as a fraction of three digits, and 0 as none.
///
/// ```
/// # use fuzzydate::{Moment, Offset, Stamp};
/// let moment = Moment { year: 2026, month: 2, day: 11, hour: 9, minute: 30, second: 15, millisecond: 0 };
/// assert_eq!(Stamp { moment, offset: Offset::East(0) }.to_string(), "2026-02-11T09:30:15Z");
/// assert_eq!(Stamp { moment, offset: Offset::East(330) }.to_string(), "2026-02-11T09:30:15+05:30");
/// assert_eq!(Stamp { moment, offset: Offset::Unknown }.to_string(), "2026-02-11T09:30:15-00:00");
///
/// let moment = Moment { millisecond: 50, ..moment };
/// assert_eq!(Stamp { moment, offset: Offset::East(0) }.to_string(), "2026-02-11T09:30:15.050Z");
/// ```
#[derive(Clone, Copy, Debug, PartialEq, Eq, Hash)]
pub struct Stamp {
    /// The moment as it is written.
    pub moment: Moment,
    /// How far it is from UTC.
    pub offset: Offset,
}

/// Reads a whole text as an RFC 3339 stamp: letters in either case, and after the second a fraction of one to three digits or none. Refused
/// for [`Reason::NoStamp`](crate::Reason::NoStamp), or for [`Reason::Outside`](crate::Reason::Outside) where it is a stamp of year 0.
///
/// ```
/// # use fuzzydate::read_stamp;
/// let millisecond = |text: &str| read_stamp(text).map(|stamp| stamp.moment.millisecond).ok();
/// assert_eq!(millisecond("2026-02-11T09:30:15Z"), Some(0));
/// assert_eq!(millisecond("2026-02-11T09:30:15.5Z"), Some(500));
/// assert_eq!(millisecond("2026-02-11T09:30:15.05-05:00"), Some(50));
/// assert_eq!(millisecond("2026-02-11T09:30:15.0005Z"), None);
/// ```
pub fn read_stamp<T: AsRef<[u8]> + ?Sized>(text: &T) -> Result<Stamp, Refusal> {
    let bytes = text.as_ref();
    let mut stamp = MomentAt::NONE;
    // SAFETY: the pointer is that of a slice, whose size is said.
    let answer = unsafe { fuzzy_read_stamp(bytes.as_ptr(), bytes.len() as u64, &mut stamp) };
    answer.check(&[]).map(|_| Stamp { moment: stamp.moment, offset: Offset::new(stamp.west, stamp.offset) })
}

/// Writes a stamp as text, which reads back as the same. Refused, in this order, for an invalid moment, and for an offset above 1439.
///
/// ```
/// # use fuzzydate::{write_stamp, Moment, Offset, Reason, Stamp};
/// let moment = Moment { year: 2026, month: 2, day: 30, hour: 0, minute: 0, second: 0, millisecond: 0 };
/// assert_eq!(write_stamp(Stamp { moment, offset: Offset::East(0) }).unwrap_err().reason(), Reason::InvalidMoment);
/// ```
pub fn write_stamp(stamp: Stamp) -> Result<String, Refusal> {
    let (west, offset) = stamp.offset.numbers();
    let stamp = MomentAt { moment: stamp.moment, west, offset };
    let mut text = [0; STAMP_SIZE];
    // SAFETY: the pointer is that of an array, whose size is said.
    let answer = unsafe { fuzzy_write_stamp(&stamp, text.as_mut_ptr(), text.len() as u64) };
    written(answer, &text)
}

/// What [`write_stamp`] gives; where it is refused, why, in words that no reader accepts as a stamp.
impl fmt::Display for Stamp {
    fn fmt(&self, f: &mut fmt::Formatter<'_>) -> fmt::Result {
        match write_stamp(*self) {
            Ok(text) => f.write_str(&text),
            Err(refusal) => refusal.fmt(f),
        }
    }
}

/// What [`read_stamp`] gives.
impl FromStr for Stamp {
    type Err = Refusal;

    fn from_str(text: &str) -> Result<Stamp, Refusal> {
        read_stamp(text)
    }
}
