use alloc::string::String;
use core::fmt;

use crate::calls::{fuzzy_write_phrase, Answer};
use crate::{Reason, Refusal};

/// The most bytes that a moment's phrase has.
const PHRASE_SIZE: usize = 26;

/// A date and time of the years 1 to 9999. Other numbers may stand here too: such a moment is refused by every call.
///
/// Milliseconds are shown where they are not 0. Where a phrase states a time, noon and midnight included, second and millisecond are 0;
/// else they are now's:
///
/// ```
/// # use fuzzydate::{read, Moment, Reading};
/// let now = Moment { year: 2026, month: 2, day: 11, hour: 9, minute: 30, second: 15, millisecond: 250 };
/// assert_eq!(now.to_string(), "2026-02-11 09:30:15.250");
/// assert_eq!(read(Reading::First, "an hour ago", now)?.to_string(), "2026-02-11 08:30:15.250");
/// assert_eq!(read(Reading::First, "5/2 at noon", now)?.to_string(), "2026-05-02 12:00:00");
/// # Ok::<(), fuzzydate::Refusal>(())
/// ```
#[repr(C)]
#[derive(Clone, Copy, Debug, PartialEq, Eq, PartialOrd, Ord, Hash)]
pub struct Moment {
    /// 1 to 9999.
    pub year: u32,
    /// 1 to 12.
    pub month: u32,
    /// 1 to 31, as far as the month goes.
    pub day: u32,
    /// 0 to 23.
    pub hour: u32,
    /// 0 to 59.
    pub minute: u32,
    /// 0 to 59.
    pub second: u32,
    /// 0 to 999.
    pub millisecond: u32,
}

impl Moment {
    /// To be written by a call.
    pub(crate) const NONE: Moment = Moment { year: 0, month: 0, day: 0, hour: 0, minute: 0, second: 0, millisecond: 0 };

    /// Whether it is a date and time of the years 1 to 9999: every call refuses any other.
    pub fn is_valid(self) -> bool {
        !write_phrase(self).is_err_and(|refusal| refusal.reason() == Reason::InvalidMoment)
    }
}

impl fmt::Display for Moment {
    fn fmt(&self, f: &mut fmt::Formatter<'_>) -> fmt::Result {
        write!(f, "{:04}-{:02}-{:02} {:02}:{:02}:{:02}", self.year, self.month, self.day, self.hour, self.minute, self.second)?;
        match self.millisecond {
            0 => Ok(()),
            millisecond => write!(f, ".{millisecond:03}"),
        }
    }
}

/// Writes a moment as a phrase that people can edit. [`read`](crate::read) gives the moment back at every now: in both readings for the
/// years 1000 to 9999, in [`Reading::First`](crate::Reading::First) for the years 1 to 999. Refused, in this order, for an invalid moment,
/// and for a second or millisecond other than 0.
///
/// ```
/// # use fuzzydate::{read, write_phrase, Moment, Reading, Reason};
/// let moment = Moment { year: 2026, month: 3, day: 4, hour: 9, minute: 5, second: 0, millisecond: 0 };
/// let phrase = write_phrase(moment)?;
/// assert_eq!(phrase, "march 4 2026 at 9:05");
///
/// let now = Moment { year: 2026, month: 2, day: 11, hour: 9, minute: 30, second: 15, millisecond: 250 };
/// assert_eq!(read(Reading::First, &phrase, now)?, moment);
/// assert_eq!(read(Reading::Second, &phrase, now)?, moment);
/// assert_eq!(write_phrase(now).unwrap_err().reason(), Reason::NotWhole);
/// # Ok::<(), fuzzydate::Refusal>(())
/// ```
pub fn write_phrase(moment: Moment) -> Result<String, Refusal> {
    let mut text = [0; PHRASE_SIZE];
    // SAFETY: the pointer is that of an array, whose size is said.
    let answer = unsafe { fuzzy_write_phrase(&moment, text.as_mut_ptr(), text.len() as u64) };
    written(answer, &text)
}

/// The ASCII text that a call left at the front of a buffer, or its refusal.
pub(crate) fn written(answer: Answer, buffer: &[u8]) -> Result<String, Refusal> {
    let length = answer.check(&[])? as usize;
    Ok(buffer[..length].iter().copied().map(char::from).collect())
}
