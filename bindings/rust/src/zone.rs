use alloc::borrow::ToOwned;
use alloc::vec::Vec;
use core::fmt;

use crate::calls::{fuzzy_read_in_zone, Answer, MomentAt};
use crate::{Moment, Reading, Ready, Reason, Refusal};

/// An instant: a second, counted from 1970-01-01T00:00:00Z and negative before it, and a millisecond of it from 0 to 999. Other
/// milliseconds may stand here too: such a now is refused.
#[derive(Clone, Copy, Debug, PartialEq, Eq, PartialOrd, Ord, Hash)]
pub struct Instant {
    /// The second since 1970-01-01T00:00:00Z.
    pub second: i64,
    /// The millisecond of it, 0 to 999.
    pub millisecond: u32,
}

/// A zone, kept as the bytes of its TZif file: one of RFC 9636, version 2 or later, of at most 65,536 bytes, with ascending times, indexes
/// in range, no leap seconds, offsets above -25 and below 26 hours, and no transition in the UTC years 0 and 1 or after 9998. Of its footer
/// only the newlines are looked at: what is known ends with the last transition, and every moment from there on is refused.
#[derive(Clone, Debug, PartialEq, Eq, Hash)]
pub struct Zone {
    file: Vec<u8>,
}

impl Zone {
    /// All bytes of a file as a zone.
    ///
    /// ```
    /// # use fuzzydate::{Reason, Zone};
    /// let file = std::fs::read("../zones/New_York").unwrap();
    /// assert!(Zone::parse(&file).is_ok());
    ///
    /// let refusal = Zone::parse(&file[1..]).unwrap_err();
    /// assert_eq!(refusal.reason(), Reason::NoZone);
    /// assert_eq!(refusal.to_string(), "not a zone file that is accepted");
    /// ```
    pub fn parse(file: &[u8]) -> Result<Zone, Refusal> {
        // Bytes that are not a ready phrase are refused after the zone: so any refusal but `NoZone` is theirs.
        let zone = Zone { file: file.to_owned() };
        match Ready::EMPTY.run_in_zone(&zone, Instant { second: 0, millisecond: 0 }) {
            Err(refusal) if refusal.reason() == Reason::NoZone => Err(refusal),
            _ => Ok(zone),
        }
    }

    /// The bytes that it was made of.
    pub fn as_bytes(&self) -> &[u8] {
        &self.file
    }
}

/// What the clocks of a zone show at an instant: a moment, which has the instant's milliseconds, and its offset from UTC in seconds,
/// negative to the west.
///
/// ```
/// # use fuzzydate::{read_in_zone, Instant, Moment, Reading, Zone};
/// # let new_york = Zone::parse(&std::fs::read("../zones/New_York").unwrap()).unwrap();
/// let now = Instant { second: 1772951400, millisecond: 250 };
/// let due = read_in_zone(Reading::First, "an hour from now", &new_york, now)?;
/// assert_eq!(due.instant, Instant { second: 1772955000, millisecond: 250 });
/// assert_eq!(due.moment, Moment { year: 2026, month: 3, day: 8, hour: 3, minute: 30, second: 0, millisecond: 250 });
/// assert_eq!(due.offset, -14400);
/// assert_eq!(due.to_string(), "2026-03-08 03:30:00.250 -04:00");
/// # Ok::<(), fuzzydate::Refusal>(())
/// ```
#[derive(Clone, Copy, Debug, PartialEq, Eq, Hash)]
pub struct Local {
    /// The instant.
    pub instant: Instant,
    /// The moment as the clocks show it.
    pub moment: Moment,
    /// The offset from UTC in seconds: above -25 and below 26 hours.
    pub offset: i32,
}

impl Local {
    /// What a call on a phrase writes to the second and the moment that it is given, or its refusal.
    pub(crate) fn from_call(phrase: &[u8], call: impl FnOnce(&mut i64, &mut MomentAt) -> Answer) -> Result<Local, Refusal> {
        let (mut second, mut local) = (0, MomentAt::NONE);
        call(&mut second, &mut local).check(phrase)?;
        let MomentAt { moment, west, offset } = local;
        let offset = if west == 0 { offset as i32 } else { -(offset as i32) };
        Ok(Local { instant: Instant { second, millisecond: moment.millisecond }, moment, offset })
    }
}

/// The moment, a space and the offset in hours and minutes, with seconds where they are not 0.
impl fmt::Display for Local {
    fn fmt(&self, f: &mut fmt::Formatter<'_>) -> fmt::Result {
        let (sign, offset) = (if self.offset < 0 { '-' } else { '+' }, self.offset.unsigned_abs());
        write!(f, "{} {sign}{:02}:{:02}", self.moment, offset / 3600, offset / 60 % 60)?;
        match offset % 60 {
            0 => Ok(()),
            second => write!(f, ":{second:02}"),
        }
    }
}

/// Reads a phrase at an instant in a zone, in one of the two readings. Dates, weekdays, months and years go by the clocks. Minutes and
/// hours are lengths of time. Days and weeks go by the clocks in "1 day ago" and after or from today, tomorrow or a date, and are lengths
/// in "1 day from now", "1 day before now", before anything else, and after a weekday. Of a time that the clocks show twice the earlier is
/// meant, and one that they skip is refused.
///
/// ```
/// # use fuzzydate::{read_in_zone, Instant, Reading, Reason, Zone};
/// # let new_york = Zone::parse(&std::fs::read("../zones/New_York").unwrap()).unwrap();
/// let now = Instant { second: 1772951400, millisecond: 0 }; // 2026-03-08 01:30:00 -05:00, half an hour before the clocks go forward
/// let due = |phrase| read_in_zone(Reading::First, phrase, &new_york, now);
/// assert_eq!(due("today 3:00").unwrap().to_string(), "2026-03-08 03:00:00 -04:00");
/// assert_eq!(due("today 2:00").unwrap_err().reason(), Reason::NoInstant);
/// assert_eq!(due("2 years from now").unwrap_err().reason(), Reason::PastLast); // the file ends in 2027
/// ```
pub fn read_in_zone<P: AsRef<[u8]> + ?Sized>(reading: Reading, phrase: &P, zone: &Zone, now: Instant) -> Result<Local, Refusal> {
    let bytes = phrase.as_ref();
    Local::from_call(bytes, |due, local| {
        // SAFETY: the pointers are those of slices, whose sizes are said.
        unsafe {
            fuzzy_read_in_zone(
                reading as u32,
                bytes.as_ptr(),
                bytes.len() as u64,
                zone.file.as_ptr(),
                zone.file.len() as u64,
                now.second,
                now.millisecond,
                due,
                local,
            )
        }
    })
}
