//! To chrono's types and back.
use chrono::{DateTime, Datelike, FixedOffset, NaiveDate, NaiveDateTime, Offset as _, TimeZone, Timelike, Utc};

use crate::conversion::{nanoseconds, valid, whole_milliseconds, year_of};
use crate::{ConversionError, Instant, Local, Moment, Offset, Stamp};

/// A clock gives parts of a millisecond, which `trunc_subsecs` cuts:
///
/// ```
/// use chrono::{NaiveDate, SubsecRound};
/// use fuzzydate::{ConversionError, Moment};
///
/// let clock = NaiveDate::from_ymd_opt(2026, 2, 11).unwrap().and_hms_nano_opt(9, 30, 15, 250_999_999).unwrap();
/// assert_eq!(Moment::try_from(clock), Err(ConversionError::PartOfMillisecond));
/// assert_eq!(Moment::try_from(clock.trunc_subsecs(3)).unwrap().to_string(), "2026-02-11 09:30:15.250");
/// ```
impl TryFrom<NaiveDateTime> for Moment {
    type Error = ConversionError;

    fn try_from(time: NaiveDateTime) -> Result<Moment, ConversionError> {
        Ok(Moment {
            year: year_of(time.year())?,
            month: time.month(),
            day: time.day(),
            hour: time.hour(),
            minute: time.minute(),
            second: time.second(),
            millisecond: whole_milliseconds(time.nanosecond())?,
        })
    }
}

impl TryFrom<Moment> for NaiveDateTime {
    type Error = ConversionError;

    fn try_from(moment: Moment) -> Result<NaiveDateTime, ConversionError> {
        let Moment { year, month, day, hour, minute, second, millisecond } = valid(moment)?;
        let date = NaiveDate::from_ymd_opt(year as i32, month, day);
        date.and_then(|date| date.and_hms_milli_opt(hour, minute, second, millisecond)).ok_or(ConversionError::OutOfRange)
    }
}

impl<Z: TimeZone> TryFrom<DateTime<Z>> for Stamp {
    type Error = ConversionError;

    fn try_from(time: DateTime<Z>) -> Result<Stamp, ConversionError> {
        let offset = Offset::from_seconds(time.offset().fix().local_minus_utc())?;
        Ok(Stamp { moment: time.naive_local().try_into()?, offset })
    }
}

impl TryFrom<Stamp> for DateTime<FixedOffset> {
    type Error = ConversionError;

    fn try_from(stamp: Stamp) -> Result<DateTime<FixedOffset>, ConversionError> {
        at_offset(stamp.moment, stamp.offset.seconds()?)
    }
}

impl TryFrom<Local> for DateTime<FixedOffset> {
    type Error = ConversionError;

    fn try_from(local: Local) -> Result<DateTime<FixedOffset>, ConversionError> {
        at_offset(local.moment, local.offset)
    }
}

fn at_offset(moment: Moment, seconds: i32) -> Result<DateTime<FixedOffset>, ConversionError> {
    let time = NaiveDateTime::try_from(moment)?;
    let offset = FixedOffset::east_opt(seconds).ok_or(ConversionError::OutOfRange)?;
    offset.from_local_datetime(&time).single().ok_or(ConversionError::OutOfRange)
}

impl<Z: TimeZone> TryFrom<DateTime<Z>> for Instant {
    type Error = ConversionError;

    fn try_from(time: DateTime<Z>) -> Result<Instant, ConversionError> {
        Ok(Instant { second: time.timestamp(), millisecond: whole_milliseconds(time.timestamp_subsec_nanos())? })
    }
}

impl TryFrom<Instant> for DateTime<Utc> {
    type Error = ConversionError;

    fn try_from(instant: Instant) -> Result<DateTime<Utc>, ConversionError> {
        Utc.timestamp_opt(instant.second, nanoseconds(instant)?).single().ok_or(ConversionError::OutOfRange)
    }
}
