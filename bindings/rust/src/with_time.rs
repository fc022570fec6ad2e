//! To time's types and back.
use time::{Date, Month, OffsetDateTime, PrimitiveDateTime, Time, UtcOffset};

use crate::conversion::{nanoseconds, valid, whole_milliseconds, year_of};
use crate::{ConversionError, Instant, Local, Moment, Offset, Stamp};

/// A clock gives parts of a millisecond, which `replace_millisecond` cuts:
///
/// ```
/// use fuzzydate::{ConversionError, Moment};
/// use time::{Date, Month};
///
/// let clock = Date::from_calendar_date(2026, Month::February, 11).unwrap().with_hms_nano(9, 30, 15, 250_999_999).unwrap();
/// assert_eq!(Moment::try_from(clock), Err(ConversionError::PartOfMillisecond));
/// let cut = clock.replace_millisecond(clock.millisecond()).unwrap();
/// assert_eq!(Moment::try_from(cut).unwrap().to_string(), "2026-02-11 09:30:15.250");
/// ```
impl TryFrom<PrimitiveDateTime> for Moment {
    type Error = ConversionError;

    fn try_from(time: PrimitiveDateTime) -> Result<Moment, ConversionError> {
        Ok(Moment {
            year: year_of(time.year())?,
            month: u32::from(u8::from(time.month())),
            day: u32::from(time.day()),
            hour: u32::from(time.hour()),
            minute: u32::from(time.minute()),
            second: u32::from(time.second()),
            millisecond: whole_milliseconds(time.nanosecond())?,
        })
    }
}

impl TryFrom<Moment> for PrimitiveDateTime {
    type Error = ConversionError;

    fn try_from(moment: Moment) -> Result<PrimitiveDateTime, ConversionError> {
        let Moment { year, month, day, hour, minute, second, millisecond } = valid(moment)?;
        let month = Month::try_from(month as u8).map_err(out_of_range)?;
        let date = Date::from_calendar_date(year as i32, month, day as u8).map_err(out_of_range)?;
        let time = Time::from_hms_milli(hour as u8, minute as u8, second as u8, millisecond as u16).map_err(out_of_range)?;
        Ok(PrimitiveDateTime::new(date, time))
    }
}

fn out_of_range(_: time::error::ComponentRange) -> ConversionError {
    ConversionError::OutOfRange
}

impl TryFrom<OffsetDateTime> for Stamp {
    type Error = ConversionError;

    fn try_from(time: OffsetDateTime) -> Result<Stamp, ConversionError> {
        let offset = Offset::from_seconds(time.offset().whole_seconds())?;
        Ok(Stamp { moment: PrimitiveDateTime::new(time.date(), time.time()).try_into()?, offset })
    }
}

impl TryFrom<Stamp> for OffsetDateTime {
    type Error = ConversionError;

    fn try_from(stamp: Stamp) -> Result<OffsetDateTime, ConversionError> {
        at_offset(stamp.moment, stamp.offset.seconds()?)
    }
}

impl TryFrom<Local> for OffsetDateTime {
    type Error = ConversionError;

    fn try_from(local: Local) -> Result<OffsetDateTime, ConversionError> {
        at_offset(local.moment, local.offset)
    }
}

fn at_offset(moment: Moment, seconds: i32) -> Result<OffsetDateTime, ConversionError> {
    let offset = UtcOffset::from_whole_seconds(seconds).map_err(out_of_range)?;
    Ok(PrimitiveDateTime::try_from(moment)?.assume_offset(offset))
}

impl TryFrom<OffsetDateTime> for Instant {
    type Error = ConversionError;

    fn try_from(time: OffsetDateTime) -> Result<Instant, ConversionError> {
        Ok(Instant { second: time.unix_timestamp(), millisecond: whole_milliseconds(time.nanosecond())? })
    }
}

impl TryFrom<Instant> for OffsetDateTime {
    type Error = ConversionError;

    fn try_from(instant: Instant) -> Result<OffsetDateTime, ConversionError> {
        let nanosecond = nanoseconds(instant)?;
        let time = OffsetDateTime::from_unix_timestamp(instant.second).map_err(out_of_range)?;
        time.replace_nanosecond(nanosecond).map_err(out_of_range)
    }
}
