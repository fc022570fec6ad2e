use core::fmt;

use crate::{Instant, Moment};

/// Why a value has no equal in the type that it is converted to. Nothing is cut or rounded in silence.
#[non_exhaustive]
#[derive(Clone, Copy, Debug, PartialEq, Eq, Hash)]
pub enum ConversionError {
    /// It is not a date and time of the years 1 to 9999, or its milliseconds exceed 999.
    InvalidMoment,
    /// It has a part of a millisecond.
    PartOfMillisecond,
    /// It is a leap second.
    LeapSecond,
    /// Its offset has seconds, and a stamp's has minutes.
    OffsetWithSeconds,
    /// Its offset is unknown, "-00:00".
    UnknownOffset,
    /// The type does not reach as far.
    OutOfRange,
}

impl fmt::Display for ConversionError {
    fn fmt(&self, f: &mut fmt::Formatter<'_>) -> fmt::Result {
        f.write_str(match self {
            ConversionError::InvalidMoment => "not a valid date and time of the years 1 to 9999",
            ConversionError::PartOfMillisecond => "a part of a millisecond would be lost",
            ConversionError::LeapSecond => "a leap second would be lost",
            ConversionError::OffsetWithSeconds => "the seconds of the offset would be lost",
            ConversionError::UnknownOffset => "the offset is unknown",
            ConversionError::OutOfRange => "outside the range of the type",
        })
    }
}

impl core::error::Error for ConversionError {}

const NANOSECONDS: u32 = 1_000_000;

/// The milliseconds of some nanoseconds, where they are whole and below a second.
pub(crate) fn whole_milliseconds(nanosecond: u32) -> Result<u32, ConversionError> {
    match (nanosecond / NANOSECONDS, nanosecond % NANOSECONDS) {
        (1000.., _) => Err(ConversionError::LeapSecond),
        (millisecond, 0) => Ok(millisecond),
        _ => Err(ConversionError::PartOfMillisecond),
    }
}

/// The year of another crate, where a moment has it.
pub(crate) fn year_of(year: i32) -> Result<u32, ConversionError> {
    match year {
        1..=9999 => Ok(year.unsigned_abs()),
        _ => Err(ConversionError::InvalidMoment),
    }
}

/// The moment itself, where it is a date and time.
pub(crate) fn valid(moment: Moment) -> Result<Moment, ConversionError> {
    moment.is_valid().then_some(moment).ok_or(ConversionError::InvalidMoment)
}

/// The nanoseconds of an instant, where its milliseconds are below a second.
pub(crate) fn nanoseconds(instant: Instant) -> Result<u32, ConversionError> {
    match instant.millisecond {
        0..=999 => Ok(NANOSECONDS * instant.millisecond),
        _ => Err(ConversionError::InvalidMoment),
    }
}
