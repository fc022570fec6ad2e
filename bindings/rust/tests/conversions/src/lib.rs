//! Every conversion there and back, and what a type cannot hold.
#![cfg(test)]

use chrono::{DateTime, FixedOffset, NaiveDate, NaiveDateTime, SubsecRound, TimeZone, Utc};
use fuzzydate::{make_ready, ConversionError, Instant, Local, Moment, Offset, Reading, Ready, Rule, Stamp};
use serde::de::DeserializeOwned;
use time::{Date, Month, OffsetDateTime, PrimitiveDateTime, UtcOffset};

const NOW: Moment = Moment { year: 2026, month: 2, day: 11, hour: 9, minute: 30, second: 15, millisecond: 250 };
const FIRST: Moment = Moment { year: 1, month: 1, day: 1, hour: 0, minute: 0, second: 0, millisecond: 0 };
const LAST: Moment = Moment { year: 9999, month: 12, day: 31, hour: 23, minute: 59, second: 59, millisecond: 999 };

/// Numbers that are no moment, in each place.
const INVALID: [Moment; 10] = [
    Moment { year: 0, ..NOW },
    Moment { year: 10_000, ..NOW },
    Moment { year: u32::MAX, ..NOW },
    Moment { month: 13, ..NOW },
    Moment { month: 258, ..NOW },
    Moment { day: 29, ..NOW },
    Moment { hour: 24, ..NOW },
    Moment { minute: 60, ..NOW },
    Moment { second: 60, ..NOW },
    Moment { millisecond: 1000, ..NOW },
];

fn by_chrono(year: i32, nanosecond: u32) -> NaiveDateTime {
    NaiveDate::from_ymd_opt(year, 2, 11).unwrap().and_hms_nano_opt(9, 30, 15, nanosecond).unwrap()
}

fn by_time(year: i32, nanosecond: u32) -> PrimitiveDateTime {
    Date::from_calendar_date(year, Month::February, 11).unwrap().with_hms_nano(9, 30, 15, nanosecond).unwrap()
}

#[test]
fn moments() {
    assert_eq!(NaiveDateTime::try_from(NOW), Ok(by_chrono(2026, 250_000_000)));
    assert_eq!(PrimitiveDateTime::try_from(NOW), Ok(by_time(2026, 250_000_000)));
    for moment in [FIRST, NOW, LAST] {
        assert_eq!(NaiveDateTime::try_from(moment).and_then(Moment::try_from), Ok(moment));
        assert_eq!(PrimitiveDateTime::try_from(moment).and_then(Moment::try_from), Ok(moment));
        assert!(moment.is_valid());
    }
    for moment in INVALID {
        assert_eq!(NaiveDateTime::try_from(moment), Err(ConversionError::InvalidMoment), "{moment}");
        assert_eq!(PrimitiveDateTime::try_from(moment), Err(ConversionError::InvalidMoment), "{moment}");
        assert!(!moment.is_valid());
    }
}

#[test]
fn moments_that_would_lose_something() {
    for nanosecond in [1, 999_999, 250_000_001] {
        assert_eq!(Moment::try_from(by_chrono(2026, nanosecond)), Err(ConversionError::PartOfMillisecond));
        assert_eq!(Moment::try_from(by_time(2026, nanosecond)), Err(ConversionError::PartOfMillisecond));
    }
    for year in [-1, 0] {
        assert_eq!(Moment::try_from(by_chrono(year, 0)), Err(ConversionError::InvalidMoment));
        assert_eq!(Moment::try_from(by_time(year, 0)), Err(ConversionError::InvalidMoment));
    }
    assert_eq!(Moment::try_from(by_chrono(10_000, 0)), Err(ConversionError::InvalidMoment));
    let leap_second = NaiveDate::from_ymd_opt(2016, 12, 31).unwrap().and_hms_milli_opt(23, 59, 59, 1500).unwrap();
    assert_eq!(Moment::try_from(leap_second), Err(ConversionError::LeapSecond));
    assert_eq!(ConversionError::LeapSecond.to_string(), "a leap second would be lost");
}

#[test]
fn clocks_cut_to_milliseconds() {
    let now = Utc::now().trunc_subsecs(3);
    assert!(Moment::try_from(now.naive_utc()).unwrap().is_valid());
    let now = OffsetDateTime::now_utc();
    let now = now.replace_millisecond(now.millisecond()).unwrap();
    assert!(Stamp::try_from(now).unwrap().moment.is_valid());
}

#[test]
fn stamps() {
    let offsets = [
        (Offset::East(0), 0),
        (Offset::East(330), 330),
        (Offset::West(300), -300),
        (Offset::East(1439), 1439),
        (Offset::West(1439), -1439),
    ];
    for (offset, minutes) in offsets {
        let stamp = Stamp { moment: NOW, offset };
        let of_chrono = FixedOffset::east_opt(60 * minutes).unwrap().from_local_datetime(&by_chrono(2026, 250_000_000)).unwrap();
        assert_eq!((DateTime::try_from(stamp), Stamp::try_from(of_chrono)), (Ok(of_chrono), Ok(stamp)));
        let of_time = by_time(2026, 250_000_000).assume_offset(UtcOffset::from_whole_seconds(60 * minutes).unwrap());
        assert_eq!((OffsetDateTime::try_from(stamp), Stamp::try_from(of_time)), (Ok(of_time), Ok(stamp)));
    }
    let refused = [
        (Offset::Unknown, ConversionError::UnknownOffset),
        (Offset::West(0), ConversionError::UnknownOffset),
        (Offset::East(1440), ConversionError::OutOfRange),
        (Offset::West(u32::MAX), ConversionError::OutOfRange),
    ];
    for (offset, error) in refused {
        let stamp = Stamp { moment: NOW, offset };
        assert_eq!((DateTime::try_from(stamp), OffsetDateTime::try_from(stamp)), (Err(error), Err(error)));
    }
    let with_seconds = FixedOffset::west_opt(17_762).unwrap().from_utc_datetime(&by_chrono(1880, 0));
    assert_eq!(Stamp::try_from(with_seconds), Err(ConversionError::OffsetWithSeconds));
    let with_seconds = by_time(1880, 0).assume_offset(UtcOffset::from_whole_seconds(-17_762).unwrap());
    assert_eq!(Stamp::try_from(with_seconds), Err(ConversionError::OffsetWithSeconds));
}

#[test]
fn instants() {
    for instant in [
        Instant { second: 1_772_892_000, millisecond: 250 },
        Instant { second: -1, millisecond: 999 },
        Instant { second: 0, millisecond: 0 },
    ] {
        let of_chrono = DateTime::<Utc>::try_from(instant).unwrap();
        assert_eq!((of_chrono.timestamp(), of_chrono.timestamp_subsec_millis()), (instant.second, instant.millisecond));
        assert_eq!(Instant::try_from(of_chrono), Ok(instant));
        let of_time = OffsetDateTime::try_from(instant).unwrap();
        assert_eq!((of_time.unix_timestamp(), u32::from(of_time.millisecond())), (instant.second, instant.millisecond));
        assert_eq!(Instant::try_from(of_time), Ok(instant));
    }
    let cases =
        [(i64::MAX, 0, ConversionError::OutOfRange), (i64::MIN, 0, ConversionError::OutOfRange), (0, 1000, ConversionError::InvalidMoment)];
    for (second, millisecond, error) in cases {
        let instant = Instant { second, millisecond };
        assert_eq!((DateTime::<Utc>::try_from(instant), OffsetDateTime::try_from(instant)), (Err(error), Err(error)));
    }
    let finer = Utc.timestamp_opt(0, 1).unwrap();
    assert_eq!(Instant::try_from(finer), Err(ConversionError::PartOfMillisecond));
}

#[test]
fn what_clocks_show() {
    let local = Local {
        instant: Instant { second: 1_772_892_000, millisecond: 0 },
        moment: Moment { month: 3, day: 7, hour: 9, minute: 0, second: 0, millisecond: 0, ..NOW },
        offset: -18_000,
    };
    assert_eq!(DateTime::<FixedOffset>::try_from(local).unwrap().to_rfc3339(), "2026-03-07T09:00:00-05:00");
    assert_eq!(OffsetDateTime::try_from(local).unwrap().unix_timestamp(), 1_772_892_000);
    let farther = Local { offset: 93_599, ..local };
    assert_eq!(DateTime::<FixedOffset>::try_from(farther), Err(ConversionError::OutOfRange));
}

/// Some JSON that is not a value of the type, and how what is said begins.
fn refused<T: DeserializeOwned + std::fmt::Debug>(json: &str, said: &str) {
    let error = serde_json::from_str::<T>(json).unwrap_err().to_string();
    assert!(error.starts_with(said), "{error}");
}

#[test]
fn json() {
    let stamp = Stamp { moment: NOW, offset: Offset::West(300) };
    let rule = Rule::parse("FREQ=DAILY;COUNT=3").unwrap();
    let stored = (NOW, stamp, rule, Reading::Second, Instant { second: -5, millisecond: 7 });
    let text = serde_json::to_string(&stored).unwrap();
    assert_eq!(text, r#"["2026-02-11T09:30:15.250","2026-02-11T09:30:15.250-05:00","FREQ=DAILY;COUNT=3",2,[-5,7]]"#);
    assert_eq!(serde_json::from_str::<(Moment, Stamp, Rule, Reading, Instant)>(&text).unwrap(), stored);

    let ready = make_ready(Reading::First, "next friday").unwrap();
    let text = serde_json::to_string(&ready).unwrap();
    assert_eq!(serde_json::from_str::<Ready>(&text).unwrap(), ready);
    let too_long = serde_json::to_string(&vec![0u8; 385]).unwrap();
    refused::<Ready>(&too_long, "invalid length 385, expected the bytes of a ready phrase");
}

#[test]
fn json_that_is_refused() {
    for text in [r#""2026-02-30T09:30:15""#, r#""2026-02-11T09:30:15Z""#, r#""2026-02-11 09:30:15""#, "5"] {
        assert!(serde_json::from_str::<Moment>(text).is_err(), "{text}");
    }
    assert!(serde_json::to_string(&INVALID[0]).is_err());
    assert!(serde_json::to_string(&Stamp { moment: NOW, offset: Offset::East(1440) }).is_err());
    refused::<Rule>(r#""FREQ=YEARLY""#, "not a repeating rule that is accepted");
    refused::<Reading>("3", "no such reading: 3");
}
