//! Every function with good, damaged and empty input.
use fuzzydate::{find_word, make_ready, read, read_in_zone, read_stamp, version, write_phrase, write_stamp, VERSION};
use fuzzydate::{Board, FoundWord, Instant, Local, Moment, Offset, Reading, Ready, Reason, Refusal, Rule, Stamp, Zone};

const NOW: Moment = Moment { year: 2026, month: 2, day: 11, hour: 9, minute: 30, second: 15, millisecond: 0 };
const LEAP_DAY: Moment = Moment { year: 2024, month: 2, day: 29, hour: 12, minute: 0, second: 0, millisecond: 0 };
const INVALID: Moment = Moment { year: 2026, month: 2, day: 30, hour: 0, minute: 0, second: 0, millisecond: 0 };

#[test]
fn gives_moments() {
    let cases = [
        ("friday", "2026-02-13 09:30:15"),
        ("next friday", "2026-02-20 09:30:15"),
        ("tuesday in two weeks", "2026-01-27 09:30:15"),
        ("friday next 5:00", "2026-02-13 05:00:00"),
        ("5/2/2022", "2022-05-02 09:30:15"),
        ("5.2.2022", "2022-02-05 09:30:15"),
        ("5/2 at noon", "2026-05-02 12:00:00"),
        ("march 4th", "2026-03-04 09:30:15"),
    ];
    for (phrase, moment) in cases {
        assert_eq!(read(Reading::First, phrase, NOW).unwrap().to_string(), moment, "{phrase}");
        assert_eq!(make_ready(Reading::First, phrase).unwrap().run(NOW).unwrap().to_string(), moment, "{phrase}, made ready");
    }
}

#[test]
fn keeps_milliseconds_unless_a_time_is_stated() {
    let cases = [
        ("an hour ago", "2026-02-11 08:30:15.007"),
        ("next friday", "2026-02-20 09:30:15.007"),
        ("12 months from now", "2027-02-11 09:30:15.007"),
        ("5/2 at noon", "2026-05-02 12:00:00"),
        ("friday at midnight", "2026-02-13 00:00:00"),
        ("an hour after noon", "2026-02-11 13:00:00"),
    ];
    let now = Moment { millisecond: 7, ..NOW };
    for (phrase, moment) in cases {
        for reading in [Reading::First, Reading::Second] {
            assert_eq!(read(reading, phrase, now).unwrap().to_string(), moment, "{phrase}");
            assert_eq!(make_ready(reading, phrase).unwrap().run(now).unwrap().to_string(), moment, "{phrase}, made ready");
        }
    }
}

#[test]
fn takes_999_milliseconds_and_no_more() {
    let last = Moment { millisecond: 999, ..NOW };
    let ready = make_ready(Reading::First, "today").unwrap();
    assert_eq!((read(Reading::First, "today", last), ready.run(last)), (Ok(last), Ok(last)));
    for millisecond in [1000, u32::MAX] {
        let now = Moment { millisecond, ..NOW };
        assert_eq!(read(Reading::First, "today", now).unwrap_err().reason(), Reason::InvalidMoment);
        assert_eq!(ready.run(now).unwrap_err().reason(), Reason::InvalidMoment);
        assert_eq!(write_stamp(Stamp { moment: now, offset: Offset::East(0) }).unwrap_err().reason(), Reason::InvalidMoment);
    }
}

#[test]
fn reads_in_two_readings() {
    let cases = [
        ("tuesday in two weeks", "2026-01-27 09:30:15", "2026-03-03 09:30:15"),
        ("wednesday in two weeks", "2026-01-28 09:30:15", "2026-02-25 09:30:15"),
        ("tuesday two weeks ago", "2026-01-27 09:30:15", "2026-01-27 09:30:15"),
        ("tuesday in two hours", "", ""),
        ("next friday", "2026-02-20 09:30:15", "2026-02-20 09:30:15"),
    ];
    for (phrase, first, second) in cases {
        for (reading, moment) in [(Reading::First, first), (Reading::Second, second)] {
            let shown = |answer: Result<Moment, _>| answer.map(|m| m.to_string()).unwrap_or_default();
            assert_eq!(shown(read(reading, phrase, NOW)), moment, "{phrase}");
            let made = make_ready(reading, phrase).map_or_else(|_| String::new(), |ready| shown(ready.run(NOW)));
            assert_eq!(made, moment, "{phrase}, made ready");
        }
    }
}

#[test]
fn refuses_with_reason_place_and_part() {
    let cases: [(&[u8], Reason, usize, &[u8]); 12] = [
        (b"", Reason::Nothing, 0, b""),
        (b"   ", Reason::Nothing, 0, b""),
        (b"forty days ago", Reason::Unknown, 0, b"forty"),
        (b"at \xff", Reason::Unknown, 3, b"\xff"),
        (b"4294967296 days ago", Reason::LargeDigits, 0, b"4294967296"),
        (b"five billion days ago", Reason::LargeSum, 0, b""),
        (b"march 24th", Reason::LeftOver, 8, b"th"),
        (b"this month", Reason::NoSense, 0, b""),
        (b"1000/1/1", Reason::NoDate, 0, b""),
        (b"january 1, 2010", Reason::NoTime, 0, b""),
        (b"four billion days ago", Reason::Outside, 0, b""),
        (&[b' '; 257], Reason::TooLong, 0, b""),
    ];
    for (phrase, reason, place, part) in cases {
        let refusal = read(Reading::First, phrase, NOW).unwrap_err();
        assert_eq!((refusal.reason(), refusal.place(), refusal.part()), (reason, place, part), "{refusal}");
        if reason <= Reason::LeftOver {
            assert_eq!(make_ready(Reading::First, phrase).unwrap_err(), refusal);
        } else {
            assert_eq!(make_ready(Reading::First, phrase).unwrap().run(NOW).unwrap_err().reason(), reason);
        }
    }
}

#[test]
fn counts_to_64_lexemes() {
    let mut phrase = b"1 ".repeat(64);
    assert_eq!(read(Reading::First, &phrase, NOW).unwrap_err().reason(), Reason::LeftOver);
    phrase.extend_from_slice(b"1");
    let refusal = read(Reading::First, &phrase, NOW).unwrap_err();
    assert_eq!((refusal.reason(), refusal.place(), refusal.part()), (Reason::TooMany, 128, &b"1"[..]));
}

#[test]
fn refuses_an_invalid_now_after_reading() {
    assert_eq!(read(Reading::First, "today", INVALID).unwrap_err().reason(), Reason::InvalidMoment);
    assert_eq!(read(Reading::First, "forty", INVALID).unwrap_err().reason(), Reason::Unknown);
    assert_eq!(make_ready(Reading::First, "today").unwrap().run(INVALID).unwrap_err().reason(), Reason::InvalidMoment);
    assert_eq!(read(Reading::First, "a year from now", LEAP_DAY).unwrap_err().reason(), Reason::NoLeapDay);
}

#[test]
fn stores_ready_phrases() {
    let ready = make_ready(Reading::First, "2 months before 3 weeks after tomorrow at 5:00").unwrap();
    let again = Ready::from_bytes(ready.as_bytes()).unwrap();
    assert_eq!(ready, again);
    assert_eq!(again.run(NOW), read(Reading::First, "2 months before 3 weeks after tomorrow at 5:00", NOW));
    let mut damaged = ready.as_bytes().to_vec();
    damaged[2] ^= 1;
    assert_eq!(Ready::from_bytes(&damaged).unwrap().run(NOW).unwrap_err().reason(), Reason::NoSense);
    assert_eq!(Ready::from_bytes(&[]).unwrap().run(NOW).unwrap_err().reason(), Reason::NoSense);
    assert_eq!(Ready::from_bytes(&[0; 385]), None);
}

#[test]
fn says_what_is_wrong() {
    let cases: [(&[u8], &str); 7] = [
        (b"next forty", "not understood\n  next forty\n       ^^^^^"),
        (b"forty days ago", "not understood\n  forty days ago\n  ^^^^^"),
        ("at \u{e9} \u{1f552}".as_bytes(), "not understood\n  at \u{e9} \u{1f552}\n     ^"),
        (b"at \xff\xc3", "not understood\n  at \\xff\\xc3\n     ^^^^"),
        (b"\tat\n\0 \xc2\x85", "not understood\n  \\x09at\\x0a\\x00 \\xc2\\x85\n        ^^^^"),
        (b"5/2", "not part of the date or time\n  5/2\n   ^^"),
        (b"", "no date or time in it"),
    ];
    for (phrase, text) in cases {
        assert_eq!(read(Reading::First, phrase, NOW).unwrap_err().to_string(), text);
    }
    let shown = |phrase: &str| format!("{:?}", read(Reading::First, phrase, NOW).unwrap_err());
    assert_eq!(shown("at \u{e9}"), r#"Refusal { reason: Unknown, phrase: "at \xc3\xa9", place: 3, part: "\xc3" }"#);
    assert_eq!(shown("this month"), "Refusal { reason: NoSense }");
}

#[test]
fn goes_up_as_an_error() {
    fn due(day: u32) -> Result<Moment, Box<dyn std::error::Error + Send + Sync>> {
        let phrase = format!("march {day}th");
        Ok(read(Reading::First, &phrase, NOW)?)
    }
    assert_eq!(due(4).unwrap(), Moment { month: 3, day: 4, ..NOW });
    let error = due(24).unwrap_err();
    assert_eq!(error.downcast_ref::<Refusal>().map(|refusal| (refusal.number(), refusal.part())), Some((7, &b"th"[..])));
}

/// The header, and what stands in it between two texts.
const HEADER: &str = include_str!("../../../include/fuzzy.h");

fn in_header<'a>(before: &'a str, after: &'a str) -> impl Iterator<Item = &'a str> {
    HEADER.lines().filter_map(move |line| Some(line.trim().strip_prefix(before)?.split_once(after)?.0))
}

#[test]
fn says_its_version() {
    assert_eq!(include_str!("../../../VERSION").trim(), VERSION);
    assert_eq!(in_header("#define FUZZY_VERSION \"", "\"").collect::<Vec<_>>(), [VERSION]);
    let numbers: Vec<u32> = VERSION.split('.').map(|number| number.parse().unwrap()).collect();
    assert_eq!(version(), 1_000_000 * numbers[0] + 1000 * numbers[1] + numbers[2]);
}

/// A name of the header's as this crate's: `FUZZY_NO_DATE` is `NoDate`.
fn own_name(name: &str) -> String {
    let words = name.split('_').skip(1);
    words.map(|word| word[..1].to_owned() + &word[1..].to_lowercase()).collect()
}

#[test]
fn has_the_reasons_of_the_header() {
    let enumerated = HEADER.split_once("enum fuzzy_refusal {").unwrap().1.split_once("};").unwrap().0;
    let mut count = 0;
    for line in enumerated.lines().filter(|line| line.contains(" = ")) {
        let (name, rest) = line.trim().split_once(" = ").unwrap();
        let number: u32 = rest.split([',', ' ']).next().unwrap().parse().unwrap();
        let reason = Reason::from_number(number).unwrap();
        assert_eq!((format!("{reason:?}"), reason.number()), (own_name(name), number));
        assert_eq!(in_header(&format!("case {name}: return \""), "\";").collect::<Vec<_>>(), [reason.words()]);
        count = number;
    }
    let newer = Reason::from_number(count + 1).unwrap();
    assert_eq!((newer, newer.number()), (Reason::Other(count + 1), count + 1));
    assert_eq!(in_header("default: return \"", "\";").collect::<Vec<_>>(), [newer.words()]);
}

#[test]
fn reads_and_writes_stamps() {
    let cases = [
        ("2026-02-11T09:30:15Z", Offset::East(0), "2026-02-11T09:30:15Z"),
        ("2026-02-11t09:30:15z", Offset::East(0), "2026-02-11T09:30:15Z"),
        ("2026-02-11T09:30:15+00:00", Offset::East(0), "2026-02-11T09:30:15Z"),
        ("2026-02-11T09:30:15-00:00", Offset::Unknown, "2026-02-11T09:30:15-00:00"),
        ("2026-02-11T09:30:15+23:59", Offset::East(1439), "2026-02-11T09:30:15+23:59"),
        ("2026-02-11T09:30:15-05:00", Offset::West(300), "2026-02-11T09:30:15-05:00"),
    ];
    for (text, offset, written) in cases {
        let stamp = read_stamp(text).unwrap();
        assert_eq!(text.parse(), Ok(stamp), "{text}");
        assert_eq!(stamp, Stamp { moment: NOW, offset }, "{text}");
        assert_eq!(stamp.to_string(), written);
    }
    assert_eq!(Stamp { moment: NOW, offset: Offset::West(0) }.to_string(), "2026-02-11T09:30:15-00:00");
}

#[test]
fn reads_and_writes_fractions() {
    let cases = [
        ("2026-02-11T09:30:15.5Z", 500, "2026-02-11T09:30:15.500Z"),
        ("2026-02-11T09:30:15.05Z", 50, "2026-02-11T09:30:15.050Z"),
        ("2026-02-11t09:30:15.005z", 5, "2026-02-11T09:30:15.005Z"),
        ("2026-02-11T09:30:15.0Z", 0, "2026-02-11T09:30:15Z"),
        ("2026-02-11T09:30:15.000-05:00", 0, "2026-02-11T09:30:15-05:00"),
        ("2026-02-11T09:30:15.999-23:59", 999, "2026-02-11T09:30:15.999-23:59"),
    ];
    for (text, millisecond, written) in cases {
        let stamp = read_stamp(text).unwrap();
        assert_eq!(text.parse(), Ok(stamp), "{text}");
        assert_eq!(stamp.moment, Moment { millisecond, ..NOW }, "{text}");
        assert_eq!(stamp.to_string(), written);
    }
}

#[test]
fn refuses_what_is_no_stamp() {
    let cases = [
        ("", Reason::NoStamp),
        ("2026-02-11 09:30:15Z", Reason::NoStamp),
        ("2026-02-11T09:30:60Z", Reason::NoStamp),
        ("2026-02-11T09:30:15+24:00", Reason::NoStamp),
        ("2026-02-11T09:30:15.Z", Reason::NoStamp),
        ("2026-02-11T09:30:15.5000Z", Reason::NoStamp),
        ("2026-02-11T09:30:15.5000+05:30", Reason::NoStamp),
        ("2026-02-11T09:30:15,5Z", Reason::NoStamp),
        ("0000-02-30T00:00:00Z", Reason::NoStamp),
        ("0000-02-29T00:00:00Z", Reason::Outside),
    ];
    for (text, reason) in cases {
        assert_eq!(read_stamp(text).unwrap_err().reason(), reason, "{text}");
        assert_eq!(text.parse::<Stamp>().unwrap_err(), read_stamp(text).unwrap_err(), "{text}");
    }
    assert_eq!(write_stamp(Stamp { moment: INVALID, offset: Offset::East(1440) }).unwrap_err().reason(), Reason::InvalidMoment);
    assert_eq!(write_stamp(Stamp { moment: NOW, offset: Offset::West(1440) }).unwrap_err().reason(), Reason::NoStamp);
    assert_eq!(Stamp { moment: INVALID, offset: Offset::East(0) }.to_string(), "the given moment is not a valid date and time");
}

#[test]
fn finds_words() {
    let cases: [(Reading, &[u8], Option<u32>, u32); 9] = [
        (Reading::First, b"Friday", Some(123), 7),
        (Reading::First, b"zERO", Some(151), 8),
        (Reading::First, b"th", Some(159), 7),
        (Reading::Second, b"th", Some(160), 4),
        (Reading::First, b"forty", None, 7),
        (Reading::Second, b"FORTY", Some(40), 5),
        (Reading::First, b"", None, 7),
        (Reading::Second, b"fri\xff", None, 7),
        (Reading::Second, b"fr\0day", None, 7),
    ];
    for (reading, word, code, comparisons) in cases {
        assert_eq!(find_word(reading, word), FoundWord { code, comparisons }, "{}", word.escape_ascii());
    }
    assert_eq!(find_word(Reading::First, &vec![b'a'; 4096]).code, None);
}

#[test]
fn shows_moments_as_phrases() {
    let whole = |year, month, day, hour, minute| Moment { year, month, day, hour, minute, second: 0, millisecond: 0 };
    let cases = [
        (whole(2026, 3, 4, 9, 5), "march 4 2026 at 9:05"),
        (whole(1, 5, 1, 0, 0), "may 1 1 at 0:00"),
        (whole(2026, 9, 30, 23, 59), "september 30 2026 at 23:59"),
        (whole(999, 12, 31, 10, 10), "december 31 999 at 10:10"),
        (whole(1000, 1, 1, 0, 1), "january 1 1000 at 0:01"),
    ];
    for (moment, phrase) in cases {
        assert_eq!(write_phrase(moment).unwrap(), phrase);
        assert_eq!(read(Reading::First, phrase, NOW), Ok(moment), "{phrase}");
        assert_eq!(read(Reading::Second, phrase, NOW) == Ok(moment), moment.year >= 1000, "{phrase}");
    }
    assert_eq!(write_phrase(INVALID).unwrap_err().reason(), Reason::InvalidMoment);
    assert_eq!(write_phrase(Moment { millisecond: 1000, ..whole(2026, 3, 4, 9, 5) }).unwrap_err().reason(), Reason::InvalidMoment);
    assert_eq!(write_phrase(Moment { millisecond: 1, ..whole(2026, 3, 4, 9, 5) }).unwrap_err().reason(), Reason::NotWhole);
    assert_eq!(write_phrase(Moment { second: 1, ..whole(2026, 3, 4, 9, 5) }).unwrap_err().reason(), Reason::NotWhole);
}

#[test]
fn lists_rules() {
    let tuesday = Moment { year: 2026, month: 2, day: 10, millisecond: 250, ..NOW };
    let cases: [(&str, usize, &[(u32, u32)]); 8] = [
        ("FREQ=WEEKLY;INTERVAL=2;BYDAY=TU", 3, &[(2, 10), (2, 24), (3, 10)]),
        ("freq=weekly;byday=su,tu,su;interval=02", 4, &[(2, 10), (2, 15), (2, 24), (3, 1)]),
        ("FREQ=DAILY;UNTIL=20260212", usize::MAX, &[(2, 10), (2, 11), (2, 12)]),
        ("FREQ=DAILY;UNTIL=20260212T093015", 9, &[(2, 10), (2, 11)]),
        ("FREQ=DAILY;UNTIL=20260212T093016;WKST=MO", 9, &[(2, 10), (2, 11), (2, 12)]),
        ("FREQ=MONTHLY;COUNT=2", 9, &[(2, 10), (3, 10)]),
        ("FREQ=MONTHLY;BYMONTHDAY=+10", 1, &[(2, 10)]),
        ("FREQ=DAILY", 0, &[]),
    ];
    for (text, most, dates) in cases {
        let rule = Rule::parse(text).unwrap();
        assert_eq!(rule.as_str(), text);
        let wanted: Vec<Moment> = dates.iter().map(|&(month, day)| Moment { month, day, ..tuesday }).collect();
        assert_eq!(rule.occurrences(tuesday, most), Ok(wanted), "{text}");
    }
    let last = Moment { year: 9999, month: 12, day: 30, ..NOW };
    assert_eq!(Rule::parse("FREQ=DAILY").unwrap().occurrences(last, 9).unwrap().len(), 2);
    let all = Rule::parse("FREQ=MONTHLY").unwrap().occurrences(Moment { year: 1, month: 1, day: 1, ..NOW }, usize::MAX).unwrap();
    assert_eq!((all.len(), all[119_987]), (119_988, Moment { year: 9999, month: 12, day: 1, ..NOW }));
}

#[test]
fn refuses_rules_and_starts() {
    for text in
        ["", "FREQ=YEARLY", "FREQ=DAILY;", "FREQ=DAILY;COUNT=0", "FREQ=DAILY;BYDAY=MO", "FREQ=DAILY;UNTIL=20260229", "FREQ=DAILY\u{e9}"]
    {
        assert_eq!(Rule::parse(text).unwrap_err().reason(), Reason::NoRule, "{text}");
    }
    // the first two do not match the start that parsing takes either, Monday, 0001-01-01
    for text in ["FREQ=WEEKLY;BYDAY=TU", "FREQ=MONTHLY;BYMONTHDAY=31", "FREQ=DAILY;UNTIL=00010101"] {
        let rule = Rule::parse(text).unwrap();
        assert_eq!(rule.occurrences(NOW, 9).unwrap_err().reason(), Reason::NoStart, "{text}");
        assert_eq!(rule.occurrences(INVALID, 9).unwrap_err().reason(), Reason::InvalidMoment, "{text}");
    }
}

#[test]
fn says_what_comes_next() {
    let tuesday = Moment { year: 2026, month: 2, day: 10, millisecond: 250, ..NOW };
    let on = |month, day| Moment { month, day, ..tuesday };
    let fortnights = Rule::parse("FREQ=WEEKLY;INTERVAL=2;BYDAY=TU;COUNT=3").unwrap();
    let asked = [
        (Moment { year: 1, ..tuesday }, Ok(tuesday)),
        (tuesday, Ok(tuesday)),
        (Moment { millisecond: 251, ..tuesday }, Ok(on(2, 24))),
        (Moment { millisecond: 249, ..on(2, 24) }, Ok(on(2, 24))),
        (on(2, 24), Ok(on(2, 24))),
        (on(3, 10), Ok(on(3, 10))),
        (Moment { millisecond: 251, ..on(3, 10) }, Err(Reason::NoNext)),
        (Moment { year: 9999, month: 12, day: 31, hour: 23, minute: 59, second: 59, millisecond: 999 }, Err(Reason::NoNext)),
    ];
    for (moment, wanted) in asked {
        assert_eq!(fortnights.next(tuesday, moment).map_err(|r| r.reason()), wanted, "{moment}");
    }
    let until = |text| Rule::parse(text).unwrap().next(tuesday, on(2, 12)).map_err(|r| r.reason());
    assert_eq!(until("FREQ=DAILY;UNTIL=20260212"), Ok(on(2, 12)));
    assert_eq!(until("FREQ=DAILY;UNTIL=20260212T093015"), Err(Reason::NoNext));
    assert_eq!(until("FREQ=DAILY;UNTIL=20260212T093016"), Ok(on(2, 12)));

    // months without a 31st are not counted
    let four = Rule::parse("FREQ=MONTHLY;COUNT=4").unwrap();
    assert_eq!(four.next(on(1, 31), on(7, 31)), Ok(on(7, 31)));
    assert_eq!(four.next(on(1, 31), on(8, 1)).unwrap_err().reason(), Reason::NoNext);

    let leap_days = Rule::parse("FREQ=MONTHLY;INTERVAL=300").unwrap();
    let first = Moment { year: 2000, ..LEAP_DAY };
    assert_eq!(leap_days.next(first, Moment { year: 2001, day: 28, ..first }), Ok(Moment { year: 2400, ..first }));

    let days = Rule::parse("FREQ=DAILY").unwrap();
    let last = Moment { year: 9999, month: 12, day: 31, ..NOW };
    assert_eq!(days.next(NOW, last), Ok(last));
    assert_eq!(days.next(NOW, Moment { millisecond: 1, ..last }).unwrap_err().reason(), Reason::NoNext);

    let mondays = Rule::parse("FREQ=WEEKLY;BYDAY=MO").unwrap();
    assert_eq!(mondays.next(tuesday, last).unwrap_err().reason(), Reason::NoStart);
    assert_eq!(mondays.next(tuesday, INVALID).unwrap_err().reason(), Reason::InvalidMoment);
    assert_eq!(mondays.next(INVALID, last).unwrap_err().reason(), Reason::InvalidMoment);
}

const NEW_YORK: &[u8] = include_bytes!("../../zones/New_York");

/// 01:30:00 on 8 March 2026 in New York, half an hour before the clocks go forward; the last transition of the file.
const BEFORE_GAP: i64 = 1772951400;
const LAST: i64 = 1805007600;

/// A phrase at an instant in a zone, read, and the same run where it can be made ready.
fn due(reading: Reading, phrase: &str, zone: &Zone, second: i64, millisecond: u32) -> Result<Local, Reason> {
    let now = Instant { second, millisecond };
    let answer = read_in_zone(reading, phrase, zone, now).map_err(|refusal| refusal.reason());
    let run = make_ready(reading, phrase).and_then(|ready| ready.run_in_zone(zone, now)).map_err(|refusal| refusal.reason());
    assert_eq!(answer, run, "{phrase}, made ready");
    answer
}

#[test]
fn gives_instants_in_a_zone() {
    let zone = Zone::parse(NEW_YORK).unwrap();
    assert_eq!(zone.as_bytes(), NEW_YORK);
    let cases = [
        ("now", BEFORE_GAP, BEFORE_GAP, "2026-03-08 01:30:00.250 -05:00"),
        ("today 3:00", BEFORE_GAP, 1772953200, "2026-03-08 03:00:00 -04:00"),
        ("an hour from now", BEFORE_GAP, 1772955000, "2026-03-08 03:30:00.250 -04:00"),
        ("1 day from now", 1772892000, 1772978400, "2026-03-08 10:00:00.250 -04:00"),
        ("tomorrow", 1772892000, 1772974800, "2026-03-08 09:00:00.250 -04:00"),
        ("2 months from now", 1770535800, 1775629800, "2026-04-08 02:30:00.250 -04:00"),
        ("now", 1793514600, 1793514600, "2026-11-01 01:30:00.250 -05:00"),
        ("today", 1793514600, 1793511000, "2026-11-01 01:30:00.250 -04:00"),
        ("5/2/1969 at noon", BEFORE_GAP, -21020400, "1969-05-02 12:00:00 -05:00"),
    ];
    for (phrase, now, second, shown) in cases {
        for reading in [Reading::First, Reading::Second] {
            let local = due(reading, phrase, &zone, now, 250).unwrap();
            assert_eq!((local.instant.second, local.to_string().as_str()), (second, shown), "{phrase}");
            assert_eq!(local.instant.millisecond, local.moment.millisecond, "{phrase}");
        }
    }
}

#[test]
fn shows_offsets_of_both_signs_and_with_seconds() {
    let cases =
        [(0, "+00:00"), (19_800, "+05:30"), (93_599, "+25:59:59"), (-17_762, "-04:56:02"), (-89_999, "-24:59:59"), (-1, "-00:00:01")];
    for (offset, shown) in cases {
        let mut file = NEW_YORK.to_vec();
        file[131..135].copy_from_slice(&i32::to_be_bytes(offset)); // the first type's
        let local = due(Reading::First, "now", &Zone::parse(&file).unwrap(), 1767225600, 0).unwrap();
        assert_eq!((local.offset, local.instant.second), (offset, 1767225600));
        assert_eq!(local.to_string().split(' ').nth(2), Some(shown));
    }
    for offset in [93_600, -90_000, i32::MIN, i32::MAX] {
        let mut file = NEW_YORK.to_vec();
        file[131..135].copy_from_slice(&i32::to_be_bytes(offset));
        assert_eq!(Zone::parse(&file).unwrap_err().reason(), Reason::NoZone, "{offset}");
    }
}

#[test]
fn refuses_in_a_zone() {
    let zone = Zone::parse(NEW_YORK).unwrap();
    let cases = [
        ("today 2:00", BEFORE_GAP, 0, Reason::NoInstant),
        ("a month from now", 1770535800, 0, Reason::NoInstant),
        ("2 years from now", BEFORE_GAP, 0, Reason::PastLast),
        ("four billion days from now", BEFORE_GAP, 0, Reason::PastLast),
        ("now", LAST, 0, Reason::PastLast),
        ("now", i64::MAX, 0, Reason::PastLast),
        ("this month", LAST, 0, Reason::PastLast),
        ("a year from now", 1709226000, 0, Reason::NoLeapDay),
        ("four billion days ago", BEFORE_GAP, 0, Reason::Outside),
        ("january 1, 99", BEFORE_GAP, 0, Reason::NoTime),
        ("1000/1/1", BEFORE_GAP, 0, Reason::NoDate),
        ("this month", BEFORE_GAP, 0, Reason::NoSense),
        ("now", LAST, 1000, Reason::InvalidMoment),
        ("now", i64::MIN, 0, Reason::InvalidMoment),
        ("5/2", LAST, 1000, Reason::LeftOver),
    ];
    for (phrase, second, millisecond, reason) in cases {
        assert_eq!(due(Reading::First, phrase, &zone, second, millisecond), Err(reason), "{phrase}");
    }
    let refusal = read_in_zone(Reading::First, "next forty", &zone, Instant { second: LAST, millisecond: 1000 }).unwrap_err();
    assert_eq!((refusal.reason(), refusal.place(), refusal.part()), (Reason::Unknown, 5, &b"forty"[..]));
    let damaged = Ready::from_bytes(&[0; 17]).unwrap().run_in_zone(&zone, Instant { second: 0, millisecond: 0 });
    assert_eq!(damaged.unwrap_err().reason(), Reason::NoSense);
}

#[test]
fn refuses_what_is_no_zone() {
    for length in 0..NEW_YORK.len() {
        assert_eq!(Zone::parse(&NEW_YORK[..length]).unwrap_err().reason(), Reason::NoZone, "{length} bytes");
    }
    let mut file = NEW_YORK.to_vec();
    file.resize(65_536, 0);
    assert!(Zone::parse(&file).is_ok());
    file.push(0);
    assert_eq!(Zone::parse(&file).unwrap_err().reason(), Reason::NoZone);
}

#[test]
fn answers_in_damaged_zones() {
    let mut zones = 0;
    for bit in 0..8 * NEW_YORK.len() {
        let mut file = NEW_YORK.to_vec();
        file[bit / 8] ^= 1 << (bit % 8);
        let Ok(zone) = Zone::parse(&file) else { continue };
        zones += 1;
        if let Err(reason) = due(Reading::First, "tomorrow", &zone, BEFORE_GAP, 0) {
            assert!(
                matches!(reason, Reason::InvalidMoment | Reason::Outside | Reason::PastLast | Reason::NoInstant),
                "bit {bit}: {reason:?}"
            );
        }
    }
    assert!(zones > 0 && zones < 8 * NEW_YORK.len());
}

#[test]
fn keeps_a_board() {
    let mut board = Board::new(NOW).unwrap();
    assert_eq!((board.head().unwrap_err().reason(), board.order()), (Reason::NothingDue, vec![]));
    assert_eq!(Board::new(INVALID).unwrap_err().reason(), Reason::InvalidMoment);
    let reminders = ["next friday", "tuesday in two weeks", "noon", "an hour ago", "60 minutes ago", "this month"];
    for (slot, phrase) in (0..).zip(reminders) {
        assert_eq!(board.add(Reading::First, phrase), Ok(slot), "{phrase}");
    }
    assert_eq!(board.order(), [1, 3, 4, 2, 0, 5]);
    assert_eq!(board.head(), Ok((1, Moment { month: 1, day: 27, ..NOW })));

    // a slot that was removed is used again, here for the other reading
    assert_eq!(board.remove(1), Ok(()));
    assert_eq!(board.head(), Ok((3, Moment { hour: 8, ..NOW })));
    assert_eq!(board.add(Reading::Second, "tuesday in two weeks"), Ok(1));
    assert_eq!(board.order(), [3, 4, 2, 0, 1, 5]);

    // an earlier now is accepted
    board.again(LEAP_DAY).unwrap();
    assert_eq!(board.order(), [3, 4, 2, 0, 1, 5]);
    assert_eq!(board.head(), Ok((3, Moment { hour: 11, ..LEAP_DAY })));
}

#[test]
fn leaves_a_board_unchanged_on_a_refusal() {
    let mut board = Board::new(NOW).unwrap();
    board.add(Reading::First, "tomorrow").unwrap();
    let seen = |board: &Board| (board.order(), board.head());
    let before = seen(&board);
    for slot in [1, 255, 256, 257, u32::MAX] {
        assert_eq!(board.remove(slot).unwrap_err().reason(), Reason::EmptySlot);
    }
    assert_eq!(board.again(INVALID).unwrap_err().reason(), Reason::InvalidMoment);
    let refusal = board.add(Reading::First, "next forty").unwrap_err();
    assert_eq!((refusal.reason(), refusal.place(), refusal.part()), (Reason::Unknown, 5, &b"forty"[..]));
    assert_eq!(seen(&board), before);

    for slot in 1..256 {
        assert_eq!(board.add(Reading::Second, "tomorrow"), Ok(slot));
    }
    let full = seen(&board);
    assert_eq!(full.0, (0..256).collect::<Vec<u32>>());
    assert_eq!(board.add(Reading::First, "now").unwrap_err().reason(), Reason::FullBoard);
    assert_eq!(board.add(Reading::First, "5/2").unwrap_err().reason(), Reason::LeftOver);
    assert_eq!(seen(&board), full);
    board.remove(77).unwrap();
    assert_eq!((board.add(Reading::First, "now"), board.head()), (Ok(77), Ok((77, NOW))));
}
