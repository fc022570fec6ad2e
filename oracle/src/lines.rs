//! One line of the oracle: the three stages of the Rust's `aware_parse`, each under `catch_unwind`.

use crate::ast::DateTime;
use crate::lexer::Lexeme;
use chrono::{Datelike, NaiveDate, NaiveDateTime, TimeZone, Timelike, Utc};
use std::panic::{catch_unwind, AssertUnwindSafe};

/// The answer to one line `NOW|PHRASE`
pub fn answer(line: &[u8]) -> String {
    let bar = line.iter().position(|&b| b == b'|').unwrap_or(line.len());
    let now = read_now(&line[..bar]);
    let phrase = unescape(line.get(bar + 1..).unwrap_or(&[]));

    // bytes that are no UTF-8 make no String: the caller's own error, shown at the lexer
    let Ok(phrase) = String::from_utf8(phrase) else {
        return "error".to_string();
    };
    let lexemes = match caught(|| Lexeme::lex_line(phrase).ok()) {
        Ok(lexemes) => lexemes,
        Err(failure) => return failure.to_string(),
    };
    let shown: Vec<String> = lexemes.iter().map(|l| format!("{l:?}")).collect();
    let shown = shown.join(" ");

    let (tree, taken) = match caught(|| DateTime::parse(&lexemes)) {
        Ok(read) => read,
        Err(failure) => return format!("{shown}|{failure}"),
    };
    let shown_tree = format!("{tree:?}").replace(' ', "");
    let moment = evaluate(&tree, taken < lexemes.len(), now);
    format!("{shown}|{shown_tree}|{taken}|{moment}")
}

/// The last stage: lexemes left are an error, as in lib.rs; a now that chrono cannot hold never reaches the Rust
fn evaluate(tree: &DateTime, left: bool, now: Option<NaiveDateTime>) -> String {
    if left {
        return "error".to_string();
    }
    let Some(now) = now else {
        return "no now".to_string();
    };
    match caught(|| tree.to_chrono(Utc.from_utc_datetime(&now)).ok()) {
        Ok(moment) => show(&moment.naive_utc()),
        Err(failure) => failure.to_string(),
    }
}

/// The stage's answer, or `error` or `panic`
fn caught<T>(stage: impl FnOnce() -> Option<T>) -> Result<T, &'static str> {
    match catch_unwind(AssertUnwindSafe(stage)) {
        Ok(Some(answer)) => Ok(answer),
        Ok(None) => Err("error"),
        Err(_) => Err("panic"),
    }
}

/// `YYYY-MM-DD HH:MM:SS`, exactly in this form
fn read_now(text: &[u8]) -> Option<NaiveDateTime> {
    let form = b"0000-00-00 00:00:00";
    let fits = text.len() == form.len()
        && text.iter().zip(form).all(|(b, f)| if *f == b'0' { b.is_ascii_digit() } else { b == f });
    if !fits {
        return None;
    }
    let number = |from: usize, to: usize| text[from..to].iter().fold(0, |n, b| n * 10 + u32::from(b - b'0'));
    NaiveDate::from_ymd_opt(number(0, 4) as i32, number(5, 7), number(8, 10))?
        .and_hms_opt(number(11, 13), number(14, 16), number(17, 19))
}

fn show(moment: &NaiveDateTime) -> String {
    let (date, time) = (moment.date(), moment.time());
    format!(
        "{:04}-{:02}-{:02} {:02}:{:02}:{:02}",
        date.year(),
        date.month(),
        date.day(),
        time.hour(),
        time.minute(),
        time.second()
    )
}

/// `\xHH` is one byte; every other byte stands for itself
fn unescape(text: &[u8]) -> Vec<u8> {
    let mut bytes = Vec::with_capacity(text.len());
    let mut rest = text;
    while let Some((&first, after)) = rest.split_first() {
        match escaped(rest) {
            Some(byte) => {
                bytes.push(byte);
                rest = &rest[4..];
            }
            None => {
                bytes.push(first);
                rest = after;
            }
        }
    }
    bytes
}

/// The byte of a `\xHH` at the front
fn escaped(text: &[u8]) -> Option<u8> {
    let [b'\\', b'x', high, low, ..] = text else {
        return None;
    };
    let digit = |b: u8| (b as char).to_digit(16);
    Some((digit(*high)? * 16 + digit(*low)?) as u8)
}
