//! Reads each phrase of a file at one now, over and over, by one of the two libraries: driver PHRASES MODE ROUNDS
//! Modes: `rust` reads by the Rust, `ours` by ours, `make` makes ready, `ready` runs what was made ready before the first round. It prints
//! the moments of the last round, for `make` those of running what it made, so that all modes can be compared, and a sum of all rounds, so
//! that none is left out.

#[allow(dead_code)]
mod ast;
mod error;
#[allow(dead_code)]
mod lexer;

use chrono::{DateTime, Datelike, NaiveDate, TimeZone, Timelike, Utc};

pub use error::Error;

type Moment = [u32; 7];

extern "C" {
    fn fuzzy_read(reading: u32, phrase: *const u8, length: u64, now: *const Moment, moment: *mut Moment) -> u64;
    fn fuzzy_make_ready(reading: u32, phrase: *const u8, length: u64, ready: *mut [u8; 384]) -> u64;
    fn fuzzy_run(ready: *const u8, length: u64, now: *const Moment, moment: *mut Moment) -> u64;
}

/// 2026-02-11 09:30:15, without milliseconds
const NOW: Moment = [2026, 2, 11, 9, 30, 15, 0];

/// The three stages of the Rust's `aware_parse`
fn by_rust(phrase: &str, now: DateTime<Utc>) -> Moment {
    let lexemes = lexer::Lexeme::lex_line(phrase.to_string()).unwrap();
    let (tree, taken) = ast::DateTime::parse(&lexemes).unwrap();
    assert!(taken == lexemes.len());
    let t = tree.to_chrono(now).unwrap();
    [t.year() as u32, t.month(), t.day(), t.hour(), t.minute(), t.second(), t.timestamp_subsec_millis()]
}

fn by_ours(phrase: &str) -> Moment {
    let mut moment = [0; 7];
    // SAFETY: the pointers are those of a slice and of arrays of the sizes that the function reads and writes
    let answer = unsafe { fuzzy_read(1, phrase.as_ptr(), phrase.len() as u64, &NOW, &mut moment) };
    assert!(answer == 0, "{phrase}");
    moment
}

/// A ready phrase: its bytes and how many they are
struct Ready {
    bytes: [u8; 384],
    length: u64,
}

fn make_ready(phrase: &str, ready: &mut Ready) {
    // SAFETY: the pointers are those of a slice and of an array of the size that the function may write
    let answer = unsafe { fuzzy_make_ready(1, phrase.as_ptr(), phrase.len() as u64, &mut ready.bytes) };
    assert!(answer & 0xffff == 0, "{phrase}");
    ready.length = answer >> 32;
}

fn by_ready(ready: &Ready) -> Moment {
    let mut moment = [0; 7];
    // SAFETY: the pointers are those of arrays of the sizes that the function reads and writes, and no length passes its array's
    let answer = unsafe { fuzzy_run(ready.bytes.as_ptr(), ready.length, &NOW, &mut moment) };
    assert!(answer == 0);
    moment
}

fn print(moments: &[Moment], sum: u64) {
    for m in moments {
        println!("{:04}-{:02}-{:02} {:02}:{:02}:{:02}.{:03}", m[0], m[1], m[2], m[3], m[4], m[5], m[6]);
    }
    eprintln!("sum {sum}");
}

/// All phrases, so many times; the moments of the last round are printed
fn rounds<P>(phrases: &[P], rounds: usize, read: impl Fn(&P) -> Moment) {
    let mut last = Vec::new();
    let mut sum = 0u64;
    for _ in 0..rounds {
        last.clear();
        for phrase in phrases {
            let moment = read(phrase);
            sum += moment.iter().map(|&n| u64::from(n)).sum::<u64>();
            last.push(moment);
        }
    }
    print(&last, sum);
}

/// So many places for ready phrases
fn places(count: usize) -> Vec<Ready> {
    (0..count).map(|_| Ready { bytes: [0; 384], length: 0 }).collect()
}

/// All phrases made ready, so many times, each into the place that it has in `made`
fn make_rounds(phrases: &[&str], rounds: usize, made: &mut [Ready]) -> u64 {
    let mut sum = 0;
    for _ in 0..rounds {
        for (phrase, ready) in phrases.iter().zip(made.iter_mut()) {
            make_ready(phrase, ready);
            sum += ready.length;
        }
    }
    sum
}

/// So many bytes at the start of a page: they put the stack of what is called there, whatever the size of the environment, since how many
/// instructions a copy takes depends on where its bytes lie
#[repr(align(4096))]
struct Page([u8; 4096]);

fn main() {
    let page = Page([0; 4096]);
    measure();
    std::hint::black_box(&page.0);
}

#[inline(never)]
fn measure() {
    let arguments: Vec<String> = std::env::args().collect();
    let text = std::fs::read_to_string(&arguments[1]).unwrap();
    let phrases: Vec<&str> = text.lines().collect();
    let count = arguments[3].parse().unwrap();
    let [y, mo, d, h, mi, s, ms] = NOW;
    let now = Utc.from_utc_datetime(&NaiveDate::from_ymd_opt(y as i32, mo, d).unwrap().and_hms_milli_opt(h, mi, s, ms).unwrap());
    match arguments[2].as_str() {
        "rust" => rounds(&phrases, count, |p| by_rust(p, now)),
        "ours" => rounds(&phrases, count, |p| by_ours(p)),
        "make" => {
            let mut made = places(phrases.len());
            let sum = make_rounds(&phrases, count, &mut made);
            print(&made.iter().map(by_ready).collect::<Vec<Moment>>(), sum);
        }
        "ready" => {
            let mut made = places(phrases.len());
            make_rounds(&phrases, 1, &mut made);
            rounds(&made, count, by_ready);
        }
        other => panic!("no mode {other}"),
    }
}
