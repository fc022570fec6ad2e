use alloc::borrow::ToOwned;
use alloc::string::String;
use alloc::vec;
use alloc::vec::Vec;

use crate::calls::{fuzzy_list_in, fuzzy_next};
use crate::{Moment, Reason, Refusal};

/// The days of the years 1 to 9999: no rule has more occurrences.
const MOST_OCCURRENCES: usize = 3_652_059;

/// The numbers of a moment.
const MOMENT_NUMBERS: usize = 7;

/// A repeating rule of RFC 5545, kept as its text: `FREQ=WEEKLY;INTERVAL=2;BYDAY=TU` is every second Tuesday. Without "RRULE:" and without
/// spaces; letters in either case, zeros before a number are allowed. First comes FREQ, which is DAILY, WEEKLY or MONTHLY, then in any
/// order, each at most once:
///
/// - INTERVAL: 1 to 999; 1 where there is none.
/// - COUNT: 1 to 4,294,967,295.
/// - UNTIL: a date such as 20260301, that day included, or a date-time such as 20260301T093000, without "Z"; not with COUNT.
/// - BYDAY, only with WEEKLY: days such as TU,FR, each counted once; the start's own weekday where there is none.
/// - BYMONTHDAY, only with MONTHLY: a day of 1 to 31, "+" allowed before it, the start's own where there is none. A month without that day
///   has no occurrence.
/// - WKST: MO. Weeks begin on Monday.
#[derive(Clone, Debug, PartialEq, Eq, Hash)]
pub struct Rule {
    text: String,
}

impl Rule {
    /// A whole text as a rule.
    ///
    /// ```
    /// # use fuzzydate::{Reason, Rule};
    /// assert!(Rule::parse("freq=monthly;count=12").is_ok());
    /// assert_eq!(Rule::parse("FREQ=YEARLY").unwrap_err().reason(), Reason::NoRule);
    /// assert_eq!(Rule::parse("FREQ=DAILY;UNTIL=20260301Z").unwrap_err().to_string(), "not a repeating rule that is accepted");
    /// ```
    pub fn parse(text: &str) -> Result<Rule, Refusal> {
        // Listed from a valid moment on, without room. Whether it matches the rule is judged after the rule: so any refusal but `NoStart`
        // is the text's.
        let start = Moment { year: 1, month: 1, day: 1, hour: 0, minute: 0, second: 0, millisecond: 0 };
        match list(text, start, &mut []) {
            Err(refusal) if refusal.reason() != Reason::NoStart => Err(refusal),
            _ => Ok(Rule { text: text.to_owned() }),
        }
    }

    /// The text that it was made of.
    pub fn as_str(&self) -> &str {
        &self.text
    }

    /// The first occurrences from a start on, in order, up to so many: the start itself, and then every one at its time of day, as far as
    /// COUNT, UNTIL and year 9999 allow. Refused, in this order, for an invalid start, and for one that does not match the rule or is after
    /// its UNTIL.
    ///
    /// ```
    /// # use fuzzydate::{Moment, Reason, Rule};
    /// let start = Moment { year: 2026, month: 1, day: 31, hour: 9, minute: 30, second: 0, millisecond: 0 };
    /// let months = Rule::parse("FREQ=MONTHLY")?.occurrences(start, 4)?;
    /// assert_eq!(months.iter().map(|m| m.month).collect::<Vec<_>>(), [1, 3, 5, 7]);
    ///
    /// let days = Rule::parse("FREQ=DAILY;UNTIL=20260202")?.occurrences(start, 100)?;
    /// assert_eq!(days.len(), 3);
    ///
    /// let mondays = Rule::parse("FREQ=WEEKLY;BYDAY=MO")?;
    /// assert_eq!(mondays.occurrences(start, 4).unwrap_err().reason(), Reason::NoStart);
    /// # Ok::<(), fuzzydate::Refusal>(())
    /// ```
    pub fn occurrences(&self, start: Moment, most: usize) -> Result<Vec<Moment>, Refusal> {
        let mut moments = vec![Moment::NONE; most.min(MOST_OCCURRENCES)];
        let count = list(&self.text, start, &mut moments)?;
        moments.truncate(count);
        Ok(moments)
    }

    /// The next occurrence: of those from a start on the first at or after the asked moment, found without going through the ones before
    /// it. Refused, in this order, for an invalid start or asked moment, for a start that does not match the rule or is after its UNTIL,
    /// and where no occurrence is left.
    ///
    /// ```
    /// # use fuzzydate::{Moment, Reason, Rule};
    /// let start = Moment { year: 2026, month: 1, day: 31, hour: 9, minute: 30, second: 0, millisecond: 0 };
    /// let months = Rule::parse("FREQ=MONTHLY;COUNT=4")?;
    /// assert_eq!(months.next(start, start)?, start);
    /// assert_eq!(months.next(start, Moment { millisecond: 1, ..start })?.to_string(), "2026-03-31 09:30:00");
    ///
    /// let refusal = months.next(start, Moment { month: 8, day: 1, ..start }).unwrap_err();
    /// assert_eq!(refusal.reason(), Reason::NoNext);
    /// assert_eq!(refusal.to_string(), "no occurrence is left");
    /// # Ok::<(), fuzzydate::Refusal>(())
    /// ```
    pub fn next(&self, start: Moment, asked: Moment) -> Result<Moment, Refusal> {
        let mut moment = Moment::NONE;
        // SAFETY: the pointer is that of a text, whose size is said.
        let answer = unsafe { fuzzy_next(self.text.as_ptr(), self.text.len() as u64, &start, &asked, &mut moment) };
        answer.check(&[]).map(|_| moment)
    }
}

/// Lists a rule's occurrences; how many were written.
fn list(rule: &str, start: Moment, moments: &mut [Moment]) -> Result<usize, Refusal> {
    let numbers = MOMENT_NUMBERS * moments.len();
    // SAFETY: the pointers are those of a text, whose size is said, and of moments, which are rows of as many numbers as are said.
    let answer = unsafe { fuzzy_list_in(rule.as_ptr(), rule.len() as u64, &start, moments.as_mut_ptr(), numbers as u64) };
    answer.check(&[]).map(|count| count as usize)
}
