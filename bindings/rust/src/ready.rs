use core::fmt;

use crate::calls::{fuzzy_make_ready, fuzzy_run, fuzzy_run_in_zone};
use crate::{Instant, Local, Moment, Reading, Refusal, Zone};

/// The most bytes that a ready phrase has.
pub const READY_SIZE: usize = 384;

/// A phrase made ready without a now: at most 24 calendar steps, in bytes that can be stored and sent.
#[derive(Clone, Copy)]
pub struct Ready {
    bytes: [u8; READY_SIZE],
    length: usize,
}

/// Makes a phrase ready in one of the two readings, to be stored, sent and run later. Refused for
/// [`Reason::TooLong`](crate::Reason::TooLong) to [`Reason::LeftOver`](crate::Reason::LeftOver), as [`read`](crate::read).
pub fn make_ready<P: AsRef<[u8]> + ?Sized>(reading: Reading, phrase: &P) -> Result<Ready, Refusal> {
    let phrase = phrase.as_ref();
    let mut bytes = [0; READY_SIZE];
    // SAFETY: the pointer is that of a slice, whose size is said.
    let answer = unsafe { fuzzy_make_ready(reading as u32, phrase.as_ptr(), phrase.len() as u64, &mut bytes) };
    answer.check(phrase).map(|length| Ready { bytes, length: length as usize })
}

impl Ready {
    /// No bytes, which are not a ready phrase.
    pub(crate) const EMPTY: Ready = Ready { bytes: [0; READY_SIZE], length: 0 };

    /// The bytes, to be stored or sent.
    pub fn as_bytes(&self) -> &[u8] {
        &self.bytes[..self.length]
    }

    /// Bytes that were stored or sent; none where they are more than any ready phrase has. Damaged ones are refused when they are run.
    pub fn from_bytes(stored: &[u8]) -> Option<Ready> {
        let mut bytes = [0; READY_SIZE];
        bytes.get_mut(..stored.len())?.copy_from_slice(stored);
        Some(Ready { bytes, length: stored.len() })
    }

    /// Runs it at a now: gives what [`read`](crate::read) gives for its phrase at that now, in the reading that it was made in.
    pub fn run(&self, now: Moment) -> Result<Moment, Refusal> {
        let mut moment = Moment::NONE;
        // SAFETY: the pointer is that of an array with as many bytes as are said, or more.
        let answer = unsafe { fuzzy_run(self.bytes.as_ptr(), self.length as u64, &now, &mut moment) };
        answer.check(&[]).map(|_| moment)
    }

    /// Runs it at an instant in a zone: gives what [`read_in_zone`](crate::read_in_zone) gives for its phrase there, in the reading that it
    /// was made in.
    ///
    /// ```
    /// # use fuzzydate::{make_ready, Instant, Reading, Zone};
    /// # let new_york = Zone::parse(&std::fs::read("../zones/New_York").unwrap()).unwrap();
    /// let ready = make_ready(Reading::First, "today 1:30")?;
    /// let second_time = Instant { second: 1793514600, millisecond: 0 }; // 2026-11-01 01:30:00 -05:00
    /// let due = ready.run_in_zone(&new_york, second_time)?;
    /// assert_eq!(due.to_string(), "2026-11-01 01:30:00 -04:00"); // of a time that the clocks show twice the earlier
    /// assert_eq!(due.instant.second, 1793511000);
    /// # Ok::<(), fuzzydate::Refusal>(())
    /// ```
    pub fn run_in_zone(&self, zone: &Zone, now: Instant) -> Result<Local, Refusal> {
        let (ready, file) = (self.as_bytes(), zone.as_bytes());
        Local::from_call(&[], |due, local| {
            // SAFETY: the pointers are those of slices, whose sizes are said.
            unsafe {
                fuzzy_run_in_zone(
                    ready.as_ptr(),
                    ready.len() as u64,
                    file.as_ptr(),
                    file.len() as u64,
                    now.second,
                    now.millisecond,
                    due,
                    local,
                )
            }
        })
    }
}

impl fmt::Debug for Ready {
    fn fmt(&self, f: &mut fmt::Formatter<'_>) -> fmt::Result {
        f.debug_tuple("Ready").field(&self.as_bytes()).finish()
    }
}

impl PartialEq for Ready {
    fn eq(&self, other: &Ready) -> bool {
        self.as_bytes() == other.as_bytes()
    }
}

impl Eq for Ready {}
