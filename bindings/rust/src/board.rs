use alloc::boxed::Box;
use alloc::vec::Vec;
use core::fmt;

use crate::calls::{
    fuzzy_board_add_in, fuzzy_board_again_in, fuzzy_board_head_in, fuzzy_board_make_in, fuzzy_board_order_in, fuzzy_board_remove_in, State,
};
use crate::{Moment, Reading, Refusal, READY_SIZE};

/// The reminders that a board has room for.
pub const BOARD_SLOTS: usize = 256;

/// The bytes of their ready phrases.
pub(crate) const BOARD_READY_SIZE: usize = BOARD_SLOTS * READY_SIZE;

/// What a board is in C, `struct fuzzy_board`.
#[derive(Clone)]
struct Parts {
    keys: [u64; BOARD_SLOTS],
    lengths: [u32; BOARD_SLOTS],
    state: State,
    ready: [u8; BOARD_READY_SIZE],
}

/// Up to 256 ready reminders, each in a slot of 0 to 255, and the order of their moments at the board's now. A refused call leaves all of
/// it unchanged.
///
/// ```
/// # use fuzzydate::{Board, Moment, Reading, Reason};
/// let now = Moment { year: 2026, month: 2, day: 11, hour: 9, minute: 30, second: 15, millisecond: 0 };
/// let mut board = Board::new(now)?;
/// assert_eq!(board.head().unwrap_err().reason(), Reason::NothingDue);
///
/// assert_eq!(board.add(Reading::First, "friday at 3 pm")?, 0);
/// assert_eq!(board.add(Reading::First, "noon")?, 1);
/// assert_eq!(board.add(Reading::First, "an hour from now")?, 2);
/// assert_eq!(board.order(), [2, 1, 0]);
///
/// board.remove(2)?;
/// assert_eq!(board.head()?.1.to_string(), "2026-02-11 12:00:00");
///
/// board.again(Moment { day: 12, hour: 0, minute: 0, second: 0, ..now })?;
/// let (slot, moment) = board.head()?;
/// assert_eq!((slot, moment.to_string()), (1, "2026-02-12 12:00:00".to_owned()));
/// # Ok::<(), fuzzydate::Refusal>(())
/// ```
#[derive(Clone)]
pub struct Board {
    parts: Box<Parts>,
}

impl Board {
    /// Makes an empty board at a now. Refused for an invalid now.
    pub fn new(now: Moment) -> Result<Board, Refusal> {
        let mut parts = Box::new(Parts { keys: [0; BOARD_SLOTS], lengths: [0; BOARD_SLOTS], state: [0; 8], ready: [0; BOARD_READY_SIZE] });
        // SAFETY: the call takes references alone.
        let answer = unsafe { fuzzy_board_make_in(&mut parts.lengths, &mut parts.state, &now) };
        answer.check(&[]).map(|_| Board { parts })
    }

    /// Adds a reminder, made ready in one of the two readings: gives its slot, the lowest that was free. Refused as
    /// [`make_ready`](crate::make_ready), then for a full board. A phrase without a moment at the board's now is accepted: it comes last,
    /// and may have a moment at another now.
    ///
    /// ```
    /// # use fuzzydate::{Board, Moment, Reading, Reason};
    /// let leap_day = Moment { year: 2024, month: 2, day: 29, hour: 12, minute: 0, second: 0, millisecond: 0 };
    /// let mut board = Board::new(leap_day)?;
    /// assert_eq!(board.add(Reading::First, "a year from now")?, 0);
    /// assert_eq!(board.head().unwrap_err().reason(), Reason::NothingDue);
    /// assert_eq!(board.add(Reading::First, "forty days ago").unwrap_err().part(), b"forty");
    ///
    /// board.again(Moment { month: 3, day: 1, ..leap_day })?;
    /// assert_eq!(board.head()?.1.to_string(), "2025-03-01 12:00:00");
    /// # Ok::<(), fuzzydate::Refusal>(())
    /// ```
    pub fn add<P: AsRef<[u8]> + ?Sized>(&mut self, reading: Reading, phrase: &P) -> Result<u32, Refusal> {
        let bytes = phrase.as_ref();
        let Parts { keys, lengths, state, ready } = &mut *self.parts;
        // SAFETY: the pointer is that of a slice, whose size is said.
        let answer = unsafe { fuzzy_board_add_in(ready, lengths, keys, state, reading as u32, bytes.as_ptr(), bytes.len() as u64) };
        answer.check(bytes)
    }

    /// Removes a reminder: its slot is free again. Refused for an empty slot, and for 256 and above.
    pub fn remove(&mut self, slot: u32) -> Result<(), Refusal> {
        let Parts { keys, lengths, state, .. } = &mut *self.parts;
        // SAFETY: the call takes references alone.
        let answer = unsafe { fuzzy_board_remove_in(lengths, keys, state, slot) };
        answer.check(&[]).map(|_| ())
    }

    /// Runs all reminders again at another now, later or earlier, which is then the board's. Refused for an invalid now.
    pub fn again(&mut self, now: Moment) -> Result<(), Refusal> {
        let Parts { keys, lengths, state, ready } = &mut *self.parts;
        // SAFETY: the call takes references alone.
        let answer = unsafe { fuzzy_board_again_in(ready, lengths, keys, state, &now) };
        answer.check(&[]).map(|_| ())
    }

    /// Finds what is due first: the slot and the moment of the earliest reminder at the board's now, and of equal ones the lowest slot.
    /// Refused where no reminder has a moment. Nothing is searched.
    pub fn head(&self) -> Result<(u32, Moment), Refusal> {
        let mut moment = Moment::NONE;
        // SAFETY: the call takes references alone.
        let answer = unsafe { fuzzy_board_head_in(&self.parts.keys, &self.parts.state, &mut moment) };
        answer.check(&[]).map(|slot| (slot, moment))
    }

    /// The filled slots in order, each once: by moment and, for equal moments, by slot; after them those without a moment at the board's
    /// now, by slot.
    pub fn order(&self) -> Vec<u32> {
        let mut slots = [0; BOARD_SLOTS];
        // SAFETY: the call takes references alone. It is never refused.
        let answer = unsafe { fuzzy_board_order_in(&self.parts.keys, &self.parts.state, &mut slots) };
        slots[..answer.length() as usize].to_vec()
    }
}

/// The order, by its slots.
impl fmt::Debug for Board {
    fn fmt(&self, f: &mut fmt::Formatter<'_>) -> fmt::Result {
        f.debug_tuple("Board").field(&self.order()).finish()
    }
}
