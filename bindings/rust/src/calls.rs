//! The functions of fuzzy.h, and what they answer. References stand for pointers: what is lent to one call never overlaps.
use crate::{Moment, Refusal, BOARD_READY_SIZE, BOARD_SLOTS, READY_SIZE};

/// A moment and a distance from UTC, as fuzzy.h has them in a stamp and in what a zone's clocks show.
#[repr(C)]
#[derive(Clone, Copy)]
pub struct MomentAt {
    pub moment: Moment,
    pub west: u32,
    pub offset: u32,
}

impl MomentAt {
    /// To be written by a call.
    pub const NONE: MomentAt = MomentAt { moment: Moment::NONE, west: 0, offset: 0 };
}

/// A board's now and how many of its reminders have a moment.
pub type State = [u32; 8];

extern "C" {
    pub fn fuzzy_version() -> u32;
    pub fn fuzzy_read(reading: u32, phrase: *const u8, phrase_length: u64, now: &Moment, moment: &mut Moment) -> Answer;
    pub fn fuzzy_make_ready(reading: u32, phrase: *const u8, phrase_length: u64, ready: &mut [u8; READY_SIZE]) -> Answer;
    pub fn fuzzy_run(ready: *const u8, ready_length: u64, now: &Moment, moment: &mut Moment) -> Answer;
    pub fn fuzzy_read_stamp(text: *const u8, text_length: u64, stamp: &mut MomentAt) -> Answer;
    pub fn fuzzy_write_stamp(stamp: &MomentAt, text: *mut u8, text_length: u64) -> Answer;
    pub fn fuzzy_find_word(reading: u32, word: *const u8, word_length: u64, found: &mut [u32; 2]) -> Answer;
    pub fn fuzzy_write_phrase(moment: &Moment, text: *mut u8, text_length: u64) -> Answer;
    pub fn fuzzy_list_in(rule: *const u8, rule_length: u64, start: &Moment, moments: *mut Moment, moments_length: u64) -> Answer;
    pub fn fuzzy_next(rule: *const u8, rule_length: u64, start: &Moment, asked: &Moment, moment: &mut Moment) -> Answer;
    pub fn fuzzy_read_in_zone(
        reading: u32,
        phrase: *const u8,
        phrase_length: u64,
        zone: *const u8,
        zone_length: u64,
        second: i64,
        millisecond: u32,
        due: &mut i64,
        local: &mut MomentAt,
    ) -> Answer;
    pub fn fuzzy_run_in_zone(
        ready: *const u8,
        ready_length: u64,
        zone: *const u8,
        zone_length: u64,
        second: i64,
        millisecond: u32,
        due: &mut i64,
        local: &mut MomentAt,
    ) -> Answer;
    pub fn fuzzy_board_make_in(lengths: &mut [u32; BOARD_SLOTS], state: &mut State, now: &Moment) -> Answer;
    pub fn fuzzy_board_add_in(
        ready: &mut [u8; BOARD_READY_SIZE],
        lengths: &mut [u32; BOARD_SLOTS],
        keys: &mut [u64; BOARD_SLOTS],
        state: &mut State,
        reading: u32,
        phrase: *const u8,
        phrase_length: u64,
    ) -> Answer;
    pub fn fuzzy_board_remove_in(lengths: &mut [u32; BOARD_SLOTS], keys: &mut [u64; BOARD_SLOTS], state: &mut State, slot: u32) -> Answer;
    pub fn fuzzy_board_again_in(
        ready: &[u8; BOARD_READY_SIZE],
        lengths: &[u32; BOARD_SLOTS],
        keys: &mut [u64; BOARD_SLOTS],
        state: &mut State,
        now: &Moment,
    ) -> Answer;
    pub fn fuzzy_board_head_in(keys: &[u64; BOARD_SLOTS], state: &State, moment: &mut Moment) -> Answer;
    pub fn fuzzy_board_order_in(keys: &[u64; BOARD_SLOTS], state: &State, slots: &mut [u32; BOARD_SLOTS]) -> Answer;
}

/// What a call answers: one number, which has the number of a refusal, the place of the refused part and its length.
#[repr(transparent)]
#[derive(Clone, Copy)]
pub struct Answer(pub u64);

impl Answer {
    /// The number of the refusal; 0 for success.
    pub fn number(self) -> u16 {
        self.0 as u16
    }

    /// Where the refused part begins, in bytes.
    pub fn place(self) -> usize {
        usize::from((self.0 >> 16) as u16)
    }

    /// How long the refused part is; of a success, what the call counts.
    pub fn length(self) -> u32 {
        (self.0 >> 32) as u32
    }

    /// What a call on a phrase counts, or its refusal.
    pub fn check(self, phrase: &[u8]) -> Result<u32, Refusal> {
        match self.number() {
            0 => Ok(self.length()),
            _ => Err(Refusal::new(self, phrase)),
        }
    }
}
