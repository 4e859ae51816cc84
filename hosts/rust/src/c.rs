//! The header's own declarations, for who has to see every word that crosses to the library.
//!
//! They say what `include/ubrenchip.h` says, and `tests/header.rs` holds the two against each other.
//! Whoever calls these functions owes what a C caller owes: every pointer with its length is memory
//! that the call may read, and write where the pointer is `*mut`; the words of a table are aligned;
//! the two slices of a save or a restore, of one axis or of the whole table, do not overlap; and
//! nobody else touches that memory while the call runs. The safe functions of this crate leave nothing
//! of that to their caller.

/// The call was done.
pub const UBRENCHIP_DONE: u32 = 0;
/// The table's slice is not 4n words, n from 1 to 16.
pub const UBRENCHIP_LENGTH: u32 = 1;
/// There is no such axis.
pub const UBRENCHIP_AXIS: u32 = 2;
/// The row holds what no call could have left there.
pub const UBRENCHIP_BROKEN: u32 = 3;
/// The row holds no axis.
pub const UBRENCHIP_EMPTY: u32 = 4;
/// The call is for the other kind of axis.
pub const UBRENCHIP_KIND: u32 = 5;
/// An argument or a record's value is outside its limits.
pub const UBRENCHIP_VALUE: u32 = 6;
/// The reading lies exactly half a counter turn away.
pub const UBRENCHIP_HALF: u32 = 7;
/// The position would leave its range.
pub const UBRENCHIP_RANGE: u32 = 8;
/// No two steps one way yet, so there is no speed by period.
pub const UBRENCHIP_NO_PERIOD: u32 = 9;
/// The buffer is too small.
pub const UBRENCHIP_ROOM: u32 = 10;
/// A record of another layout, whose number is in `found`.
pub const UBRENCHIP_LAYOUT: u32 = 11;
/// Not a record, or a misshapen one.
pub const UBRENCHIP_RECORD: u32 = 12;
/// A row is not empty: erase it first.
pub const UBRENCHIP_OCCUPIED: u32 = 13;

/// What most calls answer.
#[repr(C)]
#[derive(Clone, Copy, PartialEq, Eq, Debug)]
pub struct Answer {
    /// 0 for done, or why not.
    pub refusal: u32,
    /// The layout number that LAYOUT found, else 0.
    pub found: u32,
    /// The call's value; 0 on a refusal, and for a call that answers only that it was done.
    pub value: i64,
}

/// What a speed answers: `number * divisor + remainder` is exactly 1000 times the counts times the
/// rate. All three are 0 on a refusal.
#[repr(C)]
#[derive(Clone, Copy, PartialEq, Eq, Debug)]
pub struct Speed {
    /// 0 for done, or why not.
    pub refusal: u32,
    /// Always 0.
    pub found: u32,
    /// Thousandths of a count a second, rounded to the nearest; halves away from zero.
    pub number: i64,
    /// What the number leaves over, at most half the divisor either way.
    pub remainder: i64,
    /// Samples, below 2^32.
    pub divisor: u64,
}

/// What a port sample answers: bit k of each mask is axis k's, and all are 0 on a refusal.
#[repr(C)]
#[derive(Clone, Copy, PartialEq, Eq, Debug)]
pub struct Sampled {
    /// 0 for done, or why not.
    pub refusal: u32,
    /// Always 0.
    pub found: u32,
    /// A double step on this sample.
    pub doubles: u64,
    /// A reference edge on this sample.
    pub index: u64,
    /// The row is broken.
    pub broken: u64,
}

/// What a view shows; all 0 on a refusal. A flag is 0 or 1; a counter has no flags and no doubles.
#[repr(C)]
#[derive(Clone, Copy, PartialEq, Eq, Debug)]
pub struct Viewed {
    /// 0 for done, or why not.
    pub refusal: u32,
    /// Always 0.
    pub found: u32,
    /// The position.
    pub position: i64,
    /// The number of the kind: 1, 2, 4 or 8.
    pub kind: u32,
    /// How many double steps were seen, up to 65,535.
    pub doubles: u32,
    /// PRIMED.
    pub primed: u32,
    /// ARMED.
    pub armed: u32,
    /// HOMED.
    pub homed: u32,
    /// RANGE.
    pub range: u32,
    /// INDEX.
    pub index: u32,
    /// Always 0.
    pub unused: u32,
}

extern "C" {
    /// See [`crate::widen`].
    pub fn ubrenchip_widen(width: u64, position: i64, reading: u64) -> Answer;

    /// See [`crate::speed_by_count`].
    pub fn ubrenchip_speed_by_count(difference: i64, samples: u64, rate: u64) -> Speed;

    /// See [`crate::test_record`].
    pub fn ubrenchip_test_record(record: *const u8, length: usize) -> Answer;

    /// See [`crate::test_any`].
    pub fn ubrenchip_test_any(record: *const u8, length: usize) -> Answer;

    /// See [`crate::Table::sample`].
    pub fn ubrenchip_sample(table: *mut u64, words: usize, port: u64) -> Sampled;

    /// See [`crate::Table::setup`].
    pub fn ubrenchip_setup(
        table: *mut u64,
        words: usize,
        axis: u64,
        kind: u64,
        depth: u64,
        width: u64,
        turn: u64,
    ) -> Answer;

    /// See [`crate::Table::erase`].
    pub fn ubrenchip_erase(table: *mut u64, words: usize, axis: u64) -> Answer;

    /// See [`crate::Table::preset`].
    pub fn ubrenchip_preset(table: *mut u64, words: usize, axis: u64, position: i64) -> Answer;

    /// See [`crate::Table::arm`].
    pub fn ubrenchip_arm(table: *mut u64, words: usize, axis: u64) -> Answer;

    /// See [`crate::Table::acknowledge`].
    pub fn ubrenchip_acknowledge(table: *mut u64, words: usize, axis: u64) -> Answer;

    /// See [`crate::Table::view`].
    pub fn ubrenchip_view(table: *const u64, words: usize, axis: u64) -> Viewed;

    /// See [`crate::Table::reading`].
    pub fn ubrenchip_reading(table: *mut u64, words: usize, axis: u64, reading: u64) -> Answer;

    /// See [`crate::Table::speed_by_period`].
    pub fn ubrenchip_speed_by_period(
        table: *const u64,
        words: usize,
        axis: u64,
        rate: u64,
    ) -> Speed;

    /// See [`crate::Table::save`].
    pub fn ubrenchip_save(
        table: *const u64,
        words: usize,
        axis: u64,
        buffer: *mut u8,
        length: usize,
    ) -> Answer;

    /// See [`crate::Table::restore`].
    pub fn ubrenchip_restore(
        table: *mut u64,
        words: usize,
        axis: u64,
        record: *const u8,
        length: usize,
    ) -> Answer;

    /// See [`crate::Table::save_table`].
    pub fn ubrenchip_save_table(
        table: *const u64,
        words: usize,
        buffer: *mut u8,
        length: usize,
    ) -> Answer;

    /// See [`crate::Table::restore_table`].
    pub fn ubrenchip_restore_table(
        table: *mut u64,
        words: usize,
        record: *const u8,
        length: usize,
    ) -> Answer;
}
