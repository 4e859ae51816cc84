//! The numbers of the rules that a caller writes down: kinds, sizes, and the limits of arguments.
//!
//! Every call tests its own arguments, so no caller has to; a number past its limit is refused as
//! [`Refusal::Value`](crate::Refusal::Value).

/// The kind of an x1 axis: counts the rise and the fall of A where B is 0.
pub const KIND_X1: u64 = 1;
/// The kind of an x2 axis: counts every edge of A.
pub const KIND_X2: u64 = 2;
/// The kind of an x4 axis: counts every edge of A and B.
pub const KIND_X4: u64 = 4;
/// The kind of a narrow counter, which is read and not sampled.
pub const KIND_COUNTER: u64 = 8;

/// How many words of a table one axis has.
pub const WORDS_A_ROW: usize = 4;
/// How many axes a table has at most; it has at least one.
pub const MOST_AXES: usize = 16;

/// How many bytes the record of a sampled axis has: room for any record of one axis.
pub const RECORD_BYTES_SAMPLED: usize = 34;
/// How many bytes the record of a counter has.
pub const RECORD_BYTES_COUNTER: usize = 27;
/// How many bytes a record of the whole table has at most: 12, and 30 for each of [`MOST_AXES`].
pub const RECORD_BYTES_TABLE: usize = 492;

/// Positions run from `-POSITION_LIMIT` to `POSITION_LIMIT`.
pub const POSITION_LIMIT: i64 = (1 << 62) - 1;

/// The least filter depth of a sampled axis: no filtering.
pub const DEPTH_LEAST: u64 = 1;
/// The greatest filter depth of a sampled axis.
pub const DEPTH_MOST: u64 = 8;

/// The least width of a narrow counter, in bits.
pub const WIDTH_LEAST: u64 = 2;
/// The greatest width of a narrow counter, in bits.
pub const WIDTH_MOST: u64 = 32;

/// The most counts per turn; 0 is for no index check.
pub const TURN_LIMIT: u64 = (1 << 32) - 1;

/// Doubles are counted up to here, where they stay.
pub const DOUBLES_LIMIT: u32 = 65_535;

/// Count differences run from `-DIFFERENCE_LIMIT` to `DIFFERENCE_LIMIT`.
pub const DIFFERENCE_LIMIT: i64 = (1 << 31) - 1;
/// Speed by count is over 1 to so many samples.
pub const SAMPLES_LIMIT: u64 = (1 << 32) - 1;
/// Rates run from 1 to so many samples a second.
pub const RATE_LIMIT: u64 = 1_000_000;
