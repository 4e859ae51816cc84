//! The calls that need no table.

use crate::answers::{Refusal, Speed};
use crate::c;

/// The position that `reading`, the count of a counter of `width` bits, says, where the last known
/// position is `position`: the one nearest to it that has the reading as its low bits.
///
/// It is the true position wherever the shaft moved less than half a counter turn since.
///
/// It refuses Value where the width is not 2 to 32, the position is outside its range or the
/// reading has more bits than the width; Half where the reading lies exactly half a turn away; and
/// then Range where the answer would leave the range.
pub fn widen(width: u64, position: i64, reading: u64) -> Result<i64, Refusal> {
    // The call takes numbers alone, and any of them.
    unsafe { c::ubrenchip_widen(width, position, reading) }.value()
}

/// The speed of a count difference over a number of samples at `rate` samples a second, in
/// thousandths of a count a second, rounded to the nearest and from the middle between two away from
/// zero; with what is left over. The divisor of the answer is the samples.
///
/// It refuses Value where the difference is past [`DIFFERENCE_LIMIT`](crate::DIFFERENCE_LIMIT)
/// either way, the samples are not 1 to [`SAMPLES_LIMIT`](crate::SAMPLES_LIMIT) or the rate is not
/// 1 to [`RATE_LIMIT`](crate::RATE_LIMIT).
pub fn speed_by_count(difference: i64, samples: u64, rate: u64) -> Result<Speed, Refusal> {
    // The same.
    unsafe { c::ubrenchip_speed_by_count(difference, samples, rate) }.speed()
}

/// Whether a slice of bytes is a saved record of one axis, layout 1, the whole of it.
///
/// It is a test of that layout alone; [`test_any`] takes records of the whole table too.
///
/// It refuses Layout where the slice opens as a record of another layout does; Record where its
/// first nine bytes are not the fields of a layout and a kind; Value where there is no such kind;
/// Record where the rest is not the other fields of that kind, with nothing after them; and then
/// Value where the position, the depth or the width is outside its limits.
pub fn test_record(record: &[u8]) -> Result<(), Refusal> {
    // The slice is borrowed for as long as the call runs, which only reads it; an empty one has a
    // pointer that nothing may be read from, and the library reads nothing through it.
    unsafe { c::ubrenchip_test_record(record.as_ptr(), record.len()) }.done()
}

/// Whether a slice of bytes is a saved record of either layout, the whole of it: of one axis, as
/// [`Table::save`](crate::Table::save) writes it, or of the whole table, as
/// [`Table::save_table`](crate::Table::save_table) does.
///
/// The layout number in the record, its fourth and fifth byte, decides by which rules it is judged. It
/// refuses Layout for any third number; for 1 what [`test_record`] refuses; and for 2 what
/// [`Table::restore_table`](crate::Table::restore_table) refuses of the record itself. A slice that does
/// not open with the field of a layout is Record.
pub fn test_any(record: &[u8]) -> Result<(), Refusal> {
    // As above.
    unsafe { c::ubrenchip_test_any(record.as_ptr(), record.len()) }.done()
}
