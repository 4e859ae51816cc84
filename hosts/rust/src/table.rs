//! The table, and the calls on it.

use crate::answers::{Refusal, Sampled, Speed, View};
use crate::c;

/// Axes in words that the caller lends: 4n words for n axes, n from 1 to 16.
///
/// A row whose four words are all 0 is empty; [`Table::setup`] and [`Table::restore`] put an axis
/// there, and into no other row, and [`Table::restore_table`] wants all rows empty. [`Table::erase`]
/// empties any row, a broken one too.
/// Between calls the words are the library's own. They can be copied and lent again: what stands in
/// them is all there is.
///
/// Each call says below what it refuses, in the order in which it checks. A refused call changes no
/// word of the table and no byte of a buffer.
#[derive(Debug)]
pub struct Table<'a> {
    words: &'a mut [u64],
}

// Each call into C gets the pointers and the true lengths of slices that are borrowed for as long
// as it runs: to be written where the borrow is a mutable one, and then of no other. The header
// promises that a call keeps to them, keeps nothing, and takes any words and bytes for what they
// are. That is all that its `unsafe` asks for. Of an empty slice the pointer is one that nothing
// may be read from, and the library reads nothing through a pointer with the length 0.
impl<'a> Table<'a> {
    /// A table in these words, whatever they hold.
    ///
    /// It refuses nothing: each call tests the length of the words and the row that it names.
    pub fn new(words: &'a mut [u64]) -> Table<'a> {
        Table { words }
    }

    /// The words, four for each axis.
    pub fn words(&self) -> &[u64] {
        self.words
    }

    /// Takes one sample of the port: axis k owns bits 4k to 4k + 3, which are A, B, Z and one that
    /// is not read.
    ///
    /// A reference edge is a rise of filtered Z on a step forward, or a fall of it on a step back:
    /// one angle of the shaft, from either side. A step is here what x4 counts, whatever the axis's
    /// own kind counts.
    ///
    /// It refuses Length, and nothing else: empty rows and counters are passed over, a broken row is
    /// marked in the answer and stops no other, and bits of axes that the table has not are ignored.
    pub fn sample(&mut self, port: u64) -> Result<Sampled, Refusal> {
        unsafe { c::ubrenchip_sample(self.words.as_mut_ptr(), self.words.len(), port) }.masks()
    }

    /// Sets an axis up in an empty row, at position 0.
    ///
    /// [`KIND_X1`](crate::KIND_X1), [`KIND_X2`](crate::KIND_X2) and [`KIND_X4`](crate::KIND_X4)
    /// take a depth of 1 to 8, width 0 and counts per turn of 0 to 2^32 - 1, 0 for no index check.
    /// [`KIND_COUNTER`](crate::KIND_COUNTER) takes a width of 2 to 32, depth 0 and 0 counts per
    /// turn.
    ///
    /// It refuses Length, Axis, Occupied where the row is not empty, and then Value where a number is
    /// outside of these. A broken row is occupied too; [`Table::erase`] frees either.
    pub fn setup(
        &mut self,
        axis: u64,
        kind: u64,
        depth: u64,
        width: u64,
        turn: u64,
    ) -> Result<(), Refusal> {
        let (table, words) = (self.words.as_mut_ptr(), self.words.len());
        unsafe { c::ubrenchip_setup(table, words, axis, kind, depth, width, turn) }.done()
    }

    /// Empties a row, whatever it held: an axis, which is lost with its count, a broken row, or nothing.
    ///
    /// It refuses Length, then Axis.
    pub fn erase(&mut self, axis: u64) -> Result<(), Refusal> {
        unsafe { c::ubrenchip_erase(self.words.as_mut_ptr(), self.words.len(), axis) }.done()
    }

    /// Sets the position and clears RANGE and HOMED.
    ///
    /// It refuses Length, Axis, Broken, Empty, and then Value where the position is outside its
    /// range, which [`POSITION_LIMIT`](crate::POSITION_LIMIT) ends on both sides.
    pub fn preset(&mut self, axis: u64, position: i64) -> Result<(), Refusal> {
        let (table, words) = (self.words.as_mut_ptr(), self.words.len());
        unsafe { c::ubrenchip_preset(table, words, axis, position) }.done()
    }

    /// Makes the next reference edge home the axis: sets ARMED and clears HOMED.
    ///
    /// The edge becomes position 0. After a step forward over it the axis stands there; after a
    /// step back it stands where that step leads from 0, at -1 in x4.
    ///
    /// It refuses Length, Axis, Broken, Empty, and then Kind for a counter.
    pub fn arm(&mut self, axis: u64) -> Result<(), Refusal> {
        unsafe { c::ubrenchip_arm(self.words.as_mut_ptr(), self.words.len(), axis) }.done()
    }

    /// Sets doubles to 0 and clears INDEX.
    ///
    /// It refuses Length, Axis, Broken, Empty, and then Kind for a counter.
    pub fn acknowledge(&mut self, axis: u64) -> Result<(), Refusal> {
        unsafe { c::ubrenchip_acknowledge(self.words.as_mut_ptr(), self.words.len(), axis) }.done()
    }

    /// Looks at an axis.
    ///
    /// It refuses Length, Axis, Broken, then Empty.
    pub fn view(&self, axis: u64) -> Result<View, Refusal> {
        unsafe { c::ubrenchip_view(self.words.as_ptr(), self.words.len(), axis) }.view()
    }

    /// Takes a narrow counter's reading: stores and answers the position that it says, the one
    /// nearest to the last that has the reading as its low bits.
    ///
    /// It refuses Length, Axis, Broken, Empty, Kind for a sampled axis, Value where the reading has
    /// more bits than the counter, Half where it lies exactly half a turn away, and then Range
    /// where the position would leave its range.
    pub fn reading(&mut self, axis: u64, reading: u64) -> Result<i64, Refusal> {
        let (table, words) = (self.words.as_mut_ptr(), self.words.len());
        unsafe { c::ubrenchip_reading(table, words, axis, reading) }.value()
    }

    /// The speed by the time between the last two steps one way, or since the last one if that is
    /// longer, at `rate` samples a second; in thousandths of a count a second, below 0 for back,
    /// rounded to the nearest and from the middle between two away from zero; with what is left over.
    ///
    /// It is the speed of 1 count, or of -1 for back, over that time, which is the divisor of the
    /// answer. Time since the last step is counted up to 2^32 - 1 samples.
    ///
    /// It refuses Length, Axis, Broken, Empty, Kind for a counter, Value where the rate is not 1 to
    /// [`RATE_LIMIT`](crate::RATE_LIMIT), and then NoPeriod where there were no two steps one way
    /// since a setup, a turn back or a double step.
    pub fn speed_by_period(&self, axis: u64, rate: u64) -> Result<Speed, Refusal> {
        let (table, words) = (self.words.as_ptr(), self.words.len());
        unsafe { c::ubrenchip_speed_by_period(table, words, axis, rate) }.speed()
    }

    /// Saves an axis's configuration and position as a record at the front of the buffer, and
    /// answers how many bytes it has: [`RECORD_BYTES_SAMPLED`](crate::RECORD_BYTES_SAMPLED) or
    /// [`RECORD_BYTES_COUNTER`](crate::RECORD_BYTES_COUNTER). It writes nothing beyond them.
    ///
    /// It refuses Length, Axis, Broken, Empty, and then Room where the buffer is shorter.
    pub fn save(&self, axis: u64, buffer: &mut [u8]) -> Result<usize, Refusal> {
        let (table, words) = (self.words.as_ptr(), self.words.len());
        let (bytes, length) = (buffer.as_mut_ptr(), buffer.len());
        let saved = unsafe { c::ubrenchip_save(table, words, axis, bytes, length) };
        saved.value().map(|bytes| bytes as usize)
    }

    /// Sets an axis up in an empty row from a record, the whole of the slice: as a setup and then a
    /// preset would.
    ///
    /// It refuses Length, Axis, what [`test_record`](crate::test_record) refuses, and then Occupied
    /// where the row is not empty. A broken row is occupied too; [`Table::erase`] frees either.
    pub fn restore(&mut self, axis: u64, record: &[u8]) -> Result<(), Refusal> {
        let (table, words) = (self.words.as_mut_ptr(), self.words.len());
        let (bytes, length) = (record.as_ptr(), record.len());
        unsafe { c::ubrenchip_restore(table, words, axis, bytes, length) }.done()
    }

    /// Saves every axis of the table, configuration and position, as one record at the front of the
    /// buffer, and answers how many bytes it has, at most
    /// [`RECORD_BYTES_TABLE`](crate::RECORD_BYTES_TABLE). It writes nothing beyond them.
    ///
    /// Empty rows do not show in the record, and a table without an axis is a record of no axes. It is
    /// of layout 2: [`Table::restore_table`] reads it, and [`Table::restore`] does not.
    ///
    /// It refuses Length, Broken where any row is, and then Room where the buffer is shorter.
    pub fn save_table(&self, buffer: &mut [u8]) -> Result<usize, Refusal> {
        let (table, words) = (self.words.as_ptr(), self.words.len());
        let (bytes, length) = (buffer.as_mut_ptr(), buffer.len());
        let saved = unsafe { c::ubrenchip_save_table(table, words, bytes, length) };
        saved.value().map(|bytes| bytes as usize)
    }

    /// Sets up all axes of a record, the whole of the slice, in a table of empty rows: each in the row of
    /// its number, as a setup and then a preset would. The other rows stay empty.
    ///
    /// The table may have more rows than the one that was saved, or fewer, as long as every axis of the
    /// record finds its row.
    ///
    /// It refuses Length; Layout where the slice opens as a record of another layout does, with the number
    /// 1 for the record of one axis; Record and Value, whichever comes first as the record is read from
    /// the left, first the shape of a field and then its value; Axis where the table has no row for an axis
    /// of the record; and then Occupied where any row is not empty, a broken one too, whatever the record
    /// names.
    pub fn restore_table(&mut self, record: &[u8]) -> Result<(), Refusal> {
        let (table, words) = (self.words.as_mut_ptr(), self.words.len());
        let (bytes, length) = (record.as_ptr(), record.len());
        unsafe { c::ubrenchip_restore_table(table, words, bytes, length) }.done()
    }
}
