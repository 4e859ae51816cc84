//! The record of a whole table, layout 2, and the calls on it, once more in ordinary Rust.
//!
//! It follows the text of that layout's rules and shares nothing with the proved code. Of an axis's fields, their tags and
//! their limits it takes those of layout 1 (`reference`), since the rules say that they are the same.

use crate::reference::{
    axes, is_position, layout_of, put_axis, put_field, read_record, take_field, unpack, Axis, Fault, Kind, Reference,
    Refusal, Row, DEPTH_TAG, END_TAG, KIND_TAG, LAYOUT, LAYOUT_TAG, MOST_AXES, POSITION_TAG, TURN_TAG, WIDTH_TAG,
};

const TABLE_LAYOUT: u16 = 2;
const COUNT_TAG: u8 = 0x08;
const AXIS_TAG: u8 = 0x09;

/// The most bytes that such a record has: layout, number of axes and end; and for each axis its number and its fields.
pub const MOST_RECORD: usize = 12 + MOST_AXES * 30;

/// The record of some axes, each with its number.
pub fn write_table(axes: &[(u8, Axis)]) -> Vec<u8> {
    let mut record = Vec::with_capacity(MOST_RECORD);
    put_field(&mut record, LAYOUT_TAG, &TABLE_LAYOUT.to_be_bytes());
    put_field(&mut record, COUNT_TAG, &[axes.len() as u8]);
    for (number, axis) in axes {
        put_field(&mut record, AXIS_TAG, &[*number]);
        put_axis(&mut record, axis);
    }
    put_field(&mut record, END_TAG, &[]);
    record
}

/// The axes of a table by their numbers, and whether a row is broken.
pub fn live_axes(table: &[u64]) -> (Vec<(u8, Axis)>, bool) {
    let mut live = Vec::new();
    let mut broken = false;
    for (number, row) in (0..).zip(table.chunks_exact(4)) {
        match unpack(row) {
            Row::Empty => {}
            Row::Broken => broken = true,
            Row::Live(axis) => live.push((number, axis)),
        }
    }
    (live, broken)
}

/// The axes that a record stands for, each new but for its position.
pub fn read_table(record: &[u8]) -> Result<Vec<(u8, Axis)>, Refusal> {
    Reader { fault: Fault::None, left: record, flawed: false }.read(&mut |_, _| ())
}

/// A record as it is read: what is left of it.
struct Reader<'a> {
    fault: Fault,
    left: &'a [u8],
    /// Whether a value was bad, which `Fault::ValuesAfterShapes` alone keeps for later.
    flawed: bool,
}

impl Reader<'_> {
    /// Field by field: first its tag and length, then its value. `each` is told of every axis once its fields are read.
    fn read(mut self, each: &mut dyn FnMut(u8, &Axis)) -> Result<Vec<(u8, Axis)>, Refusal> {
        let found = match (self.fault, self.left) {
            (Fault::LayoutOfFourBytes, &[LAYOUT_TAG, 0, 2, high]) => Some(u16::from_be_bytes([high, 0])),
            _ => layout_of(self.left),
        };
        if let Some(found) = found.filter(|&found| found != TABLE_LAYOUT) {
            return Err(Refusal::Layout(found));
        }
        self.field::<2>(LAYOUT_TAG)?;
        let [count] = self.field(COUNT_TAG)?;
        self.value(usize::from(count) <= MOST_AXES || self.fault == Fault::AnyNumberOfAxes)?;
        let mut axes: Vec<(u8, Axis)> = Vec::new();
        let mut before = None;
        let mut entries = 0;
        while self.goes_on(entries, count.into()) {
            let [number] = self.field(AXIS_TAG)?;
            self.value(match before {
                Some(before) if self.fault == Fault::AxesMayRepeat => before <= number,
                Some(before) => before < number,
                None => true,
            })?;
            self.value(self.fault != Fault::AxisNumberIsValue || usize::from(number) < MOST_AXES)?;
            before = Some(number);
            entries += 1;
            if let Some(axis) = self.axis()? {
                each(number, &axis);
                axes.push((number, axis));
            }
        }
        self.field::<0>(END_TAG)?;
        if !self.left.is_empty() && self.fault != Fault::TrailingBytes {
            return Err(Refusal::Record);
        }
        if self.flawed {
            return Err(Refusal::Value);
        }
        Ok(axes)
    }

    /// Whether an entry more is to come.
    fn goes_on(&self, entries: usize, count: usize) -> bool {
        if self.fault == Fault::CountNotCompared {
            self.left.first() == Some(&AXIS_TAG)
        } else {
            entries < count
        }
    }

    fn field<const N: usize>(&mut self, tag: u8) -> Result<[u8; N], Refusal> {
        take_field(&mut self.left, tag)
    }

    /// Judges a value.
    fn value(&mut self, good: bool) -> Result<(), Refusal> {
        if good {
            return Ok(());
        }
        if self.fault == Fault::ValuesAfterShapes {
            self.flawed = true;
            return Ok(());
        }
        Err(Refusal::Value)
    }

    /// The fields of one axis. The kind decides which they are, so a bad one is refused at once whatever the fault.
    fn axis(&mut self) -> Result<Option<Axis>, Refusal> {
        let [kind] = self.field(KIND_TAG)?;
        let kind = Kind::numbered(kind.into()).ok_or(Refusal::Value)?;
        let position = i64::from_be_bytes(self.field(POSITION_TAG)?);
        self.value(is_position(position))?;
        let new = if kind == Kind::Counter {
            let [width] = self.field(WIDTH_TAG)?;
            self.value((2..=32).contains(&width))?;
            Axis::new(kind.number(), 0, width.into(), 0)
        } else {
            let [depth] = self.field(DEPTH_TAG)?;
            self.value((1..=8).contains(&depth))?;
            // Every number of four bytes is a number of counts per turn.
            let turn = u32::from_be_bytes(self.field(TURN_TAG)?);
            Axis::new(kind.number(), depth.into(), 0, turn.into())
        };
        Ok(new.map(|new| Axis { position, ..new }).filter(|_| !self.flawed))
    }
}

impl Reference {
    fn reader<'a>(&self, record: &'a [u8]) -> Reader<'a> {
        Reader { fault: self.fault, left: record, flawed: false }
    }

    pub fn save_table(&self, table: &[u64], buffer: &mut [u8]) -> Result<i64, Refusal> {
        axes(table)?;
        let (live, broken) = live_axes(table);
        let record = write_table(&live);
        if self.fault == Fault::RoomBeforeBroken && buffer.len() < record.len() {
            return Err(Refusal::Room);
        }
        if broken && self.fault != Fault::BrokenRowLeftOut {
            return Err(Refusal::Broken);
        }
        let room = buffer.get_mut(..record.len()).ok_or(Refusal::Room)?;
        room.copy_from_slice(&record);
        Ok(record.len() as i64)
    }

    pub fn restore_table(&self, table: &mut [u64], record: &[u8]) -> Result<(), Refusal> {
        let rows = axes(table)?;
        let is_free = |row: &[u64]| match unpack(row) {
            Row::Empty => true,
            Row::Broken => self.fault == Fault::BrokenRowFree,
            Row::Live(_) => false,
        };
        let mut free = table.chunks_exact(4).all(is_free);
        let early = self.fault == Fault::WrittenTooEarly && free;
        let new = self.reader(record).read(&mut |number, axis| {
            if early {
                write_row(table, number, axis);
            }
        })?;
        let in_table = new.iter().all(|&(number, _)| usize::from(number) < rows);
        if self.fault == Fault::NamedRowsAlone && in_table {
            free = new.iter().all(|&(number, _)| is_free(&table[4 * usize::from(number)..][..4]));
        }
        if self.fault == Fault::OccupiedBeforeAxis && !free {
            return Err(Refusal::Occupied);
        }
        if !in_table {
            return Err(Refusal::Axis);
        }
        if !free {
            return Err(Refusal::Occupied);
        }
        for (number, axis) in &new {
            write_row(table, *number, axis);
        }
        Ok(())
    }

    /// The test of both layouts.
    pub fn test_any(&self, record: &[u8]) -> Result<(), Refusal> {
        match layout_of(record) {
            Some(LAYOUT) => read_record(record).map(|_| ()),
            Some(TABLE_LAYOUT) => self.reader(record).read(&mut |_, _| ()).map(|_| ()),
            Some(found) => Err(Refusal::Layout(found)),
            None => Err(Refusal::Record),
        }
    }
}

/// Writes an axis's row, if the table has it.
fn write_row(table: &mut [u64], number: u8, axis: &Axis) {
    if let Some(row) = table.chunks_exact_mut(4).nth(number.into()) {
        row.copy_from_slice(&axis.pack());
    }
}
