//! The calls, the memory that is lent to them, and how each is made of the library and of the reference.

use crate::library;
use crate::reference::{Axis, Masks, Reference, Refusal, Speed, MOST_AXES};
use crate::whole::MOST_RECORD;

/// A call and its numbers. Saves, restores and the tests of records work on the bytes that the memory lends.
#[derive(Clone, Copy, Debug)]
pub enum Call {
    Sample { port: u64 },
    Setup { axis: u64, kind: u64, depth: u64, width: u64, turn: u64 },
    Erase { axis: u64 },
    Preset { axis: u64, position: i64 },
    Arm { axis: u64 },
    Acknowledge { axis: u64 },
    View { axis: u64 },
    Reading { axis: u64, reading: u64 },
    SpeedByPeriod { axis: u64, rate: u64 },
    Save { axis: u64 },
    Restore { axis: u64 },
    Widen { width: u64, position: i64, reading: u64 },
    SpeedByCount { difference: i64, samples: u64, rate: u64 },
    TestRecord,
    SaveTable,
    RestoreTable,
    TestAny,
}

impl Call {
    pub const NAMES: [&'static str; 17] = [
        "sample",
        "setup",
        "erase",
        "preset",
        "arm",
        "acknowledge",
        "view",
        "reading",
        "speed by period",
        "save",
        "restore",
        "widen",
        "speed by count",
        "test record",
        "save table",
        "restore table",
        "test any",
    ];

    /// The call's place in `NAMES`.
    pub fn number(&self) -> usize {
        match self {
            Call::Sample { .. } => 0,
            Call::Setup { .. } => 1,
            Call::Erase { .. } => 2,
            Call::Preset { .. } => 3,
            Call::Arm { .. } => 4,
            Call::Acknowledge { .. } => 5,
            Call::View { .. } => 6,
            Call::Reading { .. } => 7,
            Call::SpeedByPeriod { .. } => 8,
            Call::Save { .. } => 9,
            Call::Restore { .. } => 10,
            Call::Widen { .. } => 11,
            Call::SpeedByCount { .. } => 12,
            Call::TestRecord => 13,
            Call::SaveTable => 14,
            Call::RestoreTable => 15,
            Call::TestAny => 16,
        }
    }

    pub fn name(&self) -> &'static str {
        Call::NAMES[self.number()]
    }
}

/// The longest table that is tried: a row too many and a word more.
const MOST_WORDS: usize = 4 * (MOST_AXES + 1) + 1;
/// The longest buffer: room for every record, and for one with two axes too many.
pub const MOST_BYTES: usize = MOST_RECORD + 2 * 30;
/// How many words and bytes on either side are watched as well.
const FRAME: usize = 4;

/// A table and a buffer, each inside a frame that no call may touch.
#[derive(Clone, PartialEq, Eq)]
pub struct Memory {
    words: [u64; FRAME + MOST_WORDS + FRAME],
    table: usize,
    bytes: [u8; FRAME + MOST_BYTES + FRAME],
    buffer: usize,
}

impl Memory {
    /// A table of zeros and an empty buffer; `fill` says what stands outside them.
    pub fn new(words: usize, mut fill: impl FnMut() -> u64) -> Memory {
        let mut memory = Memory {
            words: [(); FRAME + MOST_WORDS + FRAME].map(|()| fill()),
            table: words,
            bytes: [(); FRAME + MOST_BYTES + FRAME].map(|()| fill() as u8),
            buffer: 0,
        };
        memory.table_mut().fill(0);
        memory
    }

    pub fn table(&self) -> &[u64] {
        &self.words[FRAME..][..self.table]
    }

    pub fn table_mut(&mut self) -> &mut [u64] {
        &mut self.words[FRAME..][..self.table]
    }

    pub fn bytes(&self) -> &[u8] {
        &self.bytes[FRAME..][..self.buffer]
    }

    /// Lends these bytes as the buffer.
    pub fn lend(&mut self, bytes: &[u8]) {
        self.buffer = bytes.len();
        self.bytes[FRAME..][..self.buffer].copy_from_slice(bytes);
    }

    /// The table and the buffer, to write.
    pub fn lent(&mut self) -> (&mut [u64], &mut [u8]) {
        (&mut self.words[FRAME..][..self.table], &mut self.bytes[FRAME..][..self.buffer])
    }

    /// Whether all that lies outside the table and the buffer is the same.
    pub fn same_frame(&self, other: &Memory) -> bool {
        let words = |memory: &Memory| (memory.words[..FRAME].to_vec(), memory.words[FRAME + memory.table..].to_vec());
        let bytes = |memory: &Memory| (memory.bytes[..FRAME].to_vec(), memory.bytes[FRAME + memory.buffer..].to_vec());
        words(self) == words(other) && bytes(self) == bytes(other)
    }
}

/// All that a call answers, field by field as in the header.
#[derive(Clone, Copy, PartialEq, Eq, Debug)]
pub enum Outcome {
    Answer(library::Answer),
    Speed(library::Speed),
    Sampled(library::Sampled),
    Viewed(library::Viewed),
}

impl Outcome {
    pub fn refusal(&self) -> u32 {
        match self {
            Outcome::Answer(answer) => answer.refusal,
            Outcome::Speed(speed) => speed.refusal,
            Outcome::Sampled(sampled) => sampled.refusal,
            Outcome::Viewed(viewed) => viewed.refusal,
        }
    }
}

/// Makes a call of the proved library, over its C interface.
pub fn proved(call: &Call, memory: &mut Memory) -> Outcome {
    let (table, bytes) = memory.lent();
    Outcome::Answer(match *call {
        Call::Sample { port } => return Outcome::Sampled(library::sample(table, port)),
        Call::View { axis } => return Outcome::Viewed(library::view(table, axis)),
        Call::SpeedByPeriod { axis, rate } => return Outcome::Speed(library::speed_by_period(table, axis, rate)),
        Call::SpeedByCount { difference, samples, rate } => {
            return Outcome::Speed(library::speed_by_count(difference, samples, rate));
        }
        Call::Setup { axis, kind, depth, width, turn } => library::setup(table, axis, kind, depth, width, turn),
        Call::Erase { axis } => library::erase(table, axis),
        Call::Preset { axis, position } => library::preset(table, axis, position),
        Call::Arm { axis } => library::arm(table, axis),
        Call::Acknowledge { axis } => library::acknowledge(table, axis),
        Call::Reading { axis, reading } => library::reading(table, axis, reading),
        Call::Save { axis } => library::save(table, axis, bytes),
        Call::Restore { axis } => library::restore(table, axis, bytes),
        Call::Widen { width, position, reading } => library::widen(width, position, reading),
        Call::TestRecord => library::test_record(bytes),
        Call::SaveTable => library::save_table(table, bytes),
        Call::RestoreTable => library::restore_table(table, bytes),
        Call::TestAny => library::test_any(bytes),
    })
}

/// Makes a call of the reference and puts its answer as the header would.
pub fn plain(reference: &Reference, call: &Call, memory: &mut Memory) -> Outcome {
    let (table, bytes) = memory.lent();
    let done = |()| 0;
    answer(match *call {
        Call::Sample { port } => return sampled(reference.sample(table, port)),
        Call::View { axis } => return viewed(reference.view(table, axis)),
        Call::SpeedByPeriod { axis, rate } => return speed(reference.speed_by_period(table, axis, rate)),
        Call::SpeedByCount { difference, samples, rate } => {
            return speed(reference.speed_by_count(difference, samples, rate));
        }
        Call::Setup { axis, kind, depth, width, turn } => {
            reference.setup(table, axis, kind, depth, width, turn).map(done)
        }
        Call::Erase { axis } => reference.erase(table, axis).map(done),
        Call::Preset { axis, position } => reference.preset(table, axis, position).map(done),
        Call::Arm { axis } => reference.arm(table, axis).map(done),
        Call::Acknowledge { axis } => reference.acknowledge(table, axis).map(done),
        Call::Reading { axis, reading } => reference.reading(table, axis, reading),
        Call::Save { axis } => reference.save(table, axis, bytes),
        Call::Restore { axis } => reference.restore(table, axis, bytes).map(done),
        Call::Widen { width, position, reading } => reference.widen(width, position, reading),
        Call::TestRecord => reference.test_record(bytes).map(done),
        Call::SaveTable => reference.save_table(table, bytes),
        Call::RestoreTable => reference.restore_table(table, bytes).map(done),
        Call::TestAny => reference.test_any(bytes).map(done),
    })
}

/// The two numbers of a refusal, 0 and 0 where there is none.
fn reason<T>(result: &Result<T, Refusal>) -> (u32, u32) {
    match result {
        Ok(_) => (0, 0),
        Err(refusal) => (refusal.number(), refusal.found().into()),
    }
}

fn answer(result: Result<i64, Refusal>) -> Outcome {
    let (refusal, found) = reason(&result);
    Outcome::Answer(library::Answer { refusal, found, value: result.unwrap_or(0) })
}

fn speed(result: Result<Speed, Refusal>) -> Outcome {
    let (refusal, found) = reason(&result);
    let Speed { number, remainder, divisor } = result.unwrap_or_default();
    Outcome::Speed(library::Speed { refusal, found, number, remainder, divisor: divisor.into() })
}

fn sampled(result: Result<Masks, Refusal>) -> Outcome {
    let (refusal, found) = reason(&result);
    let masks = result.unwrap_or_default();
    Outcome::Sampled(library::Sampled {
        refusal,
        found,
        doubles: masks.doubles.into(),
        index: masks.index.into(),
        broken: masks.broken.into(),
    })
}

fn viewed(result: Result<Axis, Refusal>) -> Outcome {
    let (refusal, found) = reason(&result);
    let axis = result.ok();
    let flag = |flag: fn(&Axis) -> bool| axis.as_ref().is_some_and(flag).into();
    Outcome::Viewed(library::Viewed {
        refusal,
        found,
        position: axis.map_or(0, |axis| axis.position),
        kind: axis.map_or(0, |axis| axis.kind.number() as u32),
        doubles: axis.map_or(0, |axis| axis.doubles.into()),
        primed: flag(|axis| axis.primed),
        armed: flag(|axis| axis.armed),
        homed: flag(|axis| axis.homed),
        range: flag(|axis| axis.range),
        index: flag(|axis| axis.index),
        unused: 0,
    })
}
