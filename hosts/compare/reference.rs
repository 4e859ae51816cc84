//! The rules once more, in ordinary Rust: what the proved library is held against.
//!
//! It follows the text of docs/RULES.md and shares nothing with the proved code; what else was at hand when it was written
//! is said in docs/DECISIONS.md. Sections in quotes are that text's.

use std::cell::Cell;
use std::cmp::Ordering;
use std::ops::Range;

/// A position runs from `-LIMIT` to `LIMIT` ("One row, four words").
pub const LIMIT: i64 = (1 << 62) - 1;

/// Word 0 of a row is the position plus this.
const OFFSET: i64 = 1 << 62;

pub const MOST_AXES: usize = 16;
pub const MOST_RATE: u64 = 1_000_000;

/// Why a call says no ("Reasons for saying no").
#[derive(Clone, Copy, PartialEq, Eq, Debug)]
pub enum Refusal {
    Length,
    Axis,
    Broken,
    Empty,
    Kind,
    Value,
    Half,
    Range,
    NoPeriod,
    Room,
    Layout(u16),
    Record,
    Occupied,
}

impl Refusal {
    pub fn number(self) -> u32 {
        match self {
            Refusal::Length => 1,
            Refusal::Axis => 2,
            Refusal::Broken => 3,
            Refusal::Empty => 4,
            Refusal::Kind => 5,
            Refusal::Value => 6,
            Refusal::Half => 7,
            Refusal::Range => 8,
            Refusal::NoPeriod => 9,
            Refusal::Room => 10,
            Refusal::Layout(_) => 11,
            Refusal::Record => 12,
            Refusal::Occupied => 13,
        }
    }

    /// The layout number that was found, 0 for every other reason.
    pub fn found(self) -> u16 {
        match self {
            Refusal::Layout(found) => found,
            _ => 0,
        }
    }
}

/// The kinds of axis; their numbers stand in rows, records and arguments alike.
#[derive(Clone, Copy, PartialEq, Eq, Debug)]
pub enum Kind {
    X1 = 1,
    X2 = 2,
    X4 = 4,
    Counter = 8,
}

impl Kind {
    pub const ALL: [Kind; 4] = [Kind::X1, Kind::X2, Kind::X4, Kind::Counter];
    pub const SAMPLED: [Kind; 3] = [Kind::X1, Kind::X2, Kind::X4];

    pub fn number(self) -> u64 {
        self as u64
    }

    pub fn numbered(number: u64) -> Option<Kind> {
        Kind::ALL.into_iter().find(|kind| kind.number() == number)
    }
}

/// One axis, taken out of its four words. A counter uses the kind, the width and the position; the rest is 0 there.
#[derive(Clone, Copy, PartialEq, Eq, Debug)]
pub struct Axis {
    pub kind: Kind,
    pub depth: u8,
    pub width: u8,
    /// Counts per turn, 0 for no index check.
    pub turn: u32,
    pub position: i64,
    pub primed: bool,
    pub armed: bool,
    pub homed: bool,
    pub range: bool,
    pub index: bool,
    /// Filtered A, B and Z.
    pub levels: [bool; 3],
    /// How many raw samples in a row, the latest included, have differed from each filtered level.
    pub runs: [u8; 3],
    pub doubles: u16,
    /// The sign of the latest step: 1 forward, -1 back, 0 none.
    pub direction: i64,
    pub age: u32,
    pub period: u32,
}

/// What four words hold.
#[derive(Clone, Copy, PartialEq, Eq, Debug)]
pub enum Row {
    Empty,
    Live(Axis),
    Broken,
}

/// The field of `width` bits that starts at bit `at`.
fn bits(word: u64, at: u32, width: u32) -> u64 {
    word >> at & ((1 << width) - 1)
}

impl Row {
    pub fn unpack(words: &[u64; 4]) -> Row {
        if *words == [0; 4] {
            return Row::Empty;
        }
        let Some(kind) = Kind::numbered(bits(words[1], 0, 4)) else {
            return Row::Broken;
        };
        let sound = match kind {
            Kind::Counter => counter_is_sound(words),
            Kind::X1 | Kind::X2 | Kind::X4 => sampled_is_sound(words),
        };
        if sound {
            Row::Live(Axis::unpack(kind, words))
        } else {
            Row::Broken
        }
    }
}

fn place_is_sound(place: u64) -> bool {
    (1..1 << 63).contains(&place)
}

fn counter_is_sound(words: &[u64; 4]) -> bool {
    let [place, state, times, turn] = *words;
    let depth = bits(state, 4, 4);
    let width = bits(state, 8, 6);
    place_is_sound(place) && (2..=32).contains(&width) && depth == 0 && state >> 14 == 0 && times == 0 && turn == 0
}

fn sampled_is_sound(words: &[u64; 4]) -> bool {
    let [place, state, times, turn] = *words;
    let flag = |at| bits(state, at, 1) == 1;
    let (primed, armed, homed, index) = (flag(14), flag(15), flag(16), flag(18));
    let depth = bits(state, 4, 4);
    let width = bits(state, 8, 6);
    let runs = [bits(state, 22, 3), bits(state, 25, 3), bits(state, 28, 3)];
    let direction = bits(state, 48, 2);
    let period = bits(times, 32, 32);

    let unnamed_bits_are_clear = !flag(31) && state >> 50 == 0 && turn < 1 << 32;
    // HOMED up to direction is one stretch of bits, and word 2 is age and period.
    let untouched = bits(state, 16, 34) == 0 && times == 0;

    unnamed_bits_are_clear
        && place_is_sound(place)
        && (1..=8).contains(&depth)
        && width == 0
        && runs.iter().all(|&run| run < depth)
        && !(armed && homed)
        && direction != 3
        && period <= (1 << 32) - 2
        && (direction != 0 || period == 0)
        && (!index || turn > 0)
        && (primed || untouched)
}

impl Axis {
    /// A new axis at position 0, if the configuration keeps the limits that setup sets.
    pub fn new(kind: u64, depth: u64, width: u64, turn: u64) -> Option<Axis> {
        let kind = Kind::numbered(kind)?;
        let fits = match kind {
            Kind::Counter => (2..=32).contains(&width) && depth == 0 && turn == 0,
            Kind::X1 | Kind::X2 | Kind::X4 => (1..=8).contains(&depth) && width == 0 && turn < 1 << 32,
        };
        fits.then_some(Axis {
            kind,
            depth: depth as u8,
            width: width as u8,
            turn: turn as u32,
            position: 0,
            primed: false,
            armed: false,
            homed: false,
            range: false,
            index: false,
            levels: [false; 3],
            runs: [0; 3],
            doubles: 0,
            direction: 0,
            age: 0,
            period: 0,
        })
    }

    /// The fields of a sound row.
    fn unpack(kind: Kind, words: &[u64; 4]) -> Axis {
        let [place, state, times, turn] = *words;
        let flag = |at| bits(state, at, 1) == 1;
        Axis {
            kind,
            depth: bits(state, 4, 4) as u8,
            width: bits(state, 8, 6) as u8,
            turn: turn as u32,
            position: place as i64 - OFFSET,
            primed: flag(14),
            armed: flag(15),
            homed: flag(16),
            range: flag(17),
            index: flag(18),
            levels: [flag(19), flag(20), flag(21)],
            runs: [22, 25, 28].map(|at| bits(state, at, 3) as u8),
            doubles: bits(state, 32, 16) as u16,
            direction: match bits(state, 48, 2) {
                1 => 1,
                2 => -1,
                _ => 0,
            },
            age: bits(times, 0, 32) as u32,
            period: bits(times, 32, 32) as u32,
        }
    }

    pub fn pack(&self) -> [u64; 4] {
        let mut state = self.kind.number() | u64::from(self.depth) << 4 | u64::from(self.width) << 8;
        let flags = [self.primed, self.armed, self.homed, self.range, self.index];
        for (at, flag) in (14..).zip(flags.into_iter().chain(self.levels)) {
            state |= u64::from(flag) << at;
        }
        for (at, run) in [22, 25, 28].into_iter().zip(self.runs) {
            state |= u64::from(run) << at;
        }
        let direction = match self.direction {
            1 => 1,
            -1 => 2,
            _ => 0,
        };
        state |= u64::from(self.doubles) << 32 | direction << 48;
        let times = u64::from(self.age) | u64::from(self.period) << 32;
        [(self.position + OFFSET) as u64, state, times, u64::from(self.turn)]
    }

    /// Filter: a level follows its raw one after as many differing samples in a row as the depth says.
    fn filter(&mut self, raw: [bool; 3]) {
        for line in 0..3 {
            if raw[line] == self.levels[line] {
                self.runs[line] = 0;
            } else {
                self.runs[line] += 1;
                if self.runs[line] == self.depth {
                    self.levels[line] = raw[line];
                    self.runs[line] = 0;
                }
            }
        }
    }

    /// Count, age and period.
    fn take(&mut self, entry: Entry) {
        let age = self.age.saturating_add(1);
        match entry {
            Entry::Nothing => self.age = age,
            Entry::Step(sign) => {
                self.count(sign);
                self.period = if age < u32::MAX && self.direction == sign { age } else { 0 };
                self.direction = sign;
                self.age = 0;
            }
            Entry::Double => {
                self.doubles = self.doubles.saturating_add(1);
                self.period = 0;
                self.direction = 0;
                self.age = 0;
            }
        }
    }

    /// A step forward (1) or back (-1); one that would leave the range is held and marked.
    fn count(&mut self, sign: i64) {
        if is_position(self.position + sign) {
            self.position += sign;
        } else {
            self.range = true;
        }
    }

    /// Index, at a reference edge: homes an armed axis, and checks a homed one.
    fn meet_index(&mut self) {
        if self.armed {
            self.position = 0;
            self.homed = true;
            self.armed = false;
            self.range = false;
        } else if self.homed && self.turn > 0 && self.position % i64::from(self.turn) != 0 {
            self.index = true;
        }
    }
}

pub fn is_position(number: i64) -> bool {
    (-LIMIT..=LIMIT).contains(&number)
}

/// What a mode makes of a move from one code of A and B to another.
#[derive(Clone, Copy, PartialEq, Eq)]
enum Entry {
    Nothing,
    Step(i64),
    Double,
}

/// The entries of a mode: a string for each old code, in it a character for each new one.
type Mode = [&'static [u8; 4]; 4];

const X4: Mode = [b"0+-E", b"-0E+", b"+E0-", b"E-+0"];
const X2: Mode = [b"0+0E", b"-0E0", b"0E0-", b"E0+0"];
const X1: Mode = [b"0+0E", b"-0E0", b"0E00", b"E000"];

/// The x1 of `Fault::EveryRise`: each rise of A counts, the way that B says, and no fall of A takes it back.
const X1_EVERY_RISE: Mode = [b"0+0E", b"00E0", b"0E0-", b"E000"];

fn code(levels: [bool; 3]) -> usize {
    usize::from(levels[0]) + 2 * usize::from(levels[1])
}

/// A reference edge ("Index"): the end of the index mark that the shaft comes in by when it turns forward, and goes out by
/// when it turns back.
#[derive(Clone, Copy, PartialEq, Eq)]
enum Edge {
    Forward,
    Backward,
}

/// What a port sample tells of the axes, one bit for each.
#[derive(Clone, Copy, Default)]
pub struct Masks {
    pub doubles: u16,
    pub index: u16,
    pub broken: u16,
}

/// A speed in thousandths of a count a second, what it leaves over, and the samples that were divided by.
#[derive(Clone, Copy, Default)]
pub struct Speed {
    pub number: i64,
    pub remainder: i64,
    pub divisor: u32,
}

/// An error, put in on purpose to show that the comparison finds it.
#[derive(Clone, Copy, PartialEq, Eq, Debug)]
pub enum Fault {
    None,
    ComparedBeforeReducing,
    EveryRise,
    DoubleAsTwoSteps,
    Truncated,
    BrokenRefusesAll,
    AnyRiseOfZ,
    ModeChoosesEdge,
    CheckedAfterCount,
    SwallowedStep,
    HeldStepMarked,
    HalfTowardZero,
    OppositeRemainder,
    UnroundedRemainder,
    DividedByPeriod,
    PeriodAnswered,
    ValueBeforeOccupied,
    OccupiedBeforeRecord,
    BrokenIsFree,
    FirstWordAlone,
    ErasedIsRefused,
    AxesMayRepeat,
    CountNotCompared,
    TrailingBytes,
    OccupiedBeforeAxis,
    BrokenRowLeftOut,
    RoomBeforeBroken,
    ValuesAfterShapes,
    WrittenTooEarly,
    AnyNumberOfAxes,
    AxisNumberIsValue,
    LayoutOfFourBytes,
    NamedRowsAlone,
    BrokenRowFree,
}

impl Fault {
    /// The errors and what each does: five that were seen in the field, five ways to get a reference edge wrong, five to
    /// get a part of a speed wrong, five to get wrong which row an axis goes into, and thirteen to get a whole table's record
    /// wrong.
    pub const ALL: [(Fault, &'static str); 33] = [
        (Fault::ComparedBeforeReducing, "a reading compared with the position before reducing"),
        (Fault::EveryRise, "x1 counting every rise of A"),
        (Fault::DoubleAsTwoSteps, "a double step taken as two steps in the last direction"),
        (Fault::Truncated, "a negative speed divided by truncation"),
        (Fault::BrokenRefusesAll, "a whole port sample refused because of one broken row"),
        (Fault::AnyRiseOfZ, "homing on any rise of Z"),
        (Fault::ModeChoosesEdge, "the reference edge chosen by the mode's entry in place of x4's"),
        (Fault::CheckedAfterCount, "a check backward after the count"),
        (Fault::SwallowedStep, "a homing backward that swallows its own step"),
        (Fault::HeldStepMarked, "RANGE left set where the step that homes starts at the end of the range"),
        (Fault::HalfTowardZero, "a speed's half rounded toward zero"),
        (Fault::OppositeRemainder, "a speed's remainder of the wrong sign"),
        (Fault::UnroundedRemainder, "the remainder of a speed that is cut and not rounded"),
        (Fault::DividedByPeriod, "a speed by period divided by the period where the age is larger"),
        (Fault::PeriodAnswered, "the period answered as the divisor where the age is larger"),
        (Fault::ValueBeforeOccupied, "OCCUPIED checked after VALUE in a setup"),
        (Fault::OccupiedBeforeRecord, "OCCUPIED checked before the record in a restore"),
        (Fault::BrokenIsFree, "a broken row taken for free"),
        (Fault::FirstWordAlone, "a row taken for free by its word 0 alone"),
        (Fault::ErasedIsRefused, "an erased row refused as if it still held its axis"),
        (Fault::AxesMayRepeat, "an axis that stands twice in a table's record"),
        (Fault::CountNotCompared, "the number of axes not compared with the entries that follow"),
        (Fault::TrailingBytes, "bytes behind the end of a table's record let through"),
        (Fault::OccupiedBeforeAxis, "OCCUPIED checked before AXIS in a restore of the table"),
        (Fault::BrokenRowLeftOut, "a broken row left out by a save of the table"),
        (Fault::RoomBeforeBroken, "ROOM checked before BROKEN in a save of the table"),
        (Fault::ValuesAfterShapes, "the values of a table's record judged after all shapes"),
        (Fault::WrittenTooEarly, "a row written before a later entry of the record is judged"),
        (Fault::AnyNumberOfAxes, "more axes in a table's record than a table may have"),
        (Fault::AxisNumberIsValue, "an axis number that no table has refused as VALUE"),
        (Fault::LayoutOfFourBytes, "a layout named from four bytes"),
        (Fault::NamedRowsAlone, "a restore of the table that looks at the rows of its record alone"),
        (Fault::BrokenRowFree, "a broken row taken for free by a restore of the table"),
    ];
}

/// The calls on one table. Each answers or refuses as its section says; the fault is `Fault::None` but for a trial.
pub struct Reference {
    pub fault: Fault,
    /// The axes that were erased, a bit for each, which `Fault::ErasedIsRefused` alone looks at: the words tell nothing of it.
    erased: Cell<u16>,
}

impl Reference {
    pub fn new(fault: Fault) -> Reference {
        Reference { fault, erased: Cell::new(0) }
    }
}

// "A port sample".
impl Reference {
    pub fn sample(&self, table: &mut [u64], port: u64) -> Result<Masks, Refusal> {
        axes(table)?;
        if self.fault == Fault::BrokenRefusesAll && table.chunks_exact(4).any(|row| unpack(row) == Row::Broken) {
            return Err(Refusal::Broken);
        }
        let mut masks = Masks::default();
        for (number, row) in table.chunks_exact_mut(4).enumerate() {
            match unpack(row) {
                Row::Empty => {}
                Row::Broken => masks.broken |= 1 << number,
                Row::Live(axis) if axis.kind == Kind::Counter => {}
                Row::Live(mut axis) => {
                    let (double, edge) = self.step(&mut axis, port >> (4 * number));
                    masks.doubles |= u16::from(double) << number;
                    masks.index |= u16::from(edge) << number;
                    row.copy_from_slice(&axis.pack());
                }
            }
        }
        Ok(masks)
    }

    /// One sample on a sampled axis; the lowest three bits of `lines` are A, B and Z. Answers whether it was a double
    /// step and whether it was a reference edge.
    fn step(&self, axis: &mut Axis, lines: u64) -> (bool, bool) {
        let raw = [0, 1, 2].map(|line| bits(lines, line, 1) == 1);
        if !axis.primed {
            axis.levels = raw;
            axis.primed = true;
            return (false, false);
        }
        let before = axis.levels;
        axis.filter(raw);
        let entry = self.entry(axis.kind, code(before), code(axis.levels));
        if self.fault == Fault::DoubleAsTwoSteps && entry == Entry::Double {
            axis.count(axis.direction);
            axis.count(axis.direction);
        }
        let edge = self.edge(axis.kind, before, axis.levels);
        let homes = edge.is_some() && axis.armed;
        let held = matches!(entry, Entry::Step(sign) if !is_position(axis.position + sign));
        // The edge lies where a step forward ends, and where a step back starts.
        let index_first = match edge {
            Some(Edge::Backward) if homes => self.fault != Fault::SwallowedStep,
            Some(Edge::Backward) => self.fault != Fault::CheckedAfterCount,
            _ => false,
        };
        if index_first {
            axis.meet_index();
        }
        axis.take(entry);
        if edge.is_some() && !index_first {
            axis.meet_index();
        }
        if self.fault == Fault::HeldStepMarked && homes && held {
            axis.range = true;
        }
        (entry == Entry::Double, edge.is_some())
    }

    /// The reference edge on the way from some filtered levels to others, if there is one: Z rises on a step forward, or
    /// falls on a step back. What is a step is for x4 to say, whatever the axis counts.
    fn edge(&self, kind: Kind, before: [bool; 3], after: [bool; 3]) -> Option<Edge> {
        let (was, is) = (before[2], after[2]);
        if self.fault == Fault::AnyRiseOfZ {
            return (!was && is).then_some(Edge::Forward);
        }
        let kind = if self.fault == Fault::ModeChoosesEdge { kind } else { Kind::X4 };
        match (self.entry(kind, code(before), code(after)), was, is) {
            (Entry::Step(1), false, true) => Some(Edge::Forward),
            (Entry::Step(-1), true, false) => Some(Edge::Backward),
            _ => None,
        }
    }

    fn entry(&self, kind: Kind, old: usize, new: usize) -> Entry {
        let mode = match kind {
            Kind::X4 => X4,
            Kind::X2 => X2,
            Kind::X1 if self.fault == Fault::EveryRise => X1_EVERY_RISE,
            Kind::X1 => X1,
            Kind::Counter => unreachable!("a counter takes no samples"),
        };
        match mode[old][new] {
            b'+' => Entry::Step(1),
            b'-' => Entry::Step(-1),
            b'E' => Entry::Double,
            _ => Entry::Nothing,
        }
    }
}

/// The number of axes of a table.
pub fn axes(table: &[u64]) -> Result<usize, Refusal> {
    let axes = table.len() / 4;
    if table.len() % 4 == 0 && (1..=MOST_AXES).contains(&axes) {
        Ok(axes)
    } else {
        Err(Refusal::Length)
    }
}

/// Where the words of an axis lie.
fn place(table: &[u64], axis: u64) -> Result<Range<usize>, Refusal> {
    if axis >= axes(table)? as u64 {
        return Err(Refusal::Axis);
    }
    let start = 4 * axis as usize;
    Ok(start..start + 4)
}

fn row(table: &[u64], axis: u64) -> Result<&[u64], Refusal> {
    Ok(&table[place(table, axis)?])
}

fn row_mut(table: &mut [u64], axis: u64) -> Result<&mut [u64], Refusal> {
    let place = place(table, axis)?;
    Ok(&mut table[place])
}

pub fn unpack(row: &[u64]) -> Row {
    Row::unpack(row.try_into().expect("a row has four words"))
}

/// The axis that a sound row holds.
fn live(row: &[u64]) -> Result<Axis, Refusal> {
    match unpack(row) {
        Row::Broken => Err(Refusal::Broken),
        Row::Empty => Err(Refusal::Empty),
        Row::Live(axis) => Ok(axis),
    }
}

/// The same, where it has to be a sampled one.
fn sampled(row: &[u64]) -> Result<Axis, Refusal> {
    let axis = live(row)?;
    if axis.kind == Kind::Counter {
        return Err(Refusal::Kind);
    }
    Ok(axis)
}

// "Calls that name one axis".
impl Reference {
    pub fn setup(
        &self,
        table: &mut [u64],
        axis: u64,
        kind: u64,
        depth: u64,
        width: u64,
        turn: u64,
    ) -> Result<(), Refusal> {
        let row = row_mut(table, axis)?;
        let new = Axis::new(kind, depth, width, turn);
        if self.fault == Fault::ValueBeforeOccupied && new.is_none() {
            return Err(Refusal::Value);
        }
        let room = self.room(row, axis)?;
        room.copy_from_slice(&new.ok_or(Refusal::Value)?.pack());
        Ok(())
    }

    /// The words of a row that is free for a new axis: an empty one is, and no other.
    fn room<'a>(&self, row: &'a mut [u64], axis: u64) -> Result<&'a mut [u64], Refusal> {
        let free = match self.fault {
            Fault::BrokenIsFree => !matches!(unpack(row), Row::Live(_)),
            Fault::FirstWordAlone => row[0] == 0,
            Fault::ErasedIsRefused if self.erased.get() >> axis & 1 == 1 => false,
            _ => unpack(row) == Row::Empty,
        };
        if free {
            Ok(row)
        } else {
            Err(Refusal::Occupied)
        }
    }

    pub fn erase(&self, table: &mut [u64], axis: u64) -> Result<(), Refusal> {
        row_mut(table, axis)?.fill(0);
        self.erased.set(self.erased.get() | 1 << axis);
        Ok(())
    }

    pub fn preset(&self, table: &mut [u64], axis: u64, position: i64) -> Result<(), Refusal> {
        let row = row_mut(table, axis)?;
        let old = live(row)?;
        if !is_position(position) {
            return Err(Refusal::Value);
        }
        row.copy_from_slice(&Axis { position, range: false, homed: false, ..old }.pack());
        Ok(())
    }

    pub fn arm(&self, table: &mut [u64], axis: u64) -> Result<(), Refusal> {
        let row = row_mut(table, axis)?;
        let old = sampled(row)?;
        row.copy_from_slice(&Axis { armed: true, homed: false, ..old }.pack());
        Ok(())
    }

    pub fn acknowledge(&self, table: &mut [u64], axis: u64) -> Result<(), Refusal> {
        let row = row_mut(table, axis)?;
        let old = sampled(row)?;
        row.copy_from_slice(&Axis { doubles: 0, index: false, ..old }.pack());
        Ok(())
    }

    /// The view of an axis: the kind, the position, the five flags and doubles of what is answered.
    pub fn view(&self, table: &[u64], axis: u64) -> Result<Axis, Refusal> {
        live(row(table, axis)?)
    }

    pub fn reading(&self, table: &mut [u64], axis: u64, reading: u64) -> Result<i64, Refusal> {
        let row = row_mut(table, axis)?;
        let old = live(row)?;
        if old.kind != Kind::Counter {
            return Err(Refusal::Kind);
        }
        let position = self.nearest(old.width.into(), old.position, reading)?;
        row.copy_from_slice(&Axis { position, ..old }.pack());
        Ok(position)
    }

    pub fn speed_by_period(&self, table: &[u64], axis: u64, rate: u64) -> Result<Speed, Refusal> {
        let axis = sampled(row(table, axis)?)?;
        if !is_rate(rate) {
            return Err(Refusal::Value);
        }
        if axis.period == 0 {
            return Err(Refusal::NoPeriod);
        }
        let larger = if self.fault == Fault::DividedByPeriod { axis.period } else { axis.period.max(axis.age) };
        let speed = self.speed(axis.direction, larger, rate);
        let divisor = if self.fault == Fault::PeriodAnswered { axis.period } else { speed.divisor };
        Ok(Speed { divisor, ..speed })
    }

    pub fn save(&self, table: &[u64], axis: u64, buffer: &mut [u8]) -> Result<i64, Refusal> {
        let record = write_record(&live(row(table, axis)?)?);
        let room = buffer.get_mut(..record.len()).ok_or(Refusal::Room)?;
        room.copy_from_slice(&record);
        Ok(record.len() as i64)
    }

    pub fn restore(&self, table: &mut [u64], axis: u64, record: &[u8]) -> Result<(), Refusal> {
        let row = row_mut(table, axis)?;
        if self.fault == Fault::OccupiedBeforeRecord {
            self.room(row, axis)?;
        }
        let new = read_record(record)?;
        self.room(row, axis)?.copy_from_slice(&new.pack());
        Ok(())
    }
}

fn is_rate(rate: u64) -> bool {
    (1..=MOST_RATE).contains(&rate)
}

// The calls that need no table.
impl Reference {
    pub fn widen(&self, width: u64, position: i64, reading: u64) -> Result<i64, Refusal> {
        if !(2..=32).contains(&width) || !is_position(position) {
            return Err(Refusal::Value);
        }
        self.nearest(width as u32, position, reading)
    }

    pub fn speed_by_count(&self, difference: i64, samples: u64, rate: u64) -> Result<Speed, Refusal> {
        let most = (1 << 31) - 1;
        if !(-most..=most).contains(&difference) || !(1..1 << 32).contains(&samples) || !is_rate(rate) {
            return Err(Refusal::Value);
        }
        Ok(self.speed(difference, samples as u32, rate))
    }

    pub fn test_record(&self, record: &[u8]) -> Result<(), Refusal> {
        read_record(record).map(|_| ())
    }

    /// The position nearest to `position` whose lowest `width` bits are the reading, for a width from 2 to 32.
    fn nearest(&self, width: u32, position: i64, reading: u64) -> Result<i64, Refusal> {
        let turn = 1 << width;
        let Some(reading) = i64::try_from(reading).ok().filter(|&reading| reading < turn) else {
            return Err(Refusal::Value);
        };
        let ahead = if self.fault == Fault::ComparedBeforeReducing {
            // Below zero this remainder is negative, so the difference can be a turn too large.
            let part = position % turn;
            if reading >= part {
                reading - part
            } else {
                reading + turn - part
            }
        } else {
            (reading - position).rem_euclid(turn)
        };
        let nearest = match ahead.cmp(&(turn / 2)) {
            Ordering::Less => position + ahead,
            Ordering::Equal => return Err(Refusal::Half),
            Ordering::Greater => position + ahead - turn,
        };
        if is_position(nearest) {
            Ok(nearest)
        } else {
            Err(Refusal::Range)
        }
    }

    /// The speed of some counts over a number of samples, 1 at least: of the two whole numbers about the quotient the
    /// nearer one, from the middle the one further from zero; and what that leaves over.
    fn speed(&self, counts: i64, samples: u32, rate: u64) -> Speed {
        let dividend = 1000 * i128::from(counts) * i128::from(rate);
        let divisor = i128::from(samples);
        let (below, over) = (dividend.div_euclid(divisor), dividend.rem_euclid(divisor));
        let takes_upper = match (2 * over).cmp(&divisor) {
            Ordering::Less => false,
            Ordering::Equal => (dividend > 0) != (self.fault == Fault::HalfTowardZero),
            Ordering::Greater => true,
        };
        let number = match self.fault {
            Fault::Truncated => (2 * dividend + divisor) / (2 * divisor),
            _ => below + i128::from(takes_upper),
        };
        let remainder = match self.fault {
            Fault::OppositeRemainder => number * divisor - dividend,
            Fault::UnroundedRemainder => dividend % divisor,
            _ => dividend - number * divisor,
        };
        let fits = |number: i128| i64::try_from(number).expect("counts, samples and rate keep their limits");
        Speed { number: fits(number), remainder: fits(remainder), divisor: samples }
    }
}

// "The saved record".
pub const LAYOUT_TAG: u8 = 0x01;
pub const KIND_TAG: u8 = 0x02;
pub const POSITION_TAG: u8 = 0x03;
pub const DEPTH_TAG: u8 = 0x04;
pub const WIDTH_TAG: u8 = 0x05;
pub const TURN_TAG: u8 = 0x06;
pub const END_TAG: u8 = 0x7f;
pub const LAYOUT: u16 = 1;

pub fn put_field(record: &mut Vec<u8>, tag: u8, value: &[u8]) {
    record.push(tag);
    record.extend((value.len() as u16).to_be_bytes());
    record.extend(value);
}

/// Puts the fields of one axis, which are the same in both layouts.
pub fn put_axis(record: &mut Vec<u8>, axis: &Axis) {
    put_field(record, KIND_TAG, &[axis.kind.number() as u8]);
    put_field(record, POSITION_TAG, &axis.position.to_be_bytes());
    if axis.kind == Kind::Counter {
        put_field(record, WIDTH_TAG, &[axis.width]);
    } else {
        put_field(record, DEPTH_TAG, &[axis.depth]);
        put_field(record, TURN_TAG, &axis.turn.to_be_bytes());
    }
}

/// The record of an axis.
pub fn write_record(axis: &Axis) -> Vec<u8> {
    let mut record = Vec::with_capacity(34);
    put_field(&mut record, LAYOUT_TAG, &LAYOUT.to_be_bytes());
    put_axis(&mut record, axis);
    put_field(&mut record, END_TAG, &[]);
    record
}

/// The layout number that a slice opens with, if it opens as a record does.
pub fn layout_of(record: &[u8]) -> Option<u16> {
    match *record {
        [LAYOUT_TAG, 0, 2, high, low, ..] => Some(u16::from_be_bytes([high, low])),
        _ => None,
    }
}

/// Takes one field off the front of what is left of a record and answers its value.
pub fn take_field<const N: usize>(left: &mut &[u8], tag: u8) -> Result<[u8; N], Refusal> {
    let [high, low] = (N as u16).to_be_bytes();
    let value = left.strip_prefix(&[tag, high, low]).ok_or(Refusal::Record)?;
    let (value, rest) = (value.len() >= N).then(|| value.split_at(N)).ok_or(Refusal::Record)?;
    *left = rest;
    Ok(value.try_into().expect("a value of N bytes"))
}

/// The axis that a record stands for, new but for its position.
pub fn read_record(record: &[u8]) -> Result<Axis, Refusal> {
    if let Some(layout) = layout_of(record).filter(|&layout| layout != LAYOUT) {
        return Err(Refusal::Layout(layout));
    }
    let left = &mut &*record;
    take_field::<2>(left, LAYOUT_TAG)?;
    let [kind] = take_field(left, KIND_TAG)?;
    let kind = Kind::numbered(kind.into()).ok_or(Refusal::Value)?;

    // Every shape comes before any of the values that follow.
    let position = i64::from_be_bytes(take_field(left, POSITION_TAG)?);
    let (depth, width, turn) = if kind == Kind::Counter {
        let [width] = take_field(left, WIDTH_TAG)?;
        (0, width, 0)
    } else {
        let [depth] = take_field(left, DEPTH_TAG)?;
        (depth, 0, u32::from_be_bytes(take_field(left, TURN_TAG)?))
    };
    take_field::<0>(left, END_TAG)?;
    if !left.is_empty() {
        return Err(Refusal::Record);
    }

    let axis = Axis::new(kind.number(), depth.into(), width.into(), turn.into()).ok_or(Refusal::Value)?;
    if !is_position(position) {
        return Err(Refusal::Value);
    }
    Ok(Axis { position, ..axis })
}
