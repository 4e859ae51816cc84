//! Random rows: sound ones at and near every limit, and ones that are broken in each way there is.

use crate::random::Random;
use crate::reference::{Axis, Kind, LIMIT};

/// A position within the range; some are at a multiple of `turn`, or beside one.
pub fn position(random: &mut Random, turn: u32) -> i64 {
    let turn = i64::from(if turn == 0 { 4096 } else { turn });
    let size = match random.below(6) {
        0 => random.below(12) as i64,
        1 => LIMIT - random.below(4) as i64,
        2 => random.below(1000) as i64 * turn + random.around(1),
        3 => LIMIT / turn * turn - random.below(2) as i64,
        _ => (random.any_size() >> 2) as i64,
    };
    if random.coin() {
        size
    } else {
        -size
    }
}

pub fn turn(random: &mut Random) -> u32 {
    match random.below(4) {
        0 => 0,
        1 => random.between(1, 8) as u32,
        2 => random.pick(&[4096, 1 << 31, u32::MAX - 1, u32::MAX]),
        _ => random.any_size() as u32,
    }
}

fn depth(random: &mut Random) -> u64 {
    if random.coin() {
        random.between(1, 2)
    } else {
        random.between(1, 8)
    }
}

fn new_sampled(random: &mut Random) -> Axis {
    let kind = random.pick(&Kind::SAMPLED);
    let turn = turn(random);
    let new = Axis::new(kind.number(), depth(random), 0, turn.into()).expect("limits are kept");
    Axis { position: position(random, turn), ..new }
}

/// A sampled axis before its first sample.
fn unprimed(random: &mut Random) -> Axis {
    Axis { armed: random.once_in(3), ..new_sampled(random) }
}

/// A sampled axis in any state that a row can hold.
fn primed(random: &mut Random) -> Axis {
    let new = new_sampled(random);
    let (armed, homed) = random.pick(&[(false, false), (true, false), (false, true)]);
    let direction = random.around(1);
    let last = u64::from(u32::MAX);
    let age = match random.below(4) {
        0 => random.below(20),
        1 => last - random.below(8),
        2 => random.pick(&[15, 16, 79, 399, 1999, 2000]),
        _ => random.any_size(),
    };
    let period = match random.below(4) {
        _ if direction == 0 => 0,
        0 => random.below(20),
        1 => last - 1 - random.below(8),
        2 => random.pick(&[16, 80, 400, 2000]),
        _ => random.below(last),
    };
    Axis {
        primed: true,
        armed,
        homed,
        range: random.coin(),
        index: new.turn > 0 && random.coin(),
        levels: [(); 3].map(|()| random.coin()),
        runs: [(); 3].map(|()| match random.below(3) {
            0 => 0,
            1 => new.depth - 1,
            _ => random.below(new.depth.into()) as u8,
        }),
        doubles: match random.below(3) {
            0 => random.below(4) as u16,
            1 => u16::MAX - random.below(4) as u16,
            _ => random.word() as u16,
        },
        direction,
        age: age as u32,
        period: period as u32,
        ..new
    }
}

/// A primed axis that the next reference edge homes or checks: at an end of the range, or at or beside a few whole turns.
pub fn poised(random: &mut Random) -> Axis {
    let axis = primed(random);
    let turn = random.below(9) as u32;
    let position = match random.below(4) {
        0 => -LIMIT,
        1 => LIMIT,
        _ => random.around(3) * i64::from(turn) + random.around(1),
    };
    let armed = random.coin();
    Axis { turn, position, armed, homed: !armed, index: turn > 0 && axis.index, ..axis }
}

pub fn counter(random: &mut Random) -> Axis {
    let new = Axis::new(Kind::Counter.number(), 0, random.between(2, 32), 0).expect("limits are kept");
    Axis { position: position(random, 0), ..new }
}

/// An axis of any kind, in any state.
pub fn axis(random: &mut Random) -> Axis {
    match random.below(8) {
        0 => unprimed(random),
        1 | 2 => counter(random),
        _ => primed(random),
    }
}

pub fn sound(random: &mut Random) -> [u64; 4] {
    if random.once_in(8) {
        [0; 4]
    } else {
        axis(random).pack()
    }
}

/// A row that is broken as a rule; one with a single bit turned over may still be sound.
pub fn broken(random: &mut Random) -> [u64; 4] {
    match random.below(8) {
        0 => {
            let mut row = sound(random);
            row[random.below(4) as usize] ^= 1 << random.below(64);
            row
        }
        1 => [(); 4].map(|()| random.word()),
        _ => {
            let way = random.below(WAYS.len() as u64) as usize;
            broken_by(way, random)
        }
    }
}

/// A row whose only flaw is the one that `WAYS` has there.
pub fn broken_by(way: usize, random: &mut Random) -> [u64; 4] {
    let (_, start, flaw) = WAYS[way];
    let mut row = match start {
        Start::Empty => [0; 4],
        Start::Counter => counter(random).pack(),
        Start::Primed => primed(random).pack(),
        Start::Unprimed => unprimed(random).pack(),
    };
    flaw(random, &mut row);
    row
}

/// The sound row that a flaw is put into.
#[derive(Clone, Copy)]
pub enum Start {
    Empty,
    Counter,
    Primed,
    Unprimed,
}

/// Writes a field of `width` bits that starts at bit `at`.
fn put(word: &mut u64, at: u32, width: u32, value: u64) {
    let mask = ((1 << width) - 1) << at;
    *word = *word & !mask | value << at;
}

type Flaw = fn(&mut Random, &mut [u64; 4]);

/// Each condition of a sound row ("One row, four words"), and a flaw that fails it.
pub const WAYS: [(&str, Start, Flaw); 37] = [
    ("empty but for word 0", Start::Empty, |random, row| row[0] = random.any_size() | 1),
    ("empty but for word 1", Start::Empty, |random, row| row[1] = 1 << random.between(4, 63)),
    ("empty but for word 2", Start::Empty, |random, row| row[2] = random.any_size() | 1),
    ("empty but for word 3", Start::Empty, |random, row| row[3] = random.any_size() | 1),
    ("counter: word 0 is 0", Start::Counter, |_, row| row[0] = 0),
    ("counter: word 0 is 2^63 or more", Start::Counter, too_high),
    ("counter: too narrow", Start::Counter, |random, row| put(&mut row[1], 8, 6, random.below(2))),
    ("counter: too wide", Start::Counter, |random, row| put(&mut row[1], 8, 6, from(random, 33, 63))),
    ("counter: a depth", Start::Counter, |random, row| put(&mut row[1], 4, 4, random.between(1, 15))),
    ("counter: a bit above the width", Start::Counter, |random, row| row[1] |= 1 << random.between(14, 63)),
    ("counter: word 2", Start::Counter, |random, row| row[2] = 1 << random.below(64)),
    ("counter: word 3", Start::Counter, |random, row| row[3] = 1 << random.below(64)),
    ("no such kind", Start::Primed, no_such_kind),
    ("word 0 is 0", Start::Primed, |_, row| row[0] = 0),
    ("word 0 is 2^63 or more", Start::Primed, too_high),
    ("depth 0", Start::Primed, |_, row| {
        put(&mut row[1], 4, 4, 0);
        put(&mut row[1], 22, 9, 0);
    }),
    ("depth above 8", Start::Primed, |random, row| put(&mut row[1], 4, 4, from(random, 9, 15))),
    ("a width", Start::Primed, |random, row| put(&mut row[1], 8, 6, random.between(1, 63))),
    ("a run at its depth or above", Start::Primed, |random, row| {
        let depth = random.between(1, 7);
        put(&mut row[1], 4, 4, depth);
        put(&mut row[1], 22, 9, 0);
        put(&mut row[1], random.pick(&[22, 25, 28]), 3, from(random, depth, 7));
    }),
    ("ARMED and HOMED", Start::Primed, |_, row| put(&mut row[1], 15, 2, 3)),
    ("direction 3", Start::Primed, |_, row| put(&mut row[1], 48, 2, 3)),
    ("period 2^32 - 1", Start::Primed, |random, row| {
        put(&mut row[1], 48, 2, random.between(1, 2));
        put(&mut row[2], 32, 32, u32::MAX.into());
    }),
    ("a period without a direction", Start::Primed, |random, row| {
        put(&mut row[1], 48, 2, 0);
        put(&mut row[2], 32, 32, random.between(1, u64::from(u32::MAX) - 1));
    }),
    ("INDEX without counts per turn", Start::Primed, |_, row| {
        put(&mut row[1], 18, 1, 1);
        row[3] = 0;
    }),
    ("bit 31", Start::Primed, |_, row| put(&mut row[1], 31, 1, 1)),
    ("a bit above direction", Start::Primed, |random, row| row[1] |= 1 << random.between(50, 63)),
    ("word 3 is 2^32 or more", Start::Primed, too_many_counts),
    ("unprimed, word 3 is 2^32 or more", Start::Unprimed, too_many_counts),
    ("unprimed, HOMED", Start::Unprimed, |_, row| put(&mut row[1], 15, 2, 2)),
    ("unprimed, RANGE", Start::Unprimed, |_, row| put(&mut row[1], 17, 1, 1)),
    ("unprimed, INDEX", Start::Unprimed, |random, row| {
        put(&mut row[1], 18, 1, 1);
        row[3] = random.between(1, u32::MAX.into());
    }),
    ("unprimed, a level", Start::Unprimed, |random, row| row[1] |= 1 << random.between(19, 21)),
    ("unprimed, a run", Start::Unprimed, |random, row| {
        put(&mut row[1], 4, 4, 8);
        row[1] |= 1 << random.between(22, 30);
    }),
    ("unprimed, doubles", Start::Unprimed, |random, row| row[1] |= 1 << random.between(32, 47)),
    ("unprimed, a direction", Start::Unprimed, |random, row| put(&mut row[1], 48, 2, random.between(1, 2))),
    ("unprimed, an age", Start::Unprimed, |random, row| put(&mut row[2], 0, 32, random.between(1, u32::MAX.into()))),
    ("unprimed, a period", Start::Unprimed, |random, row| {
        put(&mut row[1], 48, 2, random.between(1, 2));
        put(&mut row[2], 32, 32, random.between(1, u64::from(u32::MAX) - 1));
    }),
];

/// A number from `low` to `high`, as often as not the lowest.
fn from(random: &mut Random, low: u64, high: u64) -> u64 {
    if random.coin() {
        low
    } else {
        random.between(low, high)
    }
}

fn too_many_counts(random: &mut Random, row: &mut [u64; 4]) {
    row[3] = if random.coin() { 1 << 32 } else { row[3] | 1 << random.between(32, 63) };
}

fn too_high(random: &mut Random, row: &mut [u64; 4]) {
    row[0] = match random.below(3) {
        0 => 1 << 63,
        1 => u64::MAX,
        _ => row[0] | 1 << 63,
    };
}

fn no_such_kind(random: &mut Random, row: &mut [u64; 4]) {
    put(&mut row[1], 0, 4, random.pick(&[0, 3, 5, 6, 7, 9, 10, 11, 12, 13, 14, 15]));
}
