//! Random scenarios: a table of legal or illegal length, lines that turn, chatter or rest, and the calls made on them.

use crate::call::{Call, Memory};
use crate::random::Random;
use crate::reference::{write_record, Kind, LIMIT, MOST_AXES, MOST_RATE};
use crate::rows;
use crate::table_records::{any_record, table_buffer, table_record};
use crate::whole::{live_axes, write_table};

/// A table that the calls go on changing until the scenario is over.
pub struct Scenario {
    pub memory: Memory,
    port: [Lines; MOST_AXES],
    /// Whether all lines stay at rest.
    quiet: bool,
    /// Whether nearly every call is a port sample.
    sampling: bool,
    /// Whether the rows wait for a reference edge, and every call is a port sample or goes with homing.
    homing: bool,
    /// Whether most calls are of the whole table, which is emptied now and then.
    whole: bool,
    left: u64,
}

impl Scenario {
    pub fn new(random: &mut Random) -> Scenario {
        let legal = !random.once_in(12);
        let words = if legal { 4 * random.between(1, MOST_AXES as u64) } else { illegal_length(random) };
        let mut memory = Memory::new(words as usize, || random.word());
        let whole = random.once_in(2);
        let homing = legal && !whole && random.once_in(3);
        let fresh = if whole { random.coin() } else { !homing && random.once_in(6) };
        let flawed = random.pick(&[0, 0, 1, 4]);
        for row in memory.table_mut().chunks_mut(4) {
            let new = if fresh {
                [0; 4]
            } else if random.below(8) < flawed {
                rows::broken(random)
            } else if homing {
                rows::poised(random).pack()
            } else {
                rows::sound(random)
            };
            row.copy_from_slice(&new[..row.len()]);
        }
        let sampling = legal && !homing && !whole && random.once_in(4);
        let left = match (legal, sampling) {
            (false, _) => random.between(1, 20),
            (true, _) if whole => random.between(5, 60),
            (true, false) => random.between(10, 300),
            (true, true) => random.between(10, 1500),
        };
        let quiet = !homing && random.once_in(6);
        let port = [(); MOST_AXES].map(|()| {
            let mut lines = Lines::at_rest(random);
            if !quiet {
                lines.change(random);
            }
            lines
        });
        Scenario { memory, port, quiet, sampling, homing, whole, left }
    }

    /// The next call, unless the scenario is over. The bytes that it lends go into the memory.
    pub fn next_call(&mut self, random: &mut Random) -> Option<Call> {
        self.left = self.left.checked_sub(1)?;
        if self.homing {
            return Some(self.call_of_homing(random));
        }
        if self.whole && !random.once_in(8) {
            return Some(self.call_of_the_table(random));
        }
        let kind = if self.sampling && !random.once_in(24) { 0 } else { random.below(21) };
        Some(match kind {
            0 | 1 => Call::Sample { port: self.sample(random) },
            2 | 3 => {
                let (width, position) = (width(random), position(random));
                Call::Widen { width, position, reading: reading(random, width.clamp(2, 32) as u32, position) }
            }
            4 | 5 => {
                let (difference, samples) = (difference(random), samples(random));
                Call::SpeedByCount { difference, samples, rate: rate(random) }
            }
            6 | 7 => {
                self.memory.lend(&record(random));
                Call::TestRecord
            }
            8 => self.call_of_the_table(random),
            _ => self.call_of_one_axis(random),
        })
    }

    /// A save or a restore of the whole table, or a test or a restore of such bytes by a call that takes one axis.
    fn call_of_the_table(&mut self, random: &mut Random) -> Call {
        let axes = self.memory.table().len() as u64 / 4;
        match random.below(16) {
            0..=3 => {
                let (live, _) = live_axes(self.memory.table());
                self.memory.lend(&table_buffer(random, &live));
                Call::SaveTable
            }
            4..=6 => {
                self.memory.lend(&any_record(random, axes));
                Call::TestAny
            }
            7 => {
                self.memory.lend(&any_record(random, axes));
                if random.coin() {
                    Call::TestRecord
                } else {
                    Call::Restore { axis: self.free_or(axis(random, axes), random) }
                }
            }
            8 | 9 => {
                // What the table itself is saved as, now or after it was emptied.
                let (live, _) = live_axes(self.memory.table());
                self.memory.lend(&write_table(&live));
                self.empty_sometimes(random);
                Call::RestoreTable
            }
            _ => {
                let record = if random.once_in(8) { any_record(random, axes) } else { table_record(random, axes) };
                self.memory.lend(&record);
                self.empty_sometimes(random);
                Call::RestoreTable
            }
        }
    }

    /// Of a scenario of whole tables: empties every row, or every row but one, as a host does that zeroes its memory.
    fn empty_sometimes(&mut self, random: &mut Random) {
        let axes = self.memory.table().len() / 4;
        if !self.whole || random.once_in(4) {
            return;
        }
        self.memory.table_mut().fill(0);
        if axes > 0 && random.once_in(4) {
            let at = 4 * random.below(axes as u64) as usize;
            let row = if random.coin() { rows::sound(random) } else { rows::broken(random) };
            self.memory.table_mut()[at..at + 4].copy_from_slice(&row);
        }
    }

    /// A port sample, or a call that changes what the next reference edge finds.
    fn call_of_homing(&mut self, random: &mut Random) -> Call {
        let axis = random.below(self.memory.table().len() as u64 / 4);
        match random.below(20) {
            0 | 1 => Call::Arm { axis },
            2 => Call::Preset { axis, position: random.pick(&[-LIMIT, 0, LIMIT]) },
            3 => Call::Acknowledge { axis },
            _ => Call::Sample { port: self.sample(random) },
        }
    }

    fn call_of_one_axis(&mut self, random: &mut Random) -> Call {
        let axis = axis(random, self.memory.table().len() as u64 / 4);
        match random.below(12) {
            0 => {
                let [kind, depth, width, turn] = configuration(random);
                Call::Setup { axis: self.free_or(axis, random), kind, depth, width, turn }
            }
            1 => Call::Erase { axis },
            2 => Call::Preset { axis, position: position(random) },
            3 => Call::Arm { axis },
            4 => Call::Acknowledge { axis },
            5 | 6 => {
                let (width, position) = self.counter(axis);
                Call::Reading { axis, reading: reading(random, width, position) }
            }
            7 | 8 => Call::SpeedByPeriod { axis, rate: rate(random) },
            9 => {
                self.memory.lend(&buffer(random));
                Call::Save { axis }
            }
            10 => {
                self.memory.lend(&record(random));
                Call::Restore { axis: self.free_or(axis, random) }
            }
            _ => Call::View { axis },
        }
    }

    /// As often as not an axis whose row is empty, if there is one, so that axes are made as fast as they are erased; or
    /// else this one.
    fn free_or(&self, axis: u64, random: &mut Random) -> u64 {
        let rows = (0..).zip(self.memory.table().chunks(4));
        let free: Vec<u64> = rows.filter(|(_, row)| row.iter().all(|&word| word == 0)).map(|(axis, _)| axis).collect();
        if free.is_empty() || random.coin() {
            axis
        } else {
            random.pick(&free)
        }
    }

    fn sample(&mut self, random: &mut Random) -> u64 {
        if !self.quiet && random.once_in(8) {
            self.port[random.below(MOST_AXES as u64) as usize].change(random);
        }
        let unread = random.word() & 0x8888_8888_8888_8888;
        (0..).zip(&mut self.port).fold(unread, |port, (axis, lines)| port | lines.next(random) << (4 * axis))
    }

    /// The width and position to choose a reading by: the row's own, if it looks like a counter's.
    fn counter(&self, axis: u64) -> (u32, i64) {
        let row = usize::try_from(axis).ok().and_then(|axis| self.memory.table().chunks_exact(4).nth(axis));
        match row {
            Some(&[place, state, ..]) if state & 15 == Kind::Counter.number() => {
                ((state >> 8 & 63).clamp(2, 32) as u32, place.wrapping_sub(1 << 62) as i64)
            }
            _ => (8, 0),
        }
    }
}

fn illegal_length(random: &mut Random) -> u64 {
    match random.below(3) {
        0 => 0,
        1 => 4 * 17 + random.below(2),
        _ => 4 * random.below(17) + random.between(1, 3),
    }
}

/// What A, B and Z of one axis do for a while.
#[derive(Clone, Copy)]
enum Motion {
    Resting,
    /// The shaft turns one way, by a quarter step forward (1) or back (-1) at a time.
    Turning(i8),
    /// It turns to and fro, and Z is anything.
    Swinging,
    /// It turns to and fro over an index mark: Z goes by the angle.
    Crossing,
    /// It jumps anywhere.
    Jumping,
    /// One line flutters.
    Chattering(u8),
    /// All lines are noise.
    Noise,
}

struct Lines {
    motion: Motion,
    /// The shaft's angle, in quarter steps.
    angle: u8,
    z: bool,
    /// Samples from one step to the next, and how many are still to come.
    hold: u64,
    wait: u64,
}

impl Lines {
    fn at_rest(random: &mut Random) -> Lines {
        Lines { motion: Motion::Resting, angle: random.below(4) as u8, z: random.coin(), hold: 1, wait: 1 }
    }

    fn change(&mut self, random: &mut Random) {
        self.motion = match random.below(12) {
            0 => Motion::Resting,
            1..=4 => Motion::Turning(random.pick(&[1, -1])),
            5 | 6 => Motion::Swinging,
            7 | 8 => Motion::Crossing,
            9 => Motion::Jumping,
            10 => Motion::Chattering(random.below(3) as u8),
            _ => Motion::Noise,
        };
        self.hold = if random.coin() { random.between(1, 3) } else { random.between(1, 16) };
        self.wait = self.hold;
    }

    /// The next raw levels, A in bit 0, B in bit 1 and Z in bit 2.
    fn next(&mut self, random: &mut Random) -> u64 {
        self.wait -= 1;
        if self.wait == 0 {
            self.wait = self.hold;
            self.step(random);
        }
        let code = [0, 1, 3, 2][usize::from(self.angle % 4)];
        let levels = code | u64::from(self.z) << 2;
        match self.motion {
            Motion::Chattering(line) => levels ^ u64::from(random.coin()) << line,
            Motion::Noise => random.below(8),
            _ => levels,
        }
    }

    fn step(&mut self, random: &mut Random) {
        match self.motion {
            Motion::Turning(way) => {
                self.angle = self.angle.wrapping_add_signed(way);
                self.z = random.once_in(5);
            }
            Motion::Swinging => {
                self.angle = self.angle.wrapping_add_signed(random.pick(&[1, -1]));
                self.z = random.coin();
            }
            Motion::Crossing => {
                self.angle = self.angle.wrapping_add_signed(random.pick(&[1, -1]));
                self.z = self.angle % 8 < 3;
            }
            Motion::Jumping => {
                self.angle = random.below(4) as u8;
                self.z = random.coin();
            }
            Motion::Resting | Motion::Chattering(_) | Motion::Noise => {}
        }
    }
}

/// An axis number, mostly one of the `axes`. Some others come back to a small one when multiplied by 4 or 32, or cut.
fn axis(random: &mut Random, axes: u64) -> u64 {
    if !random.once_in(16) {
        return random.below(axes.max(1));
    }
    match random.below(4) {
        0 => axes + random.below(3),
        1 => random.pick(&[15, 16, 17]),
        2 => u64::MAX - random.below(17),
        _ => (1 << random.between(5, 63)) + random.below(17),
    }
}

/// A number that stands for another once it is cut to 8, 16 or 32 bits, or is as large as can be.
fn overlong(random: &mut Random, small: u64) -> u64 {
    random.pick(&[small + (1 << 8), small + (1 << 16), small + (1 << 32), small + (1 << 63), u64::MAX])
}

/// Kind, depth, width and counts per turn: mostly such as setup takes, or with one of them moved.
fn configuration(random: &mut Random) -> [u64; 4] {
    let axis = rows::axis(random);
    let mut configuration = [axis.kind.number(), axis.depth.into(), axis.width.into(), axis.turn.into()];
    if random.once_in(3) {
        let which = random.below(4) as usize;
        let small = match which {
            0 => random.below(17),
            1 => random.below(10),
            2 => random.below(65),
            _ => random.pick(&[0, 1, (1 << 32) - 1, 1 << 32, (1 << 32) + 1]),
        };
        configuration[which] = if random.once_in(4) { overlong(random, configuration[which]) } else { small };
    }
    configuration
}

fn position(random: &mut Random) -> i64 {
    if random.once_in(6) {
        random.pick(&[i64::MIN, i64::MIN + 1, -LIMIT - 2, -LIMIT - 1, LIMIT + 1, LIMIT + 2, i64::MAX - 1, i64::MAX])
    } else {
        rows::position(random, 0)
    }
}

fn width(random: &mut Random) -> u64 {
    match random.below(8) {
        0 => random.below(65),
        1 => random.pick(&[1, 2, 32, 33, 64, 256 + 8, (1 << 32) + 8, u64::MAX]),
        _ => random.between(2, 32),
    }
}

/// A reading for a counter of `width` bits at `position`: beside the position, about half a turn away, or anywhere.
fn reading(random: &mut Random, width: u32, position: i64) -> u64 {
    let turn = 1 << width;
    let here = position as u64;
    match random.below(8) {
        0 | 1 => here.wrapping_add_signed(random.around(3)) % turn,
        2 | 3 => here.wrapping_add(turn / 2).wrapping_add_signed(random.around(1)) % turn,
        4 => turn - 1 + random.below(3),
        5 => overlong(random, here % turn),
        _ => random.below(turn),
    }
}

fn rate(random: &mut Random) -> u64 {
    match random.below(8) {
        0 => random.pick(&[0, MOST_RATE + 1, (1 << 32) + 1, u64::MAX]),
        1 => MOST_RATE - random.below(2),
        2 | 3 => random.between(1, MOST_RATE),
        4 => 1000,
        _ => random.between(1, 9),
    }
}

fn difference(random: &mut Random) -> i64 {
    let size = match random.below(8) {
        0 => random.pick(&[1 << 31, (1 << 31) + 1, 1 << 32, i64::MAX]),
        1 => (1 << 31) - 1 - random.below(3) as i64,
        2 => i64::MIN,
        3 | 4 => (random.any_size() >> 33) as i64,
        _ => random.below(20) as i64,
    };
    if random.coin() {
        size
    } else {
        size.wrapping_neg()
    }
}

/// A number of samples; over some of them the quotient falls on a half.
fn samples(random: &mut Random) -> u64 {
    match random.below(8) {
        0 => random.pick(&[0, 1 << 32, (1 << 32) + 1, u64::MAX]),
        1 => (1 << 32) - 1 - random.below(3),
        2 => random.between(1, 5),
        3 | 4 => random.pick(&[16, 80, 400]) * random.between(1, 9),
        5 => 2000 * random.between(1, 9) + random.below(2),
        _ => (random.any_size() >> 32).max(1),
    }
}

/// A buffer to save to, with something in it.
fn buffer(random: &mut Random) -> Vec<u8> {
    let length = if random.coin() { random.below(41) } else { random.pick(&[26, 27, 28, 33, 34, 35]) };
    (0..length).map(|_| random.word() as u8).collect()
}

/// The bytes of a record: whole, or damaged once or twice.
fn record(random: &mut Random) -> Vec<u8> {
    let mut record = write_record(&rows::axis(random));
    for _ in 0..random.below(3) {
        damage(random, &mut record);
    }
    record
}

/// Puts bytes over those of a record, as far as it still goes.
fn overwrite(record: &mut [u8], at: usize, bytes: &[u8]) {
    for (old, new) in record.iter_mut().skip(at).zip(bytes) {
        *old = *new;
    }
}

/// Damages a record in one way. A value that is put in can also be a good one.
fn damage(random: &mut Random, record: &mut Vec<u8>) {
    let at = random.below(record.len() as u64 + 1) as usize;
    match random.below(9) {
        0 => overwrite(record, at, &[random.word() as u8]),
        1 => record.iter_mut().skip(at).take(1).for_each(|byte| *byte ^= 1 << random.below(8)),
        2 => record.truncate(at),
        3 => record.extend((0..random.between(1, 8)).map(|_| random.pick(&[0, 0x7f, 0xff]))),
        4 => overwrite(record, 3, &random.pick(&[[0, 0], [0, 2], [1, 0], [1, 1], [0xff, 0xff]])),
        5 => {
            overwrite(record, 8, &[random.pick(&[0, 1, 2, 3, 4, 5, 8, 12, 16, 0x84, 0xff])]);
            record.truncate(random.pick(&[8, 9, 10, 27, 34]));
        }
        6 => overwrite(record, 12, &position(random).to_be_bytes()),
        7 => overwrite(record, 23, &[random.pick(&[0, 1, 2, 8, 9, 31, 32, 33, 0xff])]),
        _ => {
            record.truncate(random.pick(&[0, 3, 5, 8, 9]));
            record.extend((0..random.below(32)).map(|_| random.word() as u8));
        }
    }
}
