//! Random records of a whole table: good ones, ones whose entries are out of order, repeated or missing, and ones that are
//! damaged in every other way.

use crate::call::MOST_BYTES;
use crate::random::Random;
use crate::reference::{put_axis, put_field, write_record, Axis, MOST_AXES};
use crate::rows;
use crate::whole::write_table;

/// Where the values of an entry stand in it: the axis's number, its kind, its position, its depth or its width.
const NUMBER: usize = 3;
const KIND: usize = 7;
const POSITION: usize = 11;
const DEPTH: usize = 22;
/// Where the fields of an entry begin; one of a counter ends before the last.
const FIELDS: [usize; 5] = [0, 4, 8, 19, 23];

/// A record in parts, so that they can be moved about.
struct Draft {
    layout: [u8; 2],
    count: u8,
    entries: Vec<Vec<u8>>,
    tail: Vec<u8>,
}

impl Draft {
    /// Of axes with these numbers.
    fn new(random: &mut Random, numbers: &[u8]) -> Draft {
        let entries = numbers.iter().map(|&number| entry(number, &rows::axis(random))).collect();
        Draft { layout: [0, 2], count: numbers.len() as u8, entries, tail: vec![0x7f, 0, 0] }
    }

    fn bytes(&self) -> Vec<u8> {
        let mut bytes = Vec::new();
        put_field(&mut bytes, 1, &self.layout);
        put_field(&mut bytes, 8, &[self.count]);
        bytes.extend(self.entries.concat());
        bytes.extend(&self.tail);
        bytes.truncate(MOST_BYTES);
        bytes
    }
}

fn entry(number: u8, axis: &Axis) -> Vec<u8> {
    let mut entry = Vec::with_capacity(30);
    put_field(&mut entry, 9, &[number]);
    put_axis(&mut entry, axis);
    entry
}

/// Numbers that ascend: of a table of so many axes, or any.
fn numbers(random: &mut Random, axes: u64) -> Vec<u8> {
    let axes = axes.clamp(1, MOST_AXES as u64) as u8;
    if random.once_in(5) {
        let mut numbers: Vec<u8> = (0..random.below(19)).map(|_| random.word() as u8).collect();
        numbers.sort_unstable();
        numbers.dedup();
        return numbers;
    }
    let most = match random.below(8) {
        0 => random.between(1, MOST_AXES as u64) as u8,
        1 => axes + random.below(3) as u8,
        _ => axes,
    };
    match random.below(8) {
        0 => Vec::new(),
        1 => (0..most).collect(),
        2 => vec![random.below(most.into()) as u8],
        3 => vec![most - 1],
        _ => (0..most).filter(|_| random.coin()).collect(),
    }
}

/// The bytes of a record for a table of so many axes: as often as not a good one, else flawed once or twice.
pub fn table_record(random: &mut Random, axes: u64) -> Vec<u8> {
    let numbers = numbers(random, axes);
    let mut draft = Draft::new(random, &numbers);
    if random.coin() {
        return draft.bytes();
    }
    // A flaw in the parts, in the bytes, or in both: then it is the first from the left that counts.
    let which = random.below(3);
    if which != 1 {
        for _ in 0..random.between(1, 2) {
            rearrange(random, &mut draft);
        }
    }
    let mut bytes = draft.bytes();
    if which != 0 {
        damage(random, &mut bytes);
    }
    bytes.truncate(MOST_BYTES);
    bytes
}

/// One of the entries, if there is any.
fn some_entry<'a>(random: &mut Random, draft: &'a mut Draft) -> Option<&'a mut Vec<u8>> {
    let at = random.below(draft.entries.len().max(1) as u64) as usize;
    draft.entries.get_mut(at)
}

/// Moves, repeats or drops a part, or puts another value into one. What comes of it can also be a good record.
fn rearrange(random: &mut Random, draft: &mut Draft) {
    let entries = draft.entries.len();
    let (one, other) = (random.below(entries.max(1) as u64) as usize, random.below(entries.max(1) as u64) as usize);
    match random.below(14) {
        0 if entries > 1 => draft.entries.swap(one, other),
        1 if entries > 1 => draft.entries.swap(one.min(entries - 2), one.min(entries - 2) + 1),
        2 if entries > 0 => {
            // The same axis twice: the very same entry, or another with its number.
            let mut again = draft.entries[one].clone();
            if random.coin() {
                again = entry(again[NUMBER], &rows::axis(random));
            }
            draft.entries.insert(one, again);
            draft.count = draft.count.wrapping_add(random.below(2) as u8);
        }
        3 if entries > 0 => {
            draft.entries.remove(one);
        }
        4 if entries > 1 => draft.entries[one][NUMBER] = draft.entries[other][NUMBER],
        5 => draft.count = draft.count.wrapping_add(random.pick(&[1, 255, 2])),
        6 => draft.count = random.pick(&[0, 1, 15, 16, 17, 18, 32, 128, 255]),
        7 => {
            let number = random.pick(&[0, 1, 14, 15, 16, 17, 31, 127, 128, 254, 255]);
            if let Some(entry) = some_entry(random, draft) {
                entry[NUMBER] = number;
            }
        }
        8 | 9 => bad_value(random, draft),
        10 => {
            // Two fields of an entry change places, or one of them is missing.
            let (from, drop) = (random.below(4) as usize, random.coin());
            if let Some(entry) = some_entry(random, draft) {
                let ends = FIELDS.map(|at| at.min(entry.len()));
                let (first, second, after) = (ends[from], ends[from + 1], *ends.get(from + 2).unwrap_or(&entry.len()));
                let moved = entry[first..second].to_vec();
                let mut changed = [&entry[..first], &entry[second..after]].concat();
                if !drop {
                    changed.extend(moved);
                }
                changed.extend(&entry[after..]);
                *entry = changed;
                entry.resize(entry.len().max(DEPTH + 1), 0);
            }
        }
        11 => {
            draft.tail = match random.below(4) {
                0 => Vec::new(),
                1 => vec![0x7f, 0, 0, random.word() as u8],
                2 => [&[0x7f, 0, 0][..], &entry(random.word() as u8, &rows::axis(random)), &[0x7f, 0, 0]].concat(),
                _ => vec![random.pick(&[0x7e, 0x7f, 8, 9]), 0, random.below(2) as u8],
            };
        }
        12 => draft.layout = random.pick(&[[0, 0], [0, 1], [0, 3], [1, 2], [2, 0], [2, 2], [0xff, 0xff]]),
        _ => {
            // A seventeenth axis and more, counted or not.
            let from = draft.entries.last().map_or(0, |last| last[NUMBER].wrapping_add(1));
            let to = random.pick(&[16, 17, 18]);
            let more: Vec<Vec<u8>> = (0..to.max(entries) - entries)
                .map(|at| entry(from.wrapping_add(at as u8), &rows::axis(random)))
                .collect();
            draft.entries.extend(more);
            draft.count = random.pick(&[16, draft.entries.len() as u8]);
        }
    }
}

/// Puts a value at or past a limit into an entry.
fn bad_value(random: &mut Random, draft: &mut Draft) {
    let kind = random.pick(&[0, 1, 2, 3, 4, 5, 8, 12, 16, 0x84, 0xff]);
    let top: i64 = 1 << 62;
    let position = random.pick(&[top - 1, top, top + 1, -top, 1 - top, -top - 1, i64::MAX, i64::MIN]);
    let small = random.pick(&[0, 1, 2, 8, 9, 31, 32, 33, 0x80, 0xff]);
    let which = random.below(4);
    let Some(entry) = some_entry(random, draft) else {
        return;
    };
    match which {
        0 => entry[KIND] = kind,
        1 => entry[POSITION..POSITION + 8].copy_from_slice(&position.to_be_bytes()),
        _ => entry[DEPTH] = small,
    }
}

/// Damages the bytes of a record, wherever that may be.
fn damage(random: &mut Random, record: &mut Vec<u8>) {
    let at = random.below(record.len() as u64 + 1) as usize;
    match random.below(8) {
        0 | 1 => record.truncate(at),
        2 => record.truncate(random.pick(&[0, 1, 3, 4, 5, 6, 8, 9, 12])),
        3 => record.iter_mut().skip(at).take(1).for_each(|byte| *byte ^= 1 << random.below(8)),
        4 => record.iter_mut().skip(at).take(1).for_each(|byte| *byte = random.word() as u8),
        5 => record.extend((0..random.between(1, 8)).map(|_| random.pick(&[0, 0x7f, 0xff]))),
        6 => record.insert(at, random.pick(&[0, 1, 2, 8, 9, 0x7f, 0xff])),
        _ => {
            record.truncate(at);
            record.extend((0..random.below(40)).map(|_| random.pick(&[0, 0, 1, 1, 2, 3, 4, 8, 9, 0x7f])));
        }
    }
}

/// A record of any layout, for a test of both: of a table, of one axis, or of a third.
pub fn any_record(random: &mut Random, axes: u64) -> Vec<u8> {
    match random.below(6) {
        0 => {
            let mut record = write_record(&rows::axis(random));
            for _ in 0..random.below(2) {
                damage(random, &mut record);
            }
            record
        }
        1 => {
            let mut record = if random.coin() { write_record(&rows::axis(random)) } else { table_record(random, axes) };
            let layout = random.pick(&[[0, 0], [0, 1], [0, 2], [0, 3], [1, 1], [2, 2], [0xff, 0xff]]);
            record.iter_mut().skip(3).zip(layout).for_each(|(old, new)| *old = new);
            record
        }
        _ => table_record(random, axes),
    }
}

/// A buffer to save a table to, with something in it: about as long as the record of these axes, or of any length.
pub fn table_buffer(random: &mut Random, axes: &[(u8, Axis)]) -> Vec<u8> {
    let enough = write_table(axes).len() as u64;
    let length = match random.below(8) {
        0 | 1 => enough,
        2 | 3 => enough - 1,
        4 => enough + random.below(20),
        5 => MOST_BYTES as u64,
        6 => random.below(enough),
        _ => random.below(MOST_BYTES as u64),
    };
    (0..length).map(|_| random.word() as u8).collect()
}
