// Damaged records, judged three times: by the proved record test and by a proved restore, through the C ABI, and by an independent reading
// of docs/RULES.md, "The saved record". A restore over a broken row has to give a bad record its own reason and a good one OCCUPIED; into
// the same row, erased, it has to answer as the test does. A refused restore has to keep the row. An accepted one has to leave the row that
// the record stands for, which has to be saved as the same bytes again and to be OCCUPIED from then on. Then the same of damaged records of
// a whole table. All of them are judged by the test of both layouts, too. Prints a line of counts and `no difference` for each layout, or the
// first slice on which they differ, and then exits with 1.
use std::collections::{BTreeSet, VecDeque};
use std::process::exit;

use ubrenchip::c::{
    ubrenchip_erase, ubrenchip_restore, ubrenchip_restore_table, ubrenchip_save,
    ubrenchip_save_table, ubrenchip_test_any, ubrenchip_test_record, Answer,
};

const SEED: u64 = 0x1d0c_5eed;
const RANDOM_PER_RECORD: usize = 3000;

const AXIS: u32 = 2;
const VALUE: u32 = 6;
const LAYOUT: u32 = 11;
const RECORD: u32 = 12;
const OCCUPIED: u32 = 13;

type Row = [u64; 4];

fn tested(slice: &[u8]) -> Answer {
    // The slice is alive during the call, which only reads it.
    unsafe { ubrenchip_test_record(slice.as_ptr(), slice.len()) }
}

fn tested_by_both(slice: &[u8]) -> Answer {
    // The same.
    unsafe { ubrenchip_test_any(slice.as_ptr(), slice.len()) }
}

// The row that an accepted slice stands for.
fn stands_for(slice: &[u8]) -> Row {
    let kind = u64::from(slice[8]);
    let position = u64::from_be_bytes(slice[12..20].try_into().unwrap());
    let depth_or_width = u64::from(slice[23]);
    let (shift, turn) = match kind {
        8 => (8, 0),
        _ => (4, u32::from_be_bytes(slice[27..31].try_into().unwrap())),
    };
    [
        position.wrapping_add(1 << 62),
        kind | depth_or_width << shift,
        0,
        turn.into(),
    ]
}

// What a restore into a row answers, and the row it leaves.
fn restored(row: Row, slice: &[u8]) -> (Answer, Row) {
    let mut after = row;
    // The row and the slice are alive during the call and do not overlap.
    let answer = unsafe {
        ubrenchip_restore(
            after.as_mut_ptr(),
            after.len(),
            0,
            slice.as_ptr(),
            slice.len(),
        )
    };
    (answer, after)
}

// A row after an erase.
fn erased(row: Row) -> Row {
    let mut after = row;
    // The row is alive during the call.
    let answer = unsafe { ubrenchip_erase(after.as_mut_ptr(), after.len(), 0) };
    assert_eq!(answer, no(0));
    after
}

// Whether a row is saved as these bytes.
fn is_saved_as(row: Row, slice: &[u8]) -> bool {
    let mut buffer = [0; 40];
    // The row and the buffer are alive during the call and do not overlap.
    let saved = unsafe {
        ubrenchip_save(
            row.as_ptr(),
            row.len(),
            0,
            buffer.as_mut_ptr(),
            buffer.len(),
        )
    };
    saved.refusal == 0 && saved.value as usize == slice.len() && buffer.starts_with(slice)
}

// Whether a restore over a row that is not empty refuses the slice for its own reason, or as OCCUPIED if it has none, and keeps the row.
fn keeps(row: Row, slice: &[u8], theirs: Answer) -> bool {
    let refusal = if theirs == no(0) {
        no(OCCUPIED)
    } else {
        theirs
    };
    restored(row, slice) == (refusal, row)
}

// What a restore into an erased row answers, which held a broken one, and whether every restore left what it should.
fn restored_after_erase(slice: &[u8], theirs: Answer) -> (Answer, bool) {
    let broken = [u64::MAX; 4];
    let empty = erased(broken);
    let (answer, row) = restored(empty, slice);
    let left = match answer.refusal {
        0 => row == stands_for(slice) && is_saved_as(row, slice) && keeps(row, slice, theirs),
        _ => row == empty,
    };
    (
        answer,
        empty == [0; 4] && left && keeps(broken, slice, theirs),
    )
}

// A refusal, or with 0 none; neither has a value.
fn no(refusal: u32) -> Answer {
    Answer {
        refusal,
        found: 0,
        value: 0,
    }
}

// The independent reading: the shape of a record as a table of tags and lengths.
fn judged(slice: &[u8]) -> Answer {
    if slice.len() >= 5 && slice[..3] == [1, 0, 2] {
        let number = u16::from_be_bytes([slice[3], slice[4]]);
        if number != 1 {
            return Answer {
                found: number.into(),
                ..no(LAYOUT)
            };
        }
    }
    if slice.len() < 9 || slice[..3] != [1, 0, 2] || slice[5..8] != [2, 0, 1] {
        return no(RECORD);
    }
    let sampled: &[(u8, u8)] = &[(3, 8), (4, 1), (6, 4), (0x7f, 0)];
    let counter: &[(u8, u8)] = &[(3, 8), (5, 1), (0x7f, 0)];
    let (shape, limits) = match slice[8] {
        1 | 2 | 4 => (sampled, 1..=8),
        8 => (counter, 2..=32),
        _ => return no(VALUE),
    };
    let mut rest = &slice[9..];
    let mut values = Vec::new();
    for &(tag, length) in shape {
        let end = 3 + usize::from(length);
        if rest.len() < end || rest[..3] != [tag, 0, length] {
            return no(RECORD);
        }
        values.push(&rest[3..end]);
        rest = &rest[end..];
    }
    if !rest.is_empty() {
        return no(RECORD);
    }
    let position = i64::from_be_bytes(values[0].try_into().unwrap());
    if position.unsigned_abs() >= 1 << 62 || !limits.contains(&values[1][0]) {
        return no(VALUE);
    }
    no(0)
}

// The layout number that a slice opens with.
fn layout(slice: &[u8]) -> Option<u16> {
    match *slice {
        [1, 0, 2, high, low, ..] => Some(u16::from_be_bytes([high, low])),
        _ => None,
    }
}

// The independent reading of a table's record: a list of the fields that have to come, to which each field adds what follows from its
// value. The answer is the refusal, or the rows by their axes.
fn judged_table(slice: &[u8]) -> Result<Vec<(u64, Row)>, Answer> {
    if let Some(number) = layout(slice).filter(|&number| number != 2) {
        return Err(Answer {
            found: number.into(),
            ..no(LAYOUT)
        });
    }
    let mut rest = slice;
    let mut rows: Vec<(u64, Row)> = Vec::new();
    let mut to_come = VecDeque::from([(1, 2), (8, 1)]);
    while let Some((tag, length)) = to_come.pop_front() {
        let end = 3 + usize::from(length);
        if rest.len() < end || rest[..3] != [tag, 0, length] {
            return Err(no(RECORD));
        }
        let value = rest[3..end]
            .iter()
            .fold(0, |value, &byte| value << 8 | u64::from(byte));
        rest = &rest[end..];
        let mut unnamed = (0, [0; 4]);
        let (_, row) = rows.last_mut().unwrap_or(&mut unnamed);
        let within = match tag {
            8 => {
                let entries = value as usize;
                to_come.extend([(9, 1), (2, 1)].into_iter().cycle().take(2 * entries));
                to_come.push_back((0x7f, 0));
                entries <= 16
            }
            9 => {
                let ascends = rows.iter().all(|&(before, _)| before < value);
                rows.push((value, [0; 4]));
                ascends
            }
            2 => {
                row[1] = value;
                let fields: &[(u8, u8)] = match value {
                    1 | 2 | 4 => &[(6, 4), (4, 1), (3, 8)],
                    8 => &[(5, 1), (3, 8)],
                    _ => return Err(no(VALUE)),
                };
                fields.iter().for_each(|&field| to_come.push_front(field));
                true
            }
            3 => {
                row[0] = value.wrapping_add(1 << 62);
                (value as i64).unsigned_abs() < 1 << 62
            }
            4 => {
                row[1] |= value << 4;
                (1..=8).contains(&value)
            }
            5 => {
                row[1] |= value << 8;
                (2..=32).contains(&value)
            }
            6 => {
                row[3] = value;
                true
            }
            _ => true,
        };
        if !within {
            return Err(no(VALUE));
        }
    }
    if rest.is_empty() {
        Ok(rows)
    } else {
        Err(no(RECORD))
    }
}

// The independent reading for the test of both layouts.
fn judged_by_both(slice: &[u8]) -> Answer {
    match layout(slice) {
        Some(2) => judged_table(slice).err().unwrap_or(no(0)),
        _ => judged(slice),
    }
}

// What a restore of a whole table answers, and the words that it leaves.
fn restored_table(words: &[u64], slice: &[u8]) -> (Answer, Vec<u64>) {
    let mut after = words.to_vec();
    // The words and the slice are alive during the call and do not overlap.
    let answer = unsafe {
        ubrenchip_restore_table(after.as_mut_ptr(), after.len(), slice.as_ptr(), slice.len())
    };
    (answer, after)
}

// Whether a table is saved as these bytes.
fn table_is_saved_as(words: &[u64], slice: &[u8]) -> bool {
    let mut buffer = [0; 500];
    // The words and the buffer are alive during the call and do not overlap.
    let saved = unsafe {
        ubrenchip_save_table(
            words.as_ptr(),
            words.len(),
            buffer.as_mut_ptr(),
            buffer.len(),
        )
    };
    saved.refusal == 0 && saved.value as usize == slice.len() && buffer.starts_with(slice)
}

// Whether restores of a slice into tables of so many axes answer and leave what they should: into empty rows; over a last row that is
// broken; and, where the slice was restored, over what it left.
fn restores_table(axes: usize, slice: &[u8], theirs: &Result<Vec<(u64, Row)>, Answer>) -> bool {
    let empty = vec![0; 4 * axes];
    let mut broken = empty.clone();
    broken[4 * axes - 1] = 1 << 40;
    let mut full = empty.clone();
    let refusal = match theirs {
        Err(refusal) => Some(*refusal),
        Ok(rows) if rows.iter().any(|&(axis, _)| axis as usize >= axes) => Some(no(AXIS)),
        Ok(rows) => {
            for (axis, row) in rows {
                full[4 * *axis as usize..][..4].copy_from_slice(row);
            }
            None
        }
    };
    let over_broken = restored_table(&broken, slice) == (refusal.unwrap_or(no(OCCUPIED)), broken);
    let into_empty = restored_table(&empty, slice);
    over_broken
        && match refusal {
            Some(refusal) => into_empty == (refusal, empty),
            None => {
                let again = if full == empty { no(0) } else { no(OCCUPIED) };
                into_empty == (no(0), full.clone())
                    && table_is_saved_as(&full, slice)
                    && restored_table(&full, slice) == (again, full)
            }
        }
}

fn field(tag: u8, value: &[u8]) -> Vec<u8> {
    [&[tag, 0, value.len() as u8], value].concat()
}

fn sampled(kind: u8, position: i64, depth: u8, turn: u32) -> Vec<u8> {
    [
        field(1, &[0, 1]),
        field(2, &[kind]),
        field(3, &position.to_be_bytes()),
        field(4, &[depth]),
        field(6, &turn.to_be_bytes()),
        field(0x7f, &[]),
    ]
    .concat()
}

fn counter(position: i64, width: u8) -> Vec<u8> {
    [
        field(1, &[0, 1]),
        field(2, &[8]),
        field(3, &position.to_be_bytes()),
        field(5, &[width]),
        field(0x7f, &[]),
    ]
    .concat()
}

// Records within the limits, of every kind, with the limits themselves among them.
fn good_records() -> Vec<Vec<u8>> {
    let most = (1i64 << 62) - 1;
    let mut records = Vec::new();
    for position in [0, -2, most, -most] {
        for kind in [1, 2, 4] {
            for depth in [1, 3, 8] {
                for turn in [0, 4096, u32::MAX] {
                    records.push(sampled(kind, position, depth, turn));
                }
            }
        }
        for width in [2, 8, 32] {
            records.push(counter(position, width));
        }
    }
    records
}

// The record of a whole table, of axes whose records of one axis are given.
fn table(axes: &[(u8, Vec<u8>)]) -> Vec<u8> {
    let mut record = [field(1, &[0, 2]), field(8, &[axes.len() as u8])].concat();
    for (number, axis) in axes {
        record.extend(field(9, &[*number]));
        record.extend(&axis[5..axis.len() - 3]); // but for the layout and the end
    }
    record.extend(field(0x7f, &[]));
    record
}

// Records of tables: good ones, with no axis up to sixteen; ones with axes that repeat, descend or are too many, and values past limits.
fn tables() -> Vec<Vec<u8>> {
    let most = (1i64 << 62) - 1;
    let axis = |number: u8| match number % 4 {
        0 => sampled(4, -2, 3, 4096),
        1 => sampled(1, most, 8, u32::MAX),
        2 => counter(70_000, 12),
        _ => counter(-most, 32),
    };
    let of = |numbers: &[u8]| {
        let axes: Vec<_> = numbers
            .iter()
            .map(|&number| (number, axis(number)))
            .collect();
        table(&axes)
    };
    let all: Vec<u8> = (0..16).collect();
    let sampled_alone: Vec<_> = all
        .iter()
        .map(|&number| (number, sampled(2, number.into(), 1, 0)))
        .collect();
    vec![
        of(&[]),
        of(&[0]),
        of(&[2]),
        of(&[0, 2]),
        of(&[1, 3, 15]),
        of(&[0, 16, 255]),
        of(&all),
        table(&sampled_alone),
        of(&[2, 0]),
        of(&[5, 5]),
        of(&[0, 1, 1, 2]),
        of(&(0..17).collect::<Vec<u8>>()),
        table(&[(0, sampled(4, most + 1, 3, 4096)), (1, counter(5, 12))]),
        table(&[(0, counter(5, 33)), (1, sampled(4, 5, 9, 0))]),
        table(&[(1, sampled(3, 5, 1, 0))]),
    ]
}

// Right shapes around values just past their limits.
fn past_limits() -> Vec<Vec<u8>> {
    let past = 1i64 << 62;
    let mut records = Vec::new();
    for position in [past, -past, past + 1, i64::MIN, i64::MAX] {
        records.push(sampled(4, position, 3, 4096));
        records.push(counter(position, 8));
    }
    for depth in [0, 9, 255] {
        records.push(sampled(1, 5, depth, 1));
    }
    for width in [0, 1, 33, 255] {
        records.push(counter(5, width));
    }
    for kind in [0, 3, 5, 6, 7, 8, 9, 16, 255] {
        records.push(sampled(kind, 5, 3, 1));
    }
    records
}

// The upper bits of a linear congruence: the same numbers on every machine.
struct Random(u64);

impl Random {
    fn below(&mut self, n: usize) -> usize {
        self.0 = self
            .0
            .wrapping_mul(6364136223846793005)
            .wrapping_add(1442695040888963407);
        (self.0 >> 33) as usize % n
    }
}

fn changed(record: &[u8], slices: &mut BTreeSet<Vec<u8>>) {
    for at in 0..record.len() {
        let old = record[at];
        let values = [
            0,
            1,
            2,
            3,
            4,
            5,
            6,
            7,
            8,
            9,
            16,
            32,
            33,
            0x3f,
            0x40,
            0x7e,
            0x7f,
            0x80,
            0xbf,
            0xc0,
            0xff,
            old ^ 1,
            old ^ 0x80,
            old.wrapping_add(1),
            old.wrapping_sub(1),
        ];
        for value in values {
            let mut slice = record.to_vec();
            slice[at] = value;
            slices.insert(slice);
        }
    }
}

fn resized(record: &[u8], slices: &mut BTreeSet<Vec<u8>>) {
    for length in 0..record.len() {
        slices.insert(record[..length].to_vec());
        slices.insert(record[length..].to_vec());
    }
    for at in 0..=record.len() {
        for value in [0, 1, 2, 8, 0x7f, 0xff] {
            let mut slice = record.to_vec();
            slice.insert(at, value);
            slices.insert(slice);
        }
    }
    slices.insert([record, record].concat());
}

fn at_random(record: &[u8], random: &mut Random, slices: &mut BTreeSet<Vec<u8>>) {
    for _ in 0..RANDOM_PER_RECORD {
        let mut slice = record.to_vec();
        for _ in 0..2 + random.below(3) {
            let at = random.below(slice.len());
            // Half of the new bytes are small, as tags, lengths, kinds and most values are.
            slice[at] = if random.below(2) == 0 {
                random.below(10) as u8
            } else {
                random.below(256) as u8
            };
        }
        match random.below(8) {
            0 => slice.truncate(random.below(slice.len())),
            1 => slice.push(random.below(256) as u8),
            _ => {}
        }
        slices.insert(slice);
    }
}

// Says on which slice the sides differ, and ends the program.
fn differ(slice: &[u8], how: String) -> ! {
    println!("damage: a difference at the slice {slice:02x?}, seed {SEED:#x}");
    println!("{how}");
    exit(1);
}

fn main() {
    one_axis();
    whole_tables();
}

fn whole_tables() {
    let mut slices = BTreeSet::new();
    let mut random = Random(SEED);
    for record in tables() {
        changed(&record, &mut slices);
        resized(&record, &mut slices);
        at_random(&record, &mut random, &mut slices);
        slices.insert(record);
    }
    let (mut accepted, mut layouts, mut misshapen, mut value) = (0, 0, 0, 0);
    for slice in &slices {
        let (test, both) = (tested_by_both(slice), judged_by_both(slice));
        let (alone, one) = (tested(slice), judged(slice));
        let theirs = judged_table(slice);
        let left = [1, 3, 16].map(|axes| restores_table(axes, slice, &theirs));
        if test != both || alone != one || left.contains(&false) {
            let said = format!(
                "tested {test:?}, as of one axis {alone:?}; read from the rules {theirs:?}"
            );
            differ(
                slice,
                format!("{said}; restores in 1, 3 and 16 rows are as they should be: {left:?}"),
            );
        }
        match theirs {
            Ok(_) => accepted += 1,
            Err(refusal) if refusal.refusal == VALUE => value += 1,
            Err(refusal) if refusal.refusal == LAYOUT => layouts += 1,
            Err(_) => misshapen += 1,
        }
    }
    let counts =
        format!("{accepted} accepted, {layouts} LAYOUT, {misshapen} RECORD, {value} VALUE");
    println!(
        "damage: {} slices of tables, {counts}, no difference",
        slices.len()
    );
    if [accepted, layouts, misshapen, value].contains(&0) {
        println!("damage: one of the answers was never given of a table");
        exit(1);
    }
}

fn one_axis() {
    let mut slices = BTreeSet::new();
    let mut random = Random(SEED);
    for record in good_records().into_iter().chain(past_limits()) {
        changed(&record, &mut slices);
        resized(&record, &mut slices);
        at_random(&record, &mut random, &mut slices);
        slices.insert(record);
    }
    let (mut accepted, mut layout, mut misshapen, mut value) = (0, 0, 0, 0);
    for slice in &slices {
        let (test, theirs) = (tested(slice), judged(slice));
        let (restore, left) = restored_after_erase(slice, theirs);
        if test != theirs || restore != theirs || !left {
            differ(slice, format!("tested {test:?}; restored {restore:?}, rows left as they should be: {left}; read from the rules {theirs:?}"));
        }
        let (test, theirs) = (tested_by_both(slice), judged_by_both(slice));
        if test != theirs {
            differ(
                slice,
                format!("tested for both layouts {test:?}; read from the rules {theirs:?}"),
            );
        }
        match theirs.refusal {
            0 => accepted += 1,
            VALUE => value += 1,
            LAYOUT => layout += 1,
            _ => misshapen += 1,
        }
    }
    println!("damage: {} slices, {accepted} accepted, {layout} LAYOUT, {misshapen} RECORD, {value} VALUE, no difference", slices.len());
    if [accepted, layout, misshapen, value].contains(&0) {
        println!("damage: one of the answers was never given");
        exit(1);
    }
}
