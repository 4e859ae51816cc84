//! Every call, done and refused, with what it answers and leaves: the readings of docs/RULES.md,
//! "Readings to hold it against", and each reason of "Reasons for saying no".

use ubrenchip::*;

/// A table in as many words as are lent, its axis 0 erased.
fn freed(words: &mut [u64]) -> Table<'_> {
    let mut table = Table::new(words);
    table.erase(0).unwrap();
    table
}

/// An x4 axis of depth 1, without counts per turn, at axis 0, whatever stood there.
fn counting(words: &mut [u64]) -> Table<'_> {
    let mut table = freed(words);
    table.setup(0, KIND_X4, 1, 0, 0).unwrap();
    table
}

/// A counter of 8 bits at axis 0, at a position, whatever stood there.
fn counter(words: &mut [u64], position: i64) -> Table<'_> {
    let mut table = freed(words);
    table.setup(0, KIND_COUNTER, 0, 8, 0).unwrap();
    table.preset(0, position).unwrap();
    table
}

fn samples(table: &mut Table, ports: &[u64]) {
    for &port in ports {
        table.sample(port).unwrap();
    }
}

/// A speed that is answered, by all its parts.
fn speed(number: i64, remainder: i64, divisor: u64) -> Result<Speed, Refusal> {
    Ok(Speed {
        number,
        remainder,
        divisor,
    })
}

/// What the calls that name an axis of a sound row of any kind answer there.
fn on_any_kind(table: &mut Table, axis: u64) -> [Option<Refusal>; 3] {
    [
        table.view(axis).err(),
        table.preset(axis, 0).err(),
        table.save(axis, &mut [0; 34]).err(),
    ]
}

/// The record of an x4 axis, depth 3, 4096 counts per turn, at position -2.
const RECORD: [u8; 34] = [
    0x01, 0x00, 0x02, 0x00, 0x01, 0x02, 0x00, 0x01, 0x04, 0x03, 0x00, 0x08, 0xff, 0xff, 0xff, 0xff,
    0xff, 0xff, 0xff, 0xfe, 0x04, 0x00, 0x01, 0x03, 0x06, 0x00, 0x04, 0x00, 0x00, 0x10, 0x00, 0x7f,
    0x00, 0x00,
];

/// The record above with one byte changed.
fn changed(at: usize, byte: u8) -> [u8; 34] {
    let mut record = RECORD;
    record[at] = byte;
    record
}

/// The record of a counter of 8 bits at position 250.
const COUNTER_RECORD: [u8; 27] = [
    0x01, 0x00, 0x02, 0x00, 0x01, 0x02, 0x00, 0x01, 0x08, 0x03, 0x00, 0x08, 0x00, 0x00, 0x00, 0x00,
    0x00, 0x00, 0x00, 0xfa, 0x05, 0x00, 0x01, 0x08, 0x7f, 0x00, 0x00,
];

/// The record of a table of three rows: the first axis above, an empty row, and a counter of 12 bits at
/// position 70,000.
const TABLE_RECORD: [u8; 65] = [
    0x01, 0x00, 0x02, 0x00, 0x02, 0x08, 0x00, 0x01, 0x02, // layout 2, two axes
    0x09, 0x00, 0x01, 0x00, 0x02, 0x00, 0x01, 0x04, // axis 0, x4
    0x03, 0x00, 0x08, 0xff, 0xff, 0xff, 0xff, 0xff, 0xff, 0xff, 0xfe, // its position
    0x04, 0x00, 0x01, 0x03, // its depth
    0x06, 0x00, 0x04, 0x00, 0x00, 0x10, 0x00, // its counts per turn
    0x09, 0x00, 0x01, 0x02, 0x02, 0x00, 0x01, 0x08, // axis 2, a counter
    0x03, 0x00, 0x08, 0x00, 0x00, 0x00, 0x00, 0x00, 0x01, 0x11, 0x70, // its position
    0x05, 0x00, 0x01, 0x0c, 0x7f, 0x00, 0x00, // width, the end
];

/// Where the entry of axis 2 begins in that record, and where its end does.
const SECOND: usize = 39;
const END: usize = 62;

/// The words of that table, as a restore leaves them.
const TABLE_WORDS: [u64; 12] = [
    (1 << 62) - 2,
    52,
    0,
    4096,
    0,
    0,
    0,
    0,
    (1 << 62) + 70_000,
    8 | 12 << 8,
    0,
    0,
];

/// The record of a table without an axis.
const NO_AXES: [u8; 12] = [
    0x01, 0x00, 0x02, 0x00, 0x02, 0x08, 0x00, 0x01, 0x00, 0x7f, 0x00, 0x00,
];

/// The record of the table above with one byte changed.
fn changed_table(at: usize, byte: u8) -> Vec<u8> {
    let mut record = TABLE_RECORD.to_vec();
    record[at] = byte;
    record
}

#[test]
fn widen_takes_the_nearest() {
    assert_eq!(widen(8, 250, 3), Ok(259));
    assert_eq!(widen(8, 250, 121), Ok(377));
    assert_eq!(widen(8, 250, 123), Ok(123));
    assert_eq!(widen(8, -1, 0), Ok(0));
    assert_eq!(widen(8, 250, 122), Err(Refusal::Half));
    assert_eq!(widen(8, 250, 256), Err(Refusal::Value));
    assert_eq!(widen(8, POSITION_LIMIT, 0), Err(Refusal::Range));
    assert_eq!(widen(8, POSITION_LIMIT + 1, 0), Err(Refusal::Value));
    for width in [WIDTH_LEAST, WIDTH_MOST] {
        assert_eq!(widen(width, 0, 1), Ok(1));
    }
    for width in [WIDTH_LEAST - 1, WIDTH_MOST + 1] {
        assert_eq!(widen(width, 0, 1), Err(Refusal::Value));
    }
}

#[test]
fn speed_by_count_rounds_halves_away_from_zero() {
    assert_eq!(speed_by_count(1, 3, 1), speed(333, 1, 3));
    assert_eq!(speed_by_count(2, 3, 1), speed(667, -1, 3));
    assert_eq!(speed_by_count(-2, 3, 1), speed(-667, 1, 3));
    assert_eq!(speed_by_count(-1, 2000, 1), speed(-1, 1000, 2000));
    assert_eq!(speed_by_count(1, 2000, 1), speed(1, -1000, 2000));
    assert_eq!(speed_by_count(1, 2001, 1), speed(0, 1000, 2001));
    assert_eq!(speed_by_count(-1, 2001, 1), speed(0, -1000, 2001));
    assert_eq!(speed_by_count(1, 0, 1), Err(Refusal::Value));
    let most = 1000 * DIFFERENCE_LIMIT * RATE_LIMIT as i64;
    assert_eq!(
        speed_by_count(DIFFERENCE_LIMIT, 1, RATE_LIMIT),
        speed(most, 0, 1)
    );
    assert_eq!(
        speed_by_count(-DIFFERENCE_LIMIT, 1, RATE_LIMIT),
        speed(-most, 0, 1)
    );
    assert_eq!(
        speed_by_count(1, SAMPLES_LIMIT, RATE_LIMIT),
        speed(0, 1_000_000_000, SAMPLES_LIMIT)
    );
    assert_eq!(
        speed_by_count(-DIFFERENCE_LIMIT, SAMPLES_LIMIT, RATE_LIMIT),
        speed(-500_000_000, 500_000_000, SAMPLES_LIMIT)
    );
    assert_eq!(
        speed_by_count(DIFFERENCE_LIMIT + 1, 1, 1),
        Err(Refusal::Value)
    );
    assert_eq!(speed_by_count(1, SAMPLES_LIMIT + 1, 1), Err(Refusal::Value));
    assert_eq!(speed_by_count(1, 1, RATE_LIMIT + 1), Err(Refusal::Value));
}

#[test]
fn numbers_and_remainders_add_up() {
    for (samples, rate) in [(1, 1), (3, 1), (2000, 1), (16, 999_999), (4_000_000_000, 7)] {
        let (mut counts, mut numbers, mut remainders) = (0, 0, 0);
        for difference in -500..1000 {
            let speed = speed_by_count(difference, samples, rate).unwrap();
            assert_eq!(speed.divisor, samples);
            counts += difference;
            numbers += speed.number;
            remainders += speed.remainder;
            assert_eq!(
                numbers * samples as i64 + remainders,
                1000 * counts * rate as i64
            );
        }
    }
}

#[test]
fn test_record_takes_whole_records_alone() {
    assert_eq!(test_record(&RECORD), Ok(()));
    assert_eq!(test_record(&COUNTER_RECORD), Ok(()));
    assert_eq!(test_record(&[]), Err(Refusal::Record));
    assert_eq!(test_record(&RECORD[..33]), Err(Refusal::Record));
    for (at, byte, refusal) in [
        (3, 0xff, Refusal::Layout { found: 0xff01 }),
        (5, 3, Refusal::Record),
        (8, 3, Refusal::Value),
        (23, 9, Refusal::Value),
    ] {
        assert_eq!(test_record(&changed(at, byte)), Err(refusal));
    }
}

#[test]
fn sample_counts_by_kind() {
    for (kind, position) in [(KIND_X4, 4), (KIND_X2, 2), (KIND_X1, 1)] {
        let mut words = [0; 4];
        let mut table = Table::new(&mut words);
        table.setup(0, kind, 1, 0, 0).unwrap();
        samples(&mut table, &[0, 1, 3, 2, 0]);
        let view = table.view(0).unwrap();
        assert_eq!(
            (view.kind, view.position, view.primed),
            (kind, position, true)
        );
    }
}

#[test]
fn sample_marks_axes_by_their_bits() {
    let mut words = [0; 12];
    words[11] = 1; // no call leaves that in a row
    let mut table = counting(&mut words);
    table.setup(1, KIND_X4, 1, 0, 0).unwrap();
    let quiet = Sampled {
        doubles: 0,
        index: 0,
        broken: 4,
    };
    assert_eq!(table.sample(0x000), Ok(quiet));
    assert_eq!(
        table.sample(0x030),
        Ok(Sampled {
            doubles: 2,
            ..quiet
        })
    );
    assert_eq!(table.sample(0x035), Ok(Sampled { index: 1, ..quiet }));
    assert_eq!(table.sample(0x025), Ok(quiet));
    let view = table.view(1).unwrap();
    assert_eq!((view.doubles, view.position), (1, 1));
    assert_eq!(table.words()[8..], [0, 0, 0, 1]);
}

#[test]
fn sample_filters() {
    let mut words = [0; 4];
    let mut table = Table::new(&mut words);
    table.setup(0, KIND_X4, 3, 0, 0).unwrap();
    samples(&mut table, &[0, 1, 1, 0, 1, 1]);
    assert_eq!(table.view(0).unwrap().position, 0);
    samples(&mut table, &[1]);
    assert_eq!(table.view(0).unwrap().position, 1);
}

#[test]
fn sample_holds_at_the_end_of_the_range() {
    let mut words = [0; 4];
    let mut table = counting(&mut words);
    table.preset(0, POSITION_LIMIT).unwrap();
    samples(&mut table, &[0, 1]);
    let view = table.view(0).unwrap();
    assert_eq!((view.position, view.range), (POSITION_LIMIT, true));
    samples(&mut table, &[0]);
    let view = table.view(0).unwrap();
    assert_eq!((view.position, view.range), (POSITION_LIMIT - 1, true));
}

#[test]
fn setup_writes_the_row() {
    let mut words = [0; 4];
    let mut table = Table::new(&mut words);
    for (kind, depth, width, turn) in [
        (3, 3, 0, 0),
        (KIND_X4, DEPTH_LEAST - 1, 0, 0),
        (KIND_X4, DEPTH_MOST + 1, 0, 0),
        (KIND_X4, 3, 8, 0),
        (KIND_X4, 3, 0, TURN_LIMIT + 1),
        (KIND_COUNTER, 0, WIDTH_LEAST - 1, 0),
        (KIND_COUNTER, 0, WIDTH_MOST + 1, 0),
        (KIND_COUNTER, 3, 8, 0),
        (KIND_COUNTER, 0, 8, 4096),
    ] {
        assert_eq!(
            table.setup(0, kind, depth, width, turn),
            Err(Refusal::Value)
        );
    }
    assert_eq!(table.words(), [0; 4]);
    assert_eq!(table.setup(0, KIND_X4, 3, 0, 4096), Ok(()));
    assert_eq!(table.words(), [1 << 62, 52, 0, 4096]);
    for depth in [DEPTH_LEAST, DEPTH_MOST] {
        assert_eq!(table.erase(0), Ok(()));
        assert_eq!(table.setup(0, KIND_X1, depth, 0, TURN_LIMIT), Ok(()));
        assert_eq!(table.words(), [1 << 62, 1 | depth << 4, 0, TURN_LIMIT]);
    }
    for width in [WIDTH_LEAST, WIDTH_MOST] {
        assert_eq!(table.erase(0), Ok(()));
        assert_eq!(table.setup(0, KIND_COUNTER, 0, width, 0), Ok(()));
        assert_eq!(table.words(), [1 << 62, 8 | width << 8, 0, 0]);
    }
}

/// Holds a row to be occupied: a setup says so before it looks at its numbers, a restore after it has
/// looked at its record, and no word changes. Once it is erased, both are done.
fn is_occupied(row: [u64; WORDS_A_ROW]) {
    let mut words = row;
    let mut table = Table::new(&mut words);
    for depth in [DEPTH_LEAST, DEPTH_MOST + 1] {
        assert_eq!(
            table.setup(0, KIND_X4, depth, 0, 0),
            Err(Refusal::Occupied),
            "{row:x?}"
        );
    }
    for (record, refusal) in [
        (&RECORD[..], Refusal::Occupied),
        (&COUNTER_RECORD[..], Refusal::Occupied),
        (&changed(4, 7)[..], Refusal::Layout { found: 7 }),
        (&changed(23, 9)[..], Refusal::Value),
        (&RECORD[..33], Refusal::Record),
    ] {
        assert_eq!(table.restore(0, record), Err(refusal), "{row:x?}");
    }
    assert_eq!(table.words(), row);
    assert_eq!(freed(&mut words).setup(0, KIND_X4, 1, 0, 0), Ok(()));
    assert_eq!(freed(&mut words).restore(0, &RECORD), Ok(()));
}

#[test]
fn a_row_that_is_not_empty_is_occupied() {
    let mut words = [0; WORDS_A_ROW];
    samples(&mut counting(&mut words), &[0, 1, 3]);
    is_occupied(words);
    counter(&mut words, 250);
    is_occupied(words);
    is_occupied([u64::MAX; WORDS_A_ROW]);
    for bit in 0..256 {
        words = [0; WORDS_A_ROW];
        words[bit / 64] = 1 << (bit % 64);
        is_occupied(words);
    }
}

#[test]
fn erase_empties_any_row() {
    let mut words = [u64::MAX; 8];
    let mut table = Table::new(&mut words);
    assert_eq!(table.erase(2), Err(Refusal::Axis));
    assert_eq!(table.erase(1), Ok(()));
    assert_eq!(table.words()[..4], [u64::MAX; 4]);
    assert_eq!(table.words()[4..], [0; 4]);
}

#[test]
fn preset_sets_the_position() {
    let mut words = [0; 4];
    let mut table = counting(&mut words);
    assert_eq!(table.preset(0, -POSITION_LIMIT), Ok(()));
    assert_eq!(table.preset(0, -POSITION_LIMIT - 1), Err(Refusal::Value));
    assert_eq!(table.preset(0, POSITION_LIMIT + 1), Err(Refusal::Value));
    assert_eq!(table.view(0).unwrap().position, -POSITION_LIMIT);
}

#[test]
fn arm_and_acknowledge() {
    let mut words = [0; 4];
    let mut table = Table::new(&mut words);
    table.setup(0, KIND_X4, 1, 0, 3).unwrap();
    table.preset(0, 100).unwrap();
    assert_eq!(table.arm(0), Ok(()));
    assert!(table.view(0).unwrap().armed);
    // A reference edge homes; Z falls on a step forward, which is none; the next one is off a turn.
    samples(&mut table, &[0, 5, 3, 6]);
    samples(&mut table, &[1]); // both lines at once
    let view = View {
        kind: KIND_X4,
        position: 2,
        primed: true,
        armed: false,
        homed: true,
        range: false,
        index: true,
        doubles: 1,
    };
    assert_eq!(table.view(0), Ok(view));
    assert_eq!(table.acknowledge(0), Ok(()));
    assert_eq!(
        table.view(0),
        Ok(View {
            index: false,
            doubles: 0,
            ..view
        })
    );

    let mut table = counter(&mut words, 5);
    assert_eq!(table.arm(0), Err(Refusal::Kind));
    assert_eq!(table.acknowledge(0), Err(Refusal::Kind));
}

#[test]
fn arm_homes_at_one_angle_from_either_side() {
    let mut words = [0; 8];
    let mut table = Table::new(&mut words);
    for (axis, position) in [(0, 100), (1, -100)] {
        table.setup(axis, KIND_X4, 1, 0, 4).unwrap();
        table.preset(axis, position).unwrap();
    }
    let quiet = Sampled {
        doubles: 0,
        index: 0,
        broken: 0,
    };
    let edge = Sampled { index: 3, ..quiet };
    // One shaft on both axes: forward over the mark, and back.
    table.arm(0).unwrap();
    let forward = [0x00, 0x55, 0x77, 0x22].map(|port| table.sample(port));
    assert_eq!(forward, [quiet, edge, quiet, quiet].map(Ok));
    assert_eq!(table.view(0).unwrap().position, 2);
    table.arm(1).unwrap();
    let back = [0x77, 0x55, 0x00].map(|port| table.sample(port));
    assert_eq!(back, [quiet, quiet, edge].map(Ok));
    for axis in [0, 1] {
        let view = table.view(axis).unwrap();
        assert_eq!((view.position, view.homed, view.index), (-1, true, false));
    }
}

#[test]
fn view_shows_a_counter() {
    let mut words = [0; 4];
    let table = counter(&mut words, -7);
    let view = View {
        kind: KIND_COUNTER,
        position: -7,
        primed: false,
        armed: false,
        homed: false,
        range: false,
        index: false,
        doubles: 0,
    };
    assert_eq!(table.view(0), Ok(view));
}

#[test]
fn doubles_stay_at_their_limit() {
    let mut words = [0; 4];
    let mut table = counting(&mut words);
    for _ in 0..DOUBLES_LIMIT {
        samples(&mut table, &[0, 3]);
    }
    assert_eq!(table.view(0).unwrap().doubles, DOUBLES_LIMIT);
}

#[test]
fn reading_stores_the_nearest() {
    for (position, reading, wide) in [(250, 3, 259), (250, 121, 377), (250, 123, 123), (-1, 0, 0)] {
        let mut words = [0; 4];
        let mut table = counter(&mut words, position);
        assert_eq!(table.reading(0, reading), Ok(wide));
        assert_eq!(table.view(0).unwrap().position, wide);
    }
    let mut words = [0; 4];
    let mut table = counter(&mut words, 250);
    assert_eq!(table.reading(0, 122), Err(Refusal::Half));
    assert_eq!(table.reading(0, 256), Err(Refusal::Value));
    assert_eq!(table.view(0).unwrap().position, 250);
    table.preset(0, POSITION_LIMIT).unwrap();
    assert_eq!(table.reading(0, 0), Err(Refusal::Range));
    assert_eq!(table.view(0).unwrap().position, POSITION_LIMIT);
    assert_eq!(counting(&mut words).reading(0, 3), Err(Refusal::Kind));
}

#[test]
fn speed_by_period_of_steps_five_samples_apart() {
    let mut words = [0; 4];
    let mut table = counting(&mut words);
    assert_eq!(table.speed_by_period(0, 1000), Err(Refusal::NoPeriod));
    samples(&mut table, &[0, 1, 1, 1, 1, 1, 3, 3, 3, 3, 3, 2]);
    assert_eq!(table.speed_by_period(0, 1000), speed(200_000, 0, 5));
    assert_eq!(table.speed_by_period(0, 0), Err(Refusal::Value));
    assert_eq!(
        table.speed_by_period(0, RATE_LIMIT),
        speed(200_000_000, 0, 5)
    );
    assert_eq!(
        table.speed_by_period(0, RATE_LIMIT + 1),
        Err(Refusal::Value)
    );
    samples(&mut table, &[2; 12]);
    assert_eq!(table.speed_by_period(0, 1000), speed(83_333, 4, 12));
    samples(&mut table, &[2; 4]);
    assert_eq!(table.speed_by_period(0, 1), speed(63, -8, 16));
    assert_eq!(
        counter(&mut words, 0).speed_by_period(0, 1000),
        Err(Refusal::Kind)
    );
}

#[test]
fn speed_by_period_backward() {
    let mut words = [0; 4];
    let mut table = counting(&mut words);
    samples(&mut table, &[0, 2, 2, 2, 2, 2, 2, 2, 3]);
    assert_eq!(table.speed_by_period(0, 1), speed(-143, 1, 7));
    samples(&mut table, &[3; 16]);
    assert_eq!(table.speed_by_period(0, 1), speed(-63, 8, 16));
    samples(&mut table, &[2]);
    assert_eq!(table.speed_by_period(0, 1), Err(Refusal::NoPeriod));
}

#[test]
fn save_writes_a_record_and_nothing_beyond() {
    let mut words = [0; 4];
    let mut table = Table::new(&mut words);
    table.setup(0, KIND_X4, 3, 0, 4096).unwrap();
    table.preset(0, -2).unwrap();
    let mut buffer = [0x55; 40];
    assert_eq!(table.save(0, &mut buffer[..33]), Err(Refusal::Room));
    assert_eq!(table.save(0, &mut []), Err(Refusal::Room));
    assert_eq!(buffer, [0x55; 40]);
    assert_eq!(table.save(0, &mut buffer), Ok(RECORD_BYTES_SAMPLED));
    assert_eq!(buffer[..34], RECORD);
    assert_eq!(buffer[34..], [0x55; 6]);

    let table = counter(&mut words, 250);
    assert_eq!(table.save(0, &mut buffer[..26]), Err(Refusal::Room));
    assert_eq!(table.save(0, &mut buffer), Ok(RECORD_BYTES_COUNTER));
    assert_eq!(buffer[..27], COUNTER_RECORD);
    assert_eq!(buffer[27..34], RECORD[27..]);
}

#[test]
fn restore_takes_what_save_wrote() {
    let mut words = [0; 8];
    let mut table = Table::new(&mut words);
    assert_eq!(table.restore(0, &RECORD), Ok(()));
    assert_eq!(table.restore(1, &COUNTER_RECORD), Ok(()));
    let restored = [
        (1 << 62) - 2,
        52,
        0,
        4096,
        (1 << 62) + 250,
        8 | 8 << 8,
        0,
        0,
    ];
    assert_eq!(table.words(), restored);
    assert_eq!(
        table.restore(1, &changed(4, 7)),
        Err(Refusal::Layout { found: 7 })
    );
    assert_eq!(table.restore(1, &RECORD[1..]), Err(Refusal::Record));
    assert_eq!(table.restore(1, &[]), Err(Refusal::Record));
    assert_eq!(table.restore(2, &[]), Err(Refusal::Axis));
    assert_eq!(table.words(), restored);
}

#[test]
fn save_table_writes_every_axis_and_nothing_beyond() {
    let mut words = [0; 12];
    let mut table = Table::new(&mut words);
    table.setup(0, KIND_X4, 3, 0, 4096).unwrap();
    table.preset(0, -2).unwrap();
    table.setup(2, KIND_COUNTER, 0, 12, 0).unwrap();
    table.preset(2, 70_000).unwrap();
    let mut buffer = [0x55; 70];
    for room in [0, 1, 12, 64] {
        assert_eq!(table.save_table(&mut buffer[..room]), Err(Refusal::Room));
    }
    assert_eq!(buffer, [0x55; 70]);
    assert_eq!(table.save_table(&mut buffer[..65]), Ok(65));
    assert_eq!(buffer[..65], TABLE_RECORD);
    assert_eq!(buffer[65..], [0x55; 5]);

    // What an axis has seen since is not in the record.
    table.arm(0).unwrap();
    samples(&mut table, &[0]);
    assert_eq!(table.save_table(&mut buffer), Ok(65));
    assert_eq!(buffer[..65], TABLE_RECORD);
    assert_eq!(buffer[65..], [0x55; 5]);
}

#[test]
fn save_table_of_empty_rows_is_a_record_of_no_axes() {
    for axes in 1..=MOST_AXES {
        let mut words = vec![0; WORDS_A_ROW * axes];
        let table = Table::new(&mut words);
        let mut buffer = [0x55; 13];
        assert_eq!(table.save_table(&mut buffer[..11]), Err(Refusal::Room));
        assert_eq!(buffer, [0x55; 13]);
        assert_eq!(table.save_table(&mut buffer), Ok(12));
        assert_eq!(buffer[..12], NO_AXES);
        assert_eq!(buffer[12], 0x55);
        let mut table = Table::new(&mut words);
        assert_eq!(table.restore_table(&NO_AXES), Ok(()));
        assert_eq!(words, vec![0; WORDS_A_ROW * axes]);
    }
}

#[test]
fn save_table_refuses_a_broken_row_before_room() {
    for axis in 0..3 {
        let mut words = TABLE_WORDS;
        words[WORDS_A_ROW * axis + 2] = 1 << 63;
        let table = Table::new(&mut words);
        let mut buffer = [0x55; RECORD_BYTES_TABLE];
        for room in [0, 12, 65, RECORD_BYTES_TABLE] {
            let saved = table.save_table(&mut buffer[..room]);
            assert_eq!(saved, Err(Refusal::Broken), "axis {axis}, {room} bytes");
        }
        assert_eq!(buffer, [0x55; RECORD_BYTES_TABLE]);
    }
}

#[test]
fn a_full_table_comes_back() {
    let mut words = [0; WORDS_A_ROW * MOST_AXES];
    let mut table = Table::new(&mut words);
    for axis in 0..MOST_AXES as u64 {
        let kind = [KIND_X1, KIND_X2, KIND_X4][axis as usize % 3];
        table
            .setup(axis, kind, 1 + axis % 8, 0, axis * 1000)
            .unwrap();
        table.preset(axis, POSITION_LIMIT - axis as i64).unwrap();
    }
    let fresh = words;
    let mut table = Table::new(&mut words);
    samples(&mut table, &[0, 0, 0, 0, 0, 0, 0, 0]);
    let mut record = [0x55; RECORD_BYTES_TABLE];
    let short = table.save_table(&mut record[..RECORD_BYTES_TABLE - 1]);
    assert_eq!(short, Err(Refusal::Room));
    assert_eq!(record, [0x55; RECORD_BYTES_TABLE]);
    assert_eq!(table.save_table(&mut record), Ok(RECORD_BYTES_TABLE));

    // Over the live axes it is refused, and they keep what they saw.
    let live = table.words().to_vec();
    assert_eq!(table.restore_table(&record), Err(Refusal::Occupied));
    assert_eq!(table.words(), live);
    for axis in 0..MOST_AXES as u64 {
        table.erase(axis).unwrap();
    }
    assert_eq!(table.restore_table(&record), Ok(()));
    assert_eq!(table.words(), fresh);
    let mut again = [0; RECORD_BYTES_TABLE];
    assert_eq!(table.save_table(&mut again), Ok(RECORD_BYTES_TABLE));
    assert_eq!(again, record);
}

#[test]
fn restore_table_takes_what_save_table_wrote() {
    // The table may be longer than the one that was saved, or shorter where all axes find a row.
    for axes in 1..=MOST_AXES {
        let mut words = vec![0; WORDS_A_ROW * axes];
        let mut table = Table::new(&mut words);
        let restored = table.restore_table(&TABLE_RECORD);
        if axes < 3 {
            assert_eq!(restored, Err(Refusal::Axis));
            assert!(words.iter().all(|&word| word == 0));
            continue;
        }
        assert_eq!(restored, Ok(()));
        let mut again = [0; 65];
        assert_eq!(table.save_table(&mut again), Ok(65));
        assert_eq!(again, TABLE_RECORD);
        assert_eq!(words[..12], TABLE_WORDS);
        assert!(words[12..].iter().all(|&word| word == 0));
    }
}

/// Slices that are no record of a table, and why: each has a single fault, or the one that comes first
/// as it is read from the left decides.
fn refused_tables() -> Vec<(&'static str, Vec<u8>, Refusal)> {
    use Refusal::{Layout, Record, Value};
    let third = Layout { found: 0x0302 };
    // The record with some bytes changed, as far as a length.
    let cut: [(_, &[(usize, u8)], _, _); 26] = [
        ("a third layout", &[(3, 3)], 65, third),
        ("its first five bytes", &[(3, 3)], 5, third),
        ("its first four", &[(3, 3)], 4, Record),
        ("another tag first", &[(0, 2)], 65, Record),
        ("another length first", &[(2, 1)], 65, Record),
        ("no field 08", &[(5, 9)], 65, Record),
        ("17 axes", &[(8, 17)], 65, Value),
        ("17 axes, cut behind", &[(8, 17)], 9, Value),
        ("17 axes, cut within", &[(8, 17)], 8, Record),
        ("one axis too few", &[(8, 1)], 65, Record),
        ("one axis too many", &[(8, 3)], 65, Record),
        ("no axes, and two", &[(8, 0)], 65, Record),
        ("an axis twice", &[(SECOND + 3, 0)], 65, Value),
        ("an axis twice, cut", &[(SECOND + 3, 0)], SECOND + 4, Value),
        ("kind 3", &[(16, 3)], 65, Value),
        ("a counter's kind", &[(16, 8)], 65, Record),
        ("a position too far", &[(20, 0x40)], 65, Value),
        ("the same, cut behind it", &[(20, 0x40)], 28, Value),
        ("the same, cut within", &[(20, 0x40)], 27, Record),
        ("the same, no depth", &[(20, 0x40), (28, 5)], 65, Value),
        ("depth 9", &[(31, 9)], 65, Value),
        ("width 33", &[(61, 33)], 65, Value),
        ("width 33, no end", &[(61, 33)], END, Value),
        ("no depth, width 33", &[(28, 5), (61, 33)], 65, Record),
        ("another end", &[(END, 0x7e)], 65, Record),
        (
            "axis 2, then axis 0",
            &[(12, 2), (SECOND + 3, 0)],
            65,
            Value,
        ),
    ];
    let cut = cut.into_iter().map(|(what, changes, length, refusal)| {
        let mut record = TABLE_RECORD;
        for &(at, byte) in changes {
            record[at] = byte;
        }
        (what, record[..length].to_vec(), refusal)
    });
    let (first, second) = (&TABLE_RECORD[9..SECOND], &TABLE_RECORD[SECOND..END]);
    let swapped = [&TABLE_RECORD[..9], second, first, &TABLE_RECORD[END..]].concat();
    let more = [&TABLE_RECORD[..], &[0]].concat();
    let flawed = [&changed_table(31, 9)[..], &[0]].concat();
    let longer = [
        ("axes that descend", swapped, Value),
        ("a byte more", more, Record),
        ("depth 9, and a byte more", flawed, Value),
        ("twice", [TABLE_RECORD; 2].concat(), Record),
    ];
    cut.chain(longer).collect()
}

#[test]
fn restore_table_refuses_and_changes_nothing() {
    let cuts = (0..TABLE_RECORD.len())
        .map(|length| ("cut", TABLE_RECORD[..length].to_vec(), Refusal::Record));
    for (what, record, refusal) in refused_tables().into_iter().chain(cuts) {
        assert_eq!(test_any(&record), Err(refusal), "{what}, {record:x?}");
        // Whatever the table: empty, too short for the record's axes, live, or broken.
        for mut words in [
            vec![0; 12],
            vec![0; 4],
            TABLE_WORDS.to_vec(),
            vec![u64::MAX; 12],
        ] {
            let before = words.clone();
            let restored = Table::new(&mut words).restore_table(&record);
            assert_eq!(restored, Err(refusal), "{what}, {record:x?}");
            assert_eq!(words, before, "{what}");
        }
    }
}

#[test]
fn restore_table_wants_axes_below_its_own_number_before_empty_rows() {
    for last in [3, 15, 16, 17, 128, 255] {
        let record = changed_table(SECOND + 3, last);
        assert_eq!(test_any(&record), Ok(()), "axis {last}");
        for mut words in [vec![0; 12], TABLE_WORDS.to_vec(), vec![u64::MAX; 12]] {
            let before = words.clone();
            let restored = Table::new(&mut words).restore_table(&record);
            assert_eq!(restored, Err(Refusal::Axis), "axis {last}");
            assert_eq!(words, before);
        }
    }
}

#[test]
fn restore_table_wants_every_row_empty() {
    for bit in 0..12 * 64 {
        let mut words = [0; 12];
        words[bit / 64] = 1 << (bit % 64);
        let before = words;
        let mut table = Table::new(&mut words);
        for record in [&TABLE_RECORD[..], &NO_AXES[..]] {
            assert_eq!(table.restore_table(record), Err(Refusal::Occupied));
        }
        assert_eq!(table.words(), before);
        table.erase(bit as u64 / 256).unwrap();
        assert_eq!(table.restore_table(&TABLE_RECORD), Ok(()));
        assert_eq!(words, TABLE_WORDS);
    }
}

#[test]
fn each_layout_is_refused_where_the_other_is_read() {
    let mut words = [0; 12];
    let mut table = Table::new(&mut words);
    for record in [&RECORD[..], &COUNTER_RECORD[..]] {
        let one = Err(Refusal::Layout { found: 1 });
        assert_eq!(table.restore_table(record), one);
        assert_eq!(table.restore_table(&record[..5]), one);
        assert_eq!(table.restore_table(&record[..4]), Err(Refusal::Record));
        assert_eq!(test_any(record), Ok(()));
    }
    for record in [&TABLE_RECORD[..], &NO_AXES[..]] {
        let two = Err(Refusal::Layout { found: 2 });
        assert_eq!(table.restore(0, record), two);
        assert_eq!(test_record(record), two);
        assert_eq!(test_any(record), Ok(()));
    }
    assert_eq!(table.words(), [0; 12]);
}

#[test]
fn test_any_judges_each_layout_by_its_own_rules() {
    // A bad position before a field that is not the depth: layout 1 looks at all shapes first.
    let mut record = changed(12, 0x40);
    record[20] = 5;
    assert_eq!(test_any(&record), Err(Refusal::Record));
    let mut record = changed_table(20, 0x40);
    record[28] = 5;
    assert_eq!(test_any(&record), Err(Refusal::Value));
    for found in [0, 3, 0x0100, 0x0201, 0xffff] {
        let [high, low] = (found as u16).to_be_bytes();
        assert_eq!(
            test_any(&[1, 0, 2, high, low]),
            Err(Refusal::Layout { found })
        );
        assert_eq!(test_any(&[1, 0, 2, high]), Err(Refusal::Record));
        assert_eq!(test_any(&[2, 0, 2, high, low]), Err(Refusal::Record));
    }
    for layout in [1, 2] {
        assert_eq!(test_any(&[1, 0, 2, 0, layout]), Err(Refusal::Record));
    }
    assert_eq!(test_any(&[]), Err(Refusal::Record));
}

#[test]
fn a_wrong_length_is_refused_by_every_call() {
    for length in [
        0,
        1,
        3,
        5,
        WORDS_A_ROW * MOST_AXES + 1,
        WORDS_A_ROW * (MOST_AXES + 1),
    ] {
        let mut words = vec![0; length];
        let mut table = Table::new(&mut words);
        assert_eq!(table.sample(0), Err(Refusal::Length));
        assert_eq!(table.setup(0, KIND_X4, 1, 0, 0), Err(Refusal::Length));
        assert_eq!(table.erase(0), Err(Refusal::Length));
        assert_eq!(on_any_kind(&mut table, 0), [Some(Refusal::Length); 3]);
        assert_eq!(table.arm(0), Err(Refusal::Length));
        assert_eq!(table.acknowledge(0), Err(Refusal::Length));
        assert_eq!(table.reading(0, 0), Err(Refusal::Length));
        assert_eq!(table.speed_by_period(0, 1), Err(Refusal::Length));
        assert_eq!(table.restore(0, &RECORD), Err(Refusal::Length));
        let mut buffer = [0x55; 12];
        assert_eq!(table.save_table(&mut buffer), Err(Refusal::Length));
        assert_eq!(table.save_table(&mut []), Err(Refusal::Length));
        assert_eq!(buffer, [0x55; 12]);
        for record in [&NO_AXES[..], &TABLE_RECORD[..], &RECORD[..], &[]] {
            assert_eq!(table.restore_table(record), Err(Refusal::Length));
        }
        assert_eq!(words, vec![0; length]);
    }
}

#[test]
fn axes_and_rows_are_tested() {
    let mut words = [0; WORDS_A_ROW * MOST_AXES];
    words[2] = 1;
    let mut table = Table::new(&mut words);
    assert_eq!(on_any_kind(&mut table, 0), [Some(Refusal::Broken); 3]);
    assert_eq!(on_any_kind(&mut table, 1), [Some(Refusal::Empty); 3]);
    assert_eq!(on_any_kind(&mut table, 16), [Some(Refusal::Axis); 3]);
    assert_eq!(on_any_kind(&mut table, 1 << 62), [Some(Refusal::Axis); 3]);
    table.setup(15, KIND_X4, 1, 0, 0).unwrap();
    assert_eq!(on_any_kind(&mut table, 15), [None; 3]);
}
