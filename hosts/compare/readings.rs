//! The readings of docs/RULES.md ("Readings to hold it against"), each asked through calls.

use crate::call::{Call, Memory, Outcome};
use crate::library::{Answer, Sampled, Speed, Viewed};

const TOP: i64 = (1 << 62) - 1;
const AXIS: u32 = 2;
const BROKEN: u32 = 3;
const VALUE: u32 = 6;
const HALF: u32 = 7;
const ROOM: u32 = 10;
const LAYOUT: u32 = 11;
const RECORD: u32 = 12;
const OCCUPIED: u32 = 13;

/// A table of one axis, and the side that answers.
struct Bench<'a> {
    memory: Memory,
    side: &'a mut dyn FnMut(&Call, &mut Memory) -> Outcome,
}

impl Bench<'_> {
    fn call(&mut self, call: Call) -> Answer {
        match (self.side)(&call, &mut self.memory) {
            Outcome::Answer(answer) => answer,
            other => panic!("{call:?} answered {other:?}"),
        }
    }

    fn value(&mut self, call: Call) -> i64 {
        let Answer { refusal: 0, found: 0, value } = self.call(call) else {
            panic!("{call:?} was refused");
        };
        value
    }

    fn refused(&mut self, call: Call, refusal: u32) {
        assert_eq!(self.call(call), Answer { refusal, found: 0, value: 0 }, "{call:?}");
    }

    /// Asserts what a speed answers: the reason, 0 for done, and its three parts.
    fn speed(&mut self, call: Call, refusal: u32, number: i64, remainder: i64, divisor: u64) {
        let stated = Speed { refusal, found: 0, number, remainder, divisor };
        assert_eq!((self.side)(&call, &mut self.memory), Outcome::Speed(stated), "{call:?}");
    }

    /// A new axis in place of the old one, if there is one.
    fn renew(&mut self, kind: u64, depth: u64, width: u64, turn: u64) {
        self.value(Call::Erase { axis: 0 });
        self.value(Call::Setup { axis: 0, kind, depth, width, turn });
    }

    /// A new sampled axis without counts per turn.
    fn start(&mut self, kind: u64, depth: u64) {
        self.renew(kind, depth, 0, 0);
    }

    fn sample(&mut self, port: u64) -> Sampled {
        match (self.side)(&Call::Sample { port }, &mut self.memory) {
            Outcome::Sampled(sampled) => sampled,
            other => panic!("a sample answered {other:?}"),
        }
    }

    fn samples(&mut self, ports: &[u64]) {
        for &port in ports {
            self.sample(port);
        }
    }

    fn view(&mut self) -> Viewed {
        match (self.side)(&Call::View { axis: 0 }, &mut self.memory) {
            Outcome::Viewed(viewed) => viewed,
            other => panic!("a view answered {other:?}"),
        }
    }

    fn position(&mut self) -> i64 {
        self.view().position
    }
}

/// Asserts every reading of the side that answers.
pub fn readings(side: &mut dyn FnMut(&Call, &mut Memory) -> Outcome) {
    let bench = &mut Bench { memory: Memory::new(4, || 0), side };
    counting(bench);
    filtering(bench);
    widening(bench);
    holding(bench);
    homing(bench);
    speeds(bench);
    setting_up(bench);
    saving(bench);
    saving_the_table(&mut Bench { memory: Memory::new(12, || 0), side: bench.side });
    cutting_the_longest(&mut Bench { memory: Memory::new(64, || 0), side: bench.side });
}

fn counting(bench: &mut Bench) {
    for (kind, position) in [(4, 4), (2, 2), (1, 1)] {
        bench.start(kind, 1);
        bench.samples(&[0, 1, 3, 2, 0]);
        assert_eq!(bench.position(), position, "one round of codes, kind {kind}");
    }
    bench.start(4, 1);
    let doubles = [0, 3, 2].map(|code| bench.sample(code).doubles);
    assert_eq!(doubles, [0, 1, 0]);
    assert_eq!((bench.view().doubles, bench.position()), (1, 1), "codes 0, 3, 2");
}

fn filtering(bench: &mut Bench) {
    let filtered_a = |bench: &Bench| bench.memory.table()[1] >> 19 & 1;
    bench.start(4, 3);
    bench.samples(&[0, 1, 1, 0, 1, 1]);
    assert_eq!((filtered_a(bench), bench.position()), (0, 0), "depth 3, six samples");
    bench.samples(&[1]);
    assert_eq!((filtered_a(bench), bench.position()), (1, 1), "depth 3, seven samples");
}

fn widening(bench: &mut Bench) {
    let widen = |position, reading| Call::Widen { width: 8, position, reading };
    for (position, reading, wide) in [(250, 3, 259), (250, 121, 377), (250, 123, 123), (-1, 0, 0)] {
        assert_eq!(bench.value(widen(position, reading)), wide, "{position}, reading {reading}");
        // The same on a counter's row, which keeps the answer.
        bench.renew(8, 0, 8, 0);
        bench.value(Call::Preset { axis: 0, position });
        assert_eq!(bench.value(Call::Reading { axis: 0, reading }), wide, "{position}, reading {reading}");
        assert_eq!(bench.position(), wide);
    }
    bench.value(Call::Preset { axis: 0, position: 250 });
    for (reading, refusal) in [(122, HALF), (256, VALUE)] {
        bench.refused(widen(250, reading), refusal);
        bench.refused(Call::Reading { axis: 0, reading }, refusal);
        assert_eq!(bench.position(), 250);
    }
}

fn holding(bench: &mut Bench) {
    bench.start(4, 1);
    bench.value(Call::Preset { axis: 0, position: TOP });
    bench.samples(&[0, 1]);
    assert_eq!((bench.position(), bench.view().range), (TOP, 1));
    bench.samples(&[0]);
    assert_eq!((bench.position(), bench.view().range), (TOP - 1, 1));
}

fn homing(bench: &mut Bench) {
    for (samples, position) in [([0, 5], 0), ([5, 0], -1)] {
        bench.start(4, 1);
        bench.value(Call::Arm { axis: 0 });
        bench.samples(&samples);
        assert_eq!((bench.position(), bench.view().homed), (position, 1), "armed, samples {samples:?}");
    }
}

fn speeds(bench: &mut Bench) {
    let by_count = |difference, samples| Call::SpeedByCount { difference, samples, rate: 1 };
    bench.speed(by_count(1, 3), 0, 333, 1, 3);
    bench.speed(by_count(-1, 2000), 0, -1, 1000, 2000);
    bench.speed(by_count(1, 2001), 0, 0, 1000, 2001);
    bench.speed(by_count(1, 0), VALUE, 0, 0, 0);

    bench.start(4, 1);
    bench.samples(&[0]);
    for code in [1, 3, 2] {
        bench.samples(&[code; 5]);
    }
    bench.samples(&[0]);
    let by_period = Call::SpeedByPeriod { axis: 0, rate: 1000 };
    bench.speed(by_period, 0, 200_000, 0, 5);
    bench.samples(&[0; 12]);
    bench.speed(by_period, 0, 83_333, 4, 12);
}

fn setting_up(bench: &mut Bench) {
    let setup = |depth| Call::Setup { axis: 0, kind: 4, depth, width: 0, turn: 4096 };
    bench.value(Call::Erase { axis: 0 });
    bench.refused(setup(9), VALUE);
    assert_eq!(bench.memory.table(), [0; 4]);
    bench.value(setup(3));
    assert_eq!(bench.memory.table(), [1 << 62, 52, 0, 4096]);
    bench.value(Call::Preset { axis: 0, position: -2 });
    for depth in [9, 1] {
        bench.refused(setup(depth), OCCUPIED);
        assert_eq!(bench.memory.table(), [(1 << 62) - 2, 52, 0, 4096]);
    }
    bench.value(Call::Erase { axis: 0 });
    bench.value(setup(1));
}

fn saving(bench: &mut Bench) {
    let record = [
        0x01, 0x00, 0x02, 0x00, 0x01, 0x02, 0x00, 0x01, 0x04, 0x03, 0x00, 0x08, 0xff, 0xff, 0xff, 0xff, 0xff, 0xff,
        0xff, 0xfe, 0x04, 0x00, 0x01, 0x03, 0x06, 0x00, 0x04, 0x00, 0x00, 0x10, 0x00, 0x7f, 0x00, 0x00,
    ];
    bench.renew(4, 3, 0, 4096);
    bench.value(Call::Preset { axis: 0, position: -2 });
    bench.memory.lend(&[0x55; 33]);
    bench.refused(Call::Save { axis: 0 }, ROOM);
    assert_eq!(bench.memory.bytes(), [0x55; 33]);
    bench.memory.lend(&[0x55; 34]);
    assert_eq!(bench.value(Call::Save { axis: 0 }), 34);
    assert_eq!(bench.memory.bytes(), record);
    bench.refused(Call::Restore { axis: 0 }, OCCUPIED);
    bench.value(Call::Erase { axis: 0 });
    bench.value(Call::Restore { axis: 0 });
    assert_eq!(bench.memory.table(), [(1 << 62) - 2, 52, 0, 4096]);
}

/// A table of three rows, the middle one empty: its record, as docs/FORMATS.md has it, and what becomes of that.
fn saving_the_table(bench: &mut Bench) {
    let record = [
        0x01, 0x00, 0x02, 0x00, 0x02, 0x08, 0x00, 0x01, 0x02, 0x09, 0x00, 0x01, 0x00, 0x02, 0x00, 0x01, 0x04, 0x03,
        0x00, 0x08, 0xff, 0xff, 0xff, 0xff, 0xff, 0xff, 0xff, 0xfe, 0x04, 0x00, 0x01, 0x03, 0x06, 0x00, 0x04, 0x00,
        0x00, 0x10, 0x00, 0x09, 0x00, 0x01, 0x02, 0x02, 0x00, 0x01, 0x08, 0x03, 0x00, 0x08, 0x00, 0x00, 0x00, 0x00,
        0x00, 0x01, 0x11, 0x70, 0x05, 0x00, 0x01, 0x0c, 0x7f, 0x00, 0x00,
    ];
    let words = [(1 << 62) - 2, 52, 0, 4096, 0, 0, 0, 0, (1 << 62) + 70_000, 8 | 12 << 8, 0, 0];
    bench.value(Call::Setup { axis: 0, kind: 4, depth: 3, width: 0, turn: 4096 });
    bench.value(Call::Preset { axis: 0, position: -2 });
    bench.value(Call::Setup { axis: 2, kind: 8, depth: 0, width: 12, turn: 0 });
    bench.value(Call::Preset { axis: 2, position: 70_000 });
    bench.memory.lend(&[0x55; 64]);
    bench.refused(Call::SaveTable, ROOM);
    assert_eq!(bench.memory.bytes(), [0x55; 64]);
    bench.memory.lend(&[0x55; 65]);
    assert_eq!(bench.value(Call::SaveTable), 65);
    assert_eq!(bench.memory.bytes(), record);
    bench.value(Call::TestAny);
    bench.refused(Call::RestoreTable, OCCUPIED);
    for (call, found) in [(Call::TestRecord, 2), (Call::Restore { axis: 1 }, 2)] {
        assert_eq!(bench.call(call), Answer { refusal: LAYOUT, found, value: 0 });
    }
    assert_eq!(bench.memory.table(), words);

    bench.memory.table_mut().fill(0);
    for length in 0..record.len() {
        bench.memory.lend(&record[..length]);
        bench.refused(Call::TestAny, RECORD);
        bench.refused(Call::RestoreTable, RECORD);
    }
    let mut changed = record;
    changed[42] = 3;
    bench.memory.lend(&changed);
    bench.value(Call::TestAny);
    bench.refused(Call::RestoreTable, AXIS);
    changed[42] = 0;
    bench.memory.lend(&changed[..43]);
    bench.refused(Call::RestoreTable, VALUE);
    assert_eq!(bench.memory.table(), [0; 12]);
    bench.memory.lend(&record);
    bench.value(Call::RestoreTable);
    assert_eq!(bench.memory.table(), words);

    bench.memory.table_mut()[6] = 1;
    bench.memory.lend(&[]);
    bench.refused(Call::SaveTable, BROKEN);
}

/// The longest record of a table, of sixteen sampled axes: cut anywhere it is RECORD, and changes nothing.
fn cutting_the_longest(bench: &mut Bench) {
    for axis in 0..16 {
        bench.value(Call::Setup {
            axis,
            kind: [1, 2, 4][axis as usize % 3],
            depth: 1 + axis % 8,
            width: 0,
            turn: axis,
        });
        bench.value(Call::Preset { axis, position: if axis % 2 == 0 { TOP } else { -TOP } });
    }
    let words = bench.memory.table().to_vec();
    bench.memory.lend(&[0x55; 491]);
    bench.refused(Call::SaveTable, ROOM);
    bench.memory.lend(&[0x55; 492]);
    assert_eq!(bench.value(Call::SaveTable), 492);
    let record = bench.memory.bytes().to_vec();
    bench.memory.table_mut().fill(0);
    for length in 0..492 {
        bench.memory.lend(&record[..length]);
        bench.refused(Call::TestAny, RECORD);
        bench.refused(Call::RestoreTable, RECORD);
        assert_eq!(bench.memory.table(), [0; 64]);
    }
    bench.memory.lend(&record);
    bench.value(Call::RestoreTable);
    assert_eq!(bench.memory.table(), words);
}
