//! The comparison: the same calls on every side, and after each of them every field, word and byte. The sides are the
//! proved library over its C interface, the same through the crate's safe calls, and the reference.

use std::fmt;

use crate::call::{plain, proved, Call, Memory, Outcome};
use crate::random::Random;
use crate::reference::{axes, layout_of, read_record, unpack, Axis, Fault, Kind, Reference, Refusal, Row};
use crate::scenario::Scenario;
use crate::whole::{live_axes, read_table, write_table};
use crate::wrapped::wrapped;

/// The names of the reasons ("Reasons for saying no"), at their numbers; 0 is done.
const REASONS: [&str; 14] = [
    "done",
    "LENGTH",
    "AXIS",
    "BROKEN",
    "EMPTY",
    "KIND",
    "VALUE",
    "HALF",
    "RANGE",
    "NO PERIOD",
    "ROOM",
    "LAYOUT",
    "RECORD",
    "OCCUPIED",
];

/// The cases of a setup and of a restore: an axis of each kind for an empty row, and bad numbers or a bad record for one;
/// good and bad ones for a row that is live, and for one that is broken.
const CASES: [&str; 9] = [
    "x1 made",
    "x2 made",
    "x4 made",
    "counter made",
    "bad on an empty row",
    "good on a live row",
    "bad on a live row",
    "good on a broken row",
    "bad on a broken row",
];

/// The place in `CASES` of a setup or a restore that would make this new axis or, being bad, none; unless the table has no
/// such row.
fn case(before: &Memory, axis: u64, new: Option<Axis>) -> Option<usize> {
    let row = before.table().chunks_exact(4).nth(usize::try_from(axis).ok()?)?;
    let bad = usize::from(new.is_none());
    match (Row::unpack(row.try_into().expect("a row has four words")), new) {
        (Row::Empty, Some(new)) => Kind::ALL.into_iter().position(|kind| kind == new.kind),
        (Row::Empty, None) => Some(4),
        (Row::Live(_), _) => Some(5 + bad),
        (Row::Broken, _) => Some(7 + bad),
    }
}

/// The cases of a save of the whole table.
const TABLE_SAVES: [&str; 9] = [
    "a table of no legal length",
    "no axes",
    "one axis or more",
    "sixteen axes",
    "room for every byte and none more",
    "a byte too few",
    "fewer still",
    "a broken row, and room for the others",
    "a broken row, and no room",
];

/// The place in `TABLE_SAVES` of a save of the whole table.
fn table_save(before: &Memory) -> usize {
    if axes(before.table()).is_err() {
        return 0;
    }
    let (live, broken) = live_axes(before.table());
    let (enough, room) = (write_table(&live).len(), before.bytes().len());
    match (live.len(), broken) {
        (_, true) => 7 + usize::from(room < enough),
        _ if room == enough => 4,
        _ if room + 1 == enough => 5,
        _ if room < enough => 6,
        (0, _) => 1,
        (16, _) => 3,
        _ => 2,
    }
}

/// The cases of a restore of the whole table, and behind them what is wrong with a record that it refuses.
const TABLE_RESTORES: [&str; 15] = [
    "a table of no legal length",
    "no axes, rows empty",
    "one axis or more, rows empty",
    "sixteen axes, rows empty",
    "no axes, a row not empty",
    "a live row, named",
    "a live row, not named",
    "a broken row",
    "AXIS, rows empty",
    "AXIS, a row not empty",
    "a record of one axis",
    "a third layout",
    "RECORD",
    "VALUE, rows empty",
    "VALUE, a row not empty",
];

/// The place in `TABLE_RESTORES` of a restore of the whole table.
fn table_restore(before: &Memory) -> usize {
    let Ok(rows) = axes(before.table()) else {
        return 0;
    };
    let empty = before.table().iter().all(|&word| word == 0);
    let new = match read_table(before.bytes()) {
        Err(Refusal::Layout(1)) => return 10,
        Err(Refusal::Layout(_)) => return 11,
        Err(Refusal::Value) => return 13 + usize::from(!empty),
        Err(_) => return 12,
        Ok(new) => new,
    };
    if new.iter().any(|&(number, _)| usize::from(number) >= rows) {
        return 8 + usize::from(!empty);
    }
    if empty {
        return match new.len() {
            0 => 1,
            16 => 3,
            _ => 2,
        };
    }
    if new.is_empty() {
        return 4;
    }
    if live_axes(before.table()).1 {
        return 7;
    }
    let row = |number: u8| unpack(&before.table()[4 * usize::from(number)..][..4]);
    if new.iter().any(|&(number, _)| row(number) != Row::Empty) {
        5
    } else {
        6
    }
}

/// The cases of a test of both layouts.
const TESTS: [&str; 8] = [
    "layout 1 accepted",
    "layout 1 RECORD",
    "layout 1 VALUE",
    "layout 2 accepted",
    "layout 2 RECORD",
    "layout 2 VALUE",
    "a third layout",
    "neither opening",
];

/// The place in `TESTS` of a test of both layouts.
fn test(before: &Memory) -> usize {
    let judged = |answer: Result<(), Refusal>| match answer {
        Ok(()) => 0,
        Err(Refusal::Record) => 1,
        Err(_) => 2,
    };
    match layout_of(before.bytes()) {
        Some(1) => judged(read_record(before.bytes()).map(|_| ())),
        Some(2) => 3 + judged(read_table(before.bytes()).map(|_| ())),
        Some(_) => 6,
        None => 7,
    }
}

/// Of so many calls at least one judges a record of the whole table, so that of 4,000,000 at least 100,000 do.
const CALLS_A_TABLE_RECORD: u64 = 40;

/// How often each call was made, each answer was given, and each case of a setup, of a save, of a restore and of a test came.
#[derive(Default)]
pub struct Tally {
    pub calls: u64,
    by_kind: [u64; Call::NAMES.len()],
    by_reason: [u64; REASONS.len()],
    setups: [u64; CASES.len()],
    restores: [u64; CASES.len()],
    table_saves: [u64; TABLE_SAVES.len()],
    table_restores: [u64; TABLE_RESTORES.len()],
    tests: [u64; TESTS.len()],
    /// Records that open as one of the whole table does, judged by a restore of the table or by the test of both layouts.
    table_records: u64,
}

impl Tally {
    fn add(&mut self, call: &Call, before: &Memory, outcome: &Outcome) {
        self.calls += 1;
        self.by_kind[call.number()] += 1;
        self.by_reason[outcome.refusal() as usize] += 1;
        match *call {
            Call::SaveTable => self.table_saves[table_save(before)] += 1,
            Call::RestoreTable => self.table_restores[table_restore(before)] += 1,
            Call::TestAny => self.tests[test(before)] += 1,
            _ => {}
        }
        if matches!(call, Call::RestoreTable | Call::TestAny) && layout_of(before.bytes()) == Some(2) {
            self.table_records += 1;
        }
        let (cases, axis, new) = match *call {
            Call::Setup { axis, kind, depth, width, turn } => {
                (&mut self.setups, axis, Axis::new(kind, depth, width, turn))
            }
            Call::Restore { axis } => (&mut self.restores, axis, read_record(before.bytes()).ok()),
            _ => return,
        };
        if let Some(at) = case(before, axis, new) {
            cases[at] += 1;
        }
    }

    /// All that is counted, by its names.
    fn lists(&self) -> [(&'static str, &[&'static str], &[u64]); 7] {
        [
            ("calls", &Call::NAMES, &self.by_kind),
            ("answers", &REASONS, &self.by_reason),
            ("setups", &CASES, &self.setups),
            ("restores", &CASES, &self.restores),
            ("saves of the table", &TABLE_SAVES, &self.table_saves),
            ("restores of the table", &TABLE_RESTORES, &self.table_restores),
            ("tests of both layouts", &TESTS, &self.tests),
        ]
    }

    /// What never came, or not often enough.
    pub fn missing(&self) -> Vec<String> {
        let mut missing = Vec::new();
        if self.table_records * CALLS_A_TABLE_RECORD < self.calls {
            missing.push(format!("a record of the table on each of {CALLS_A_TABLE_RECORD} calls"));
        }
        for (list, names, times) in self.lists() {
            let never = names.iter().zip(times).filter(|(_, &times)| times == 0);
            missing.extend(never.map(|(name, _)| format!("{name} of {list}")));
        }
        missing
    }
}

fn counts(names: &[&str], times: &[u64]) -> String {
    let counts: Vec<String> = names.iter().zip(times).map(|(name, times)| format!("{name} {times}")).collect();
    counts.join(", ")
}

impl fmt::Display for Tally {
    fn fmt(&self, out: &mut fmt::Formatter) -> fmt::Result {
        let lists = self.lists().map(|(list, names, times)| format!("{list} ({})", counts(names, times)));
        write!(out, "{} {}; {} records of a table judged", self.calls, lists.join("; "), self.table_records)
    }
}

/// What one side answered and left in memory.
#[derive(PartialEq, Eq)]
struct After {
    outcome: Outcome,
    memory: Memory,
}

impl After {
    fn of(mut memory: Memory, side: impl FnOnce(&mut Memory) -> Outcome) -> After {
        let outcome = side(&mut memory);
        After { outcome, memory }
    }
}

/// The first call on which the sides differ.
pub struct Difference {
    /// How many calls it took, this one included.
    pub calls: u64,
    pub call: Call,
    before: Memory,
    proved: After,
    wrapped: After,
    plain: After,
}

impl Difference {
    /// Whether the proved library does here, either way, what the reference does without a fault.
    pub fn is_the_faults(&self) -> bool {
        let sane = Reference::new(Fault::None);
        let sane = After::of(self.before.clone(), |memory| plain(&sane, &self.call, memory));
        self.proved == sane && self.wrapped == sane
    }
}

/// Makes as many calls on every side, or fewer if they come to differ.
pub fn compare(seed: u64, calls: u64, fault: Fault) -> Result<Tally, Box<Difference>> {
    let mut reference = Reference::new(fault);
    let mut random = Random::new(seed);
    let mut tally = Tally::default();
    let mut scenario = Scenario::new(&mut random);
    while tally.calls < calls {
        let Some(call) = scenario.next_call(&mut random) else {
            scenario = Scenario::new(&mut random);
            reference = Reference::new(fault);
            continue;
        };
        let before = &scenario.memory;
        let proved = After::of(before.clone(), |memory| proved(&call, memory));
        let wrapped = After::of(before.clone(), |memory| wrapped(&call, memory));
        let plain = After::of(before.clone(), |memory| plain(&reference, &call, memory));
        if proved != plain || proved != wrapped {
            let before = before.clone();
            return Err(Box::new(Difference { calls: tally.calls + 1, call, before, proved, wrapped, plain }));
        }
        tally.add(&call, before, &plain.outcome);
        scenario.memory = plain.memory;
    }
    Ok(tally)
}

impl fmt::Display for Difference {
    fn fmt(&self, out: &mut fmt::Formatter) -> fmt::Result {
        writeln!(out, "call {}: {:?}, in hexadecimal {:x?}", self.calls, self.call, self.call)?;
        writeln!(out, "before:")?;
        show(out, &self.before, &self.before)?;
        let sides = [
            ("the proved library", &self.proved),
            ("the crate's safe call", &self.wrapped),
            ("the reference", &self.plain),
        ];
        for (name, side) in sides {
            writeln!(out, "{name}: {:?}", side.outcome)?;
            show(out, &side.memory, &self.proved.memory)?;
            if !side.memory.same_frame(&self.before) {
                writeln!(out, "  * memory outside the table and the buffer was changed")?;
            }
        }
        Ok(())
    }
}

/// The table and the buffer; a star stands where the other memory has them otherwise.
fn show(out: &mut fmt::Formatter, memory: &Memory, other: &Memory) -> fmt::Result {
    let star = |same| if same { ' ' } else { '*' };
    writeln!(out, "    table of {} words", memory.table().len())?;
    for (axis, (row, others)) in memory.table().chunks(4).zip(other.table().chunks(4)).enumerate() {
        let words: Vec<String> = row.iter().map(|word| format!("{word:016x}")).collect();
        writeln!(out, "  {} {axis:2}: {}", star(row == others), words.join(" "))?;
    }
    let bytes: Vec<String> = memory.bytes().iter().map(|byte| format!("{byte:02x}")).collect();
    writeln!(out, "  {} buffer of {} bytes: {}", star(memory.bytes() == other.bytes()), bytes.len(), bytes.join(" "))
}
