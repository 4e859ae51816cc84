//! The crate's safe calls, and their answers put back as the header has them.

use ubrenchip::{Refusal, Table};

use crate::call::{Call, Memory, Outcome};
use crate::library::{Answer, Sampled, Speed, Viewed};

/// Makes a call of the proved library through the crate `ubrenchip`.
pub fn wrapped(call: &Call, memory: &mut Memory) -> Outcome {
    let (words, bytes) = memory.lent();
    let mut table = Table::new(words);
    let done = |()| 0;
    answer(match *call {
        Call::Sample { port } => return sampled(table.sample(port)),
        Call::View { axis } => return viewed(table.view(axis)),
        Call::SpeedByPeriod { axis, rate } => return speed(table.speed_by_period(axis, rate)),
        Call::SpeedByCount { difference, samples, rate } => {
            return speed(ubrenchip::speed_by_count(difference, samples, rate));
        }
        Call::Setup { axis, kind, depth, width, turn } => table.setup(axis, kind, depth, width, turn).map(done),
        Call::Erase { axis } => table.erase(axis).map(done),
        Call::Preset { axis, position } => table.preset(axis, position).map(done),
        Call::Arm { axis } => table.arm(axis).map(done),
        Call::Acknowledge { axis } => table.acknowledge(axis).map(done),
        Call::Reading { axis, reading } => table.reading(axis, reading),
        Call::Save { axis } => table.save(axis, bytes).map(|length| length as i64),
        Call::Restore { axis } => table.restore(axis, bytes).map(done),
        Call::Widen { width, position, reading } => ubrenchip::widen(width, position, reading),
        Call::TestRecord => ubrenchip::test_record(bytes).map(done),
        Call::SaveTable => table.save_table(bytes).map(|length| length as i64),
        Call::RestoreTable => table.restore_table(bytes).map(done),
        Call::TestAny => ubrenchip::test_any(bytes).map(done),
    })
}

/// The two numbers of a refusal, 0 and 0 where there is none. The crate has a name for every reason.
fn reason<T>(result: &Result<T, Refusal>) -> (u32, u32) {
    let Err(refusal) = result else {
        return (0, 0);
    };
    let found = match *refusal {
        Refusal::Layout { found } => found,
        Refusal::Unknown { number, .. } => panic!("the crate has no name for the reason {number}"),
        _ => 0,
    };
    (refusal.number(), found)
}

fn answer(result: Result<i64, Refusal>) -> Outcome {
    let (refusal, found) = reason(&result);
    Outcome::Answer(Answer { refusal, found, value: result.unwrap_or(0) })
}

fn speed(result: Result<ubrenchip::Speed, Refusal>) -> Outcome {
    let (refusal, found) = reason(&result);
    let none = ubrenchip::Speed { number: 0, remainder: 0, divisor: 0 };
    let ubrenchip::Speed { number, remainder, divisor } = result.unwrap_or(none);
    Outcome::Speed(Speed { refusal, found, number, remainder, divisor })
}

fn sampled(result: Result<ubrenchip::Sampled, Refusal>) -> Outcome {
    let (refusal, found) = reason(&result);
    let none = ubrenchip::Sampled { doubles: 0, index: 0, broken: 0 };
    let ubrenchip::Sampled { doubles, index, broken } = result.unwrap_or(none);
    Outcome::Sampled(Sampled { refusal, found, doubles, index, broken })
}

fn viewed(result: Result<ubrenchip::View, Refusal>) -> Outcome {
    let (refusal, found) = reason(&result);
    let axis = result.ok();
    let flag = |flag: fn(&ubrenchip::View) -> bool| axis.as_ref().is_some_and(flag).into();
    Outcome::Viewed(Viewed {
        refusal,
        found,
        position: axis.map_or(0, |axis| axis.position),
        kind: axis.map_or(0, |axis| axis.kind as u32),
        doubles: axis.map_or(0, |axis| axis.doubles),
        primed: flag(|axis| axis.primed),
        armed: flag(|axis| axis.armed),
        homed: flag(|axis| axis.homed),
        range: flag(|axis| axis.range),
        index: flag(|axis| axis.index),
        unused: 0,
    })
}
