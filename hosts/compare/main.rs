//! Holds the proved library, over its C interface and through the crate's safe calls, against an independent
//! implementation in ordinary Rust.
//!
//!     compare [--seed N] [--calls N]            random calls on every side; a difference fails it
//!     compare --faults [--seed N] [--calls N]   the same with each fault put into the Rust side; one not found fails it

mod call;
mod compare;
mod library;
mod random;
mod readings;
mod reference;
mod rows;
mod scenario;
mod table_records;
mod whole;
mod wrapped;

use std::process::ExitCode;

use call::{plain, proved};
use compare::compare;
use random::Random;
use reference::{Fault, Reference, Row};
use wrapped::wrapped;

struct Options {
    seed: u64,
    calls: u64,
    faults: bool,
}

fn options() -> Option<Options> {
    let mut options = Options { seed: 1, calls: 4_000_000, faults: false };
    let mut words = std::env::args().skip(1);
    while let Some(word) = words.next() {
        match word.as_str() {
            "--seed" => options.seed = words.next()?.parse().ok()?,
            "--calls" => options.calls = words.next()?.parse().ok()?,
            "--faults" => options.faults = true,
            _ => return None,
        }
    }
    Some(options)
}

fn main() -> ExitCode {
    let Some(options) = options() else {
        eprintln!("usage: compare [--faults] [--seed N] [--calls N]");
        return ExitCode::from(2);
    };
    let sane = Reference::new(Fault::None);
    readings::readings(&mut |call, memory| plain(&sane, call, memory));
    random_rows(options.seed);
    let well = if options.faults { all_faults_found(&options) } else { no_difference(&options) };
    if well {
        ExitCode::SUCCESS
    } else {
        ExitCode::FAILURE
    }
}

/// Asserts that the rows which are tried are what their makers say: sound, or broken in every way there is.
fn random_rows(seed: u64) {
    let random = &mut Random::new(seed);
    for _ in 0..1000 {
        for axis in [rows::axis(random), rows::poised(random)] {
            assert_eq!(Row::unpack(&axis.pack()), Row::Live(axis));
        }
    }
    for (way, (name, ..)) in rows::WAYS.iter().enumerate() {
        for _ in 0..50 {
            let row = rows::broken_by(way, random);
            assert_eq!(Row::unpack(&row), Row::Broken, "{name}: {row:x?}");
        }
    }
}

fn no_difference(options: &Options) -> bool {
    match compare(options.seed, options.calls, Fault::None) {
        Err(difference) => {
            print!("the sides differ with seed {}\n{difference}", options.seed);
            false
        }
        Ok(tally) if !tally.missing().is_empty() => {
            println!("seed {}: {tally}; never seen: {}", options.seed, tally.missing().join(", "));
            false
        }
        Ok(tally) => {
            readings::readings(&mut |call, memory| proved(call, memory));
            readings::readings(&mut |call, memory| wrapped(call, memory));
            println!("seed {}: {tally}; no difference", options.seed);
            true
        }
    }
}

fn all_faults_found(options: &Options) -> bool {
    let mut all = true;
    for (fault, name) in Fault::ALL {
        match compare(options.seed, options.calls, fault) {
            Err(difference) if difference.is_the_faults() => {
                println!("{name}: found after {} calls, in {}", difference.calls, difference.call.name());
            }
            Err(difference) => {
                print!("{name}: the sides differ without it, too, with seed {}\n{difference}", options.seed);
                all = false;
            }
            Ok(tally) => {
                println!("{name}: NOT found in {} calls", tally.calls);
                all = false;
            }
        }
    }
    all
}
