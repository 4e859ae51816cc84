//! What the calls answer: a value, or the reason for a refusal.

use core::fmt;

use crate::c;

/// Why a call is refused. A refused call changes no word of the table and no byte of a buffer.
///
/// The reasons have numbers, [`Refusal::number`], and are checked in the order of these, but that a
/// record's checks have an order of their own, a setup checks Occupied before Value, and a restore of
/// the whole table checks Axis after its record (docs/RULES.md, "Reasons for saying no").
///
/// It is no `std::error::Error`, since this crate does without `std`; where a `Box<dyn Error>` is
/// wanted, `refusal.to_string()` goes into one.
#[derive(Clone, Copy, PartialEq, Eq, Hash, Debug)]
pub enum Refusal {
    /// 1: the table is not 4n words, n from 1 to 16.
    Length,
    /// 2: there is no such axis in this table.
    Axis,
    /// 3: the row holds what no call could have left there.
    Broken,
    /// 4: the row holds no axis.
    Empty,
    /// 5: the call is for the other kind of axis.
    Kind,
    /// 6: an argument or a record's value is outside its limits.
    Value,
    /// 7: the reading lies exactly half a counter turn away.
    Half,
    /// 8: the position would leave its range.
    Range,
    /// 9: the last two steps give no period, so there is no speed by period.
    NoPeriod,
    /// 10: the buffer is too small for the record.
    Room,
    /// 11: the record has another layout.
    Layout {
        /// The layout number in the record: 0 to 65,535, and never the one that the call reads, which
        /// is 1 for one axis and 2 for the whole table. It is as wide as in the library's answer, so
        /// that nothing can be cut off on the way.
        found: u32,
    },
    /// 12: the bytes are no record, or a misshapen one.
    Record,
    /// 13: the row is not empty, or for a whole table any of its rows, so no axis is put there.
    /// [`Table::erase`](crate::Table::erase) frees a row, a broken one too.
    Occupied,
    /// A number that this crate has no name for, so the library that is linked is a newer one.
    ///
    /// The library of this crate's own version never answers it. Treat it as what it is, a refusal.
    Unknown {
        /// The number of the reason.
        number: u32,
        /// What stood where the layout number of [`Refusal::Layout`] stands.
        found: u32,
    },
}

impl Refusal {
    /// The number of the reason: 1 to 13, and another for [`Refusal::Unknown`].
    pub const fn number(self) -> u32 {
        match self {
            Refusal::Length => c::UBRENCHIP_LENGTH,
            Refusal::Axis => c::UBRENCHIP_AXIS,
            Refusal::Broken => c::UBRENCHIP_BROKEN,
            Refusal::Empty => c::UBRENCHIP_EMPTY,
            Refusal::Kind => c::UBRENCHIP_KIND,
            Refusal::Value => c::UBRENCHIP_VALUE,
            Refusal::Half => c::UBRENCHIP_HALF,
            Refusal::Range => c::UBRENCHIP_RANGE,
            Refusal::NoPeriod => c::UBRENCHIP_NO_PERIOD,
            Refusal::Room => c::UBRENCHIP_ROOM,
            Refusal::Layout { .. } => c::UBRENCHIP_LAYOUT,
            Refusal::Record => c::UBRENCHIP_RECORD,
            Refusal::Occupied => c::UBRENCHIP_OCCUPIED,
            Refusal::Unknown { number, .. } => number,
        }
    }

    /// What the first two numbers of an answer say.
    pub(crate) fn check(number: u32, found: u32) -> Result<(), Refusal> {
        Err(match number {
            c::UBRENCHIP_DONE => return Ok(()),
            c::UBRENCHIP_LENGTH => Refusal::Length,
            c::UBRENCHIP_AXIS => Refusal::Axis,
            c::UBRENCHIP_BROKEN => Refusal::Broken,
            c::UBRENCHIP_EMPTY => Refusal::Empty,
            c::UBRENCHIP_KIND => Refusal::Kind,
            c::UBRENCHIP_VALUE => Refusal::Value,
            c::UBRENCHIP_HALF => Refusal::Half,
            c::UBRENCHIP_RANGE => Refusal::Range,
            c::UBRENCHIP_NO_PERIOD => Refusal::NoPeriod,
            c::UBRENCHIP_ROOM => Refusal::Room,
            c::UBRENCHIP_LAYOUT => Refusal::Layout { found },
            c::UBRENCHIP_RECORD => Refusal::Record,
            c::UBRENCHIP_OCCUPIED => Refusal::Occupied,
            _ => Refusal::Unknown { number, found },
        })
    }
}

impl fmt::Display for Refusal {
    fn fmt(&self, out: &mut fmt::Formatter<'_>) -> fmt::Result {
        out.write_str(match *self {
            Refusal::Length => "the table is not four words for each of 1 to 16 axes",
            Refusal::Axis => "there is no such axis in this table",
            Refusal::Broken => "the row holds what no call could have left there",
            Refusal::Empty => "the row holds no axis",
            Refusal::Kind => "the call is for the other kind of axis",
            Refusal::Value => "a number is outside its limits",
            Refusal::Half => "the reading lies exactly half a counter turn away",
            Refusal::Range => "the position would leave its range",
            Refusal::NoPeriod => "the last two steps give no period",
            Refusal::Room => "the buffer is too small for the record",
            Refusal::Layout { found } => {
                return write!(out, "the record has another layout, number {found}")
            }
            Refusal::Record => "the bytes are no record, or a misshapen one",
            Refusal::Occupied => "the row is not empty: erase it first",
            Refusal::Unknown { number, .. } => {
                return write!(out, "reason {number}, which a newer library gave")
            }
        })
    }
}

/// A speed, with what rounding it left over: `number * divisor + remainder` is exactly 1000 times the
/// counts times the rate.
///
/// Where divisor and rate stay the same, numbers add up and remainders add up, so that a sum of both
/// does not drift as one of numbers alone does. docs/HOSTS.md, "Summing speeds", shows how a long sum
/// is kept exact.
#[derive(Clone, Copy, PartialEq, Eq, Hash, Debug)]
pub struct Speed {
    /// Thousandths of a count a second, below 0 for back, rounded to the nearest and from the middle
    /// between two away from zero.
    pub number: i64,
    /// What the number leaves over, above 0 where the number is too small: at most half the divisor
    /// either way. Where it is exactly half its sign is opposite to the number's.
    pub remainder: i64,
    /// The samples that were divided by, below 2^32: those of a speed by count, and for a speed by
    /// period the larger of period and age.
    pub divisor: u64,
}

/// What a port sample saw: bit k of each mask is axis k's, k from 0 to 15.
#[derive(Clone, Copy, PartialEq, Eq, Hash, Debug)]
pub struct Sampled {
    /// A double step on this sample: the count is not to be trusted.
    pub doubles: u64,
    /// A reference edge on this sample: see [`Table::sample`](crate::Table::sample).
    pub index: u64,
    /// The row is broken, and stays as it is.
    pub broken: u64,
}

/// What a view shows of an axis. A counter has no flags and no doubles.
#[derive(Clone, Copy, PartialEq, Eq, Hash, Debug)]
pub struct View {
    /// The kind, as [`Table::setup`](crate::Table::setup) takes it: one of
    /// [`KIND_X1`](crate::KIND_X1), [`KIND_X2`](crate::KIND_X2), [`KIND_X4`](crate::KIND_X4) and
    /// [`KIND_COUNTER`](crate::KIND_COUNTER).
    pub kind: u64,
    /// The position.
    pub position: i64,
    /// PRIMED: the axis has seen a first sample, and counts.
    pub primed: bool,
    /// ARMED: the next reference edge will become position 0.
    pub armed: bool,
    /// HOMED: a reference edge became position 0, and neither a preset nor an arm came since.
    pub homed: bool,
    /// RANGE: a step was not counted, since the position was at the end of its range.
    pub range: bool,
    /// INDEX: a reference edge came at a position that is not a whole number of turns.
    pub index: bool,
    /// How many double steps were seen, up to [`DOUBLES_LIMIT`](crate::DOUBLES_LIMIT).
    pub doubles: u32,
}

impl c::Answer {
    /// The value, unless the call was refused.
    pub(crate) fn value(self) -> Result<i64, Refusal> {
        Refusal::check(self.refusal, self.found).map(|()| self.value)
    }

    /// That the call was done, unless it was refused.
    pub(crate) fn done(self) -> Result<(), Refusal> {
        Refusal::check(self.refusal, self.found)
    }
}

impl c::Speed {
    /// The speed, unless the call was refused.
    pub(crate) fn speed(self) -> Result<Speed, Refusal> {
        Refusal::check(self.refusal, self.found).map(|()| Speed {
            number: self.number,
            remainder: self.remainder,
            divisor: self.divisor,
        })
    }
}

impl c::Sampled {
    /// The masks, unless the call was refused.
    pub(crate) fn masks(self) -> Result<Sampled, Refusal> {
        Refusal::check(self.refusal, self.found).map(|()| Sampled {
            doubles: self.doubles,
            index: self.index,
            broken: self.broken,
        })
    }
}

impl c::Viewed {
    /// The axis, unless the call was refused.
    pub(crate) fn view(self) -> Result<View, Refusal> {
        Refusal::check(self.refusal, self.found).map(|()| View {
            kind: self.kind.into(),
            position: self.position,
            primed: self.primed != 0,
            armed: self.armed != 0,
            homed: self.homed != 0,
            range: self.range != 0,
            index: self.index != 0,
            doubles: self.doubles,
        })
    }
}

#[cfg(test)]
mod tests {
    extern crate std;

    use std::string::{String, ToString};
    use std::vec::Vec;

    use super::*;

    #[test]
    fn every_number_comes_back() {
        assert_eq!(Refusal::check(0, 0), Ok(()));
        for number in (1..100).chain([u32::MAX]) {
            let refusal = Refusal::check(number, 7).unwrap_err();
            assert_eq!(refusal.number(), number);
            assert_eq!(
                matches!(refusal, Refusal::Unknown { .. }),
                number > c::UBRENCHIP_OCCUPIED
            );
        }
    }

    #[test]
    fn what_was_found_comes_back() {
        for found in [0, 2, 65_535, u32::MAX] {
            let layout = c::Answer {
                refusal: 11,
                found,
                value: 0,
            };
            assert_eq!(layout.done(), Err(Refusal::Layout { found }));
            let newer = c::Answer {
                refusal: 14,
                found,
                value: 0,
            };
            assert_eq!(newer.value(), Err(Refusal::Unknown { number: 14, found }));
        }
    }

    #[test]
    fn each_reason_has_its_own_sentence() {
        let mut sentences: Vec<String> = (1..=14)
            .map(|number| Refusal::check(number, 40).unwrap_err().to_string())
            .collect();
        assert_eq!(sentences[10], "the record has another layout, number 40");
        assert_eq!(sentences[12], "the row is not empty: erase it first");
        assert_eq!(sentences[13], "reason 14, which a newer library gave");
        sentences.sort();
        sentences.dedup();
        assert_eq!(sentences.len(), 14);
    }
}
