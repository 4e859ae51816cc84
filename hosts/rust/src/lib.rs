#![doc = include_str!("../README.md")]
#![no_std]
#![deny(missing_docs)]
#![warn(unsafe_op_in_unsafe_fn)]

mod answers;
pub mod c;
mod limits;
mod plain;
mod table;

pub use answers::{Refusal, Sampled, Speed, View};
pub use limits::*;
pub use plain::{speed_by_count, test_any, test_record, widen};
pub use table::Table;
