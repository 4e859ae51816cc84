//! The proved library as C programs see it: a safe function for each declaration of include/ubrenchip.h, with its answer
//! as it is.

use ubrenchip::c;
pub use ubrenchip::c::{Answer, Sampled, Speed, Viewed};

/// The pointer that C passes for a slice: null where there is nothing.
///
/// It is a writable one for every slice, so that a call which writes where it should only read is seen to do so.
fn pointer<T>(slice: &mut [T]) -> *mut T {
    if slice.is_empty() {
        std::ptr::null_mut()
    } else {
        slice.as_mut_ptr()
    }
}

// Each call gets pointers to slices that are borrowed for as long as it runs, with their true lengths, and the header
// promises to keep to them and to keep nothing. That is all that `unsafe` leaves to the caller.

pub fn widen(width: u64, position: i64, reading: u64) -> Answer {
    unsafe { c::ubrenchip_widen(width, position, reading) }
}

pub fn speed_by_count(difference: i64, samples: u64, rate: u64) -> Speed {
    unsafe { c::ubrenchip_speed_by_count(difference, samples, rate) }
}

pub fn test_record(record: &mut [u8]) -> Answer {
    unsafe { c::ubrenchip_test_record(pointer(record), record.len()) }
}

pub fn test_any(record: &mut [u8]) -> Answer {
    unsafe { c::ubrenchip_test_any(pointer(record), record.len()) }
}

pub fn sample(table: &mut [u64], port: u64) -> Sampled {
    unsafe { c::ubrenchip_sample(pointer(table), table.len(), port) }
}

pub fn setup(table: &mut [u64], axis: u64, kind: u64, depth: u64, width: u64, turn: u64) -> Answer {
    unsafe { c::ubrenchip_setup(pointer(table), table.len(), axis, kind, depth, width, turn) }
}

pub fn erase(table: &mut [u64], axis: u64) -> Answer {
    unsafe { c::ubrenchip_erase(pointer(table), table.len(), axis) }
}

pub fn preset(table: &mut [u64], axis: u64, position: i64) -> Answer {
    unsafe { c::ubrenchip_preset(pointer(table), table.len(), axis, position) }
}

pub fn arm(table: &mut [u64], axis: u64) -> Answer {
    unsafe { c::ubrenchip_arm(pointer(table), table.len(), axis) }
}

pub fn acknowledge(table: &mut [u64], axis: u64) -> Answer {
    unsafe { c::ubrenchip_acknowledge(pointer(table), table.len(), axis) }
}

pub fn view(table: &mut [u64], axis: u64) -> Viewed {
    unsafe { c::ubrenchip_view(pointer(table), table.len(), axis) }
}

pub fn reading(table: &mut [u64], axis: u64, reading: u64) -> Answer {
    unsafe { c::ubrenchip_reading(pointer(table), table.len(), axis, reading) }
}

pub fn speed_by_period(table: &mut [u64], axis: u64, rate: u64) -> Speed {
    unsafe { c::ubrenchip_speed_by_period(pointer(table), table.len(), axis, rate) }
}

pub fn save(table: &mut [u64], axis: u64, buffer: &mut [u8]) -> Answer {
    unsafe { c::ubrenchip_save(pointer(table), table.len(), axis, pointer(buffer), buffer.len()) }
}

pub fn restore(table: &mut [u64], axis: u64, record: &mut [u8]) -> Answer {
    unsafe { c::ubrenchip_restore(pointer(table), table.len(), axis, pointer(record), record.len()) }
}

pub fn save_table(table: &mut [u64], buffer: &mut [u8]) -> Answer {
    unsafe { c::ubrenchip_save_table(pointer(table), table.len(), pointer(buffer), buffer.len()) }
}

pub fn restore_table(table: &mut [u64], record: &mut [u8]) -> Answer {
    unsafe { c::ubrenchip_restore_table(pointer(table), table.len(), pointer(record), record.len()) }
}
