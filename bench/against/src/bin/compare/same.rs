//! Whether two things are the same; if not, both are told.

use against::fields::first_difference;
use mwb::raw::System;
use std::fmt::Debug;

pub type Same = Result<(), String>;

pub fn same<T: PartialEq + Debug>(what: &str, expected: T, given: T) -> Same {
    if expected == given {
        return Ok(());
    }
    Err(format!("{what} differs\n  expected {expected:?}\n  given    {given:?}"))
}

/// All fields of two states.
pub fn same_state(expected: &System, given: &System) -> Same {
    if expected == given {
        return Ok(());
    }
    let (name, expected, given) = first_difference(expected, given).expect("states that differ have a field that differs");
    Err(format!("the state differs, first in {name}\n  expected {expected}\n  given    {given}"))
}

/// All bytes of two buffers; the first difference is told.
pub fn same_bytes(expected: &[u8], given: &[u8]) -> Same {
    match expected.iter().zip(given).position(|(one, other)| one != other) {
        Some(at) => Err(format!("the buffer differs, first at {at}\n  expected {:02X}\n  given    {:02X}", expected[at], given[at])),
        None => same("the buffer's length", expected.len(), given.len()),
    }
}
