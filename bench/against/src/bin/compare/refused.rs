//! What the library does with a state that is not sound: it says so, refuses every step and drain with 1, and alters nothing.

use crate::same::{same, same_bytes, same_state, Same};
use against::expected::{drained, refused};
use bench::draws::Draws;
use bench::given::Number;
use mwb::call;
use mwb::raw::System;

const FILL: u8 = 0xA5;

pub fn compare_refused(state: &System, draws: &mut Draws) -> Same {
    same("whether it is sound", 0, call::sound(state))?;
    let mut left = *state;
    let given = call::step(&mut left, any_numbers(draws));
    same("what a step gives", refused(Number::NotSound, 0), given)?;
    same_state(state, &left)?;
    let (budget, length) = (draws.below(700) as usize, draws.below(1_400) as usize);
    let mut buf = [FILL; 1_400];
    let given = call::drain(&mut left, budget, &mut buf[..length]);
    same("what a drain gives", drained(Err(Number::NotSound)), given)?;
    same_state(state, &left)?;
    same_bytes(&[FILL; 1_400], &buf)
}

/// Mostly numbers of a step; 1 is looked at before 10.
fn any_numbers(draws: &mut Draws) -> [u32; 6] {
    let others: [u32; 3] = std::array::from_fn(|_| draws.of_any_length());
    [draws.below(9), draws.below(5), draws.below(9), others[0], others[1], others[2]]
}
