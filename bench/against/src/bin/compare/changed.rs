//! Sound states with one field changed at random: both decide alike whether they are sound; from there steps and drains go on, or are refused.

use crate::drains::compare_drain;
use crate::refused::compare_refused;
use crate::same::{same, same_state, Same};
use crate::seldom::Counts;
use crate::walk::Walk;
use against::expected::{given, numbers};
use against::fields::{each, Field};
use against::layout::{from_raw, to_raw};
use against::sound::sound;
use bench::chooser::Chooser;
use bench::draws::Draws;
use mwb::call;
use mwb::raw::System;

const CHANGES: u64 = 100_000;
const LEAST: u64 = 10_000;
const OF_ANYTHING: u32 = 20_000;
const STATES_OF_A_WALK: u32 = 20;
const CHANGES_OF_A_STATE: u32 = 10;
/// Steps taken from a changed state that is sound.
const STEPS: u32 = 8;

const NOT_SOUND: usize = 0;
const SOUND: usize = 1;

pub fn compare(draws: &mut Draws) -> Result<Vec<String>, String> {
    let mut counts = Counts::of(["not sound: refused with 1, nothing altered", "sound all the same: steps and a drain from there compared whole"]);
    while counts.total() < CHANGES {
        let mut walk = Walk::begin(draws)?;
        for _ in 0..STATES_OF_A_WALK {
            for _ in 0..CHANGES_OF_A_STATE {
                changed_here(&mut walk, &mut counts)?;
            }
            for _ in 0..walk.draws().below(20) {
                walk.advance()?;
            }
        }
    }
    counts.at_least(LEAST)?;
    for _ in 0..OF_ANYTHING {
        anything(draws)?;
    }
    let mut lines = vec![format!("{} sound states with one field changed: both decide alike", counts.total())];
    lines.extend(counts.lines());
    lines.push(format!("{OF_ANYTHING} states of any numbers whatever: not sound, refused with 1, nothing altered"));
    Ok(lines)
}

fn changed_here(walk: &mut Walk, counts: &mut Counts) -> Same {
    let mut state = walk.library;
    let name = change(&mut state, walk.draws());
    let is_sound = sound(&state);
    counts.add(if is_sound { SOUND } else { NOT_SOUND });
    let found = if is_sound { go_on(&state, walk.draws()) } else { compare_refused(&state, walk.draws()) };
    walk.at(found.map_err(|what| format!("{what}\nwith {name}")))
}

/// Every field holds what it may: nothing but a step's or a drain's refusal can come of it.
fn anything(draws: &mut Draws) -> Same {
    let mut state = System::default();
    let limit = draws.pick(&[2, 6, 256]);
    each(&mut state, &mut |_, field| field.set(if draws.one_in(4) { draws.of_any_length() } else { draws.below(limit) }));
    same("whether it is sound", false, sound(&state))?;
    compare_refused(&state, draws)
}

/// Changes one field; half of the time one that holds something. Gives its name and its new value.
fn change(state: &mut System, draws: &mut Draws) -> String {
    let holding = draws.one_in(2);
    let mut wanted = Vec::with_capacity(2_100);
    let mut at = 0;
    each(state, &mut |_, field| {
        if !holding || field.value() != 0 {
            wanted.push(at);
        }
        at += 1;
    });
    let (chosen, mut at, mut told) = (draws.pick(&wanted), 0, String::new());
    each(state, &mut |name, field| {
        if at == chosen {
            let value = other_value(&field, draws);
            field.set(value);
            told = format!("{} made {value}", name());
        }
        at += 1;
    });
    told
}

/// A neighbour, a small one, or any.
fn other_value(field: &Field, draws: &mut Draws) -> u32 {
    let value = field.value();
    let drawn = [value.wrapping_add(1), value.wrapping_sub(1), draws.below(8), draws.of_any_length()];
    match field {
        Field::Mark(_) => 1 - value,
        Field::Byte(_) => draws.pick(&drawn) % 256,
        Field::Number(_) => draws.pick(&drawn),
    }
}

fn go_on(state: &System, draws: &mut Draws) -> Same {
    same("whether it is sound", 1, call::sound(state))?;
    let (mut library, mut model) = (*state, from_raw(state));
    same_state(state, &to_raw(&model))?;
    let raw_sizes = state.sizes;
    let sizes = [raw_sizes.sites, raw_sizes.words, raw_sizes.lines, raw_sizes.sets, raw_sizes.pend, raw_sizes.stall].map(u32::from);
    let mut chooser = Chooser::new(draws, sizes);
    for _ in 0..STEPS {
        let step = chooser.likely();
        let expected = given(model.step(step));
        let answered = call::step(&mut library, numbers(step, [0; 6]));
        let found = same("what a step gives", expected, answered).and_then(|()| same_state(&to_raw(&model), &library));
        found.map_err(|what| format!("{what}\nat {step:?}, one of the steps from there"))?;
    }
    same("whether the state left is sound", (true, 1), (sound(&library), call::sound(&library)))?;
    let budget = draws.below(30) as usize;
    compare_drain(&model, budget, 2 * budget).map(|_| ())
}
