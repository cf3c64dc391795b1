//! Drains from states of walks and from the state with the longest drain: number, count, quiet, length, the whole buffer and the state.

use crate::same::{same, same_bytes, same_state};
use crate::seldom::Counts;
use crate::walk::Walk;
use against::expected::drained;
use against::layout::to_raw;
use bench::drain::MOST_STEPS;
use bench::draws::Draws;
use bench::longest;
use bench::model::System;
use mwb::{call, raw};

const BUDGETS: usize = 700;
const STATES_OF_A_BUDGET: u32 = 6;
const FILL: u8 = 0xA5;
const LEAST: u64 = 100;

/// What may come of a drain, in the order of the counts.
const ENDS: [&str; 4] = [
    "refused with 11, in buffers a byte short",
    "took no step, in buffers of the exact length and longer ones",
    "ended quiet, having taken steps",
    "ended at their budget",
];

pub fn compare(draws: &mut Draws) -> Result<Vec<String>, String> {
    let longest = longest_state();
    let mut counts = Counts::of(ENDS);
    for budget in (0..=BUDGETS).chain([65_536, usize::MAX / 2, usize::MAX]) {
        for _ in 0..STATES_OF_A_BUDGET {
            let mut walk = Walk::begin(draws)?;
            for _ in 0..walk.draws().below(300) {
                walk.advance()?;
            }
            let spare = walk.draws().below(40) as usize;
            let found = all_buffers(&walk.model, budget, spare, &mut counts);
            walk.at(found.map_err(|what| format!("{what}\ndrained with budget {budget}")))?;
        }
        all_buffers(&longest, budget, 1, &mut counts).map_err(|what| format!("{what}\nthe longest drained with budget {budget}"))?;
    }
    counts.at_least(LEAST)?;
    let mut lines = vec![format!("{} drains of budgets 0 to {BUDGETS} and beyond: what they give, the state and the whole buffer", counts.total())];
    lines.extend(counts.lines());
    Ok(lines)
}

fn end_of(drained: raw::Drained) -> usize {
    match drained {
        raw::Drained { number: 11, .. } => 0,
        raw::Drained { count: 0, .. } => 1,
        raw::Drained { quiet: 1, .. } => 2,
        _ => 3,
    }
}

fn longest_state() -> System {
    let mut system = System::fresh(longest::SIZES).expect("sizes in their limits");
    for step in longest::steps() {
        system.step(step);
    }
    system
}

/// A buffer of the exact length, a longer one, and one that is a byte short, unless no room is asked for.
fn all_buffers(model: &System, budget: usize, spare: usize, counts: &mut Counts) -> Result<(), String> {
    let exact = 2 * budget.min(MOST_STEPS);
    for length in [Some(exact), Some(exact + spare), exact.checked_sub(1)].into_iter().flatten() {
        let drained = compare_drain(model, budget, length)?;
        same("whether it is refused with 11", length < exact, drained.number == 11)?;
        counts.add(end_of(drained));
    }
    Ok(())
}

/// Bytes behind the lent buffer are looked at too.
pub fn compare_drain(model: &System, budget: usize, length: usize) -> Result<raw::Drained, String> {
    let (mut model, mut library) = (*model, to_raw(model));
    let (mut expected, mut buf) = (vec![FILL; length + 8], vec![FILL; length + 8]);
    let gives = drained(model.drain_into(budget, &mut expected[..length]));
    same("what the drain gives", gives, call::drain(&mut library, budget, &mut buf[..length]))?;
    same_bytes(&expected, &buf)?;
    same_state(&to_raw(&model), &library)?;
    Ok(gives)
}
