//! States that are not sound: a sound state of a walk with one clause of document 01's list broken.

use crate::breakers::{Breaker, BREAKERS};
use crate::refused::compare_refused;
use crate::seldom::Counts;
use crate::walk::Walk;
use against::clauses::{Broken, CLAUSES};
use against::fields::first_difference;
use against::sound::broken;
use bench::draws::Draws;
use mwb::raw::System;

/// States for each breaker.
const STATES: u64 = 1_800;
const LEAST: u64 = 1_000;
/// With one clause broken and no other.
const LEAST_IN_ALL: u64 = 100_000;
/// The comparison ends here, whatever is still missing.
const MOST_WALKS: u32 = 100_000;
const STATES_OF_A_WALK: u32 = 30;

pub fn compare(draws: &mut Draws) -> Result<Vec<String>, String> {
    let mut counts = Counts::of(BREAKERS.iter().map(|breaker| breaker.name));
    let wanted = |counts: &Counts| (0..BREAKERS.len()).any(|index| counts.of_index(index) < STATES);
    let mut walks = 0;
    while wanted(&counts) && walks < MOST_WALKS {
        let mut walk = Walk::begin(draws)?;
        for _ in 0..STATES_OF_A_WALK {
            broken_here(&mut walk, &mut counts)?;
            for _ in 0..walk.draws().below(12) {
                walk.advance()?;
            }
        }
        walks += 1;
    }
    counts.at_least(LEAST)?;
    let (alone, _) = states_and_ways(&counts, |breaker| breaker.alone);
    if alone < LEAST_IN_ALL {
        return Err(format!("{alone} states with one clause broken and not {LEAST_IN_ALL}"));
    }
    let more = counts.total() - alone;
    let mut lines =
        vec![format!("{alone} states with one clause of \"sound\" broken, {more} with others beside it: refused with 1, nothing altered")];
    lines.extend(CLAUSES.map(|(clause, words)| {
        let (states, ways) = states_and_ways(&counts, |breaker| breaker.clause == clause);
        format!("  {states:>9}  not \"{words}\" (ways to break it: {ways})")
    }));
    Ok(lines)
}

/// The states that such breakers made, and how many breakers there are.
fn states_and_ways(counts: &Counts, such: impl Fn(&Breaker) -> bool) -> (u64, usize) {
    let ways: Vec<usize> = (0..BREAKERS.len()).filter(|index| such(&BREAKERS[*index])).collect();
    (ways.iter().map(|index| counts.of_index(*index)).sum(), ways.len())
}

/// The state of the walk, broken in some of the ways that are still wanted.
fn broken_here(walk: &mut Walk, counts: &mut Counts) -> Result<(), String> {
    let sound = walk.library;
    for (index, breaker) in BREAKERS.iter().enumerate() {
        if counts.of_index(index) == STATES || walk.draws().one_in(2) {
            continue;
        }
        let Some(state) = broken_by(breaker, sound, walk.draws()) else { continue };
        let found = compare_refused(&state, walk.draws()).map_err(|what| {
            let (field, was, is) = first_difference(&sound, &state).expect("a state that was altered");
            format!("{what}\nin the state broken by '{}', first at {field}, {was} made {is}", breaker.name)
        });
        walk.at(found)?;
        counts.add(index);
    }
    Ok(())
}

/// The state with the breaker's clause broken, and no other one where that can be.
fn broken_by(breaker: &Breaker, mut state: System, draws: &mut Draws) -> Option<System> {
    (breaker.breaks)(&mut state, draws)?;
    let all = broken(&state);
    let wanted = if breaker.alone { all == Broken::only(breaker.clause) } else { all.includes(breaker.clause) };
    wanted.then_some(state)
}
