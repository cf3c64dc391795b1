//! What breaks a clause at the sizes or at one site, messages apart.

use super::parts::{any_site, entry, one_of, past, place, size, waiting};
use against::kinds::{LAST_INSTRUCTION, RECONCILE, VOLUNTARY};
use bench::draws::Draws;
use bench::record::LIMITS;
use mwb::raw::{Place, System};

pub fn size_past_limit(system: &mut System, draws: &mut Draws) -> Option<()> {
    let number = draws.below(6) as usize;
    *size(&mut system.sizes, number) = past(draws, LIMITS[number].1 as u8 + 1);
    Some(())
}

pub fn size_zero(system: &mut System, draws: &mut Draws) -> Option<()> {
    *size(&mut system.sizes, draws.below(6) as usize) = 0;
    Some(())
}

/// The size is made one less than a site's count.
pub fn pend_too_small(system: &mut System, draws: &mut Draws) -> Option<()> {
    let count = system.pends[any_site(system, draws)].count;
    system.sizes.pend = count.checked_sub(1).filter(|size| *size > 0)?;
    Some(())
}

pub fn stall_too_small(system: &mut System, draws: &mut Draws) -> Option<()> {
    let count = system.stalls[any_site(system, draws)].count;
    system.sizes.stall = count.checked_sub(1).filter(|size| *size > 0)?;
    Some(())
}

pub fn pend_count(system: &mut System, draws: &mut Draws) -> Option<()> {
    let pends = &mut system.pends[any_site(system, draws)];
    pends.count = past(draws, pends.entries.len() as u8 + 1);
    Some(())
}

pub fn stall_count(system: &mut System, draws: &mut Draws) -> Option<()> {
    let stalls = &mut system.stalls[any_site(system, draws)];
    stalls.count = past(draws, stalls.waiting.len() as u8 + 1);
    Some(())
}

/// Of an entry with a write-back under way and no data.
pub fn entry_of_no_kind(system: &mut System, draws: &mut Draws) -> Option<()> {
    let (_, entry) = entry(system, draws, |entry| entry.kind >= RECONCILE)?;
    entry.kind = past(draws, VOLUNTARY + 1);
    Some(())
}

pub fn waiting_of_no_kind(system: &mut System, draws: &mut Draws) -> Option<()> {
    let waiting = waiting(system, draws, |waiting| waiting.value == 0)?;
    waiting.kind = past(draws, LAST_INSTRUCTION + 1);
    Some(())
}

pub fn fence_waits(system: &mut System, draws: &mut Draws) -> Option<()> {
    let waiting = waiting(system, draws, |waiting| waiting.value == 0)?;
    waiting.kind = draws.between((u32::from(RECONCILE) + 1, u32::from(LAST_INSTRUCTION))) as u8;
    Some(())
}

pub fn waiting_line(system: &mut System, draws: &mut Draws) -> Option<()> {
    let lines = system.sizes.lines;
    waiting(system, draws, |_| true)?.line = past(draws, lines);
    Some(())
}

pub fn waiting_word(system: &mut System, draws: &mut Draws) -> Option<()> {
    let words = system.sizes.words;
    waiting(system, draws, |_| true)?.word = past(draws, words);
    Some(())
}

pub fn entry_word(system: &mut System, draws: &mut Draws) -> Option<()> {
    let words = system.sizes.words;
    entry(system, draws, |entry| entry.kind != VOLUNTARY)?.1.word = past(draws, words);
    Some(())
}

/// A line of the same set.
pub fn cached_line_past(system: &mut System, draws: &mut Draws) -> Option<()> {
    let (lines, sets) = (system.sizes.lines, system.sizes.sets);
    let (_, set, place) = place(system, draws, |_, place| place.used)?;
    place.line = one_of(draws, (lines..=255).filter(|line| line % sets == set).collect())?;
    Some(())
}

pub fn line_of_another_set(system: &mut System, draws: &mut Draws) -> Option<()> {
    let (lines, sets) = (system.sizes.lines, system.sizes.sets);
    let (_, set, place) = place(system, draws, |_, place| place.used)?;
    place.line = one_of(draws, (0..lines).filter(|line| line % sets != set).collect())?;
    Some(())
}

pub fn moved_to_another_set(system: &mut System, draws: &mut Draws) -> Option<()> {
    let sets = system.sizes.sets;
    let (site, set, place) = place(system, draws, |_, place| place.used)?;
    let moved = std::mem::take(place);
    let other = one_of(draws, (0..sets).filter(|other| *other != set).collect())?;
    system.caches[site].sets[usize::from(other)].low = moved;
    Some(())
}

/// All Clean, with words of 0.
pub fn pending_line_cached(system: &mut System, draws: &mut Draws) -> Option<()> {
    let (site, entry) = entry(system, draws, |_| true)?;
    let line = entry.line;
    system.caches[site].sets[usize::from(line % system.sizes.sets)].low = Place { used: true, line, ..Place::default() };
    Some(())
}

pub fn tags_stalled(system: &mut System, draws: &mut Draws) -> Option<()> {
    let stalls = &mut system.stalls[any_site(system, draws)];
    let (one, other) = two_of(draws, stalls.count)?;
    stalls.waiting[one].tag = stalls.waiting[other].tag;
    Some(())
}

pub fn tags_stalled_and_pending(system: &mut System, draws: &mut Draws) -> Option<()> {
    let (site, entry) = entry(system, draws, |entry| entry.kind != VOLUNTARY)?;
    let tag = entry.tag;
    let stalls = &mut system.stalls[site];
    let number = one_of(draws, (0..usize::from(stalls.count)).collect())?;
    stalls.waiting[number].tag = tag;
    Some(())
}

pub fn tags_pending(system: &mut System, draws: &mut Draws) -> Option<()> {
    let pends = &mut system.pends[any_site(system, draws)];
    let (one, other) = two_of(draws, pends.count)?;
    if [one, other].iter().any(|number| pends.entries[*number].kind == VOLUNTARY) {
        return None;
    }
    pends.entries[one].tag = pends.entries[other].tag;
    Some(())
}

/// Two different numbers below a count.
pub fn two_of(draws: &mut Draws, count: u8) -> Option<(usize, usize)> {
    let one = one_of(draws, (0..usize::from(count)).collect())?;
    let other = one_of(draws, (0..usize::from(count)).filter(|other| *other != one).collect())?;
    Some((one, other))
}
