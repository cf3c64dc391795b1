//! What breaks Parts 9i: something put where nothing is in use.

use super::parts::{any_site, entry as some_entry, message as some_message, message_at, of_sites, one_of, past};
use super::parts::{place as some_place, queues, something, waiting as some_waiting};
use against::kinds::{ACKNOWLEDGEMENT, COMMIT, FETCH, FETCH_REPLY, LOADL, RECONCILE, STOREL, VOLUNTARY, WRITE_BACK};
use bench::draws::Draws;
use mwb::raw::{Entry, Message, Place, System, Waiting};
use std::ops::Range;

fn any_word(draws: &mut Draws) -> usize {
    draws.below(4) as usize
}

/// A word past the line's words.
fn word_past(draws: &mut Draws, words: u8) -> Option<usize> {
    one_of(draws, (usize::from(words)..4).collect())
}

fn byte(draws: &mut Draws) -> u8 {
    past(draws, 1)
}

fn into_place(draws: &mut Draws, place: &mut Place) {
    match draws.below(3) {
        0 => place.line = byte(draws),
        1 => place.dirty[any_word(draws)] = true,
        _ => place.values[any_word(draws)] = something(draws),
    }
}

fn into_entry(draws: &mut Draws, entry: &mut Entry) {
    match draws.below(6) {
        0 => entry.kind = byte(draws),
        1 => entry.line = byte(draws),
        2 => entry.word = byte(draws),
        3 => entry.tag = something(draws),
        4 => entry.value = something(draws),
        _ => entry.values[any_word(draws)] = something(draws),
    }
}

fn into_waiting(draws: &mut Draws, waiting: &mut Waiting) {
    match draws.below(5) {
        0 => waiting.kind = byte(draws),
        1 => waiting.line = byte(draws),
        2 => waiting.word = byte(draws),
        3 => waiting.tag = something(draws),
        _ => waiting.value = something(draws),
    }
}

fn into_message(draws: &mut Draws, message: &mut Message) {
    match draws.below(5) {
        0 => message.kind = byte(draws),
        1 => message.site = byte(draws),
        2 => message.line = byte(draws),
        3 => message.dirty[any_word(draws)] = true,
        _ => message.values[any_word(draws)] = something(draws),
    }
}

pub fn memory_line(system: &mut System, draws: &mut Draws) -> Option<()> {
    let line = one_of(draws, (usize::from(system.sizes.lines)..16).collect())?;
    system.memory[line].values[any_word(draws)] = something(draws);
    Some(())
}

pub fn memory_word(system: &mut System, draws: &mut Draws) -> Option<()> {
    let word = word_past(draws, system.sizes.words)?;
    system.memory[draws.below(u32::from(system.sizes.lines)) as usize].values[word] = something(draws);
    Some(())
}

pub fn set(system: &mut System, draws: &mut Draws) -> Option<()> {
    let sets = system.sizes.sets;
    let (_, _, place) = some_place(system, draws, |set, _| set >= sets)?;
    if draws.one_in(4) {
        place.used = true;
    } else {
        into_place(draws, place);
    }
    Some(())
}

pub fn place(system: &mut System, draws: &mut Draws) -> Option<()> {
    let sets = system.sizes.sets;
    let (_, _, place) = some_place(system, draws, |set, place| set < sets && !place.used)?;
    into_place(draws, place);
    Some(())
}

pub fn cached_word(system: &mut System, draws: &mut Draws) -> Option<()> {
    let word = word_past(draws, system.sizes.words)?;
    let (_, _, place) = some_place(system, draws, |_, place| place.used)?;
    if draws.one_in(2) {
        place.dirty[word] = true;
    } else {
        place.values[word] = something(draws);
    }
    Some(())
}

pub fn entry(system: &mut System, draws: &mut Draws) -> Option<()> {
    let pends = &mut system.pends[any_site(system, draws)];
    let number = one_of(draws, (usize::from(pends.count)..pends.entries.len()).collect())?;
    into_entry(draws, &mut pends.entries[number]);
    Some(())
}

/// A value, or a word of data, where the kind has neither.
fn value_or_data(system: &mut System, draws: &mut Draws, kind: u8) -> Option<()> {
    let (_, entry) = some_entry(system, draws, |entry| entry.kind == kind)?;
    if draws.one_in(2) {
        entry.value = something(draws);
    } else {
        entry.values[any_word(draws)] = something(draws);
    }
    Some(())
}

pub fn loadl_entry(system: &mut System, draws: &mut Draws) -> Option<()> {
    value_or_data(system, draws, LOADL)
}

pub fn reconcile_entry(system: &mut System, draws: &mut Draws) -> Option<()> {
    value_or_data(system, draws, RECONCILE)
}

pub fn storel_entry(system: &mut System, draws: &mut Draws) -> Option<()> {
    let (_, entry) = some_entry(system, draws, |entry| entry.kind == STOREL)?;
    entry.values[any_word(draws)] = something(draws);
    Some(())
}

pub fn commit_entry(system: &mut System, draws: &mut Draws) -> Option<()> {
    let words = system.sizes.words;
    let (_, entry) = some_entry(system, draws, |entry| entry.kind == COMMIT)?;
    if draws.one_in(2) {
        entry.value = something(draws);
    } else {
        entry.values[word_past(draws, words)?] = something(draws);
    }
    Some(())
}

/// A word that the line has.
pub fn voluntary_entry(system: &mut System, draws: &mut Draws) -> Option<()> {
    let words = usize::from(system.sizes.words);
    let (_, entry) = some_entry(system, draws, |entry| entry.kind == VOLUNTARY)?;
    match draws.below(4) {
        0 => entry.word = one_of(draws, (1..words as u8).collect())?,
        1 => entry.tag = something(draws),
        2 => entry.value = something(draws),
        _ => entry.values[any_word(draws)] = something(draws),
    }
    Some(())
}

pub fn waiting(system: &mut System, draws: &mut Draws) -> Option<()> {
    let stalls = &mut system.stalls[any_site(system, draws)];
    let number = one_of(draws, (usize::from(stalls.count)..stalls.waiting.len()).collect())?;
    into_waiting(draws, &mut stalls.waiting[number]);
    Some(())
}

pub fn waiting_value(system: &mut System, draws: &mut Draws) -> Option<()> {
    some_waiting(system, draws, |waiting| waiting.kind != STOREL)?.value = something(draws);
    Some(())
}

pub fn message(system: &mut System, draws: &mut Draws, among: Range<usize>) -> Option<()> {
    let number = one_of(draws, of_sites(system, among))?;
    let queue = queues(system).swap_remove(number);
    let at = one_of(draws, (usize::from(*queue.count)..queue.items.len()).collect())?;
    into_message(draws, &mut queue.items[at]);
    Some(())
}

fn some_of_kind<'s>(system: &'s mut System, draws: &mut Draws, kind: u8) -> Option<&'s mut Message> {
    let at = some_message(system, draws, |_, message| message.kind == kind)?;
    Some(message_at(system, at))
}

/// A mark, or a word of data, where the kind has neither.
fn mark_or_data(system: &mut System, draws: &mut Draws, kind: u8) -> Option<()> {
    let message = some_of_kind(system, draws, kind)?;
    if draws.one_in(2) {
        message.dirty[any_word(draws)] = true;
    } else {
        message.values[any_word(draws)] = something(draws);
    }
    Some(())
}

pub fn fetch(system: &mut System, draws: &mut Draws) -> Option<()> {
    mark_or_data(system, draws, FETCH)
}

pub fn acknowledgement(system: &mut System, draws: &mut Draws) -> Option<()> {
    mark_or_data(system, draws, ACKNOWLEDGEMENT)
}

pub fn write_back(system: &mut System, draws: &mut Draws) -> Option<()> {
    let word = word_past(draws, system.sizes.words)?;
    let message = some_of_kind(system, draws, WRITE_BACK)?;
    if draws.one_in(2) {
        message.dirty[word] = true;
    } else {
        message.values[word] = something(draws);
    }
    Some(())
}

pub fn fetch_reply(system: &mut System, draws: &mut Draws) -> Option<()> {
    let words = system.sizes.words;
    let message = some_of_kind(system, draws, FETCH_REPLY)?;
    if draws.one_in(2) {
        message.dirty[any_word(draws)] = true;
    } else {
        message.values[word_past(draws, words)?] = something(draws);
    }
    Some(())
}

fn site_past(system: &System, draws: &mut Draws) -> Option<usize> {
    one_of(draws, (usize::from(system.sizes.sites)..4).collect())
}

pub fn site(system: &mut System, draws: &mut Draws) -> Option<()> {
    let site = site_past(system, draws)?;
    let (of_five, of_eight) = (draws.below(5) as usize, draws.below(8) as usize);
    match draws.below(6) {
        0 => into_place(draws, &mut system.caches[site].sets[of_eight].low),
        1 => system.caches[site].sets[of_eight].low.used = true,
        2 => into_entry(draws, &mut system.pends[site].entries[of_five]),
        3 => into_waiting(draws, &mut system.stalls[site].waiting[of_eight]),
        4 => into_message(draws, &mut system.outgoing[site].items[of_five]),
        _ => into_message(draws, &mut system.incoming[site].items[of_five]),
    }
    Some(())
}

pub fn site_count(system: &mut System, draws: &mut Draws) -> Option<()> {
    let site = site_past(system, draws)?;
    let System { pends, stalls, outgoing, incoming, .. } = system;
    let counts = [&mut pends[site].count, &mut stalls[site].count, &mut outgoing[site].count, &mut incoming[site].count];
    *counts.into_iter().nth(draws.below(4) as usize)? = byte(draws);
    Some(())
}
