//! What breaks a clause at the messages under way, or at an entry and its message.

use super::parts::{any_site, entry, message, message_at, of_sites, one_of, past, place, put_in, queues, take_out, At};
use super::parts::{ARRIVED, DOWN, INCOMING, OUTGOING, SERVED, SHARED_REPLIES, SHARED_REQUESTS, UP};
use super::sites::two_of;
use against::kinds::{ACKNOWLEDGEMENT, COMMIT, FETCH, LOADL, RECONCILE, VOLUNTARY};
use bench::draws::Draws;
use mwb::raw::{Entry, Message, System};
use std::ops::Range;

/// The message of a site's entry.
fn of_entry(system: &mut System, draws: &mut Draws, site: usize, line: u8) -> Option<At> {
    message(system, draws, |_, message| usize::from(message.site) == site && message.line == line)
}

/// Gives an entry and its message another line.
fn to_line(system: &mut System, draws: &mut Draws, site: usize, number: usize, line: u8) -> Option<()> {
    let at = of_entry(system, draws, site, system.pends[site].entries[number].line)?;
    system.pends[site].entries[number].line = line;
    message_at(system, at).line = line;
    Some(())
}

fn any_entry(system: &System, draws: &mut Draws) -> Option<(usize, usize)> {
    let site = any_site(system, draws);
    one_of(draws, (0..usize::from(system.pends[site].count)).collect()).map(|number| (site, number))
}

/// A line that is neither pending nor cached at the site.
fn free_line(system: &System, draws: &mut Draws, site: usize) -> Option<u8> {
    let pends = &system.pends[site];
    let pending = |line| pends.entries.iter().take(usize::from(pends.count)).any(|entry| entry.line == line);
    let cached = |line| system.caches[site].sets.iter().any(|set| set.low.used && set.low.line == line);
    one_of(draws, (0..system.sizes.lines).filter(|line| !pending(*line) && !cached(*line)).collect())
}

pub fn count(system: &mut System, draws: &mut Draws) -> Option<()> {
    let number = one_of(draws, of_sites(system, OUTGOING.start..INCOMING.end))?;
    let queue = queues(system).swap_remove(number);
    *queue.count = past(draws, queue.items.len() as u8 + 1);
    Some(())
}

/// The two bits that tell trip and way stay.
pub fn of_no_kind(system: &mut System, draws: &mut Draws) -> Option<()> {
    let at = message(system, draws, |_, message| matches!(message.kind, FETCH | ACKNOWLEDGEMENT))?;
    message_at(system, at).kind += 4 * draws.between((1, 63)) as u8;
    Some(())
}

pub fn entry_line_past(system: &mut System, draws: &mut Draws) -> Option<()> {
    let (site, number) = any_entry(system, draws)?;
    let line = past(draws, system.sizes.lines);
    to_line(system, draws, site, number, line)
}

pub fn site_past(system: &mut System, draws: &mut Draws) -> Option<()> {
    let at = message(system, draws, |_, _| true)?;
    let sites = system.sizes.sites;
    message_at(system, at).site = past(draws, sites);
    Some(())
}

pub fn cached_line_pending(system: &mut System, draws: &mut Draws) -> Option<()> {
    let (site, _, place) = place(system, draws, |_, place| place.used)?;
    let line = place.line;
    let number = one_of(draws, (0..usize::from(system.pends[site].count)).collect())?;
    to_line(system, draws, site, number, line)
}

fn two_entries(system: &mut System, draws: &mut Draws, same_trip: bool) -> Option<()> {
    let site = any_site(system, draws);
    let (one, other) = two_of(draws, system.pends[site].count)?;
    let trip = |number: usize| system.pends[site].entries[number].kind >= COMMIT;
    if (trip(one) == trip(other)) != same_trip {
        return None;
    }
    let line = system.pends[site].entries[other].line;
    to_line(system, draws, site, one, line)
}

pub fn two_trips(system: &mut System, draws: &mut Draws) -> Option<()> {
    two_entries(system, draws, false)
}

pub fn same_trip(system: &mut System, draws: &mut Draws) -> Option<()> {
    two_entries(system, draws, true)
}

pub fn taken_away(system: &mut System, draws: &mut Draws) -> Option<()> {
    let at = message(system, draws, |_, _| true)?;
    take_out(system, at);
    Some(())
}

/// The second one goes where messages of all sites stand.
pub fn twice(system: &mut System, draws: &mut Draws) -> Option<()> {
    let at = message(system, draws, |_, _| true)?;
    let twice = *message_at(system, at);
    let among = if at.0 < SHARED_REPLIES.start { SHARED_REQUESTS } else { SHARED_REPLIES };
    let queue = one_of(draws, among.collect())?;
    put_in(system, queue, twice)
}

/// A Loadl's, under a tag of its own as far as one can tell.
pub fn entry_added(system: &mut System, draws: &mut Draws) -> Option<()> {
    let site = any_site(system, draws);
    let line = free_line(system, draws, site)?;
    let pends = &mut system.pends[site];
    if pends.count >= system.sizes.pend {
        return None;
    }
    pends.entries[usize::from(pends.count)] = Entry { kind: LOADL, line, tag: draws.of_any_length(), ..Entry::default() };
    pends.count += 1;
    Some(())
}

pub fn entry_taken_away(system: &mut System, draws: &mut Draws) -> Option<()> {
    let (site, number) = any_entry(system, draws)?;
    let pends = &mut system.pends[site];
    pends.entries.copy_within(number + 1.., number);
    pends.entries[pends.entries.len() - 1] = Entry::default();
    pends.count -= 1;
    Some(())
}

/// Without data, so that every kind may be it.
fn bare(message: &mut Message, kind: u8) {
    *message = Message { kind, site: message.site, line: message.line, ..Message::default() };
}

pub fn other_trip(system: &mut System, draws: &mut Draws) -> Option<()> {
    let at = message(system, draws, |_, _| true)?;
    let message = message_at(system, at);
    bare(message, message.kind ^ 1);
    Some(())
}

pub fn voluntary_fetch(system: &mut System, draws: &mut Draws) -> Option<()> {
    let (site, entry) = entry(system, draws, |entry| entry.kind == VOLUNTARY)?;
    let line = entry.line;
    let at = of_entry(system, draws, site, line)?;
    let message = message_at(system, at);
    bare(message, message.kind ^ 1);
    Some(())
}

/// A Loadl's entry made a Reconcile's, or the other way round: neither has data.
pub fn entry_of_other_trip(system: &mut System, draws: &mut Draws) -> Option<()> {
    let (_, entry) = entry(system, draws, |entry| matches!(entry.kind, LOADL | RECONCILE))?;
    entry.kind = LOADL + RECONCILE - entry.kind;
    Some(())
}

pub fn other_line(system: &mut System, draws: &mut Draws) -> Option<()> {
    let at = message(system, draws, |_, _| true)?;
    let site = usize::from(message_at(system, at).site);
    let line = free_line(system, draws, site)?;
    message_at(system, at).line = line;
    Some(())
}

/// In a place where messages of all sites stand.
pub fn other_site(system: &mut System, draws: &mut Draws) -> Option<()> {
    let at = message(system, draws, |queue, _| (UP.start..INCOMING.start).contains(&queue))?;
    let was = message_at(system, at).site;
    let site = one_of(draws, (0..system.sizes.sites).filter(|site| *site != was).collect())?;
    message_at(system, at).site = site;
    Some(())
}

pub fn too_many(system: &mut System, draws: &mut Draws) -> Option<()> {
    let site = any_site(system, draws);
    let line = free_line(system, draws, site)?;
    let (queue, kind) = draws.pick(&[(OUTGOING.start + site, 0), (UP.start, 0), (ARRIVED.start, 0), (SERVED.start, 2), (DOWN.start, 2)]);
    let kind = kind + draws.below(2) as u8;
    put_in(system, queue, Message { kind, site: site as u8, line, ..Message::default() })
}

pub fn request_among_replies(system: &mut System, draws: &mut Draws) -> Option<()> {
    let at = message(system, draws, |queue, _| queue < SERVED.start)?;
    let moved = take_out(system, at);
    let queue = draws.pick(&[SERVED.start, DOWN.start, INCOMING.start + usize::from(moved.site)]);
    put_in(system, queue, moved)
}

pub fn reply_among_requests(system: &mut System, draws: &mut Draws) -> Option<()> {
    let at = message(system, draws, |queue, _| queue >= SERVED.start)?;
    let moved = take_out(system, at);
    let queue = draws.pick(&[UP.start, ARRIVED.start, OUTGOING.start + usize::from(moved.site)]);
    put_in(system, queue, moved)
}

pub fn turned(system: &mut System, draws: &mut Draws) -> Option<()> {
    let at = message(system, draws, |_, _| true)?;
    let message = message_at(system, at);
    bare(message, message.kind ^ 2);
    Some(())
}

fn to_another_site(system: &mut System, draws: &mut Draws, queues: Range<usize>) -> Option<()> {
    let at = message(system, draws, |queue, _| queues.contains(&queue))?;
    let moved = take_out(system, at);
    let others = of_sites(system, queues).into_iter().filter(|queue| *queue != at.0);
    let queue = one_of(draws, others.collect())?;
    put_in(system, queue, moved)
}

pub fn in_anothers_outgoing(system: &mut System, draws: &mut Draws) -> Option<()> {
    to_another_site(system, draws, OUTGOING)
}

pub fn in_anothers_incoming(system: &mut System, draws: &mut Draws) -> Option<()> {
    to_another_site(system, draws, INCOMING)
}
