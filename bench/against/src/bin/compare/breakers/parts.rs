//! The parts of a state that breakers look for, drawn among those that there are.

use bench::draws::Draws;
use mwb::raw::{Entry, Message, Place, Sizes, System, Waiting};
use std::ops::Range;

/// One of the queues and networks.
pub struct Queue<'a> {
    pub items: &'a mut [Message],
    pub count: &'a mut u8,
}

/// The queues' numbers: those with requests, then those with replies.
pub const OUTGOING: Range<usize> = 0..4;
pub const UP: Range<usize> = 4..5;
pub const ARRIVED: Range<usize> = 5..6;
pub const SERVED: Range<usize> = 6..7;
pub const DOWN: Range<usize> = 7..8;
pub const INCOMING: Range<usize> = 8..12;
/// Where messages of all sites stand.
pub const SHARED_REQUESTS: Range<usize> = 4..6;
pub const SHARED_REPLIES: Range<usize> = 6..8;

pub fn queues(system: &mut System) -> Vec<Queue<'_>> {
    let System { outgoing, incoming, up, arrived, served, down, .. } = system;
    let sites = outgoing.iter_mut().map(|queue| Queue { items: &mut queue.items, count: &mut queue.count });
    let shared = [up, arrived, served, down].map(|queue| Queue { items: &mut queue.items, count: &mut queue.count });
    let back = incoming.iter_mut().map(|queue| Queue { items: &mut queue.items, count: &mut queue.count });
    sites.chain(shared).chain(back).collect()
}

/// Those of these queues that belong to the system: a site's own queues only where there is the site.
pub fn of_sites(system: &System, among: Range<usize>) -> Vec<usize> {
    let sites = usize::from(system.sizes.sites);
    among.filter(|queue| (OUTGOING.start + sites..UP.start).chain(INCOMING.start + sites..INCOMING.end).all(|past| past != *queue)).collect()
}

pub fn one_of<T: Copy>(draws: &mut Draws, found: Vec<T>) -> Option<T> {
    (!found.is_empty()).then(|| draws.pick(&found))
}

/// A message's queue, and its position there.
pub type At = (usize, usize);

pub fn message(system: &mut System, draws: &mut Draws, wanted: impl Fn(usize, &Message) -> bool) -> Option<At> {
    let mut found = Vec::new();
    for (number, queue) in queues(system).into_iter().enumerate() {
        let under_way = queue.items.iter().take(usize::from(*queue.count)).enumerate();
        found.extend(under_way.filter(|(_, message)| wanted(number, message)).map(|(at, _)| (number, at)));
    }
    one_of(draws, found)
}

pub fn message_at(system: &mut System, (queue, at): At) -> &mut Message {
    let Queue { items, .. } = queues(system).swap_remove(queue);
    &mut items[at]
}

pub fn take_out(system: &mut System, (queue, at): At) -> Message {
    let queue = queues(system).swap_remove(queue);
    let taken = queue.items[at];
    queue.items.copy_within(at + 1.., at);
    queue.items[queue.items.len() - 1] = Message::default();
    *queue.count -= 1;
    taken
}

/// Puts a message behind the last, where there is a place.
pub fn put_in(system: &mut System, queue: usize, message: Message) -> Option<()> {
    let queue = queues(system).swap_remove(queue);
    *queue.items.get_mut(usize::from(*queue.count))? = message;
    *queue.count += 1;
    Some(())
}

pub fn any_site(system: &System, draws: &mut Draws) -> usize {
    draws.below(u32::from(system.sizes.sites)) as usize
}

pub fn entry<'s>(system: &'s mut System, draws: &mut Draws, wanted: impl Fn(&Entry) -> bool) -> Option<(usize, &'s mut Entry)> {
    let mut found = Vec::new();
    for (site, pends) in system.pends.iter().enumerate() {
        let entries = pends.entries.iter().take(usize::from(pends.count)).enumerate();
        found.extend(entries.filter(|(_, entry)| wanted(entry)).map(|(number, _)| (site, number)));
    }
    let (site, number) = one_of(draws, found)?;
    Some((site, &mut system.pends[site].entries[number]))
}

pub fn waiting<'s>(system: &'s mut System, draws: &mut Draws, wanted: impl Fn(&Waiting) -> bool) -> Option<&'s mut Waiting> {
    let mut found = Vec::new();
    for (site, stalls) in system.stalls.iter().enumerate() {
        let queue = stalls.waiting.iter().take(usize::from(stalls.count)).enumerate();
        found.extend(queue.filter(|(_, waiting)| wanted(waiting)).map(|(number, _)| (site, number)));
    }
    let (site, number) = one_of(draws, found)?;
    Some(&mut system.stalls[site].waiting[number])
}

/// A cache place, with its site and its set.
pub fn place<'s>(system: &'s mut System, draws: &mut Draws, wanted: impl Fn(u8, &Place) -> bool) -> Option<(usize, u8, &'s mut Place)> {
    let mut found = Vec::new();
    for (site, cache) in system.caches.iter().enumerate().take(usize::from(system.sizes.sites)) {
        let places = (0..).zip(&cache.sets);
        found.extend(places.filter(|(set, held)| wanted(*set, &held.low)).map(|(set, _)| (site, set)));
    }
    let (site, set) = one_of(draws, found)?;
    Some((site, set, &mut system.caches[site].sets[usize::from(set)].low))
}

/// A number from the first that is past its limit up to the largest byte.
pub fn past(draws: &mut Draws, first: u8) -> u8 {
    draws.between((u32::from(first), 255)) as u8
}

/// Any number but 0.
pub fn something(draws: &mut Draws) -> u32 {
    draws.of_any_length().max(1)
}

pub fn size(sizes: &mut Sizes, number: usize) -> &mut u8 {
    let Sizes { sites, words, lines, sets, pend, stall } = sizes;
    [sites, words, lines, sets, pend, stall].into_iter().nth(number).expect("one of six")
}
