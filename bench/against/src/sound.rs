//! Document 01's "sound" (Parts 9 and 10), decided on a state in the library's layout: any field values whatever, in one look. Each test stands
//! below the number of its clause.

use crate::clauses::{Broken, Clause};
use crate::kinds::{ACKNOWLEDGEMENT, COMMIT, FETCH_REPLY, LAST_INSTRUCTION, RECONCILE, STOREL, VOLUNTARY, WRITE_BACK};
use crate::unused::{marks, Unused, Words, ALL};
use bench::record::in_limits;
use mwb::raw::{Cache, Entry, Line, Message, Pends, Sizes, Stalls, System, Waiting};

pub fn sound(system: &System) -> bool {
    broken(system).nothing()
}

/// Where a clause is broken the others are judged as well as they can be.
pub fn broken(system: &System) -> Broken {
    let frame = Frame::new(system.sizes);
    let mut due = Due::default();
    let mut found = frame.memory(&system.memory);
    // Parts 9a: each size is from 1 to its most.
    let Sizes { sites, words, lines, sets, pend, stall } = system.sizes;
    found.broken.unless(Clause::SizesInLimits, in_limits([sites, words, lines, sets, pend, stall].map(u32::from)));
    for number in 0..system.pends.len() {
        found.join(if number < usize::from(sites) { frame.site(system, number, &mut due) } else { past_the_last(system, number) });
    }
    let (of_a_site, of_all) = (u16::from(pend), u16::from(pend) * u16::from(sites));
    for (number, (outgoing, incoming)) in (0..sites).zip(system.outgoing.iter().zip(&system.incoming)) {
        found.join(frame.queue(&outgoing.items, outgoing.count, of_a_site, REQUESTS, Some(number), &mut due));
        found.join(frame.queue(&incoming.items, incoming.count, of_a_site, REPLIES, Some(number), &mut due));
    }
    found.join(frame.queue(&system.up.items, system.up.count, of_all, REQUESTS, None, &mut due));
    found.join(frame.queue(&system.arrived.items, system.arrived.count, of_all, REQUESTS, None, &mut due));
    found.join(frame.queue(&system.served.items, system.served.count, of_all, REPLIES, None, &mut due));
    found.join(frame.queue(&system.down.items, system.down.count, of_all, REPLIES, None, &mut due));
    // Parts 9j: no entry is still without its message.
    found.broken.unless(Clause::OneMessageForAnEntry, due == Due::default());
    // Parts 9i: what is unused is 0.
    found.broken.unless(Clause::UnusedHoldsZero, found.unused.is_zero());
    found.broken
}

/// The second bit of a message's kind; the first is 0 for a fetch and its reply, 1 for a write-back and its acknowledgement.
const REQUESTS: u8 = 0;
const REPLIES: u8 = 1;

/// Sound lines are below 16; others share bits.
fn bit(line: u8) -> u32 {
    1_u32.wrapping_shl(u32::from(line))
}

/// Of each site, and of fetches and of write-backs: a bit for each line whose entry's message was not met yet.
type Due = [[u32; 2]; 4];

/// What one part of a state shows.
#[derive(Clone, Copy, Default)]
struct Found {
    broken: Broken,
    unused: Unused,
}

impl Found {
    fn join(&mut self, other: Found) {
        self.broken.join(other.broken);
        self.unused.join(other.unused);
    }
}

/// Parts 11: a voluntary entry's tag is nobody's.
#[derive(Default)]
struct Outstanding {
    tags: [u32; 13],
    count: usize,
}

impl Outstanding {
    fn differs(&mut self, tag: u32) -> bool {
        let same = self.tags[..self.count].iter().fold(false, |same, other| same | (*other == tag));
        self.tags[self.count] = tag;
        self.count += 1;
        !same
    }
}

fn past_the_last(system: &System, number: usize) -> Found {
    let System { caches, pends, stalls, outgoing, incoming, .. } = system;
    let mut unused = Unused::default();
    for set in &caches[number].sets {
        unused.place(&set.low);
    }
    unused.entries(&pends[number].entries);
    unused.waiting(&stalls[number].waiting);
    unused.messages(&outgoing[number].items);
    unused.messages(&incoming[number].items);
    unused.bytes([pends[number].count, stalls[number].count, outgoing[number].count, incoming[number].count]);
    Found { unused, ..Found::default() }
}

/// The sizes, and what follows from them.
struct Frame {
    sizes: Sizes,
    /// All ones for each word past the line's words; and a one for the mark of each.
    past_words: Words,
    past_marks: u32,
}

impl Frame {
    fn new(sizes: Sizes) -> Frame {
        let past = |word| word >= usize::from(sizes.words);
        let past_words = std::array::from_fn(|word| if past(word) { u32::MAX } else { 0 });
        Frame { sizes, past_words, past_marks: marks(std::array::from_fn(past)) }
    }

    fn memory(&self, memory: &[Line]) -> Found {
        let mut found = Found::default();
        for (number, line) in (0..).zip(memory) {
            found.unused.words(line.values, if number < self.sizes.lines { self.past_words } else { ALL });
        }
        found
    }

    fn site(&self, system: &System, number: usize, due: &mut Due) -> Found {
        let mut outstanding = Outstanding::default();
        let (mut found, cached) = self.cache(&system.caches[number]);
        let (pends, pending) = self.pends(&system.pends[number], &mut outstanding, &mut due[number]);
        found.join(pends);
        found.join(self.stalls(&system.stalls[number], &mut outstanding));
        // Parts 9f: a line that pends is not cached.
        found.broken.unless(Clause::CachedOrPending, cached & pending == 0);
        found
    }

    /// And the lines that are cached.
    fn cache(&self, cache: &Cache) -> (Found, u32) {
        let mut found = Found::default();
        let mut cached = 0;
        for (set, place) in (0..).zip(cache.sets.iter().map(|set| &set.low)) {
            if set >= self.sizes.sets || !place.used {
                found.unused.place(place);
                continue;
            }
            // Parts 9d: what is named exists.
            found.broken.unless(Clause::InRange, place.line < self.sizes.lines);
            // Parts 9e: the set is that of the line's number.
            found.broken.unless(Clause::InItsSet, place.line % self.sizes.sets == set);
            found.unused.number(marks(place.dirty) & self.past_marks);
            found.unused.words(place.values, self.past_words);
            cached |= bit(place.line);
        }
        (found, cached)
    }

    /// And the lines that are pending.
    fn pends(&self, pends: &Pends, outstanding: &mut Outstanding, due: &mut [u32; 2]) -> (Found, u32) {
        let mut found = Found::default();
        // Parts 9b: counts and kinds are possible ones.
        found.broken.unless(Clause::CountsFit, pends.count <= self.sizes.pend);
        let (entries, unused) = pends.entries.split_at(usize::from(pends.count).min(pends.entries.len()));
        let mut pending = 0;
        for entry in entries {
            // Parts 9g: a line pends at most once.
            found.broken.unless(Clause::OneEntryForALine, pending & bit(entry.line) == 0);
            pending |= bit(entry.line);
            due[usize::from(entry.kind >= COMMIT)] |= bit(entry.line);
            self.entry(entry, &mut found);
            // Parts 9h: no tag is used twice at a time.
            found.broken.unless(Clause::TagsDiffer, entry.kind == VOLUNTARY || outstanding.differs(entry.tag));
        }
        found.unused.entries(unused);
        (found, pending)
    }

    fn entry(&self, entry: &Entry, found: &mut Found) {
        let Entry { kind, line, word, tag, value, values } = *entry;
        // Parts 9b: counts and kinds are possible ones.
        found.broken.unless(Clause::KindsFit, kind <= VOLUNTARY);
        // Parts 9d: what is named exists.
        found.broken.unless(Clause::InRange, (line < self.sizes.lines) & (word < self.sizes.words));
        found.unused.number(if kind == STOREL { 0 } else { value });
        found.unused.words(values, if kind == COMMIT { self.past_words } else { ALL });
        found.unused.number(if kind == VOLUNTARY { tag | u32::from(word) } else { 0 });
    }

    fn stalls(&self, stalls: &Stalls, outstanding: &mut Outstanding) -> Found {
        let mut found = Found::default();
        // Parts 9b: counts and kinds are possible ones.
        found.broken.unless(Clause::CountsFit, stalls.count <= self.sizes.stall);
        let (queue, unused) = stalls.waiting.split_at(usize::from(stalls.count).min(stalls.waiting.len()));
        for Waiting { kind, line, word, tag, value } in queue {
            // Parts 9b: counts and kinds are possible ones.
            found.broken.unless(Clause::KindsFit, *kind <= LAST_INSTRUCTION);
            // Parts 9c: what is stalled is no fence.
            found.broken.unless(Clause::NoFenceWaits, !(RECONCILE + 1..=LAST_INSTRUCTION).contains(kind));
            // Parts 9d: what is named exists.
            found.broken.unless(Clause::InRange, (*line < self.sizes.lines) & (*word < self.sizes.words));
            // Parts 9h: no tag is used twice at a time.
            found.broken.unless(Clause::TagsDiffer, outstanding.differs(*tag));
            found.unused.number(if *kind == STOREL { 0 } else { *value });
        }
        found.unused.waiting(unused);
        found
    }

    /// `room` is for as many messages as pend entries allow; `own` is the site whose queue it is.
    fn queue(&self, items: &[Message], count: u8, room: u16, way: u8, own: Option<u8>, due: &mut Due) -> Found {
        let mut found = Found::default();
        // Parts 9b: counts and kinds are possible ones.
        found.broken.unless(Clause::CountsFit, u16::from(count) <= room);
        let (messages, unused) = items.split_at(usize::from(count).min(items.len()));
        for message in messages {
            // Parts 10a, 10b: on the way up there are requests, on the way down replies.
            found.broken.unless(Clause::RequestsAndRepliesApart, (message.kind >> 1) & 1 == way);
            // Parts 10c: what stands in a site's queue is its own.
            found.broken.unless(Clause::OwnSiteAlone, own.is_none_or(|site| site == message.site));
            self.message(message, due, &mut found);
        }
        found.unused.messages(unused);
        found
    }

    fn message(&self, message: &Message, due: &mut Due, found: &mut Found) {
        let Message { kind, site, line, dirty, values } = *message;
        // Parts 9b: counts and kinds are possible ones.
        found.broken.unless(Clause::KindsFit, kind <= ACKNOWLEDGEMENT);
        // Parts 9d: what is named exists.
        found.broken.unless(Clause::InRange, (site < self.sizes.sites) & (line < self.sizes.lines));
        // Parts 9j, 9k: the message is the one that an entry still waits for.
        let due = &mut due[usize::from(site & 3)][usize::from(kind & 1)];
        found.broken.unless(Clause::OneMessageForAnEntry, *due & bit(line) != 0);
        *due &= !bit(line);
        found.unused.number(marks(dirty) & if kind == WRITE_BACK { self.past_marks } else { u32::MAX });
        found.unused.words(values, if matches!(kind, WRITE_BACK | FETCH_REPLY) { self.past_words } else { ALL });
    }
}
