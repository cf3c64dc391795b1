//! The independent model's state in the library's layout, and back. Nothing is lost either way: document 01's parts are the same parts, and
//! what is unused is 0.

use crate::kinds::{ACKNOWLEDGEMENT, COMMIT, FETCH, FETCH_REPLY, LOADL, RECONCILE, STOREL, VOLUNTARY, WRITE_BACK};
use bench::list::List;
use bench::model::System;
use bench::site::{Access, Address, Cached, Cell, Entry, Kind, Message, Reply, Request, Site, Sizes};
use mwb::raw;
use std::sync::LazyLock;

/// Copied, it costs less than one made anew.
static ALL_ZERO: LazyLock<raw::System> = LazyLock::new(raw::System::default);

pub fn to_raw(system: &System) -> raw::System {
    let mut out = *ALL_ZERO;
    let Sizes { sites, words, lines, sets, pend, stall } = system.sizes;
    out.sizes = raw::Sizes { sites, words, lines, sets, pend, stall };
    for (line, words) in out.memory.iter_mut().zip(&system.memory) {
        line.values = *words;
    }
    for (number, site) in system.sites.iter().enumerate() {
        for (set, cached) in out.caches[number].sets.iter_mut().zip(&site.cache) {
            set.low = cached.as_ref().map_or_else(raw::Place::default, place);
        }
        let (pends, stalls) = (&mut out.pends[number], &mut out.stalls[number]);
        fill(&mut pends.entries, &mut pends.count, site.pend.iter().map(entry));
        fill(&mut stalls.waiting, &mut stalls.count, site.stall.iter().map(waiting));
        let (outgoing, incoming) = (&mut out.outgoing[number], &mut out.incoming[number]);
        fill(&mut outgoing.items, &mut outgoing.count, site.outgoing.iter().map(request));
        fill(&mut incoming.items, &mut incoming.count, site.incoming.iter().map(reply));
    }
    fill(&mut out.up.items, &mut out.up.count, system.up.iter().map(request));
    fill(&mut out.arrived.items, &mut out.arrived.count, system.requests.iter().map(request));
    fill(&mut out.served.items, &mut out.served.count, system.replies.iter().map(reply));
    fill(&mut out.down.items, &mut out.down.count, system.down.iter().map(reply));
    out
}

fn fill<T>(places: &mut [T], count: &mut u8, items: impl ExactSizeIterator<Item = T>) {
    *count = items.len() as u8;
    for (place, item) in places.iter_mut().zip(items) {
        *place = item;
    }
}

/// A bit for each word, as marks.
fn marks(dirty: u8) -> [bool; 4] {
    std::array::from_fn(|word| (dirty >> word) & 1 == 1)
}

fn place(cached: &Cached) -> raw::Place {
    raw::Place { used: true, line: cached.line, dirty: marks(cached.cell.dirty), values: cached.cell.words }
}

fn waiting(access: &Access) -> raw::Waiting {
    let (kind, value) = match access.kind {
        Kind::Loadl => (LOADL, 0),
        Kind::Storel(value) => (STOREL, value),
        Kind::Commit => (COMMIT, 0),
        Kind::Reconcile => (RECONCILE, 0),
    };
    raw::Waiting { kind, line: access.at.line, word: access.at.word, tag: access.tag, value }
}

fn entry(entry: &Entry) -> raw::Entry {
    match entry {
        Entry::For(access, values) => {
            let raw::Waiting { kind, line, word, tag, value } = waiting(access);
            raw::Entry { kind, line, word, tag, value, values: *values }
        }
        Entry::Voluntary(line) => raw::Entry { kind: VOLUNTARY, line: *line, ..raw::Entry::default() },
    }
}

fn request(message: &Message<Request>) -> raw::Message {
    let bare = raw::Message { kind: FETCH, site: message.site, line: message.line, ..raw::Message::default() };
    match &message.body {
        Request::Fetch => bare,
        Request::WriteBack(cell) => raw::Message { kind: WRITE_BACK, dirty: marks(cell.dirty), values: cell.words, ..bare },
    }
}

fn reply(message: &Message<Reply>) -> raw::Message {
    let bare = raw::Message { kind: ACKNOWLEDGEMENT, site: message.site, line: message.line, ..raw::Message::default() };
    match &message.body {
        Reply::Line(values) => raw::Message { kind: FETCH_REPLY, values: *values, ..bare },
        Reply::Acknowledgement => bare,
    }
}

/// Of a sound state: what is not in use is not looked at.
pub fn from_raw(system: &raw::System) -> System {
    let raw::Sizes { sites, words, lines, sets, pend, stall } = system.sizes;
    System {
        sizes: Sizes { sites, words, lines, sets, pend, stall },
        memory: system.memory.map(|line| line.values),
        sites: std::array::from_fn(|number| site_from(system, number)),
        up: list_from(&system.up.items, system.up.count, request_from),
        requests: list_from(&system.arrived.items, system.arrived.count, request_from),
        replies: list_from(&system.served.items, system.served.count, reply_from),
        down: list_from(&system.down.items, system.down.count, reply_from),
    }
}

fn list_from<T, U: Copy + Default, const N: usize>(places: &[T], count: u8, from: fn(&T) -> U) -> List<U, N> {
    places.iter().take(usize::from(count)).map(from).collect()
}

fn site_from(system: &raw::System, number: usize) -> Site {
    let raw::System { caches, pends, stalls, outgoing, incoming, .. } = system;
    Site {
        number: number as u8,
        cache: caches[number].sets.map(|set| cached_from(&set.low)),
        pend: list_from(&pends[number].entries, pends[number].count, entry_from),
        stall: list_from(&stalls[number].waiting, stalls[number].count, access_from),
        outgoing: list_from(&outgoing[number].items, outgoing[number].count, request_from),
        incoming: list_from(&incoming[number].items, incoming[number].count, reply_from),
    }
}

fn cell_from(dirty: [bool; 4], words: [u32; 4]) -> Cell {
    let bits = dirty.iter().enumerate().map(|(word, dirty)| u8::from(*dirty) << word);
    Cell { words, dirty: bits.sum() }
}

fn cached_from(place: &raw::Place) -> Option<Cached> {
    place.used.then(|| Cached { line: place.line, cell: cell_from(place.dirty, place.values) })
}

fn access_from(waiting: &raw::Waiting) -> Access {
    let kind = match waiting.kind {
        LOADL => Kind::Loadl,
        STOREL => Kind::Storel(waiting.value),
        COMMIT => Kind::Commit,
        _ => Kind::Reconcile,
    };
    Access { tag: waiting.tag, at: Address { line: waiting.line, word: waiting.word }, kind }
}

fn entry_from(entry: &raw::Entry) -> Entry {
    let raw::Entry { kind, line, word, tag, value, values } = *entry;
    match kind {
        VOLUNTARY => Entry::Voluntary(line),
        _ => Entry::For(access_from(&raw::Waiting { kind, line, word, tag, value }), values),
    }
}

fn request_from(message: &raw::Message) -> Message<Request> {
    let body = match message.kind {
        FETCH => Request::Fetch,
        _ => Request::WriteBack(cell_from(message.dirty, message.values)),
    };
    Message { site: message.site, line: message.line, body }
}

fn reply_from(message: &raw::Message) -> Message<Reply> {
    let body = match message.kind {
        FETCH_REPLY => Reply::Line(message.values),
        _ => Reply::Acknowledgement,
    };
    Message { site: message.site, line: message.line, body }
}
