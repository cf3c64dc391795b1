//! The ways to break a clause of document 01's "sound".

mod messages;
mod parts;
mod sites;
mod unused;

use against::clauses::Clause;
use bench::draws::Draws;
use mwb::raw::System;

pub struct Breaker {
    pub clause: Clause,
    pub name: &'static str,
    /// Whether it can break this clause alone; else others are broken with it.
    pub alone: bool,
    /// `None` where the state has nothing to be broken in this way.
    pub breaks: fn(&mut System, &mut Draws) -> Option<()>,
}

const fn alone(clause: Clause, name: &'static str, breaks: fn(&mut System, &mut Draws) -> Option<()>) -> Breaker {
    Breaker { clause, name, alone: true, breaks }
}

const fn with_others(clause: Clause, name: &'static str, breaks: fn(&mut System, &mut Draws) -> Option<()>) -> Breaker {
    Breaker { clause, name, alone: false, breaks }
}

pub const BREAKERS: &[Breaker] = &[
    alone(Clause::SizesInLimits, "a size past its limit", sites::size_past_limit),
    alone(Clause::SizesInLimits, "a size of 0", sites::size_zero),
    alone(Clause::CountsFit, "more pend entries than the size", sites::pend_too_small),
    alone(Clause::CountsFit, "more stalled than the size", sites::stall_too_small),
    with_others(Clause::CountsFit, "a count of pend entries past the places", sites::pend_count),
    with_others(Clause::CountsFit, "a count of stalled past the places", sites::stall_count),
    with_others(Clause::CountsFit, "a count of messages past the places", messages::count),
    alone(Clause::KindsFit, "an entry of no kind", sites::entry_of_no_kind),
    alone(Clause::KindsFit, "a stalled instruction of no kind", sites::waiting_of_no_kind),
    alone(Clause::KindsFit, "a message of no kind", messages::of_no_kind),
    alone(Clause::NoFenceWaits, "a fence in the stall queue", sites::fence_waits),
    alone(Clause::InRange, "a stalled instruction's line past the last", sites::waiting_line),
    alone(Clause::InRange, "a stalled instruction's word past the last", sites::waiting_word),
    alone(Clause::InRange, "an entry's line, and its message's, past the last", messages::entry_line_past),
    alone(Clause::InRange, "an entry's word past the last", sites::entry_word),
    alone(Clause::InRange, "a cached line past the last", sites::cached_line_past),
    with_others(Clause::InRange, "a message's site past the last", messages::site_past),
    alone(Clause::InItsSet, "another line in a place", sites::line_of_another_set),
    alone(Clause::InItsSet, "a line in another set's place", sites::moved_to_another_set),
    alone(Clause::CachedOrPending, "a pending line put into the cache", sites::pending_line_cached),
    alone(Clause::CachedOrPending, "a cached line put into an entry and its message", messages::cached_line_pending),
    alone(Clause::OneEntryForALine, "a fetch's and a write-back's entry for one line", messages::two_trips),
    with_others(Clause::OneEntryForALine, "two entries of one kind of trip for one line", messages::same_trip),
    alone(Clause::TagsDiffer, "a tag twice in the stall queue", sites::tags_stalled),
    alone(Clause::TagsDiffer, "a stalled tag in an entry", sites::tags_stalled_and_pending),
    alone(Clause::TagsDiffer, "a tag in two entries", sites::tags_pending),
    alone(Clause::UnusedHoldsZero, "a memory line past the last", unused::memory_line),
    alone(Clause::UnusedHoldsZero, "a memory word past the last", unused::memory_word),
    alone(Clause::UnusedHoldsZero, "a cache set past the last", unused::set),
    alone(Clause::UnusedHoldsZero, "an empty cache place", unused::place),
    alone(Clause::UnusedHoldsZero, "a cached word or mark past the last", unused::cached_word),
    alone(Clause::UnusedHoldsZero, "a place past the entries", unused::entry),
    alone(Clause::UnusedHoldsZero, "a Loadl's entry with a value or data", unused::loadl_entry),
    alone(Clause::UnusedHoldsZero, "a Storel's entry with data", unused::storel_entry),
    alone(Clause::UnusedHoldsZero, "a Commit's entry with a value or a word past the last", unused::commit_entry),
    alone(Clause::UnusedHoldsZero, "a Reconcile's entry with a value or data", unused::reconcile_entry),
    alone(Clause::UnusedHoldsZero, "a voluntary entry with a word, tag, value or data", unused::voluntary_entry),
    alone(Clause::UnusedHoldsZero, "a place past the stalled", unused::waiting),
    alone(Clause::UnusedHoldsZero, "a stalled instruction, no Storel, with a value", unused::waiting_value),
    alone(Clause::UnusedHoldsZero, "a place past a site's outgoing messages", |system, draws| unused::message(system, draws, parts::OUTGOING)),
    alone(Clause::UnusedHoldsZero, "a place past the up network's messages", |system, draws| unused::message(system, draws, parts::UP)),
    alone(Clause::UnusedHoldsZero, "a place past memory's incoming messages", |system, draws| unused::message(system, draws, parts::ARRIVED)),
    alone(Clause::UnusedHoldsZero, "a place past memory's outgoing messages", |system, draws| unused::message(system, draws, parts::SERVED)),
    alone(Clause::UnusedHoldsZero, "a place past the down network's messages", |system, draws| unused::message(system, draws, parts::DOWN)),
    alone(Clause::UnusedHoldsZero, "a place past a site's incoming messages", |system, draws| unused::message(system, draws, parts::INCOMING)),
    alone(Clause::UnusedHoldsZero, "a fetch with a mark or data", unused::fetch),
    alone(Clause::UnusedHoldsZero, "a write-back with a mark or word past the last", unused::write_back),
    alone(Clause::UnusedHoldsZero, "a fetch reply with a mark or a word past the last", unused::fetch_reply),
    alone(Clause::UnusedHoldsZero, "an acknowledgement with a mark or data", unused::acknowledgement),
    alone(Clause::UnusedHoldsZero, "a place of a site past the last", unused::site),
    alone(Clause::UnusedHoldsZero, "a count of a site past the last", unused::site_count),
    alone(Clause::OneMessageForAnEntry, "an entry's message taken away", messages::taken_away),
    alone(Clause::OneMessageForAnEntry, "an entry's message twice", messages::twice),
    alone(Clause::OneMessageForAnEntry, "an entry without a message", messages::entry_added),
    alone(Clause::OneMessageForAnEntry, "a message without an entry", messages::entry_taken_away),
    alone(Clause::OneMessageForAnEntry, "a message of the other kind of trip", messages::other_trip),
    alone(Clause::OneMessageForAnEntry, "a voluntary entry's message made a fetch's", messages::voluntary_fetch),
    alone(Clause::OneMessageForAnEntry, "an entry of the other kind of trip", messages::entry_of_other_trip),
    alone(Clause::OneMessageForAnEntry, "a message of another line", messages::other_line),
    alone(Clause::OneMessageForAnEntry, "a message of another site", messages::other_site),
    alone(Clause::OneMessageForAnEntry, "a message too many, of a line that is not pending", messages::too_many),
    alone(Clause::RequestsAndRepliesApart, "a request among replies", messages::request_among_replies),
    alone(Clause::RequestsAndRepliesApart, "a reply among requests", messages::reply_among_requests),
    alone(Clause::RequestsAndRepliesApart, "a request made a reply, or the other way round", messages::turned),
    alone(Clause::OwnSiteAlone, "a request in another site's outgoing queue", messages::in_anothers_outgoing),
    alone(Clause::OwnSiteAlone, "a reply in another site's incoming queue", messages::in_anothers_incoming),
];
