//! The clauses of document 01's "sound" (Parts 9 and 10).

/// The clauses, in the document's order.
#[derive(Clone, Copy, Debug, PartialEq, Eq)]
pub enum Clause {
    SizesInLimits,
    CountsFit,
    KindsFit,
    NoFenceWaits,
    InRange,
    InItsSet,
    CachedOrPending,
    OneEntryForALine,
    TagsDiffer,
    UnusedHoldsZero,
    OneMessageForAnEntry,
    RequestsAndRepliesApart,
    OwnSiteAlone,
}

/// What each clause asks.
pub const CLAUSES: [(Clause, &str); 13] = [
    (Clause::SizesInLimits, "each size is from 1 to its most"),
    (Clause::CountsFit, "no count is above its most"),
    (Clause::KindsFit, "there are no unknown kinds"),
    (Clause::NoFenceWaits, "what is stalled is no fence"),
    (Clause::InRange, "every site, line and word that is named exists"),
    (Clause::InItsSet, "a line is cached in the set of its number"),
    (Clause::CachedOrPending, "a line that pends is not cached at that site"),
    (Clause::OneEntryForALine, "a line pends at most once at a site"),
    (Clause::TagsDiffer, "a site uses no tag twice at a time"),
    (Clause::UnusedHoldsZero, "whatever is unused is 0"),
    (Clause::OneMessageForAnEntry, "pend entries and messages belong together, one to one"),
    (Clause::RequestsAndRepliesApart, "requests go up, replies come down"),
    (Clause::OwnSiteAlone, "what stands in a site's queues is its own"),
];

/// The clauses that a state breaks, a bit for each.
#[derive(Clone, Copy, Debug, Default, PartialEq, Eq)]
pub struct Broken(u16);

impl Broken {
    pub fn only(clause: Clause) -> Broken {
        Broken(1 << clause as u16)
    }

    pub fn nothing(self) -> bool {
        self.0 == 0
    }

    pub fn includes(self, clause: Clause) -> bool {
        self.0 & Broken::only(clause).0 != 0
    }

    pub fn unless(&mut self, clause: Clause, holds: bool) {
        self.0 |= u16::from(!holds) << clause as u16;
    }

    pub fn join(&mut self, other: Broken) {
        self.0 |= other.0;
    }
}
