//! Document 01, Numbers 1 to 17: what a step gives, and what a faulty record gives.

use crate::record::{Refusal, MOST_BYTES};

/// The document's numbers of refusals.
#[derive(Clone, Copy, Debug, PartialEq, Eq)]
pub enum Number {
    NotSound = 1,
    NoSuchSite = 2,
    AddressPastLast = 4,
    TagOutstanding = 5,
    MayNotIssueYet = 6,
    StallQueueFull = 7,
    NothingThere = 8,
    MustStillWait = 9,
    NoRecord = 10,
    BufferShort = 11,
    SizeOutside = 12,
    RecordLong = 13,
}

impl Number {
    pub fn number(self) -> u32 {
        self as u32
    }
}

impl Refusal {
    pub fn number(self) -> Number {
        match self {
            Refusal::NoRecord(_) => Number::NoRecord,
            Refusal::BufferShort => Number::BufferShort,
            Refusal::SizeOutside => Number::SizeOutside,
            Refusal::RecordLong => Number::RecordLong,
        }
    }

    /// Numbers 17: 10 is given with the place of its fault, 13 with the most bytes of a record, any other with 0.
    pub fn place(self) -> usize {
        match self {
            Refusal::NoRecord(place) => place,
            Refusal::BufferShort | Refusal::SizeOutside => 0,
            Refusal::RecordLong => MOST_BYTES,
        }
    }
}

/// The value that a Loadl read, or that another instruction is done (Steps 11b).
#[derive(Clone, Copy, Debug, PartialEq, Eq)]
pub enum Returned {
    Value(u32),
    Ack,
}

/// What the processor of a site is told.
#[derive(Clone, Copy, Debug, PartialEq, Eq)]
pub struct Answer {
    pub site: u32,
    pub tag: u32,
    pub returned: Returned,
}

/// A step answers one instruction at most, and a refused one none (Steps 11a, Numbers 17a).
#[derive(Clone, Copy, Debug, PartialEq, Eq)]
pub enum Outcome {
    Done(Option<Answer>),
    Refused(Number),
}

impl Outcome {
    pub fn number(self) -> u32 {
        match self {
            Outcome::Done(_) => 0,
            Outcome::Refused(why) => why.number(),
        }
    }
}
