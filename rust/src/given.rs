//! What a call gives back (document 01, Numbers 1 to 17).

use crate::raw;
use crate::record::MOST_BYTES;
use std::fmt;

/// What the processor of a site is told: the value that a Loadl read, or that another instruction is done (Steps 11).
#[derive(Clone, Copy, Debug, PartialEq, Eq)]
pub enum Answer {
    Loaded { site: u32, tag: u32, value: u32 },
    Acknowledged { site: u32, tag: u32 },
}

/// As replay prints it (Replay 2b).
impl fmt::Display for Answer {
    fn fmt(&self, out: &mut fmt::Formatter) -> fmt::Result {
        match self {
            Answer::Loaded { site, tag, value } => write!(out, "answer {site} {tag} {value}"),
            Answer::Acknowledged { site, tag } => write!(out, "answer {site} {tag} ack"),
        }
    }
}

/// Why a call did nothing.
#[derive(Clone, Copy, Debug, PartialEq, Eq)]
pub enum Refusal {
    NotSound,
    NoSuchSite,
    AddressPastLast,
    TagOutstanding,
    MayNotIssue,
    StallFull,
    /// Nothing stands in the queue, or at that position of the network.
    NothingThere,
    MustStillWait,
    /// With the place of the number that is at fault.
    NoRecord(usize),
    BufferShort,
    SizeOutside,
    RecordLong,
}

impl Refusal {
    /// The document's number.
    pub fn number(self) -> u32 {
        match self {
            Refusal::NotSound => 1,
            Refusal::NoSuchSite => 2,
            Refusal::AddressPastLast => 4,
            Refusal::TagOutstanding => 5,
            Refusal::MayNotIssue => 6,
            Refusal::StallFull => 7,
            Refusal::NothingThere => 8,
            Refusal::MustStillWait => 9,
            Refusal::NoRecord(_) => 10,
            Refusal::BufferShort => 11,
            Refusal::SizeOutside => 12,
            Refusal::RecordLong => 13,
        }
    }

    /// Where a faulty number begins, for 10; the most bytes of a record, for 13; any other has 0 (Numbers 17).
    pub fn place(self) -> usize {
        match self {
            Refusal::NoRecord(place) => place,
            Refusal::RecordLong => MOST_BYTES,
            _ => 0,
        }
    }

    /// The refusal of the number that a call gave; 0 is none.
    pub(crate) fn unless_done(number: u32, place: usize) -> Result<(), Refusal> {
        if number == 0 {
            return Ok(());
        }
        let all = [
            Refusal::NotSound,
            Refusal::NoSuchSite,
            Refusal::AddressPastLast,
            Refusal::TagOutstanding,
            Refusal::MayNotIssue,
            Refusal::StallFull,
            Refusal::NothingThere,
            Refusal::MustStillWait,
            Refusal::NoRecord(place),
            Refusal::BufferShort,
            Refusal::SizeOutside,
            Refusal::RecordLong,
        ];
        Err(all.into_iter().find(|why| why.number() == number).expect("the library gives the document's numbers"))
    }
}

/// A step answers one instruction at most, and a refused one none (Steps 11, Numbers 17a).
pub(crate) fn answer(given: raw::Given) -> Result<Option<Answer>, Refusal> {
    Refusal::unless_done(given.number, given.place)?;
    let raw::Given { answered, site, tag, value, .. } = given;
    Ok(match answered {
        0 => None,
        1 => Some(Answer::Loaded { site, tag, value }),
        _ => Some(Answer::Acknowledged { site, tag }),
    })
}
