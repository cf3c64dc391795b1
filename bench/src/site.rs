//! Document 01, Parts 1 to 11: what a site, a pend entry and a message hold. Nothing here allocates.

use crate::given::{Answer, Returned};
use crate::list::List;
use crate::record::LIMITS;

pub const MOST_SITES: usize = LIMITS[0].1 as usize;
pub const MOST_WORDS: usize = LIMITS[1].1 as usize;
pub const MOST_LINES: usize = LIMITS[2].1 as usize;
pub const MOST_SETS: usize = LIMITS[3].1 as usize;
pub const MOST_PEND: usize = LIMITS[4].1 as usize;
pub const MOST_STALL: usize = LIMITS[5].1 as usize;

/// Parts 8: a pend entry has one message, and each queue has a place for all that can stand in it.
pub const MOST_MESSAGES: usize = MOST_SITES * MOST_PEND;

#[derive(Clone, Copy, Debug, PartialEq)]
pub struct Sizes {
    pub sites: u8,
    pub words: u8,
    pub lines: u8,
    pub sets: u8,
    pub pend: u8,
    pub stall: u8,
}

impl Sizes {
    /// Covers 11: the line is the quotient by the words of a line, the word the remainder; `None` where memory has no such address.
    pub fn address(self, a: u32) -> Option<Address> {
        let inside = a < u32::from(self.words) * u32::from(self.lines);
        inside.then(|| Address { line: a as u8 / self.words, word: a as u8 % self.words })
    }

    /// Parts 2a: a line's set.
    pub fn set(self, line: u8) -> usize {
        usize::from(line % self.sets)
    }
}

#[derive(Clone, Copy, Debug, Default, PartialEq)]
pub struct Address {
    pub line: u8,
    pub word: u8,
}

pub type Words = [u32; MOST_WORDS];

/// A line's words, and a bit for each word that is marked Dirty.
#[derive(Clone, Copy, Debug, PartialEq)]
pub struct Cell {
    pub words: Words,
    pub dirty: u8,
}

impl Cell {
    pub fn clean(words: Words) -> Cell {
        Cell { words, dirty: 0 }
    }

    pub fn is_dirty(&self, word: u8) -> bool {
        (self.dirty >> word) & 1 == 1
    }

    pub fn all_clean(&self) -> bool {
        self.dirty == 0
    }

    pub fn word(&self, word: u8) -> u32 {
        self.words[usize::from(word)]
    }

    /// Serve 2a: takes over each Dirty word, no Clean one.
    pub fn store_dirty_into(&self, memory: &mut Words) {
        for word in (0..MOST_WORDS as u8).filter(|word| self.is_dirty(*word)) {
            memory[usize::from(word)] = self.word(word);
        }
    }

    /// Handling 4: the word is overwritten and becomes Dirty.
    pub fn store(&mut self, word: u8, value: u32) {
        self.words[usize::from(word)] = value;
        self.dirty |= 1 << word;
    }
}

#[derive(Clone, Copy, Debug, PartialEq)]
pub struct Cached {
    pub line: u8,
    pub cell: Cell,
}

#[derive(Clone, Copy, Debug, Default, PartialEq)]
pub enum Kind {
    #[default]
    Loadl,
    Storel(u32),
    Commit,
    Reconcile,
}

/// An instruction that reaches the cache: any but a fence.
#[derive(Clone, Copy, Debug, Default, PartialEq)]
pub struct Access {
    pub tag: u32,
    pub at: Address,
    pub kind: Kind,
}

#[derive(Clone, Copy, Debug, PartialEq)]
pub enum Entry {
    /// An instruction's, with the words of a Commit's line; any other has no data, all 0.
    For(Access, Words),
    /// A displaced line's: nothing but the line (Take 9b).
    Voluntary(u8),
}

impl Entry {
    pub fn line(&self) -> u8 {
        match self {
            Entry::For(access, _) => access.at.line,
            Entry::Voluntary(line) => *line,
        }
    }

    fn access(&self) -> Option<&Access> {
        match self {
            Entry::For(access, _) => Some(access),
            Entry::Voluntary(_) => None,
        }
    }
}

impl Default for Entry {
    fn default() -> Self {
        Entry::Voluntary(0)
    }
}

/// A request on its way to memory, or a reply on its way to the site.
#[derive(Clone, Copy, Debug, Default, PartialEq)]
pub struct Message<Body> {
    pub site: u8,
    pub line: u8,
    pub body: Body,
}

#[derive(Clone, Copy, Debug, Default, PartialEq)]
pub enum Request {
    #[default]
    Fetch,
    /// Handling 8c: every word of the line, and every mark.
    WriteBack(Cell),
}

#[derive(Clone, Copy, Debug, Default, PartialEq)]
pub enum Reply {
    Line(Words),
    #[default]
    Acknowledgement,
}

#[derive(Clone, Copy, Debug, Default, PartialEq)]
pub struct Site {
    pub number: u8,
    /// Parts 2a: a place for each set.
    pub cache: [Option<Cached>; MOST_SETS],
    /// Parts 2c: the oldest in front.
    pub pend: List<Entry, MOST_PEND>,
    pub stall: List<Access, MOST_STALL>,
    pub outgoing: List<Message<Request>, MOST_PEND>,
    pub incoming: List<Message<Reply>, MOST_PEND>,
}

impl Site {
    /// Instructions that have no answer yet: the stalled ones, and those with a pend entry (Parts 11).
    pub fn outstanding(&self) -> impl Iterator<Item = &Access> {
        self.stall.iter().chain(self.pend.iter().filter_map(Entry::access))
    }

    pub fn place(&mut self, sizes: Sizes, line: u8) -> &mut Option<Cached> {
        &mut self.cache[sizes.set(line)]
    }

    pub fn cached(&mut self, sizes: Sizes, line: u8) -> Option<&mut Cell> {
        self.place(sizes, line).as_mut().filter(|cached| cached.line == line).map(|cached| &mut cached.cell)
    }

    pub fn answer(&self, tag: u32, returned: Returned) -> Answer {
        Answer { site: u32::from(self.number), tag, returned }
    }

    pub fn request(&mut self, line: u8, body: Request) {
        self.outgoing.push(Message { site: self.number, line, body });
    }
}
