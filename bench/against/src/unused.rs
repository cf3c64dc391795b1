//! Parts 9i: whatever has to hold 0 is put together, and looked at once.

use mwb::raw::{Entry, Message, Place, Waiting};

pub type Words = [u32; 4];

pub const ALL: Words = [u32::MAX; 4];

pub fn marks(dirty: [bool; 4]) -> u32 {
    u32::from_le_bytes(dirty.map(u8::from))
}

/// The bits of everything that has to hold 0.
#[derive(Clone, Copy, Default)]
pub struct Unused {
    words: Words,
    numbers: u32,
}

impl Unused {
    pub fn number(&mut self, number: u32) {
        self.numbers |= number;
    }

    /// Bytes that stand beside each other are looked at together; one that is given twice does no harm.
    pub fn bytes(&mut self, bytes: [u8; 4]) {
        self.numbers |= u32::from_le_bytes(bytes);
    }

    /// The words where the mask has ones.
    pub fn words(&mut self, words: Words, mask: Words) {
        self.words = std::array::from_fn(|word| self.words[word] | (words[word] & mask[word]));
    }

    pub fn place(&mut self, Place { used, line, dirty, values }: &Place) {
        self.bytes([u8::from(*used), *line, u8::from(dirty[0]), u8::from(dirty[1])]);
        self.number(marks(*dirty));
        self.words(*values, ALL);
    }

    pub fn entries(&mut self, entries: &[Entry]) {
        for Entry { kind, line, word, tag, value, values } in entries {
            self.number(u32::from(kind | line | word));
            self.number(tag | value);
            self.words(*values, ALL);
        }
    }

    pub fn waiting(&mut self, waiting: &[Waiting]) {
        for Waiting { kind, line, word, tag, value } in waiting {
            self.number(u32::from(kind | line | word));
            self.number(tag | value);
        }
    }

    pub fn messages(&mut self, messages: &[Message]) {
        for Message { kind, site, line, dirty, values } in messages {
            self.bytes([*kind, *site, *line, u8::from(dirty[0])]);
            self.number(marks(*dirty));
            self.words(*values, ALL);
        }
    }

    pub fn join(&mut self, other: Unused) {
        self.number(other.numbers);
        self.words(other.words, ALL);
    }

    pub fn is_zero(&self) -> bool {
        self.words == [0; 4] && self.numbers == 0
    }
}
