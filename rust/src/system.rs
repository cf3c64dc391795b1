//! A system, held here; a step changes it in place.

use crate::call::{self, Six};
use crate::given::{answer, Answer, Refusal};
use crate::raw;
use crate::step::Step;

/// No drain takes more steps, so with this budget it leaves the system quiet (Drain 5).
pub const MOST_DRAIN: usize = 656;

/// The six sizes of a system, in the document's order.
#[derive(Clone, Copy, Debug, PartialEq, Eq)]
pub struct Sizes {
    pub sites: u32,
    pub words: u32,
    pub lines: u32,
    pub sets: u32,
    pub pend: u32,
    pub stall: u32,
}

impl Sizes {
    pub(crate) fn numbers(self) -> Six {
        [self.sites, self.words, self.lines, self.sets, self.pend, self.stall]
    }
}

/// What a drain did: the steps that it took, whether the system is quiet now, and the length of the steps' bytes.
#[derive(Clone, Copy, Debug, PartialEq, Eq)]
pub struct Drained {
    pub count: usize,
    pub quiet: bool,
    pub length: usize,
}

/// A system in some state.
#[derive(Clone, Debug, PartialEq, Eq)]
pub struct System(raw::System);

impl System {
    /// A fresh one: memory holds 0, and nothing is cached, pending, stalled or under way (Parts 7). 12 for a size that is not within its limits.
    pub fn fresh(sizes: Sizes) -> Result<System, Refusal> {
        let mut system = raw::System::default();
        answer(call::fresh(&mut system, sizes.numbers()))?;
        Ok(System(system))
    }

    /// A state as it is, sound or not: a step and a drain look first.
    pub fn from_raw(system: raw::System) -> System {
        System(system)
    }

    pub fn raw(&self) -> &raw::System {
        &self.0
    }

    /// From a fresh system no step leads to one that is not (Parts 12).
    pub fn sound(&self) -> bool {
        call::sound(&self.0) == 1
    }

    /// The step and what it answers; a refused one changes nothing.
    pub fn step(&mut self, step: Step) -> Result<Option<Answer>, Refusal> {
        answer(call::step(&mut self.0, step.numbers()))
    }

    /// Steps until nothing but an issue would be accepted or `budget` steps are taken, and writes them into `buf` from its start. 1, then 11:
    /// where `buf` has fewer than 2 * `budget` bytes and fewer than 1312 (Drain 4).
    pub fn drain(&mut self, budget: usize, buf: &mut [u8]) -> Result<Drained, Refusal> {
        let raw::Drained { number, quiet, count, length } = call::drain(&mut self.0, budget, buf);
        Refusal::unless_done(number, 0)?;
        Ok(Drained { count, quiet: quiet == 1, length })
    }
}
