//! What both sides are given to do, made beforehand.

use against::expected::numbers;
use against::layout::to_raw;
use bench::chooser::Chooser;
use bench::draws::Draws;
use bench::given::Outcome;
use bench::longest;
use bench::model::System;
use bench::record::{record, write_step, Step};
use mwb::raw;

const SIZES: [u32; 6] = [4, 4, 16, 8, 5, 8];
const STEPS: usize = 50_000;
/// Of the steps drawn that are refused, one in so many is kept: some one in six of all.
const REFUSED_KEPT: u32 = 20;
/// The record is as much of the walk as has so many bytes.
const RECORD_BYTES: usize = 65_000;
/// A state is kept for each so many steps of the walk.
pub const STEPS_OF_A_STATE: usize = 50;
/// The walk and the record are gone through in so many parts.
pub const PARTS: usize = 50;
pub const DRAINS: usize = 30;

pub struct Work {
    pub fresh: System,
    pub steps: Vec<Step>,
    pub calls: Vec<[u32; 6]>,
    accepted: usize,
    /// States along the walk.
    pub states: Vec<raw::System>,
    pub record: Vec<u8>,
    recorded: usize,
    /// The state with the longest drain.
    pub full: System,
}

impl Work {
    pub fn made() -> Work {
        let fresh = System::fresh(SIZES).expect("sizes in their limits");
        let mut work = Work {
            fresh,
            steps: Vec::new(),
            calls: Vec::new(),
            accepted: 0,
            states: Vec::new(),
            record: record(SIZES, &[]),
            recorded: 0,
            full: System::fresh(longest::SIZES).expect("sizes in their limits"),
        };
        for step in longest::steps() {
            work.full.step(step);
        }
        work.walk(fresh);
        work
    }

    fn walk(&mut self, mut system: System) {
        let mut draws = Draws::from_seed(1);
        let mut chooser = Chooser::new(&mut draws, SIZES);
        while self.steps.len() < STEPS {
            if self.steps.len() == self.states.len() * STEPS_OF_A_STATE {
                self.states.push(to_raw(&system));
            }
            chooser.one_more();
            let step = chooser.likely();
            let accepted = matches!(system.step(step), Outcome::Done(_));
            if accepted || chooser.draws.one_in(REFUSED_KEPT) {
                self.put(step, accepted);
            }
        }
    }

    fn put(&mut self, step: Step, accepted: bool) {
        self.steps.push(step);
        self.calls.push(numbers(step, [0; 6]));
        self.accepted += usize::from(accepted);
        if self.record.len() < RECORD_BYTES {
            write_step(&mut self.record, step);
            self.recorded += 1;
        }
    }

    /// The steps that the record has.
    pub fn recorded(&self) -> &[Step] {
        &self.steps[..self.recorded]
    }

    pub fn described(&self) -> String {
        let sizes = SIZES.map(|size| size.to_string()).join(" ");
        format!("A walk of {} steps, {} of them accepted, sizes {sizes}", self.steps.len(), self.accepted)
    }
}

/// One of the parts of what is gone through.
pub fn part_of<T>(all: &[T], part: usize) -> &[T] {
    &all[all.len() * part / PARTS..all.len() * (part + 1) / PARTS]
}
