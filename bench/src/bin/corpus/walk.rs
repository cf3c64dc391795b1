//! A random walk through a system, written down as a record.

use bench::chooser::Chooser;
use bench::draws::Draws;
use bench::given::Outcome;
use bench::model::System;
use bench::record::{record, write_step, Step, MOST_BYTES};

/// No step is longer in a record: a step and an instruction number, and four numbers of five bytes.
const LONGEST_STEP: usize = 22;

pub struct Walk<'a> {
    chooser: Chooser<'a>,
    system: System,
    pub record: Vec<u8>,
}

impl<'a> Walk<'a> {
    pub fn new(draws: &'a mut Draws, sizes: [u32; 6]) -> Walk<'a> {
        let system = System::fresh(sizes).expect("sizes in their limits");
        Walk { chooser: Chooser::new(draws, sizes), system, record: record(sizes, &[]) }
    }

    pub fn of_length(draws: &'a mut Draws, sizes: [u32; 6], steps: u32) -> Walk<'a> {
        let mut walk = Walk::new(draws, sizes);
        for _ in 0..steps {
            walk.advance();
        }
        walk
    }

    /// Steps, and writes the step down if it is accepted.
    fn offer(&mut self, step: Step) -> bool {
        let accepted = matches!(self.system.step(step), Outcome::Done(_));
        if accepted {
            write_step(&mut self.record, step);
        }
        accepted
    }

    /// Draws until a step is accepted; a mood that offers none passes.
    fn go_on(&mut self) {
        loop {
            for _ in 0..60 {
                let step = self.chooser.likely();
                if self.offer(step) {
                    return;
                }
            }
            self.chooser.change_mood();
        }
    }

    /// One step more: mostly one that is accepted, now and then one that is written down whatever it gives.
    pub fn advance(&mut self) {
        self.chooser.one_more();
        let step = match self.chooser.draws.below(40) {
            0 => self.chooser.far_off(),
            1..=3 => self.chooser.unsteered(),
            _ => return self.go_on(),
        };
        self.system.step(step);
        write_step(&mut self.record, step);
    }

    pub fn has_room(&self) -> bool {
        self.record.len() + LONGEST_STEP <= MOST_BYTES
    }

    /// No issue any more, until no message and no outstanding instruction is left.
    pub fn rest(&mut self) {
        self.chooser.issue_no_more();
        while self.system.outstanding() + self.system.messages() > 0 && self.has_room() {
            let step = self.chooser.likely();
            self.offer(step);
        }
    }
}
