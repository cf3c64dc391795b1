//! Document 01, Drain 1 to 6: in place, the steps' bytes written into a lent buffer.

use crate::given::Number;
use crate::model::System;
use crate::record::{read_step, write_step, Step};

/// No drain takes more steps (Drain 5).
pub const MOST_STEPS: usize = 656;

/// What a drain gives: the steps taken, whether the system is quiet then, and the length of the steps' bytes.
#[derive(Clone, Copy, Debug, PartialEq, Eq)]
pub struct Drained {
    pub count: usize,
    pub quiet: bool,
    pub length: usize,
}

impl System {
    /// 11: two bytes for each step that it may take have to fit, for 656 steps at most. What stands behind the bytes written is kept (Drain 4, 6).
    pub fn drain_into(&mut self, budget: usize, buf: &mut [u8]) -> Result<Drained, Number> {
        if buf.len() < 2 * budget.min(MOST_STEPS) {
            return Err(Number::BufferShort);
        }
        let mut written = Lent { buf, length: 0 };
        let mut count = 0;
        while count < budget {
            let Some(step) = self.take_first() else { break };
            write_step(&mut written, step);
            count += 1;
        }
        Ok(Drained { count, quiet: self.is_quiet(), length: written.length })
    }

    /// The steps taken, and whether the system is quiet then.
    pub fn drain(&mut self, budget: usize) -> (Vec<Step>, bool) {
        let mut buf = [0; 2 * MOST_STEPS];
        let Drained { count, quiet, length } = self.drain_into(budget, &mut buf).expect("room for every drain");
        let mut steps = Vec::with_capacity(count);
        let mut at = 0;
        while let Ok(Some((step, next))) = read_step(&buf[..length], at) {
            steps.push(step);
            at = next;
        }
        (steps, quiet)
    }

    /// The first step that succeeds, from kind 7 down to 1, from site 0 up, and of each network the oldest message (Drain 1).
    fn take_first(&mut self) -> Option<Step> {
        let sites = 0..u32::from(self.sizes.sites);
        let unseen = &mut |_| ();
        (sites.clone().find(|site| self.take(*site, unseen).is_ok()).map(Step::Take))
            .or_else(|| self.arrive_site(0).is_ok().then_some(Step::ArriveSite(0)))
            .or_else(|| self.send_back().is_ok().then_some(Step::SendBack))
            .or_else(|| self.serve().is_ok().then_some(Step::Serve))
            .or_else(|| self.arrive_memory(0).is_ok().then_some(Step::ArriveMemory(0)))
            .or_else(|| sites.clone().find(|site| self.send(*site).is_ok()).map(Step::Send))
            .or_else(|| sites.clone().find(|site| self.retry(*site, unseen).is_ok()).map(Step::Retry))
    }

    /// Nothing but an issue could be done (Drain 3b): no message is under way, so no entry is pending, and then no head of a stall queue would have to wait.
    pub fn is_quiet(&self) -> bool {
        self.messages() == 0 && self.sites.iter().all(|site| site.stall.is_empty())
    }
}

/// A lent buffer, filled from its start.
struct Lent<'a> {
    buf: &'a mut [u8],
    length: usize,
}

impl Extend<u8> for Lent<'_> {
    fn extend<I: IntoIterator<Item = u8>>(&mut self, bytes: I) {
        for byte in bytes {
            self.buf[self.length] = byte;
            self.length += 1;
        }
    }
}
