//! The readers of sizes and of a step, on any bytes and at any offset.

use crate::same::{same, Same};
use crate::seldom::Counts;
use against::expected::{sizes_read, step_read};
use bench::draws::Draws;
use bench::record::{read_sizes, read_step};
use mwb::call;

/// The numbers that they give.
pub const READERS: [u32; 4] = [0, 10, 12, 13];

pub struct Reading {
    pub given: Counts,
    pub ends: u64,
}

impl Reading {
    /// The sizes; the steps behind them, to the end or to the fault; and what stands at some other offsets.
    pub fn through(&mut self, bytes: &[u8], draws: &mut Draws) -> Same {
        let found = self.sizes_and_steps(bytes).and_then(|()| self.elsewhere(bytes, draws));
        found.map_err(|what| {
            let shown: Vec<String> = bytes.iter().take(2_000).map(|byte| format!("{byte:02X}")).collect();
            format!("{what}\nin {} bytes, the first of them {}", bytes.len(), shown.join(" "))
        })
    }

    fn sizes_and_steps(&mut self, bytes: &[u8]) -> Same {
        let expected = read_sizes(bytes);
        let given = call::read_sizes(bytes);
        same("what the sizes' reader gives", sizes_read(expected), given)?;
        self.count(given.number);
        let mut at = expected.map_or(0, |(_, past)| past);
        while let Some(next) = self.step(bytes, at)? {
            at = next;
        }
        Ok(())
    }

    /// Within, just beyond, and far beyond.
    fn elsewhere(&mut self, bytes: &[u8], draws: &mut Draws) -> Same {
        let within = draws.below(bytes.len() as u32 + 1) as usize;
        let beyond = bytes.len() + draws.below(4) as usize;
        let far = usize::MAX - draws.below(4) as usize;
        for at in [within, beyond, draws.of_any_length() as usize, far] {
            self.step(bytes, at)?;
        }
        Ok(())
    }

    /// Gives the offset past the step, where there is one.
    fn step(&mut self, bytes: &[u8], at: usize) -> Result<Option<usize>, String> {
        let expected = read_step(bytes, at);
        let given = call::read_step(bytes, at);
        same("what the step's reader gives", step_read(expected), given).map_err(|what| format!("{what}\nat {at}"))?;
        self.count(given.number);
        self.ends += u64::from(expected == Ok(None));
        Ok(expected.ok().flatten().map(|(_, next)| next))
    }

    fn count(&mut self, number: u32) {
        self.given.add(READERS.iter().position(|known| *known == number).expect("a number that readers give"));
    }
}
