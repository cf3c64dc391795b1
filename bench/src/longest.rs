//! The state with the longest drain: at each site a Dirty line, five fetches for Storels under way, and eight Storels that wait. Each of the
//! thirteen Storels displaces the Dirty line before it, so that each is two trips of six steps, and each of the eight has a retry.

use crate::record::{Instruction, Step};

pub const SIZES: [u32; 6] = [4, 4, 16, 1, 5, 8];

/// The steps that lead there from a fresh system.
pub fn steps() -> Vec<Step> {
    let mut steps = Vec::new();
    for site in 0..SIZES[0] {
        steps.push(storel(site, 0));
        steps.extend(Step::trip(site));
        steps.extend((1..14).map(|line| storel(site, line)));
    }
    steps
}

/// A Storel of its own tag to the first word of its own line.
fn storel(site: u32, line: u32) -> Step {
    Step::Issue { site, tag: line, instruction: Instruction::Storel(line * SIZES[1], 1) }
}
