//! Steps over all sizes, each taken by both: the answer and the whole state.

use crate::seldom::Counts;
use crate::walk::{compare_fresh, Compared, Walk};
use bench::chooser::sizes_drawn;
use bench::draws::Draws;
use bench::rows::Row;

const STEPS: u64 = 1_000_000;
const FRESH: u64 = 20_000;
const LEAST: u64 = 1_000;
const LEAST_OF_A_ROW: u64 = 100;
const LENGTHS: [u32; 5] = [10, 100, 400, 1_000, 3_000];

/// The numbers that a step can give, for a sound state.
const NUMBERS: [u32; 9] = [0, 2, 4, 5, 6, 7, 8, 9, 10];

pub fn compare(draws: &mut Draws) -> Result<Vec<String>, String> {
    let (mut walks, mut counts) = (0, Counts::of(NUMBERS.map(|number| format!("gave {number}"))));
    let mut rows = Counts::of(Row::ALL.iter().map(|row| row.name()));
    while counts.total() < STEPS {
        let length = draws.pick(&LENGTHS);
        let mut walk = Walk::begin(draws)?;
        for _ in 0..length {
            let Compared { number, row } = walk.advance()?;
            counts.add(NUMBERS.iter().position(|known| *known == number).ok_or(format!("no step gives {number}"))?);
            row.into_iter().for_each(|row| rows.add(row as usize));
        }
        walks += 1;
    }
    counts.at_least(LEAST)?;
    rows.at_least(LEAST_OF_A_ROW)?;
    let refused = fresh_systems(draws)?;
    let mut lines = vec![format!("{} steps in {walks} walks: the answer and the whole state after each", counts.total())];
    lines.extend(counts.lines());
    lines.push(format!("  each of the {} cases of the rules was met, the rarest {} times", Row::ALL.len(), rows.least()));
    lines.push(format!("{FRESH} fresh systems, {refused} of them refused with 12"));
    Ok(lines)
}

/// Sizes in their limits, and with one outside them. Gives how many were refused.
fn fresh_systems(draws: &mut Draws) -> Result<u64, String> {
    let mut refused = 0;
    for _ in 0..FRESH {
        let mut sizes = sizes_drawn(draws);
        if draws.one_in(2) {
            sizes[draws.below(6) as usize] = draws.of_any_length();
        }
        refused += u64::from(compare_fresh(sizes)?.sizes.sites == 0);
    }
    Ok(refused)
}
