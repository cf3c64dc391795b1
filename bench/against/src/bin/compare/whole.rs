//! Whole records, each written in one call: rows that name steps and rows that name none, cut, around the most bytes, in buffers with and without room.

use crate::same::{same, same_bytes, Same};
use crate::seldom::Counts;
use crate::writing::{any_step, Buffers, WRITERS};
use against::expected::{numbers, wrote_whole};
use bench::chooser::sizes_drawn;
use bench::draws::Draws;
use bench::record::{in_limits, record, step_named, write_record, write_step, Step, MOST_BYTES};
use mwb::call;

const SHORT_LISTS: u32 = 20_000;
const LONG_LISTS: u32 = 1_500;
const MOST_STEPS: u32 = 40;
const LEAST: u64 = 100;

pub fn compare(draws: &mut Draws) -> Result<Vec<String>, String> {
    let mut whole = Whole { given: Counts::of(WRITERS.map(|number| format!("gave {number}"))), held: Counts::of((0..16).map(together)) };
    for _ in 0..SHORT_LISTS {
        let steps = (0..draws.below(MOST_STEPS)).map(|_| any_step(draws)).collect();
        whole.list(steps, draws)?;
    }
    for _ in 0..LONG_LISTS {
        let steps = around_the_most(draws);
        whole.list(steps, draws)?;
    }
    whole.given.at_least(LEAST)?;
    whole.held.at_least(LEAST)?;
    let mut lines = vec![format!("{} whole records written: what the writer gives, the whole buffer", whole.given.total())];
    lines.extend(whole.given.lines());
    lines.push("  what held of them, the first number of which is given:".into());
    lines.extend(whole.held.lines());
    Ok(lines)
}

/// What is to be written, and where: so many bytes.
struct Case {
    sizes: [u32; 6],
    numbers: Vec<u32>,
    length: usize,
}

struct Whole {
    given: Counts,
    held: Counts,
}

impl Whole {
    /// A list of steps in buffers at the record's length; then the same damaged, in buffers of any length.
    fn list(&mut self, steps: Vec<Step>, draws: &mut Draws) -> Same {
        let sizes = sizes_drawn(draws);
        let all: Vec<u32> = steps.iter().flat_map(|step| numbers(*step, std::array::from_fn(|_| draws.of_any_length()))).collect();
        let length = record(sizes, &steps).len();
        for length in [length, length - 1, length + draws.below(9) as usize] {
            self.case(&Case { sizes, numbers: all.clone(), length })?;
        }
        self.through_steps(sizes, &all)?;
        for _ in 0..3 {
            let case = damaged(Case { sizes, numbers: all.clone(), length }, draws);
            self.case(&case)?;
        }
        Ok(())
    }

    fn case(&mut self, case: &Case) -> Same {
        let mut buffers = Buffers::of_length(case.length);
        let gives = wrote_whole(write_record(&mut buffers.expected, case.sizes, &case.numbers));
        let given = call::write_record(&mut buffers.library, case.sizes, &case.numbers);
        self.given.add(WRITERS.iter().position(|known| *known == given.number).expect("a number that writers give"));
        self.held.add(case.holds());
        let told = |what| format!("{what}\nsizes {:?}, {} numbers, {} bytes", case.sizes, case.numbers.len(), case.length);
        buffers.same(gives, given).map_err(told)
    }

    /// The module's own writer, of the steps that it reads of the record, writes the record again.
    fn through_steps(&mut self, sizes: [u32; 6], numbers: &[u32]) -> Same {
        let mut buffers = Buffers::of_length(MOST_BYTES);
        let Ok(length) = write_record(&mut buffers.expected, sizes, numbers) else { return Ok(()) };
        let bytes = &buffers.expected[..length];
        let (sizes, mut at) = mwb::read_sizes(bytes).expect("a record");
        let mut steps = Vec::new();
        while let Some((step, next)) = mwb::read_step(bytes, at).expect("a record") {
            steps.push(step);
            at = next;
        }
        same("the length that the module gives", Ok(length), mwb::write_record(&mut buffers.library, sizes, &steps))?;
        same_bytes(&buffers.expected, &buffers.library)
    }
}

impl Case {
    /// Which of 12, 10, 13 and 11 hold, a bit each; rows that name no step have no bytes.
    fn holds(&self) -> usize {
        let rows = self.numbers.chunks(6);
        let steps: Vec<Step> = rows.clone().filter_map(|row| row.try_into().ok().and_then(step_named)).collect();
        let length = record(self.sizes, &steps).len();
        let held = [!in_limits(self.sizes), steps.len() < rows.len(), length > MOST_BYTES, length > self.length];
        held.iter().enumerate().map(|(bit, held)| usize::from(*held) << bit).sum()
    }
}

/// The numbers that hold, in the order in which they are looked at.
fn together(bits: usize) -> String {
    let held: Vec<&str> = ["12", "10", "13", "11"].iter().enumerate().filter(|(bit, _)| bits >> bit & 1 == 1).map(|(_, name)| *name).collect();
    match held.as_slice() {
        [] => "none".into(),
        held => held.join(", "),
    }
}

/// Some of: a size changed, rows that name no step, the last row cut, another buffer.
fn damaged(mut case: Case, draws: &mut Draws) -> Case {
    if draws.one_in(2) {
        case.sizes[draws.below(6) as usize] = draws.of_any_length();
    }
    let rows = case.numbers.len() / 6;
    if draws.one_in(2) && rows > 0 {
        for _ in 0..=draws.below(3) {
            no_step_in(&mut case.numbers, draws.below(rows as u32) as usize, draws);
        }
    }
    if draws.one_in(4) && rows > 0 {
        case.numbers.truncate(6 * rows - draws.between((1, 5)) as usize);
    }
    if draws.one_in(2) {
        case.length = draws.below(2 * case.length as u32) as usize;
    }
    case
}

/// A row becomes one that names no step, by its step number or, as an issue, by its instruction number.
fn no_step_in(numbers: &mut [u32], row: usize, draws: &mut Draws) {
    let above = draws.of_any_length().max(8);
    let six: [u32; 6] = if draws.one_in(2) { [above, 0, 0, 0, 0, 0] } else { [0, 0, above, 0, 0, 0] };
    numbers[6 * row..6 * row + 6].copy_from_slice(&six);
}

/// Steps whose record ends a few bytes before, at or past the most, or far past it.
fn around_the_most(draws: &mut Draws) -> Vec<Step> {
    let far = if draws.one_in(2) { MOST_BYTES + draws.below(90_000) as usize } else { MOST_BYTES };
    let length = far - 4 + draws.below(9) as usize;
    let (mut steps, mut at) = (Vec::new(), 6);
    while at + 40 < length {
        let step = any_step(draws);
        let mut bytes = Vec::new();
        write_step(&mut bytes, step);
        at += bytes.len();
        steps.push(step);
    }
    // A serve is a byte.
    steps.extend([Step::Serve].repeat(length - at));
    steps
}
