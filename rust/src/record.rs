//! Records (document 01, Record 1 to 7): sizes and steps read from bytes, and written into a lent buffer.

use crate::call;
use crate::given::Refusal;
use crate::raw::{Row, SizesRead, StepRead, Wrote};
use crate::step::Step;
use crate::system::Sizes;

/// A record is at most so many bytes long.
pub const MOST_BYTES: usize = 65_536;

/// The sizes at a record's start, and the offset past them. 13, then 10, then 12.
pub fn read_sizes(bytes: &[u8]) -> Result<(Sizes, usize), Refusal> {
    let SizesRead { number, place, next, sites, words, lines, sets, pend, stall } = call::read_sizes(bytes);
    Refusal::unless_done(number, place)?;
    Ok((Sizes { sites, words, lines, sets, pend, stall }, next))
}

/// The step at an offset and the offset past it; `None` is the end, where the offset is the length. 13, then 10.
pub fn read_step(bytes: &[u8], at: usize) -> Result<Option<(Step, usize)>, Refusal> {
    let StepRead { number, end, place, next, step, site, instruction, tag, first, second } = call::read_step(bytes, at);
    Refusal::unless_done(number, place)?;
    Ok((end == 0).then(|| (Step::from_numbers([step, site, instruction, tag, first, second]), next)))
}

/// The sizes, written at the buffer's start; gives the offset past them. 12, then 11.
pub fn write_sizes(buf: &mut [u8], sizes: Sizes) -> Result<usize, Refusal> {
    past(call::write_sizes(buf, sizes.numbers()))
}

/// A step, written at an offset; gives the offset past it. 13, then 11.
pub fn write_step(buf: &mut [u8], at: usize, step: Step) -> Result<usize, Refusal> {
    past(call::write_step(buf, at, step.numbers()))
}

/// The record of sizes and steps, written at the buffer's start, all of it or nothing; gives its length. 12, then 13, then 11: a [`Step`] always is one.
pub fn write_record(buf: &mut [u8], sizes: Sizes, steps: &[Step]) -> Result<usize, Refusal> {
    let rows: Vec<Row> = steps.iter().map(|step| step.row()).collect();
    past(call::write_rows(buf, sizes.numbers(), &rows))
}

fn past(wrote: Wrote) -> Result<usize, Refusal> {
    Refusal::unless_done(wrote.number, wrote.place)?;
    Ok(wrote.next)
}
