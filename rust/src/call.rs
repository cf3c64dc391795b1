//! The calls, made safe; all that is unsafe is here. Each pointer comes from a reference, so it points to an object of its type, and what is lent
//! for writing is lent to nothing else. For an empty slice it is not null, and no byte is there to be touched.

use crate::raw::{self, Drained, Given, SizesRead, StepRead, Wrote};

/// Six numbers, in the order of the call: the sizes, or a step's numbers.
pub type Six = [u32; 6];

pub fn fresh(system: &mut raw::System, [sites, words, lines, sets, pend, stall]: Six) -> Given {
    unsafe { raw::mwb_fresh(system, sites, words, lines, sets, pend, stall) }
}

pub fn sound(system: &raw::System) -> u32 {
    unsafe { raw::mwb_sound(system) }
}

pub fn step(system: &mut raw::System, [step, site, instruction, tag, first, second]: Six) -> Given {
    unsafe { raw::mwb_step(system, step, site, instruction, tag, first, second) }
}

pub fn drain(system: &mut raw::System, budget: usize, buf: &mut [u8]) -> Drained {
    unsafe { raw::mwb_drain(system, budget, buf.as_mut_ptr(), buf.len()) }
}

pub fn read_sizes(bytes: &[u8]) -> SizesRead {
    unsafe { raw::mwb_read_sizes(bytes.as_ptr(), bytes.len()) }
}

pub fn read_step(bytes: &[u8], at: usize) -> StepRead {
    unsafe { raw::mwb_read_step(bytes.as_ptr(), bytes.len(), at) }
}

pub fn write_sizes(buf: &mut [u8], [sites, words, lines, sets, pend, stall]: Six) -> Wrote {
    unsafe { raw::mwb_write_sizes(buf.as_mut_ptr(), buf.len(), sites, words, lines, sets, pend, stall) }
}

pub fn write_step(buf: &mut [u8], at: usize, [step, site, instruction, tag, first, second]: Six) -> Wrote {
    unsafe { raw::mwb_write_step(buf.as_mut_ptr(), buf.len(), at, step, site, instruction, tag, first, second) }
}

/// The record of six sizes and of the steps that the numbers name, six for each.
pub fn write_record(buf: &mut [u8], [sites, words, lines, sets, pend, stall]: Six, numbers: &[u32]) -> Wrote {
    let (buf, length) = (buf.as_mut_ptr(), buf.len());
    unsafe { raw::mwb_write_record(buf, length, sites, words, lines, sets, pend, stall, numbers.as_ptr(), numbers.len()) }
}

/// The same of rows; each is six numbers and nothing between them.
pub fn write_rows(buf: &mut [u8], sizes: Six, rows: &[raw::Row]) -> Wrote {
    write_record(buf, sizes, unsafe { core::slice::from_raw_parts(rows.as_ptr().cast(), 6 * rows.len()) })
}
