//! Records: written by both, read by both, whole and damaged.

use crate::reading::{Reading, READERS};
use crate::seldom::Counts;
use crate::writing::{Writing, WRITERS};
use bench::draws::Draws;
use bench::record::MOST_BYTES;

const RECORDS: u32 = 4_000;
/// Damaged ones made of each record.
const DAMAGED: u32 = 25;
const TOO_LONG: u32 = 1_000;
const LEAST: u64 = 1_000;

pub fn compare(draws: &mut Draws) -> Result<Vec<String>, String> {
    let mut writing = Writing { given: Counts::of(WRITERS.map(|number| format!("gave {number}"))) };
    let mut reading = Reading { given: Counts::of(READERS.map(|number| format!("gave {number}"))), ends: 0 };
    for _ in 0..RECORDS {
        let bytes = writing.record(draws)?;
        reading.through(&bytes, draws)?;
        for _ in 0..DAMAGED {
            let damaged = damaged(bytes.clone(), draws);
            reading.through(&damaged, draws)?;
        }
    }
    writing.near_the_most_bytes(draws)?;
    for _ in 0..TOO_LONG {
        let length = MOST_BYTES + if draws.one_in(2) { 1 } else { draws.between((1, 40_000)) as usize };
        reading.through(&vec![draws.below(256) as u8; length], draws)?;
    }
    writing.given.at_least(LEAST)?;
    reading.given.at_least(LEAST)?;
    let mut lines =
        vec![format!("{} writes of sizes or a step, {RECORDS} records among them: what they give, the whole buffer", writing.given.total())];
    lines.extend(writing.given.lines());
    let (reads, ends) = (reading.given.total(), reading.ends);
    lines.push(format!(
        "{reads} reads of sizes or a step, in those records, {} damaged and {TOO_LONG} too long ones: what they give",
        RECORDS * DAMAGED
    ));
    lines.extend(reading.given.lines());
    lines.push(format!("  {ends:>9}  of them at the end"));
    Ok(lines)
}

/// Numbers that no record may have: too large, not in the shortest form, of six groups, cut.
const FAULTY: [&[u8]; 5] = [&[0xFF, 0xFF, 0xFF, 0xFF, 0x10], &[0x83, 0x00], &[0x80, 0x80, 0x80, 0x80, 0x80, 0x01], &[0x80; 7], &[0xFF]];

fn damaged(mut bytes: Vec<u8>, draws: &mut Draws) -> Vec<u8> {
    let at = draws.below(bytes.len() as u32) as usize;
    match draws.below(7) {
        0 => bytes[at] = draws.below(256) as u8,
        1 => bytes.insert(at, draws.below(256) as u8),
        2 => drop(bytes.remove(at)),
        3 => bytes.truncate(at),
        4 => drop(bytes.splice(at..at, draws.pick(&FAULTY).iter().copied())),
        5 => drop(bytes.splice(at..=at, draws.pick(&FAULTY).iter().copied())),
        // A number is made longer by a group of 0.
        _ => {
            bytes[at] |= 0x80;
            bytes.insert(at + 1, 0);
        }
    }
    bytes
}
