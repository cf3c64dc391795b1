//! The listing of a record on standard input (document 01, Replay 1 to 3), by the safe module alone.

use mwb::{raw, read_sizes, read_step, Answer, Refusal, Sizes, Step, System};
use std::io::{self, Read, Write};

/// A pend entry of this kind is voluntary.
const VOLUNTARY: u8 = 4;

fn step_line(count: usize, step: Step, given: Result<Option<Answer>, Refusal>) -> String {
    let given = match given {
        Ok(None) => "0".into(),
        Ok(Some(answer)) => format!("0 {answer}"),
        Err(why) => why.number().to_string(),
    };
    format!("{count} {} {given}", step.name())
}

/// Instructions that have no answer yet: the stalled ones, and those with a pend entry (Parts 11).
fn outstanding(system: &raw::System) -> usize {
    let stalled: usize = system.stalls.iter().map(|stalls| usize::from(stalls.count)).sum();
    let pending = system.pends.iter().flat_map(|pends| &pends.entries[..usize::from(pends.count)]);
    stalled + pending.filter(|entry| entry.kind != VOLUNTARY).count()
}

fn messages(system: &raw::System) -> usize {
    let at_sites = system.outgoing.iter().chain(&system.incoming).map(|queue| usize::from(queue.count));
    let elsewhere = [&system.up, &system.arrived, &system.served, &system.down].map(|queue| usize::from(queue.count));
    at_sites.chain(elsewhere).sum()
}

/// Puts the lines of the steps, then `left`; a fault is given back.
fn list(out: &mut impl Write, bytes: &[u8]) -> io::Result<Result<(), Refusal>> {
    let (sizes, mut at) = match read_sizes(bytes) {
        Ok(read) => read,
        Err(why) => return Ok(Err(why)),
    };
    let Sizes { sites, words, lines, sets, pend, stall } = sizes;
    writeln!(out, "sites {sites} words {words} lines {lines} sets {sets} pend {pend} stall {stall}")?;
    let mut system = System::fresh(sizes).expect("sizes that were read are in their limits");
    for count in 1.. {
        match read_step(bytes, at) {
            Ok(Some((step, next))) => {
                writeln!(out, "{}", step_line(count, step, system.step(step)))?;
                at = next;
            }
            Ok(None) => break,
            Err(why) => return Ok(Err(why)),
        }
    }
    writeln!(out, "left {} {}", outstanding(system.raw()), messages(system.raw()))?;
    Ok(Ok(()))
}

fn main() -> io::Result<()> {
    let mut bytes = Vec::new();
    io::stdin().read_to_end(&mut bytes)?;
    let mut out = io::BufWriter::new(io::stdout());
    if let Err(why) = list(&mut out, &bytes)? {
        writeln!(out, "record {} at {}", why.number(), why.place())?;
    }
    out.flush()
}
