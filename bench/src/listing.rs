//! Document 01, Replay 1 to 4: the listing of a record.

use crate::given::{Outcome, Returned};
use crate::model::System;
use crate::record::{read_sizes, read_step, Refusal, Step};
use crate::rows::Row;
use std::fs;
use std::io;
use std::path::Path;

/// The steps' names, in the order of their numbers.
pub const STEP_NAMES: [&str; 8] = ["issue", "retry", "send", "arrive-memory", "serve", "send-back", "arrive-site", "take"];

/// What a replay comes upon, in this order for each step; the last is the whole record's, if it is faulty.
pub enum Met {
    Row(Step, Row),
    Gave(Step, Outcome),
    Fault(Refusal),
}

/// What the program replay prints.
pub fn replay(bytes: &[u8]) -> Vec<u8> {
    let mut out = Vec::new();
    replay_onto(&mut out, bytes, &mut |_| ());
    out
}

/// The same, put behind what is there. The line `record` of a faulty record stands in place of `left` (Replay 3a).
pub fn replay_onto(out: &mut Vec<u8>, bytes: &[u8], seen: &mut impl FnMut(Met)) {
    if let Err(why) = run(bytes, out, seen) {
        numbered(out, "record ", why.number().number() as usize);
        numbered(out, " at ", why.place());
        text(out, "\n");
        seen(Met::Fault(why));
    }
}

/// The sizes, the steps, and at the end how many instructions have no answer and how many messages are under way (Replay 2).
fn run(bytes: &[u8], out: &mut Vec<u8>, seen: &mut impl FnMut(Met)) -> Result<(), Refusal> {
    let (sizes, mut at) = read_sizes(bytes)?;
    let mut system = System::fresh(sizes).ok_or(Refusal::SizeOutside)?;
    for (name, size) in ["sites ", " words ", " lines ", " sets ", " pend ", " stall "].into_iter().zip(sizes) {
        numbered(out, name, size as usize);
    }
    text(out, "\n");
    let mut count = 0;
    while let Some((step, next)) = read_step(bytes, at)? {
        let outcome = system.step_seen(step, &mut |row| seen(Met::Row(step, row)));
        count += 1;
        step_line(out, count, step, outcome);
        seen(Met::Gave(step, outcome));
        at = next;
    }
    numbered(out, "left ", system.outstanding());
    numbered(out, " ", system.messages());
    text(out, "\n");
    Ok(())
}

/// A step's line: which one it is, what it is called, the number that it gave, and its answer if it has one (Replay 2b).
fn step_line(out: &mut Vec<u8>, count: usize, step: Step, outcome: Outcome) {
    numbered(out, "", count);
    text(out, " ");
    text(out, STEP_NAMES[step.number() as usize]);
    numbered(out, " ", outcome.number() as usize);
    if let Outcome::Done(Some(answer)) = outcome {
        numbered(out, " answer ", answer.site as usize);
        numbered(out, " ", answer.tag as usize);
        match answer.returned {
            Returned::Value(value) => numbered(out, " ", value as usize),
            Returned::Ack => text(out, " ack"),
        }
    }
    text(out, "\n");
}

fn text(out: &mut Vec<u8>, text: &str) {
    out.extend_from_slice(text.as_bytes());
}

/// A text, and a number behind it: in decimal, without leading zeros.
fn numbered(out: &mut Vec<u8>, before: &str, mut number: usize) {
    text(out, before);
    let mut digits = [0; 20];
    let mut first = digits.len();
    loop {
        first -= 1;
        digits[first] = b'0' + (number % 10) as u8;
        number /= 10;
        if number == 0 {
            break;
        }
    }
    out.extend_from_slice(&digits[first..]);
}

/// The files NAME.record and NAME.listing.
pub fn write_pair(dir: &Path, name: &str, record: &[u8], listing: &[u8]) -> io::Result<()> {
    fs::write(dir.join(format!("{name}.record")), record)?;
    fs::write(dir.join(format!("{name}.listing")), listing)
}
