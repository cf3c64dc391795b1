//! What a call of the library has to give, made from what the independent model gives.

use bench::drain::Drained;
use bench::given::{Answer, Number, Outcome, Returned};
use bench::record::{Instruction, Refusal, Step, MOST_BYTES};
use mwb::raw;

/// The six numbers of a call for a step; `others` stand where the step has no use for a number.
pub fn numbers(step: Step, others: [u32; 6]) -> [u32; 6] {
    let mut numbers = others;
    numbers[0] = step.number();
    match step {
        Step::Issue { site, tag, instruction } => {
            numbers[1..5].copy_from_slice(&[site, instruction.number(), tag, instruction.addresses().0]);
            if let Instruction::Storel(_, second) | Instruction::Fence(_, _, second) = instruction {
                numbers[5] = second;
            }
        }
        Step::Retry(n) | Step::Send(n) | Step::ArriveMemory(n) | Step::ArriveSite(n) | Step::Take(n) => numbers[1] = n,
        Step::Serve | Step::SendBack => {}
    }
    numbers
}

/// The place, among the six, of a number that names no step or no instruction.
pub fn place_above_seven(numbers: [u32; 6]) -> Option<usize> {
    if numbers[0] > 7 {
        Some(0)
    } else {
        (numbers[0] == 0 && numbers[2] > 7).then_some(2)
    }
}

/// A refusal answers nothing, and all that it gives beside its number is 0, but for the place of 10 (Numbers 17).
pub fn refused(number: Number, place: usize) -> raw::Given {
    raw::Given { number: number.number(), place, ..raw::Given::default() }
}

pub fn given(outcome: Outcome) -> raw::Given {
    match outcome {
        Outcome::Done(None) => raw::Given::default(),
        Outcome::Done(Some(Answer { site, tag, returned })) => {
            let (answered, value) = match returned {
                Returned::Value(value) => (1, value),
                Returned::Ack => (2, 0),
            };
            raw::Given { number: 0, place: 0, answered, site, tag, value }
        }
        Outcome::Refused(number) => refused(number, 0),
    }
}

pub fn drained(drained: Result<Drained, Number>) -> raw::Drained {
    match drained {
        Ok(Drained { count, quiet, length }) => raw::Drained { number: 0, quiet: u32::from(quiet), count, length },
        Err(number) => raw::Drained { number: number.number(), ..raw::Drained::default() },
    }
}

pub fn sizes_read(read: Result<([u32; 6], usize), Refusal>) -> raw::SizesRead {
    match read {
        Ok(([sites, words, lines, sets, pend, stall], next)) => raw::SizesRead { number: 0, place: 0, next, sites, words, lines, sets, pend, stall },
        Err(why) => raw::SizesRead { number: why.number().number(), place: why.place(), ..raw::SizesRead::default() },
    }
}

pub fn step_read(read: Result<Option<(Step, usize)>, Refusal>) -> raw::StepRead {
    match read {
        Ok(Some((found, next))) => {
            let [step, site, instruction, tag, first, second] = numbers(found, [0; 6]);
            raw::StepRead { number: 0, end: 0, place: 0, next, step, site, instruction, tag, first, second }
        }
        Ok(None) => raw::StepRead { end: 1, ..raw::StepRead::default() },
        Err(why) => raw::StepRead { number: why.number().number(), place: why.place(), ..raw::StepRead::default() },
    }
}

/// Writes bytes at an offset of a lent buffer: 13 where they would make the record too long, then 11.
pub fn wrote(buf: &mut [u8], at: usize, bytes: &[u8]) -> raw::Wrote {
    let Some(next) = at.checked_add(bytes.len()).filter(|next| *next <= MOST_BYTES) else {
        return raw::Wrote { number: Number::RecordLong.number(), place: MOST_BYTES, next: 0 };
    };
    match buf.get_mut(at..next) {
        Some(room) => {
            room.copy_from_slice(bytes);
            raw::Wrote { number: 0, place: 0, next }
        }
        None => raw::Wrote { number: Number::BufferShort.number(), place: 0, next: 0 },
    }
}

/// What a writer of a whole record gives: its length, or why nothing was written.
pub fn wrote_whole(written: Result<usize, Refusal>) -> raw::Wrote {
    match written {
        Ok(next) => raw::Wrote { number: 0, place: 0, next },
        Err(why) => raw::Wrote { number: why.number().number(), place: why.place(), next: 0 },
    }
}
