//! The rows of the table: what the library does, and what the independent model does beside it.

use crate::side::{Left, Side};
use crate::work::{part_of, Work, DRAINS, PARTS, STEPS_OF_A_STATE};
use against::layout::to_raw;
use against::sound::sound;
use bench::drain::MOST_STEPS;
use bench::listing::replay_onto;
use bench::model::System;
use bench::record::{read_sizes, read_step};
use mwb::{call, raw};
use std::hint::black_box;

pub struct Row<'a> {
    pub name: &'static str,
    /// What the times are for.
    pub each: &'static str,
    /// How often it is done in one round.
    pub times: usize,
    /// The library's side, where a call does it.
    pub library: Option<Side<'a>>,
    pub independent: Side<'a>,
}

pub fn rows(work: &Work) -> Vec<Row<'_>> {
    let (steps, in_record) = (work.steps.len(), work.recorded().len());
    let row = |name, each, times, library, independent| Row { name, each, times, library, independent };
    // The last four have no library side: what they time of the proved code is in the programs.
    vec![
        row("public step", "step of the walk", steps, Some(public_step(work)), checked_step(work)),
        row("soundness check", "state of the walk", steps, Some(soundness(work, |state| call::sound(state) == 1)), soundness(work, sound)),
        row("read a step", "step of a record", in_record, Some(read_by_library(work)), read_alone(work)),
        row("drain", "drain of 656 steps", DRAINS, Some(drain_by_library(work)), checked_drain(work)),
        row("inner step", "step of the walk", steps, None, step_in_place(work)),
        row("inner step, state copied", "step of the walk", steps, None, step_copied(work)),
        row("read and step", "step of a record", in_record, None, read_and_step(work)),
        row("replay with its listing", "record of 65,000 bytes", 1, None, replay(work)),
    ]
}

fn public_step(work: &Work) -> Side<'_> {
    let part = |system: &mut raw::System, part: usize| {
        for numbers in part_of(&work.calls, part) {
            black_box(call::step(system, *black_box(numbers)));
        }
    };
    Side::new(PARTS, || to_raw(&work.fresh), part, |system| Left::State(Box::new(*system)))
}

/// Begins fresh, and leaves the state that it has come to.
fn walk<'a>(work: &'a Work, part: impl Fn(&mut System, usize) + 'a) -> Side<'a> {
    Side::new(PARTS, || work.fresh, part, |system| Left::State(Box::new(to_raw(system))))
}

/// The library's step looks at the whole state first; so does this one, at states of the walk in the library's layout, each near its steps.
fn checked_step(work: &Work) -> Side<'_> {
    walk(work, |system, part| {
        let near = part_of(&work.states, part).iter().flat_map(|state| [state; STEPS_OF_A_STATE]);
        for (step, state) in part_of(&work.steps, part).iter().zip(near) {
            black_box(sound(black_box(state)));
            black_box(system.step(*black_box(step)));
        }
    })
}

fn step_in_place(work: &Work) -> Side<'_> {
    walk(work, |system, part| {
        for step in part_of(&work.steps, part) {
            black_box(system.step(*black_box(step)));
        }
    })
}

/// The state goes in by value and the next one comes out.
fn step_copied(work: &Work) -> Side<'_> {
    walk(work, |system, part| {
        for step in part_of(&work.steps, part) {
            let mut next = *black_box(&*system);
            black_box(next.step(*black_box(step)));
            *system = next;
        }
    })
}

/// Each state as often as the walk has steps near it; leaves how many were sound.
fn soundness<'a>(work: &'a Work, sound: impl Fn(&raw::System) -> bool + 'a) -> Side<'a> {
    let part = move |count: &mut usize, part: usize| {
        for state in part_of(&work.states, part) {
            for _ in 0..STEPS_OF_A_STATE {
                *count += usize::from(sound(black_box(state)));
            }
        }
    };
    Side::new(PARTS, || 0, part, |count| Left::Number(*count))
}

/// Reads the record's steps with `next`, which gives the offset past a step, part by part; leaves where it came to.
fn reading<'a>(work: &'a Work, next: impl Fn(&[u8], usize) -> usize + 'a) -> Side<'a> {
    let part = move |at: &mut usize, part: usize| {
        for _ in part_of(work.recorded(), part) {
            *at = next(black_box(&work.record), *at);
        }
    };
    Side::new(PARTS, || first_step(work), part, |at| Left::Number(*at))
}

fn first_step(work: &Work) -> usize {
    read_sizes(&work.record).expect("a good record").1
}

fn read_by_library(work: &Work) -> Side<'_> {
    reading(work, |bytes, at| black_box(call::read_step(bytes, at)).next)
}

fn read_alone(work: &Work) -> Side<'_> {
    reading(work, |bytes, at| black_box(read_step(bytes, at)).ok().flatten().expect("a good record").1)
}

fn read_and_step(work: &Work) -> Side<'_> {
    let part = |(system, at): &mut (System, usize), part: usize| {
        for _ in part_of(work.recorded(), part) {
            let (step, next) = read_step(black_box(&work.record), *at).ok().flatten().expect("a good record");
            black_box(system.step(step));
            *at = next;
        }
    };
    Side::new(PARTS, || (work.fresh, first_step(work)), part, |(system, _)| Left::State(Box::new(to_raw(system))))
}

fn drain_by_library(work: &Work) -> Side<'_> {
    let full = to_raw(&work.full);
    let part = move |(system, buf): &mut (raw::System, Vec<u8>), _| {
        *system = *black_box(&full);
        black_box(call::drain(system, MOST_STEPS, buf));
    };
    Side::new(DRAINS, move || (full, vec![0; 2 * MOST_STEPS]), part, |(system, buf)| Left::Drained(Box::new(*system), buf.clone()))
}

/// The library's drain looks at the whole state once; so does this one.
fn checked_drain(work: &Work) -> Side<'_> {
    let full = to_raw(&work.full);
    let part = move |(system, buf): &mut (System, Vec<u8>), _| {
        *system = *black_box(&work.full);
        black_box(sound(black_box(&full)));
        black_box(system.drain_into(MOST_STEPS, buf)).expect("room for every drain");
    };
    Side::new(DRAINS, || (work.full, vec![0; 2 * MOST_STEPS]), part, |(system, buf)| Left::Drained(Box::new(to_raw(system)), buf.clone()))
}

/// Into a buffer that has the room.
fn replay(work: &Work) -> Side<'_> {
    let part = |out: &mut Vec<u8>, _| replay_onto(out, black_box(&work.record), &mut |_| ());
    Side::new(1, || Vec::with_capacity(work.record.len() * 10), part, |out| Left::Number(out.len()))
}
