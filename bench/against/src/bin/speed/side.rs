//! One side of a row: the library's or the independent model's, run part by part.

use mwb::raw::System;
use std::time::Instant;

/// What a side leaves after its last part, to be compared with the other's.
#[derive(PartialEq)]
pub enum Left {
    State(Box<System>),
    Drained(Box<System>, Vec<u8>),
    /// How many states were sound, where a record was read to, or how long its listing is.
    Number(usize),
}

enum Turn {
    Begin,
    Part(usize),
    End,
}

pub struct Side<'a> {
    turn: Box<dyn FnMut(Turn) -> Option<Left> + 'a>,
    /// The best time of each part, in ns. Parts are short, so that what else the machine does spoils few of them.
    best: Vec<u128>,
}

impl<'a> Side<'a> {
    /// `begin` makes what `part` goes on with, `left` tells what has become of it.
    pub fn new<S: 'a>(parts: usize, begin: impl Fn() -> S + 'a, part: impl Fn(&mut S, usize) + 'a, left: impl Fn(&S) -> Left + 'a) -> Side<'a> {
        let mut held = begin();
        let turn = move |turn| match turn {
            Turn::Begin => {
                held = begin();
                None
            }
            Turn::Part(number) => {
                part(&mut held, number);
                None
            }
            Turn::End => Some(left(&held)),
        };
        Side { turn: Box::new(turn), best: vec![u128::MAX; parts] }
    }

    pub fn begin(&mut self) {
        (self.turn)(Turn::Begin);
    }

    pub fn parts(&self) -> usize {
        self.best.len()
    }

    pub fn time(&mut self, part: usize) {
        let started = Instant::now();
        (self.turn)(Turn::Part(part));
        self.best[part] = self.best[part].min(started.elapsed().as_nanos());
    }

    pub fn left(&mut self) -> Option<Left> {
        (self.turn)(Turn::End)
    }

    /// All parts together, each at its best.
    pub fn best(&self) -> f64 {
        self.best.iter().sum::<u128>() as f64
    }
}
