//! A random walk that the library and the independent model take side by side.

use crate::same::{same, same_state, Same};
use against::expected::{given, numbers, place_above_seven, refused};
use against::fields::each;
use against::layout::to_raw;
use bench::chooser::{sizes_drawn, tight_sizes, Chooser};
use bench::draws::Draws;
use bench::given::{Number, Outcome};
use bench::model::System;
use bench::record::{record, write_step, Step};
use bench::rows::Row;
use mwb::{call, raw};

/// Of the steps that the independent model refuses, one in so many is compared too.
const REFUSED_KEPT: u32 = 12;

pub struct Walk<'a> {
    chooser: Chooser<'a>,
    pub model: System,
    pub library: raw::System,
    /// The sizes and every step compared so far.
    record: Vec<u8>,
}

/// A step that was compared: the number that it gave, and the case of the rules that it met.
pub struct Compared {
    pub number: u32,
    pub row: Option<Row>,
}

/// What the library has to have in a fresh system, or the 12 and the state of all 0, whatever the lent system held before.
pub fn compare_fresh(sizes: [u32; 6]) -> Result<raw::System, String> {
    let mut library = raw::System::default();
    each(&mut library, &mut |_, field| field.set(1));
    let expected = match System::fresh(sizes) {
        Some(system) => (raw::Given::default(), to_raw(&system)),
        None => (refused(Number::SizeOutside, 0), raw::System::default()),
    };
    let given = call::fresh(&mut library, sizes);
    let all = same("what fresh gives", expected.0, given).and_then(|()| same_state(&expected.1, &library));
    all.map(|()| library).map_err(|what| format!("{what}\nfresh of {sizes:?}"))
}

impl<'a> Walk<'a> {
    /// Half of the walks are of sizes where lines displace each other and instructions wait.
    pub fn begin(draws: &'a mut Draws) -> Result<Walk<'a>, String> {
        let sizes = if draws.one_in(2) { tight_sizes(draws) } else { sizes_drawn(draws) };
        let library = compare_fresh(sizes)?;
        let model = System::fresh(sizes).expect("sizes in their limits");
        Ok(Walk { chooser: Chooser::new(draws, sizes), model, library, record: record(sizes, &[]) })
    }

    pub fn draws(&mut self) -> &mut Draws {
        self.chooser.draws
    }

    /// One step more, compared whole.
    pub fn advance(&mut self) -> Result<Compared, String> {
        self.chooser.one_more();
        let others = std::array::from_fn(|_| self.chooser.draws.of_any_length());
        if self.chooser.draws.one_in(50) {
            return self.no_step(others);
        }
        let (step, outcome, row) = self.drawn();
        write_step(&mut self.record, step);
        let number = self.compare(numbers(step, others), given(outcome))?;
        Ok(Compared { number, row })
    }

    /// A step that the independent model has taken, mostly an accepted one, with what it gave and met.
    fn drawn(&mut self) -> (Step, Outcome, Option<Row>) {
        loop {
            let step = match self.chooser.draws.below(20) {
                0 => self.chooser.far_off(),
                1 | 2 => self.chooser.unsteered(),
                _ => self.chooser.likely(),
            };
            let mut met = None;
            let outcome = self.model.step_seen(step, &mut |row| met = Some(row));
            if matches!(outcome, Outcome::Done(_)) || self.chooser.draws.one_in(REFUSED_KEPT) {
                return (step, outcome, met);
            }
        }
    }

    /// Numbers that are no step: a step number or an instruction number above 7.
    fn no_step(&mut self, mut numbers: [u32; 6]) -> Result<Compared, String> {
        let (step, above) = if self.chooser.draws.one_in(2) { (numbers[0], 0) } else { (0, 2) };
        numbers[0] = step;
        numbers[above] = self.chooser.draws.of_any_length().max(8);
        let place = place_above_seven(numbers).expect("a number above 7");
        let number = self.compare(numbers, refused(Number::NoRecord, place))?;
        Ok(Compared { number, row: None })
    }

    /// Gives the step's number.
    fn compare(&mut self, numbers: [u32; 6], expected: raw::Given) -> Result<u32, String> {
        let given = call::step(&mut self.library, numbers);
        let all = same("what the step gives", expected, given).and_then(|()| same_state(&to_raw(&self.model), &self.library));
        all.map_err(|what| self.told(&format!("{what}\nthe step's numbers {numbers:?}")))?;
        Ok(given.number)
    }

    /// A difference, with what leads to it.
    pub fn told(&self, what: &str) -> String {
        let bytes: Vec<String> = self.record.iter().map(|byte| format!("{byte:02X}")).collect();
        format!("{what}\nafter the record {}", bytes.join(" "))
    }

    /// What was found at this state of the walk.
    pub fn at(&self, found: Same) -> Same {
        found.map_err(|what| self.told(&what))
    }
}
