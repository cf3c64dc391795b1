//! The writers of sizes and of a step, in buffers with and without room.

use crate::same::{same, same_bytes, Same};
use crate::seldom::Counts;
use against::expected::{numbers, place_above_seven, wrote};
use bench::chooser::sizes_drawn;
use bench::draws::Draws;
use bench::given::Number;
use bench::record::{in_limits, record, write_step, Instruction, Step, MOST_BYTES};
use mwb::{call, raw};

/// The numbers that they give.
pub const WRITERS: [u32; 5] = [0, 10, 11, 12, 13];

const MOST_STEPS: u32 = 60;
const WRITES_NEAR_THE_MOST: u32 = 20_000;
const FILL: u8 = 0xA5;

pub struct Writing {
    pub given: Counts,
}

/// The buffer that the library writes into, and what it has to hold.
pub struct Buffers {
    pub library: Vec<u8>,
    pub expected: Vec<u8>,
}

impl Buffers {
    pub fn of_length(length: usize) -> Buffers {
        Buffers { library: vec![FILL; length], expected: vec![FILL; length] }
    }

    pub fn same(&self, gives: raw::Wrote, given: raw::Wrote) -> Same {
        same("what the writer gives", gives, given)?;
        same_bytes(&self.expected, &self.library)
    }
}

impl Writing {
    /// A drawn record, written into a buffer of just its length. Each write is tried before in a buffer that is a byte short.
    pub fn record(&mut self, draws: &mut Draws) -> Result<Vec<u8>, String> {
        let sizes = sizes_drawn(draws);
        let steps: Vec<Step> = (0..draws.below(MOST_STEPS)).map(|_| any_step(draws)).collect();
        let bytes = record(sizes, &steps);
        let mut buffers = Buffers::of_length(bytes.len());
        let mut outside = sizes;
        outside[draws.below(6) as usize] = draws.of_any_length();
        for (length, sizes) in [(draws.below(6) as usize, sizes), (draws.below(7) as usize, outside), (bytes.len(), sizes)] {
            self.sizes(&mut buffers, length, sizes)?;
        }
        let mut at = 6;
        for step in steps {
            let next = at + length_of(step);
            self.no_step(&mut buffers, at, draws)?;
            self.step(&mut buffers, next - 1, at, step, draws)?;
            self.step(&mut buffers, bytes.len(), at, step, draws)?;
            at = next;
        }
        same_bytes(&bytes, &buffers.library)?;
        Ok(bytes)
    }

    /// Writes that end before, at and past the most bytes, in buffers that end there, before and behind.
    pub fn near_the_most_bytes(&mut self, draws: &mut Draws) -> Same {
        let mut buffers = Buffers::of_length(MOST_BYTES + 40);
        for _ in 0..WRITES_NEAR_THE_MOST {
            let near = MOST_BYTES - 20 + draws.below(40) as usize;
            let far = [draws.of_any_length() as usize, usize::MAX - draws.below(30) as usize];
            let at = if draws.one_in(4) { draws.pick(&far) } else { near };
            let length = MOST_BYTES - 40 + draws.below(80) as usize;
            let step = any_step(draws);
            self.step(&mut buffers, length, at, step, draws)?;
            self.no_step(&mut buffers, at, draws)?;
        }
        Ok(())
    }

    /// 12, then 11: no sizes are long enough for 13.
    fn sizes(&mut self, buffers: &mut Buffers, length: usize, sizes: [u32; 6]) -> Same {
        let gives = if in_limits(sizes) {
            wrote(&mut buffers.expected[..length], 0, &record(sizes, &[]))
        } else {
            raw::Wrote { number: Number::SizeOutside.number(), place: 0, next: 0 }
        };
        let given = call::write_sizes(&mut buffers.library[..length], sizes);
        self.count(given.number);
        buffers.same(gives, given).map_err(|what| format!("{what}\nsizes {sizes:?} in {length} bytes"))
    }

    fn step(&mut self, buffers: &mut Buffers, length: usize, at: usize, step: Step, draws: &mut Draws) -> Same {
        let mut bytes = Vec::new();
        write_step(&mut bytes, step);
        let gives = wrote(&mut buffers.expected[..length], at, &bytes);
        let others = std::array::from_fn(|_| draws.of_any_length());
        let given = call::write_step(&mut buffers.library[..length], at, numbers(step, others));
        self.count(given.number);
        buffers.same(gives, given).map_err(|what| format!("{what}\n{step:?} at {at} in {length} bytes"))
    }

    /// 10 comes before 13 and 11.
    fn no_step(&mut self, buffers: &mut Buffers, at: usize, draws: &mut Draws) -> Same {
        let mut numbers: [u32; 6] = std::array::from_fn(|_| draws.of_any_length());
        if draws.one_in(2) {
            numbers[0] = 0;
        }
        let Some(place) = place_above_seven(numbers) else { return Ok(()) };
        let given = call::write_step(&mut buffers.library, at, numbers);
        self.count(given.number);
        let gives = raw::Wrote { number: Number::NoRecord.number(), place, next: 0 };
        buffers.same(gives, given).map_err(|what| format!("{what}\n{numbers:?} at {at}"))
    }

    fn count(&mut self, number: u32) {
        self.given.add(WRITERS.iter().position(|known| *known == number).expect("a number that writers give"));
    }
}

fn length_of(step: Step) -> usize {
    let mut bytes = Vec::new();
    write_step(&mut bytes, step);
    bytes.len()
}

/// A step of any kind, its numbers of any length.
pub fn any_step(draws: &mut Draws) -> Step {
    let [site, tag, first, second]: [u32; 4] = std::array::from_fn(|_| draws.of_any_length());
    let instruction = match draws.below(8) {
        0 => Instruction::Loadl(first),
        1 => Instruction::Storel(first, second),
        2 => Instruction::Commit(first),
        3 => Instruction::Reconcile(first),
        fence => Instruction::Fence(fence, first, second),
    };
    match draws.below(12) {
        1 => Step::Retry(site),
        2 => Step::Send(site),
        3 => Step::ArriveMemory(site),
        4 => Step::Serve,
        5 => Step::SendBack,
        6 => Step::ArriveSite(site),
        7 => Step::Take(site),
        _ => Step::Issue { site, tag, instruction },
    }
}
