//! The next step of a random walk, drawn; steered to where instructions wait, lines displace each other and messages pass each other.

use crate::draws::Draws;
use crate::record::{Instruction, Step, LIMITS};

pub fn sizes_drawn(draws: &mut Draws) -> [u32; 6] {
    LIMITS.map(|limits| draws.between(limits))
}

/// Few sets, pend entries and stall entries: here lines displace each other and instructions wait.
pub fn tight_sizes(draws: &mut Draws) -> [u32; 6] {
    let [sites, words, lines, ..] = sizes_drawn(draws);
    [sites, words, lines, 1 + draws.below(2), 1 + draws.below(3), 1 + draws.below(3)]
}

/// What a walk keeps to for a while: how often each kind of step and each instruction is drawn.
struct Mood {
    kinds: [u32; 8],
    instructions: [u32; 8],
    steps_left: u32,
}

impl Mood {
    /// Issues always have a chance; fences, which hardly ever are refused, have a small one.
    fn drawn(draws: &mut Draws) -> Mood {
        let kinds = std::array::from_fn(|kind| if kind == 0 { draws.pick(&[1, 4, 8]) } else { draws.pick(&[0, 4, 8, 16]) });
        let instructions = std::array::from_fn(|number| if number < 4 { draws.pick(&[1, 4, 8]) } else { draws.pick(&[0, 0, 1]) });
        Mood { kinds, instructions, steps_left: 4 + draws.below(60) }
    }
}

pub struct Chooser<'a> {
    pub draws: &'a mut Draws,
    pub sizes: [u32; 6],
    /// The few lines that most addresses are of.
    lines: Vec<u32>,
    mood: Mood,
}

impl<'a> Chooser<'a> {
    pub fn new(draws: &'a mut Draws, sizes: [u32; 6]) -> Chooser<'a> {
        let [_, _, lines, sets, ..] = sizes;
        let (first, apart) = (draws.below(lines), draws.pick(&[1, sets]));
        let few = (0..2 + draws.below(3)).map(|n| (first + n * apart) % lines).collect();
        let mood = Mood::drawn(draws);
        Chooser { draws, sizes, lines: few, mood }
    }

    /// To be told before each step of the walk: a mood passes after some steps.
    pub fn one_more(&mut self) {
        if self.mood.steps_left == 0 {
            self.change_mood();
        }
        self.mood.steps_left -= 1;
    }

    pub fn change_mood(&mut self) {
        self.mood = Mood::drawn(self.draws);
    }

    /// No issue any more, while this mood lasts.
    pub fn issue_no_more(&mut self) {
        self.mood.kinds = [0, 1, 1, 1, 1, 1, 1, 1];
    }

    fn addresses(&self) -> u32 {
        self.sizes[1] * self.sizes[2]
    }

    fn address(&mut self) -> u32 {
        if self.draws.one_in(12) {
            return self.draws.below(self.addresses());
        }
        self.draws.pick(&self.lines) * self.sizes[1] + self.draws.below(self.sizes[1])
    }

    /// Half the tags are of a few, so that one is outstanding now and then.
    fn issue(&mut self, instructions: [u32; 8]) -> Step {
        let site = self.draws.below(self.sizes[0]);
        let tag = if self.draws.one_in(2) { self.draws.below(8) } else { self.draws.of_any_length() };
        let address = self.address();
        let instruction = match self.draws.weighted(&instructions) {
            0 => Instruction::Loadl(address),
            1 => Instruction::Storel(address, self.draws.of_any_length()),
            2 => Instruction::Commit(address),
            3 => Instruction::Reconcile(address),
            fence => Instruction::Fence(fence as u32, address, self.address()),
        };
        Step::Issue { site, tag, instruction }
    }

    /// A step as the mood has it, with numbers in range; it may still be refused.
    pub fn likely(&mut self) -> Step {
        let site = self.draws.below(self.sizes[0]);
        let reach = 1 << self.draws.below(6);
        let position = self.draws.below(reach);
        match self.draws.weighted(&self.mood.kinds) {
            0 => self.issue(self.mood.instructions),
            1 => Step::Retry(site),
            2 => Step::Send(site),
            3 => Step::ArriveMemory(position),
            4 => Step::Serve,
            5 => Step::SendBack,
            6 => Step::ArriveSite(position),
            _ => Step::Take(site),
        }
    }

    /// Issues, half of them fences, and retries: there is most to refuse.
    pub fn unsteered(&mut self) -> Step {
        match self.draws.below(4) {
            0 | 1 => self.issue([1; 8]),
            2 => Step::Retry(self.draws.below(self.sizes[0])),
            _ => self.likely(),
        }
    }

    /// A number from the first that is out of range up to the largest.
    fn far(&mut self, first_out: u32) -> u32 {
        let any = first_out.saturating_add(self.draws.of_any_length());
        self.draws.pick(&[first_out, first_out, any, u32::MAX])
    }

    /// A step with a number that is out of range, where its kind has one.
    pub fn far_off(&mut self) -> Step {
        let site = self.far(self.sizes[0]);
        let position = self.far(self.sizes[0] * self.sizes[4]);
        match self.unsteered() {
            Step::Issue { site: near, tag, instruction } => {
                let site = if self.draws.one_in(3) { site } else { near };
                let instruction = if self.draws.one_in(3) { instruction } else { self.far_addressed(instruction) };
                Step::Issue { site, tag, instruction }
            }
            Step::Retry(_) => Step::Retry(site),
            Step::Send(_) => Step::Send(site),
            Step::ArriveMemory(_) => Step::ArriveMemory(position),
            Step::ArriveSite(_) => Step::ArriveSite(position),
            Step::Take(_) => Step::Take(site),
            step @ (Step::Serve | Step::SendBack) => step,
        }
    }

    /// The instruction with an address that is past the last; of a fence, one of the two.
    fn far_addressed(&mut self, instruction: Instruction) -> Instruction {
        let address = self.far(self.addresses());
        match instruction {
            Instruction::Loadl(_) => Instruction::Loadl(address),
            Instruction::Storel(_, value) => Instruction::Storel(address, value),
            Instruction::Commit(_) => Instruction::Commit(address),
            Instruction::Reconcile(_) => Instruction::Reconcile(address),
            Instruction::Fence(kind, first, _) if self.draws.one_in(2) => Instruction::Fence(kind, first, address),
            Instruction::Fence(kind, _, second) => Instruction::Fence(kind, address, second),
        }
    }
}
