//! The steps and instructions (document 01, Steps 1 to 9), and the six numbers by which the library knows a step.

use crate::call::Six;
use crate::raw::Row;

#[derive(Clone, Copy, Debug, PartialEq, Eq)]
pub enum Instruction {
    Loadl { address: u32 },
    Storel { address: u32, value: u32 },
    Commit { address: u32 },
    Reconcile { address: u32 },
    FenceRr { first: u32, second: u32 },
    FenceRw { first: u32, second: u32 },
    FenceWr { first: u32, second: u32 },
    FenceWw { first: u32, second: u32 },
}

impl Instruction {
    /// Its number, then the address or a fence's first, then the value or a fence's second; 0 where it has none.
    fn numbers(self) -> [u32; 3] {
        match self {
            Instruction::Loadl { address } => [0, address, 0],
            Instruction::Storel { address, value } => [1, address, value],
            Instruction::Commit { address } => [2, address, 0],
            Instruction::Reconcile { address } => [3, address, 0],
            Instruction::FenceRr { first, second } => [4, first, second],
            Instruction::FenceRw { first, second } => [5, first, second],
            Instruction::FenceWr { first, second } => [6, first, second],
            Instruction::FenceWw { first, second } => [7, first, second],
        }
    }

    fn from_numbers([number, first, second]: [u32; 3]) -> Instruction {
        match number {
            0 => Instruction::Loadl { address: first },
            1 => Instruction::Storel { address: first, value: second },
            2 => Instruction::Commit { address: first },
            3 => Instruction::Reconcile { address: first },
            4 => Instruction::FenceRr { first, second },
            5 => Instruction::FenceRw { first, second },
            6 => Instruction::FenceWr { first, second },
            7 => Instruction::FenceWw { first, second },
            _ => unreachable!("the document has no instruction {number}"),
        }
    }
}

/// A step, with its site or, for the two arrivals, the position in the network.
#[derive(Clone, Copy, Debug, PartialEq, Eq)]
pub enum Step {
    Issue { site: u32, tag: u32, instruction: Instruction },
    Retry(u32),
    Send(u32),
    ArriveMemory(u32),
    Serve,
    SendBack,
    ArriveSite(u32),
    Take(u32),
}

impl Step {
    /// As replay prints it.
    pub fn name(self) -> &'static str {
        match self {
            Step::Issue { .. } => "issue",
            Step::Retry(_) => "retry",
            Step::Send(_) => "send",
            Step::ArriveMemory(_) => "arrive-memory",
            Step::Serve => "serve",
            Step::SendBack => "send-back",
            Step::ArriveSite(_) => "arrive-site",
            Step::Take(_) => "take",
        }
    }

    /// Step, site or position, instruction, tag, first, second; 0 where it has none.
    pub(crate) fn numbers(self) -> Six {
        match self {
            Step::Issue { site, tag, instruction } => {
                let [number, first, second] = instruction.numbers();
                [0, site, number, tag, first, second]
            }
            Step::Retry(site) => [1, site, 0, 0, 0, 0],
            Step::Send(site) => [2, site, 0, 0, 0, 0],
            Step::ArriveMemory(position) => [3, position, 0, 0, 0, 0],
            Step::Serve => [4, 0, 0, 0, 0, 0],
            Step::SendBack => [5, 0, 0, 0, 0, 0],
            Step::ArriveSite(position) => [6, position, 0, 0, 0, 0],
            Step::Take(site) => [7, site, 0, 0, 0, 0],
        }
    }

    /// The same, in a list of steps.
    pub(crate) fn row(self) -> Row {
        let [step, site, instruction, tag, first, second] = self.numbers();
        Row { step, site, instruction, tag, first, second }
    }

    pub(crate) fn from_numbers([step, site, instruction, tag, first, second]: Six) -> Step {
        match step {
            0 => Step::Issue { site, tag, instruction: Instruction::from_numbers([instruction, first, second]) },
            1 => Step::Retry(site),
            2 => Step::Send(site),
            3 => Step::ArriveMemory(site),
            4 => Step::Serve,
            5 => Step::SendBack,
            6 => Step::ArriveSite(site),
            7 => Step::Take(site),
            _ => unreachable!("the document has no step {step}"),
        }
    }
}
