//! What the records met: rule rows and numbers, and what is missing.

use bench::listing::{Met, STEP_NAMES};
use bench::rows::{MetBy, Row};

/// Each row and each number is met so often at least.
pub const LEAST: u64 = 5;

/// The numbers that each kind of step can give, in the order of the kinds.
pub const GIVEN_BY_KIND: [&[usize]; 8] = [&[0, 2, 4, 5, 6, 7], &[0, 2, 8, 9], &[0, 2, 8], &[0, 8], &[0, 8], &[0, 8], &[0, 8], &[0, 2, 8]];
/// The numbers of faulty records.
pub const FAULTS: [usize; 3] = [10, 12, 13];

#[derive(Clone, Copy, Default)]
pub struct RowCount {
    pub issued: u64,
    pub retried: u64,
    pub own_step: u64,
    pub records: u64,
    in_this_record: bool,
}

impl RowCount {
    pub fn met(&self) -> u64 {
        self.issued + self.retried + self.own_step
    }
}

pub struct Tally {
    pub records: u64,
    pub bytes: u64,
    pub steps: u64,
    pub rows: [RowCount; Row::ALL.len()],
    /// By kind of step, then by number.
    pub given: [[u64; 10]; 8],
    /// By number; 0 is for good records.
    pub faults: [u64; 14],
}

impl Tally {
    pub fn new() -> Tally {
        Tally { records: 0, bytes: 0, steps: 0, rows: [RowCount::default(); Row::ALL.len()], given: [[0; 10]; 8], faults: [0; 14] }
    }

    pub fn begin(&mut self, bytes: &[u8]) {
        self.records += 1;
        self.bytes += bytes.len() as u64;
        self.faults[0] += 1;
        for count in &mut self.rows {
            count.in_this_record = false;
        }
    }

    pub fn note(&mut self, met: Met) {
        match met {
            Met::Row(step, row) => {
                let count = &mut self.rows[row as usize];
                match step.number() {
                    0 => count.issued += 1,
                    1 => count.retried += 1,
                    _ => count.own_step += 1,
                }
                count.records += u64::from(!count.in_this_record);
                count.in_this_record = true;
            }
            Met::Gave(step, outcome) => {
                self.steps += 1;
                self.given[step.number() as usize][outcome.number() as usize] += 1;
            }
            Met::Fault(why) => {
                self.faults[0] -= 1;
                self.faults[why.number().number() as usize] += 1;
            }
        }
    }

    /// A line for each row and number that was not met often enough.
    pub fn missing(&self) -> Vec<String> {
        let mut counts: Vec<(String, u64)> = Vec::new();
        for row in Row::ALL {
            let count = self.rows[*row as usize];
            let name = row.name();
            match row.met_by() {
                MetBy::IssueOrRetry => counts.extend([(format!("{name}, issued"), count.issued), (format!("{name}, at a retry"), count.retried)]),
                MetBy::IssueAlone => counts.push((name.into(), count.issued)),
                MetBy::OwnStep => counts.push((name.into(), count.own_step)),
            }
        }
        for (kind, name) in STEP_NAMES.into_iter().enumerate() {
            counts.extend(GIVEN_BY_KIND[kind].iter().map(|number| (format!("{name}, number {number}"), self.given[kind][*number])));
        }
        counts.extend(FAULTS.map(|number| (format!("record, number {number}"), self.faults[number])));
        counts.retain(|(_, count)| *count < LEAST);
        counts.into_iter().map(|(name, count)| format!("{name}: met {count} times, at least {LEAST} are needed")).collect()
    }
}
