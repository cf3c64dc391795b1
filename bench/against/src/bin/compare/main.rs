//! `compare [SEED]` holds the proved library to the independent model. It prints what was compared and how often, and fails where the two differ
//! or where something was met too seldom.

mod breakers;
mod changed;
mod drains;
mod reading;
mod records;
mod refused;
mod same;
mod seldom;
mod steps;
mod unsound;
mod walk;
mod whole;
mod writing;

use bench::draws::Draws;
use std::env;
use std::process::ExitCode;

/// A part of the comparison gives its lines, or what is needed to see a difference again.
type Part = fn(&mut Draws) -> Result<Vec<String>, String>;

const PARTS: [(&str, Part); 6] = [
    ("steps", steps::compare),
    ("states that are not sound", unsound::compare),
    ("changed states", changed::compare),
    ("records", records::compare),
    ("whole records", whole::compare),
    ("drains", drains::compare),
];

fn main() -> ExitCode {
    let Ok(seed) = env::args().nth(1).map_or(Ok(1), |seed| seed.parse()) else {
        eprintln!("compare [SEED]");
        return ExitCode::from(2);
    };
    for (name, part) in PARTS {
        match part(&mut Draws::from_seed(seed)) {
            Ok(lines) => lines.iter().for_each(|line| println!("{line}")),
            Err(what) => {
                println!("compare: {name}, seed {seed}: {what}");
                return ExitCode::FAILURE;
            }
        }
    }
    ExitCode::SUCCESS
}
