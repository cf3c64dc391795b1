//! `speed FOLDER` prints how long the proved library, and the proved programs in FOLDER, take and how long the independent model does, measured in one run.

mod programs;
mod rows;
mod side;
mod work;

use programs::Programs;
use rows::{rows, Row};
use std::path::PathBuf;
use std::process::ExitCode;
use work::Work;

/// The two sides take turns so often; the best time of each part counts.
const ROUNDS: usize = 15;

fn main() -> ExitCode {
    let folder = PathBuf::from(std::env::args().nth(1).expect("the folder of the programs"));
    let work = Work::made();
    let mut rows = rows(&work);
    for _ in 0..ROUNDS {
        for row in &mut rows {
            if !same_after_a_round(row) {
                println!("speed: {}: the two sides leave different things", row.name);
                return ExitCode::FAILURE;
            }
        }
    }
    let programs = Programs::timed(&folder, &work).expect("the programs run");
    println!("{}, best of {ROUNDS} rounds, in ns", work.described());
    println!("{:<26}{:>12}{:>14}{:>8}   for each", "", "proved", "independent", "ratio");
    let read = by_library(&rows, "read a step");
    for row in &rows {
        let proved = match row.name {
            "read and step" => programs.read_and_step,
            "inner step" | "inner step, state copied" => programs.read_and_step - read,
            "replay with its listing" => programs.replay,
            name => by_library(&rows, name),
        };
        println!("{}", line(row, proved));
    }
    ExitCode::SUCCESS
}

/// Part by part, the sides in turn. Gives whether they leave the same.
fn same_after_a_round(row: &mut Row) -> bool {
    let Row { library, independent, .. } = row;
    let mut sides: Vec<_> = [Some(independent), library.as_mut()].into_iter().flatten().collect();
    sides.iter_mut().for_each(|side| side.begin());
    for part in 0..sides[0].parts() {
        sides.iter_mut().for_each(|side| side.time(part));
    }
    let left: Vec<_> = sides.iter_mut().map(|side| side.left()).collect();
    left.iter().all(|one| *one == left[0])
}

/// What the library takes for one of the row.
fn by_library(rows: &[Row], name: &str) -> f64 {
    let row = rows.iter().find(|row| row.name == name).expect("a row of the table");
    row.library.as_ref().map_or(f64::NAN, |side| side.best() / row.times as f64)
}

fn line(row: &Row, proved: f64) -> String {
    let independent = row.independent.best() / row.times as f64;
    format!("{:<26}{proved:>12.1}{independent:>14.1}{:>8.2}   {}", row.name, proved / independent, row.each)
}
