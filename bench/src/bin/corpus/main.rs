//! `corpus DIR` writes records and their listings into DIR, always the same, and prints the page docs/CORPUS.md.

mod faulty;
mod good;
mod page;
mod tally;
mod walk;

use bench::draws::Draws;
use bench::listing::{replay_onto, write_pair};
use std::io::Result;
use std::path::Path;
use std::process::ExitCode;
use std::{env, fs};
use tally::Tally;

const SEED: u64 = 1;

/// What a record is, and its bytes.
type Named = (String, Vec<u8>);

fn main() -> Result<ExitCode> {
    let Some(dir) = env::args_os().nth(1) else {
        eprintln!("corpus DIR");
        return Ok(ExitCode::from(2));
    };
    let tally = write_all(Path::new(&dir))?;
    print!("{}", page::page(&tally));
    let missing = tally.missing();
    for line in &missing {
        eprintln!("corpus: {line}");
    }
    Ok(if missing.is_empty() { ExitCode::SUCCESS } else { ExitCode::FAILURE })
}

fn write_all(dir: &Path) -> Result<Tally> {
    let mut draws = Draws::from_seed(SEED);
    let mut records = good::good_records(&mut draws);
    records.extend(faulty::faulty_records(&mut draws));
    fs::create_dir_all(dir)?;
    let mut tally = Tally::new();
    for (index, (what, bytes)) in records.iter().enumerate() {
        tally.begin(bytes);
        let mut listing = Vec::new();
        replay_onto(&mut listing, bytes, &mut |met| tally.note(met));
        write_pair(dir, &format!("{:03}-{what}", index + 1), bytes, &listing)?;
    }
    Ok(tally)
}
