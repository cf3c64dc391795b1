//! The programs over the proved code, timed as processes: `replay` lists a record, `pace` takes its steps over and over.

use crate::work::Work;
use bench::record::{read_sizes, record};
use std::fs::{self, File};
use std::io;
use std::path::Path;
use std::process::{Command, Stdio};
use std::time::Instant;

const RUNS: usize = 40;
/// How often pace takes the record.
const ROUNDS_OF_PACE: f64 = 50.0;

/// Times in ns.
pub struct Programs {
    /// Of one step of the record.
    pub read_and_step: f64,
    /// Of the whole record.
    pub replay: f64,
}

impl Programs {
    /// `folder` has the programs for this machine.
    pub fn timed(folder: &Path, work: &Work) -> io::Result<Programs> {
        let steps = work.recorded().len() as f64;
        let pace = beyond_start(&folder.join("pace"), work)?;
        Ok(Programs { read_and_step: pace / ROUNDS_OF_PACE / steps, replay: beyond_start(&folder.join("replay"), work)? })
    }
}

/// What the record takes beyond what a record of its sizes alone does: the start of the process is not counted.
fn beyond_start(program: &Path, work: &Work) -> io::Result<f64> {
    let sizes = read_sizes(&work.record).expect("a good record").0;
    Ok(best_run(program, &work.record)? - best_run(program, &record(sizes, &[]))?)
}

fn best_run(program: &Path, input: &[u8]) -> io::Result<f64> {
    let file = program.with_extension("record");
    fs::write(&file, input)?;
    let mut best = f64::MAX;
    for _ in 0..RUNS {
        let started = Instant::now();
        let status = Command::new(program).stdin(File::open(&file)?).stdout(Stdio::null()).status()?;
        best = best.min(started.elapsed().as_nanos() as f64);
        assert!(status.success(), "{} ends well", program.display());
    }
    Ok(best)
}
