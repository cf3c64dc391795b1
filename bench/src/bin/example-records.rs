//! `example-records DIR` writes the records of examples/ and their listings into DIR.

use bench::listing::{replay, write_pair};
use bench::record::Instruction::{Commit, Loadl, Storel};
use bench::record::{record, Instruction, Step, SAMPLE};
use std::path::Path;
use std::process::ExitCode;
use std::{env, fs, io};

fn issue(site: u32, tag: u32, instruction: Instruction) -> Step {
    Step::Issue { site, tag, instruction }
}

/// Document 01: sizes alone, no step.
fn sizes_alone() -> Vec<u8> {
    record([4, 4, 16, 8, 5, 8], &[])
}

fn stall() -> Vec<u8> {
    let steps = [
        // One pend entry: the second Loadl must wait, and the third finds the stall queue full.
        &[issue(0, 1, Loadl(0)), issue(0, 2, Loadl(2)), issue(0, 3, Loadl(4))][..],
        // The pend entry is still in use.
        &[Step::Retry(0)],
        &Step::trip(0),
        // It is free again.
        &[Step::Retry(0)],
        &Step::trip(0),
    ];
    record([1, 2, 4, 2, 1, 1], &steps.concat())
}

fn write_back() -> Vec<u8> {
    let steps = [
        // Line 0 is cached, word 0 Dirty.
        &[issue(0, 1, Storel(0, 5))][..],
        &Step::trip(0),
        // Line 1 has the same place: the take displaces line 0, and its write-back is queued.
        &[issue(0, 2, Loadl(2))],
        &Step::trip(0),
        // Line 0 is pending in a voluntary entry, so its Loadl waits.
        &[issue(0, 3, Loadl(0))],
        // The write-back's trip; its take gives no answer.
        &Step::trip(0),
        &[Step::Retry(0)],
        &Step::trip(0),
    ];
    record([1, 2, 4, 1, 1, 1], &steps.concat())
}

fn two_writers() -> Vec<u8> {
    let steps = [
        // Both sites fetch line 0 before either writes it back; the requests pass each other in the up network.
        &[issue(0, 1, Storel(0, 5)), issue(1, 1, Storel(1, 6)), Step::Send(0), Step::Send(1)][..],
        &[Step::ArriveMemory(1), Step::ArriveMemory(0), Step::Serve, Step::Serve, Step::SendBack, Step::SendBack],
        &[Step::ArriveSite(0), Step::ArriveSite(0), Step::Take(0), Step::Take(1)],
        &[issue(0, 2, Commit(0))],
        &Step::trip(0),
        &[issue(1, 2, Commit(1))],
        &Step::trip(1),
        // A third site reads memory's line.
        &[issue(2, 1, Loadl(0))],
        &Step::trip(2),
        &[issue(2, 2, Loadl(1))],
    ];
    record([3, 2, 4, 1, 1, 1], &steps.concat())
}

fn faulty() -> Vec<u8> {
    let mut bytes = record([2, 2, 4, 1, 1, 1], &[issue(0, 7, Loadl(3)), Step::Send(0), Step::ArriveMemory(0)]);
    // Issue, site 1, Loadl, then tag 7 in two bytes where one would do, address 3.
    bytes.extend([0, 1, 0, 0x87, 0x00, 3]);
    bytes
}

fn main() -> io::Result<ExitCode> {
    let Some(dir) = env::args_os().nth(1) else {
        eprintln!("example-records DIR");
        return Ok(ExitCode::from(2));
    };
    let dir = Path::new(&dir);
    fs::create_dir_all(dir)?;
    let all = [
        ("sample", SAMPLE.to_vec()),
        ("sizes-alone", sizes_alone()),
        ("empty", Vec::new()),
        ("stall", stall()),
        ("write-back", write_back()),
        ("two-writers", two_writers()),
        ("faulty", faulty()),
    ];
    for (name, bytes) in all {
        write_pair(dir, name, &bytes, &replay(&bytes))?;
    }
    Ok(ExitCode::SUCCESS)
}
