//! Prints what the example benches in C, Rust and SystemVerilog must print: examples/benches/expected.

use bench::drain::{Drained, MOST_STEPS};
use bench::given::{Number, Outcome, Returned};
use bench::listing::STEP_NAMES;
use bench::model::System;
use bench::record::Instruction::{Commit, Loadl, Storel};
use bench::record::{read_sizes, read_step, record, Instruction, Refusal, Step};

const SIZES: [u32; 6] = [2, 2, 4, 1, 1, 1];

fn step(system: &mut System, step: Step) {
    let outcome = system.step(step);
    print!("{} {}", STEP_NAMES[step.number() as usize], outcome.number());
    if let Outcome::Done(Some(answer)) = outcome {
        print!(" answer {} {} ", answer.site, answer.tag);
        match answer.returned {
            Returned::Value(value) => print!("{value}"),
            Returned::Ack => print!("ack"),
        }
    }
    println!();
}

fn issue(system: &mut System, site: u32, tag: u32, instruction: Instruction) {
    step(system, Step::Issue { site, tag, instruction });
}

fn print_if_same(what: &str, system: &System, other: &System) {
    println!("{what} {}", u32::from(system == other));
}

/// Numbers 2, 4, 6, 8, and 10 for a step number above 7.
fn refusals(system: &mut System) {
    let before = system.clone();
    issue(system, 2, 8, Loadl(0));
    issue(system, 0, 8, Loadl(8));
    issue(system, 1, 8, Loadl(0));
    step(system, Step::ArriveMemory(0));
    if let Err(why) = read_step(&[8], 0) {
        println!("record {} at {}", why.number().number(), why.place());
    }
    print_if_same("unchanged", system, &before);
}

fn drain(system: &mut System, buf: &mut [u8]) -> usize {
    let (number, Drained { count, quiet, length }) = match system.drain_into(MOST_STEPS, buf) {
        Ok(drained) => (0, drained),
        Err(why) => (why.number(), Drained { count: 0, quiet: false, length: 0 }),
    };
    println!("drain {number} count {count} quiet {} length {length}", u32::from(quiet));
    length
}

fn read_back(system: &mut System, bytes: &[u8], mut at: usize) -> Result<(), Refusal> {
    while let Some((read, next)) = read_step(bytes, at)? {
        print!("read ");
        for byte in &bytes[at..next] {
            print!("{byte:02x} ");
        }
        step(system, read);
        at = next;
    }
    println!("end 0");
    Ok(())
}

/// The sizes and two steps, written one after the other into a buffer that has room for the first step only.
fn write_and_read() -> Result<(), Refusal> {
    let steps = [Step::Issue { site: 0, tag: 7, instruction: Loadl(3) }, Step::Serve];
    let room = 11;
    for count in 0..=steps.len() {
        match record(SIZES, &steps[..count]).len() {
            next if next <= room => println!("write 0 next {next}"),
            _ => println!("write {} next 0", Number::BufferShort.number()),
        }
    }
    let bytes = record(SIZES, &steps[..1]);
    let (sizes, next) = read_sizes(&bytes)?;
    let [sites, words, lines, sets, pend, stall] = sizes;
    println!("sites {sites} words {words} lines {lines} sets {sets} pend {pend} stall {stall}");
    read_back(&mut fresh(), &bytes, next)
}

fn fresh() -> System {
    System::fresh(SIZES).expect("sizes in their limits")
}

fn main() -> Result<(), Refusal> {
    let mut system = fresh();
    println!("fresh 0");
    issue(&mut system, 0, 7, Loadl(3));
    for one in Step::trip(0) {
        step(&mut system, one);
    }
    issue(&mut system, 0, 8, Loadl(2));
    issue(&mut system, 0, 9, Storel(2, 5));
    issue(&mut system, 0, 10, Commit(2));
    issue(&mut system, 1, 7, Storel(0, 6));
    refusals(&mut system);
    let mut copy = system.clone();
    let mut buf = [0; 2 * MOST_STEPS];
    drain(&mut system, &mut buf[1..]);
    print_if_same("unchanged", &system, &copy);
    let length = drain(&mut system, &mut buf);
    read_back(&mut copy, &buf[..length], 0)?;
    print_if_same("same", &system, &copy);
    write_and_read()?;
    // No step leads from a fresh system to one that is not sound (Parts 12).
    println!("sound 1");
    Ok(())
}
