//! An example bench in Rust. It prints a line for each event; the whole text is the file examples/benches/expected.

use mwb::{read_sizes, read_step, write_sizes, write_step, Answer, Instruction, Refusal, Sizes, Step, System, MOST_DRAIN};

/// The number, and the processor's answer if there is one.
fn given(given: Result<Option<Answer>, Refusal>) -> String {
    match given {
        Ok(None) => "0".into(),
        Ok(Some(answer)) => format!("0 {answer}"),
        Err(why) => why.number().to_string(),
    }
}

fn step(system: &mut System, step: Step) {
    println!("{} {}", step.name(), given(system.step(step)));
}

fn issue(system: &mut System, site: u32, tag: u32, instruction: Instruction) {
    step(system, Step::Issue { site, tag, instruction });
}

/// Carries the request of a site to memory and the reply back.
fn trip(system: &mut System, site: u32) {
    for one in [Step::Send(site), Step::ArriveMemory(0), Step::Serve, Step::SendBack, Step::ArriveSite(0), Step::Take(site)] {
        step(system, one);
    }
}

fn print_if_same(what: &str, system: &System, other: &System) {
    println!("{what} {}", u32::from(system == other));
}

/// Steps that are refused; none of them changes the system.
fn refusals(system: &mut System) {
    let before = system.clone();
    // There are sites 0 and 1.
    issue(system, 2, 8, Instruction::Loadl { address: 0 });
    // There are addresses 0 to 7.
    issue(system, 0, 8, Instruction::Loadl { address: 8 });
    // It cannot pass the Storel of its address.
    issue(system, 1, 8, Instruction::Loadl { address: 0 });
    // Nothing was sent yet.
    step(system, Step::ArriveMemory(0));
    // No kind of Step has the number 8, so only a record can name it.
    if let Err(why) = read_step(&[8], 0) {
        println!("record {} at {}", why.number(), why.place());
    }
    print_if_same("unchanged", system, &before);
}

/// A drain with a budget of 656 asks for a buffer of twice as many bytes.
fn drain(system: &mut System, buf: &mut [u8]) -> usize {
    let (number, count, quiet, length) = match system.drain(MOST_DRAIN, buf) {
        Ok(drained) => (0, drained.count, drained.quiet, drained.length),
        Err(why) => (why.number(), 0, false, 0),
    };
    println!("drain {number} count {count} quiet {} length {length}", u32::from(quiet));
    length
}

/// Reads the steps of a record, one by one from an offset, and takes each.
fn read_back(system: &mut System, bytes: &[u8], mut at: usize) -> Result<(), Refusal> {
    while let Some((read, next)) = read_step(bytes, at)? {
        print!("read ");
        for byte in &bytes[at..next] {
            print!("{byte:02x} ");
        }
        step(system, read);
        at = next;
    }
    println!("end 0");
    Ok(())
}

fn print_wrote(wrote: Result<usize, Refusal>) {
    match wrote {
        Ok(next) => println!("write 0 next {next}"),
        Err(why) => println!("write {} next 0", why.number()),
    }
}

/// Writes a record of the sizes and one step, and reads it back. A second step has no room.
fn write_and_read(sizes: Sizes) -> Result<System, Refusal> {
    let mut buf = [0; 11];
    print_wrote(write_sizes(&mut buf, sizes));
    print_wrote(write_step(&mut buf, 6, Step::Issue { site: 0, tag: 7, instruction: Instruction::Loadl { address: 3 } }));
    print_wrote(write_step(&mut buf, 11, Step::Serve));
    let (sizes, next) = read_sizes(&buf)?;
    let Sizes { sites, words, lines, sets, pend, stall } = sizes;
    println!("sites {sites} words {words} lines {lines} sets {sets} pend {pend} stall {stall}");
    let mut system = System::fresh(sizes)?;
    read_back(&mut system, &buf, next)?;
    Ok(system)
}

fn main() -> Result<(), Refusal> {
    let sizes = Sizes { sites: 2, words: 2, lines: 4, sets: 1, pend: 1, stall: 1 };
    let mut system = System::fresh(sizes)?;
    println!("fresh 0");
    issue(&mut system, 0, 7, Instruction::Loadl { address: 3 });
    trip(&mut system, 0);
    // A hit: line 1 is cached now.
    issue(&mut system, 0, 8, Instruction::Loadl { address: 2 });
    // Another, which marks the word Dirty, so that the Commit queues a write-back.
    issue(&mut system, 0, 9, Instruction::Storel { address: 2, value: 5 });
    issue(&mut system, 0, 10, Instruction::Commit { address: 2 });
    // A fetch is queued at site 1.
    issue(&mut system, 1, 7, Instruction::Storel { address: 0, value: 6 });
    refusals(&mut system);
    let mut copy = system.clone();
    let mut buf = [0; 2 * MOST_DRAIN];
    drain(&mut system, &mut buf[1..]);
    print_if_same("unchanged", &system, &copy);
    let length = drain(&mut system, &mut buf);
    read_back(&mut copy, &buf[..length], 0)?;
    print_if_same("same", &system, &copy);
    let system = write_and_read(sizes)?;
    println!("sound {}", u32::from(system.sound()));
    Ok(())
}
