//! What crates/strings must print: the same strings, read by the independent reader.

use bench::record::{read_sizes, read_step, write_step, Instruction, Refusal, Step};

#[derive(Default)]
struct Seen {
    strings: u64,
    sized: u64,
    whole: u64,
    steps: u64,
    again: u64,
    sum: u32,
}

impl Seen {
    fn mix(&mut self, n: u64) {
        self.sum = self.sum.wrapping_mul(31).wrapping_add(n as u32);
    }

    fn mix_all(&mut self, numbers: &[u32]) {
        for n in numbers {
            self.mix(u64::from(*n));
        }
    }

    fn mix_refusal(&mut self, why: Refusal) {
        self.mix(u64::from(why.number().number()));
        self.mix(why.place() as u64);
    }

    /// Site, tag, instruction number, first and last address (the same where there is one) and value (0 where there is none).
    fn mix_step(&mut self, step: Step) {
        self.mix(u64::from(step.number()));
        match step {
            Step::Issue { site, tag, instruction } => {
                let (first, last) = instruction.addresses();
                let value = if let Instruction::Storel(_, value) = instruction { value } else { 0 };
                self.mix_all(&[site, tag, instruction.number(), first, last, value]);
            }
            Step::Retry(n) | Step::Send(n) | Step::ArriveMemory(n) | Step::ArriveSite(n) | Step::Take(n) => self.mix(u64::from(n)),
            Step::Serve | Step::SendBack => {}
        }
    }

    fn read(&mut self, bytes: &[u8]) {
        self.strings += 1;
        let mut at = 0;
        match read_sizes(bytes) {
            Ok((sizes, past)) => {
                self.sized += 1;
                self.mix_all(&sizes);
                at = past;
            }
            Err(why) => self.mix_refusal(why),
        }
        loop {
            match read_step(bytes, at) {
                Ok(Some((step, next))) => {
                    self.steps += 1;
                    self.mix_step(step);
                    let mut out = Vec::new();
                    write_step(&mut out, step);
                    self.again += u64::from(out == bytes[at..next]);
                    at = next;
                }
                Ok(None) => {
                    self.whole += 1;
                    return;
                }
                Err(why) => {
                    self.mix_refusal(why);
                    return;
                }
            }
        }
    }

    fn print(&self, what: &str) {
        println!(
            "{what}: {} strings, sized {}, whole {}, steps {}, written again {}, sum {}",
            self.strings, self.sized, self.whole, self.steps, self.again, self.sum
        );
    }
}

fn every_string(size: u32) -> Seen {
    let mut seen = Seen::default();
    for i in 0..256u32.pow(size) {
        seen.read(&i.to_le_bytes()[..size as usize]);
    }
    seen
}

/// The draws of crates/strings: a number of 32 bits, of which the upper half is used.
struct Draws(u32);

impl Draws {
    fn next(&mut self) -> u32 {
        self.0 = self.0.wrapping_mul(1_664_525).wrapping_add(1_013_904_223);
        self.0 >> 16
    }

    fn byte(&mut self) -> u8 {
        let draw = self.next();
        let value = draw / 8;
        match draw % 8 {
            0..=4 => (value % 8) as u8,
            5 => (value % 128) as u8,
            6 => (128 + value % 128) as u8,
            _ => value as u8,
        }
    }
}

fn random_strings(count: u32) -> Seen {
    let mut seen = Seen::default();
    let mut draws = Draws(1);
    for _ in 0..count {
        let size = 4 + draws.next() % 37;
        let bytes: Vec<u8> = (0..size).map(|_| draws.byte()).collect();
        seen.read(&bytes);
    }
    seen
}

fn longest(size: usize) -> Seen {
    let mut seen = Seen::default();
    seen.read(&vec![4; size]);
    seen
}

fn main() {
    every_string(0).print("0 bytes");
    every_string(1).print("1 byte");
    every_string(2).print("2 bytes");
    every_string(3).print("3 bytes");
    random_strings(3_000_000).print("4 to 40 bytes");
    longest(65_536).print("65536 bytes");
    longest(65_537).print("65537 bytes");
}
