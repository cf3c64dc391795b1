//! A record written whole: document 01's sample run, in buffers with and without room, and what refuses it.

use mwb::{call, read_sizes, write_record, Instruction, Refusal, Sizes, Step, MOST_BYTES};

const SIZES: Sizes = Sizes { sites: 2, words: 2, lines: 4, sets: 1, pend: 1, stall: 1 };
const STEPS: [Step; 7] = [
    Step::Issue { site: 0, tag: 7, instruction: Instruction::Loadl { address: 3 } },
    Step::Send(0),
    Step::ArriveMemory(0),
    Step::Serve,
    Step::SendBack,
    Step::ArriveSite(0),
    Step::Take(0),
];
const SAMPLE: [u8; 21] = [2, 2, 4, 1, 1, 1, 0, 0, 0, 7, 3, 2, 0, 3, 0, 4, 5, 6, 0, 7, 0];

/// The steps are refused in a buffer of this length, and it stays as it was.
fn refused(sizes: Sizes, steps: &[Step], length: usize, why: Refusal) {
    let mut buf = vec![9; length];
    assert_eq!(write_record(&mut buf, sizes, steps), Err(why));
    assert_eq!(buf, vec![9; length]);
}

#[test]
fn the_sample_run() {
    let mut buf = [9; 23];
    assert_eq!(write_record(&mut buf, SIZES, &STEPS), Ok(21));
    assert_eq!((&buf[..21], &buf[21..]), (SAMPLE.as_slice(), [9, 9].as_slice()));
    refused(SIZES, &STEPS, 20, Refusal::BufferShort);
}

#[test]
fn no_steps() {
    let mut buf = [9; 6];
    assert_eq!(write_record(&mut buf, SIZES, &[]), Ok(6));
    assert_eq!(read_sizes(&buf), Ok((SIZES, 6)));
}

#[test]
fn twelve_thirteen_eleven() {
    let longer = vec![Step::Serve; MOST_BYTES - 5];
    refused(SIZES, &longer, 0, Refusal::RecordLong);
    refused(SIZES, &longer[1..], MOST_BYTES - 1, Refusal::BufferShort);
    refused(Sizes { lines: 17, ..SIZES }, &longer, 0, Refusal::SizeOutside);
}

/// Numbers may name no step; a [`Step`] cannot.
#[test]
fn the_row_that_names_no_step() {
    let mut numbers = [4, 0, 0, 0, 0, 0].repeat(3);
    numbers[12] = 8;
    let mut buf = [9; 9];
    let wrote = call::write_record(&mut buf, [2, 2, 4, 1, 1, 1], &numbers);
    assert_eq!((wrote.number, wrote.place, wrote.next, buf), (10, 2, 0, [9; 9]));
    let wrote = call::write_record(&mut buf, [2, 2, 4, 1, 1, 1], &numbers[..11]);
    assert_eq!((wrote.number, wrote.place, wrote.next, buf), (10, 1, 0, [9; 9]));
}
