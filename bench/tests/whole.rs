//! A record written whole: worked out by hand, and all of it or nothing.

use bench::record::{read_sizes, read_step, step_named, write_record, Refusal, MOST_BYTES, SAMPLE};

const SIZES: [u32; 6] = [2, 2, 4, 1, 1, 1];
const OUTSIDE: [u32; 6] = [2, 2, 17, 1, 1, 1];
/// The steps of document 01's sample run; where a step does not have a number, 9 stands.
const ROWS: [[u32; 6]; 7] = [
    [0, 0, 0, 7, 3, 9],
    [2, 0, 9, 9, 9, 9],
    [3, 0, 9, 9, 9, 9],
    [4, 9, 9, 9, 9, 9],
    [5, 9, 9, 9, 9, 9],
    [6, 0, 9, 9, 9, 9],
    [7, 0, 9, 9, 9, 9],
];
const FILL: u8 = 0xA5;

/// What is given, and the buffer after it: so many bytes.
fn written(sizes: [u32; 6], numbers: &[u32], length: usize) -> (Result<usize, Refusal>, Vec<u8>) {
    let mut buf = vec![FILL; length];
    let given = write_record(&mut buf, sizes, numbers);
    (given, buf)
}

/// It is refused, and no byte is altered.
fn refused(sizes: [u32; 6], numbers: &[u32], length: usize, why: Refusal) {
    assert_eq!(written(sizes, numbers, length), (Err(why), vec![FILL; length]));
}

#[test]
fn the_sample_run() {
    let numbers = ROWS.concat();
    assert_eq!(written(SIZES, &numbers, 21), (Ok(21), SAMPLE.to_vec()));
    assert_eq!(written(SIZES, &numbers, 23), (Ok(21), [SAMPLE.as_slice(), &[FILL; 2]].concat()));
    refused(SIZES, &numbers, 20, Refusal::BufferShort);
}

#[test]
fn sizes_alone() {
    assert_eq!(written(SIZES, &[], 6), (Ok(6), vec![2, 2, 4, 1, 1, 1]));
    refused(SIZES, &[], 5, Refusal::BufferShort);
    refused(SIZES, &[], 0, Refusal::BufferShort);
}

#[test]
fn the_first_row_that_names_no_step() {
    let mut rows = ROWS;
    rows[5][0] = 8;
    rows[6][0] = u32::MAX;
    refused(SIZES, &rows.concat(), 100, Refusal::NoRecord(5));
    rows[0][2] = 8;
    refused(SIZES, &rows.concat(), 100, Refusal::NoRecord(0));
    for length in 37..42 {
        refused(SIZES, &ROWS.concat()[..length], 100, Refusal::NoRecord(6));
    }
    for length in 1..6 {
        refused(SIZES, &ROWS.concat()[..length], 100, Refusal::NoRecord(0));
    }
}

/// A send of site 127 has two bytes: so many of them, and one or two of serve, are a record of the most bytes or more.
fn numbers_of(bytes: usize) -> Vec<u32> {
    let mut numbers = [2, 127, 0, 0, 0, 0].repeat((bytes - 6) / 2);
    numbers.extend([4, 0, 0, 0, 0, 0].repeat(bytes % 2));
    numbers
}

#[test]
fn twelve_ten_thirteen_eleven() {
    let (most, longer) = (numbers_of(MOST_BYTES), numbers_of(MOST_BYTES + 1));
    assert_eq!(written(SIZES, &most, MOST_BYTES).0, Ok(MOST_BYTES));
    refused(SIZES, &most, MOST_BYTES - 1, Refusal::BufferShort);
    refused(SIZES, &longer, MOST_BYTES + 1, Refusal::RecordLong);
    refused(SIZES, &longer, 0, Refusal::RecordLong);
    refused(SIZES, &longer[..longer.len() - 1], 0, Refusal::NoRecord(longer.len() / 6 - 1));
    refused(OUTSIDE, &longer[..longer.len() - 1], 0, Refusal::SizeOutside);
    refused(OUTSIDE, &ROWS.concat(), 100, Refusal::SizeOutside);
}

#[test]
fn read_back() {
    let numbers = ROWS.concat();
    let (given, buf) = written(SIZES, &numbers, 21);
    let (sizes, mut at) = read_sizes(&buf).expect("a record");
    assert_eq!((sizes, given), (SIZES, Ok(21)));
    for row in ROWS {
        let (step, next) = read_step(&buf, at).expect("a record").expect("a step");
        assert_eq!(step_named(row), Some(step));
        at = next;
    }
    assert_eq!(read_step(&buf, at), Ok(None));
}
