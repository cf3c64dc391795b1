//! The good records: walks over all kinds of sizes, and records of the most bytes.

use crate::walk::Walk;
use crate::Named;
use bench::chooser::{sizes_drawn, tight_sizes};
use bench::draws::Draws;
use bench::record::{record, write_step, Step, LIMITS, MOST_BYTES};

const WALKS: usize = 170;
/// So many more go on until nothing is under way.
const TO_REST: usize = 20;
const LENGTHS: [u32; 12] = [0, 1, 3, 8, 20, 50, 100, 200, 400, 800, 2000, 5000];

pub fn good_records(draws: &mut Draws) -> Vec<Named> {
    let mut records = Vec::new();
    for sizes in sizes_walked(draws) {
        let length = draws.pick(&LENGTHS);
        records.push((name("walk", sizes), Walk::of_length(draws, sizes, length).record));
    }
    for _ in 0..TO_REST {
        let (sizes, length) = (tight_sizes(draws), draws.between((10, 600)));
        let mut walk = Walk::of_length(draws, sizes, length);
        walk.rest();
        records.push((name("rest", sizes), walk.record));
    }
    records.push(("whole-65536-mixed".into(), whole_mixed(draws)));
    records.push(("whole-65536-single-bytes".into(), whole_single_bytes(draws)));
    records
}

fn name(what: &str, sizes: [u32; 6]) -> String {
    format!("{what}-{}", sizes.map(|size| size.to_string()).join("-"))
}

/// All at their least, all at their most, one unlike the others, each size at each of its values, and drawn ones.
fn sizes_walked(draws: &mut Draws) -> Vec<[u32; 6]> {
    let (least, most) = (LIMITS.map(|limits| limits.0), LIMITS.map(|limits| limits.1));
    let mut walked = vec![least, most];
    for (index, (low, high)) in LIMITS.into_iter().enumerate() {
        let mut with = |mut sizes: [u32; 6], size| {
            sizes[index] = size;
            walked.push(sizes);
        };
        with(least, high);
        with(most, low);
        for size in low..=high {
            with(sizes_drawn(draws), size);
        }
    }
    while walked.len() < WALKS {
        walked.push(tight_sizes(draws));
    }
    walked
}

/// Mixed steps up to exactly the most bytes, with steps of one byte where no other is sure to fit.
pub fn whole_mixed(draws: &mut Draws) -> Vec<u8> {
    let mut walk = Walk::new(draws, [4, 3, 12, 2, 3, 4]);
    while walk.has_room() {
        walk.advance();
    }
    let bytes = walk.record;
    filled_up(draws, bytes)
}

pub fn whole_single_bytes(draws: &mut Draws) -> Vec<u8> {
    filled_up(draws, record([2, 2, 4, 1, 2, 2], &[]))
}

/// Serves and send-backs up to the most bytes.
fn filled_up(draws: &mut Draws, mut bytes: Vec<u8>) -> Vec<u8> {
    while bytes.len() < MOST_BYTES {
        write_step(&mut bytes, draws.pick(&[Step::Serve, Step::SendBack]));
    }
    bytes
}
