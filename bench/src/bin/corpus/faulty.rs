//! The faulty records: each fault of sizes, of lengths and of every field of a step, and walks that were damaged.

use crate::good::{whole_mixed, whole_single_bytes};
use crate::walk::Walk;
use crate::Named;
use bench::chooser::tight_sizes;
use bench::draws::Draws;
use bench::record::{read_sizes, read_step, record, write_number, Step, LIMITS, MOST_BYTES, SAMPLE};

/// The sizes of document 01's sample run, a byte each. Step faults stand behind that run, so that lines come before `record`.
const SIZES: &[u8] = SAMPLE.split_at(6).0;
const SIZE_NAMES: [&str; 6] = ["sites", "words", "lines", "sets", "pend", "stall"];

const LARGEST: [u8; 5] = [0xFF, 0xFF, 0xFF, 0xFF, 0x0F];
const TOO_LARGE: [u8; 5] = [0xFF, 0xFF, 0xFF, 0xFF, 0x10];
/// 3 in two groups.
const NOT_SHORTEST: [u8; 2] = [0x83, 0x00];
const CUT_INSIDE: [u8; 1] = [0x83];
/// One group more than the largest number has.
const SIX_GROUPS: [u8; 6] = [0x80, 0x80, 0x80, 0x80, 0x80, 0x01];

/// A step of each form: its name, and the name and the number of each field.
type Form = (&'static str, &'static [(&'static str, u32)]);

const FORMS: [Form; 13] = [
    ("loadl", &[("step", 0), ("site", 1), ("instruction", 0), ("tag", 300), ("address", 3)]),
    ("storel", &[("step", 0), ("site", 1), ("instruction", 1), ("tag", 300), ("address", 3), ("value", 70_000)]),
    ("commit", &[("step", 0), ("site", 1), ("instruction", 2), ("tag", 300), ("address", 3)]),
    ("reconcile", &[("step", 0), ("site", 1), ("instruction", 3), ("tag", 300), ("address", 3)]),
    ("fence-rr", &[("step", 0), ("site", 1), ("instruction", 4), ("tag", 300), ("address", 3), ("second-address", 2)]),
    ("fence-rw", &[("step", 0), ("site", 1), ("instruction", 5), ("tag", 300), ("address", 3), ("second-address", 2)]),
    ("fence-wr", &[("step", 0), ("site", 1), ("instruction", 6), ("tag", 300), ("address", 3), ("second-address", 2)]),
    ("fence-ww", &[("step", 0), ("site", 1), ("instruction", 7), ("tag", 300), ("address", 3), ("second-address", 2)]),
    ("retry", &[("step", 1), ("retry-site", 1)]),
    ("send", &[("step", 2), ("send-site", 1)]),
    ("arrive-memory", &[("step", 3), ("memory-position", 0)]),
    ("arrive-site", &[("step", 6), ("site-position", 0)]),
    ("take", &[("step", 7), ("take-site", 1)]),
];

/// Step and instruction numbers above 7, with what is before and after them.
const ABOVE_SEVEN: [(&str, &[u8]); 11] = [
    ("step-8", &[8]),
    ("step-8-and-fields", &[8, 0, 0, 7, 3]),
    ("step-127", &[0x7F]),
    ("step-128", &[0x80, 0x01]),
    ("step-largest", &LARGEST),
    ("instruction-8", &[0, 0, 8, 7, 3]),
    ("instruction-128", &[0, 0, 0x80, 0x01, 7, 3]),
    ("instruction-8-site-past-last", &[0, 9, 8, 7, 3]),
    ("instruction-8-bad-site-before", &[0, 0x80, 0x00, 8, 7, 3]),
    ("instruction-8-bad-tag-after", &[0, 0, 8, 0x80, 0x00, 3]),
    ("instruction-8-cut-after", &[0, 0, 8]),
];

pub fn faulty_records(draws: &mut Draws) -> Vec<Named> {
    let mut records = sizes_faults();
    records.extend(long_records(draws));
    records.extend(steps_cut());
    records.extend(fields_broken());
    records.extend(ABOVE_SEVEN.map(|(what, step)| (what.into(), [&SAMPLE, step].concat())));
    records.extend(walks_broken(draws));
    records.extend(walks_damaged(draws));
    records
}

/// 10 and 12 in the sizes, and 10 before 12.
fn sizes_faults() -> Vec<Named> {
    let mut records: Vec<Named> = (0..6).map(|length| (format!("sizes-cut-{length}"), SIZES[..length].to_vec())).collect();
    for (index, name) in SIZE_NAMES.into_iter().enumerate() {
        let mut put = |what: &str, number: &[u8]| {
            records.push((format!("sizes-{name}-{what}"), [&SIZES[..index], number, &SIZES[index + 1..], &[4]].concat()));
        };
        put("0", &[0]);
        put("past-limit", &[LIMITS[index].1 as u8 + 1]);
        put("largest", &LARGEST);
        put("too-large", &TOO_LARGE);
        put("six-groups", &SIX_GROUPS);
        put("not-shortest", &NOT_SHORTEST);
    }
    let others: [(&str, &[u8]); 5] = [
        ("sizes-cut-inside", &[2, 2, 4, 1, 1, 0x81]),
        ("sizes-past-limit-then-cut", &[5, 2, 4, 1, 1]),
        ("sizes-past-limit-then-not-shortest", &[5, 2, 4, 1, 1, 0x81, 0x00]),
        ("sizes-past-limit-then-bad-step", &[5, 2, 4, 1, 1, 1, 9]),
        ("sizes-all-0", &[0; 6]),
    ];
    records.extend(others.map(|(what, bytes)| (what.into(), bytes.to_vec())));
    records
}

/// Around the most bytes: the last step is cut at exactly so many; and 13, whatever the bytes hold.
fn long_records(draws: &mut Draws) -> Vec<Named> {
    let mut cut = whole_single_bytes(draws);
    cut[MOST_BYTES - 1] = Step::Take(0).number() as u8;
    let longer = |mut bytes: Vec<u8>, length: usize| {
        bytes.resize(length, Step::Serve.number() as u8);
        bytes
    };
    let sizes_out = record([5, 2, 4, 1, 1, 1], &[]);
    vec![
        ("whole-65536-cut".into(), cut),
        ("long-65537".into(), longer(whole_mixed(draws), MOST_BYTES + 1)),
        ("long-65537-single-bytes".into(), longer(SIZES.to_vec(), MOST_BYTES + 1)),
        ("long-65537-size-past-limit".into(), longer(sizes_out, MOST_BYTES + 1)),
        ("long-65537-no-sizes".into(), vec![0x80; MOST_BYTES + 1]),
        ("long-70000-drawn".into(), (0..70_000).map(|_| draws.below(256) as u8).collect()),
        ("long-200000".into(), longer(SAMPLE.to_vec(), 200_000)),
    ]
}

fn numbers(fields: &[(&str, u32)]) -> Vec<u8> {
    let mut bytes = Vec::new();
    for (_, n) in fields {
        write_number(&mut bytes, *n);
    }
    bytes
}

/// Every step cut before each of its fields; what two forms have in common is cut once.
fn steps_cut() -> Vec<Named> {
    let mut records: Vec<Named> = Vec::new();
    for (form, fields) in FORMS {
        for there in 1..fields.len() {
            let bytes = [&SAMPLE[..], &numbers(&fields[..there])].concat();
            if records.iter().all(|(_, other)| *other != bytes) {
                records.push((format!("cut-{form}-before-{}", fields[there].0), bytes));
            }
        }
    }
    records
}

/// Every field once with a number that is cut inside, not in its shortest form, or too large.
fn fields_broken() -> Vec<Named> {
    let mut records = Vec::new();
    let mut met = Vec::new();
    for (_, fields) in FORMS {
        for (index, (field, _)) in fields.iter().enumerate().filter(|(_, (field, _))| !met.contains(field)) {
            let (before, after) = (numbers(&fields[..index]), numbers(&fields[index + 1..]));
            let mut put = |what: &str, number: &[u8], after: &[u8]| {
                records.push((format!("field-{field}-{what}"), [&SAMPLE[..], &before, number, after].concat()));
            };
            put("cut-inside", &CUT_INSIDE, &[]);
            put("not-shortest", &NOT_SHORTEST, &after);
            put("too-large", &TOO_LARGE, &after);
            put("six-groups", &SIX_GROUPS, &after);
        }
        met.extend(fields.iter().map(|(field, _)| field));
    }
    records
}

fn walk(draws: &mut Draws) -> Vec<u8> {
    let (sizes, length) = (tight_sizes(draws), draws.between((20, 300)));
    Walk::of_length(draws, sizes, length).record
}

/// Where each step of a good record starts.
fn starts(bytes: &[u8]) -> Vec<usize> {
    let (_, mut at) = read_sizes(bytes).expect("a good record");
    let mut starts = Vec::new();
    while let Some((_, next)) = read_step(bytes, at).expect("a good record") {
        starts.push(at);
        at = next;
    }
    starts
}

/// Walks that stop at a step in their midst: no step has the number 8.
fn walks_broken(draws: &mut Draws) -> Vec<Named> {
    let broken = |count| {
        let mut bytes = walk(draws);
        let starts = starts(&bytes);
        let index = starts.len() / 4 + draws.below(starts.len() as u32 / 2) as usize;
        bytes.insert(starts[index], 8);
        (format!("broken-walk-{count}"), bytes)
    };
    (1..=10).map(broken).collect()
}

/// Walks with one byte changed, inserted or removed, wherever it is. Some are good records all the same.
fn walks_damaged(draws: &mut Draws) -> Vec<Named> {
    let damaged = |count| {
        let mut bytes = walk(draws);
        let at = draws.below(bytes.len() as u32) as usize;
        let byte = draws.below(256) as u8;
        let what = match count % 3 {
            0 => {
                bytes[at] ^= byte.max(1);
                "changed"
            }
            1 => {
                bytes.insert(at, byte);
                "inserted"
            }
            _ => {
                bytes.remove(at);
                "removed"
            }
        };
        (format!("damaged-walk-{count}-{what}"), bytes)
    };
    (1..=30).map(damaged).collect()
}
