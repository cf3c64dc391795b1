//! The page docs/CORPUS.md.

use crate::tally::{Tally, FAULTS, GIVEN_BY_KIND, LEAST};
use bench::listing::STEP_NAMES;
use bench::rows::{MetBy, Row};

pub fn page(tally: &Tally) -> String {
    [introduction(tally), rows_section(tally), numbers_section(tally)].join("\n")
}

fn introduction(tally: &Tally) -> String {
    let Tally { records, steps, bytes, faults: [good, ..], .. } = tally;
    let faulty = records - good;
    format!(
        "# The corpus

{records} records with their listings: {steps} steps, {bytes} bytes of records; {good} of the records are good and {faulty} faulty.
They are made, always the same, by

    cargo run --offline --release --manifest-path bench/Cargo.toml --bin corpus DIR

which writes them into the folder DIR, prints this page, and fails where a row or a number below is met fewer than {LEAST} times. The listings
are those of the independent model in `bench/`, which was written from document 01; the proved program has to give the same bytes.

- `walk`: random walks over all kinds of sizes, each size at its least, at its most and at everything between. Most steps are accepted ones,
  taken at random positions of the networks; the others are refused, and some of those name sites, addresses and positions far out of range.
  Addresses are mostly of a few lines, so that lines displace each other and instructions wait.
- `rest`: walks that go on until nothing is under way.
- `whole`: records of exactly 65,536 bytes. `long`: longer ones.
- `sizes`: sizes cut at every place, at 0, past their limits, too large, not in the shortest form.
- `cut`: steps cut before every field. `field`: numbers cut inside, not in the shortest form or too large, in every field.
- `step`, `instruction`: step and instruction numbers above 7.
- `broken-walk`: walks with a step in their midst that has no number of a step.
- `damaged-walk`: walks with one byte changed, inserted or removed; some are good records all the same.
"
    )
}

fn rows_section(tally: &Tally) -> String {
    let table = rows_table(tally);
    format!(
        "## Rule rows

How often each case of the rules was met: when an instruction was issued, at a retry of the stall queue's head, or at a step of its own; and in
how many records. An instruction that must wait counts also where it is refused, with 7 when issued and with 9 at a retry. It counts as waiting
for a full pend only where its line is not pending. The rules are those of the thesis, figures 4-9, 4-10 and 4-17, with C8, C17, C29, C35 and
C39 as the prose has them. A fence is the processor's own there, and the moves of messages have no rule.

A dash stands where document 01 leaves no such case. A fence is answered at once or refused and never waits, so no retry meets one; and what
a step does with a message is neither issued nor retried.

{table}"
    )
}

fn numbers_section(tally: &Tally) -> String {
    let (by_step, by_record) = (numbers_table(tally), faults_table(tally));
    format!(
        "## Numbers given back

By kind of step. A dash stands where document 01 gives this number to no step of the kind.

{by_step}
By record: read to its end, or ended by a fault.

{by_record}"
    )
}

fn rows_table(tally: &Tally) -> String {
    let mut table = String::from("| rule row | thesis | met | issued | at a retry | records |\n|---|---|---:|---:|---:|---:|\n");
    for row in Row::ALL {
        let count = tally.rows[*row as usize];
        let dash = String::from("-");
        let (issued, retried) = match row.met_by() {
            MetBy::IssueOrRetry => (count.issued.to_string(), count.retried.to_string()),
            MetBy::IssueAlone => (count.issued.to_string(), dash),
            MetBy::OwnStep => (dash.clone(), dash),
        };
        table += &format!("| {} | {} | {} | {issued} | {retried} | {} |\n", row.name(), row.thesis(), count.met(), count.records);
    }
    table
}

fn numbers_table(tally: &Tally) -> String {
    const NUMBERS: [usize; 8] = [0, 2, 4, 5, 6, 7, 8, 9];
    let mut table = format!("| step | {} |\n|---|{}\n", NUMBERS.map(|number| number.to_string()).join(" | "), "---:|".repeat(NUMBERS.len()));
    for (kind, name) in STEP_NAMES.into_iter().enumerate() {
        let cell = |number| if GIVEN_BY_KIND[kind].contains(&number) { tally.given[kind][number].to_string() } else { "-".into() };
        table += &format!("| {name} | {} |\n", NUMBERS.map(cell).join(" | "));
    }
    table
}

fn faults_table(tally: &Tally) -> String {
    let [no_record, size_outside, record_long] = FAULTS.map(|number| tally.faults[number]);
    format!("| good | 10 | 12 | 13 |\n|---:|---:|---:|---:|\n| {} | {no_record} | {size_outside} | {record_long} |\n", tally.faults[0])
}
