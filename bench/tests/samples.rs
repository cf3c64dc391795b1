//! Document 01, Samples 1 to 10, Replay 3 and 4, Slips 1 to 3: each expected value is the document's.

use bench::given::{Answer, Number, Outcome, Returned};
use bench::listing::replay;
use bench::model::System;
use bench::record::Instruction::{Commit, Fence, Loadl, Reconcile, Storel};
use bench::record::{read_sizes, read_step, record, write_number, Instruction, Refusal, Step};

/// The sizes of Replay 4: two sites, two words in a line, four lines, one set, one pend entry, one stall entry.
const ABOVE: [u32; 6] = [2, 2, 4, 1, 1, 1];
const FENCE_RR: u32 = 4;
const FENCE_WR: u32 = 6;

const DONE: Outcome = Outcome::Done(None);

type Row = (Step, Outcome);

fn value(site: u32, tag: u32, value: u32) -> Outcome {
    Outcome::Done(Some(Answer { site, tag, returned: Returned::Value(value) }))
}

fn ack(site: u32, tag: u32) -> Outcome {
    Outcome::Done(Some(Answer { site, tag, returned: Returned::Ack }))
}

fn no(number: Number) -> Outcome {
    Outcome::Refused(number)
}

fn issue(site: u32, tag: u32, instruction: Instruction) -> Step {
    Step::Issue { site, tag, instruction }
}

/// A request goes to memory and its reply comes back; `last` is what the take gives.
fn trip(site: u32, last: Outcome) -> Vec<Row> {
    let mut rows = Step::trip(site).map(|step| (step, DONE));
    rows[5].1 = last;
    rows.to_vec()
}

/// An instruction that is answered when its trip is over.
fn away(site: u32, tag: u32, instruction: Instruction, last: Outcome) -> Vec<Row> {
    [vec![(issue(site, tag, instruction), DONE)], trip(site, last)].concat()
}

/// Steps a fresh system through the rows; a refusal must change nothing. Gives what `left` would print.
fn left_after(sizes: [u32; 6], parts: &[Vec<Row>]) -> (usize, usize) {
    let mut system = System::fresh(sizes).expect("sizes in their limits");
    for (index, (step, expected)) in parts.iter().flatten().enumerate() {
        let before = system;
        let outcome = system.step(*step);
        assert_eq!(outcome, *expected, "row {index}: {step:?}");
        assert!(matches!(outcome, Outcome::Done(_)) || system == before, "row {index}: a refusal changed the state");
    }
    (system.outstanding(), system.messages())
}

/// The number that stands as a position behind the step number of arrive-memory.
fn read_position(number: &[u8]) -> Result<Option<(Step, usize)>, Refusal> {
    read_step(&[&[3], number].concat(), 0)
}

#[test]
fn numbers() {
    let largest = [0xFF, 0xFF, 0xFF, 0xFF, 0x0F];
    for (n, bytes) in [(127, &[0x7F][..]), (128, &[0x80, 0x01]), (300, &[0xAC, 0x02]), (u32::MAX, &largest)] {
        let mut written = Vec::new();
        write_number(&mut written, n);
        assert_eq!(written, bytes);
        assert_eq!(read_position(bytes), Ok(Some((Step::ArriveMemory(n), 1 + bytes.len()))));
    }
    assert_eq!(read_position(&[0x80, 0x00]), Err(Refusal::NoRecord(1)));
    assert_eq!(read_position(&[0xFF, 0xFF, 0xFF, 0xFF, 0x10]), Err(Refusal::NoRecord(1)));
}

#[test]
fn sizes() {
    for (index, size, passes) in [(0, 4, true), (0, 5, false), (0, 0, false), (2, 16, true), (2, 17, false)] {
        let mut sizes = ABOVE;
        sizes[index] = size;
        assert_eq!(System::fresh(sizes).is_some(), passes);
        let read = if passes { Ok((sizes, 6)) } else { Err(Refusal::SizeOutside) };
        assert_eq!(read_sizes(&record(sizes, &[])), read);
    }
}

#[test]
fn the_last_address() {
    let rows = vec![(issue(0, 1, Loadl(8)), no(Number::AddressPastLast)), (issue(0, 1, Loadl(7)), DONE)];
    assert_eq!(left_after(ABOVE, &[rows]), (1, 1));
}

/// The two samples about Loadl(1) outstanding, one behind the other.
#[test]
fn may_it_be_issued() {
    let rows = vec![
        (issue(0, 1, Loadl(1)), DONE),
        (issue(0, 2, Storel(1, 5)), no(Number::MayNotIssueYet)),
        (issue(0, 3, Fence(FENCE_RR, 1, 0)), no(Number::MayNotIssueYet)),
        (issue(0, 4, Fence(FENCE_WR, 1, 0)), ack(0, 4)),
        (issue(0, 5, Storel(0, 5)), DONE),
        (issue(0, 6, Loadl(3)), no(Number::StallQueueFull)),
        (Step::Retry(0), no(Number::MustStillWait)),
    ];
    assert_eq!(left_after(ABOVE, &[rows]), (2, 1));
}

#[test]
fn reconcile_beside_a_dirty_word() {
    let reconciles = vec![(issue(0, 2, Reconcile(0)), ack(0, 2)), (issue(0, 3, Reconcile(1)), DONE)];
    assert_eq!(left_after(ABOVE, &[away(0, 1, Storel(0, 5), ack(0, 1)), reconciles]), (1, 1));
}

/// Samples 8, shown by a fetch after both commits. It is Slips 1 too: a write-back that stores Clean words would lose the 5.
#[test]
fn two_writers() {
    let parts = [
        away(0, 1, Loadl(0), value(0, 1, 0)),
        away(1, 1, Loadl(0), value(1, 1, 0)),
        vec![(issue(0, 2, Storel(0, 5)), ack(0, 2)), (issue(1, 2, Storel(1, 6)), ack(1, 2))],
        away(0, 3, Commit(0), ack(0, 3)),
        away(1, 3, Commit(1), ack(1, 3)),
        vec![(issue(0, 4, Reconcile(0)), ack(0, 4))],
        away(0, 5, Loadl(0), value(0, 5, 5)),
        vec![(issue(0, 6, Loadl(1)), value(0, 6, 6))],
    ];
    assert_eq!(left_after(ABOVE, &parts), (0, 0));
}

#[test]
fn short_records() {
    assert_eq!(replay(&[]), b"record 10 at 0\n");
    assert_eq!(replay(&record(ABOVE, &[])), b"sites 2 words 2 lines 4 sets 1 pend 1 stall 1\nleft 0 0\n");
}

#[test]
fn the_listing_of_the_21_bytes() {
    let bytes = [2, 2, 4, 1, 1, 1, 0, 0, 0, 7, 3, 2, 0, 3, 0, 4, 5, 6, 0, 7, 0];
    let listing = "sites 2 words 2 lines 4 sets 1 pend 1 stall 1
1 issue 0
2 send 0
3 arrive-memory 0
4 serve 0
5 send-back 0
6 arrive-site 0
7 take 0 answer 0 7 0
left 0 0
";
    assert_eq!(replay(&bytes), listing.as_bytes());
}

/// Replay 3c: nothing is listed before these lines. 13 comes before 10, and 10 before 12.
#[test]
fn faulty_records() {
    let mut longest = record(ABOVE, &[]);
    longest.resize(65_536, 4);
    assert!(replay(&longest).ends_with(b"\n65530 serve 8\nleft 0 0\n"));
    longest.push(4);
    assert_eq!(replay(&longest), b"record 13 at 65536\n");
    assert_eq!(replay(&[0x80; 65_537]), b"record 13 at 65536\n");
    assert_eq!(replay(&[5, 2, 4, 1, 1, 1, 9]), b"record 12 at 0\n");
    assert_eq!(replay(&[5, 2, 4, 1, 1]), b"record 10 at 5\n");
    assert_eq!(replay(&[2, 2, 4, 1, 1, 1, 4, 8]), b"sites 2 words 2 lines 4 sets 1 pend 1 stall 1\n1 serve 8\nrecord 10 at 7\n");
}

/// Slips 2a, C39 as the thesis prints it: as a Commit, the Reconcile would write its Dirty word back.
#[test]
fn slip_c39() {
    let parts = [vec![(issue(0, 1, Storel(0, 5)), DONE), (issue(0, 2, Reconcile(0)), DONE)], trip(0, ack(0, 1)), vec![(Step::Retry(0), ack(0, 2))]];
    assert_eq!(left_after(ABOVE, &parts), (0, 0));
}

/// Slips 2a, C35 as the thesis prints it: as a Commit, the Reconcile of a Clean word would be acknowledged at once.
#[test]
fn slip_c35() {
    let parts = [
        away(0, 1, Storel(0, 5), ack(0, 1)),
        vec![(issue(0, 2, Loadl(2)), DONE), (issue(0, 3, Reconcile(1)), DONE), (Step::Retry(0), no(Number::MustStillWait))],
        trip(0, value(0, 2, 0)),
        vec![(Step::Retry(0), DONE)],
        trip(0, ack(0, 3)),
    ];
    assert_eq!(left_after([2, 2, 4, 2, 1, 1], &parts), (0, 0));
}

/// Slips 2b, C29 as the prose has it: the reply to a Commit displaces the line fetched meanwhile. Without a Dirty word, that is dropped; with a
/// Dirty word it is written back.
#[test]
fn slip_c29() {
    let onward = |last| vec![(Step::Serve, DONE), (Step::SendBack, DONE), (Step::ArriveSite(0), DONE), (Step::Take(0), last)];
    let overtaken_by = |fetched, last| {
        [
            away(0, 1, Storel(0, 5), ack(0, 1)),
            vec![(issue(0, 2, Commit(0)), DONE), (issue(0, 3, fetched), DONE), (Step::Send(0), DONE), (Step::Send(0), DONE)],
            [vec![(Step::ArriveMemory(1), DONE)], onward(last)].concat(),
            [vec![(Step::ArriveMemory(0), DONE)], onward(ack(0, 2))].concat(),
        ]
    };
    let two_pend_entries = [1, 2, 4, 1, 2, 1];
    assert_eq!(left_after(two_pend_entries, &overtaken_by(Loadl(2), value(0, 3, 0))), (0, 0));
    assert_eq!(left_after(two_pend_entries, &overtaken_by(Storel(2, 6), ack(0, 3))), (0, 1));
}

/// The print of C8 and C17 has the same fault as that of C29.
#[test]
fn slip_c8_and_c17() {
    for (displacing, last) in [(Loadl(2), value(0, 2, 0)), (Storel(2, 6), ack(0, 2))] {
        let clean = away(0, 1, Loadl(0), value(0, 1, 0));
        let dirty = away(0, 1, Storel(0, 5), ack(0, 1));
        assert_eq!(left_after(ABOVE, &[clean, away(0, 2, displacing, last)]), (0, 0));
        assert_eq!(left_after(ABOVE, &[dirty, away(0, 2, displacing, last)]), (0, 1));
    }
}

/// Slips 3: a voluntary entry finds its place even where all entries are in use. Its line is pending, its tag 0 is free, and its
/// acknowledgement gives no answer.
#[test]
fn slip_voluntary() {
    let parts = [
        away(0, 1, Storel(0, 5), ack(0, 1)),
        away(0, 2, Loadl(2), value(0, 2, 0)),
        vec![(issue(0, 0, Loadl(0)), DONE), (Step::Retry(0), no(Number::MustStillWait))],
        trip(0, DONE),
        vec![(Step::Retry(0), DONE)],
        trip(0, value(0, 0, 5)),
    ];
    assert_eq!(left_after(ABOVE, &parts), (0, 0));
}
