//! The two forms of a state: an example laid out by hand, and nothing lost on the way there and back.

use against::fields::{each, first_difference};
use against::kinds::{FETCH, LOADL, RECONCILE};
use against::layout::{from_raw, to_raw};
use against::sound::sound;
use bench::chooser::{tight_sizes, Chooser};
use bench::draws::Draws;
use bench::model::System;
use bench::record::{Instruction, Step};
use mwb::raw;

fn issue(tag: u32, instruction: Instruction) -> Step {
    Step::Issue { site: 0, tag, instruction }
}

/// Sizes 2 2 4 1 1 1: address 3 is word 1 of line 1; with one pend entry the second instruction waits.
#[test]
fn two_instructions_laid_out() {
    let mut system = System::fresh([2, 2, 4, 1, 1, 1]).expect("sizes in their limits");
    system.step(issue(7, Instruction::Loadl(3)));
    system.step(issue(300, Instruction::Reconcile(2)));
    let mut expected = raw::System { sizes: raw::Sizes { sites: 2, words: 2, lines: 4, sets: 1, pend: 1, stall: 1 }, ..raw::System::default() };
    expected.pends[0].entries[0] = raw::Entry { kind: LOADL, line: 1, word: 1, tag: 7, ..raw::Entry::default() };
    expected.pends[0].count = 1;
    expected.stalls[0].waiting[0] = raw::Waiting { kind: RECONCILE, line: 1, word: 0, tag: 300, value: 0 };
    expected.stalls[0].count = 1;
    expected.outgoing[0].items[0] = raw::Message { kind: FETCH, site: 0, line: 1, ..raw::Message::default() };
    expected.outgoing[0].count = 1;
    assert_eq!(first_difference(&to_raw(&system), &expected), None);
    expected.down.items[19].values[3] = 5;
    assert_eq!(first_difference(&to_raw(&system), &expected), Some(("down.items[19].values[3]".into(), 0, 5)));
}

#[test]
fn nothing_is_lost_and_every_state_reached_is_sound() {
    let mut draws = Draws::from_seed(1);
    for _ in 0..200 {
        let sizes = tight_sizes(&mut draws);
        let mut chooser = Chooser::new(&mut draws, sizes);
        let mut system = System::fresh(sizes).expect("sizes in their limits");
        for _ in 0..200 {
            chooser.one_more();
            system.step(chooser.likely());
            let laid_out = to_raw(&system);
            assert!(from_raw(&laid_out) == system && sound(&laid_out));
        }
    }
}

/// 6 sizes, 64 words of memory, 32 places of 10, 20 entries of 9 and 4 counts, 32 stalled of 5 and 4 counts, 120 messages of 11 and 12 counts.
#[test]
fn each_field_once() {
    let mut names = Vec::new();
    each(&mut raw::System::default(), &mut |name, _| names.push(name()));
    assert_eq!(names.len(), 6 + 64 + 320 + 184 + 164 + 1332);
    names.sort();
    names.dedup();
    assert_eq!(names.len(), 2070);
}
