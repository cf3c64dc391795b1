//! Document 01, Drain 1 to 6, over states of random walks and over the state with the longest drain.

use bench::chooser::{tight_sizes, Chooser};
use bench::drain::{Drained, MOST_STEPS};
use bench::draws::Draws;
use bench::given::{Number, Outcome};
use bench::longest;
use bench::model::System;
use bench::record::{write_step, Instruction, Step};

const FILL: u8 = 0xA5;

fn accepted(system: &System, step: Step) -> bool {
    matches!(system.clone().step(step), Outcome::Done(_))
}

fn after(sizes: [u32; 6], steps: &[Step]) -> System {
    let mut system = System::fresh(sizes).expect("sizes in their limits");
    for step in steps {
        system.step(*step);
    }
    system
}

/// States along random walks, as they come, and the state with the longest drain.
fn states() -> Vec<System> {
    let mut states = vec![after(longest::SIZES, &longest::steps())];
    let mut draws = Draws::from_seed(1);
    for _ in 0..100 {
        let sizes = tight_sizes(&mut draws);
        let mut chooser = Chooser::new(&mut draws, sizes);
        let mut system = System::fresh(sizes).expect("sizes in their limits");
        for count in 0..200 {
            chooser.one_more();
            system.step(chooser.likely());
            if count % 20 == 0 {
                states.push(system);
            }
        }
    }
    states
}

/// Drain 1: each step is the first that succeeds, from kind 7 down to 1, from site 0 up, and of each network the oldest message.
fn steps_in_order(mut system: System, budget: usize) -> (Vec<Step>, System) {
    let every_site = |step: fn(u32) -> Step| (0..4).map(step).collect::<Vec<_>>();
    let others = vec![Step::ArriveSite(0), Step::SendBack, Step::Serve, Step::ArriveMemory(0)];
    let order = [every_site(Step::Take), others, every_site(Step::Send), every_site(Step::Retry)].concat();
    let mut taken = Vec::new();
    while taken.len() < budget {
        let Some(step) = order.iter().find(|step| accepted(&system, **step)) else { break };
        system.step(*step);
        taken.push(*step);
    }
    (taken, system)
}

/// Drain 3b: nothing but an issue could be done, at all sites and all positions
fn quiet(system: &System) -> bool {
    let numbered = [Step::Retry, Step::Send, Step::ArriveMemory, Step::ArriveSite, Step::Take];
    let steps = numbered.iter().flat_map(|step| (0..20).map(step)).chain([Step::Serve, Step::SendBack]);
    steps.into_iter().all(|step| !accepted(system, step))
}

#[test]
fn the_first_accepted_step_each_time_up_to_the_budget() {
    for (index, state) in states().into_iter().enumerate() {
        for budget in [0, 1, 2, index % 30, MOST_STEPS - 1, MOST_STEPS, usize::MAX] {
            let (expected, left) = steps_in_order(state, budget);
            let mut drained = state;
            assert_eq!(drained.drain(budget), (expected, quiet(&left)), "state {index}, budget {budget}");
            assert_eq!(drained, left, "state {index}, budget {budget}");
        }
    }
}

/// Drain 3c, 3d, 6: the buffer begins with the bytes of the steps, as many as the length says; the others are kept.
#[test]
fn the_bytes_are_the_steps_and_those_past_them_stay() {
    for (index, state) in states().into_iter().enumerate() {
        let budget = index % 40;
        let (steps, left) = steps_in_order(state, budget);
        let mut expected = Vec::new();
        for step in &steps {
            write_step(&mut expected, *step);
        }
        let (count, length) = (steps.len(), expected.len());
        expected.resize(2 * budget + index % 3, FILL);
        let mut buf = vec![FILL; expected.len()];
        assert_eq!(state.clone().drain_into(budget, &mut buf), Ok(Drained { count, quiet: quiet(&left), length }));
        assert_eq!(buf, expected, "state {index}");
    }
}

/// Drain 4: two bytes for each step that it may take are enough, and one byte less is refused.
#[test]
fn a_short_buffer_is_refused_and_nothing_altered() {
    let full = after(longest::SIZES, &longest::steps());
    for (budget, room) in [(0, 0), (1, 2), (655, 1310), (656, 1312), (657, 1312), (usize::MAX, 1312)] {
        assert!(full.clone().drain_into(budget, &mut vec![FILL; room]).is_ok(), "budget {budget}");
        let Some(short) = room.checked_sub(1) else { continue };
        let (mut system, mut buf) = (full, vec![FILL; short]);
        assert_eq!(system.drain_into(budget, &mut buf), Err(Number::BufferShort), "budget {budget}");
        assert!(system == full && buf.iter().all(|byte| *byte == FILL), "budget {budget}");
    }
}

/// Drain 5: 656 steps suffice. The state with the longest drain needs all of them.
#[test]
fn the_longest_drain() {
    let full = after(longest::SIZES, &longest::steps());
    let (steps, is_quiet) = full.clone().drain(655);
    assert_eq!((steps.len(), is_quiet), (655, false));
    let (steps, is_quiet) = full.clone().drain(656);
    assert_eq!((steps.len(), is_quiet), (656, true));
    assert!(states().into_iter().all(|mut state| state.drain(656).1));
}

/// The bytes behind the issue in document 01's 21 bytes are what a drain writes there.
#[test]
fn the_sample_drained() {
    let issue = Step::Issue { site: 0, tag: 7, instruction: Instruction::Loadl(3) };
    let mut buf = [0; 12];
    let drained = after([2, 2, 4, 1, 1, 1], &[issue]).drain_into(6, &mut buf);
    assert_eq!(drained, Ok(Drained { count: 6, quiet: true, length: 10 }));
    assert_eq!(buf, [2, 0, 3, 0, 4, 5, 6, 0, 7, 0, 0, 0]);
}
