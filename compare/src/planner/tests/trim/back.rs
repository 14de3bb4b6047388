//! The commands of a trimmed plan, carried back: those of the whole plan where a state is kept, and none elsewhere.
use super::{any_plan, case_a_from, decided, trimmed, trims, Trimmed, OLD};
use crate::planner::carry::carry;
use crate::planner::definition;
use crate::planner::plan::{Plan, NONE};
use crate::planner::trim::Space;

fn carried_back(plan: &Plan, space: &mut Space) -> Vec<u16> {
    let Trimmed { held, map } = trimmed(plan, space);
    let commands = decided(&held.plan()).commands;
    let mut places = vec![OLD; plan.size.n];
    assert_eq!(carry(plan.size.n, &map, &commands, &mut places), Ok(()));
    places
}

/// Answers how many states are not kept though a command is chosen for them.
fn assert_carried_back(plan: &Plan, space: &mut Space, of: &str) -> usize {
    let kept = definition::kept(plan);
    let whole = decided(plan).commands;
    let mut expected = vec![NONE; plan.size.n];
    kept.iter().for_each(|&s| expected[s] = whole[s]);
    assert_eq!(carried_back(plan, space), expected, "{of}");
    let others = (0..plan.size.n).filter(|s| !kept.contains(s));
    others.filter(|&s| whole[s] != NONE).count()
}

#[test]
fn case_a_from_two_starts() {
    let mut space = Space::new();
    let from = |start, space: &mut Space| carried_back(&case_a_from(start).plan(), space);
    assert_eq!(from(0, &mut space), [0, 0, NONE, NONE, NONE, NONE]);
    assert_eq!(from(5, &mut space), [NONE; 6]);
}

#[test]
fn commands_are_those_of_the_whole_plan() {
    let mut space = Space::new();
    let mut left_out = 0;
    for index in 0..4000 {
        let of = format!("plan {index}");
        left_out += assert_carried_back(&any_plan(index).plan(), &mut space, &of);
    }
    assert!(left_out > 1000, "{left_out} commands of states not kept");
    for (name, draft) in trims::plans() {
        assert_carried_back(&draft.hold().plan(), &mut space, name);
    }
}
