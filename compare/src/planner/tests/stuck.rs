//! Stuck chambers: ordinary states without commands, which count as failing.
use super::{any_plan, decided, outline, searched};
use crate::generate::draft::{to, Draft, Held, State};
use crate::generate::ended;
use crate::planner::contest::{contest, Space, MOVES};
use crate::planner::plan::{FAILING, NONE, ORDINARY};

fn with_practice(mut state: State, practice: u16) -> State {
    state.practice = practice;
    state
}

#[test]
fn alone() {
    let held = Draft::new(vec![State::stuck()]).hold();
    let decided = decided(&held.plan());
    assert_eq!(decided.ranks, [0]);
    assert_eq!(decided.commands, [NONE]);
    assert_eq!(decided.marks, [1]);
    assert_eq!(decided.tally, [[0, 0, 0], [0, 0, 1]]);
    assert_eq!(searched(&held.plan(), 0), (true, 0, vec![NONE]));
}

#[test]
fn beside_a_rest() {
    let held = Draft::new(vec![State::rest(), State::stuck()]).hold();
    let decided = decided(&held.plan());
    assert_eq!(decided.ranks, [NONE, 0]);
    assert_eq!(decided.marks, [0, 1]);
    assert_eq!(decided.tally, [[0, 0, 1], [0, 0, 1]]);
    assert_eq!(searched(&held.plan(), 0), (false, 0, vec![NONE; 2]));
    assert_eq!(searched(&held.plan(), 1), (true, 0, vec![NONE; 2]));
}

/// State 0 has the practice of getting stuck in 1, and a command to a rest.
#[test]
fn a_fault_by_it() {
    let start = with_practice(to(&[&[1, 2], &[2]]), 0);
    let states = vec![start, State::stuck(), State::rest()];
    let held = Draft::new(states).hold();
    let decided = decided(&held.plan());
    assert_eq!(decided.ranks, [NONE, 0, NONE]);
    assert_eq!(decided.commands, [1, NONE, NONE]);
    assert_eq!(decided.marks, [3, 1, 0]);
    assert_eq!(decided.tally, [[0, 1, 1], [0, 0, 1]]);
    let commands = vec![1, NONE, NONE];
    assert_eq!(searched(&held.plan(), 0), (false, 1, commands));
}

/// Ranks, and the search's verdict and rounds from state 0, of the plans that `ended` makes with stuck states.
#[test]
fn at_odd_places() {
    let expected: [(&[u16], bool, u16); ended::COUNT] = [
        (&[1, 0], true, 1),
        (&[0, 1, NONE], true, 0),
        (&[NONE, 0, NONE], false, 1),
        (&[1, NONE, 0, 2], true, 1),
        (&[NONE, NONE, 0, NONE], false, 1),
        (&[1, 0, 2], true, 1),
        (&[NONE, 0, 0, NONE, 0], false, 1),
    ];
    for (number, expected) in expected.iter().enumerate() {
        let states = ended::plan(number, State::stuck).states;
        let (ranks, _, lost, rounds) = outline(states);
        assert_eq!((&ranks[..], lost, rounds), *expected, "plan {number}");
        let (ranks, _, lost, _) = outline(ended::plan(number, State::rest).states);
        assert!(!lost && ranks.iter().all(|&rank| rank == NONE));
    }
}

/// The same plan with each stuck state marked as failing.
fn marked_failing(held: &Held) -> Held {
    let mut rows = held.rows.clone();
    for s in stuck_states(held) {
        rows[s].kind = FAILING;
    }
    Held {
        size: held.size,
        rows,
        firsts: held.firsts.clone(),
        outcomes: held.outcomes.clone(),
    }
}

fn stuck_states(held: &Held) -> Vec<usize> {
    let plan = held.plan();
    let is_stuck = |s: usize| {
        let (first, end) = plan.commands(s);
        plan.rows[s].kind == ORDINARY && first == end
    };
    (0..plan.size.n).filter(|&s| is_stuck(s)).collect()
}

#[test]
fn judged_as_failing_states_are() {
    for index in 0..4000 {
        let held = any_plan(index);
        let (plan, marked) = (held.plan(), marked_failing(&held));
        let (ours, theirs) = (decided(&plan), decided(&marked.plan()));
        assert_eq!(ours.ranks, theirs.ranks, "plan {index}");
        assert_eq!(ours.commands, theirs.commands, "plan {index}");
        assert_eq!(ours.marks, theirs.marks, "plan {index}");
        assert_eq!(ours.tally, theirs.tally, "plan {index}");
        for start in 0..plan.size.n {
            let searches = (searched(&plan, start), searched(&marked.plan(), start));
            assert_eq!(searches.0, searches.1, "plan {index} from {start}");
        }
    }
}

#[test]
fn never_held() {
    let mut met = 0;
    for index in 0..4000 {
        let held = any_plan(index);
        for s in stuck_states(&held) {
            for moves in 0..=MOVES {
                let answer = contest(&held.plan(), s, moves, &mut Space::new(), &mut ());
                assert_eq!(answer, Ok(false), "plan {index}, state {s}");
            }
            met += 1;
        }
    }
    assert!(met > 400, "{met} stuck states");
}
