//! Trimming: small plans by hand, plans of every shape by the definition, and what the trimmed plan has of the old one.
mod back;
mod room;

use super::{any_plan, bytes, decided, read_file, row, CASE_A};
use crate::generate::draft::{to, Draft, Held, State};
use crate::generate::random::Random;
use crate::generate::{limits, shapes, sites, trims};
use crate::planner::definition;
use crate::planner::plan::{Plan, Size, NONE};
use crate::planner::trim::{trim, Lent, Space};

/// Stands in no table of a plan.
const OLD: u16 = 0xEEEE;

/// The places that a trimming needs which gives so large a plan, from one of `n` states.
fn needs(size: Size, n: usize) -> [usize; 5] {
    [size.n, size.m, size.t, size.n, n]
}

/// A trimmed plan and its map.
struct Trimmed {
    held: Held,
    map: Vec<u16>,
}

/// By the call, with room for the whole plan.
fn trimmed(plan: &Plan, space: &mut Space) -> Trimmed {
    let mut lent = Lent::filled(needs(plan.size, plan.size.n), OLD);
    let size = trim(plan, &mut lent, space).unwrap();
    let plan = lent.plan(size);
    Trimmed {
        held: Held {
            size,
            rows: plan.rows.to_vec(),
            firsts: plan.firsts.to_vec(),
            outcomes: plan.outcomes.to_vec(),
        },
        map: lent.map[..size.n].to_vec(),
    }
}

/// By the definition: the kept states are drawn up anew, each outcome under the count of kept states below it.
fn defined(plan: &Plan) -> Trimmed {
    let kept = definition::kept(plan);
    let number = |s: usize| kept.iter().filter(|&&k| k < s).count();
    let command = |c: usize| {
        let outcomes = plan.outcomes(c).iter();
        outcomes.map(|&o| number(usize::from(o)) as u16).collect()
    };
    let state = |s: usize| {
        let (first, end) = plan.commands(s);
        State {
            kind: plan.rows[s].kind,
            practice: plan.rows[s].practice,
            commands: (first..end).map(command).collect(),
        }
    };
    let mut draft = Draft::new(kept.iter().map(|&s| state(s)).collect());
    draft.start = number(plan.size.start);
    Trimmed {
        held: draft.hold(),
        map: kept.iter().map(|&s| s as u16).collect(),
    }
}

fn assert_same(one: &Held, other: &Held, of: &str) {
    assert_eq!(one.size, other.size, "{of}");
    assert_eq!(one.rows, other.rows, "{of}");
    assert_eq!(one.firsts, other.firsts, "{of}");
    assert_eq!(one.outcomes, other.outcomes, "{of}");
}

/// Every state has its own number.
fn assert_all_kept(held: &Held, of: &str) {
    let all = trimmed(&held.plan(), &mut Space::new());
    assert_same(&all.held, held, of);
    let own: Vec<u16> = (0..held.size.n as u16).collect();
    assert_eq!(all.map, own, "{of}");
}

fn case_a_from(start: usize) -> Held {
    let mut case_a = read_file(&bytes(CASE_A)).unwrap();
    case_a.size.start = start;
    case_a
}

#[test]
fn case_a_loses_its_last_state() {
    let case_a = case_a_from(0);
    let Trimmed { held, map } = trimmed(&case_a.plan(), &mut Space::new());
    let (n, m, t, start) = (5, 5, 8, 0);
    assert_eq!(held.size, Size { n, m, t, start });
    assert_eq!(held.rows, case_a.rows[..5]);
    assert_eq!(held.firsts, case_a.firsts[..5]);
    assert_eq!(held.outcomes, case_a.outcomes[..8]);
    assert_eq!(map, [0, 1, 2, 3, 4]);
}

#[test]
fn from_a_corner_of_case_a() {
    let corner = trimmed(&case_a_from(5).plan(), &mut Space::new());
    let Trimmed { held, map } = corner;
    let (n, m, t, start) = (4, 3, 4, 3);
    assert_eq!(held.size, Size { n, m, t, start });
    let rows = [
        row(2, 0, NONE),
        row(0, 0, 0),
        row(1, 2, NONE),
        row(0, 2, NONE),
    ];
    assert_eq!(held.rows, rows);
    assert_eq!(held.firsts, [0, 1, 3]);
    assert_eq!(held.outcomes, [2, 0, 2, 1]);
    assert_eq!(map, [2, 3, 4, 5]);
}

/// The start is state 6. States 0, 2, 4, 5, 7 and 9 are dead, of every kind and some with commands to others, and so is the last.
#[test]
fn dead_states_among_the_kept() {
    let mut states = vec![
        State::failing(),
        to(&[&[3, 6], &[1]]),
        to(&[&[1, 2], &[4]]),
        State::rest(),
        State::rest(),
        State::stuck(),
        to(&[&[8], &[1, 6], &[8, 10]]),
        to(&[&[7, 9]]),
        State::failing(),
        State::failing(),
        State::stuck(),
        to(&[&[6, 11]]),
    ];
    states[1].practice = 1;
    states[2].practice = 0;
    states[6].practice = 2;
    let mut draft = Draft::new(states);
    draft.start = 6;
    let Trimmed { held, map } = trimmed(&draft.hold().plan(), &mut Space::new());
    let (n, m, t, start) = (5, 5, 8, 2);
    assert_eq!(held.size, Size { n, m, t, start });
    let rows = [
        row(0, 0, 1),
        row(2, 2, NONE),
        row(0, 2, 2),
        row(1, 5, NONE),
        row(0, 5, NONE),
    ];
    assert_eq!(held.rows, rows);
    assert_eq!(held.firsts, [0, 2, 3, 4, 6]);
    assert_eq!(held.outcomes, [1, 2, 0, 3, 0, 2, 3, 4]);
    assert_eq!(map, [1, 3, 6, 8, 10]);
}

/// The start is in the middle, and ends runs or stays.
#[test]
fn one_is_kept() {
    let stays = || to(&[&[1]]);
    let starts: [(fn() -> State, usize); 4] = [
        (State::failing, 0),
        (State::rest, 0),
        (State::stuck, 0),
        (stays, 1),
    ];
    for (state, commands) in starts {
        let states = vec![to(&[&[0, 1], &[2]]), state(), to(&[&[0], &[1]])];
        let mut draft = Draft::new(states);
        draft.start = 1;
        let Trimmed { held, map } = trimmed(&draft.hold().plan(), &mut Space::new());
        let (n, m, t, start) = (1, commands, commands, 0);
        assert_eq!(held.size, Size { n, m, t, start });
        assert_eq!(held.rows, [row(state().kind, 0, NONE)]);
        assert_eq!(held.firsts, vec![0; commands]);
        assert_eq!(held.outcomes, vec![0; commands]);
        assert_eq!(map, [1]);
    }
}

#[test]
fn all_is_kept() {
    let mut random = Random::new(11, 0);
    let plans = [
        ("one", Draft::new(vec![State::rest()])),
        ("ring", shapes::ring(1024)),
        (
            "mixed up",
            shapes::leaking_ring(1024).renumbered(&mut random),
        ),
        ("chain", shapes::chain(1024, State::stuck)),
        (
            "worst chain",
            sites::worst_chain(1024).with_practices(&mut random),
        ),
        ("one state", limits::outcomes(0)),
    ];
    for (name, draft) in plans {
        assert_all_kept(&draft.hold(), name);
    }
}

/// A plan from each of its states; answers how often a dead state was below a kept one.
fn assert_by_definition(mut held: Held, space: &mut Space, of: &str) -> usize {
    let mut moved = 0;
    for start in 0..held.size.n {
        held.size.start = start;
        let (ours, theirs) = (trimmed(&held.plan(), space), defined(&held.plan()));
        let of = format!("{of} from {start}");
        assert_same(&ours.held, &theirs.held, &of);
        assert_eq!(ours.map, theirs.map, "{of}");
        moved += usize::from((0..).zip(&ours.map).any(|(new, &old)| new != old));
    }
    moved
}

#[test]
fn small_plans_go_by_the_definition() {
    let mut space = Space::new();
    let plans = (0..4000).map(|index| (index, any_plan(index)));
    let moved =
        plans.map(|(index, held)| assert_by_definition(held, &mut space, &format!("plan {index}")));
    let moved: usize = moved.sum();
    assert!(
        moved > 4000,
        "{moved} plans with a dead state below a kept one"
    );
}

/// Ranks, commands and marks are those of the old numbers.
fn assert_verdicts_kept(plan: &Plan, space: &mut Space, of: &str) {
    let Trimmed { held, map } = trimmed(plan, space);
    let (old, new) = (decided(plan), decided(&held.plan()));
    let of_kept =
        |table: &[u16]| -> Vec<u16> { map.iter().map(|&s| table[usize::from(s)]).collect() };
    assert_eq!(new.ranks, of_kept(&old.ranks), "{of}");
    assert_eq!(new.commands, of_kept(&old.commands), "{of}");
    assert_eq!(new.marks, of_kept(&old.marks), "{of}");
}

#[test]
fn verdicts_are_kept() {
    let mut space = Space::new();
    for index in 0..4000 {
        let of = format!("plan {index}");
        assert_verdicts_kept(&any_plan(index).plan(), &mut space, &of);
    }
    for (name, draft) in trims::plans() {
        assert_verdicts_kept(&draft.hold().plan(), &mut space, name);
    }
}

#[test]
fn trimmed_twice_is_trimmed_once() {
    let mut space = Space::new();
    for index in 0..4000 {
        let once = trimmed(&any_plan(index).plan(), &mut space).held;
        assert_all_kept(&once, &format!("plan {index}"));
    }
}

/// The small one and four at the limits keep all, then one a half, and one its corner.
#[test]
fn the_timed_plans() {
    let mut space = Space::new();
    let plans = trims::plans().into_iter();
    let kept = plans.map(|(_, draft)| trimmed(&draft.hold().plan(), &mut space).map.len());
    let kept: Vec<usize> = kept.collect();
    assert_eq!(kept, [64, 1024, 1024, 1024, 1024, 512, 16]);
}
