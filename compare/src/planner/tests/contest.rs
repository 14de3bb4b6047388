//! The contest: by its definition, by the ranks, and what it refuses.
use super::{any_plan, bytes, decided, read_file, CASE_A};
use crate::generate::draft::{Draft, State};
use crate::generate::random::Random;
use crate::generate::{contests, shapes};
use crate::planner::contest::{contest, Space, MOVES};
use crate::planner::definition;
use crate::planner::looks;
use crate::planner::plan::{Plan, NONE};
use crate::planner::refusal::Refusal;

fn held(plan: &Plan, state: usize, moves: usize) -> Result<bool, Refusal> {
    contest(plan, state, moves, &mut Space::new(), &mut ())
}

#[test]
fn the_contest_of_case_a() {
    let case_a = read_file(&bytes(CASE_A)).unwrap();
    let plan = case_a.plan();
    for moves in 0..=MOVES {
        let states = (0..6).map(|s| held(&plan, s, moves));
        let states: Vec<bool> = states.map(Result::unwrap).collect();
        assert_eq!(states, [true, true, true, moves < 1, false, moves < 2]);
    }
}

#[test]
fn refused_contests() {
    let mut case_a = read_file(&bytes(CASE_A)).unwrap();
    for far in [6, 7, 1024, 1 << 16, 1 << 32, usize::MAX] {
        assert_eq!(held(&case_a.plan(), far, 8), Err(Refusal::Stranger));
        assert_eq!(held(&case_a.plan(), far, 9), Err(Refusal::Stranger));
    }
    for many in [9, 1 << 8, 1 << 16, 1 << 32, usize::MAX] {
        assert_eq!(held(&case_a.plan(), 5, many), Err(Refusal::Moves));
    }
    case_a.rows[4].kind = 3;
    assert_eq!(held(&case_a.plan(), 0, 0), Err(Refusal::Unsound));
    assert_eq!(held(&case_a.plan(), 6, 9), Err(Refusal::Unsound));
}

/// Every state of a plan with every number of moves.
fn turns(plan: &Plan) -> impl Iterator<Item = (usize, usize)> {
    let states = 0..plan.size.n;
    states.flat_map(|s| (0..=MOVES).map(move |moves| (s, moves)))
}

#[test]
fn the_contest_is_by_the_definition() {
    for index in 0..2000 {
        let drawn = shapes::any(5, &mut Random::new(8, index)).hold();
        let plan = drawn.plan();
        for (s, moves) in turns(&plan) {
            let mut taken = 0;
            let defined = definition::keeper_holds(&plan, s, moves, &mut taken);
            let of = format!("plan {index}, state {s}, {moves} moves");
            assert_eq!(held(&plan, s, moves), Ok(defined), "{of}");
            assert_eq!(looks::plain(&plan, s, moves), taken, "{of}");
        }
    }
}

/// Held by the rank, in few looks, and whatever the space was used for before.
fn assert_by_rank(plan: &Plan, space: &mut Space) {
    let ranks = decided(plan).ranks;
    for (s, moves) in turns(plan) {
        let mut taken = 0;
        let by_rank = ranks[s] == NONE || usize::from(ranks[s]) > moves;
        assert_eq!(contest(plan, s, moves, space, &mut taken), Ok(by_rank));
        assert!(taken <= looks::most(plan, moves));
        assert!(u128::from(taken) <= looks::plain(plan, s, moves));
    }
}

#[test]
fn the_contest_goes_by_the_ranks() {
    let mut space = Space::new();
    for index in 0..4000 {
        assert_by_rank(&any_plan(index).plan(), &mut space);
    }
    let mut random = Random::new(9, 0);
    for _ in 0..20 {
        assert_by_rank(&shapes::layered(40, &mut random).hold().plan(), &mut space);
    }
}

/// The looks of 8 moves from state 0, and of the same with nothing remembered.
fn looks_at(draft: Draft) -> (u64, u128) {
    let drawn = draft.hold();
    let mut taken = 0;
    let answer = contest(&drawn.plan(), 0, MOVES, &mut Space::new(), &mut taken);
    assert_eq!(answer, Ok(true));
    (taken, looks::plain(&drawn.plan(), 0, MOVES))
}

#[test]
fn looks_are_counted() {
    let chain = shapes::chain(1024, State::failing);
    assert_eq!(looks_at(chain), (9 + 8 + 8, 9 + 8 + 8));
    let turn = 1 + 16 + 16 * 64;
    let (taken, plain) = looks_at(contests::branching());
    assert_eq!(taken, turn + 7 * (16 * turn + 49) + 65);
    assert!(plain > 1 << 64);
    let turn = 1 + 4 + 4 * 64;
    assert_eq!(
        looks_at(contests::wide()).0,
        turn + 7 * (64 * turn + 1) + 65
    );
}
