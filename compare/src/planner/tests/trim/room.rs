//! The tables that a trimming is lent: how long they must be, what is left in them, and what is refused.
use super::{any_plan, case_a_from, defined, needs, trims, Trimmed, OLD};
use crate::generate::draft::{Draft, Held};
use crate::planner::plan::Plan;
use crate::planner::refusal::Refusal;
use crate::planner::trim::{trim, Lent, Space};

/// With so many places beyond what is needed of each table: in the first ones the trimmed plan, its map and zeros, and all the others as
/// they were.
fn assert_answered(plan: &Plan, expected: &Trimmed, surplus: [usize; 5], space: &mut Space) {
    let (held, map) = (&expected.held, &expected.map);
    let mut places = needs(held.size, plan.size.n);
    for (place, surplus) in places.iter_mut().zip(surplus) {
        *place += surplus;
    }
    let mut after = Lent::filled(places, OLD);
    after.rows[..held.size.n].copy_from_slice(&held.rows);
    after.firsts[..held.size.m].copy_from_slice(&held.firsts);
    after.outcomes[..held.size.t].copy_from_slice(&held.outcomes);
    after.map[..map.len()].copy_from_slice(map);
    after.scratch[..plan.size.n].fill(0);
    let mut lent = Lent::filled(places, OLD);
    assert_eq!(trim(plan, &mut lent, space), Ok(held.size));
    assert!(lent == after, "{lent:?}\n{after:?}");
}

/// Refused, and nothing altered.
fn assert_refused(plan: &Plan, places: [usize; 5], refusal: Refusal, space: &mut Space) {
    let mut lent = Lent::filled(places, OLD);
    assert_eq!(trim(plan, &mut lent, space), Err(refusal), "{places:?}");
    assert!(lent == Lent::filled(places, OLD), "{places:?}: {lent:?}");
}

/// One table after another is one short, with the others as long as they must be, and longer.
fn assert_one_short(plan: &Plan, expected: &Trimmed, space: &mut Space) {
    let needs = needs(expected.held.size, plan.size.n);
    for i in (0..5).filter(|&i| needs[i] > 0) {
        for others in [needs, needs.map(|need| need + 9)] {
            let mut places = others;
            places[i] = needs[i] - 1;
            assert_refused(plan, places, Refusal::Cramped, space);
        }
    }
}

fn plans() -> impl Iterator<Item = Held> {
    let large = trims::plans().into_iter().map(|(_, draft)| draft.hold());
    (0..1000).map(any_plan).chain(large)
}

#[test]
fn as_long_as_they_must_be() {
    let mut space = Space::new();
    for held in plans() {
        let plan = held.plan();
        let expected = defined(&plan);
        assert_one_short(&plan, &expected, &mut space);
        assert_answered(&plan, &expected, [0; 5], &mut space);
        assert_answered(&plan, &expected, [1, 2, 3, 4, 5], &mut space);
    }
}

#[test]
fn one_table_longer() {
    let mut space = Space::new();
    for held in (0..1000).map(any_plan) {
        let expected = defined(&held.plan());
        for i in 0..5 {
            let mut surplus = [0; 5];
            surplus[i] = 3;
            assert_answered(&held.plan(), &expected, surplus, &mut space);
        }
    }
}

#[test]
fn scratch_is_for_the_old_states() {
    let mut space = Space::new();
    let case_a = case_a_from(5);
    let refused = |scratch, space: &mut Space| {
        let places = [4, 3, 4, 4, scratch];
        assert_refused(&case_a.plan(), places, Refusal::Cramped, space);
    };
    refused(4, &mut space);
    refused(5, &mut space);
    let answer = trim(
        &case_a.plan(),
        &mut Lent::filled([4, 3, 4, 4, 6], OLD),
        &mut space,
    );
    assert!(answer.is_ok());
}

/// From state 0, state 5 of case A and its command are dead: what is wrong with the first four would not be in the trimmed plan.
fn unsound() -> Vec<Held> {
    let damages: [fn(&mut Held); 6] = [
        |held| held.rows[5].kind = 3,
        |held| held.rows[5].kind = 1,
        |held| held.rows[5].practice = 1,
        |held| held.outcomes[8] = 6,
        |held| held.firsts[5] = 7,
        |held| held.size.start = 6,
    ];
    let mut plans = vec![Draft::new(Vec::new()).hold()];
    for damage in damages {
        let mut held = case_a_from(0);
        damage(&mut held);
        plans.push(held);
    }
    plans
}

#[test]
fn unsound_plans_are_refused_first() {
    let mut space = Space::new();
    for held in unsound() {
        for places in [[0; 5], [5, 5, 8, 5, 6], [5, 5, 8, 5, 5], [99; 5]] {
            assert_refused(&held.plan(), places, Refusal::Unsound, &mut space);
        }
    }
    assert_refused(&case_a_from(0).plan(), [0; 5], Refusal::Cramped, &mut space);
}
