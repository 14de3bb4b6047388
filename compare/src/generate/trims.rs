//! The plans on which trimming is timed.
use super::draft::{Draft, State};
use super::random::Random;
use super::{sites, timed};
use crate::planner::plan::Size;

/// Those among the timed plans, so that deciding the same plan can be seen beside: at the limits, and a small one for the fixed price.
const AMONG_TIMED: [(&str, usize); 5] = [
    ("ordinary", 64),
    ("ordinary", Size::STATES),
    ("random, full", Size::STATES),
    ("chain", Size::STATES),
    ("worst chain", Size::STATES),
];

/// How many states a corner has.
const CORNER: usize = 16;

/// A few states that lead to one another only, four commands of four outcomes each.
fn corner() -> Draft {
    let command = |s: usize, c: usize| (0..4).map(|i| (s + c + i) % CORNER).collect();
    let states = (0..CORNER).map(|s| State::ordinary((0..4).map(|c| command(s, c)).collect()));
    Draft::new(states.collect())
}

/// A full plan of so many states.
fn full(n: usize, random: &mut Random) -> Draft {
    sites::random(n, 4 * n, 16 * n, random)
}

/// Two plans in one, mixed at random, that starts where the first does. None of the first's states leads to one of the second's; there one
/// command in two stays, and the other may leave.
fn with_dead(mut kept: Draft, dead: Draft, random: &mut Random) -> Draft {
    let count = kept.states.len() as u16;
    for mut state in dead.states {
        for command in state.commands.iter_mut().step_by(2) {
            command.iter_mut().for_each(|outcome| *outcome += count);
        }
        kept.states.push(state);
    }
    kept.renumbered(random)
}

/// The same plans in every run.
pub fn plans() -> Vec<(&'static str, Draft)> {
    let timed = timed::plans().into_iter();
    let timed = timed.filter(|plan| AMONG_TIMED.contains(&(plan.name, plan.draft.states.len())));
    let mut plans: Vec<_> = timed.map(|plan| (plan.name, plan.draft)).collect();
    let (n, mut random) = (Size::STATES, Random::new(2, 0));
    let (kept, dead) = (full(n / 2, &mut random), full(n / 2, &mut random));
    plans.push(("half dead", with_dead(kept, dead, &mut random)));
    let dead = full(n - CORNER, &mut random);
    plans.push(("corner", with_dead(corner(), dead, &mut random)));
    plans
}

#[test]
fn all_are_among_the_timed() {
    assert_eq!(plans().len(), AMONG_TIMED.len() + 2);
}
