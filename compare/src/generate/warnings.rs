//! The plans on which the warning time is timed, at the plan's start.
use super::draft::Draft;
use super::random::Random;
use super::{sites, timed};
use crate::planner::plan::Size;

/// Those among the timed plans, so that deciding the same plan can be seen beside: at the limits, and a small one for the fixed price.
const AMONG_TIMED: [(&str, usize); 6] = [
    ("ordinary", 64),
    ("ordinary", Size::STATES),
    ("random, full", Size::STATES),
    ("chain", Size::STATES),
    ("worst chain", Size::STATES),
    ("most rounds", Size::STATES),
];

/// The worst chain with practices, which are of no concern to the warning time.
fn practised() -> Draft {
    sites::worst_chain(Size::STATES).with_practices(&mut Random::new(1, 0))
}

/// The same plans in every run.
pub fn plans() -> Vec<(&'static str, Draft)> {
    let timed = timed::plans().into_iter();
    let timed = timed.filter(|plan| AMONG_TIMED.contains(&(plan.name, plan.draft.states.len())));
    let timed = timed.map(|plan| (plan.name, plan.draft));
    timed.chain([("practised", practised())]).collect()
}

#[test]
fn all_are_among_the_timed() {
    assert_eq!(plans().len(), AMONG_TIMED.len() + 1);
}
