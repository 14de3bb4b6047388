//! The plans that are timed.
use super::draft::{Draft, State};
use super::random::Random;
use super::{limits, rounds, shapes, sites};
use crate::planner::plan::Size;

pub struct Timed {
    pub name: &'static str,
    pub draft: Draft,
    /// The rounds from the plan's start, where its shape says how many.
    pub rounds: Option<usize>,
}

fn any(name: &'static str, draft: Draft) -> Timed {
    let rounds = None;
    Timed {
        name,
        draft,
        rounds,
    }
}

fn of_rounds(name: &'static str, (draft, rounds): (Draft, usize)) -> Timed {
    let rounds = Some(rounds);
    Timed {
        name,
        draft,
        rounds,
    }
}

fn of_size(n: usize, random: &mut Random) -> Vec<Timed> {
    let chain = shapes::chain(n, State::failing);
    vec![
        any("ordinary", sites::ordinary(n, random)),
        any("random, full", sites::random(n, 4 * n, 16 * n, random)),
        of_rounds("chain", (chain, n - 1)),
        of_rounds("worst chain", (sites::worst_chain(n), n - 1)),
        of_rounds("wide chain", rounds::wide_chain(n)),
        of_rounds("leaking ring", (shapes::leaking_ring(n), n - 1)),
        of_rounds("most rounds", (sites::worst_rounds(n), n - 1)),
        of_rounds("heavy rounds", rounds::heavy_rounds(n)),
    ]
}

fn at_the_limits() -> Vec<Timed> {
    let n = Size::STATES;
    vec![
        of_rounds("hub", rounds::hub(n, 1)),
        of_rounds("alternate", rounds::hub(n, 2)),
        of_rounds("fat", rounds::fat(n)),
        of_rounds("one state", (limits::outcomes(0), 1)),
    ]
}

/// The same plans in every run.
pub fn plans() -> Vec<Timed> {
    let mut random = Random::new(1, 0);
    let sizes = [64, 128, 256, 512, 1024];
    let mut plans: Vec<Timed> = sizes
        .iter()
        .flat_map(|&n| of_size(n, &mut random))
        .collect();
    plans.extend(at_the_limits());
    plans
}
