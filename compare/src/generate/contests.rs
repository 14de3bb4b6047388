//! The plans on which the contest is timed, 8 moves from state 0.
use super::draft::{Draft, State};
use super::random::Random;
use super::{shapes, sites};
use crate::planner::plan::Size;

/// 16 states with 16 commands each of 64 outcomes, all 16 states among them. The last outcome of every command but the last one
/// fails: each turn must be seen to its end, and who remembers none works out 256 more a move.
pub fn branching() -> Draft {
    let leaking: Vec<usize> = (0..64).collect();
    let holding: Vec<usize> = (0..63).chain([64]).collect();
    let mut states = Vec::new();
    for _ in 0..16 {
        let mut commands = vec![leaking.clone(); 15];
        commands.push(holding.clone());
        states.push(State::ordinary(commands));
    }
    states.resize_with(63, State::rest);
    states.push(State::failing());
    states.push(State::rest());
    Draft::new(states)
}

/// 64 states with four commands each, onto nearly all of them. All but the last command may fail.
pub fn wide() -> Draft {
    let leaking: Vec<usize> = (0..63).chain([64]).collect();
    let holding: Vec<usize> = (0..64).collect();
    let commands = || {
        vec![
            leaking.clone(),
            leaking.clone(),
            leaking.clone(),
            holding.clone(),
        ]
    };
    let mut states = Vec::new();
    states.resize_with(64, || State::ordinary(commands()));
    states.push(State::failing());
    Draft::new(states)
}

/// Nearly as many states as there may be, with four commands each, which lead to thirteen others and so to all in three moves. All
/// but the last command may fail.
pub fn long() -> Draft {
    let failing = Size::STATES - 1;
    let mut states = Vec::new();
    for s in 0..failing {
        let next = |i: usize| (13 * s + 1 + i) % failing;
        let leaking = |c: usize| vec![next(3 * c), next(3 * c + 1), next(3 * c + 2), failing];
        let holding = vec![next(9), next(10), next(11), next(12)];
        states.push(State::ordinary(vec![
            leaking(0),
            leaking(1),
            leaking(2),
            holding,
        ]));
    }
    states.push(State::failing());
    Draft::new(states)
}

/// The same plans in every run.
pub fn plans() -> Vec<(&'static str, Draft)> {
    let (n, m, t) = (Size::STATES, Size::COMMANDS, Size::OUTCOMES);
    let random = sites::random(n, m, t, &mut Random::new(1, 0));
    vec![
        ("branching", branching()),
        ("wide", wide()),
        ("long", long()),
        ("random, full", random),
        ("chain", shapes::chain(n, State::failing)),
    ]
}
