//! Plans at each limit, and one beyond each.
use super::draft::{Draft, State};
use super::random::Random;
use super::shapes;
use super::sites;
use crate::planner::plan::Size;

/// One state with so many commands that stay.
fn commands(count: usize) -> Draft {
    Draft::new(vec![State::ordinary(vec![vec![0]; count])])
}

/// 1,024 states of which the first has commands onto all, with `surplus` outcomes more than the limit.
pub fn outcomes(surplus: usize) -> Draft {
    let n = Size::STATES;
    let mut lists = vec![(0..n).collect::<Vec<usize>>(); Size::OUTCOMES / n];
    if surplus > 0 {
        lists.push((0..surplus).collect());
    }
    let mut states = vec![State::ordinary(lists)];
    states.resize_with(n, State::rest);
    Draft::new(states)
}

/// All commands that there may be, and after them a state with one more.
fn one_command_more() -> Draft {
    let mut draft = commands(Size::COMMANDS);
    draft.states.push(State::ordinary(vec![vec![0, 1]]));
    draft
}

pub const COUNT: usize = 19;

/// The plan of this number below `COUNT`.
pub fn plan(number: usize, random: &mut Random) -> Draft {
    let (n, m, t) = (Size::STATES, Size::COMMANDS, Size::OUTCOMES);
    match number {
        0 => shapes::bare(n, random),
        1 => shapes::bare(n + 1, random),
        2 => commands(m),
        3 => commands(m + 1),
        4 => one_command_more(),
        5 => outcomes(0),
        6 => outcomes(1),
        7 => sites::random(n, m, t, random),
        8 => sites::random(n + 1, m, t, random),
        9 => sites::random(n, m + 1, t, random),
        10 => sites::random(n, m, t + 1, random),
        11 => sites::worst_chain(n),
        12 => sites::worst_rounds(n),
        13 => shapes::ring(n),
        14 => shapes::leaking_ring(n).renumbered(random),
        15 => shapes::chain(n, State::failing),
        16 => shapes::chain(n + 1, State::rest),
        17 => shapes::chain(n, State::stuck),
        _ => sites::ordinary(n, random),
    }
}
