//! The warning time: the rank of a lost state, in moves of so many seconds. Of all that deciding tells, ranks are enough.
use super::decide;
use super::plan::{Plan, Size, NONE};
use super::refusal::{need, Refusal};
use super::sound::sound;

/// The most seconds a move.
pub const LONGEST_MOVE: usize = 3_600;

const MINUTE: usize = 60;

#[derive(Clone, Copy, Debug, PartialEq, Eq)]
pub enum Warning {
    NoLimit,
    Time { minutes: usize, seconds: usize },
}

/// What ranks are worked out with, lent from call to call.
pub struct Space {
    ranks: Vec<u16>,
    decide: decide::Space,
}

impl Space {
    pub fn new() -> Space {
        Space {
            ranks: vec![NONE; Size::STATES],
            decide: decide::Space::new(),
        }
    }
}

fn time(rank: u16, length: usize) -> Warning {
    if rank == NONE {
        return Warning::NoLimit;
    }
    let time = usize::from(rank) * length;
    Warning::Time {
        minutes: time / MINUTE,
        seconds: time % MINUTE,
    }
}

/// How long a state has where a move takes `length` seconds.
pub fn warning(
    plan: &Plan,
    state: usize,
    length: usize,
    space: &mut Space,
) -> Result<Warning, Refusal> {
    need(sound(plan), Refusal::Unsound)?;
    need(state < plan.size.n, Refusal::Stranger)?;
    need((1..=LONGEST_MOVE).contains(&length), Refusal::Seconds)?;
    let ranks = &mut space.ranks[..plan.size.n];
    decide::rank(plan, &mut space.decide, ranks);
    Ok(time(ranks[state], length))
}
