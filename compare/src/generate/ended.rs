//! Small plans with a state that ends runs, of the kind that is asked for, at an odd place.
use super::draft::{to, Draft, State};

pub const COUNT: usize = 7;

/// The plan of this number below `COUNT`. In each, state 0 is the one to start from.
pub fn plan(number: usize, end: fn() -> State) -> Draft {
    Draft::new(match number {
        // the only outcome, and the last state: its first command is m
        0 => vec![to(&[&[1]]), end()],
        // the start, and before states with commands: its first command is theirs
        1 => vec![end(), to(&[&[0]]), to(&[&[1, 2], &[2]])],
        // beside a rest, each by a command of its own
        2 => vec![to(&[&[1], &[2]]), end(), State::rest()],
        // beside a rest, as outcomes of one command
        3 => vec![to(&[&[1, 2]]), State::rest(), end(), to(&[&[0]])],
        // on a ring, before it a command that turns back
        4 => vec![to(&[&[1]]), to(&[&[2], &[0, 1]]), end(), to(&[&[0]])],
        // on a ring, and nothing turns back
        5 => vec![to(&[&[1]]), end(), to(&[&[0]])],
        // two in a row, and one at the end
        _ => vec![
            to(&[&[1, 2], &[3]]),
            end(),
            end(),
            to(&[&[0, 1], &[0]]),
            end(),
        ],
    })
}
