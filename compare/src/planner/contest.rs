//! The contest over a few moves: the keeper's turn and the works' turn call one another, and what came of a turn is remembered.
use super::looks::Looks;
use super::plan::{Plan, Size};
use super::refusal::{need, Refusal};
use super::sound::sound;

/// The most moves.
pub const MOVES: usize = 8;

const OPEN: u8 = 0;
const HELD: u8 = 1;
const NOT_HELD: u8 = 2;

/// What is remembered of each state and number of moves, lent from call to call.
pub struct Space {
    turns: Vec<u8>,
}

impl Space {
    pub fn new() -> Space {
        Space {
            turns: vec![OPEN; Size::STATES * (MOVES + 1)],
        }
    }
}

struct Turns<'a, L> {
    plan: &'a Plan<'a>,
    turns: &'a mut [u8],
    looks: &'a mut L,
}

impl<L: Looks> Turns<'_, L> {
    fn place(&self, s: usize, left: usize) -> usize {
        left * self.plan.size.n + s
    }

    /// The keeper's turn: whether a state is held with so many moves left.
    fn keeper(&mut self, s: usize, left: usize) -> bool {
        self.looks.look();
        let (first, end) = self.plan.commands(s);
        let held = !self.plan.fails(s)
            && (first == end || left == 0 || (first..end).any(|c| self.works(c, left - 1)));
        let place = self.place(s, left);
        self.turns[place] = if held { HELD } else { NOT_HELD };
        held
    }

    /// The works' turn: whether every outcome of a command is held with so many moves left.
    fn works(&mut self, command: usize, left: usize) -> bool {
        self.looks.look();
        self.plan.outcomes(command).iter().all(|&outcome| {
            self.looks.look();
            let s = usize::from(outcome);
            match self.turns[self.place(s, left)] {
                OPEN => self.keeper(s, left),
                turn => turn == HELD,
            }
        })
    }
}

/// Whether a state is held for so many moves.
pub fn contest<L: Looks>(
    plan: &Plan,
    state: usize,
    moves: usize,
    space: &mut Space,
    looks: &mut L,
) -> Result<bool, Refusal> {
    need(sound(plan), Refusal::Unsound)?;
    need(state < plan.size.n, Refusal::Stranger)?;
    need(moves <= MOVES, Refusal::Moves)?;
    let turns = &mut space.turns[..(moves + 1) * plan.size.n];
    turns.fill(OPEN);
    let mut turns = Turns { plan, turns, looks };
    Ok(turns.keeper(state, moves))
}
