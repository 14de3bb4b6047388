//! Looks: how often a contest looks at a state, a command or an outcome.
use super::plan::Plan;

/// What counts the looks of a contest.
pub trait Looks {
    fn look(&mut self);
}

/// Counts nothing, and takes no time.
impl Looks for () {
    fn look(&mut self) {}
}

impl Looks for u64 {
    fn look(&mut self) {
        *self += 1;
    }
}

/// The most that a contest of so many moves needs that works out no turn twice: with each number of moves left, every state,
/// command and outcome once.
pub fn most(plan: &Plan, moves: usize) -> u64 {
    let size = plan.size;
    ((moves + 1) * (size.n + size.m + size.t)) as u64
}

/// Whether a turn is held, and how many looks a contest takes for it that remembers none.
type Turn = (bool, u128);

struct Plain<'a> {
    plan: &'a Plan<'a>,
    turns: Vec<Option<Turn>>,
}

impl Plain<'_> {
    fn keeper(&mut self, s: usize, left: usize) -> Turn {
        let place = left * self.plan.size.n + s;
        if let Some(turn) = self.turns[place] {
            return turn;
        }
        let turn = self.keeper_anew(s, left);
        self.turns[place] = Some(turn);
        turn
    }

    fn keeper_anew(&mut self, s: usize, left: usize) -> Turn {
        let (first, end) = self.plan.commands(s);
        if self.plan.fails(s) {
            return (false, 1);
        }
        if first == end || left == 0 {
            return (true, 1);
        }
        let mut sum = 1;
        for command in first..end {
            let (held, looks) = self.works(command, left);
            sum += looks;
            if held {
                return (true, sum);
            }
        }
        (false, sum)
    }

    fn works(&mut self, command: usize, left: usize) -> Turn {
        let mut sum = 1;
        for &outcome in self.plan.outcomes(command) {
            let (held, looks) = self.keeper(usize::from(outcome), left - 1);
            sum += 1 + looks;
            if !held {
                return (false, sum);
            }
        }
        (true, sum)
    }
}

/// The looks of a contest that remembers no turn and works each out anew. They are added up here and not taken: there can be more
/// than anybody would wait for.
pub fn plain(plan: &Plan, state: usize, moves: usize) -> u128 {
    let turns = vec![None; (moves + 1) * plan.size.n];
    let mut plain = Plain { plan, turns };
    plain.keeper(state, moves).1
}
