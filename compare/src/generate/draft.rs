//! A plan as it is drawn up: states with their commands. It may be beyond the limits.
use super::random::Random;
use crate::planner::plan::{Plan, Row, Size, FAILING, NONE, ORDINARY, REST};
use crate::planner::write::write;

pub struct State {
    pub kind: u16,
    pub practice: u16,
    pub commands: Vec<Vec<u16>>,
}

pub struct Draft {
    pub start: usize,
    pub states: Vec<State>,
}

/// A draft's size record and tables.
pub struct Held {
    pub size: Size,
    pub rows: Vec<Row>,
    pub firsts: Vec<u16>,
    pub outcomes: Vec<u16>,
}

impl Held {
    pub fn plan(&self) -> Plan<'_> {
        Plan {
            size: self.size,
            rows: &self.rows,
            firsts: &self.firsts,
            outcomes: &self.outcomes,
        }
    }

    pub fn file(&self) -> Vec<u8> {
        write(&self.plan())
    }
}

fn sorted(mut outcomes: Vec<u16>) -> Vec<u16> {
    outcomes.sort_unstable();
    outcomes.dedup();
    outcomes
}

impl State {
    fn of_kind(kind: u16) -> State {
        State {
            kind,
            practice: NONE,
            commands: Vec::new(),
        }
    }

    pub fn failing() -> State {
        State::of_kind(FAILING)
    }

    pub fn rest() -> State {
        State::of_kind(REST)
    }

    /// Ordinary, with nothing to command.
    pub fn stuck() -> State {
        State::of_kind(ORDINARY)
    }

    /// An ordinary state with these commands, their outcomes in any order.
    pub fn ordinary(commands: Vec<Vec<usize>>) -> State {
        let mut state = State::of_kind(ORDINARY);
        for command in commands {
            let outcomes = command.into_iter().map(|outcome| outcome as u16);
            state.commands.push(sorted(outcomes.collect()));
        }
        state
    }
}

/// An ordinary state with these commands, as `State::ordinary` makes it.
pub fn to(commands: &[&[usize]]) -> State {
    State::ordinary(commands.iter().map(|outcomes| outcomes.to_vec()).collect())
}

impl Draft {
    pub fn new(states: Vec<State>) -> Draft {
        Draft { start: 0, states }
    }

    pub fn hold(&self) -> Held {
        let mut held = Held {
            size: Size::default(),
            rows: Vec::new(),
            firsts: Vec::new(),
            outcomes: Vec::new(),
        };
        for state in &self.states {
            held.rows.push(Row {
                kind: state.kind,
                first: held.firsts.len() as u16,
                practice: state.practice,
            });
            for command in &state.commands {
                held.firsts.push(held.outcomes.len() as u16);
                held.outcomes.extend(command);
            }
        }
        held.size = Size {
            n: held.rows.len(),
            m: held.firsts.len(),
            t: held.outcomes.len(),
            start: self.start,
        };
        held
    }

    /// Gives about two states in three with commands a practice.
    pub fn with_practices(mut self, random: &mut Random) -> Draft {
        for state in &mut self.states {
            if !state.commands.is_empty() && !random.once_in(3) {
                state.practice = random.below(state.commands.len()) as u16;
            }
        }
        self
    }

    /// The same plan with its states numbered in another order.
    pub fn renumbered(mut self, random: &mut Random) -> Draft {
        let n = self.states.len();
        let mut order: Vec<usize> = (0..n).collect();
        for i in (1..n).rev() {
            order.swap(i, random.below(i + 1));
        }
        let mut number = vec![0; n];
        for (new, &old) in order.iter().enumerate() {
            number[old] = new as u16;
        }
        let mut old: Vec<Option<State>> = self.states.into_iter().map(Some).collect();
        self.states = order.iter().filter_map(|&s| old[s].take()).collect();
        for command in self.states.iter_mut().flat_map(|s| s.commands.iter_mut()) {
            let outcomes = command.iter().map(|&o| number[usize::from(o)]);
            *command = sorted(outcomes.collect());
        }
        self.start = usize::from(number[self.start]);
        self
    }
}
