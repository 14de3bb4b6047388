//! The search from one start, round by round.
use super::plan::{Plan, Size, NONE};

/// What the search works with beside its table, lent from call to call.
pub struct Space {
    known: Vec<bool>,
    reached: Vec<u16>,
    queue: Vec<u16>,
    marked: Vec<u16>,
}

impl Space {
    pub fn new() -> Space {
        Space {
            known: vec![false; Size::STATES],
            reached: vec![0; Size::STATES],
            queue: Vec::with_capacity(Size::STATES),
            marked: Vec::with_capacity(Size::STATES),
        }
    }

    /// Nothing reached, and the states that count as failing known.
    fn begin(&mut self, plan: &Plan) {
        self.reached[..plan.size.n].fill(0);
        for (s, known) in self.known[..plan.size.n].iter_mut().enumerate() {
            *known = plan.fails(s);
        }
    }

    fn reach(&mut self, state: u16, round: u16) {
        let reached = &mut self.reached[usize::from(state)];
        if *reached != round {
            *reached = round;
            self.queue.push(state);
        }
    }
}

#[derive(Clone, Copy, Debug, PartialEq, Eq)]
pub struct Found {
    pub lost: bool,
    pub rounds: u16,
}

/// The command that a walk takes at a state with these commands.
fn take(plan: &Plan, first: usize, end: usize, practice: u16, known: &[bool]) -> Option<usize> {
    let open = |&c: &usize| !plan.outcomes(c).iter().any(|&o| known[usize::from(o)]);
    let practice = Some(first + usize::from(practice)).filter(|&c| c < end);
    practice.filter(open).or_else(|| (first..end).find(open))
}

/// One round: its commands into the table, its marks into the space.
fn walk(plan: &Plan, start: u16, round: u16, commands: &mut [u16], space: &mut Space) {
    commands.fill(NONE);
    space.queue.clear();
    space.marked.clear();
    space.reach(start, round);
    let mut next = 0;
    while next < space.queue.len() {
        let state = space.queue[next];
        let s = usize::from(state);
        next += 1;
        let (first, end) = plan.commands(s);
        if first == end {
            continue;
        }
        match take(plan, first, end, plan.rows[s].practice, &space.known) {
            None => space.marked.push(state),
            Some(c) => {
                commands[s] = (c - first) as u16;
                for &outcome in plan.outcomes(c) {
                    space.reach(outcome, round);
                }
            }
        }
    }
}

/// Searches a sound plan from a state of it; the table has n places.
pub fn search(plan: &Plan, start: usize, commands: &mut [u16], space: &mut Space) -> Found {
    let (first, end) = plan.commands(start);
    if first == end {
        commands.fill(NONE);
        let lost = plan.fails(start);
        return Found { lost, rounds: 0 };
    }
    space.begin(plan);
    let mut rounds = 0;
    loop {
        rounds += 1;
        walk(plan, start as u16, rounds, commands, space);
        if space.marked.is_empty() {
            return Found {
                lost: false,
                rounds,
            };
        }
        for &state in &space.marked {
            space.known[usize::from(state)] = true;
        }
        if space.known[start] {
            commands.fill(NONE);
            return Found { lost: true, rounds };
        }
    }
}
