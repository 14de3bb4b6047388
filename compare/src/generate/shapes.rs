//! Shapes of plans: rings, leaking rings, chains, and plans at random.
use super::draft::{Draft, State};
use super::ended;
use super::random::Random;

/// Each state goes on to the next, the last to the first.
pub fn ring(n: usize) -> Draft {
    let states = (0..n).map(|s| State::ordinary(vec![vec![(s + 1) % n]]));
    Draft::new(states.collect())
}

/// A ring of all states but the last, which fails; one of the ring's commands may also land there. n is at least 2.
pub fn leaking_ring(n: usize) -> Draft {
    let last = n - 2;
    let mut states: Vec<State> = (0..last)
        .map(|s| State::ordinary(vec![vec![s + 1]]))
        .collect();
    states.push(State::ordinary(vec![vec![0, n - 1]]));
    states.push(State::failing());
    Draft::new(states)
}

/// A ring that leaks at some states; some have a second command that stays, some one that leaks too.
pub fn doubtful_ring(n: usize, random: &mut Random) -> Draft {
    let failing = n - 1;
    let mut states = Vec::new();
    for s in 0..failing {
        let next = (s + 1) % failing;
        let mut onward = vec![next];
        if random.once_in(failing) {
            onward.push(failing);
        }
        let mut commands = vec![onward];
        match random.below(6) {
            0 => commands.push(vec![s]),
            1 => commands.insert(0, vec![next, failing]),
            2 => commands.push(vec![s, random.below(failing)]),
            _ => {}
        }
        states.push(State::ordinary(commands));
    }
    states.push(State::failing());
    Draft::new(states)
}

/// Each state to the next; the last one is of the kind given by `end`.
pub fn chain(n: usize, end: fn() -> State) -> Draft {
    let mut states: Vec<State> = (1..n).map(|s| State::ordinary(vec![vec![s]])).collect();
    states.push(end());
    Draft::new(states)
}

fn some_states(random: &mut Random, n: usize, most: usize) -> Vec<usize> {
    let count = random.within(1, most);
    (0..count).map(|_| random.below(n)).collect()
}

/// One in four is stuck: in place of failing states, so that as many states are safe as there would be without them.
fn failing_or_stuck(random: &mut Random) -> State {
    if random.once_in(4) {
        State::stuck()
    } else {
        State::failing()
    }
}

/// States of every kind, with up to `commands` commands of up to `outcomes` outcomes each.
pub fn mixed(n: usize, commands: usize, outcomes: usize, random: &mut Random) -> Draft {
    let failing = random.within(2, 9);
    let rest = random.within(3, 20);
    let mut states = Vec::new();
    for _ in 0..n {
        let count = random.below(commands + 1);
        let state = if random.once_in(failing) {
            failing_or_stuck(random)
        } else if count == 0 || random.once_in(rest) {
            State::rest()
        } else {
            let commands = (0..count).map(|_| some_states(random, n, outcomes));
            State::ordinary(commands.collect())
        };
        states.push(state);
    }
    Draft::new(states)
}

/// Commands land on higher states only, most on near ones: many layers, of which a state's rank is the best of the worst.
pub fn layered(n: usize, random: &mut Random) -> Draft {
    let mut states = Vec::new();
    for s in 0..n - 1 {
        let count = random.within(1, 3);
        let far = (n - 1 - s).min(4);
        let command = |random: &mut Random| {
            let outcomes = random.within(1, 3);
            (0..outcomes).map(|_| s + random.within(1, far)).collect()
        };
        states.push(State::ordinary(
            (0..count).map(|_| command(random)).collect(),
        ));
    }
    states.push(if random.once_in(6) {
        State::rest()
    } else {
        failing_or_stuck(random)
    });
    Draft::new(states)
}

/// No state has a command.
pub fn bare(n: usize, random: &mut Random) -> Draft {
    let states = (0..n).map(|_| match random.below(3) {
        0 => failing_or_stuck(random),
        _ => State::rest(),
    });
    Draft::new(states.collect())
}

/// What ends runs at a state: one in three is stuck.
fn end(random: &mut Random) -> fn() -> State {
    random.pick(&[State::stuck as fn() -> State, State::rest, State::rest])
}

/// A plan of any of these shapes, most of them with at most `most` states.
pub fn any(most: usize, random: &mut Random) -> Draft {
    let n = random.within(1, most);
    let n2 = n.max(2);
    let mut draft = match random.below(13) {
        0 => ring(n),
        1 => leaking_ring(n2),
        2 | 3 => doubtful_ring(n2, random),
        4 => chain(n, State::failing),
        5 => chain(n, State::rest),
        6 | 7 => layered(n, random),
        8 => bare(n, random),
        9 => mixed(n, 2, 2, random),
        10 => ended::plan(random.below(ended::COUNT), end(random)),
        _ => mixed(n, 4, 5, random),
    };
    if random.once_in(12) {
        let s = random.below(draft.states.len());
        draft.states[s] = end(random)();
    }
    let mut draft = if random.once_in(2) {
        draft.renumbered(random)
    } else {
        draft
    };
    if random.once_in(2) {
        draft.start = random.below(draft.states.len());
    }
    if random.once_in(4) {
        draft
    } else {
        draft.with_practices(random)
    }
}
