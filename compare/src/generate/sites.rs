//! Plans for timing: an ordinary site, plans at the limits, and the worst ones.
use super::draft::{Draft, State};
use super::random::Random;

const LEVELS: usize = 16;

/// The commands at a level of a chamber: hold, raise, lower, and open the gate to the next chamber. A paddle may stick (the level
/// stays), and where pool and gauge disagree a move may be of two levels.
fn chamber_state(n: usize, s: usize, random: &mut Random) -> State {
    let level = s % LEVELS;
    if level == 0 || level == LEVELS - 1 {
        return State::failing();
    }
    if s % (LEVELS * 4) == LEVELS / 2 {
        return State::rest();
    }
    let mut hold = vec![s];
    let mut raise = vec![s, s + 1];
    let mut lower = vec![s - 1, s];
    if random.once_in(6) {
        hold.push(s - 1);
    }
    if random.once_in(3) {
        raise.push(s + 2.min(LEVELS - 1 - level));
    }
    if random.once_in(3) {
        lower.push(s - 2.min(level));
    }
    let mut commands = vec![raise, lower, hold];
    if random.once_in(2) {
        commands.push(vec![s, (s + LEVELS) % n]);
    }
    let practice = random.below(commands.len() + 1);
    let mut state = State::ordinary(commands);
    if practice < state.commands.len() {
        state.practice = practice as u16;
    }
    state
}

/// Chambers of sixteen levels, of which the lowest and the highest fail. n is a multiple of sixteen.
pub fn ordinary(n: usize, random: &mut Random) -> Draft {
    let states = (0..n).map(|s| chamber_state(n, s, random));
    let mut draft = Draft::new(states.collect());
    draft.start = 1;
    draft
}

/// Shares `total` out at random to `count` places, at least `least` and at most `most` to each.
fn share(total: usize, count: usize, least: usize, most: usize, random: &mut Random) -> Vec<usize> {
    let mut shares = vec![least; count];
    let mut left = total - least * count;
    while left > 0 {
        let share = &mut shares[random.below(count)];
        if *share < most {
            *share += 1;
            left -= 1;
        }
    }
    shares
}

fn distinct(count: usize, n: usize, random: &mut Random) -> Vec<usize> {
    let mut outcomes = Vec::new();
    while outcomes.len() < count {
        let outcome = random.below(n);
        if !outcomes.contains(&outcome) {
            outcomes.push(outcome);
        }
    }
    outcomes
}

/// Exactly n states, m commands and t outcomes, with every sixteenth state failing. The few that get no command are at rest.
pub fn random(n: usize, m: usize, t: usize, random: &mut Random) -> Draft {
    let failing = n / 16;
    let counts = share(m, n - failing, 0, m, random);
    let mut lengths = share(t, m, 1, n, random).into_iter();
    let mut counts = counts.into_iter();
    let mut states = Vec::new();
    for s in 0..n {
        if s < failing {
            states.push(State::failing());
            continue;
        }
        let count = counts.next().unwrap_or(0);
        if count == 0 {
            states.push(State::rest());
            continue;
        }
        let commands = lengths.by_ref().take(count);
        let commands = commands.map(|length| distinct(length, n, random));
        states.push(State::ordinary(commands.collect()));
    }
    let mut draft = Draft::new(states).renumbered(random);
    draft.start = random.below(n);
    draft.with_practices(random)
}

/// States up to s + 1, the last included, as many as there are up to four.
fn up_to_next(s: usize) -> Vec<usize> {
    (s.saturating_sub(2)..=s + 1).collect()
}

/// The longest ranks with full lists: each of a state's four commands has the next state as its last outcome, and the last state fails.
pub fn worst_chain(n: usize) -> Draft {
    let commands = |s| vec![up_to_next(s); 4];
    let mut states: Vec<State> = (0..n - 1).map(|s| State::ordinary(commands(s))).collect();
    states.push(State::failing());
    Draft::new(states)
}

/// The most rounds with full lists: three commands of each state land on the failing one, and the fourth leads on.
pub fn worst_rounds(n: usize) -> Draft {
    let leaking = |s: usize| vec![s.saturating_sub(2), s.saturating_sub(1), s, n - 1];
    let commands = |s| vec![leaking(s), leaking(s), leaking(s), up_to_next(s)];
    let mut states: Vec<State> = (0..n - 1).map(|s| State::ordinary(commands(s))).collect();
    states.push(State::failing());
    Draft::new(states)
}
