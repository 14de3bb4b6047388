//! Plans of many rounds, each with the number of rounds that the search takes from state 0. The last state fails.
use super::draft::{Draft, State};

/// Fills up to n states with states of one command onto the failing one.
fn closed(mut states: Vec<State>, n: usize) -> Draft {
    states.resize_with(n - 1, || State::ordinary(vec![vec![n - 1]]));
    states.push(State::failing());
    Draft::new(states)
}

/// Each state's one command lands on the next state and on up to fifteen before it.
pub fn wide_chain(n: usize) -> (Draft, usize) {
    let command = |s: usize| (s.saturating_sub(14)..=s + 1).collect();
    let states = (0..n - 1).map(|s| State::ordinary(vec![command(s)]));
    (closed(states.collect(), n), n - 1)
}

/// How many states a dense part can have if each other state costs so many outcomes and there are 16 n in all.
fn dense_count(n: usize, cost: usize) -> usize {
    let fits = |d: &usize| d * d + cost * (n - d) <= 16 * n;
    (1..n).take_while(fits).count()
}

/// The start with these commands, and then the dense part: states that have one command, onto all of the part.
fn before_dense(commands: Vec<Vec<usize>>, count: usize) -> Vec<State> {
    let mut states = vec![State::ordinary(commands)];
    states.resize_with(1 + count, || State::ordinary(vec![(1..=count).collect()]));
    states
}

/// A chain beside a dense part, which every round walks as well.
pub fn heavy_rounds(n: usize) -> (Draft, usize) {
    let chain = 1 + dense_count(n, 1);
    let mut states = before_dense(vec![vec![1, chain]], chain - 1);
    states.extend((chain + 1..n).map(|s| State::ordinary(vec![vec![s]])));
    (closed(states, n), n - chain)
}

/// Each of the start's commands lands in the dense part, at one of its entries by turns, and on a state of its own that is
/// marked when it is reached: every round takes another command at the start.
pub fn hub(n: usize, entries: usize) -> (Draft, usize) {
    let count = dense_count(n, 3);
    let commands = (count + 1..n - 1).map(|s| vec![1 + s % entries, s]);
    let states = before_dense(commands.collect(), count);
    (closed(states, n), n - 1 - count)
}

/// State 6 is marked in round 1, which hits about 2 n of the start's commands by their last outcome. The n - 8 others are hit one
/// a round, and each of those rounds tries all commands before.
pub fn fat(n: usize) -> (Draft, usize) {
    let mut commands = vec![(1..=6).collect(); 2 * n + 15];
    commands.extend((7..n - 1).map(|s| vec![s]));
    let mut states = vec![State::ordinary(commands)];
    states.resize_with(6, State::rest);
    (closed(states, n), n - 6)
}
