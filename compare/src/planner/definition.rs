//! Verdicts, rounds and contests by the words of documents 01 and 02, what trimming keeps, and what is carried back, with no thought of
//! time: what the planner's tests hold it to.
use super::decide::Tally;
use super::plan::{Plan, FAILING, NONE, ORDINARY, REST};

type Set = Vec<bool>;

fn lands_in(plan: &Plan, command: usize, set: &[bool]) -> bool {
    plan.outcomes(command).iter().any(|&o| set[usize::from(o)])
}

/// Of kind failing, or ordinary and with nothing to command.
fn fails(plan: &Plan, s: usize) -> bool {
    let (first, end) = plan.commands(s);
    let kind = plan.rows[s].kind;
    kind == FAILING || (kind == ORDINARY && first == end)
}

fn failing(plan: &Plan) -> Set {
    (0..plan.size.n).map(|s| fails(plan, s)).collect()
}

/// Each state's rank: the first layer that holds it.
pub fn ranks(plan: &Plan) -> Vec<u16> {
    let mut layers = failing(plan);
    let mut ranks: Vec<u16> = layers
        .iter()
        .map(|&lost| if lost { 0 } else { NONE })
        .collect();
    for layer in 1..=plan.size.n {
        let before = layers.clone();
        for s in 0..plan.size.n {
            let (first, end) = plan.commands(s);
            let every = (first..end).all(|c| lands_in(plan, c, &before));
            if !before[s] && first < end && every {
                layers[s] = true;
                ranks[s] = layer as u16;
            }
        }
    }
    ranks
}

/// The practice of a state, counted over the whole plan.
fn practice(plan: &Plan, s: usize) -> Option<usize> {
    let row = plan.rows[s];
    let command = usize::from(row.first) + usize::from(row.practice);
    Some(command).filter(|_| row.practice != NONE)
}

fn choice(plan: &Plan, s: usize, set: &[bool]) -> Option<usize> {
    let (first, end) = plan.commands(s);
    let mut tried = practice(plan, s).into_iter().chain(first..end);
    tried.find(|&c| !lands_in(plan, c, set))
}

fn entry(plan: &Plan, s: usize, command: Option<usize>) -> u16 {
    command.map_or(NONE, |c| c as u16 - plan.rows[s].first)
}

pub fn commands(plan: &Plan) -> Vec<u16> {
    let lost: Set = ranks(plan).iter().map(|&rank| rank != NONE).collect();
    let states = 0..plan.size.n;
    states
        .map(|s| entry(plan, s, choice(plan, s, &lost)))
        .collect()
}

/// The states from which a run under the practice reaches a failing one.
fn practice_fails(plan: &Plan) -> Set {
    let mut fails = failing(plan);
    for _ in 0..plan.size.n {
        for s in 0..plan.size.n {
            let into = practice(plan, s).map_or(false, |c| lands_in(plan, c, &fails));
            fails[s] = fails[s] || into;
        }
    }
    fails
}

pub fn marks_and_tally(plan: &Plan) -> (Vec<u16>, Tally) {
    let lost: Set = ranks(plan).iter().map(|&rank| rank != NONE).collect();
    let fails = practice_fails(plan);
    let mut tally = [[0; 3]; 2];
    let mut marks = Vec::new();
    for s in 0..plan.size.n {
        let fault = !lost[s] && practice(plan, s).map_or(false, |c| lands_in(plan, c, &lost));
        marks.push(u16::from(fails[s]) + 2 * u16::from(fault));
        let column = match practice(plan, s) {
            None => 2,
            Some(_) if fails[s] => 1,
            Some(_) => 0,
        };
        tally[usize::from(lost[s])][column] += 1;
    }
    (marks, tally)
}

/// A walk from the start that goes on as long as it reaches more: its commands, and what it marks.
fn walk(plan: &Plan, start: usize, known: &[bool]) -> (Vec<u16>, Set) {
    let n = plan.size.n;
    let mut reached = vec![false; n];
    let mut commands = vec![NONE; n];
    let mut marked = vec![false; n];
    reached[start] = true;
    for _ in 0..n {
        for s in (0..n).rev() {
            let (first, end) = plan.commands(s);
            if !reached[s] || first == end {
                continue;
            }
            let command = choice(plan, s, known);
            commands[s] = entry(plan, s, command);
            marked[s] = command.is_none();
            let outcomes = command.map_or(&[][..], |c| plan.outcomes(c));
            outcomes
                .iter()
                .for_each(|&o| reached[usize::from(o)] = true);
        }
    }
    (commands, marked)
}

/// Whether the start is lost, the rounds, and the commands.
pub fn search(plan: &Plan, start: usize) -> (bool, u16, Vec<u16>) {
    let none = vec![NONE; plan.size.n];
    if fails(plan, start) || plan.rows[start].kind == REST {
        return (fails(plan, start), 0, none);
    }
    let mut known = failing(plan);
    let mut rounds = 0;
    loop {
        rounds += 1;
        let (commands, marked) = walk(plan, start, &known);
        if !marked.contains(&true) {
            return (false, rounds, commands);
        }
        for (known, marked) in known.iter_mut().zip(marked) {
            *known = *known || marked;
        }
        if known[start] {
            return (true, rounds, none);
        }
    }
}

/// The keeper's turn, with every look counted.
pub fn keeper_holds(plan: &Plan, s: usize, left: usize, looks: &mut u128) -> bool {
    *looks += 1;
    if fails(plan, s) {
        return false;
    }
    let (first, end) = plan.commands(s);
    plan.rows[s].kind == REST || left == 0 || (first..end).any(|c| works_hold(plan, c, left, looks))
}

/// The works' turn.
fn works_hold(plan: &Plan, command: usize, left: usize, looks: &mut u128) -> bool {
    *looks += 1;
    plan.outcomes(command).iter().all(|&o| {
        *looks += 1;
        keeper_holds(plan, usize::from(o), left - 1, looks)
    })
}

/// The states that runs from the plan's start come to: as long as there can be more, every state that has been come to adds the outcomes
/// of its commands.
pub fn kept(plan: &Plan) -> Vec<usize> {
    let n = plan.size.n;
    let mut kept = vec![false; n];
    kept[plan.size.start] = true;
    for _ in 0..n {
        for s in 0..n {
            let (first, end) = plan.commands(s);
            if kept[s] && plan.rows[s].kind == ORDINARY {
                let outcomes = (first..end).flat_map(|c| plan.outcomes(c));
                outcomes.for_each(|&o| kept[usize::from(o)] = true);
            }
        }
    }
    (0..n).filter(|&s| kept[s]).collect()
}

/// The table that is carried back to `n` states, each of which is looked up in the map; nothing if `n`, the map and the table do not fit
/// together.
pub fn carried(n: usize, olds: &[u16], table: &[u16]) -> Option<Vec<u16>> {
    let rises = (1..olds.len()).all(|i| olds[i - 1] < olds[i]);
    let below = olds.iter().all(|&old| usize::from(old) < n);
    let fits = (1..=1024).contains(&n) && rises && below && olds.len() <= table.len();
    let entry = |s: usize| {
        let place = olds.iter().position(|&old| usize::from(old) == s);
        place.map_or(NONE, |i| table[i])
    };
    fits.then(|| (0..n).map(entry).collect())
}
