//! Trimming: the states that runs from the start come to, and nothing else of the plan.
use super::plan::{Plan, Row, Size, NONE};
use super::refusal::{need, Refusal};
use super::sound::sound;

/// The tables that are written, each of any length.
#[derive(Clone, Debug, PartialEq, Eq)]
pub struct Lent {
    pub rows: Vec<Row>,
    pub firsts: Vec<u16>,
    pub outcomes: Vec<u16>,
    pub map: Vec<u16>,
    pub scratch: Vec<u16>,
}

impl Lent {
    /// So many places of each table, in this order, with `entry` in all of them.
    pub fn filled(places: [usize; 5], entry: u16) -> Lent {
        let [rows, firsts, outcomes, map, scratch] = places;
        let mut lent = Lent {
            rows: vec![Row::default(); rows],
            firsts: vec![0; firsts],
            outcomes: vec![0; outcomes],
            map: vec![0; map],
            scratch: vec![0; scratch],
        };
        lent.fill(entry);
        lent
    }

    pub fn fill(&mut self, entry: u16) {
        self.rows.fill(Row {
            kind: entry,
            first: entry,
            practice: entry,
        });
        self.firsts.fill(entry);
        self.outcomes.fill(entry);
        self.map.fill(entry);
        self.scratch.fill(entry);
    }

    /// The plan of this size that the first places hold.
    pub fn plan(&self, size: Size) -> Plan<'_> {
        Plan {
            size,
            rows: &self.rows[..size.n],
            firsts: &self.firsts[..size.m],
            outcomes: &self.outcomes[..size.t],
        }
    }

    /// Whether there is room for a plan of this size, cut from one of `n` states.
    fn has_room(&self, size: Size, n: usize) -> bool {
        self.rows.len() >= size.n
            && self.firsts.len() >= size.m
            && self.outcomes.len() >= size.t
            && self.map.len() >= size.n
            && self.scratch.len() >= n
    }
}

/// What trimming works with beside its tables, lent from call to call.
pub struct Space {
    /// NONE for a state that is not reached, and in the end the new number of one that is.
    numbers: Vec<u16>,
    queue: Vec<u16>,
}

impl Space {
    pub fn new() -> Space {
        Space {
            numbers: vec![NONE; Size::STATES],
            queue: Vec::with_capacity(Size::STATES),
        }
    }

    fn reach(&mut self, state: u16) {
        let number = &mut self.numbers[usize::from(state)];
        if *number == NONE {
            *number = 0;
            self.queue.push(state);
        }
    }
}

/// Reaches all that is kept, and counts it: so it is known whether there is room before anything is written.
fn walk(plan: &Plan, space: &mut Space) -> Size {
    space.numbers[..plan.size.n].fill(NONE);
    space.queue.clear();
    space.reach(plan.size.start as u16);
    let mut size = Size::default();
    while size.n < space.queue.len() {
        let (first, end) = plan.commands(usize::from(space.queue[size.n]));
        let (from, to) = plan.stretch(first, end);
        size.n += 1;
        size.m += end - first;
        size.t += to - from;
        for &outcome in &plan.outcomes[from..to] {
            space.reach(outcome);
        }
    }
    size
}

/// Numbers the reached states in their order, and puts the old number of each into the map.
fn number(numbers: &mut [u16], map: &mut [u16]) {
    let reached = numbers.iter_mut().enumerate().filter(|(_, n)| **n != NONE);
    for (new, ((old, number), place)) in reached.zip(map).enumerate() {
        *number = new as u16;
        *place = old as u16;
    }
}

/// Copies the `n` states of the map, with their commands and outcomes.
fn copy(plan: &Plan, numbers: &[u16], n: usize, lent: &mut Lent) {
    let (mut m, mut t) = (0, 0);
    for (row, &s) in lent.rows.iter_mut().zip(&lent.map[..n]) {
        let s = usize::from(s);
        let (first, end) = plan.commands(s);
        let (from, to) = plan.stretch(first, end);
        let (commands, outcomes) = (end - first, to - from);
        *row = plan.rows[s];
        row.first = m as u16;
        let firsts = &mut lent.firsts[m..m + commands];
        for (new, old) in firsts.iter_mut().zip(&plan.firsts[first..end]) {
            *new = old - from as u16 + t as u16;
        }
        let stretch = &mut lent.outcomes[t..t + outcomes];
        for (new, &old) in stretch.iter_mut().zip(&plan.outcomes[from..to]) {
            *new = numbers[usize::from(old)];
        }
        m += commands;
        t += outcomes;
    }
}

/// Trims a plan into the tables, and answers how large it is then and where it starts.
pub fn trim(plan: &Plan, lent: &mut Lent, space: &mut Space) -> Result<Size, Refusal> {
    need(sound(plan), Refusal::Unsound)?;
    let mut size = walk(plan, space);
    need(lent.has_room(size, plan.size.n), Refusal::Cramped)?;
    let numbers = &mut space.numbers[..plan.size.n];
    number(numbers, &mut lent.map[..size.n]);
    copy(plan, numbers, size.n, lent);
    lent.scratch[..plan.size.n].fill(0);
    size.start = usize::from(numbers[plan.size.start]);
    Ok(size)
}
