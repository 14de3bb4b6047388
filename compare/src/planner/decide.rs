//! Deciding a whole plan in linear time: a command is hit once one of its outcomes is lost, a state is lost
//! once all its commands are.
use super::index::Index;
use super::plan::{Plan, Row, Size, NONE};

pub type Tally = [[u16; 3]; 2];

/// What deciding works with beside its tables, lent from call to call.
pub struct Space {
    index: Index,
    hit: Vec<bool>,
    unhit: Vec<u16>,
    queue: Vec<u16>,
}

impl Space {
    pub fn new() -> Space {
        Space {
            index: Index::new(),
            hit: vec![false; Size::COMMANDS],
            unhit: vec![0; Size::STATES],
            queue: Vec::with_capacity(Size::STATES),
        }
    }
}

/// The tables that deciding answers with, n places each.
pub struct Verdicts<'a> {
    pub ranks: &'a mut [u16],
    pub commands: &'a mut [u16],
    pub marks: &'a mut [u16],
}

/// Queues the states that count as failing, with `mark` in their places and `other` in all the others.
fn begin(plan: &Plan, queue: &mut Vec<u16>, table: &mut [u16], mark: u16, other: u16) {
    queue.clear();
    for (s, place) in table.iter_mut().enumerate() {
        *place = other;
        if plan.fails(s) {
            *place = mark;
            queue.push(s as u16);
        }
    }
}

/// Ranks of a sound plan, lowest first: the queue is in the order of the layers. The index that they need is there for what comes after.
pub fn rank(plan: &Plan, space: &mut Space, ranks: &mut [u16]) {
    space.index.build(plan);
    begin(plan, &mut space.queue, ranks, 0, NONE);
    space.hit[..plan.size.m].fill(false);
    for s in 0..plan.size.n {
        let (first, end) = plan.commands(s);
        space.unhit[s] = (end - first) as u16;
    }
    let mut next = 0;
    while next < space.queue.len() {
        let lost = usize::from(space.queue[next]);
        next += 1;
        for &c in space.index.users(lost) {
            let hit = &mut space.hit[usize::from(c)];
            if *hit {
                continue;
            }
            *hit = true;
            let owner = space.index.owner(usize::from(c));
            space.unhit[owner] -= 1;
            if space.unhit[owner] == 0 {
                ranks[owner] = ranks[lost] + 1;
                space.queue.push(owner as u16);
            }
        }
    }
}

/// Whether `command` is the practice of the state with this row: no sum with NONE is a command.
fn is_practice(row: &Row, command: u16) -> bool {
    u32::from(row.first) + u32::from(row.practice) == u32::from(command)
}

/// Marks with 1 the states from which the practice fails.
fn judge_practice(plan: &Plan, space: &mut Space, marks: &mut [u16]) {
    begin(plan, &mut space.queue, marks, 1, 0);
    let mut next = 0;
    while next < space.queue.len() {
        let failing = usize::from(space.queue[next]);
        next += 1;
        for &c in space.index.users(failing) {
            let owner = space.index.owner(usize::from(c));
            if marks[owner] == 0 && is_practice(&plan.rows[owner], c) {
                marks[owner] = 1;
                space.queue.push(owner as u16);
            }
        }
    }
}

/// The practice if it is not hit, else the lowest command that is not.
fn choose(hit: &[bool], practice: u16) -> u16 {
    if hit.get(usize::from(practice)) == Some(&false) {
        return practice;
    }
    match hit.iter().position(|&hit| !hit) {
        Some(command) => command as u16,
        None => NONE,
    }
}

/// Decides a sound plan.
pub fn decide(plan: &Plan, verdicts: Verdicts, space: &mut Space) -> Tally {
    rank(plan, space, verdicts.ranks);
    judge_practice(plan, space, verdicts.marks);
    let mut tally = [[0; 3]; 2];
    for (s, row) in plan.rows.iter().enumerate() {
        let (first, end) = plan.commands(s);
        let hit = &space.hit[first..end];
        let lost = verdicts.ranks[s] != NONE;
        let mark = verdicts.marks[s];
        verdicts.commands[s] = choose(hit, row.practice);
        let column = if row.practice == NONE {
            2
        } else {
            usize::from(mark)
        };
        tally[usize::from(lost)][column] += 1;
        if !lost && hit.get(usize::from(row.practice)) == Some(&true) {
            verdicts.marks[s] = mark + 2;
        }
    }
    tally
}
