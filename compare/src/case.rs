//! One call with all that is lent to it.
use crate::calls::Calls;
use crate::generate::input::Input;
use crate::lent::Lent;
use crate::planner::boundary::{DecideBytes, PlanBytes, ReadBytes, SearchBytes};

pub const CALLS: [&str; 3] = ["read", "decide", "search"];

const READ: [&str; 5] = ["file", "size", "rows", "firsts", "outcomes"];
const DECIDE: [&str; 9] = [
    "size", "rows", "firsts", "outcomes", "ranks", "commands", "marks", "scratch", "tally",
];
const SEARCH: [&str; 7] = [
    "size", "rows", "firsts", "outcomes", "commands", "scratch", "answer",
];

/// The call of this number in `CALLS`, with its slices in the order of its parameters.
#[derive(Clone)]
pub struct Case {
    pub call: usize,
    pub start: usize,
    pub lent: Vec<Lent>,
}

/// Slices with these contents, and slices of these lengths to be written.
fn lend(contents: &[Vec<u8>], lengths: &[usize], salt: usize) -> Vec<Lent> {
    let salts = (0..).map(|i| salt.wrapping_add(12 * i));
    let lent = contents.iter().zip(salts.clone());
    let written = lengths.iter().zip(salts);
    lent.map(|(content, salt)| Lent::holding(content, salt))
        .chain(written.map(|(&length, salt)| Lent::filled(length, salt)))
        .collect()
}

impl Case {
    pub fn new(call: usize, input: &Input) -> Case {
        let salt = input.salt;
        let lent = match call {
            0 => lend(std::slice::from_ref(&input.file), &input.read, salt),
            1 => lend(&input.tables, &input.decide, salt),
            _ => lend(&input.tables, &input.search, salt),
        };
        let start = input.start;
        Case { call, start, lent }
    }

    pub fn names(&self) -> &'static [&'static str] {
        match self.call {
            0 => &READ,
            1 => &DECIDE,
            _ => &SEARCH,
        }
    }

    /// Runs the call, which may write to the slices, and returns what it returns.
    pub fn run(&mut self, calls: &mut dyn Calls) -> u32 {
        let start = self.start;
        let mut slices: Vec<&mut [u8]> = self.lent.iter_mut().map(Lent::slice).collect();
        match &mut slices[..] {
            [file, written @ ..] if self.call == 0 => calls.read(file, read_bytes(written)),
            [size, rows, firsts, outcomes, written @ ..] => {
                let plan = PlanBytes {
                    size,
                    rows,
                    firsts,
                    outcomes,
                };
                if self.call == 1 {
                    calls.decide(plan, decide_bytes(written))
                } else {
                    calls.search(plan, start, search_bytes(written))
                }
            }
            _ => unreachable!("a case has all slices of its call"),
        }
    }
}

fn read_bytes<'a>(written: &'a mut [&mut [u8]]) -> ReadBytes<'a> {
    match written {
        [size, rows, firsts, outcomes] => ReadBytes {
            size,
            rows,
            firsts,
            outcomes,
        },
        _ => unreachable!("reading writes four slices"),
    }
}

fn decide_bytes<'a>(written: &'a mut [&mut [u8]]) -> DecideBytes<'a> {
    match written {
        [ranks, commands, marks, scratch, tally] => DecideBytes {
            ranks,
            commands,
            marks,
            scratch,
            tally,
        },
        _ => unreachable!("deciding writes five slices"),
    }
}

fn search_bytes<'a>(written: &'a mut [&mut [u8]]) -> SearchBytes<'a> {
    match written {
        [commands, scratch, answer] => SearchBytes {
            commands,
            scratch,
            answer,
        },
        _ => unreachable!("the search writes three slices"),
    }
}
