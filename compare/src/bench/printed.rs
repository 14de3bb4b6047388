//! Tables as the program `bench_plans` prints them.
use super::asked;
use crate::planner::carry::carry;
use crate::planner::decide::{self, Verdicts};
use crate::planner::plan::{Plan, NONE};
use crate::planner::refusal::Refusal;
use crate::planner::trim::Lent;

/// The name of a table and its entries.
fn line(name: &str, entries: impl IntoIterator<Item = u16>) -> String {
    let mut line = name.to_string();
    for entry in entries {
        line.push(' ');
        if entry == NONE {
            line.push('-');
        } else {
            line.push_str(&entry.to_string());
        }
    }
    line.push('\n');
    line
}

pub fn table(name: &str, entries: &[u16]) -> String {
    line(name, entries.iter().copied())
}

/// The tables of a trimming, each to its last place.
pub fn lent(lent: &Lent) -> String {
    let rows = lent.rows.iter();
    let rows = rows.flat_map(|row| [row.kind, row.first, row.practice]);
    let lines = [
        line("rows", rows),
        table("firsts", &lent.firsts),
        table("outcomes", &lent.outcomes),
        table("map", &lent.map),
        table("scratch", &lent.scratch),
    ];
    lines.concat()
}

/// Whether a table is carried back.
pub fn carried(answer: Result<(), Refusal>) -> String {
    match answer {
        Ok(()) => "carried\n".to_string(),
        Err(refusal) => asked::refused(refusal),
    }
}

/// Commands of a trimmed plan under the `n` old numbers.
fn commands_back(n: usize, map: &[u16], commands: &[u16]) -> String {
    let mut back = vec![0; n];
    let answer = carry(n, map, commands, &mut back);
    carried(answer) + &table("commands", &back)
}

/// All that deciding tells of a trimmed plan, and its commands carried back to the `n` states of the old one.
pub fn decided(plan: &Plan, n: usize, map: &[u16]) -> String {
    let mut tables = vec![0; 3 * plan.size.n];
    let (ranks, others) = tables.split_at_mut(plan.size.n);
    let (commands, marks) = others.split_at_mut(plan.size.n);
    let verdicts = Verdicts {
        ranks,
        commands,
        marks,
    };
    let tally = decide::decide(plan, verdicts, &mut decide::Space::new());
    let lines = [
        table("ranks", ranks),
        table("commands", commands),
        table("marks", marks),
        line("tally", tally.concat()),
        commands_back(n, map, commands),
    ];
    lines.concat()
}
