//! Whether tables are a plan that some file gives.
use super::plan::{Plan, Size, NONE, ORDINARY, REST};

/// The size record alone.
pub fn size_sound(size: Size) -> bool {
    (1..=Size::STATES).contains(&size.n)
        && size.m <= Size::COMMANDS
        && size.t <= Size::OUTCOMES
        && size.start < size.n
}

fn rows_sound(plan: &Plan) -> bool {
    plan.rows[0].first == 0
        && plan.rows.iter().enumerate().all(|(s, row)| {
            let (first, end) = plan.commands(s);
            first <= end
                && row.kind <= REST
                && (row.kind == ORDINARY || first == end)
                && (row.practice == NONE || usize::from(row.practice) < end - first)
        })
}

fn firsts_sound(plan: &Plan) -> bool {
    match (plan.firsts.first(), plan.firsts.last()) {
        (Some(&first), Some(&last)) => {
            first == 0
                && usize::from(last) < plan.size.t
                && plan.firsts.windows(2).all(|pair| pair[0] < pair[1])
        }
        _ => plan.size.t == 0,
    }
}

/// Outcomes rise within each command: neighbours that do not rise are counted over the whole table, and
/// there must be no more of them than at the commands' first outcomes.
fn outcomes_sound(plan: &Plan) -> bool {
    let n = plan.size.n;
    let outcomes = plan.outcomes;
    let falls = outcomes
        .windows(2)
        .filter(|pair| pair[0] >= pair[1])
        .count();
    let firsts = plan.firsts.iter().skip(1).map(|&first| usize::from(first));
    let between = firsts.filter(|&i| outcomes[i - 1] >= outcomes[i]).count();
    let beyond = outcomes.iter().filter(|&&o| usize::from(o) >= n).count();
    falls == between && beyond == 0
}

/// The tables, where the size record is sound and they have its counts.
pub fn tables_sound(plan: &Plan) -> bool {
    rows_sound(plan) && firsts_sound(plan) && outcomes_sound(plan)
}

/// Both, where the tables have the counts of the size record.
pub fn sound(plan: &Plan) -> bool {
    size_sound(plan.size) && tables_sound(plan)
}
