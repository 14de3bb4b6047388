//! The three calls on byte slices: the same jobs as the library's.
use super::decide::{self, Verdicts};
use super::entries::{self, ROW_BYTES, SIZE_BYTES};
use super::plan::{Plan, Size};
use super::read::{self, Tables};
use super::refusal::{need, Refusal};
use super::search;
use super::sound::{size_sound, tables_sound};

const TALLY_BYTES: usize = 12;
const ANSWER_BYTES: usize = 4;

/// Native tables, lent from call to call so that no call allocates.
pub struct Space {
    tables: Tables,
    ranks: Vec<u16>,
    commands: Vec<u16>,
    marks: Vec<u16>,
    decide: decide::Space,
    search: search::Space,
}

impl Space {
    pub fn new() -> Space {
        Space {
            tables: Tables::new(),
            ranks: vec![0; Size::STATES],
            commands: vec![0; Size::STATES],
            marks: vec![0; Size::STATES],
            decide: decide::Space::new(),
            search: search::Space::new(),
        }
    }
}

/// A plan as it is lent.
#[derive(Clone, Copy)]
pub struct PlanBytes<'a> {
    pub size: &'a [u8],
    pub rows: &'a [u8],
    pub firsts: &'a [u8],
    pub outcomes: &'a [u8],
}

pub struct ReadBytes<'a> {
    pub size: &'a mut [u8],
    pub rows: &'a mut [u8],
    pub firsts: &'a mut [u8],
    pub outcomes: &'a mut [u8],
}

pub struct DecideBytes<'a> {
    pub ranks: &'a mut [u8],
    pub commands: &'a mut [u8],
    pub marks: &'a mut [u8],
    pub scratch: &'a mut [u8],
    pub tally: &'a mut [u8],
}

pub struct SearchBytes<'a> {
    pub commands: &'a mut [u8],
    pub scratch: &'a mut [u8],
    pub answer: &'a mut [u8],
}

fn code(answer: Result<(), Refusal>) -> u32 {
    match answer {
        Ok(()) => 0,
        Err(refusal) => refusal.number(),
    }
}

fn long_enough(rows: &[u8], firsts: &[u8], outcomes: &[u8], size: Size) -> bool {
    rows.len() / ROW_BYTES >= size.n && firsts.len() / 2 >= size.m && outcomes.len() / 2 >= size.t
}

/// The sound plan that the slices hold.
fn lent<'a>(bytes: PlanBytes, tables: &'a mut Tables) -> Result<Plan<'a>, Refusal> {
    need(bytes.size.len() >= SIZE_BYTES, Refusal::Unsound)?;
    let size = entries::decode_size(bytes.size);
    need(size_sound(size), Refusal::Unsound)?;
    let long = long_enough(bytes.rows, bytes.firsts, bytes.outcomes, size);
    need(long, Refusal::Unsound)?;
    entries::decode_rows(bytes.rows, &mut tables.rows[..size.n]);
    entries::decode(bytes.firsts, &mut tables.firsts[..size.m]);
    entries::decode(bytes.outcomes, &mut tables.outcomes[..size.t]);
    let plan = Plan {
        size,
        rows: &tables.rows[..size.n],
        firsts: &tables.firsts[..size.m],
        outcomes: &tables.outcomes[..size.t],
    };
    need(tables_sound(&plan), Refusal::Unsound)?;
    Ok(plan)
}

fn read_into(file: &[u8], out: ReadBytes, space: &mut Space) -> Result<(), Refusal> {
    let tables = &mut space.tables;
    let size = read::read(file, tables)?;
    let long = long_enough(out.rows, out.firsts, out.outcomes, size);
    need(long && out.size.len() >= SIZE_BYTES, Refusal::Cramped)?;
    entries::encode_size(size, out.size);
    entries::encode_rows(&tables.rows[..size.n], out.rows);
    entries::encode(&tables.firsts[..size.m], out.firsts);
    entries::encode(&tables.outcomes[..size.t], out.outcomes);
    Ok(())
}

fn decide_into(bytes: PlanBytes, out: DecideBytes, space: &mut Space) -> Result<(), Refusal> {
    let plan = lent(bytes, &mut space.tables)?;
    let n = plan.size.n;
    let tables = [&*out.ranks, &*out.commands, &*out.marks, &*out.scratch];
    let long = tables.iter().all(|table| table.len() / 2 >= n);
    need(long && out.tally.len() >= TALLY_BYTES, Refusal::Cramped)?;
    let verdicts = Verdicts {
        ranks: &mut space.ranks[..n],
        commands: &mut space.commands[..n],
        marks: &mut space.marks[..n],
    };
    let tally = decide::decide(&plan, verdicts, &mut space.decide);
    entries::encode(&space.ranks[..n], out.ranks);
    entries::encode(&space.commands[..n], out.commands);
    entries::encode(&space.marks[..n], out.marks);
    out.scratch[..2 * n].fill(0);
    entries::encode(&tally[0], out.tally);
    entries::encode(&tally[1], &mut out.tally[6..]);
    Ok(())
}

fn search_into(
    bytes: PlanBytes,
    start: usize,
    out: SearchBytes,
    space: &mut Space,
) -> Result<(), Refusal> {
    let plan = lent(bytes, &mut space.tables)?;
    let n = plan.size.n;
    need(start < n, Refusal::Stranger)?;
    let long = out.commands.len() / 2 >= n && out.scratch.len() / 2 >= n;
    need(long && out.answer.len() >= ANSWER_BYTES, Refusal::Cramped)?;
    let commands = &mut space.commands[..n];
    let found = search::search(&plan, start, commands, &mut space.search);
    entries::encode(commands, out.commands);
    out.scratch[..2 * n].fill(0);
    entries::encode(&[u16::from(found.lost), found.rounds], out.answer);
    Ok(())
}

pub fn gate_read(file: &[u8], out: ReadBytes, space: &mut Space) -> u32 {
    code(read_into(file, out, space))
}

pub fn gate_decide(plan: PlanBytes, out: DecideBytes, space: &mut Space) -> u32 {
    code(decide_into(plan, out, space))
}

pub fn gate_search(plan: PlanBytes, start: usize, out: SearchBytes, space: &mut Space) -> u32 {
    code(search_into(plan, start, out, space))
}
