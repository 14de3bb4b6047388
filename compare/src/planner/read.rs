//! Reading a plan file, field by field in the order of the checks.
use super::entries::entry;
use super::plan::{Row, Size, NONE, ORDINARY, REST};
use super::refusal::{need, Refusal};

/// Tables with room for every plan that a file can give.
pub struct Tables {
    pub rows: Vec<Row>,
    pub firsts: Vec<u16>,
    pub outcomes: Vec<u16>,
}

impl Tables {
    pub fn new() -> Tables {
        Tables {
            rows: vec![Row::default(); Size::STATES],
            firsts: vec![0; Size::COMMANDS],
            outcomes: vec![0; Size::OUTCOMES],
        }
    }
}

struct Walker<'a> {
    file: &'a [u8],
    at: usize,
}

impl<'a> Walker<'a> {
    fn take(&mut self, count: usize) -> Result<&'a [u8], Refusal> {
        let end = self.at + count;
        let bytes = self.file.get(self.at..end).ok_or(Refusal::Cut)?;
        self.at = end;
        Ok(bytes)
    }

    fn field(&mut self, tag: u8, allowed: fn(usize) -> bool) -> Result<&'a [u8], Refusal> {
        let head = self.take(3)?;
        need(head[0] == tag, Refusal::Tag)?;
        let length = usize::from(entry(&head[1..]));
        need(allowed(length), Refusal::Length)?;
        self.take(length)
    }
}

fn head(walker: &mut Walker) -> Result<Size, Refusal> {
    let value = walker.field(1, |length| length == 4)?;
    let n = usize::from(entry(value));
    let start = usize::from(entry(&value[2..]));
    need((1..=Size::STATES).contains(&n), Refusal::Beyond)?;
    need(start < n, Refusal::Beyond)?;
    let (m, t) = (0, 0);
    Ok(Size { n, m, t, start })
}

/// The row, and how many commands the state has.
fn state(walker: &mut Walker, size: &Size) -> Result<(Row, usize), Refusal> {
    let value = walker.field(2, |length| length == 5)?;
    let kind = u16::from(value[0]);
    let count = usize::from(entry(&value[1..]));
    let practice = entry(&value[3..]);
    need(kind <= REST, Refusal::Beyond)?;
    need(kind == ORDINARY || count == 0, Refusal::Idle)?;
    let fits = practice == NONE || usize::from(practice) < count;
    need(fits, Refusal::Idle)?;
    need(size.m + count <= Size::COMMANDS, Refusal::Limit)?;
    let first = size.m as u16;
    Ok((
        Row {
            kind,
            first,
            practice,
        },
        count,
    ))
}

fn command(walker: &mut Walker, size: &mut Size, tables: &mut Tables) -> Result<(), Refusal> {
    let value = walker.field(3, |length| length >= 2 && length % 2 == 0)?;
    let end = size.t + value.len() / 2;
    need(end <= Size::OUTCOMES, Refusal::Limit)?;
    let mut least = 0;
    for (place, pair) in tables.outcomes[size.t..end]
        .iter_mut()
        .zip(value.chunks_exact(2))
    {
        let outcome = entry(pair);
        need(usize::from(outcome) < size.n, Refusal::Beyond)?;
        need(outcome >= least, Refusal::Unsorted)?;
        least = outcome + 1;
        *place = outcome;
    }
    tables.firsts[size.m] = size.t as u16;
    size.m += 1;
    size.t = end;
    Ok(())
}

/// Reads the file into tables of the reader's own, which may be left half filled by a refusal.
pub fn read(file: &[u8], tables: &mut Tables) -> Result<Size, Refusal> {
    let mut walker = Walker { file, at: 0 };
    let mut size = head(&mut walker)?;
    for s in 0..size.n {
        let (row, count) = state(&mut walker, &size)?;
        tables.rows[s] = row;
        for _ in 0..count {
            command(&mut walker, &mut size, tables)?;
        }
    }
    walker.field(4, |length| length == 0)?;
    need(walker.at == file.len(), Refusal::Surplus)?;
    Ok(size)
}
