//! One input: a file, tables, a start, and how long the slices are that the calls write.
use super::damage::{damage_file, damage_tables};
use super::draft::{Draft, Held};
use super::limits;
use super::random::Random;
use super::shapes;
use crate::planner::entries::{encode, encode_rows, encode_size, ROW_BYTES, SIZE_BYTES};

pub struct Input {
    pub file: Vec<u8>,
    /// Size record, rows, first outcomes and outcomes.
    pub tables: [Vec<u8>; 4],
    pub start: usize,
    /// What the slices hold that are written.
    pub salt: usize,
    /// The bytes of reading's four slices, deciding's five and the search's three.
    pub read: Vec<usize>,
    pub decide: Vec<usize>,
    pub search: Vec<usize>,
}

pub fn table_bytes(held: &Held) -> [Vec<u8>; 4] {
    let mut size = vec![0; SIZE_BYTES];
    let mut rows = vec![0; ROW_BYTES * held.size.n];
    let mut firsts = vec![0; 2 * held.size.m];
    let mut outcomes = vec![0; 2 * held.size.t];
    encode_size(held.size, &mut size);
    encode_rows(&held.rows, &mut rows);
    encode(&held.firsts, &mut firsts);
    encode(&held.outcomes, &mut outcomes);
    [size, rows, firsts, outcomes]
}

/// The bytes that each call's slices need.
pub fn needs(held: &Held) -> (Vec<usize>, Vec<usize>, Vec<usize>) {
    let size = held.size;
    let places = 2 * size.n;
    let read = vec![SIZE_BYTES, ROW_BYTES * size.n, 2 * size.m, 2 * size.t];
    let decide = vec![places, places, places, places, 12];
    let search = vec![places, places, 4];
    (read, decide, search)
}

fn shorter(length: usize, random: &mut Random) -> usize {
    match random.below(5) {
        0 => 0,
        1 => length.saturating_sub(2),
        2 => length.saturating_sub(ROW_BYTES),
        3 if length > 0 => random.below(length),
        _ => length.saturating_sub(1),
    }
}

fn exact_or_longer(length: usize, random: &mut Random) -> usize {
    match random.below(4) {
        0 => length + random.within(1, 13),
        1 => length + 1,
        _ => length,
    }
}

/// Each slice as long as it must be or longer; one time in five, one of them is shorter.
fn lengths(needs: &[usize], random: &mut Random) -> Vec<usize> {
    let mut lengths: Vec<usize> = needs.to_vec();
    for length in &mut lengths {
        *length = exact_or_longer(*length, random);
    }
    if random.once_in(5) {
        let i = random.below(needs.len());
        lengths[i] = shorter(needs[i], random);
    }
    lengths
}

/// Makes the tables longer, and one time in eight one of them shorter.
fn resize_tables(tables: &mut [Vec<u8>; 4], random: &mut Random) {
    for table in tables.iter_mut() {
        let length = exact_or_longer(table.len(), random);
        while table.len() < length {
            table.push(random.byte());
        }
    }
    if random.once_in(8) {
        let table = &mut tables[random.below(4)];
        table.truncate(shorter(table.len(), random));
    }
}

/// No state, but one if its higher bits are dropped.
fn wide_start(n: usize, random: &mut Random) -> usize {
    let high = match random.below(3) {
        0 => random.pick(&[1, 2, 0xFFFF, 1 << 16, 1 << 47, usize::MAX >> 16]),
        1 => random.within(1, 0xFFFF),
        _ => random.within(1, usize::MAX >> 16),
    };
    (high << 16) + random.below(n)
}

fn any_start(held: &Held, random: &mut Random) -> usize {
    let n = held.size.n;
    match random.below(10) {
        0 => random.pick(&[n, n + 1, 1023, 1024, 0x7FFF, 0xFFFF, 0x10000, usize::MAX]),
        1 => wide_start(n, random),
        2..=4 => random.below(n),
        _ => held.size.start,
    }
}

/// Most plans are small; the first inputs are those at the limits.
fn draft(index: u64, random: &mut Random) -> Draft {
    let first = index as usize;
    if first < 4 * limits::COUNT {
        return limits::plan(first % limits::COUNT, random);
    }
    if random.once_in(2000) {
        return limits::plan(random.below(limits::COUNT), random);
    }
    let most = match random.below(200) {
        0 | 1 => 1024,
        2..=19 => 64,
        20..=109 => 12,
        _ => 6,
    };
    shapes::any(most, random)
}

/// Input `index` of a seed. The plans at the limits come first, once with nothing damaged.
pub fn input(seed: u64, index: u64) -> Input {
    let mut random = Random::new(seed, index);
    let random = &mut random;
    let held = draft(index, random).hold();
    let n = held.size.n;
    let mut file = held.file();
    let mut tables = table_bytes(&held);
    let (mut read, mut decide, mut search) = needs(&held);
    let start = any_start(&held, random);
    let salt = random.next() as usize;
    if index >= limits::COUNT as u64 {
        if random.once_in(2) {
            damage_file(&mut file, n, random);
        }
        if random.once_in(2) {
            damage_tables(&mut tables, n, random);
        }
        resize_tables(&mut tables, random);
        read = lengths(&read, random);
        decide = lengths(&decide, random);
        search = lengths(&search, random);
    }
    Input {
        file,
        tables,
        start,
        salt,
        read,
        decide,
        search,
    }
}
