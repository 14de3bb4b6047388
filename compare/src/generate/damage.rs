//! Damage to files and to tables. It need not make them wrong.
use super::fields::{fields, Field};
use super::random::Random;
use crate::planner::entries::entry;

/// Entries at which something may turn, for a plan of n states.
fn telling(n: usize, random: &mut Random) -> u16 {
    let n = n as u16;
    let near = [0, 1, 2, 3, n - 1, n, n + 1, 1023, 1024, 1025];
    let far = [
        0x0100, 4095, 4096, 4097, 16384, 16385, 0x7FFF, 0x8000, 0xFFFE, 0xFFFF,
    ];
    match random.below(3) {
        0 => random.pick(&near),
        1 => random.pick(&far),
        _ => random.below(usize::from(n)) as u16,
    }
}

fn put(bytes: &mut [u8], at: usize, entry: u16) {
    bytes[at..at + 2].copy_from_slice(&entry.to_be_bytes());
}

/// Another entry at a place: a telling one, or one more or less.
fn change(bytes: &mut [u8], at: usize, n: usize, random: &mut Random) {
    let old = entry(&bytes[at..]);
    let new = match random.below(4) {
        0 => old.wrapping_add(1),
        1 => old.wrapping_sub(1),
        _ => telling(n, random),
    };
    put(bytes, at, new);
}

fn pick_of(fields: &[Field], tag: u8, random: &mut Random) -> Option<Field> {
    let of_tag: Vec<Field> = fields.iter().copied().filter(|f| f.tag == tag).collect();
    if of_tag.is_empty() {
        return None;
    }
    Some(random.pick(&of_tag))
}

fn change_bytes(file: &mut Vec<u8>, random: &mut Random) {
    let at = random.below(file.len());
    match random.below(4) {
        0 => file[at] ^= 1 << random.below(8),
        1 => file[at] = random.byte(),
        2 => file.insert(at, random.byte()),
        _ => {
            file.remove(at);
        }
    }
}

fn add_surplus(file: &mut Vec<u8>, random: &mut Random) {
    if random.once_in(3) {
        file.extend_from_within(..);
        return;
    }
    let most = if random.once_in(200) { 70_000 } else { 8 };
    let count = random.within(1, most);
    file.resize(file.len() + count, random.byte());
}

fn change_value(file: &mut [u8], field: Field, n: usize, random: &mut Random) {
    match field.tag {
        1 => change(file, field.at + 3 + 2 * random.below(2), n, random),
        2 if random.once_in(3) => file[field.at + 3] = random.below(5) as u8,
        2 => change(file, field.at + 4 + 2 * random.below(2), n, random),
        3 => {
            let count = (field.end - field.at - 3) / 2;
            change(file, field.at + 3 + 2 * random.below(count), n, random);
        }
        _ => {}
    }
}

/// Swaps two outcomes, or makes them the same.
fn unsort(file: &mut [u8], field: Field, random: &mut Random) {
    let count = (field.end - field.at - 3) / 2;
    let i = field.at + 3 + 2 * random.below(count);
    let j = field.at + 3 + 2 * random.below(count);
    let (a, b) = (entry(&file[i..]), entry(&file[j..]));
    put(file, i, b);
    if random.once_in(2) {
        put(file, j, a);
    }
}

/// A field with bytes more or fewer in its value, and its length to match.
fn resize(file: &mut Vec<u8>, field: Field, random: &mut Random) {
    let old = field.end - field.at - 3;
    let new = match random.below(40) {
        0 => 65_534,
        1..=10 => 0,
        _ => random.below(old + 4),
    };
    let mut value = file[field.at + 3..field.end].to_vec();
    value.resize(new, random.byte());
    file.splice(field.at + 3..field.end, value);
    put(file, field.at + 1, new as u16);
}

fn change_field(file: &mut Vec<u8>, n: usize, random: &mut Random) {
    let fields = fields(file);
    let any = random.pick(&fields);
    let command = pick_of(&fields, 3, random);
    let head_or_state = pick_of(&fields, random.pick(&[1, 2]), random).unwrap_or(any);
    match (random.below(9), command) {
        (0, _) => file[any.at] = random.below(7) as u8,
        (1, _) => change(file, any.at + 1, n, random),
        (2, _) => resize(file, any, random),
        (3, _) => drop(file.drain(any.at..any.end)),
        (4, _) => {
            let copy = file[any.at..any.end].to_vec();
            file.splice(any.at..any.at, copy);
        }
        (5, Some(command)) | (6, Some(command)) => unsort(file, command, random),
        (7, Some(command)) => change_value(file, command, n, random),
        _ => change_value(file, head_or_state, n, random),
    }
}

/// Damages the good file of a plan of n states.
pub fn damage_file(file: &mut Vec<u8>, n: usize, random: &mut Random) {
    match random.below(12) {
        0 | 1 => file.truncate(random.below(file.len())),
        2 => add_surplus(file, random),
        3 => change_bytes(file, random),
        4 => {
            let count = random.below(24);
            *file = (0..count).map(|_| random.below(6) as u8).collect();
        }
        _ => change_field(file, n, random),
    }
    if !file.is_empty() && random.once_in(10) {
        change_bytes(file, random);
    }
}

/// Changes an entry of a table, or swaps two neighbours.
fn damage_table(bytes: &mut [u8], n: usize, random: &mut Random) {
    let count = bytes.len() / 2;
    if count == 0 {
        return;
    }
    let at = 2 * random.below(count);
    if at + 4 <= bytes.len() && random.once_in(4) {
        let (a, b) = (entry(&bytes[at..]), entry(&bytes[at + 2..]));
        put(bytes, at, b);
        put(bytes, at + 2, a);
    } else {
        change(bytes, at, n, random);
    }
}

/// Damages one of a plan's four tables, and sometimes more.
pub fn damage_tables(tables: &mut [Vec<u8>; 4], n: usize, random: &mut Random) {
    loop {
        damage_table(&mut tables[random.below(4)], n, random);
        if !random.once_in(5) {
            return;
        }
    }
}
