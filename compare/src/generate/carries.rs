//! Maps by which tables are carried back: those that are timed, and damaged ones.
use super::random::Random;
use crate::planner::plan::{Size, NONE};

/// The most entries of a map and of a table.
pub const MOST: usize = 2048;

/// The map of a plan that had `n` states, and a table to carry back. That is as long as can be, so that a file of both is long enough
/// whatever is taken from it.
pub struct Carry {
    pub name: &'static str,
    pub n: usize,
    pub olds: Vec<u16>,
    pub table: Vec<u16>,
}

/// Any entry, and NONE often.
fn entry(random: &mut Random) -> u16 {
    if random.once_in(4) {
        NONE
    } else {
        random.next() as u16
    }
}

fn drawn(name: &'static str, n: usize, olds: Vec<u16>, random: &mut Random) -> Carry {
    let table = (0..MOST).map(|_| entry(random)).collect();
    Carry {
        name,
        n,
        olds,
        table,
    }
}

fn whole(n: usize) -> Vec<u16> {
    (0..n as u16).collect()
}

/// The same maps in every run: at the limit, and a small one for the fixed price.
pub fn timed() -> Vec<Carry> {
    let (n, mut random) = (Size::STATES, Random::new(3, 0));
    let states = whole(n).into_iter();
    let maps = [
        ("whole", 64, whole(64)),
        ("whole", n, whole(n)),
        ("every other", n, states.clone().step_by(2).collect()),
        ("random", n, states.filter(|_| random.once_in(2)).collect()),
        ("one state", n, vec![700]),
        ("none", n, Vec::new()),
    ];
    let maps = maps.into_iter();
    maps.map(|(name, n, olds)| drawn(name, n, olds, &mut random))
        .collect()
}

/// Of a map of so many entries.
type Damage = fn(&mut Vec<u16>, usize);

/// Each makes of a whole map one that is refused.
const DAMAGES: [(&str, Damage); 9] = [
    ("equal at first", |olds, _| olds[1] = olds[0]),
    ("equal at last", |olds, n| olds[n - 1] -= 1),
    ("falling", |olds, n| olds.swap(n / 2, n / 2 + 1)),
    ("backwards", |olds, _| olds.reverse()),
    ("first FFFF", |olds, _| olds[0] = u16::MAX),
    ("last FFFF", |olds, n| olds[n - 1] = u16::MAX),
    ("last n", |olds, n| olds[n - 1] += 1),
    ("one longer", |olds, n| olds.push(n as u16)),
    ("longer", |olds, n| olds.extend(n as u16..MOST as u16)),
];

pub fn damaged() -> Vec<Carry> {
    let mut random = Random::new(4, 0);
    let mut maps = Vec::new();
    for n in [64, Size::STATES] {
        for (name, damage) in DAMAGES {
            let mut olds = whole(n);
            damage(&mut olds, n);
            maps.push(drawn(name, n, olds, &mut random));
        }
    }
    maps
}
