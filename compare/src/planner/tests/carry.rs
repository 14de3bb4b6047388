//! Carrying back: small tables by hand, maps of every sort by the definition, and what is refused.
use crate::generate::carries;
use crate::generate::random::Random;
use crate::planner::carry::carry;
use crate::planner::definition;
use crate::planner::plan::NONE;
use crate::planner::refusal::Refusal;

/// What every place holds before.
const OLD: u16 = 0xEEEE;

/// Numbers of states that no plan has. Most would be 6 to who drops high bits.
const WRONG: [usize; 8] = [
    0,
    1_025,
    1 << 16,
    (1 << 16) + 6,
    (1 << 32) + 6,
    (1 << 48) + 6,
    1 << 63,
    usize::MAX,
];

/// What is in so many places afterwards.
fn carried(n: usize, olds: &[u16], table: &[u16], places: usize) -> Result<Vec<u16>, Refusal> {
    let mut lent = vec![OLD; places];
    let answer = carry(n, olds, table, &mut lent);
    if answer.is_err() {
        assert_eq!(lent, vec![OLD; places], "{n} states, map {olds:?}");
    }
    answer.map(|()| lent)
}

/// Refused, however many places there are.
fn assert_unsound(n: usize, olds: &[u16], table: &[u16]) {
    for places in [0, 5, 6, 7, 1_023, 1_024, 1_025, 2_048] {
        let answer = carried(n, olds, table, places);
        assert_eq!(answer, Err(Refusal::Unsound), "{n} states, map {olds:?}");
    }
}

fn picked(olds: &[u16], table: &[u16]) -> Vec<u16> {
    let entries = olds.iter().map(|&old| table[usize::from(old)]);
    entries.collect()
}

fn whole(n: usize) -> Vec<u16> {
    (0..n as u16).collect()
}

#[test]
fn by_hand() {
    let back = carried(6, &[1, 2, 4, 5], &[9, NONE, 0, 8], 6);
    assert_eq!(back, Ok(vec![NONE, 9, NONE, NONE, 0, 8]));
    let back = carried(3, &[0, 1, 2], &[2, 1, 0], 3);
    assert_eq!(back, Ok(vec![2, 1, 0]));
    assert_eq!(carried(1, &[0], &[OLD], 1), Ok(vec![OLD]));
}

#[test]
fn a_map_without_entries() {
    for n in [1, 6, 1_023, 1_024] {
        for table in [&[][..], &[5], &[0; 2_000]] {
            assert_eq!(carried(n, &[], table, n), Ok(vec![NONE; n]));
        }
    }
}

#[test]
fn numbers_of_states() {
    for n in WRONG {
        assert_unsound(n, &[], &[]);
        assert_unsound(n, &[1, 2, 4, 5], &[9, 8, 7, 6]);
        assert_unsound(n, &[0], &[9]);
    }
    assert_eq!(carried(1, &[0], &[9], 1), Ok(vec![9]));
    let (olds, table) = (whole(1_024), vec![5; 1_024]);
    assert_eq!(carried(1_024, &olds, &table, 1_024), Ok(table.clone()));
    assert_unsound(1_023, &olds, &table);
    assert_unsound(1_025, &olds, &table);
}

/// Every entry of a map in turn is the same as the one before, or less.
#[test]
fn entries_that_do_not_rise() {
    for i in 1..32 {
        let sound: Vec<u16> = (0..32).map(|i| 2 * i + 1).collect();
        for entry in [sound[i - 1], sound[i - 1] - 1, 0] {
            let mut olds = sound.clone();
            olds[i] = entry;
            assert_unsound(64, &olds, &[7; 32]);
        }
    }
}

#[test]
fn entries_about_n() {
    for n in [1, 2, 6, 1_023, 1_024] {
        let last = n as u16 - 1;
        let mut back = vec![NONE; n];
        back[n - 1] = 3;
        assert_eq!(carried(n, &[last], &[3], n), Ok(back));
        for beyond in [n as u16, n as u16 + 1, 1 << 15, u16::MAX] {
            assert_unsound(n, &[beyond], &[3]);
            assert_unsound(n, &[last, beyond], &[3, 4]);
            assert_unsound(n, &[beyond, last], &[3, 4]);
        }
        assert_unsound(n, &whole(n + 1), &vec![3; n + 1]);
    }
}

#[test]
fn as_long_as_the_map() {
    let olds = [0, 2, 3];
    for table in [&[][..], &[9], &[9, 8]] {
        assert_unsound(4, &olds, table);
    }
    let back = vec![9, NONE, 8, 7];
    assert_eq!(carried(4, &olds, &[9, 8, 7], 4), Ok(back.clone()));
    assert_eq!(carried(4, &olds, &[9, 8, 7, 6], 4), Ok(back.clone()));
    assert_eq!(carried(4, &olds, &[9, 8, 7, 6, 5, 4], 4), Ok(back));
    assert_unsound(1_024, &whole(1_024), &[5; 1_023]);
}

#[test]
fn as_many_places_as_states() {
    for n in [4, 64, 1_024] {
        let answer = |places| carried(n, &[0, 2, 3], &[9, 8, 7], places);
        for short in [0, 3, n - 1] {
            assert_eq!(answer(short), Err(Refusal::Cramped));
        }
        for longer in [n, n + 1, 2 * n] {
            let mut back = vec![OLD; longer];
            back[..n].fill(NONE);
            back[..4].copy_from_slice(&[9, NONE, 8, 7]);
            assert_eq!(answer(longer), Ok(back));
        }
    }
    assert_eq!(carried(6, &[], &[], 5), Err(Refusal::Cramped));
}

/// With room by the definition, and picking out gives the table again; refused where it does not fit, whatever the room. Answers whether it
/// fits.
fn assert_by_definition(n: usize, olds: &[u16], table: &[u16]) -> bool {
    match definition::carried(n, olds, table) {
        None => {
            assert_unsound(n, olds, table);
            false
        }
        Some(back) => {
            assert_eq!(picked(olds, &back), table[..olds.len()]);
            assert_eq!(carried(n, olds, table, n - 1), Err(Refusal::Cramped));
            assert_eq!(carried(n, olds, table, n), Ok(back));
            true
        }
    }
}

/// All maps of so many entries, each below 4 or as large as can be.
fn small_maps(count: usize) -> Vec<Vec<u16>> {
    let mut maps = vec![Vec::new()];
    for _ in 0..count {
        let longer = maps.iter().flat_map(|map: &Vec<u16>| {
            let entries = [0, 1, 2, 3, u16::MAX].into_iter();
            entries.map(move |entry| [&map[..], &[entry]].concat())
        });
        maps = longer.collect();
    }
    maps
}

/// Each way to choose states out of one, two and three, and with a table one too short none.
#[test]
fn every_small_map() {
    let mut answered = 0;
    for olds in (0..4).flat_map(small_maps) {
        let tables = [5, 0, NONE, 7, 1];
        for n in [1, 2, 3].into_iter().chain(WRONG) {
            for table in [olds.len(), olds.len() + 2] {
                answered += usize::from(assert_by_definition(n, &olds, &tables[..table]));
            }
            if let Some(short) = olds.len().checked_sub(1) {
                assert!(!assert_by_definition(n, &olds, &tables[..short]));
            }
        }
    }
    assert_eq!(answered, 2 * (2 + 4 + 8));
}

#[test]
fn random_maps() {
    let mut random = Random::new(12, 0);
    for _ in 0..1000 {
        let n = random.within(1, 1_024);
        let times = random.pick(&[1, 2, 3, 50]);
        let states = whole(n).into_iter();
        let olds: Vec<u16> = states.filter(|_| random.once_in(times)).collect();
        let entries = olds.len() + random.pick(&[0, 0, 1, 9]);
        let table: Vec<u16> = (0..entries).map(|_| random.next() as u16).collect();
        assert!(assert_by_definition(n, &olds, &table));
    }
}

#[test]
fn the_timed_maps_and_the_damaged() {
    let timed = carries::timed();
    let entries: Vec<usize> = timed.iter().map(|map| map.olds.len()).collect();
    assert_eq!(entries, [64, 1024, 512, 535, 1, 0]);
    for map in timed {
        assert!(assert_by_definition(map.n, &map.olds, &map.table));
    }
    for map in carries::damaged() {
        let answered = assert_by_definition(map.n, &map.olds, &map.table);
        assert!(!answered, "{}, {} states", map.name, map.n);
    }
}
