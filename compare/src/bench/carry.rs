//! Carrying back: the program `bench_plans` beside the peer, both on a map and a table and with their tests.
use super::asked::{Question, CARRYING, CARRYING_ALONE};
use super::beside::{self, File, Runs, HELD, OLD};
use super::printed;
use crate::generate::carries::{self, Carry, MOST};
use crate::generate::draft::{Draft, State};
use crate::planner::carry::carry;
use crate::planner::entries::{decode, encode};
use crate::planner::plan::Size;

/// Few calls, so that all questions on a map fit into a pipe at once and nobody waits for who writes them. Many runs, since a call is short
/// beside its question.
const RUNS: Runs = Runs {
    count: 100,
    calls: 3_000,
};

/// The least time that is told: runs differ by about as much.
const LEAST: f64 = 0.1;

/// The old n, and how long map, table and places are.
type Told = (usize, [usize; 3]);

/// A map by which both carried back the same.
pub struct Carried {
    map: Carry,
    file: File,
}

/// The map and the table right after it.
fn file(map: &Carry) -> File {
    let entries = [&map.olds[..], &map.table].concat();
    let mut bytes = vec![0; 2 * entries.len()];
    encode(&entries, &mut bytes);
    let name = map.name;
    File { name, bytes }
}

/// All entries that can be asked for, as the program takes them from the file's bytes: past the last whole one 0.
fn entries(file: &File) -> Vec<u16> {
    let mut entries = vec![0; 2 * MOST];
    decode(&file.bytes, &mut entries);
    entries
}

/// Both ways to ask for a table that is carried back, and what must come of them.
fn asked_for(entries: &[u16], (n, lengths): Told, holding: u16) -> [(Question, String); 2] {
    let [olds, table, places] = lengths;
    let (olds, others) = entries.split_at(olds);
    let mut places = vec![holding; places];
    let line = printed::carried(carry(n, olds, &others[..table], &mut places));
    let all_lines = line.clone() + &printed::table("places", &places);
    let alone = Question::carrying(CARRYING_ALONE, n, lengths, holding);
    let all = Question::carrying(CARRYING, n, lengths, holding);
    [(alone, line), (all, all_lines)]
}

/// The old n and others, many of which no plan has: most large ones would be it to who drops high bits.
fn numbers(n: usize) -> Vec<usize> {
    let most = Size::STATES;
    let mut numbers = vec![0, 1, n - 1, n, n + 1, most, most + 1, usize::MAX];
    numbers.extend([16, 32, 48].map(|bits| (1 << bits) + n));
    numbers
}

/// All as long as it must be, table and places both one short, and all as long as can be.
fn few_lengths(n: usize, olds: usize) -> [Told; 3] {
    let places = n.min(MOST);
    let short = [olds, olds.saturating_sub(1), places.saturating_sub(1)];
    [[olds, olds, places], short, [MOST; 3]].map(|lengths| (n, lengths))
}

/// One of the three none, one short, one longer, and as long as can be.
fn one_length(n: usize, olds: usize) -> Vec<Told> {
    let needs = [olds, olds, n];
    let mut told = Vec::new();
    for (i, need) in needs.into_iter().enumerate() {
        for length in [0, need.saturating_sub(1), need + 1, MOST] {
            let mut lengths = needs;
            lengths[i] = length.min(MOST);
            told.push((n, lengths));
        }
    }
    told
}

/// One state and no map: what a run is asked that takes as long but for the calls. It prints the same line, where a refusal would take four
/// writes in place of one, and takes as many entries from the file.
fn no_map(olds: usize) -> Told {
    (1, [0, MOST.min(2 * olds), 1])
}

/// The program must answer as the peer does and leave the same in every place, whatever n it is told and however long all is that it is
/// lent. The map is so many of the file's entries.
fn verify(file: &File, n: usize, olds: usize, program: &str) -> Result<(), String> {
    let entries = entries(file);
    let numbers = numbers(n).into_iter();
    let told = numbers.flat_map(|n| few_lengths(n, olds));
    let told = told.chain(one_length(n, olds)).chain([no_map(olds)]);
    let told = told.zip(HELD.into_iter().cycle());
    let lines = told.flat_map(|(told, holding)| asked_for(&entries, told, holding));
    let lines: Vec<_> = lines.collect();
    file.verify(program, &lines)
}

impl Carried {
    fn new(map: Carry) -> Carried {
        let file = file(&map);
        Carried { map, file }
    }

    fn verify(&self, program: &str) -> Result<(), String> {
        verify(&self.file, self.map.n, self.map.olds.len(), program)
    }

    pub fn times(&self, program: &str) -> Result<[f64; 2], String> {
        let Carry { n, olds, table, .. } = &self.map;
        let (n, table) = (*n, &table[..olds.len()]);
        let question = |(n, lengths)| Question::carrying(CARRYING_ALONE, n, lengths, OLD);
        let timed = question((n, [olds.len(), table.len(), n]));
        let other = question(no_map(olds.len()));
        let mut places = vec![OLD; n];
        self.file.times(program, [timed, other], RUNS, || {
            let answer = carry(n, olds, table, &mut places);
            assert_eq!(answer, Ok(()));
        })
    }

    fn row(&self, times: &[f64]) -> String {
        let Carry { name, n, olds, .. } = &self.map;
        let entries = olds.len();
        format!("{name:<14}{n:>5}{entries:>9}") + &pair(times)
    }
}

fn pair(times: &[f64]) -> String {
    if times[0] < LEAST {
        let below = format!("< {LEAST}");
        return format!("  |{below:>10}{:>10.2}{:>7}", times[1], "-");
    }
    beside::pair(times)
}

/// The bytes of a plan, of which the first entry is a map of one.
fn verify_plan(program: &str) -> Result<(), String> {
    let name = "a plan's file";
    let bytes = Draft::new(vec![State::rest()]).hold().file();
    verify(&File { name, bytes }, Size::STATES, 1, program)
}

/// The file ends within the last entry of a table that is as long as the map.
fn verify_cut(map: &Carry, program: &str) -> Result<(), String> {
    let mut cut = file(map);
    cut.bytes.truncate(4 * map.olds.len() - 1);
    verify(&cut, map.n, map.olds.len(), program)
}

/// All maps by which carrying back is timed. Both must answer the same for damaged ones too, and on any file.
pub fn carried(program: &str) -> Result<Vec<Carried>, String> {
    let maps = carries::timed().into_iter();
    let maps: Vec<Carried> = maps.map(Carried::new).collect();
    maps.iter().try_for_each(|map| map.verify(program))?;
    let mut damaged = carries::damaged().into_iter().map(Carried::new);
    damaged.try_for_each(|map| map.verify(program))?;
    verify_plan(program)?;
    verify_cut(&maps[0].map, program)?;
    Ok(maps)
}

fn head() -> String {
    format!("{:<14}{:>5}{:>9}", "map", "n", "entries") + &beside::pair_head()
}

/// The table, from two times a map.
pub fn print(maps: &[Carried], times: &[f64], runs: usize) {
    let Runs { count, calls } = RUNS;
    beside::print_what("carrying back, its tests included", count, runs);
    println!("a run is of {calls} calls; the program's is a process, less one that is asked as often for one state and by no map, with as many");
    println!("entries to take from its input, so that all falls out but the call; runs differ by about {LEAST}, and less is not told;");
    println!("entries are the map's");
    println!();
    println!("{}", head());
    for (map, times) in maps.iter().zip(times.chunks(2)) {
        println!("{}", map.row(times));
    }
}
