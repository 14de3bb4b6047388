//! Compares the library with the peer: what each call returns, and every byte that it was lent, guards included. The rounds of a search
//! are held to their bound.
use crate::calls::{Library, Peer};
use crate::case::{Case, CALLS};
use crate::generate::input::input;
use crate::planner::entries::{decode_rows, decode_size, entry};
use crate::planner::plan::{Plan, Row};

/// How often each call returned 0 and each refusal.
type Counts = [[u64; 12]; 3];

/// The refusals that a call can give.
fn possible(call: usize, number: usize) -> bool {
    match call {
        0 => number <= 9,
        1 => [0, 9, 10].contains(&number),
        _ => [0, 9, 10, 11].contains(&number),
    }
}

/// What two runs of a case differ in, if anything.
fn difference(library: (u32, &Case), peer: (u32, &Case)) -> Option<String> {
    if library.0 != peer.0 {
        return Some(format!(
            "the library returns {}, the peer {}",
            library.0, peer.0
        ));
    }
    let names = library.1.names();
    for (i, name) in names.iter().enumerate() {
        if let Some((at, a, b)) = library.1.lent[i].difference(&peer.1.lent[i]) {
            let returns = library.0;
            return Some(format!(
                "both return {returns}, but byte {at} of {name} is {a:02X} by the library and {b:02X} by the peer"
            ));
        }
    }
    None
}

/// How many rounds a search of a sound plan may walk.
fn most_rounds(size: &[u8], rows: &[u8]) -> usize {
    let size = decode_size(size);
    let mut table = vec![Row::default(); size.n];
    decode_rows(rows, &mut table);
    let plan = Plan {
        size,
        rows: &table,
        firsts: &[],
        outcomes: &[],
    };
    plan.with_commands()
}

/// What is wrong with the rounds of an answer, if the call has any.
fn too_many_rounds(case: &Case) -> Option<String> {
    match &case.lent[..] {
        [size, rows, .., answer] if CALLS[case.call] == "search" => {
            let most = most_rounds(size.bytes(), rows.bytes());
            let rounds = usize::from(entry(&answer.bytes()[2..]));
            let message = || format!("{rounds} rounds, and {most} states with commands");
            (rounds > most).then(message)
        }
        _ => None,
    }
}

/// Runs both on copies of a case.
fn compare(case: &Case, peer: &mut Peer) -> Result<u32, String> {
    let mut ours = case.clone();
    let mut theirs = case.clone();
    let returned = ours.run(&mut Library);
    let expected = theirs.run(peer);
    let mut wrong = difference((returned, &ours), (expected, &theirs));
    if wrong.is_none() && returned == 0 {
        wrong = too_many_rounds(&ours);
    }
    wrong.map_or(Ok(returned), Err)
}

fn compare_all(seed: u64, index: u64, peer: &mut Peer, counts: &mut Counts) -> Result<(), String> {
    let input = input(seed, index);
    for (call, counts) in counts.iter_mut().enumerate() {
        let case = Case::new(call, &input);
        match compare(&case, peer) {
            Ok(returned) => counts[returned as usize] += 1,
            Err(difference) => {
                let name = CALLS[call];
                return Err(format!(
                    "seed {seed}, input {index}, {name}: {difference}\nsee it by: replay {seed} {index}"
                ));
            }
        }
    }
    Ok(())
}

fn print_counts(counts: &Counts) {
    let head: String = (1..12).map(|number| format!("{number:>8}")).collect();
    println!("call      answers{head}");
    for (name, counts) in CALLS.iter().zip(counts) {
        let cells: String = counts[1..]
            .iter()
            .map(|count| format!("{count:>8}"))
            .collect();
        println!("{name:<8}{:>9}{cells}", counts[0]);
    }
}

fn never_reached(counts: &Counts) -> Vec<String> {
    let mut missing = Vec::new();
    for (call, counts) in counts.iter().enumerate() {
        for (number, &count) in counts.iter().enumerate() {
            if possible(call, number) && count == 0 {
                missing.push(format!(
                    "no {} returned {number}: too few inputs",
                    CALLS[call]
                ));
            }
        }
    }
    missing
}

/// Compares the first `count` inputs of a seed.
pub fn check(count: u64, seed: u64) -> Result<(), String> {
    let mut peer = Peer::new();
    let mut counts = [[0; 12]; 3];
    for index in 0..count {
        compare_all(seed, index, &mut peer, &mut counts)?;
    }
    print_counts(&counts);
    let missing = never_reached(&counts);
    if !missing.is_empty() {
        return Err(missing.join("\n"));
    }
    println!("compared {count} inputs, all equal");
    Ok(())
}

/// Prints what one input lends to each call and what both return, and compares.
pub fn replay(seed: u64, index: u64) -> Result<(), String> {
    let mut peer = Peer::new();
    let input = input(seed, index);
    for (call, name) in CALLS.iter().enumerate() {
        let case = Case::new(call, &input);
        println!("{name} start {}", case.start);
        for (slice, lent) in case.names().iter().zip(&case.lent) {
            println!("  {slice} {}", lent.hexadecimal());
        }
        let returned = case.clone().run(&mut Library);
        let expected = case.clone().run(&mut peer);
        println!("  the library returns {returned}, the peer {expected}");
    }
    compare_all(seed, index, &mut peer, &mut [[0; 12]; 3])
}
