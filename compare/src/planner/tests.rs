//! The planner held to documents 01 and 02: case A, the bench plans, and the definitions on plans of every shape.
mod carry;
mod contest;
mod stuck;
mod trim;
mod warning;

use super::boundary::{gate_read, ReadBytes, Space};
use super::decide::{self, Tally, Verdicts};
use super::definition;
use super::plan::{Plan, Row, Size, NONE};
use super::read::{read, Tables};
use super::refusal::Refusal;
use super::search::{self, Found};
use super::sound::{size_sound, tables_sound};
use crate::generate::draft::{to, Draft, Held, State};
use crate::generate::random::Random;
use crate::generate::{limits, shapes, sites};

const CASE_A: &str = "01 0004 0006 0000
    02 0005 00 0002 0001  03 0002 0001  03 0004 0002 0003
    02 0005 00 0001 0000  03 0004 0000 0001
    02 0005 02 0000 FFFF
    02 0005 00 0002 0000  03 0002 0004  03 0004 0002 0004
    02 0005 01 0000 FFFF
    02 0005 00 0001 FFFF  03 0002 0003
    04 0000";

fn bytes(text: &str) -> Vec<u8> {
    let digits: String = text.split_whitespace().collect();
    let pairs = (0..digits.len()).step_by(2);
    pairs
        .map(|i| u8::from_str_radix(&digits[i..i + 2], 16).unwrap())
        .collect()
}

fn read_file(file: &[u8]) -> Result<Held, Refusal> {
    let mut tables = Tables::new();
    let size = read(file, &mut tables)?;
    Ok(Held {
        size,
        rows: tables.rows[..size.n].to_vec(),
        firsts: tables.firsts[..size.m].to_vec(),
        outcomes: tables.outcomes[..size.t].to_vec(),
    })
}

fn refused(text: &str) -> Option<Refusal> {
    read_file(&bytes(text)).err()
}

struct Decided {
    ranks: Vec<u16>,
    commands: Vec<u16>,
    marks: Vec<u16>,
    tally: Tally,
}

fn decided(plan: &Plan) -> Decided {
    let n = plan.size.n;
    let (mut ranks, mut commands, mut marks) = (vec![7; n], vec![7; n], vec![7; n]);
    let verdicts = Verdicts {
        ranks: &mut ranks,
        commands: &mut commands,
        marks: &mut marks,
    };
    let tally = decide::decide(plan, verdicts, &mut decide::Space::new());
    Decided {
        ranks,
        commands,
        marks,
        tally,
    }
}

fn searched(plan: &Plan, start: usize) -> (bool, u16, Vec<u16>) {
    let mut commands = vec![7; plan.size.n];
    let space = &mut search::Space::new();
    let Found { lost, rounds } = search::search(plan, start, &mut commands, space);
    (lost, rounds, commands)
}

/// Ranks, commands, and the search's verdict and rounds from state 0, by way of the file.
fn outline(states: Vec<State>) -> (Vec<u16>, Vec<u16>, bool, u16) {
    let held = read_file(&Draft::new(states).hold().file()).unwrap();
    let decided = decided(&held.plan());
    let (lost, rounds, _) = searched(&held.plan(), 0);
    (decided.ranks, decided.commands, lost, rounds)
}

fn row(kind: u16, first: u16, practice: u16) -> Row {
    Row {
        kind,
        first,
        practice,
    }
}

#[test]
fn case_a_is_read_and_written() {
    let file = bytes(CASE_A);
    assert_eq!(file.len(), 94);
    let held = read_file(&file).unwrap();
    let (n, m, t, start) = (6, 6, 9, 0);
    assert_eq!(held.size, Size { n, m, t, start });
    let rows = [
        row(0, 0, 1),
        row(0, 2, 0),
        row(2, 3, NONE),
        row(0, 3, 0),
        row(1, 5, NONE),
        row(0, 5, NONE),
    ];
    assert_eq!(held.rows, rows);
    assert_eq!(held.firsts, [0, 1, 3, 5, 6, 8]);
    assert_eq!(held.outcomes, [1, 2, 3, 0, 1, 4, 2, 4, 3]);
    assert_eq!(held.file(), file);
}

#[test]
fn case_a_is_decided_and_searched() {
    let held = read_file(&bytes(CASE_A)).unwrap();
    let decided = decided(&held.plan());
    assert_eq!(decided.ranks, [NONE, NONE, NONE, 1, 0, 2]);
    assert_eq!(decided.commands, [0, 0, NONE, NONE, NONE, NONE]);
    assert_eq!(decided.marks, [3, 1, 0, 1, 1, 0]);
    assert_eq!(decided.tally, [[0, 2, 1], [0, 1, 2]]);
    let commands = vec![0, 0, NONE, NONE, NONE, NONE];
    assert_eq!(searched(&held.plan(), 0), (false, 2, commands));
}

#[test]
fn bench_plans_of_one_state() {
    let none = vec![NONE];
    assert_eq!(Draft::new(vec![State::rest()]).hold().file().len(), 18);
    assert_eq!(
        outline(vec![State::rest()]),
        (none.clone(), none.clone(), false, 0)
    );
    assert_eq!(
        outline(vec![State::failing()]),
        (vec![0], none.clone(), true, 0)
    );
    assert_eq!(
        outline(vec![to(&[&[0]])]),
        (none.clone(), vec![0], false, 1)
    );
    assert_eq!(outline(vec![to(&[])]), (vec![0], none, true, 0));
}

#[test]
fn bench_plans_with_a_failing_state() {
    let leak = vec![to(&[&[0, 1]]), State::failing()];
    assert_eq!(outline(leak), (vec![1, 0], vec![NONE, NONE], true, 1));
    let second = vec![to(&[&[1], &[0]]), State::failing()];
    assert_eq!(outline(second), (vec![NONE, 0], vec![1, NONE], false, 1));
    let chain = vec![to(&[&[1]]), to(&[&[2]]), State::failing()];
    assert_eq!(outline(chain), (vec![2, 1, 0], vec![NONE; 3], true, 2));
}

#[test]
fn bench_files() {
    assert_eq!(refused(""), Some(Refusal::Cut));
    assert_eq!(refused("01 0004 0000 0000"), Some(Refusal::Beyond));
    assert_eq!(refused("01 0004 0401 0000"), Some(Refusal::Beyond));
    let full = Draft::new((0..1024).map(|_| State::rest()).collect());
    assert!(read_file(&full.hold().file()).is_ok());
    let one_command = "01 0004 0002 0000 02 0005 00 0001 FFFF 03";
    assert_eq!(
        refused(&format!("{one_command} 0000")),
        Some(Refusal::Length)
    );
    assert_eq!(
        refused(&format!("{one_command} 0004 0001 0001")),
        Some(Refusal::Unsorted)
    );
    assert_eq!(
        refused(&format!("{one_command} 0002 0002")),
        Some(Refusal::Beyond)
    );
}

#[test]
fn rows_one_short_are_cramped() {
    let file = bytes(CASE_A);
    for (rows, returns) in [(36, 0), (35, 9), (30, 9)] {
        let out = ReadBytes {
            size: &mut [0; 8],
            rows: &mut vec![0; rows],
            firsts: &mut [0; 12],
            outcomes: &mut [0; 18],
        };
        assert_eq!(gate_read(&file, out, &mut Space::new()), returns);
    }
}

#[test]
fn order_of_the_checks() {
    assert_eq!(refused("02 00"), Some(Refusal::Cut));
    assert_eq!(refused("02 0009"), Some(Refusal::Tag));
    assert_eq!(refused("01 0005"), Some(Refusal::Length));
    assert_eq!(refused("01 0004 0000 00"), Some(Refusal::Cut));
    let head = "01 0004 0002 0000";
    assert_eq!(refused(&format!("{head} 04 0000")), Some(Refusal::Tag));
    assert_eq!(
        refused(&format!("{head} 02 0005 03 0001 0009")),
        Some(Refusal::Beyond)
    );
    assert_eq!(
        refused(&format!("{head} 02 0005 01 FFFF FFFF")),
        Some(Refusal::Idle)
    );
    assert_eq!(
        refused(&format!("{head} 02 0005 00 FFFF FFFF")),
        Some(Refusal::Limit)
    );
    let command = format!("{head} 02 0005 00 0001 0000");
    assert_eq!(refused(&format!("{command} 03 8002")), Some(Refusal::Cut));
    let long = format!("{command} 03 8002 {}", "FFFF".repeat(0x4001));
    assert_eq!(refused(&long), Some(Refusal::Limit));
    assert_eq!(
        refused(&format!("{command} 03 0006 0001 0000 0009")),
        Some(Refusal::Unsorted)
    );
    assert_eq!(
        refused(&format!("{command} 03 0006 0001 0009 0000")),
        Some(Refusal::Beyond)
    );
    assert_eq!(refused(&format!("{CASE_A} 00")), Some(Refusal::Surplus));
}

/// A small plan of any shape.
fn any_plan(index: u64) -> Held {
    let mut random = Random::new(5, index);
    shapes::any(9, &mut random).hold()
}

#[test]
fn deciding_is_by_the_definitions() {
    for index in 0..4000 {
        let held = any_plan(index);
        let plan = held.plan();
        let decided = decided(&plan);
        assert_eq!(decided.ranks, definition::ranks(&plan), "plan {index}");
        assert_eq!(
            decided.commands,
            definition::commands(&plan),
            "plan {index}"
        );
        let (marks, tally) = definition::marks_and_tally(&plan);
        assert_eq!(
            (decided.marks, decided.tally),
            (marks, tally),
            "plan {index}"
        );
    }
}

#[test]
fn the_search_is_by_the_definition() {
    for index in 0..4000 {
        let held = any_plan(index);
        let plan = held.plan();
        for start in 0..plan.size.n {
            let defined = definition::search(&plan, start);
            let rounds = usize::from(defined.1);
            assert!(rounds <= plan.with_commands(), "plan {index} from {start}");
            assert_eq!(searched(&plan, start), defined, "plan {index} from {start}");
        }
    }
}

fn assert_read_back(held: &Held) {
    assert!(size_sound(held.size) && tables_sound(&held.plan()));
    let again = read_file(&held.file()).unwrap();
    assert_eq!(again.size, held.size);
    assert_eq!(again.rows, held.rows);
    assert_eq!(again.firsts, held.firsts);
    assert_eq!(again.outcomes, held.outcomes);
}

#[test]
fn drafts_are_sound_and_read_back() {
    for index in 0..500 {
        assert_read_back(&any_plan(index));
    }
    let mut random = Random::new(6, 0);
    for n in [64, 1024] {
        assert_read_back(&sites::ordinary(n, &mut random).hold());
        assert_read_back(&sites::random(n, 4 * n, 16 * n, &mut random).hold());
        assert_read_back(&sites::worst_chain(n).hold());
        assert_read_back(&sites::worst_rounds(n).hold());
    }
}

#[test]
fn drafts_beyond_a_limit_are_refused() {
    let beyond = [
        (1, Refusal::Beyond),
        (3, Refusal::Limit),
        (4, Refusal::Limit),
        (6, Refusal::Limit),
        (8, Refusal::Beyond),
        (9, Refusal::Limit),
        (10, Refusal::Limit),
        (16, Refusal::Beyond),
    ];
    for number in 0..limits::COUNT {
        let held = limits::plan(number, &mut Random::new(7, 0)).hold();
        match beyond.iter().find(|(plan, _)| *plan == number) {
            Some(&(_, refusal)) => {
                assert_eq!(read_file(&held.file()).err(), Some(refusal));
                assert!(!size_sound(held.size));
            }
            None => assert_read_back(&held),
        }
    }
}

#[test]
fn the_worst_plans_are_the_worst() {
    for n in [2, 64, 1024] {
        for draft in [
            sites::worst_chain(n),
            sites::worst_rounds(n),
            shapes::leaking_ring(n),
            shapes::chain(n, State::stuck),
        ] {
            let held = draft.hold();
            assert_eq!(usize::from(decided(&held.plan()).ranks[0]), n - 1);
            let (lost, rounds, _) = searched(&held.plan(), 0);
            assert_eq!((lost, usize::from(rounds)), (true, n - 1));
        }
    }
}
