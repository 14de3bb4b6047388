//! The warning time: by the ranks, at the ends of what it may be asked, and what it refuses.
use super::{any_plan, bytes, decided, read_file, CASE_A};
use crate::generate::draft::{Draft, Held, State};
use crate::generate::random::Random;
use crate::generate::{ended, shapes, sites};
use crate::planner::plan::{Plan, NONE};
use crate::planner::refusal::Refusal;
use crate::planner::warning::{warning, Space, Warning};

/// The least length of a move and the largest, and some about a minute and an hour.
const LENGTHS: [usize; 6] = [1, 59, 60, 61, 3_599, 3_600];
/// Lengths that are refused. Those with 60 added would be allowed to who drops high bits.
const REFUSED: [usize; 7] = [
    0,
    3_601,
    1 << 16,
    (1 << 16) + 60,
    (1 << 32) + 60,
    (1 << 48) + 60,
    usize::MAX,
];
/// States that no plan has.
const STRANGERS: [usize; 5] = [1_024, 1 << 16, 1 << 32, 1 << 48, usize::MAX];

fn warned(plan: &Plan, state: usize, length: usize) -> Result<Warning, Refusal> {
    warning(plan, state, length, &mut Space::new())
}

fn time(minutes: usize, seconds: usize) -> Result<Warning, Refusal> {
    Ok(Warning::Time { minutes, seconds })
}

fn case_a() -> Held {
    read_file(&bytes(CASE_A)).unwrap()
}

/// Each of the states with each of the lengths.
fn pairs(states: &[usize], lengths: &[usize]) -> Vec<(usize, usize)> {
    let states = states.iter();
    states
        .flat_map(|&s| lengths.iter().map(move |&length| (s, length)))
        .collect()
}

/// Whatever is asked, this is refused.
fn assert_refused(held: &Held, asked: &[(usize, usize)], refusal: Refusal) {
    for &(s, length) in asked {
        let answer = warned(&held.plan(), s, length);
        assert_eq!(answer, Err(refusal), "state {s}, {length} seconds");
    }
}

#[test]
fn the_warning_times_of_case_a() {
    let case_a = case_a();
    let times: Vec<_> = (0..6).map(|s| warned(&case_a.plan(), s, 90)).collect();
    assert_eq!(times[..3], [Ok(Warning::NoLimit); 3]);
    assert_eq!(times[3..], [time(1, 30), time(0, 0), time(3, 0)]);
}

#[test]
fn no_time_where_it_has_failed() {
    for end in [State::failing, State::stuck] {
        let alone = Draft::new(vec![end()]).hold();
        let times = LENGTHS.map(|length| warned(&alone.plan(), 0, length));
        assert_eq!(times, [time(0, 0); 6]);
        let chain = shapes::chain(1024, end).hold();
        let times = LENGTHS.map(|length| warned(&chain.plan(), 1023, length));
        assert_eq!(times, [time(0, 0); 6]);
    }
}

#[test]
fn no_limit_where_it_is_safe() {
    let rest = || Draft::new(vec![State::rest()]);
    for safe in [rest(), shapes::ring(1024), shapes::chain(1024, State::rest)] {
        let held = safe.hold();
        let times = LENGTHS.map(|length| warned(&held.plan(), 0, length));
        assert_eq!(times, [Ok(Warning::NoLimit); 6]);
    }
}

#[test]
fn the_longest_times() {
    for end in [State::failing, State::stuck] {
        let chain = shapes::chain(1024, end).hold();
        let times = LENGTHS.map(|length| warned(&chain.plan(), 0, length));
        assert_eq!(times[..3], [time(17, 3), time(1_005, 57), time(1_023, 0)]);
        assert_eq!(times[3..5], [time(1_040, 3), time(61_362, 57)]);
        assert_eq!(times[5], time(61_380, 0));
    }
}

#[test]
fn every_rank_of_a_chain() {
    let chain = shapes::chain(1024, State::failing).hold();
    let mut space = Space::new();
    for rank in 0..1024 {
        let answer = warning(&chain.plan(), 1023 - rank, 61, &mut space);
        assert_eq!(answer, time(rank + rank / 60, rank % 60));
    }
}

#[test]
fn refused_lengths() {
    assert_eq!(Refusal::Seconds.number(), 13);
    let asked = pairs(&[0, 3, 4, 5], &REFUSED);
    assert_refused(&case_a(), &asked, Refusal::Seconds);
    let chain = shapes::chain(1024, State::failing).hold();
    assert_refused(&chain, &pairs(&[0, 1023], &REFUSED), Refusal::Seconds);
}

#[test]
fn strangers_are_refused_before_lengths() {
    let lengths = [&LENGTHS[..], &REFUSED].concat();
    let asked = pairs(&[&[6, 7], &STRANGERS[..]].concat(), &lengths);
    assert_refused(&case_a(), &asked, Refusal::Stranger);
    let chain = shapes::chain(1024, State::failing).hold();
    assert_refused(&chain, &pairs(&STRANGERS, &lengths), Refusal::Stranger);
}

#[test]
fn unsound_plans_are_refused_first() {
    let lengths = [&LENGTHS[..], &REFUSED].concat();
    let asked = pairs(&[&[0, 5, 6], &STRANGERS[..]].concat(), &lengths);
    let mut held = case_a();
    held.rows[4].kind = 3;
    assert_refused(&held, &asked, Refusal::Unsound);
    let without_states = Draft::new(Vec::new()).hold();
    assert_refused(&without_states, &asked, Refusal::Unsound);
}

/// The time of each of the states is its rank in moves, whatever the space was used for before.
fn assert_by_rank(held: &Held, states: &[usize], space: &mut Space) {
    let plan = held.plan();
    let ranks = decided(&plan).ranks;
    for (s, length) in pairs(states, &LENGTHS) {
        match warning(&plan, s, length, space).unwrap() {
            Warning::NoLimit => assert_eq!(ranks[s], NONE),
            Warning::Time { minutes, seconds } => {
                assert!(ranks[s] != NONE && seconds < 60);
                assert_eq!(minutes * 60 + seconds, usize::from(ranks[s]) * length);
            }
        }
    }
}

fn all_states(held: &Held) -> Vec<usize> {
    (0..held.size.n).collect()
}

#[test]
fn small_plans_go_by_the_ranks() {
    let mut space = Space::new();
    let drawn = (0..4000).map(any_plan);
    let ended = (0..ended::COUNT).map(|number| ended::plan(number, State::stuck).hold());
    for held in drawn.chain(ended) {
        assert_by_rank(&held, &all_states(&held), &mut space);
    }
}

fn large_plans(n: usize, random: &mut Random) -> [Held; 6] {
    [
        shapes::layered(n, random),
        shapes::leaking_ring(n).renumbered(random),
        sites::ordinary(n, random),
        sites::random(n, 4 * n, 16 * n, random),
        sites::worst_chain(n).with_practices(random),
        sites::worst_rounds(n),
    ]
    .map(|draft| draft.hold())
}

#[test]
fn large_plans_go_by_the_ranks() {
    let (mut space, mut random) = (Space::new(), Random::new(10, 0));
    for held in large_plans(64, &mut random) {
        assert_by_rank(&held, &all_states(&held), &mut space);
    }
    for held in large_plans(1024, &mut random) {
        assert_by_rank(&held, &[0, 1, 200, 511, 512, 1000, 1023], &mut space);
    }
}
