//! A run: every plan answered by both with the same bytes, and then timed.
use crate::calls::{Calls, Library, Peer};
use crate::case::CALLS;
use crate::generate::draft::Held;
use crate::generate::input::table_bytes;
use crate::generate::timed::{self, Timed};
use crate::planner::boundary::{DecideBytes, PlanBytes, ReadBytes, SearchBytes};
use crate::planner::entries::entry;
use crate::planner::plan::Size;
use std::time::{Duration, Instant};

pub const BATCHES: usize = 25;
pub const BATCH: Duration = Duration::from_micros(400);

/// All that the three calls are lent: deciding and the search take the tables that reading leaves.
#[derive(Clone, PartialEq, Eq)]
struct Buffers {
    file: Vec<u8>,
    tables: [Vec<u8>; 4],
    start: usize,
    places: [Vec<u8>; 4],
    tally: Vec<u8>,
    answer: Vec<u8>,
}

impl Buffers {
    fn new(held: &Held) -> Buffers {
        let places = || vec![0; 2 * held.size.n];
        Buffers {
            file: held.file(),
            tables: table_bytes(held),
            start: held.size.start,
            places: [places(), places(), places(), places()],
            tally: vec![0; 12],
            answer: vec![0; 4],
        }
    }

    fn run(&mut self, call: usize, calls: &mut dyn Calls) -> u32 {
        let [size, rows, firsts, outcomes] = &mut self.tables;
        let [ranks, commands, marks, scratch] = &mut self.places;
        if call == 0 {
            let out = ReadBytes {
                size,
                rows,
                firsts,
                outcomes,
            };
            return calls.read(&self.file, out);
        }
        let plan = PlanBytes {
            size,
            rows,
            firsts,
            outcomes,
        };
        if call == 1 {
            let out = DecideBytes {
                ranks,
                commands,
                marks,
                scratch,
                tally: &mut self.tally,
            };
            return calls.decide(plan, out);
        }
        let out = SearchBytes {
            commands,
            scratch,
            answer: &mut self.answer,
        };
        calls.search(plan, self.start, out)
    }
}

/// How long one of `repeats` runs takes.
fn batch(call: usize, repeats: u32, buffers: &mut Buffers, calls: &mut dyn Calls) -> Duration {
    let begun = Instant::now();
    for _ in 0..repeats {
        buffers.run(call, calls);
    }
    begun.elapsed() / repeats
}

/// The best of the batches of the library and of the peer, in microseconds.
fn time(call: usize, buffers: &mut Buffers, peer: &mut Peer) -> [f64; 2] {
    let trials = (0..5).map(|_| batch(call, 1, buffers, &mut Library));
    let once = trials.min().unwrap_or(BATCH).max(Duration::from_nanos(100));
    let repeats = (BATCH.as_nanos() / once.as_nanos()).clamp(1, 1000) as u32;
    let mut best = [Duration::MAX; 2];
    for _ in 0..BATCHES {
        best[0] = best[0].min(batch(call, repeats, buffers, &mut Library));
        best[1] = best[1].min(batch(call, repeats, buffers, peer));
    }
    best.map(|time| time.as_secs_f64() * 1e6)
}

/// A plan that both answered with the same bytes.
pub struct Verified {
    pub name: &'static str,
    pub size: Size,
    pub rounds: usize,
    buffers: Buffers,
}

impl Verified {
    /// The times of the library and of the peer, call by call.
    pub fn times(&mut self, peer: &mut Peer) -> Vec<f64> {
        let calls = 0..CALLS.len();
        calls
            .flat_map(|call| time(call, &mut self.buffers, peer))
            .collect()
    }
}

/// Both must answer, with the same bytes and in the rounds of the plan's shape, and reading must give the tables that the file was
/// written from.
fn verify(plan: Timed, peer: &mut Peer) -> Result<Verified, String> {
    let held = plan.draft.hold();
    let (name, size) = (plan.name, held.size);
    let wrong = |what| Err(format!("{name}, n = {}: {what}", size.n));
    let mut buffers = Buffers::new(&held);
    let mut theirs = buffers.clone();
    for (call, call_name) in CALLS.iter().enumerate() {
        let returned = (buffers.run(call, &mut Library), theirs.run(call, peer));
        if returned != (0, 0) || buffers != theirs || buffers.tables != table_bytes(&held) {
            return wrong(format!("{call_name} gives a wrong answer"));
        }
    }
    let rounds = usize::from(entry(&buffers.answer[2..]));
    if plan.rounds.map_or(false, |told| told != rounds) {
        return wrong(format!(
            "{rounds} rounds, which is not as the plan was made"
        ));
    }
    Ok(Verified {
        name,
        size,
        rounds,
        buffers,
    })
}

/// All plans to be timed.
pub fn verified(peer: &mut Peer) -> Result<Vec<Verified>, String> {
    let plans = timed::plans().into_iter();
    plans.map(|plan| verify(plan, peer)).collect()
}

#[test]
fn the_timed_plans_are_answered() {
    assert_eq!(verified(&mut Peer::new()).err(), None);
}
