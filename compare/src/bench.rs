//! Times the library beside the peer, by turns: the same bytes in, the same bytes out. For the contest, the warning time, trimming and
//! carrying back the program `bench_plans` stands in the library's place.
mod asked;
mod beside;
mod carry;
mod contest;
mod printed;
mod run;
mod trim;
mod warning;

use crate::calls::Peer;
use crate::case::CALLS;
use carry::carried;
use contest::contested;
use run::{verified, Verified, BATCH, BATCHES};
use std::process::{Command, Stdio};
use trim::trimmed;
use warning::warned;

/// From how many states on a ratio is marked, and above what, call by call.
const MARKED_FROM: usize = 256;
const MARKED_ABOVE: [f64; 3] = [1.9, 1.5, 1.5];

fn print_times(times: &[f64]) {
    let words: Vec<String> = times.iter().map(f64::to_string).collect();
    println!("{}", words.join(" "));
}

/// The times of a call that the program `bench_plans` is asked for.
fn print_pairs(pairs: impl Iterator<Item = Result<[f64; 2], String>>) -> Result<(), String> {
    for pair in pairs {
        print_times(&pair?);
    }
    Ok(())
}

/// One run: for each plan a line of times, and then for each plan of the contest, of the warning time and of trimming, and for each map of
/// carrying back.
pub fn times(bench_plans: &str) -> Result<(), String> {
    let mut peer = Peer::new();
    for mut plan in verified(&mut peer)? {
        print_times(&plan.times(&mut peer));
    }
    let contests = contested(bench_plans)?;
    print_pairs(contests.iter().map(|plan| plan.times(bench_plans)))?;
    let warnings = warned(bench_plans)?;
    print_pairs(warnings.iter().map(|plan| plan.times(bench_plans)))?;
    let trims = trimmed(bench_plans)?;
    print_pairs(trims.iter().map(|plan| plan.times(bench_plans)))?;
    let maps = carried(bench_plans)?;
    print_pairs(maps.iter().map(|map| map.times(bench_plans)))
}

/// The times of a run of a program that has the same plans.
fn times_of(program: &str, bench_plans: &str) -> Result<Vec<f64>, String> {
    let mut command = Command::new(program);
    command.args(["times", bench_plans]);
    let output = command.stderr(Stdio::inherit()).output();
    let output = output.map_err(|error| format!("{program}: {error}"))?;
    if !output.status.success() {
        return Err(format!("{program} has failed"));
    }
    let text = String::from_utf8_lossy(&output.stdout);
    let times: Result<_, _> = text.split_whitespace().map(str::parse).collect();
    times.map_err(|_| format!("{program} printed something else than times"))
}

/// The least of each of so many times over the programs.
fn least(programs: &[String], bench_plans: &str, count: usize) -> Result<Vec<f64>, String> {
    let mut least = vec![f64::MAX; count];
    for program in programs {
        let times = times_of(program, bench_plans)?;
        if times.len() != least.len() {
            return Err(format!("{program} has other plans"));
        }
        for (least, time) in least.iter_mut().zip(times) {
            *least = least.min(time);
        }
    }
    Ok(least)
}

fn row(plan: &Verified, times: &[f64]) -> String {
    let (name, n, rounds) = (plan.name, plan.size.n, plan.rounds);
    let (m, t) = (plan.size.m, plan.size.t);
    let mut line = format!("{name:<14}{n:>5}{m:>6}{t:>7}{rounds:>8}");
    let mut marks = String::new();
    for (call, pair) in times.chunks_exact(2).enumerate() {
        let (library, peer) = (pair[0], pair[1]);
        let ratio = library / peer;
        line.push_str(&format!("  |{library:>10.2}{peer:>10.2}{ratio:>7.2}"));
        if n >= MARKED_FROM && ratio > MARKED_ABOVE[call] {
            marks.push_str(&format!("  <-- {}", CALLS[call]));
        }
    }
    line + &marks
}

fn head() -> String {
    let calls = CALLS.map(|name| format!("  |{name:>10}{:>10}{:>7}", "peer", "ratio"));
    let plan = format!(
        "{:<14}{:>5}{:>6}{:>7}{:>8}",
        "plan", "n", "m", "t", "rounds"
    );
    plan + &calls.concat()
}

/// The table of the three calls, from six times a plan.
fn print(plans: &[Verified], times: &[f64], runs: usize) {
    println!("microseconds a call: library, peer, and library / peer; the best of {BATCHES} batches of each, by turns, in {runs} run(s);");
    println!("a batch repeats the call for about {} microseconds; buffers are warm and not cleared in between;", BATCH.as_micros());
    let bounds = CALLS.iter().zip(MARKED_ABOVE);
    let bounds: Vec<String> = bounds
        .map(|(name, above)| format!("{name} {above}"))
        .collect();
    println!(
        "<-- is a ratio above its bound from n = {MARKED_FROM} on: {}",
        bounds.join(", ")
    );
    println!();
    println!("{}", head());
    for (plan, times) in plans.iter().zip(times.chunks(2 * CALLS.len())) {
        println!("{}", row(plan, times));
    }
}

/// Runs each of the programs once.
pub fn bench(bench_plans: &str, programs: &[String]) -> Result<(), String> {
    let plans = verified(&mut Peer::new())?;
    let contests = contested(bench_plans)?;
    let warnings = warned(bench_plans)?;
    let trims = trimmed(bench_plans)?;
    let maps = carried(bench_plans)?;
    let runs = programs.len();
    let of_calls = 2 * CALLS.len() * plans.len();
    let of_contests = 2 * contests.len();
    let of_warnings = 2 * warnings.len();
    let of_trims = 2 * trims.len();
    let of_maps = 2 * maps.len();
    let count = of_calls + of_contests + of_warnings + of_trims + of_maps;
    let least = least(programs, bench_plans, count)?;
    let (call_times, others) = least.split_at(of_calls);
    let (contest_times, others) = others.split_at(of_contests);
    let (warning_times, others) = others.split_at(of_warnings);
    let (trim_times, map_times) = others.split_at(of_trims);
    print(&plans, call_times, runs);
    println!();
    contest::print(&contests, contest_times, runs);
    println!();
    warning::print(&warnings, warning_times, runs);
    println!();
    trim::print(&trims, trim_times, runs);
    println!();
    carry::print(&maps, map_times, runs);
    Ok(())
}
