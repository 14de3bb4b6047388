//! The library beside a planner of its own: `check` compares them byte for byte, `times` times them, and
//! `bench` makes tables of the times of several builds of this program. The contest, the warning time, trimming and carrying back, which
//! the library does not have, are asked of the program `bench_plans`.
mod bench;
mod calls;
mod case;
mod check;
mod gate;
mod generate;
mod lent;
mod planner;

use std::env;
use std::process::ExitCode;

const USAGE: &str =
    "usage: compare check [COUNT] [SEED] | replay SEED INDEX | bench BENCH_PLANS PROGRAM... | times BENCH_PLANS";
const COUNT: u64 = 200_000;
const SEED: u64 = 1;

fn number(word: Option<&String>, default: u64) -> Result<u64, String> {
    match word {
        None => Ok(default),
        Some(word) => word.parse().map_err(|_| USAGE.to_string()),
    }
}

fn run(words: &[String]) -> Result<(), String> {
    let name = words.first().map(String::as_str);
    match (name, words.len()) {
        (Some("check"), 1..=3) => {
            let count = number(words.get(1), COUNT)?;
            let seed = number(words.get(2), SEED)?;
            check::check(count, seed)
        }
        (Some("replay"), 3) => {
            let seed = number(words.get(1), SEED)?;
            let index = number(words.get(2), 0)?;
            check::replay(seed, index)
        }
        (Some("bench"), 3..) => bench::bench(&words[1], &words[2..]),
        (Some("times"), 2) => bench::times(&words[1]),
        _ => Err(USAGE.to_string()),
    }
}

fn main() -> ExitCode {
    let words: Vec<String> = env::args().skip(1).collect();
    match run(&words) {
        Ok(()) => ExitCode::SUCCESS,
        Err(message) => {
            eprintln!("{message}");
            ExitCode::FAILURE
        }
    }
}
