//! A call of the program `bench_plans` beside the peer's: whether both answer the same, and how long each takes.
use super::asked::{self, Question};
use super::run::BATCHES;
use crate::generate::draft::Held;
use crate::planner::read::{read, Tables};
use std::time::{Duration, Instant};

/// About how long the peer takes for the calls of one run.
const RUN: Duration = Duration::from_millis(20);

/// What every place holds that is lent where times are taken, and all that places hold in turn where answers are compared.
pub const OLD: u16 = 7;
pub const HELD: [u16; 5] = [OLD, 0, 1, 1 << 15, u16::MAX];

/// How many runs there are of each, and of how many calls.
#[derive(Clone, Copy)]
pub struct Runs {
    pub count: usize,
    pub calls: usize,
}

/// A file that both are asked on, a plan's or not.
pub struct File {
    pub name: &'static str,
    pub bytes: Vec<u8>,
}

/// A plan that both are asked on.
pub struct Beside {
    pub name: &'static str,
    pub held: Held,
}

/// How long so many calls of the peer take.
fn peer_time(count: usize, peer: &mut impl FnMut()) -> Duration {
    let begun = Instant::now();
    for _ in 0..count {
        peer();
    }
    begun.elapsed()
}

/// As many calls as take the peer about as long as a run, and no more than a case has questions.
fn calls(peer: &mut impl FnMut()) -> usize {
    let trials = (0..5).map(|_| peer_time(1, peer));
    let once = trials.min().unwrap_or(RUN).max(Duration::from_nanos(1));
    let calls = RUN.as_nanos() / once.as_nanos();
    calls.clamp(1, asked::MOST as u128) as usize
}

impl File {
    /// The line that the program prints of the file.
    fn first_line(&self) -> String {
        match read(&self.bytes, &mut Tables::new()) {
            Ok(size) => format!(
                "read {} {} {} {} same\n",
                size.n, size.m, size.t, size.start
            ),
            Err(refusal) => asked::refused(refusal),
        }
    }

    /// The program must answer each question with its line, and pass over one before it that names no call.
    pub fn verify(&self, program: &str, lines: &[(Question, String)]) -> Result<(), String> {
        let mut questions = Vec::new();
        let mut expected = self.first_line();
        for (question, line) in lines {
            questions.extend([question.of_no_call(), *question]);
            expected.push_str(line);
        }
        if asked::answers(program, &asked::input(&self.bytes, &questions))? == expected {
            Ok(())
        } else {
            Err(format!("{}: {program} gives a wrong answer", self.name))
        }
    }

    /// The times of the program and of the peer, in microseconds a call: the best of the runs, taken by turns. What a run of the program
    /// takes beside its calls, a run takes as well that is asked the other question as often.
    pub fn times(
        &self,
        program: &str,
        questions: [Question; 2],
        runs: Runs,
        mut peer: impl FnMut(),
    ) -> Result<[f64; 2], String> {
        let count = runs.calls;
        let input = |question| asked::input(&self.bytes, &vec![question; count]);
        let [calls, others] = questions.map(input);
        let mut best = [Duration::MAX; 3];
        for _ in 0..runs.count {
            best[0] = best[0].min(asked::time(program, &calls)?);
            best[1] = best[1].min(asked::time(program, &others)?);
            best[2] = best[2].min(peer_time(count, &mut peer));
        }
        let [calls, others, peer] = best.map(|time| time.as_secs_f64() * 1e6 / count as f64);
        Ok([calls - others, peer])
    }
}

impl Beside {
    fn file(&self) -> File {
        File {
            name: self.name,
            bytes: self.held.file(),
        }
    }

    pub fn verify(&self, program: &str, lines: &[(Question, String)]) -> Result<(), String> {
        self.file().verify(program, lines)
    }

    /// The other question names no call.
    pub fn times(
        &self,
        program: &str,
        question: Question,
        mut peer: impl FnMut(),
    ) -> Result<[f64; 2], String> {
        let runs = Runs {
            count: BATCHES,
            calls: calls(&mut peer),
        };
        let questions = [question, question.of_no_call()];
        self.file().times(program, questions, runs, peer)
    }

    /// A row of the table, as far as it is of any call.
    pub fn row(&self, times: &[f64]) -> String {
        let (name, size) = (self.name, self.held.size);
        let (n, m, t) = (size.n, size.m, size.t);
        format!("{name:<14}{n:>5}{m:>6}{t:>7}") + &pair(times)
    }
}

/// The two times of a row, and their ratio.
pub fn pair(times: &[f64]) -> String {
    let (program, peer) = (times[0], times[1]);
    let ratio = program / peer;
    format!("  |{program:>10.2}{peer:>10.2}{ratio:>7.2}")
}

pub fn pair_head() -> String {
    format!("  |{:>10}{:>10}{:>7}", "program", "peer", "ratio")
}

pub fn head() -> String {
    format!("{:<14}{:>5}{:>6}{:>7}", "plan", "n", "m", "t") + &pair_head()
}

/// Says of a table what is timed, and of how many runs it is the best.
pub fn print_what(what: &str, best_of: usize, runs: usize) {
    println!("{what}: microseconds a call of the program bench_plans,");
    println!("of the peer, and program / peer; the best of {best_of} runs of each, by turns, in {runs} run(s);");
}

/// Says of a table what is timed and how.
pub fn print_how(what: &str, runs: usize) {
    let run = RUN.as_millis();
    print_what(&format!("{what}, soundness test included"), BATCHES, runs);
    println!("a run is of as many calls as take the peer about {run} milliseconds; the program's is a process, less one that is asked");
    println!(
        "as often for no call, so that all falls out but the call and the line that it prints;"
    );
}
