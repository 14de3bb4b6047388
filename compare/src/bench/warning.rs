//! The warning time of a plan's start: the program `bench_plans` beside the peer, both on tables and with the soundness test.
use super::asked::{self, Question, WARNING};
use super::beside::{self, Beside};
use crate::generate::draft::{Draft, Held};
use crate::generate::warnings;
use crate::planner::refusal::Refusal;
use crate::planner::warning::{warning, Space, Warning, LONGEST_MOVE};

/// The seconds a move that are timed.
const LENGTH: usize = 60;

/// A plan on which both answered the same.
pub struct Warned {
    plan: Beside,
    answer: Result<Warning, Refusal>,
}

fn line(answer: Result<Warning, Refusal>) -> String {
    match answer {
        Ok(Warning::Time { minutes, seconds }) => format!("time {minutes} {seconds}\n"),
        Ok(Warning::NoLimit) => "no limit\n".to_string(),
        Err(refusal) => asked::refused(refusal),
    }
}

/// The plan's start and others, and states that it does not have: most large ones would be state 0 to who drops high bits.
fn states(held: &Held) -> Vec<usize> {
    let (n, start) = (held.size.n, held.size.start);
    let far = [n, n + 1, 1 << 16, 1 << 32, 1 << 48, usize::MAX];
    let mut states = vec![0, start, n / 3, n / 2, n.saturating_sub(1)];
    states.extend(far);
    states
}

/// Both ends of what is allowed, lengths about a minute, and some that are refused: most large ones would be a minute to who drops high
/// bits.
fn lengths() -> Vec<usize> {
    let mut lengths = vec![
        0,
        1,
        59,
        60,
        61,
        LONGEST_MOVE - 1,
        LONGEST_MOVE,
        LONGEST_MOVE + 1,
    ];
    lengths.extend([16, 32, 48].map(|bits| (1 << bits) + LENGTH));
    lengths.push(usize::MAX);
    lengths
}

impl Warned {
    fn new(name: &'static str, held: Held) -> Warned {
        let answer = warning(&held.plan(), held.size.start, LENGTH, &mut Space::new());
        let plan = Beside { name, held };
        Warned { plan, answer }
    }

    /// The program must answer as the peer does, for other states and lengths too.
    fn verify(&self, program: &str) -> Result<(), String> {
        let plan = self.plan.held.plan();
        let mut space = Space::new();
        let states = states(&self.plan.held).into_iter();
        let pairs = states.flat_map(|s| lengths().into_iter().map(move |length| (s, length)));
        let lines = pairs.map(|(s, length)| {
            let answer = warning(&plan, s, length, &mut space);
            (Question::new(WARNING, s, length), line(answer))
        });
        let lines: Vec<_> = lines.collect();
        self.plan.verify(program, &lines)
    }

    pub fn times(&self, program: &str) -> Result<[f64; 2], String> {
        let plan = self.plan.held.plan();
        let start = plan.size.start;
        let mut space = Space::new();
        let question = Question::new(WARNING, start, LENGTH);
        self.plan.times(program, question, || {
            let answer = warning(&plan, start, LENGTH, &mut space);
            assert_eq!(answer, self.answer);
        })
    }

    fn row(&self, times: &[f64]) -> String {
        let answer = line(self.answer);
        self.plan.row(times) + &format!("  |{:>13}", answer.trim_end())
    }
}

/// All plans on which the warning time is timed. On a file that is refused the program asks of a plan that is not sound, as one without
/// states is: both must refuse whatever is asked.
pub fn warned(program: &str) -> Result<Vec<Warned>, String> {
    let plans = warnings::plans().into_iter();
    let plans: Vec<Warned> = plans
        .map(|(name, draft)| Warned::new(name, draft.hold()))
        .collect();
    plans.iter().try_for_each(|plan| plan.verify(program))?;
    Warned::new("without states", Draft::new(Vec::new()).hold()).verify(program)?;
    Ok(plans)
}

fn head() -> String {
    beside::head() + &format!("  |{:>13}", "answer")
}

/// The table, from two times a plan.
pub fn print(plans: &[Warned], times: &[f64], runs: usize) {
    let what = format!("the warning time of the start at {LENGTH} seconds a move");
    beside::print_how(&what, runs);
    println!("the answer is that line: whole minutes and the seconds left over, or no limit");
    println!();
    println!("{}", head());
    for (plan, times) in plans.iter().zip(times.chunks(2)) {
        println!("{}", plan.row(times));
    }
}
