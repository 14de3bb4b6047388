//! The contest of 8 moves from state 0: the program `bench_plans` beside the peer, both on tables and with the soundness test.
use super::asked::{self, Question, CONTEST};
use super::beside::{self, Beside};
use crate::generate::contests;
use crate::generate::draft::Held;
use crate::planner::contest::{contest, Space, MOVES};
use crate::planner::looks;
use crate::planner::refusal::Refusal;

/// A plan on which both answered the same.
pub struct Contested {
    plan: Beside,
    answer: Result<bool, Refusal>,
    looks: u64,
}

fn line(answer: Result<bool, Refusal>) -> String {
    match answer {
        Ok(true) => "held\n".to_string(),
        Ok(false) => "not held\n".to_string(),
        Err(refusal) => asked::refused(refusal),
    }
}

impl Contested {
    fn new(name: &'static str, held: Held) -> Contested {
        let mut looks = 0;
        let answer = contest(&held.plan(), 0, MOVES, &mut Space::new(), &mut looks);
        let plan = Beside { name, held };
        Contested {
            plan,
            answer,
            looks,
        }
    }

    /// The program must answer as the peer does, for fewer moves too and for one too many.
    fn verify(&self, program: &str) -> Result<(), String> {
        let plan = self.plan.held.plan();
        let mut space = Space::new();
        let lines = (0..=MOVES + 1).map(|moves| {
            let answer = contest(&plan, 0, moves, &mut space, &mut ());
            (Question::new(CONTEST, 0, moves), line(answer))
        });
        let lines: Vec<_> = lines.collect();
        self.plan.verify(program, &lines)
    }

    pub fn times(&self, program: &str) -> Result<[f64; 2], String> {
        let plan = self.plan.held.plan();
        let mut space = Space::new();
        let question = Question::new(CONTEST, 0, MOVES);
        self.plan.times(program, question, || {
            let answer = contest(&plan, 0, MOVES, &mut space, &mut ());
            assert_eq!(answer, self.answer);
        })
    }

    fn row(&self, times: &[f64]) -> String {
        let (plan, looks) = (self.plan.held.plan(), self.looks);
        let bound = looks::most(&plan, MOVES);
        let plain = short(looks::plain(&plan, 0, MOVES));
        self.plan.row(times) + &format!("  |{looks:>10}{bound:>10}{plain:>10}")
    }
}

/// A large number by its size only.
fn short(number: u128) -> String {
    if number < 100_000_000 {
        number.to_string()
    } else {
        format!("{:.1e}", number as f64)
    }
}

/// All plans on which the contest is timed.
pub fn contested(program: &str) -> Result<Vec<Contested>, String> {
    let plans = contests::plans().into_iter();
    let plans: Vec<Contested> = plans
        .map(|(name, draft)| Contested::new(name, draft.hold()))
        .collect();
    plans.iter().try_for_each(|plan| plan.verify(program))?;
    Ok(plans)
}

fn head() -> String {
    beside::head() + &format!("  |{:>10}{:>10}{:>10}", "looks", "bound", "plain")
}

/// The table, from two times a plan.
pub fn print(plans: &[Contested], times: &[f64], runs: usize) {
    beside::print_how(&format!("the contest of {MOVES} moves from state 0"), runs);
    println!("looks at states, commands and outcomes: the peer's, their bound 9 (n + m + t), and those of plain recursion,");
    println!("which remembers no turn: these are counted and not taken");
    println!();
    println!("{}", head());
    for (plan, times) in plans.iter().zip(times.chunks(2)) {
        println!("{}", plan.row(times));
    }
}
