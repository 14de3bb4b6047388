//! Trimming: the program `bench_plans` beside the peer, both on tables and with the soundness test.
use super::asked::{self, Question, TRIMMING, TRIMMING_ALONE};
use super::beside::{self, Beside, HELD, OLD};
use super::printed;
use crate::generate::draft::{Draft, Held};
use crate::generate::trims;
use crate::planner::plan::{Plan, Size};
use crate::planner::refusal::Refusal;
use crate::planner::trim::{trim, Lent, Space};

/// The most places that the program lends, of rows, first outcomes, outcomes, map and scratch.
const MOST: [usize; 5] = [
    Size::STATES,
    Size::COMMANDS,
    Size::OUTCOMES,
    Size::STATES,
    Size::STATES,
];

/// A plan on which both answered the same.
pub struct Trimmed {
    plan: Beside,
    answer: Result<Size, Refusal>,
}

fn line(answer: Result<Size, Refusal>) -> String {
    match answer {
        Ok(size) => format!("trimmed {} {} {} {}\n", size.n, size.m, size.t, size.start),
        Err(refusal) => asked::refused(refusal),
    }
}

/// All that the program must print: the answer, the tables as they are left, and of a trimmed plan that it comes back, how it is decided,
/// and its commands for the `n` old states.
fn all_lines(n: usize, answer: Result<Size, Refusal>, lent: &Lent) -> String {
    let goes_on = answer.map(|size| {
        let decided = printed::decided(&lent.plan(size), n, &lent.map[..size.n]);
        format!("again same\n{decided}")
    });
    line(answer) + &printed::lent(lent) + &goes_on.unwrap_or_default()
}

/// Both ways to ask for a trimming with so many places, and what must come of them.
fn asked_for(
    plan: &Plan,
    places: [usize; 5],
    holding: u16,
    space: &mut Space,
) -> [(Question, String); 2] {
    let mut lent = Lent::filled(places, holding);
    let answer = trim(plan, &mut lent, space);
    let alone = Question::trimming(TRIMMING_ALONE, places, holding);
    let all = Question::trimming(TRIMMING, places, holding);
    let lines = all_lines(plan.size.n, answer, &lent);
    [(alone, line(answer)), (all, lines)]
}

/// Each table as long as it must be, each longer, each as long as can be, each one short, scratch for the kept states alone, and none.
fn lengths(needs: [usize; 5]) -> Vec<[usize; 5]> {
    let [rows, firsts, outcomes, map, _] = needs;
    let mut longer = needs;
    for (i, (place, most)) in longer.iter_mut().zip(MOST).enumerate() {
        *place = most.min(*place + 1 + i);
    }
    let kept_alone = [rows, firsts, outcomes, map, map];
    let mut lengths = vec![needs, longer, MOST, kept_alone, [0; 5]];
    for i in (0..needs.len()).filter(|&i| needs[i] > 0) {
        let mut short = needs;
        short[i] -= 1;
        lengths.push(short);
    }
    lengths.sort_unstable();
    lengths.dedup();
    lengths
}

impl Trimmed {
    fn new(name: &'static str, held: Held) -> Trimmed {
        let mut lent = Lent::filled(MOST, OLD);
        let answer = trim(&held.plan(), &mut lent, &mut Space::new());
        let plan = Beside { name, held };
        Trimmed { plan, answer }
    }

    /// The program must answer as the peer does and leave the same in every place, whatever it is lent.
    fn verify(&self, program: &str) -> Result<(), String> {
        let plan = self.plan.held.plan();
        let mut space = Space::new();
        let size = self.answer.unwrap_or_default();
        let needs = [size.n, size.m, size.t, size.n, plan.size.n];
        let lengths = lengths(needs).into_iter().zip(HELD.into_iter().cycle());
        let lines =
            lengths.flat_map(|(places, holding)| asked_for(&plan, places, holding, &mut space));
        let lines: Vec<_> = lines.collect();
        self.plan.verify(program, &lines)
    }

    /// The program fills what it lends before each call, and so is done for the peer.
    pub fn times(&self, program: &str) -> Result<[f64; 2], String> {
        let plan = self.plan.held.plan();
        let mut lent = Lent::filled(MOST, OLD);
        let mut space = Space::new();
        let question = Question::trimming(TRIMMING_ALONE, MOST, OLD);
        self.plan.times(program, question, || {
            lent.fill(OLD);
            let answer = trim(&plan, &mut lent, &mut space);
            assert_eq!(answer, self.answer);
        })
    }

    fn row(&self, times: &[f64]) -> String {
        let answer = line(self.answer);
        self.plan.row(times) + &format!("  |{:>29}", answer.trim_end())
    }
}

/// All plans on which trimming is timed. On a file that is refused the program asks of a plan that is not sound, as one without states is:
/// both must refuse whatever is lent.
pub fn trimmed(program: &str) -> Result<Vec<Trimmed>, String> {
    let plans = trims::plans().into_iter();
    let plans: Vec<Trimmed> = plans
        .map(|(name, draft)| Trimmed::new(name, draft.hold()))
        .collect();
    plans.iter().try_for_each(|plan| plan.verify(program))?;
    Trimmed::new("without states", Draft::new(Vec::new()).hold()).verify(program)?;
    Ok(plans)
}

fn head() -> String {
    beside::head() + &format!("  |{:>29}", "answer")
}

/// The table, from two times a plan.
pub fn print(plans: &[Trimmed], times: &[f64], runs: usize) {
    beside::print_how("trimming", runs);
    println!("in either time all that is lent, tables of the limits' lengths, is filled before each call;");
    println!(
        "the answer is that line: how many states, commands and outcomes are left, and the start"
    );
    println!();
    println!("{}", head());
    for (plan, times) in plans.iter().zip(times.chunks(2)) {
        println!("{}", plan.row(times));
    }
}

/// State 0 is dead, and every table but the map has one place more than it must.
#[test]
fn all_is_printed() {
    use crate::generate::draft::{to, State};
    let mut start = to(&[&[1, 2]]);
    start.practice = 0;
    let mut draft = Draft::new(vec![State::failing(), start, State::rest()]);
    draft.start = 1;
    let (held, mut space) = (draft.hold(), Space::new());
    let [_, (_, lines)] = asked_for(&held.plan(), [3, 2, 3, 2, 4], OLD, &mut space);
    let lent = "rows 0 0 0 2 1 - 7 7 7\nfirsts 0 7\noutcomes 0 1 7\nmap 1 2\nscratch 0 0 0 7\n";
    let decided = "ranks - -\ncommands 0 -\nmarks 0 0\ntally 1 0 1 0 0 0\n";
    let back = "carried\ncommands - 0 -\n";
    assert_eq!(
        lines,
        format!("trimmed 2 1 2 0\n{lent}again same\n{decided}{back}")
    );
    let [_, (_, lines)] = asked_for(&held.plan(), [1, 2, 0, 2, 3], OLD, &mut space);
    let lent = "rows 7 7 7\nfirsts 7 7\noutcomes\nmap 7 7\nscratch 7 7 7\n";
    assert_eq!(lines, format!("refused 9\n{lent}"));
}
