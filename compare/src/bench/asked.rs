//! The program `bench_plans`, which is asked on standard input: `crates/bench_plans/src/main.rt` says how.
use crate::planner::plan::Size;
use crate::planner::refusal::Refusal;
use std::io::Write;
use std::process::{Child, Command, Stdio};
use std::time::{Duration, Instant};

/// The contest, as a question names it.
pub const CONTEST: usize = 2;
/// The warning time.
pub const WARNING: usize = 3;
/// Trimming, with all that it was lent printed as well.
pub const TRIMMING: usize = 4;
/// Trimming, with its answer alone.
pub const TRIMMING_ALONE: usize = 5;
/// Carrying back, with every place that it was lent printed as well.
pub const CARRYING: usize = 6;
/// Carrying back, with its answer alone.
pub const CARRYING_ALONE: usize = 7;
/// Names no call: the program reads such a question and goes on.
const NO_CALL: usize = 9;

/// Every question has as many bytes, the call in the first two.
const LENGTH: usize = 18;

/// The most questions of a case: how many there are is told in two bytes.
pub const MOST: usize = 65_535;

#[derive(Clone, Copy)]
pub struct Question {
    bytes: [u8; LENGTH],
}

impl Question {
    fn of(call: usize, rest: &[u8]) -> Question {
        let mut bytes = [0; LENGTH];
        bytes[..2].copy_from_slice(&entries(&[call]));
        bytes[2..2 + rest.len()].copy_from_slice(rest);
        Question { bytes }
    }

    /// A call and its two numbers, the state and the moves or the seconds a move: eight bytes for each, so that it can be one whose low
    /// bits alone would be another.
    pub fn new(call: usize, state: usize, number: usize) -> Question {
        let numbers = [state as u64, number as u64];
        Question::of(call, &numbers.map(u64::to_be_bytes).concat())
    }

    /// Either call of a trimming, how many places are lent of each table, and what each of them holds.
    pub fn trimming(call: usize, places: [usize; 5], holding: u16) -> Question {
        let rest = [entries(&places), entries(&[holding.into()])].concat();
        Question::of(call, &rest)
    }

    /// Either call of carrying back: the old n, how many entries map and table have and how many places are lent, and what each of these
    /// holds.
    pub fn carrying(call: usize, n: usize, lengths: [usize; 3], holding: u16) -> Question {
        let lengths = [entries(&lengths), entries(&[holding.into()])].concat();
        let n = (n as u64).to_be_bytes();
        Question::of(call, &[&n, &lengths[..]].concat())
    }

    /// The same bytes under another call, so that it is passed over.
    pub fn of_no_call(self) -> Question {
        Question::of(NO_CALL, &self.bytes[2..])
    }
}

/// One case: a file, with room for any plan lent, and the questions.
pub fn input(file: &[u8], questions: &[Question]) -> Vec<u8> {
    let room = [Size::STATES, Size::COMMANDS, Size::OUTCOMES];
    let mut numbers = vec![1, file.len()];
    numbers.extend(room);
    numbers.push(questions.len());
    let mut input = entries(&numbers);
    input.extend(file);
    for question in questions {
        input.extend(question.bytes);
    }
    input
}

/// Two bytes each.
fn entries(numbers: &[usize]) -> Vec<u8> {
    let entries = numbers.iter().map(|&number| u16::try_from(number));
    let entries = entries.map(|entry| entry.expect("two bytes hold the number"));
    entries.flat_map(u16::to_be_bytes).collect()
}

/// The line that the program prints of a refusal.
pub fn refused(refusal: Refusal) -> String {
    format!("refused {}\n", refusal.number())
}

fn spawn(program: &str, input: &[u8], output: Stdio) -> std::io::Result<Child> {
    let mut command = Command::new(program);
    let mut child = command.stdin(Stdio::piped()).stdout(output).spawn()?;
    if let Some(mut pipe) = child.stdin.take() {
        pipe.write_all(input)?;
    }
    Ok(child)
}

/// What the program prints.
pub fn answers(program: &str, input: &[u8]) -> Result<String, String> {
    let child = spawn(program, input, Stdio::piped());
    let output = child.and_then(Child::wait_with_output);
    let output = output.map_err(|error| format!("{program}: {error}"))?;
    Ok(String::from_utf8_lossy(&output.stdout).into_owned())
}

/// How long the program runs, from its start to its end.
pub fn time(program: &str, input: &[u8]) -> Result<Duration, String> {
    let begun = Instant::now();
    let ended = spawn(program, input, Stdio::null()).and_then(|mut child| child.wait());
    let time = begun.elapsed();
    match ended {
        Ok(status) if status.success() => Ok(time),
        Ok(_) => Err(format!("{program} has failed")),
        Err(error) => Err(format!("{program}: {error}")),
    }
}

#[test]
fn a_question_has_wide_numbers() {
    let question = Question::new(WARNING, (1 << 48) + 5, 3_600);
    let numbers = [0, 1, 0, 0, 0, 0, 0, 5, 0, 0, 0, 0, 0, 0, 14, 16];
    assert_eq!(question.bytes[..], [&[0, 3], &numbers[..]].concat());
    let passed_over = question.of_no_call().bytes;
    assert_eq!(passed_over[..], [&[0, 9], &numbers[..]].concat());
}

#[test]
fn a_trimming_has_six_numbers_and_is_as_long() {
    let question = Question::trimming(TRIMMING, [1_024, 4_095, 16_384, 1, 0], 32_775);
    let places = [4, 0, 15, 255, 64, 0, 0, 1, 0, 0];
    let numbers = [&places[..], &[128, 7], &[0; 4]].concat();
    assert_eq!(question.bytes[..], [&[0, 4], &numbers[..]].concat());
    let passed_over = question.of_no_call().bytes;
    assert_eq!(passed_over[..], [&[0, 9], &numbers[..]].concat());
}

#[test]
fn carrying_back_has_a_wide_number_and_four_and_is_as_long() {
    let question = Question::carrying(CARRYING, (1 << 48) + 6, [1_024, 1_025, 2_048], 32_775);
    let lengths = [4, 0, 4, 1, 8, 0, 128, 7];
    let numbers = [&[0, 1, 0, 0, 0, 0, 0, 6], &lengths[..]].concat();
    assert_eq!(question.bytes[..], [&[0, 6], &numbers[..]].concat());
}

#[test]
fn a_case_has_its_file_and_all_its_questions() {
    let question = Question::new(CONTEST, 1, 2);
    let input = input(&[8, 9], &vec![question; MOST]);
    let numbers = [0, 1, 0, 2, 4, 0, 16, 0, 64, 0, 255, 255];
    assert_eq!(input[..14], [&numbers[..], &[8, 9]].concat());
    assert_eq!(input.len(), 14 + MOST * LENGTH);
    assert_eq!(input[input.len() - LENGTH..], question.bytes);
}
