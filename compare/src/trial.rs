//! Tries a program against this reader and tells what it found.

use crate::apart::without_each;
use crate::case::{Answer, Case};
use crate::demand::demand;
use crate::generate::NUMBERS;
use crate::program::{Program, Run};
use crate::shrink::shrink;
use crate::table::Elements;
use std::collections::BTreeMap;
use std::fmt;
use std::time::Duration;

/// The longest a program may take over all cases, over one case, and the longest shrinking.
const ALL_CASES: Duration = Duration::from_secs(900);
const ONE_CASE: Duration = Duration::from_secs(10);
const SHRINKING: Duration = Duration::from_secs(60);

/// What agreed so far.
#[derive(Default)]
pub struct Tally {
    cases: usize,
    numbers: BTreeMap<u64, usize>,
    pairs_with: usize,
    pairs_without: usize,
    packets_removed: usize,
    second_homes: usize,
    slots_forgotten: usize,
    content_ends: usize,
    bounds_in_bytes: usize,
}

impl Tally {
    fn count(&mut self, case: &Case, answer: &Answer) {
        self.cases += 1;
        self.count_elements(case, answer);
        self.count_bounds(case, answer);
        *self.numbers.entry(answer.reading.number).or_default() += 1;
        if answer.check.0 != 0 {
            *self.numbers.entry(answer.check.0).or_default() += 1;
        }
    }

    /// Counts 11 and 26 where they come of what elements forget: if these remembered, the answer
    /// would be another.
    fn count_elements(&mut self, case: &Case, answer: &Answer) {
        let (refused, unset) = (answer.check.0 == 11, answer.reading.number == 26);
        if refused || unset {
            let otherwise = case.answer_by(Elements::Remember);
            self.second_homes += (refused && otherwise.check != answer.check) as usize;
            self.slots_forgotten += (unset && otherwise.reading != answer.reading) as usize;
        }
    }

    /// Counts 22 where the place tells the content's end from the stream's, and where it is no
    /// whole byte.
    fn count_bounds(&mut self, case: &Case, answer: &Answer) {
        let (number, place) = (answer.reading.number, answer.reading.place);
        self.content_ends += (number == 22 && place < 8 * case.stream.len() as u64) as usize;
        self.bounds_in_bytes += (number == 22 && place % 8 != 0) as usize;
    }

    fn times(&self, number: u64) -> usize {
        self.numbers.get(&number).copied().unwrap_or(0)
    }

    /// The numbers that occurred fewer than `each` times.
    pub fn rarer_than(&self, each: usize) -> Vec<u64> {
        let all = std::iter::once(0).chain(NUMBERS);
        all.filter(|&number| self.times(number) < each).collect()
    }

    /// How many pairs of a stream and that stream without one of its packets were tried.
    pub fn packets_removed(&self) -> usize {
        self.packets_removed
    }

    /// How many tables were refused as 11 for a class that sets a slot from a second home.
    pub fn second_homes(&self) -> usize {
        self.second_homes
    }

    /// How many readings were refused as 26 for a slot that was set in an element that is over.
    pub fn slots_forgotten(&self) -> usize {
        self.slots_forgotten
    }

    /// How many readings were refused as 22 at a content's end before the stream's.
    pub fn content_ends(&self) -> usize {
        self.content_ends
    }

    /// How many readings were refused as 22 at a bound inside a byte.
    pub fn bounds_in_bytes(&self) -> usize {
        self.bounds_in_bytes
    }
}

impl fmt::Display for Tally {
    fn fmt(&self, f: &mut fmt::Formatter) -> fmt::Result {
        writeln!(f, "{} cases agreed", self.cases)?;
        for (index, number) in std::iter::once(0).chain(NUMBERS).enumerate() {
            let end = if index % 8 == 7 { "\n" } else { "  " };
            write!(f, "{number:>2}: {:<7}{end}", self.times(number))?;
        }
        writeln!(f)?;
        let (with, without) = (self.pairs_with, self.pairs_without);
        writeln!(
            f,
            "classes left out: {with} pairs where one was found, {without} where none was"
        )?;
        writeln!(f, "packets removed: {} pairs", self.packets_removed)?;
        let (homes, forgotten) = (self.second_homes, self.slots_forgotten);
        writeln!(
            f,
            "slots of elements: {homes} of a second home (11), {forgotten} forgotten (26)"
        )?;
        let (ends, inside) = (self.content_ends, self.bounds_in_bytes);
        writeln!(f, "bounds crossed (22): {ends} before the stream's end, {inside} inside a byte")
    }
}

/// Runs the program over the cases; false, after a report, if something differs.
pub fn try_cases(program: &Program, cases: &[Case], tally: &mut Tally) -> bool {
    let Run { answers, fault } = program.run(cases, ALL_CASES);
    for (index, (case, answer)) in cases.iter().zip(&answers).enumerate() {
        if *answer != case.answer() {
            println!("case {index} differs");
            report(program, case);
            return false;
        }
        tally.count(case, answer);
        if let (Some(left_out), Some(before)) = (&case.left_out, index.checked_sub(1)) {
            match demand(&answers[before], answer, left_out) {
                Ok(true) => tally.pairs_with += 1,
                Ok(false) => tally.pairs_without += 1,
                Err(fault) => {
                    println!("cases {before} and {index}, classes left out: {fault}\n{left_out:?}");
                    print!("full\n{}short\n{}", shown(&cases[before]), shown(case));
                    print!("full answer\n{}short answer\n{}", text(&answers[before]), text(answer));
                    return false;
                }
            }
        }
    }
    let Some(fault) = fault else { return try_without(program, cases, &answers, tally) };
    println!("{fault}; {} of {} answers came", answers.len(), cases.len());
    // Answers may be lost in a buffer, so the case that ended it may be a later one.
    let at_fault = cases[answers.len()..].iter().find(|case| differs(program, case));
    if let Some(case) = at_fault {
        report(program, case);
    }
    false
}

/// Runs the program over each accepted case without each of its packets; false, after a report,
/// if an answer is not the one that is due.
fn try_without(program: &Program, cases: &[Case], answers: &[Answer], tally: &mut Tally) -> bool {
    let all = cases.iter().zip(answers).enumerate();
    let pairs: Vec<(usize, Case, Answer)> = all
        .flat_map(|(index, (case, full))| {
            without_each(case, full).into_iter().map(move |(shorter, due)| (index, shorter, due))
        })
        .collect();
    let shorter: Vec<Case> = pairs.iter().map(|(_, shorter, _)| shorter.clone()).collect();
    let Run { answers: given, fault } = program.run(&shorter, ALL_CASES);
    for ((index, shorter, due), answer) in pairs.iter().zip(&given) {
        if answer != due || *answer != shorter.answer() {
            println!("case {index} with a packet removed");
            print!("whole\n{}removed\n{}", shown(&cases[*index]), shown(shorter));
            print!("due\n{}answer\n{}", text(due), text(answer));
            return false;
        }
        tally.packets_removed += 1;
    }
    if let Some(fault) = fault {
        println!("{fault}; {} of {} answers came, packets removed", given.len(), shorter.len());
        return false;
    }
    true
}

fn single(program: &Program, case: &Case) -> Result<Answer, String> {
    let Run { mut answers, fault } = program.run(std::slice::from_ref(case), ONE_CASE);
    match (answers.pop(), fault) {
        (Some(answer), None) => Ok(answer),
        (_, fault) => Err(fault.unwrap_or_default()),
    }
}

fn differs(program: &Program, case: &Case) -> bool {
    single(program, case) != Ok(case.answer())
}

/// Shrinks a case that differs and prints it with both answers.
fn report(program: &Program, case: &Case) {
    let small = match differs(program, case) {
        true => shrink(case, SHRINKING, |candidate| differs(program, candidate)),
        false => {
            println!("it does not differ when run alone");
            case.clone()
        }
    };
    print!("{}", shown(&small));
    print!("this reader\n{}", text(&small.answer()));
    match single(program, &small) {
        Ok(answer) => print!("the program\n{}", text(&answer)),
        Err(fault) => println!("the program\n{fault}"),
    }
}

fn text(answer: &Answer) -> String {
    let mut text = String::new();
    answer.write(&mut text);
    text
}

fn shown(case: &Case) -> String {
    let hex = |bytes: &[u8]| bytes.iter().map(|byte| format!("{byte:02x}")).collect::<String>();
    format!("table {}\nstream {}\nroom {}\n", hex(&case.table), hex(&case.stream), case.words)
}
