//! Tries a program's bundles against this reader's, and what a bundle must be:
//! cut again with the same streams it stays as it is, and every list too; without
//! any one of its classes some list is another.

use crate::bundle::{next_bundled, write_bundlings, Bundled, Bundling, Classes};
use crate::make_bundle::make_bundlings;
use crate::program::Program;
use std::collections::BTreeMap;
use std::fmt;
use std::time::Duration;

/// The longest a program may take over all cases.
const ALL_CASES: Duration = Duration::from_secs(900);

/// What agreed so far.
#[derive(Default)]
pub struct BundleTally {
    cases: usize,
    numbers: BTreeMap<u64, usize>,
    again: usize,
    classes_cut: usize,
    classes_needed: usize,
    ids_apart: usize,
}

impl BundleTally {
    /// How many bundles were written, and then read with every stream.
    pub fn again(&self) -> usize {
        self.again
    }

    pub fn times(&self, number: u64) -> usize {
        self.numbers.get(&number).copied().unwrap_or(0)
    }

    /// How many bundles lack an event class whose id they have in another stream class.
    pub fn ids_apart(&self) -> usize {
        self.ids_apart
    }

    fn count(&mut self, case: &Bundling, answer: &Bundled) {
        self.cases += 1;
        *self.numbers.entry(answer.number).or_default() += 1;
        if answer.number == 0 {
            let (all, kept) = (Classes::of(&case.table), Classes::of(bundle_in(answer)));
            let mut cut = all.events.difference(&kept.events);
            let elsewhere = |id: u64| kept.events.iter().any(|&(_, kept)| kept == id);
            self.ids_apart += cut.any(|&(_, id)| elsewhere(id)) as usize;
            self.classes_cut += all.streams.len() + all.events.len();
            self.classes_cut -= kept.streams.len() + kept.events.len();
        }
    }
}

impl fmt::Display for BundleTally {
    fn fmt(&self, f: &mut fmt::Formatter) -> fmt::Result {
        let [refused, many, short] = [20, 44, 45].map(|number| self.times(number));
        writeln!(
            f,
            "{} bundles agreed: {} written, {refused} by 20, {many} by 44, {short} by 45",
            self.cases,
            self.times(0)
        )?;
        writeln!(
            f,
            "each written one cut again: {}; {} classes cut, {} needed, one by one; {} bundles with an id in one stream class and not in another",
            self.again, self.classes_cut, self.classes_needed, self.ids_apart
        )
    }
}

fn bundle_in(answer: &Bundled) -> &[u8] {
    &answer.buffer[..answer.length as usize]
}

fn ask(program: &Program, cases: &[Bundling]) -> Result<Vec<Bundled>, String> {
    let (text, fault) = program.ask(write_bundlings(cases), ALL_CASES);
    let mut lines = text.lines();
    let answers: Vec<Bundled> =
        std::iter::from_fn(|| next_bundled(&mut lines)).take(cases.len()).collect();
    match fault {
        Some(fault) => Err(fault),
        None if answers.len() < cases.len() || lines.next().is_some() => {
            Err(format!("{} of {} answers came", answers.len(), cases.len()))
        }
        None => Ok(answers),
    }
}

/// Asks the program, and holds each answer to this reader's.
fn agreed(program: &Program, cases: &[Bundling]) -> Result<Vec<Bundled>, String> {
    let answers = ask(program, cases)?;
    for (index, (case, answer)) in cases.iter().zip(&answers).enumerate() {
        let due = case.answer();
        if *answer != due {
            let case = smaller(program, case);
            let given = ask(program, std::slice::from_ref(&case));
            let (shown, due) = (case.shown(), case.answer());
            return Err(format!(
                "bundle {index} differs\n{shown}this reader\n{due:?}\nthe program\n{given:?}"
            ));
        }
    }
    Ok(answers)
}

/// The case without such streams as do not matter to the difference.
fn smaller(program: &Program, case: &Bundling) -> Bundling {
    let differs = |case: &Bundling| {
        ask(program, std::slice::from_ref(case)).map_or(true, |given| given[0] != case.answer())
    };
    let mut best = case.clone();
    for index in (0..case.lengths.len()).rev() {
        let mut less = best.clone();
        let start: usize = best.lengths[..index].iter().sum();
        let end = start.saturating_add(best.lengths[index]).min(best.streams.len());
        less.streams.drain(start.min(end)..end);
        less.lengths.remove(index);
        if index < less.rooms.len() {
            less.rooms.remove(index);
        }
        if differs(&less) {
            best = less;
        }
    }
    best
}

/// Runs the program over the cases; says what is wrong, if something is.
pub fn try_bundles(
    program: &Program,
    cases: &[Bundling],
    tally: &mut BundleTally,
) -> Result<(), String> {
    let answers = agreed(program, cases)?;
    cases.iter().zip(&answers).for_each(|(case, answer)| tally.count(case, answer));
    let written: Vec<(&Bundling, &Bundled)> =
        cases.iter().zip(&answers).filter(|(_, answer)| answer.number == 0).collect();

    let again: Vec<Bundling> = written
        .iter()
        .map(|(case, answer)| Bundling {
            table: bundle_in(answer).to_vec(),
            buffer: answer.length as usize,
            ..(*case).clone()
        })
        .collect();
    for ((_, first), (case, second)) in
        written.iter().zip(again.iter().zip(agreed(program, &again)?))
    {
        if second.number != 0 || second.buffer != bundle_in(first) || second.list != first.list {
            return Err(format!("a bundle does not read alike\n{}", case.shown()));
        }
        tally.again += 1;
    }

    let less: Vec<(&Bundled, Bundling)> = written
        .iter()
        .zip(&again)
        .flat_map(|((_, first), case)| {
            let each = Classes::of(&case.table).less_each().into_iter();
            each.map(move |less| {
                (*first, Bundling { table: less.only_these(&case.table), ..case.clone() })
            })
        })
        .collect();
    let asked: Vec<Bundling> = less.iter().map(|(_, case)| case.clone()).collect();
    for ((first, case), answer) in less.iter().zip(agreed(program, &asked)?) {
        if answer.number != 0 || answer.list == first.list {
            return Err(format!("a class of a bundle is not needed\n{}", case.shown()));
        }
        tally.classes_needed += 1;
    }
    Ok(())
}

/// The same on cases that are made here; false, after a report, if something is wrong.
pub fn try_seed(program: &Program, seed: u64, count: usize, tally: &mut BundleTally) -> bool {
    let tried = try_bundles(program, &make_bundlings(seed, count), tally);
    tried.map_err(|fault| println!("seed {seed}, {count} bundles: {fault}")).is_ok()
}
