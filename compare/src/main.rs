//! `compare answers`, `compare apart`, `compare cases`, `compare run` and `compare soak`; of bundles the same but `apart`.

use compare::apart::{next_removal, without};
use compare::bundle::{next_bundling, write_bundlings};
use compare::bundle_trial::{try_seed, BundleTally};
use compare::case::{next_case, write_file, Answer, Case};
use compare::generate::generate;
use compare::make_bundle::make_bundlings;
use compare::program::Program;
use compare::trial::{try_cases, Tally};
use std::io::{Read, Write};
use std::process::ExitCode;
use std::time::{Duration, Instant, SystemTime, UNIX_EPOCH};

const USE: &str = "use:
  compare answers < case file
  compare apart PROGRAM [ARGS...] < file of cases, each with the number of a packet
  compare cases SEED COUNT > case file
  compare run [--each N] [--removed N] [--elements N] [--bounds N] SEED COUNT PROGRAM [ARGS...]
  compare soak SECONDS PROGRAM [ARGS...]
  compare bundle-answers < file of shared bundle cases
  compare bundle-cases SEED COUNT > file of whole bundle cases
  compare bundle-run [--each N] [--apart N] SEED COUNT PROGRAM [ARGS...]
  compare bundle-soak SECONDS PROGRAM [ARGS...]";

const BATCH: usize = 1000;

fn main() -> ExitCode {
    let args: Vec<String> = std::env::args().skip(1).collect();
    let words: Vec<&str> = args.iter().map(String::as_str).collect();
    let done = match words[..] {
        ["answers"] => answers(),
        ["apart", ref program @ ..] => apart(program),
        ["cases", seed, count] => cases(seed, count),
        ["run", ref rest @ ..] => run(rest),
        ["soak", seconds, ref program @ ..] => soak(seconds, program),
        ["bundle-answers"] => bundle_answers(),
        ["bundle-cases", seed, count] => bundle_cases(seed, count),
        ["bundle-run", ref rest @ ..] => bundle_run(rest),
        ["bundle-soak", seconds, ref program @ ..] => bundle_soak(seconds, program),
        _ => None,
    };
    done.unwrap_or_else(|| {
        eprintln!("{USE}");
        ExitCode::from(2)
    })
}

fn program(words: &[&str]) -> Option<Program> {
    let (name, args) = words.split_first()?;
    Some(Program { name: name.to_string(), args: args.iter().map(|arg| arg.to_string()).collect() })
}

/// Answers each case that `next` takes from the file on standard input.
fn answer_each<Case>(
    next: impl Fn(&mut &[u8]) -> Option<Case>,
    answer: impl Fn(&Case, &mut String),
) -> Option<ExitCode> {
    let mut file = Vec::new();
    let mut output = std::io::stdout().lock();
    if let Err(error) = std::io::stdin().lock().read_to_end(&mut file) {
        eprintln!("the case file could not be read: {error}");
        return Some(ExitCode::FAILURE);
    }
    let mut rest = &file[..];
    let mut text = String::new();
    while let Some(case) = next(&mut rest) {
        text.clear();
        answer(&case, &mut text);
        if output.write_all(text.as_bytes()).is_err() {
            return Some(ExitCode::FAILURE);
        }
    }
    if !rest.is_empty() {
        eprintln!("the case file is cut");
        return Some(ExitCode::FAILURE);
    }
    Some(ExitCode::SUCCESS)
}

fn answers() -> Option<ExitCode> {
    answer_each(next_case, |case, text| case.answer().write(text))
}

fn bundle_answers() -> Option<ExitCode> {
    answer_each(next_bundling, |case, text| case.write_readings(text))
}

/// What the program reads of each stream without a packet, which is cut out by the program's own
/// list: the reading and its entries.
fn apart(words: &[&str]) -> Option<ExitCode> {
    let program = program(words)?;
    let mut file = Vec::new();
    if let Err(error) = std::io::stdin().lock().read_to_end(&mut file) {
        eprintln!("the file of cases could not be read: {error}");
        return Some(ExitCode::FAILURE);
    }
    let mut rest = &file[..];
    let removals: Vec<(Case, usize)> = std::iter::from_fn(|| next_removal(&mut rest)).collect();
    if !rest.is_empty() {
        eprintln!("the file of cases is cut");
        return Some(ExitCode::FAILURE);
    }
    let (full, numbers): (Vec<Case>, Vec<usize>) = removals.into_iter().unzip();
    let Some(lists) = answers_of(&program, &full) else { return Some(ExitCode::FAILURE) };
    let triples = full.iter().zip(&lists).zip(numbers);
    let shorter: Option<Vec<Case>> =
        triples.map(|((case, answer), number)| without(case, answer, number)).collect();
    let Some(shorter) = shorter else {
        eprintln!("a case's list does not show its packet");
        return Some(ExitCode::FAILURE);
    };
    let Some(answers) = answers_of(&program, &shorter) else { return Some(ExitCode::FAILURE) };
    let mut text = String::new();
    answers.iter().for_each(|answer| answer.write_reading(&mut text));
    written(text.as_bytes())
}

fn answers_of(program: &Program, cases: &[Case]) -> Option<Vec<Answer>> {
    let run = program.run(cases, Duration::from_secs(60));
    if let Some(fault) = run.fault {
        eprintln!("{fault}");
        return None;
    }
    Some(run.answers)
}

fn written(file: &[u8]) -> Option<ExitCode> {
    let written = std::io::stdout().lock().write_all(file);
    Some(if written.is_ok() { ExitCode::SUCCESS } else { ExitCode::FAILURE })
}

fn cases(seed: &str, count: &str) -> Option<ExitCode> {
    written(&write_file(&generate(seed.parse().ok()?, count.parse().ok()?)))
}

fn bundle_cases(seed: &str, count: &str) -> Option<ExitCode> {
    written(&write_bundlings(&make_bundlings(seed.parse().ok()?, count.parse().ok()?)))
}

/// What a run must reach: each number so often, so many packets removed, so many refusals of each
/// sort that come of the slots of array elements, so many of each sort of bound that is crossed.
#[derive(Default)]
struct Least {
    each: usize,
    removed: usize,
    elements: usize,
    bounds: usize,
}

fn run(mut words: &[&str]) -> Option<ExitCode> {
    let mut least = Least::default();
    while let [option, number, rest @ ..] = words {
        let wanted = match *option {
            "--each" => &mut least.each,
            "--removed" => &mut least.removed,
            "--elements" => &mut least.elements,
            "--bounds" => &mut least.bounds,
            _ => break,
        };
        *wanted = number.parse().ok()?;
        words = rest;
    }
    let [seed, count, ref words @ ..] = *words else { return None };
    let program = program(words)?;
    let (seed, count): (u64, usize) = (seed.parse().ok()?, count.parse().ok()?);
    println!("seed {seed}");
    let mut tally = Tally::default();
    if !try_cases(&program, &generate(seed, count), &mut tally) {
        return Some(ExitCode::FAILURE);
    }
    print!("{tally}");
    let Least { each, removed, elements, bounds } = least;
    let rare = tally.rarer_than(each);
    if !rare.is_empty() {
        println!("occurred fewer than {each} times: {rare:?}");
        return Some(ExitCode::FAILURE);
    }
    if tally.packets_removed() < removed {
        println!("fewer than {removed} packets removed");
        return Some(ExitCode::FAILURE);
    }
    if tally.second_homes() < elements || tally.slots_forgotten() < elements {
        println!("fewer than {elements} slots of a second home, or forgotten ones read");
        return Some(ExitCode::FAILURE);
    }
    if tally.content_ends() < bounds || tally.bounds_in_bytes() < bounds {
        println!("fewer than {bounds} bounds crossed before the stream's end, or inside a byte");
        return Some(ExitCode::FAILURE);
    }
    Some(ExitCode::SUCCESS)
}

/// The bundles agree, each number that a bundle can get came so often, and so many bundles tell
/// event classes of one id apart.
fn bundle_run(mut words: &[&str]) -> Option<ExitCode> {
    let (mut each, mut apart) = (0, 0);
    while let [option, number, rest @ ..] = words {
        let wanted = match *option {
            "--each" => &mut each,
            "--apart" => &mut apart,
            _ => break,
        };
        *wanted = number.parse().ok()?;
        words = rest;
    }
    let [seed, count, ref words @ ..] = *words else { return None };
    let program = program(words)?;
    let (seed, count): (u64, usize) = (seed.parse().ok()?, count.parse().ok()?);
    println!("seed {seed}");
    let mut tally = BundleTally::default();
    if !try_seed(&program, seed, count, &mut tally) {
        return Some(ExitCode::FAILURE);
    }
    print!("{tally}");
    if [0, 20, 44, 45].iter().any(|&number| tally.times(number) < each) || tally.ids_apart() < apart
    {
        println!("a number came fewer than {each} times, or an id stood apart fewer than {apart}");
        return Some(ExitCode::FAILURE);
    }
    Some(ExitCode::SUCCESS)
}

/// Tries one fresh seed after another until the time is over, or one fails and has said so.
fn soak_by(seconds: &str, mut try_one: impl FnMut(u64) -> bool) -> Option<ExitCode> {
    let limit = Duration::from_secs(seconds.parse().ok()?);
    let start = Instant::now();
    let mut seed =
        SystemTime::now().duration_since(UNIX_EPOCH).map_or(1, |now| now.as_nanos() as u64);
    while start.elapsed() < limit {
        if !try_one(seed) {
            return Some(ExitCode::FAILURE);
        }
        seed = seed.wrapping_add(1);
    }
    Some(ExitCode::SUCCESS)
}

fn soak(seconds: &str, words: &[&str]) -> Option<ExitCode> {
    let program = program(words)?;
    let mut tally = Tally::default();
    let ended = soak_by(seconds, |seed| {
        let agree = try_cases(&program, &generate(seed, BATCH), &mut tally);
        if !agree {
            println!("seed {seed}, {BATCH} cases");
        }
        agree
    })?;
    print!("{tally}");
    Some(ended)
}

fn bundle_soak(seconds: &str, words: &[&str]) -> Option<ExitCode> {
    let program = program(words)?;
    let mut tally = BundleTally::default();
    let ended = soak_by(seconds, |seed| try_seed(&program, seed, BATCH, &mut tally))?;
    print!("{tally}");
    Some(ended)
}
