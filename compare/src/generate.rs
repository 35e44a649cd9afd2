//! Makes the cases of a run.

use crate::case::{Case, LeftOut};
use crate::corners::corner;
use crate::damage::{damage_stream, damage_table, damage_towards};
use crate::edges;
use crate::elements::element_case;
use crate::encode::encode;
use crate::make_table::make_table;
use crate::random::Random;
use crate::reader::WORDS_PER_ENTRY;
use crate::records::fragments;
use crate::table;

const MOST_WORDS: usize = 8000;
const MOST_STREAM: usize = 65_536;
const TRIES: usize = 40;
/// One case in so many is a large one, so that case files stay small.
const LARGE: usize = 300;

/// The numbers a case may come to, besides 0.
pub const NUMBERS: [u64; 37] = [
    1, 2, 3, 4, 5, 6, 7, 8, 9, 10, 11, 12, 13, 14, 15, 20, 21, 22, 23, 24, 25, 26, 27, 28, 29, 30,
    31, 32, 33, 34, 35, 36, 37, 38, 39, 40, 41,
];

pub fn generate(seed: u64, count: usize) -> Vec<Case> {
    let mut random = Random::new(seed);
    let mut cases = Vec::with_capacity(count + 1);
    let mut wishes = NUMBERS.iter().cycle();
    while cases.len() < count {
        let random = &mut random;
        if random.below(LARGE) == 0 {
            cases.push(edges::large_edge(random));
            continue;
        }
        match random.below(100) {
            0..=27 => cases.push(wished(random, *wishes.next().expect("a cycle"))),
            28..=37 => cases.push(valid(random)),
            38..=44 => cases.extend(pair(random)),
            45..=55 => {
                let mut case = valid(random);
                damage_stream(random, &mut case.stream);
                cases.push(finish(random, case));
            }
            56..=66 => {
                let mut case = valid(random);
                (0..random.pick(&[1, 1, 1, 2, 3]))
                    .for_each(|_| damage_table(random, &mut case.table));
                case.table.truncate(table::MOST_BYTES);
                cases.push(finish(random, case));
            }
            67..=74 => cases.push(edges::small_edge(random)),
            roll => {
                let case = if roll < 82 { element_case(random) } else { corner(random) };
                cases.push(if random.chance(50) { finish(random, case) } else { case });
            }
        }
    }
    cases.truncate(count);
    cases
}

/// Bounds the stream and chooses the words of the list.
fn finish(random: &mut Random, mut case: Case) -> Case {
    case.stream.truncate(MOST_STREAM);
    case.words = MOST_WORDS;
    let needed = WORDS_PER_ENTRY * case.answer().reading.entries as usize;
    case.words = match random.below(20) {
        0..=10 => MOST_WORDS,
        11..=13 => needed,
        14 | 15 => needed + random.below(4),
        16 | 17 => needed.saturating_sub(random.between(1, 5)),
        _ => random.below(needed + 1),
    }
    .min(MOST_WORDS);
    case
}

fn unfinished(random: &mut Random, wish: u64) -> Case {
    let bytes = make_table(random, wish);
    let stream = match table::parse(&bytes) {
        Ok(table) => encode(&table, random, wish),
        Err(_) => vec![1, 2, 3],
    };
    Case::new(bytes, stream, MOST_WORDS)
}

fn valid(random: &mut Random) -> Case {
    let case = unfinished(random, 0);
    finish(random, case)
}

/// A case for a number; the last try stands even if it came to another one.
fn wished(random: &mut Random, number: u64) -> Case {
    let mut case = Case::default();
    for _ in 0..TRIES {
        case = match number {
            14 => edges::depth_edge(random),
            15 => edges::many_fragments(random),
            _ => unfinished(random, number),
        };
        match number {
            1..=13 => damage_towards(random, &mut case.table, number),
            20 => damage_table(random, &mut case.table),
            21 => case.stream.clear(),
            22 => case.stream.truncate(random.between(1, case.stream.len().max(1))),
            40 => {
                case.words =
                    random.below(WORDS_PER_ENTRY * case.answer().reading.entries as usize + 1)
            }
            _ => {}
        }
        let answer = case.answer();
        let reached = if number <= 15 { answer.check.0 } else { answer.reading.number };
        if reached == number {
            break;
        }
    }
    // Now and then the list ends just where the fault is, so that room and fault compete.
    if (22..=41).contains(&number) && number != 40 && random.chance(20) {
        let words = WORDS_PER_ENTRY * case.answer().reading.entries as usize
            + random.below(WORDS_PER_ENTRY);
        case.words = words.min(MOST_WORDS);
    }
    case
}

/// A full table and one with classes left out, the same stream and list.
fn pair(random: &mut Random) -> [Case; 2] {
    let mut full = valid(random);
    if random.chance(25) {
        damage_stream(random, &mut full.stream);
        full = finish(random, full);
    }
    let mut left_out = LeftOut::default();
    let parts = fragments(&full.table);
    let kind = if random.chance(35) { 4 } else { 5 };
    for part in &parts {
        let fragment = &full.table[part.clone()];
        if fragment[0] == kind && random.chance(if kind == 4 { 60 } else { 45 }) {
            match kind {
                4 => left_out.streams.push(word(fragment, 1)),
                _ => left_out.events.push((word(fragment, 1), word(fragment, 9))),
            }
        }
    }
    let stays = |fragment: &[u8]| match fragment[0] {
        4 => !left_out.streams.contains(&word(fragment, 1)),
        5 => {
            !left_out.streams.contains(&word(fragment, 1))
                && !left_out.events.contains(&(word(fragment, 1), word(fragment, 9)))
        }
        _ => true,
    };
    let kept = parts.into_iter().map(|part| &full.table[part]).filter(|part| stays(part));
    let table = kept.flatten().copied().collect();
    let short = Case { table, left_out: Some(left_out), ..full.clone() };
    [full, short]
}

fn word(bytes: &[u8], at: usize) -> u64 {
    u64::from_le_bytes(bytes[at..at + 8].try_into().expect("eight bytes"))
}

#[cfg(test)]
mod tests {
    use super::*;

    #[test]
    fn same_seed_same_cases() {
        let write = |seed| crate::case::write_file(&generate(seed, 200));
        assert_eq!(write(5), write(5));
        assert_ne!(write(5), write(6));
    }

    #[test]
    fn made_tables_are_accepted() {
        let mut random = Random::new(11);
        for wish in [0, 23, 28, 38] {
            for _ in 0..500 {
                let table = make_table(&mut random, wish);
                assert_eq!(table::check(&table), (0, table.len() as u64));
            }
        }
    }

    #[test]
    fn many_streams_are_accepted() {
        let mut random = Random::new(12);
        let accepted = |case: Case| case.answer().reading.number == 0;
        let count = (0..500).filter(|_| accepted(unfinished(&mut random, 0))).count();
        assert!(count > 350, "{count} of 500 accepted");
    }

    #[test]
    fn limits_of_the_case_file() {
        let cases = generate(1, 4000);
        assert_eq!(cases.len(), 4000);
        for case in &cases {
            assert!(case.stream.len() <= MOST_STREAM);
            assert!(case.words <= MOST_WORDS);
            assert!(case.table.len() <= table::MOST_BYTES + 1);
        }
        assert!(crate::case::write_file(&cases).len() < 40_000_000);
    }
}
