//! Makes tables and streams that a bundle is cut of.

use crate::bundle::{Bundling, MOST_STREAMS};
use crate::case::Case;
use crate::damage::{damage_stream, damage_table};
use crate::encode::encode;
use crate::make_table::make_table;
use crate::random::Random;
use crate::reader::WORDS_PER_ENTRY;
use crate::records::{Records, NO_SLOT};
use crate::table;

/// What a file of cases may ask for.
const MOST_WORDS: usize = 8000;
const MOST_STREAM: usize = 65_536;
const MOST_BUFFER: usize = 65_537;
const LONGEST_STREAM: usize = 3000;
/// The numbers that a stream may be written for, besides 0.
const WISHES: [u64; 8] = [22, 25, 29, 32, 33, 37, 38, 39];

pub fn make_bundlings(seed: u64, count: usize) -> Vec<Bundling> {
    let mut random = Random::new(seed);
    (0..count).map(|_| make_bundling(&mut random)).collect()
}

fn make_bundling(random: &mut Random) -> Bundling {
    let mut case = match random.below(10) {
        0 => wide(random),
        _ => encoded(random),
    };
    promise(random, &mut case);
    if random.chance(4) {
        damage_table(random, &mut case.table);
        case.table.truncate(table::MOST_BYTES);
    }
    let needed = match table::check(&case.table) {
        (0, _) if case.lengths.len() <= MOST_STREAMS => case.bundle().len(),
        _ => case.table.len(),
    };
    case.buffer = match random.below(10) {
        0..=2 => needed,
        3 => needed.saturating_sub(1),
        4 => random.below(needed + 1),
        5 => needed + random.below(40),
        _ => case.table.len(),
    }
    .min(MOST_BUFFER);
    case
}

fn streams_count(random: &mut Random) -> usize {
    match random.below(20) {
        0 => 0,
        1 => MOST_STREAMS,
        2 => random.between(MOST_STREAMS + 1, 20),
        3..=6 => 1,
        7 => random.between(6, 15),
        _ => random.between(2, 5),
    }
}

/// Streams that follow a table, some of them with a fault.
fn encoded(random: &mut Random) -> Bundling {
    let wish = if random.chance(30) { random.pick(&WISHES) } else { 0 };
    let bytes = make_table(random, wish);
    let table = table::parse(&bytes).expect("a sound table");
    let streams = (0..streams_count(random))
        .map(|_| {
            let wish = if random.chance(25) { random.pick(&WISHES) } else { 0 };
            let mut stream = encode(&table, random, wish);
            match random.below(12) {
                0 => stream.clear(),
                1 | 2 => damage_stream(random, &mut stream),
                _ => {}
            }
            stream.truncate(LONGEST_STREAM);
            stream
        })
        .collect();
    lend(random, bytes, streams)
}

/// Hundreds of event classes in a few stream classes, the same ids in each, of which few are met.
fn wide(random: &mut Random) -> Bundling {
    let mut records = Records::new();
    records.trace(None).root(0, 1).unsigned(8, NO_SLOT, 2);
    let classes = random.between(1, 5) as u64;
    let events = random.between(1, 100) as u64;
    let high = if random.chance(30) { 1 << 63 } else { 0 };
    for class in 0..classes {
        records.stream(class, 255).root(2, 1).unsigned(64, NO_SLOT, 11);
    }
    for event in 0..events {
        for class in 0..classes {
            if random.chance(90) {
                records.event(class, high + event);
                if random.chance(80) {
                    records.root(5, 1).unsigned(8, NO_SLOT, 0);
                }
            }
        }
    }
    let streams = (0..streams_count(random))
        .map(|_| {
            let mut stream = vec![random.below(classes as usize + 1) as u8];
            for _ in 0..random.below(8) {
                let event = high + random.below(events as usize + 1) as u64;
                stream.extend(event.to_le_bytes());
                stream.push(random.byte());
            }
            stream
        })
        .collect();
    lend(random, records.bytes, streams)
}

/// Chooses each list's words: enough, or not.
fn lend(random: &mut Random, table: Vec<u8>, mut streams: Vec<Vec<u8>>) -> Bundling {
    let each = MOST_WORDS / streams.len().max(1);
    let mut rooms = Vec::new();
    for stream in &mut streams {
        stream.truncate(MOST_STREAM / 20);
        let case = Case::new(table.clone(), stream.clone(), each);
        let needed = WORDS_PER_ENTRY * case.answer().reading.entries as usize;
        let room = match random.below(12) {
            0..=5 => needed,
            6 => needed + random.below(12),
            7 => needed.saturating_sub(random.between(1, 5)),
            8 => needed.saturating_sub(WORDS_PER_ENTRY * random.between(1, 4)),
            9 | 10 => random.below(needed + 1),
            _ => 0,
        };
        rooms.push(room.min(each));
    }
    Bundling {
        table,
        lengths: streams.iter().map(Vec::len).collect(),
        streams: streams.concat(),
        words: rooms.iter().sum(),
        rooms,
        buffer: 0,
    }
}

/// Now and then lengths and rooms are not those of the bytes and words that are lent.
fn promise(random: &mut Random, case: &mut Bundling) {
    if random.chance(8) && !case.lengths.is_empty() {
        let index = random.below(case.lengths.len());
        case.lengths[index] = other_length(random, case.lengths[index]);
    }
    if random.chance(8) && !case.rooms.is_empty() {
        let index = random.below(case.rooms.len());
        case.rooms[index] = other_length(random, case.rooms[index]);
    }
    match random.below(30) {
        0 => case.rooms.truncate(random.below(case.rooms.len() + 1)),
        1 => (0..random.between(1, 3)).for_each(|_| case.rooms.push(random.below(30))),
        2 => case.words = random.below(case.words + 1),
        3 => case.words = (case.words + random.below(30)).min(MOST_WORDS),
        4 => case.streams.truncate(random.below(case.streams.len() + 1)),
        5 => case.streams.extend(random.bytes::<7>()),
        _ => {}
    }
}

fn other_length(random: &mut Random, length: usize) -> usize {
    match random.below(4) {
        0 => length.saturating_sub(random.between(1, 3)),
        1 => length + random.between(1, 3),
        2 => u32::MAX as usize,
        _ => random.below(2 * length + 2),
    }
}

#[cfg(test)]
mod tests {
    use super::*;
    use crate::bundle::write_bundlings;

    #[test]
    fn same_seed_same_cases() {
        let write = |seed| write_bundlings(&make_bundlings(seed, 100));
        assert_eq!(write(5), write(5));
        assert_ne!(write(5), write(6));
    }

    #[test]
    fn limits_of_the_case_file() {
        for case in make_bundlings(1, 1000) {
            assert!(case.streams.len() <= MOST_STREAM);
            assert!(case.words <= MOST_WORDS);
            assert!(case.table.len() <= table::MOST_BYTES + 1 && case.buffer <= MOST_BUFFER);
            assert!(case.lengths.len().max(case.rooms.len()) <= 32);
        }
    }
}
