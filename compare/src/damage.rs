//! Damages tables and streams.

use crate::random::Random;
use crate::records::{fragments, split};

const EDGE_BYTES: [u8; 24] =
    [0, 1, 2, 3, 5, 6, 7, 11, 12, 15, 16, 17, 32, 33, 34, 63, 64, 65, 66, 127, 128, 253, 254, 255];

fn flip(random: &mut Random, bytes: &mut [u8]) {
    if !bytes.is_empty() {
        bytes[random.below(bytes.len())] ^= 1 << random.below(8);
    }
}

pub fn damage_stream(random: &mut Random, stream: &mut Vec<u8>) {
    for _ in 0..random.between(1, 3) {
        if stream.is_empty() {
            return;
        }
        let at = random.below(stream.len());
        match random.below(8) {
            0..=2 => flip(random, stream),
            3 => stream.truncate(at),
            4 => stream[at] = random.pick(&EDGE_BYTES),
            5 => {
                let count = random.between(1, 4);
                (0..count).for_each(|_| stream.insert(at, random.byte()));
            }
            6 => drop(stream.drain(at..(at + random.between(1, 4)).min(stream.len()))),
            _ => stream.extend_from_within(..random.between(1, stream.len()).min(300)),
        }
    }
}

/// A record with a body of edge values, of any kind or of one.
pub fn random_record(random: &mut Random, kind: Option<u8>) -> Vec<u8> {
    let kinds: Vec<u8> = (1..=6).chain(16..=34).collect();
    let kind = kind.unwrap_or_else(|| random.pick(&kinds));
    let length = crate::table::body_length(kind).unwrap_or(0);
    let mut record = vec![kind];
    record.extend((0..length).map(|_| match random.below(10) {
        0..=4 => random.below(4) as u8,
        5 => 255,
        6 => random.byte(),
        _ => random.pick(&EDGE_BYTES),
    }));
    record
}

/// Moves, repeats or drops whole records, or changes bytes within them.
pub fn damage_table(random: &mut Random, table: &mut Vec<u8>) {
    if table.is_empty() {
        return;
    }
    let spans = split(table);
    let index = random.below(spans.len());
    let span = spans[index].clone();
    let other = spans[random.below(spans.len())].clone();
    match random.below(14) {
        0 => flip(random, table),
        1 => table.truncate(random.below(table.len())),
        2 => table.truncate(span.start),
        3 => drop(table.drain(span)),
        4 => {
            let record = table[span.clone()].to_vec();
            table.splice(other.start..other.start, record);
        }
        5 if index + 1 < spans.len() => {
            let next = spans[index + 1].clone();
            table[span.start..next.end].rotate_left(span.len());
        }
        6 => {
            let record = random_record(random, None);
            table.splice(span.start..span.start, record);
        }
        7 => table[span.start] = random.pick(&EDGE_BYTES),
        8 => {
            let parts = fragments(table);
            let part = parts[random.below(parts.len())].clone();
            table.drain(part);
        }
        9 => {
            let parts = fragments(table);
            let part = table[parts[random.below(parts.len())].clone()].to_vec();
            let at = parts[random.below(parts.len())].end;
            table.splice(at..at, part);
        }
        10 => {
            let record = random_record(random, Some(table[span.start]));
            table.splice(span, record);
        }
        _ if span.len() > 1 => {
            let at = random.between(span.start + 1, span.end - 1);
            table[at] = random.pick(&EDGE_BYTES);
        }
        _ => flip(random, table),
    }
}

fn insert_record(random: &mut Random, table: &mut Vec<u8>, record: &[u8], after: usize) {
    let mut ends: Vec<usize> = split(table).iter().map(|span| span.end).collect();
    ends.retain(|&end| end >= after);
    if !ends.is_empty() {
        let at = random.pick(&ends);
        table.splice(at..at, record.iter().copied());
    }
}

/// A span of a record whose kind fits.
fn find(
    random: &mut Random,
    table: &[u8],
    fits: impl Fn(u8) -> bool,
) -> Option<std::ops::Range<usize>> {
    let spans: Vec<_> = split(table).into_iter().filter(|span| fits(table[span.start])).collect();
    (!spans.is_empty()).then(|| spans[random.below(spans.len())].clone())
}

/// Tries to bring a valid table to a refusal number.
pub fn damage_towards(random: &mut Random, table: &mut Vec<u8>, number: u64) {
    match number {
        1 => table.clear(),
        2 => {
            let unknown = random.pick(&[0, 7, 8, 15, 35, 36, 99, 128, 254, 255]);
            let span = find(random, table, |_| true).unwrap_or(0..1);
            if random.chance(50) {
                table[span.start] = unknown;
            } else {
                table.insert(span.start, unknown);
            }
        }
        3 => table.truncate(random.between(1, table.len() - 1)),
        4 if random.chance(40) => drop(table.drain(..2)),
        4 => {
            let version = random.pick(&[2, 2, 1]);
            insert_record(random, table, &[1, version], 2);
        }
        5 => table[1] = random.pick(&[0, 1, 3, 255]),
        6 => {
            let record = random_record(random, Some(2));
            insert_record(random, table, &record, 2);
        }
        7 => {
            if let Some(span) = find(random, table, |kind| (3..=5).contains(&kind)) {
                let record = table[span.clone()].to_vec();
                insert_record(random, table, &record, span.end);
            }
        }
        8 => {
            let kind = random.pick(&[4, 5]);
            let record = random_record(random, Some(kind));
            insert_record(random, table, &record, 2);
        }
        9 => {
            let record = random_record(random, None);
            insert_record(random, table, &record, 2);
        }
        10 | 12 => {
            let fits = |kind| if number == 10 { kind > 5 } else { matches!(kind, 18 | 21 | 25) };
            if let Some(span) = find(random, table, fits) {
                if span.len() > 1 {
                    let at = if number == 10 {
                        random.between(span.start + 1, span.end - 1)
                    } else {
                        span.end - 1
                    };
                    table[at] = if number == 10 {
                        random.pick(&EDGE_BYTES)
                    } else {
                        random.below(12) as u8
                    };
                }
            }
        }
        11 => {
            let slot_at = |kind| match kind {
                17..=19 => 4,
                21 | 22 | 26 | 27 | 30 | 31 | 32 => 1,
                _ => 0,
            };
            let named = |span: std::ops::Range<usize>| span.start + slot_at(table[span.start]);
            let fits = |kind| slot_at(kind) > 0;
            let sets = |kind| matches!(kind, 17..=19 | 21 | 22);
            if let (Some(span), other) = (find(random, table, fits), find(random, table, sets)) {
                // Often one that another class sets, which may have another home.
                let slot = match other {
                    Some(other) if random.chance(50) => table[named(other)],
                    _ => random.pick(&[0, 15, 16, 63, 255]),
                };
                let at = named(span);
                table[at] = slot;
            }
        }
        13 => {
            if let Some(span) = find(random, table, |kind| kind == 33) {
                match random.below(3) {
                    0 => table[span.start + 1] ^= 1,
                    1 => table[span.start + 2 + 8 * random.below(2)] = random.pick(&EDGE_BYTES),
                    _ => table[span.start + 2..span.end].rotate_left(8),
                }
            }
        }
        _ => damage_table(random, table),
    }
}
