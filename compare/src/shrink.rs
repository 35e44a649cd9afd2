//! Makes a case smaller as long as it stays interesting.

use crate::case::Case;
use crate::records::{fragments, split};
use std::ops::Range;
use std::time::{Duration, Instant};

/// Shrinks until nothing smaller is interesting or the time is over.
pub fn shrink(case: &Case, limit: Duration, mut interesting: impl FnMut(&Case) -> bool) -> Case {
    let start = Instant::now();
    let mut best = case.clone();
    let mut changed = true;
    while changed && start.elapsed() < limit {
        changed = false;
        for step in
            [drop_fragments, drop_records, drop_counted, cut_stream, clear_bits, shorten_list]
        {
            let mut skip = 0;
            // A candidate that holds is taken at once; those tried before it are not repeated.
            while let Some(candidate) = step(&best, skip) {
                if start.elapsed() >= limit {
                    return best;
                }
                if interesting(&candidate) {
                    best = candidate;
                    changed = true;
                } else {
                    skip += 1;
                }
            }
        }
    }
    best
}

fn without(bytes: &[u8], span: Range<usize>) -> Vec<u8> {
    [&bytes[..span.start], &bytes[span.end..]].concat()
}

fn drop_fragments(case: &Case, skip: usize) -> Option<Case> {
    let span = fragments(&case.table).into_iter().rev().nth(skip)?;
    Some(Case { table: without(&case.table, span), ..case.clone() })
}

fn drop_records(case: &Case, skip: usize) -> Option<Case> {
    let span = split(&case.table).into_iter().rev().nth(skip)?;
    Some(Case { table: without(&case.table, span), ..case.clone() })
}

/// Where a record counts what follows it: members, ranges or options.
fn count_at(record: &[u8]) -> Option<usize> {
    let at = match record[0] {
        28 | 34 => 1,
        31 | 32 => 2,
        _ => return None,
    };
    (record.len() > at && record[at] > 0).then_some(at)
}

/// Drops a run of records behind one that counts them and lowers its count by one.
fn drop_counted(case: &Case, skip: usize) -> Option<Case> {
    const LONGEST: usize = 12;
    let spans = split(&case.table);
    let mut counting = (0..spans.len()).filter_map(|index| {
        let at = count_at(&case.table[spans[index].clone()])?;
        Some((index, spans[index].start + at))
    });
    let places = LONGEST * LONGEST;
    let (index, count) = counting.nth(skip / places)?;
    let first = index + 1 + skip % places / LONGEST;
    let last = first + skip % LONGEST;
    let mut table = case.table.clone();
    table[count] -= 1;
    // Where there is no such run only the count changes.
    if last < spans.len() {
        table.drain(spans[first].start..spans[last].end);
    }
    Some(Case { table, ..case.clone() })
}

/// Drops ever smaller pieces of the stream, from its end on.
fn cut_stream(case: &Case, skip: usize) -> Option<Case> {
    let length = case.stream.len();
    let mut left = skip;
    let mut size = length.next_power_of_two();
    while size >= 1 && length > 0 {
        let pieces = length.div_ceil(size);
        if left < pieces {
            let end = length - left * size;
            let stream = without(&case.stream, end.saturating_sub(size)..end);
            return Some(Case { stream, ..case.clone() });
        }
        left -= pieces;
        size /= 2;
    }
    None
}

fn clear_bits(case: &Case, skip: usize) -> Option<Case> {
    let set = |&bit: &usize| case.stream[bit / 8] >> (bit % 8) & 1 == 1;
    let bit = (0..case.stream.len() * 8).filter(set).nth(skip)?;
    let mut stream = case.stream.clone();
    stream[bit / 8] &= !(1 << (bit % 8));
    Some(Case { stream, ..case.clone() })
}

fn shorten_list(case: &Case, skip: usize) -> Option<Case> {
    if case.words == 0 {
        return None;
    }
    let less = (case.words.next_power_of_two() / 2) >> skip;
    let words = case.words.checked_sub(less.max(1))?;
    (skip <= usize::BITS as usize / 2 && less > 0).then(|| Case { words, ..case.clone() })
}

#[cfg(test)]
mod tests {
    use super::*;
    use crate::random::Random;

    const MINUTE: Duration = Duration::from_secs(60);

    #[test]
    fn finds_a_small_case() {
        let mut random = Random::new(21);
        let table = crate::make_table::make_table(&mut random, 0);
        let case = Case::new(table, vec![0xff; 900], 4000);
        let small = shrink(&case, MINUTE, |case| case.stream.contains(&0xff) && case.words > 9);
        assert_eq!((small.table.len(), small.stream, small.words), (0, vec![0xff], 10));
    }

    #[test]
    fn keeps_what_differs() {
        let case = crate::generate::generate(3, 50).into_iter().find(|case| {
            let reading = case.answer().reading;
            reading.number == 0 && reading.entries > 30
        });
        let case = case.expect("a long reading");
        let small = shrink(&case, MINUTE, |case| case.answer().reading.entries > 5);
        assert_eq!(small.answer().reading.entries, 6);
        assert!(small.table.len() < case.table.len() && small.words == 30);
    }
}
