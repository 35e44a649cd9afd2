//! Case files and answers files.
//!
//! A case is a head of three little-endian 32-bit numbers (the table's bytes, the
//! stream's bytes, the words of the list), then the table, then the stream. An
//! answer is a line with the table's check, a line with the reading, a line for
//! each entry and an empty line.

use crate::reader::{self, Entry, Reading};
use crate::table::{self, Elements};
use std::fmt::Write;

/// The classes a short table lacks, its full table being that of the case before.
#[derive(Clone, Debug, Default)]
pub struct LeftOut {
    pub streams: Vec<u64>,
    /// Pairs of stream class id and event id.
    pub events: Vec<(u64, u64)>,
}

#[derive(Clone, Debug, Default)]
pub struct Case {
    pub table: Vec<u8>,
    pub stream: Vec<u8>,
    pub words: usize,
    pub left_out: Option<LeftOut>,
}

#[derive(Clone, Debug, PartialEq, Eq)]
pub struct Answer {
    pub check: (u64, u64),
    pub reading: Reading,
    pub entries: Vec<Entry>,
}

/// What lies in the list before a reading.
pub const PATTERN: u64 = 0xa5a5_5a5a_c3c3_3c3c;

impl Case {
    pub fn new(table: Vec<u8>, stream: Vec<u8>, words: usize) -> Self {
        Case { table, stream, words, left_out: None }
    }

    pub fn answer(&self) -> Answer {
        self.answer_by(Elements::Forget)
    }

    pub fn answer_by(&self, elements: Elements) -> Answer {
        let mut list = vec![PATTERN; self.words];
        let table = table::parse_by(&self.table, elements);
        let reading = reader::with_table(table, &self.stream, &mut list);
        let entries = &list.as_chunks().0[..reading.entries as usize];
        Answer { check: table::check_by(&self.table, elements), reading, entries: entries.to_vec() }
    }

    pub fn write(&self, file: &mut Vec<u8>) {
        for number in [self.table.len(), self.stream.len(), self.words] {
            file.extend((number as u32).to_le_bytes());
        }
        file.extend(&self.table);
        file.extend(&self.stream);
    }
}

pub fn write_file(cases: &[Case]) -> Vec<u8> {
    let mut file = Vec::new();
    cases.iter().for_each(|case| case.write(&mut file));
    file
}

/// The next number of a head.
pub fn next_number(file: &mut &[u8]) -> Option<usize> {
    let (head, rest) = file.split_first_chunk::<4>()?;
    *file = rest;
    Some(u32::from_le_bytes(*head) as usize)
}

/// The next bytes, so many.
pub fn next_bytes(file: &mut &[u8], count: usize) -> Option<Vec<u8>> {
    let (bytes, rest) = file.split_at_checked(count)?;
    *file = rest;
    Some(bytes.to_vec())
}

/// The next case of a file, which is moved on; `None` at its end or if it is cut.
pub fn next_case(file: &mut &[u8]) -> Option<Case> {
    let (table, stream, words) = (next_number(file)?, next_number(file)?, next_number(file)?);
    Some(Case::new(next_bytes(file, table)?, next_bytes(file, stream)?, words))
}

impl Answer {
    pub fn write(&self, text: &mut String) {
        let (refusal, byte) = self.check;
        let _ = writeln!(text, "{refusal} {byte}");
        self.write_reading(text);
    }

    /// The answer without the table's check.
    pub fn write_reading(&self, text: &mut String) {
        let Reading { number, entries, place, first, second } = self.reading;
        let _ = writeln!(text, "{number} {entries} {place} {first} {second}");
        for [kind, place, bits, value, record] in &self.entries {
            let _ = writeln!(text, "{kind} {place} {bits} {value} {record}");
        }
        text.push('\n');
    }
}

/// The next answer of an answers file; `None` if there is none of the right form.
pub fn next_answer<'a>(lines: &mut impl Iterator<Item = &'a str>) -> Option<Answer> {
    let [refusal, byte] = numbers(lines.next()?)?;
    let [number, entries, place, first, second] = numbers(lines.next()?)?;
    let reading = Reading { number, entries, place, first, second };
    let mut list = Vec::new();
    loop {
        let line = lines.next()?;
        if line.is_empty() {
            return Some(Answer { check: (refusal, byte), reading, entries: list });
        }
        list.push(numbers(line)?);
    }
}

/// Exactly `N` decimal numbers with one blank between them.
fn numbers<const N: usize>(line: &str) -> Option<[u64; N]> {
    let mut numbers = [0; N];
    let mut words = line.split(' ');
    for number in &mut numbers {
        *number = words.next()?.parse().ok()?;
    }
    words.next().is_none().then_some(numbers)
}

#[cfg(test)]
mod tests {
    use super::*;
    use crate::records::{Records, NO_SLOT};

    fn figure() -> Case {
        let mut records = Records::new();
        records.stream(0, 255).event(0, 0).root(5, 1).unsigned(8, NO_SLOT, 0);
        Case::new(records.bytes, vec![42], 39)
    }

    #[test]
    fn files_come_back() {
        let cases = [figure(), Case::new(vec![], vec![], 0), Case::new(vec![1, 2], vec![3], 9)];
        let file = write_file(&cases);
        assert_eq!(file[..12], [40, 0, 0, 0, 1, 0, 0, 0, 39, 0, 0, 0]);
        let mut rest = &file[..];
        for case in &cases {
            let back = next_case(&mut rest).unwrap();
            assert_eq!(
                (&back.table, &back.stream, back.words),
                (&case.table, &case.stream, case.words)
            );
        }
        assert!(rest.is_empty());
        assert!(next_case(&mut &file[..20]).is_none());
    }

    #[test]
    fn answers_come_back() {
        let answer = figure().answer();
        let mut text = String::new();
        answer.write(&mut text);
        let start = "0 40\n40 7 8 0 0\n1 0 0 0 0\n2 0 0 0 0\n3 0 8 8 0\n4 0 0 0 0\n5 0 0 0 0\n28 0 0 1 2\n18 0 8 42 3\n\n";
        assert_eq!(text, start);
        assert_eq!(next_answer(&mut text.lines()), Some(answer));
        assert_eq!(next_answer(&mut "0 40\n1 2 3\n\n".lines()), None);
        assert_eq!(next_answer(&mut "0 40\n40 0 0 0 0".lines()), None);
    }
}
