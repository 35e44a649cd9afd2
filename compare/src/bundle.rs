//! The smallest bundle: of a table and up to sixteen streams, each with a list
//! of its own, the table without those stream and event classes whose finding no
//! reading lists.
//!
//! A case is a head of three little-endian 32-bit numbers (the table's bytes, the
//! streams, the buffer's bytes), two for each stream (its bytes, its list's
//! words), then the table and the streams. Its answer is a line with number,
//! length and id, the buffer in hexadecimal, a line for each stream that was
//! read, and an empty line. A whole case says all that is lent: three more
//! numbers in its head (rooms, bytes of all streams, words of all lists). Its
//! answer has all words of the lists instead of the readings.

use crate::reader::{self, Entry, Reading, WORDS_PER_ENTRY};
use crate::records::fragments;
use crate::table;
use std::collections::BTreeSet;
use std::fmt::Write;

pub const MOST_STREAMS: usize = 16;
const TABLE_REFUSED: u64 = 20;
const TOO_MANY_STREAMS: u64 = 44;
const SHORT_BUFFER: u64 = 45;
const STREAM_CLASS: u8 = 4;
const EVENT_CLASS: u8 = 5;
const STREAM_CLASS_FOUND: u64 = 2;
const EVENT_CLASS_FOUND: u64 = 5;

/// What lies in the buffer before.
const HELD: u8 = 0xee;

/// Streams and lists are lent as one run each, with a length for each stream and a room for each
/// list; where these promise more than is left, what is left.
#[derive(Clone, Debug, Default, PartialEq, Eq)]
pub struct Bundling {
    pub table: Vec<u8>,
    pub streams: Vec<u8>,
    pub lengths: Vec<usize>,
    pub rooms: Vec<usize>,
    pub words: usize,
    pub buffer: usize,
}

#[derive(Clone, Debug, PartialEq, Eq)]
pub struct Bundled {
    pub number: u64,
    pub length: u64,
    pub id: u64,
    pub buffer: Vec<u8>,
    pub list: Vec<u64>,
}

/// What the lists hold before a call: words that count down, so that each is another.
fn words_before(count: usize) -> Vec<u64> {
    (0..count as u64).map(|word| u64::MAX - word).collect()
}

fn parts<T>(mut run: &[T], lengths: &[usize]) -> Vec<std::ops::Range<usize>> {
    let mut start = 0;
    let mut spans = Vec::new();
    for &length in lengths {
        let (part, rest) = run.split_at(length.min(run.len()));
        spans.push(start..start + part.len());
        start += part.len();
        run = rest;
    }
    spans
}

/// The classes that readings found: stream classes, and event classes each with its stream class.
#[derive(Clone, Debug, Default, PartialEq, Eq)]
pub struct Classes {
    pub streams: BTreeSet<u64>,
    pub events: BTreeSet<(u64, u64)>,
}

impl Classes {
    fn find(&mut self, entries: &[Entry]) {
        let mut stream_class = None;
        for &[kind, _, _, id, _] in entries {
            match (kind, stream_class) {
                (STREAM_CLASS_FOUND, _) => {
                    stream_class = Some(id);
                    self.streams.insert(id);
                }
                (EVENT_CLASS_FOUND, Some(stream)) => {
                    self.events.insert((stream, id));
                }
                _ => {}
            }
        }
    }

    fn hold(&self, fragment: &[u8]) -> bool {
        match fragment[0] {
            STREAM_CLASS => self.streams.contains(&word(fragment, 1)),
            EVENT_CLASS => self.events.contains(&(word(fragment, 1), word(fragment, 9))),
            _ => true,
        }
    }

    /// The classes of a table.
    pub fn of(table: &[u8]) -> Self {
        let mut classes = Classes::default();
        for span in fragments(table) {
            let fragment = &table[span];
            match fragment[0] {
                STREAM_CLASS => {
                    classes.streams.insert(word(fragment, 1));
                }
                EVENT_CLASS => {
                    classes.events.insert((word(fragment, 1), word(fragment, 9)));
                }
                _ => {}
            }
        }
        classes
    }

    /// Each of them left out in turn, a stream class with its events.
    pub fn less_each(&self) -> Vec<Classes> {
        let events = self.events.iter().map(|event| {
            let mut less = self.clone();
            less.events.remove(event);
            less
        });
        let streams = self.streams.iter().map(|stream| {
            let mut less = self.clone();
            less.streams.remove(stream);
            less.events.retain(|(of, _)| of != stream);
            less
        });
        events.chain(streams).collect()
    }

    /// What stays of a table's bytes.
    pub fn only_these(&self, table: &[u8]) -> Vec<u8> {
        let spans = fragments(table).into_iter().map(|span| &table[span]);
        spans.filter(|fragment| self.hold(fragment)).flatten().copied().collect()
    }
}

fn word(bytes: &[u8], at: usize) -> u64 {
    u64::from_le_bytes(bytes[at..at + 8].try_into().expect("eight bytes"))
}

impl Bundling {
    /// Each stream's reading into its own part of the lists.
    fn read(&self, list: &mut [u64]) -> (Vec<Reading>, Classes) {
        let rooms = parts(list, &self.rooms);
        let (mut readings, mut found) = (Vec::new(), Classes::default());
        for (index, span) in parts(&self.streams, &self.lengths).into_iter().enumerate() {
            let own = &mut list[rooms.get(index).cloned().unwrap_or(0..0)];
            let reading = reader::read(&self.table, &self.streams[span], own);
            found.find(&own.as_chunks::<WORDS_PER_ENTRY>().0[..reading.entries as usize]);
            readings.push(reading);
        }
        (readings, found)
    }

    /// The bundle, however short the buffer is; of an accepted table.
    pub fn bundle(&self) -> Vec<u8> {
        self.read(&mut words_before(self.words)).1.only_these(&self.table)
    }

    pub fn answer(&self) -> Bundled {
        self.answer_and_readings().0
    }

    fn answer_and_readings(&self) -> (Bundled, Vec<Reading>) {
        let mut list = words_before(self.words);
        let mut buffer = vec![HELD; self.buffer];
        let (fault, byte) = table::check(&self.table);
        if fault != 0 {
            let refused = Bundled { number: TABLE_REFUSED, length: byte, id: fault, buffer, list };
            return (refused, Vec::new());
        }
        if self.lengths.len() > MOST_STREAMS {
            let refused = Bundled { number: TOO_MANY_STREAMS, length: 0, id: 0, buffer, list };
            return (refused, Vec::new());
        }
        let (readings, found) = self.read(&mut list);
        let bundle = found.only_these(&self.table);
        let number = match buffer.get_mut(..bundle.len()) {
            Some(front) => {
                front.copy_from_slice(&bundle);
                0
            }
            None => SHORT_BUFFER,
        };
        (Bundled { number, length: bundle.len() as u64, id: 0, buffer, list }, readings)
    }

    /// The case as a file has it, all that is lent.
    pub fn write(&self, file: &mut Vec<u8>) {
        let Bundling { table, streams, lengths, rooms, words, buffer } = self;
        let head = [table.len(), lengths.len(), *buffer, rooms.len(), streams.len(), *words];
        let pairs = (0..lengths.len().max(rooms.len())).flat_map(|index| {
            [lengths.get(index).copied().unwrap_or(0), rooms.get(index).copied().unwrap_or(0)]
        });
        for number in head.into_iter().chain(pairs) {
            file.extend((number as u32).to_le_bytes());
        }
        file.extend(table);
        file.extend(streams);
    }

    /// The answer's lines for the shared cases: the readings, and not their lists.
    pub fn write_readings(&self, text: &mut String) {
        let (Bundled { number, length, id, buffer, .. }, readings) = self.answer_and_readings();
        let _ = writeln!(text, "{number} {length} {id}\n{}", hex(&buffer));
        for Reading { number, entries, place, first, second } in readings {
            let _ = writeln!(text, "{number} {entries} {place} {first} {second}");
        }
        text.push('\n');
    }

    pub fn shown(&self) -> String {
        let Bundling { table, streams, lengths, rooms, words, buffer } = self;
        let (table, streams) = (hex(table), hex(streams));
        format!(
            "table {table}\nstreams {streams}\nlengths {lengths:?}\nrooms {rooms:?} of {words}\nbuffer {buffer}\n"
        )
    }
}

fn hex(bytes: &[u8]) -> String {
    bytes.iter().map(|byte| format!("{byte:02x}")).collect()
}

pub fn write_bundlings(cases: &[Bundling]) -> Vec<u8> {
    let mut file = Vec::new();
    cases.iter().for_each(|case| case.write(&mut file));
    file
}

/// The next shared case of a file, which is moved on; `None` at its end or if it is cut.
pub fn next_bundling(file: &mut &[u8]) -> Option<Bundling> {
    let mut number = || {
        let (head, rest) = file.split_first_chunk::<4>()?;
        *file = rest;
        Some(u32::from_le_bytes(*head) as usize)
    };
    let (table, count, buffer) = (number()?, number()?, number()?);
    let (mut lengths, mut rooms) = (Vec::new(), Vec::new());
    for _ in 0..count {
        lengths.push(number()?);
        rooms.push(number()?);
    }
    let (table, rest) = file.split_at_checked(table)?;
    let (streams, rest) = rest.split_at_checked(lengths.iter().sum())?;
    *file = rest;
    let words = rooms.iter().sum();
    Some(Bundling {
        table: table.to_vec(),
        streams: streams.to_vec(),
        lengths,
        rooms,
        words,
        buffer,
    })
}

/// The next answer to a whole case; `None` if there is none of the right form.
pub fn next_bundled<'a>(lines: &mut impl Iterator<Item = &'a str>) -> Option<Bundled> {
    let mut numbers = lines.next()?.split(' ').map(|number| number.parse().ok());
    let (number, length, id) = (numbers.next()??, numbers.next()??, numbers.next()??);
    if numbers.next().is_some() {
        return None;
    }
    let digits = lines.next()?.as_bytes().chunks(2);
    let buffer = digits
        .map(|pair| u8::from_str_radix(std::str::from_utf8(pair).ok()?, 16).ok())
        .collect::<Option<Vec<u8>>>()?;
    let words = lines.next()?.split_terminator(' ');
    let list = words.map(|word| word.parse().ok()).collect::<Option<Vec<u64>>>()?;
    lines.next()?.is_empty().then_some(Bundled { number, length, id, buffer, list })
}

#[cfg(test)]
mod tests {
    use super::*;
    use crate::records::{Records, NO_SLOT};

    /// Two stream classes of ids 3 and 7, each with the events 0 and 1, which have a byte each.
    fn table() -> Vec<u8> {
        let mut records = Records::new();
        records.trace(None).root(0, 1).unsigned(8, NO_SLOT, 2);
        for id in [3, 7] {
            records.stream(id, 255).root(2, 1).unsigned(8, NO_SLOT, 11);
            for event in [0, 1] {
                records.event(id, event).root(5, 1).unsigned(8, NO_SLOT, 0);
            }
        }
        records.bytes
    }

    fn case(streams: &[&[u8]], room: usize) -> Bundling {
        Bundling {
            table: table(),
            streams: streams.concat(),
            lengths: streams.iter().map(|stream| stream.len()).collect(),
            rooms: vec![room; streams.len()],
            words: room * streams.len(),
            buffer: 400,
        }
    }

    fn kept(case: &Bundling) -> Classes {
        let Bundled { number, length, buffer, .. } = case.answer();
        assert_eq!(number, 0);
        assert!(buffer[length as usize..].iter().all(|&byte| byte == HELD));
        Classes::of(&buffer[..length as usize])
    }

    fn classes(streams: &[u64], events: &[(u64, u64)]) -> Classes {
        Classes {
            streams: streams.iter().copied().collect(),
            events: events.iter().copied().collect(),
        }
    }

    #[test]
    fn an_event_is_of_its_own_stream_class() {
        assert_eq!(kept(&case(&[&[7, 1, 9]], 200)), classes(&[7], &[(7, 1)]));
        let both = case(&[&[7, 1, 9], &[3, 0, 9]], 200);
        assert_eq!(kept(&both), classes(&[3, 7], &[(3, 0), (7, 1)]));
    }

    #[test]
    fn what_is_listed_counts() {
        assert_eq!(kept(&case(&[], 0)), classes(&[], &[]));
        assert_eq!(kept(&case(&[&[7, 1, 9]], 0)), classes(&[], &[]));
        assert_eq!(kept(&case(&[&[9]], 200)), classes(&[], &[]));
        // entries 1, two of the header, 2, 3, 4, two of the event's header, and then 5
        assert_eq!(kept(&case(&[&[7, 1, 9]], 5 * 8)), classes(&[7], &[]));
        assert_eq!(kept(&case(&[&[7, 1, 9]], 5 * 9)), classes(&[7], &[(7, 1)]));
        assert_eq!(kept(&case(&[&[7, 1, 9, 5]], 200)), classes(&[7], &[(7, 1)]));
    }

    #[test]
    fn refused_in_order() {
        let numbers = |case: &Bundling| {
            let Bundled { number, length, id, buffer, .. } = case.answer();
            assert!(buffer.iter().all(|&byte| byte == HELD));
            (number, length, id)
        };
        let mut many = case(&[&[7, 1, 9][..]; 17], 5);
        many.buffer = 3;
        assert_eq!(numbers(&many), (44, 0, 0));
        many.table.pop();
        assert_eq!(numbers(&many), (20, many.table.len() as u64 - 5, 3));
        let mut short = case(&[&[7, 1, 9][..]; 16], 5);
        short.buffer = short.bundle().len() - 1;
        assert_eq!(numbers(&short), (45, short.bundle().len() as u64, 0));
        assert_eq!(short.answer().list[..3], [1, 0, 0]);
    }

    #[test]
    fn lengths_and_rooms_that_promise_more() {
        let mut case = case(&[&[7, 1, 9], &[3, 0, 9]], 100);
        case.lengths[0] = 9000;
        assert_eq!(kept(&case), classes(&[7], &[(7, 1)]));
        case.lengths[0] = 3;
        case.rooms = vec![9000];
        assert_eq!(kept(&case), classes(&[7], &[(7, 1)]));
        case.rooms = vec![0, 9000];
        assert_eq!(kept(&case), classes(&[3], &[(3, 0)]));
    }

    #[test]
    fn each_is_left_out() {
        let all = Classes::of(&table());
        assert_eq!(all, classes(&[3, 7], &[(3, 0), (3, 1), (7, 0), (7, 1)]));
        let less = all.less_each();
        assert_eq!(less.len(), 6);
        assert_eq!(less[1], classes(&[3, 7], &[(3, 0), (7, 0), (7, 1)]));
        assert_eq!(less[4], classes(&[7], &[(7, 0), (7, 1)]));
        assert!(less.iter().all(|less| table::check(&less.only_these(&table())).0 == 0));
    }

    #[test]
    fn answers_come_back() {
        let case = case(&[&[7, 1, 9]], 7);
        let Bundled { number, length, id, buffer, list } = case.answer();
        let words: String = list.iter().map(|word| format!("{word} ")).collect();
        let text = format!("{number} {length} {id}\n{}\n{words}\n\n", hex(&buffer));
        assert_eq!(next_bundled(&mut text.lines()), Some(case.answer()));
        assert_eq!(
            next_bundled(&mut "44 0 0\n\n\n\n".lines()).map(|answer| answer.number),
            Some(44)
        );
        assert_eq!(next_bundled(&mut "44 0\n\n\n\n".lines()), None);
        assert_eq!(next_bundled(&mut "44 0 0\n\n\n".lines()), None);
    }
}
