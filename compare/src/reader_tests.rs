use super::*;
use crate::records::{Records, NO_SLOT};

const PATTERN: u64 = 0xdead_beef_0bad_cafe;

/// The reading and its entries, without the records' numbers; words behind them must be untouched.
fn run(records: &Records, stream: &[u8], words: usize) -> (Reading, Vec<[u64; 4]>) {
    let (reading, entries) = run_numbered(records, stream, words);
    (reading, entries.iter().map(|e| [e[0], e[1], e[2], e[3]]).collect())
}

fn run_numbered(records: &Records, stream: &[u8], words: usize) -> (Reading, Vec<Entry>) {
    let mut list = vec![PATTERN; words];
    let reading = read(&records.bytes, stream, &mut list);
    let (entries, rest) = list.split_at(WORDS_PER_ENTRY * reading.entries as usize);
    assert!(rest.iter().all(|&word| word == PATTERN));
    (reading, entries.as_chunks().0.to_vec())
}

fn result(number: u64, entries: u64, place: u64) -> Reading {
    Reading { number, entries, place, first: 0, second: 0 }
}

fn payload(members: u8) -> Records {
    let mut records = Records::new();
    records.stream(0, 255).event(0, 0).root(5, members);
    records
}

/// The entries of the first event's payload members.
fn fields(records: &Records, stream: &[u8]) -> (u64, Vec<[u64; 4]>) {
    let (reading, entries) = run(records, stream, 8000);
    (reading.number, entries.into_iter().skip(6).collect())
}

#[test]
fn first_figure() {
    let mut records = payload(1);
    records.unsigned(8, NO_SLOT, 0);
    let expected = [
        [1, 0, 0, 0],
        [2, 0, 0, 0],
        [3, 0, 8, 8],
        [4, 0, 0, 0],
        [5, 0, 0, 0],
        [28, 0, 0, 1],
        [18, 0, 8, 42],
        [7, 8, 0, 1],
    ];
    let (reading, entries) = run(&records, &[42], 40);
    assert_eq!((reading, &entries[..]), (result(0, 8, 8), &expected[..]));
    let (reading, entries) = run(&records, &[42], 39);
    assert_eq!((reading, &entries[..]), (result(40, 7, 8), &expected[..7]));
    records.bytes.truncate(12);
    let (reading, entries) = run(&records, &[42], 40);
    assert_eq!((reading, &entries[..]), (result(37, 4, 0), &expected[..4]));
}

/// Each record counts, from 0 at the one that opens the fragment: roots, ranges, options and what an absent class holds too.
#[test]
fn numbers_of_records() {
    let mut records = Records::new();
    // Stream class 0, context 1 and 2 with a number 3, header 4 and 5 with a number 6.
    records.stream(0, 255).root(1, 1).unsigned(8, NO_SLOT, 0).root(2, 1).unsigned(8, 16, 0);
    // Event class 0, payload 1 and 2: a variant 3, its option 4 with two ranges 5 and 6 and a string 7, its option 8 with a
    // range 9 and an array 10 of a structure 11 with a number 12; behind it an optional 13 with a range 14 and a number 15; a number 16.
    records.event(0, 0).root(5, 3);
    records.put(&[32, 16, 2, 34, 2]).range(0, 1, 1).range(0, 2, 2).put(&[23]);
    records.put(&[34, 1]).range(0, 3, 3).put(&[29, 2, 0, 0, 28, 1, 0]).unsigned(8, NO_SLOT, 0);
    records.put(&[31, 16, 1]).range(0, 9, 9).unsigned(8, NO_SLOT, 0).unsigned(8, NO_SLOT, 0);
    let (reading, entries) = run_numbered(&records, &[0, 3, 0, 0, 0, 1, 0, 0], 8000);
    assert_eq!(reading.number, 0);
    let numbers: Vec<_> = entries.iter().map(|entry| (entry[0], entry[4])).collect();
    let first = [
        (1, 0),
        (2, 0),
        (28, 2),
        (18, 3),
        (3, 0),
        (4, 0),
        (28, 5),
        (18, 6),
        (5, 0),
        (28, 2),
        (32, 3),
    ];
    assert_eq!(numbers[..11], first);
    let array = [(29, 10), (28, 11), (18, 12), (28, 11), (18, 12), (31, 13), (18, 16), (4, 0)];
    assert_eq!(numbers[11..19], array);
    assert_eq!(
        numbers[19..],
        [(28, 5), (18, 6), (5, 0), (28, 2), (32, 3), (23, 7), (31, 13), (18, 16), (7, 0)]
    );
}

#[test]
fn every_shorter_list() {
    let mut records = payload(1);
    records.unsigned(8, NO_SLOT, 0);
    for words in 0..40 {
        let (reading, _) = run(&records, &[42], words);
        assert_eq!((reading.number, reading.entries), (40, words as u64 / 5));
    }
}

#[test]
fn table_and_stream_refused() {
    let reading = Reading { number: 20, entries: 0, place: 0, first: 5, second: 0 };
    assert_eq!(run(&Records { bytes: vec![1, 3] }, &[], 0).0, reading);
    assert_eq!(run(&Records::new(), &[], 0).0, result(21, 0, 0));
    assert_eq!(run(&Records::new(), &[1], 4).0, result(40, 0, 0));
    assert_eq!(run(&Records::new(), &[1], 9).0, result(40, 1, 0));
    assert_eq!(run(&Records::new(), &[1], 10).0, result(33, 1, 0));
    let large = vec![0; MOST_STREAM_BYTES + 1];
    assert_eq!(run(&Records::new(), &large, 10).0, result(21, 0, 0));
    assert_eq!(run(&Records::new(), &large[1..], 10).0, result(33, 1, 0));
}

#[test]
fn the_longest_stream() {
    // Zero bytes in BLOBs, which no reading looks at. The last BLOB would end above 2 to the 32.
    let stream = vec![0; 536_870_911];
    let bits = 8 * stream.len() as u64;
    let mut records = payload(1);
    records.static_blob(65_535, 0);
    let (reading, entries) = run(&records, &stream, WORDS_PER_ENTRY * 33_000);
    assert_eq!(reading, result(22, 3 + 4 * 8192 + 3, bits));
    assert_eq!(entries.last(), Some(&[28, 8 * 65_535 * 8192, 0, 1]));
    // A structure in which they all stand, and at its end one that would be aligned to 2 to the 32.
    for (align, expected) in [(0, result(0, 8202, bits)), (6, result(22, 8200, bits))] {
        let mut records = payload(3);
        records.static_array(8192, 0).static_blob(65_535, 0).static_blob(8191, 0);
        records.structure(0, align);
        assert_eq!(run(&records, &stream, WORDS_PER_ENTRY * 9000).0, expected);
    }
}

#[test]
fn strings_and_blobs() {
    let mut records = payload(5);
    records.unsigned(8, 16, 0).put(&[26, 16, 27, 16, 23]).static_string(2);
    let (number, entries) = fields(&records, &[2, b'a', 0, 1, 2, b'h', b'i', 0, 0, 9]);
    assert_eq!(number, 0);
    let expected =
        [[18, 0, 8, 2], [26, 8, 16, 1], [27, 24, 16, 2], [23, 40, 24, 2], [24, 64, 16, 0]];
    assert_eq!(entries[..5], expected);
    assert_eq!(fields(&records, &[2, 1, 1, 1, 1, 1]).0, 25);
    assert_eq!(fields(&records, &[2, 1, 1, 1]).0, 22);
}

#[test]
fn slots_of_the_wrong_sort() {
    for (setter, reader, number) in [
        (&[23][..], &[26, 16][..], 26),
        (&[17, 8, 0, 0, 16], &[26, 16], 27),
        (&[19, 8, 0, 0, 16], &[30, 16, 0, 23], 27),
        (&[22, 16], &[27, 16], 27),
        (&[18, 8, 0, 0, 16, 0], &[31, 16, 0, 23], 27),
        (&[17, 8, 0, 0, 16], &[31, 16, 0, 23], 0),
    ] {
        assert_eq!(fields(payload(2).put(setter).put(reader), &[0]).0, number);
    }
}

#[test]
fn elements_forget() {
    // A flag, what it announces and a string of that length: the second element announces nothing.
    let mut records = payload(1);
    records.static_array(2, 0).structure(3, 0);
    records.put(&[17, 8, 0, 0, 16, 31, 16, 0]).unsigned(8, 17, 0).put(&[26, 17]);
    let (reading, entries) = run(&records, &[1, 1, b'x', 0], 8000);
    assert_eq!(reading, result(26, entries.len() as u64, 32));
    assert_eq!(entries.last(), Some(&[31, 32, 0, 0]));
    assert_eq!(fields(&records, &[1, 1, b'x', 1, 0]).0, 0);
    // The first member sees nothing of the element before.
    let mut records = payload(1);
    records.static_array(2, 0).structure(2, 0).put(&[26, 16]).unsigned(8, 16, 0);
    assert_eq!(run(&records, &[1, 1], 8000).0.number, 26);
}

#[test]
fn slots_are_unset_behind_the_array() {
    // The element's own class is inside the element.
    let mut records = payload(2);
    records.static_array(1, 0).unsigned(8, 16, 0).put(&[26, 16]);
    assert_eq!(run(&records, &[0], 8000).0, result(26, 8, 8));
    // An inner element's slot is unset in the outer one, and the outer one's is not.
    for (slot, number) in [(16, 0), (17, 26)] {
        let mut records = payload(1);
        records.static_array(1, 0).structure(3, 0).unsigned(8, 16, 0);
        records.put(&[30, 16, 0]).unsigned(8, 17, 0).put(&[26, slot]);
        assert_eq!(fields(&records, &[1, 0, b'x']).0, number);
    }
    // What was set before the array stays, in its elements and behind it.
    let mut records = payload(3);
    records.unsigned(8, 16, 0).put(&[30, 16, 0]).structure(2, 0).unsigned(8, 17, 0);
    records.put(&[26, 16, 26, 16]);
    assert_eq!(fields(&records, &[1, 9, b'x', b'y']).0, 0);
    // An array whose elements alone set its length has none.
    assert_eq!(fields(payload(1).put(&[30, 16, 0]).unsigned(8, 16, 0), &[1]).0, 26);
}

#[test]
fn slots_are_unset_behind_the_root() {
    let mut records = Records::new();
    records.stream(0, 255).root(1, 1).static_array(1, 0).unsigned(8, 0, 0);
    records.root(3, 1).static_array(2, 0).structure(2, 0).unsigned(8, 16, 0);
    records.put(&[30, 16, 0, 16, 8, 0, 0]).event(0, 0).root(5, 1);
    assert_eq!(run(records.clone().put(&[26, 16]), &[0, 0, 0], 8000).0.number, 26);
    assert_eq!(run(records.clone().put(&[26, 0]), &[0, 0, 0], 8000).0.number, 26);
    assert_eq!(run(records.put(&[23]), &[0, 0, 0, 0], 8000).0.number, 0);
}

#[test]
fn lengths_up_to_65535() {
    let mut records = payload(2);
    records.unsigned(32, 16, 0).put(&[30, 16, 0]).structure(0, 0);
    let (reading, entries) = run(&records, &65_535u32.to_le_bytes(), WORDS_PER_ENTRY * 65_550);
    assert_eq!((reading.number, reading.entries), (0, 65_544));
    assert_eq!(entries[7], [30, 32, 0, 65_535]);
    let (reading, _) = run(&records, &65_536u32.to_le_bytes(), WORDS_PER_ENTRY * 65_550);
    assert_eq!(reading, result(28, 7, 32));
}

#[test]
fn variants_and_optionals() {
    let mut records = payload(3);
    records.put(&[19, 8, 0, 0, 16, 32, 16, 2, 34, 1]).range(1, -5i64 as u64, -1i64 as u64);
    records.put(&[23, 34, 2]).range(1, 0, 3).range(1, 2, 5);
    records.structure(0, 0).put(&[31, 16, 1]).range(1, 5, 5).structure(0, 0);
    let (_, entries) = fields(&records, &[0xff, 0]);
    assert_eq!(entries[1..4], [[32, 8, 0, 0], [23, 8, 8, 0], [31, 16, 0, 0]]);
    let (_, entries) = fields(&records, &[5]);
    assert_eq!(entries[1..5], [[32, 8, 0, 1], [28, 8, 0, 0], [31, 8, 0, 1], [28, 8, 0, 0]]);
    assert_eq!(fields(&records, &[6]).0, 29);
    assert_eq!(fields(&records, &[0xfa]).0, 29);
}

#[test]
fn byte_order_changes_at_bytes_only() {
    let mut records = payload(3);
    records.put(&[16, 4, 0, 0, 16, 4, 1, 0]).unsigned(8, NO_SLOT, 0);
    assert_eq!(run(&records, &[0, 0], 8000).0, result(23, 7, 4));
    let mut records = payload(2);
    records.put(&[16, 8, 0, 0, 16, 8, 1, 0]);
    assert_eq!(fields(&records, &[0, 0]).0, 0);
    // A string between two fields brings the place to a byte.
    let mut records = payload(3);
    records.put(&[16, 4, 0, 0, 23, 16, 8, 1, 0]);
    assert_eq!(fields(&records, &[0, 0, 0]).0, 0);
}

#[test]
fn alignment_of_parts() {
    // A structure takes the alignment of its members, an optional none of its class.
    let mut records = payload(3);
    records.put(&[17, 1, 0, 0, 16]).structure(1, 0).static_array(0, 0);
    records.put(&[16, 8, 0, 5, 31, 16, 0, 16, 8, 0, 6]);
    let (number, entries) = fields(&records, &[1, 0, 0, 0, 0, 0, 0, 0, 7]);
    assert_eq!(number, 0);
    let expected = [[17, 0, 1, 1], [28, 32, 0, 1], [29, 32, 0, 0], [31, 32, 0, 1], [16, 64, 8, 7]];
    assert_eq!(entries[..5], expected);
    assert_eq!(run(&records, &[1, 0, 0], 8000).0, result(22, 7, 24));
}

#[test]
fn places_of_bounds() {
    let records = clocked();
    // The content ends inside the only event's byte, or the stream inside the context.
    let stream = packet(72, 71, 0, 0, &[7]);
    assert_eq!(run(&records, &stream, 8000).0, result(22, 11, 71));
    assert_eq!(run(&records, &stream[..7], 8000).0, result(22, 7, 56));
    // A number that begins inside a byte: past the bound, or too large at its tenth byte.
    let mut records = payload(2);
    records.put(&[16, 4, 0, 0, 21, NO_SLOT, 0]);
    let mut stream = [0x80; 11];
    assert_eq!(run(&records, &stream[..10], 8000).0, result(22, 7, 80));
    assert_eq!(run(&records, &stream, 8000).0, result(24, 7, 80));
    stream[10] = 2;
    assert_eq!(run(&records, &stream, 8000).0, result(24, 7, 80));
    // No zero byte is still at the string, before its alignment.
    let mut records = payload(2);
    records.put(&[16, 4, 0, 0, 23]);
    assert_eq!(run(&records, &[0, 1], 8000).0, result(25, 7, 4));
}

/// A context with total, content, clock and end clock of 16 bits each, events of one byte.
fn clocked() -> Records {
    let mut records = Records::new();
    records.clock(3, 1000).stream(0, 3).root(1, 4);
    for role in [5, 6, 7, 8] {
        records.unsigned(16, NO_SLOT, role);
    }
    records.root(2, 1).unsigned(8, NO_SLOT, 7).event(0, 0);
    records
}

fn packet(total: u16, content: u16, clock: u16, end: u16, events: &[u8]) -> Vec<u8> {
    let mut bytes = Vec::new();
    [total, content, clock, end].iter().for_each(|word| bytes.extend(word.to_le_bytes()));
    bytes.extend(events);
    bytes
}

#[test]
fn packets_and_clocks() {
    let records = clocked();
    let mut stream = packet(88, 80, 250, 900, &[255, 5, 99]);
    stream.extend(packet(72, 72, 261, 261, &[5]));
    let (reading, entries) = run(&records, &stream, 8000);
    assert_eq!(reading, result(0, entries.len() as u64, 160));
    let clocks: Vec<_> = entries.iter().filter(|entry| entry[0] == 6).map(|e| e[3]).collect();
    assert_eq!(clocks, [250, 255, 261, 261, 261]);
    let ends: Vec<_> = entries.iter().filter(|entry| entry[0] == 7).collect();
    assert_eq!(ends, [&[7, 88, 8, 2], &[7, 160, 0, 1]]);
    // The second packet's clock starts from 0 and its event is earlier than the last.
    let at = stream.len() - 5;
    stream[at..at + 2].copy_from_slice(&4u16.to_le_bytes());
    assert_eq!(run(&records, &stream, 8000).0.number, 39);
}

#[test]
fn contradicting_lengths_and_clocks() {
    let records = clocked();
    for (total, content, clock, end, number) in [
        (72, 72, 5, 5, 0),
        (72, 72, 6, 5, 35),
        (71, 70, 0, 0, 34),
        (72, 73, 6, 5, 34),
        (80, 72, 0, 0, 34),
        (72, 63, 0, 0, 34),
        (72, 64, 0, 0, 0),
        (72, 71, 0, 0, 22),
    ] {
        let stream = packet(total, content, clock, end, &[7]);
        assert_eq!(run(&records, &stream, 8000).0.number, number, "{total} {content}");
    }
}

#[test]
fn headers() {
    let mut records = Records::new();
    records.trace(Some([9; 16])).root(0, 3).unsigned(32, NO_SLOT, 1).static_blob(16, 4);
    records.unsigned(8, NO_SLOT, 2).stream(3, 255).root(1, 1).unsigned(8, NO_SLOT, 5);
    let mut stream = vec![0xc1, 0x1f, 0xfc, 0xc1];
    stream.extend([9; 16]);
    stream.extend([3, 176]);
    assert_eq!(run(&records, &stream, 8000).0, result(0, 10, 176));
    let mut twice = [&stream[..], &stream[..]].concat();
    assert_eq!(run(&records, &twice, 8000).0.number, 0);
    twice[22 + 20] = 4;
    assert_eq!(run(&records, &twice, 8000).0, result(32, 15, 176 + 168));
    stream[20] = 4;
    let unknown = Reading { number: 33, entries: 5, place: 168, first: 4, second: 0 };
    assert_eq!(run(&records, &stream, 8000).0, unknown);
    stream[19] = 8;
    assert_eq!(run(&records, &stream, 8000).0, result(31, 4, 160));
    stream[0] = 0;
    assert_eq!(run(&records, &stream, 8000).0, result(30, 3, 32));
}

#[test]
fn events_of_no_bits() {
    assert_eq!(run(&payload(0), &[0], 8000).0, result(38, 6, 0));
    let mut records = Records::new();
    records.stream(0, 255).root(2, 1).put(&[21, 255, 11]);
    let unknown = Reading { number: 37, entries: 6, place: 16, first: 0, second: 1 };
    assert_eq!(run(&records, &[0x81, 0], 8000).0, unknown);
}
