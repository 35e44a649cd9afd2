//! Packets stand on their own: an accepted stream of two or more packets, with
//! any one of them removed, is accepted with the same room, and its list is the
//! old one without that packet's entries, later places lower by its total length
//! and later packet numbers lower by one. The list itself shows where a packet
//! is and how long.

use crate::case::{next_bytes, next_number, Answer, Case};
use crate::reader::{Entry, Reading};
use std::ops::Range;

const PACKET_STARTS: u64 = 1;
const LENGTHS_SETTLED: u64 = 3;

/// A packet as a list shows it.
struct Packet {
    entries: Range<usize>,
    place: u64,
    total: u64,
}

fn packets(list: &[Entry]) -> Vec<Packet> {
    let kinds = list.iter().enumerate();
    let starts: Vec<usize> =
        kinds.filter(|(_, entry)| entry[0] == PACKET_STARTS).map(|(index, _)| index).collect();
    let ends = starts.iter().skip(1).copied().chain([list.len()]);
    starts
        .iter()
        .zip(ends)
        .filter_map(|(&start, end)| {
            let lengths = list[start..end].iter().find(|entry| entry[0] == LENGTHS_SETTLED)?;
            Some(Packet { entries: start..end, place: list[start][1], total: lengths[2] })
        })
        .collect()
}

/// The case without the bytes of a packet.
fn cut(case: &Case, packet: &Packet) -> Case {
    let (from, to) = (packet.place / 8, (packet.place + packet.total) / 8);
    let stream = [&case.stream[..from as usize], &case.stream[to as usize..]].concat();
    Case::new(case.table.clone(), stream, case.words)
}

/// The next case of a file with the number of a packet in its head; `None` at its end or if it is
/// cut.
pub fn next_removal(file: &mut &[u8]) -> Option<(Case, usize)> {
    let (table, stream, words) = (next_number(file)?, next_number(file)?, next_number(file)?);
    let number = next_number(file)?;
    Some((Case::new(next_bytes(file, table)?, next_bytes(file, stream)?, words), number))
}

/// The case without the packet that has a number, as the list of its answer shows it.
pub fn without(case: &Case, full: &Answer, number: usize) -> Option<Case> {
    packets(&full.entries).get(number).map(|packet| cut(case, packet))
}

/// The case without a packet, and the answer that is due.
fn removed(case: &Case, full: &Answer, packet: &Packet) -> (Case, Answer) {
    let mut entries = full.entries[..packet.entries.start].to_vec();
    for &[kind, place, bits, value, record] in &full.entries[packet.entries.end..] {
        let number = if kind == PACKET_STARTS { value - 1 } else { value };
        entries.push([kind, place - packet.total, bits, number, record]);
    }
    let reading = Reading {
        number: 0,
        entries: entries.len() as u64,
        place: full.reading.place - packet.total,
        first: 0,
        second: 0,
    };
    let answer = Answer { check: full.check, reading, entries };
    (cut(case, packet), answer)
}

/// Each packet of an accepted case of two or more removed once.
pub fn without_each(case: &Case, full: &Answer) -> Vec<(Case, Answer)> {
    let packets = packets(&full.entries);
    match full.reading.number == 0 && packets.len() > 1 {
        true => packets.iter().map(|packet| removed(case, full, packet)).collect(),
        false => Vec::new(),
    }
}

#[cfg(test)]
mod tests {
    use super::*;
    use crate::records::{Records, NO_SLOT};

    /// Packets of a total length and a byte, as many as are asked for.
    fn case(packets: u8) -> Case {
        let mut records = Records::new();
        records.stream(0, 255).root(1, 1).unsigned(8, NO_SLOT, 5);
        records.event(0, 0).root(5, 1).unsigned(8, NO_SLOT, 0);
        Case::new(records.bytes, (0..packets).flat_map(|n| [16, n]).collect(), 400)
    }

    #[test]
    fn each_is_removed() {
        let case = case(3);
        let pairs = without_each(&case, &case.answer());
        let streams: Vec<&[u8]> = pairs.iter().map(|(case, _)| &case.stream[..]).collect();
        assert_eq!(streams, [&[16, 1, 16, 2][..], &[16, 0, 16, 2], &[16, 0, 16, 1]]);
        for (shorter, due) in &pairs {
            assert_eq!(shorter.answer(), *due);
        }
    }

    #[test]
    fn one_stays() {
        let one = case(1);
        assert!(without_each(&one, &one.answer()).is_empty());
        let mut refused = case(2);
        refused.stream.pop();
        assert!(without_each(&refused, &refused.answer()).is_empty());
    }
}
