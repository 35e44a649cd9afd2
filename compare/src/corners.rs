//! Small cases where two rules touch: what is kept from event to event, which of
//! two faults of a field comes first, where roots and roles may stand.

use crate::case::Case;
use crate::damage::random_record;
use crate::random::Random;
use crate::records::{Records, NO_SLOT};

const ROOM: usize = 8000;

pub fn corner(random: &mut Random) -> Case {
    let (records, stream) = match random.below(12) {
        0 => kept_slots(random),
        1 | 2 => kept_roles(random),
        3..=5 => faults_of_a_field(random),
        6 => roles(random),
        7 => roots(random),
        8 => fragments(random),
        _ => faults_of_a_record(random),
    };
    Case::new(records.bytes, stream, ROOM)
}

/// An optional on a flag of a byte in `slot`, with the class that follows.
fn flagged(records: &mut Records, slot: u8) -> &mut Records {
    records.put(&[17, 8, 0, 0, slot]).put(&[31, slot, 0])
}

/// A class that reads a slot as any of the sorts.
fn slot_reader(random: &mut Random, records: &mut Records, slot: u8) {
    let align = random.pick(&[0, 0, 3, 6]);
    match random.below(7) {
        0 => records.put(&[26, slot]),
        1 => records.put(&[27, slot]),
        2 => records.put(&[30, slot, align, 16, 8, 0, align]),
        3 => records.put(&[31, slot, 0, 16, 8, 0, align]),
        4 => records.put(&[31, slot, 1]).range(0, 0, 1).put(&[16, 8, 0, align]),
        5 => records.put(&[32, slot, 1, 34, 1]).range(1, 0, 1).put(&[16, 8, 0, align]),
        _ => records.put(&[32, slot, 1, 34, 1]).range(0, 0, 1).put(&[16, 8, 0, align]),
    };
}

/// Packets and events that set slots or leave them unset.
fn kept_slots(random: &mut Random) -> (Records, Vec<u8>) {
    let mut records = Records::new();
    records.trace(None).root(0, 2);
    flagged(&mut records, 0).unsigned(8, 2, 0);
    records.stream(0, 255).root(1, 3).unsigned(16, NO_SLOT, 5);
    flagged(&mut records, 1).unsigned(8, 3, 0).root(2, 2);
    match random.chance(70) {
        true => flagged(&mut records, 16).unsigned(8, 17, 0),
        false => flagged(&mut records, 16).put(&[19, 8, 0, 0, 17]),
    };
    records.event(0, 0).root(5, 1);
    let slot = random.pick(&[2, 3, 17, 17]);
    slot_reader(random, &mut records, slot);
    let mut stream = Vec::new();
    for _ in 0..random.between(1, 3) {
        let mut packet = Vec::new();
        flag(random, &mut packet, 60, 1);
        let total_at = packet.len();
        packet.extend([0, 0]);
        flag(random, &mut packet, 60, 1);
        for _ in 0..random.below(4) {
            flag(random, &mut packet, 60, 1);
            packet.push(random.below(2) as u8);
        }
        let total = 8 * packet.len() as u16;
        packet[total_at..total_at + 2].copy_from_slice(&total.to_le_bytes());
        stream.extend(packet);
    }
    (records, stream)
}

/// A flag of a byte and, in `part` of 100 cases, the byte it announces.
fn flag(random: &mut Random, packet: &mut Vec<u8>, part: usize, value: u8) -> bool {
    let is_there = random.chance(part);
    packet.push(is_there as u8);
    if is_there {
        packet.push(value);
    }
    is_there
}

/// Packets and events that state ids, lengths and clocks or leave them out.
fn kept_roles(random: &mut Random) -> (Records, Vec<u8>) {
    let mut records = Records::new();
    records.trace(None).root(0, 2);
    flagged(&mut records, 0).unsigned(8, NO_SLOT, 2).clock(0, 1);
    let second = random.pick(&[7, 8, 11]);
    for id in 0..2 {
        records.stream(id, 0).root(1, 7).unsigned(8, NO_SLOT, 5);
        for role in [6, 7, 8] {
            flagged(&mut records, 1).unsigned(8, NO_SLOT, role);
        }
        let role = if second == 8 { 7 } else { second };
        records.root(2, 2);
        flagged(&mut records, 16).unsigned(8, NO_SLOT, role);
        for event in 0..2 {
            records.event(id, event).root(5, 1).put(&[16, 8, 0, 0]);
        }
    }
    let id = random.below(2) as u8;
    let by_id = if random.chance(50) { 100 } else { 60 } * id as usize;
    let mut clock = random.below(4) as u8;
    let mut stream = Vec::new();
    for _ in 0..random.between(2, 4) {
        let mut packet = Vec::new();
        flag(random, &mut packet, by_id, id);
        let total_at = packet.len();
        packet.push(0);
        let states_content = flag(random, &mut packet, 40, 0);
        clock += random.below(4) as u8;
        flag(random, &mut packet, 80, clock);
        flag(random, &mut packet, 40, clock + 1);
        for _ in 0..random.below(3) {
            let value = if second == 11 { random.below(2) as u8 } else { clock };
            flag(random, &mut packet, 60, value);
            packet.push(random.byte());
        }
        let total = 8 * packet.len() as u8;
        packet[total_at] = total;
        if states_content {
            packet[total_at + 2] = total;
        }
        stream.extend(packet);
    }
    (records, stream)
}

/// Fields near the bound with several faults at once.
fn faults_of_a_field(random: &mut Random) -> (Records, Vec<u8>) {
    let mut records = Records::new();
    records.stream(0, 255);
    let bytes = random.between(1, 7);
    let mut stream = Vec::new();
    if random.chance(60) {
        // The content may end inside a byte.
        records.root(1, 2).unsigned(8, NO_SLOT, 5).unsigned(8, NO_SLOT, 6);
        let content = if random.chance(50) { random.below(8) } else { random.below(8 * bytes + 1) };
        stream.extend([16 + 8 * bytes as u8, 16 + content as u8]);
    }
    stream.extend((0..bytes).map(|_| random.pick(&[0, 1, 3, 0x80, 0xff])));
    records.event(0, 0).root(5, 4);
    match random.below(3) {
        0 => records.put(&[16, random.between(1, 9) as u8, 0, 0]),
        1 => records.put(&[17, random.between(1, 4) as u8, 0, 0, 16]),
        _ => records.unsigned(random.between(1, 4) as u8, random.pick(&[16, 17]), 0),
    };
    for _ in 0..3 {
        let (length, order, align) =
            (random.between(1, 40) as u8, random.below(2) as u8, random.pick(&[0, 0, 1, 3, 5]));
        let slot = random.pick(&[16, 17, NO_SLOT]);
        match random.below(9) {
            0 => records.put(&[17, length.min(9), order, align, slot]),
            1 => records.put(&[18, length.min(17), order, align, slot, 0]),
            2 => records.put(&[19, length.min(3), order, align, slot]),
            3 => records.put(&[16, length, order, align]),
            4 => records.put(&[23]),
            5 => records.put(&[22, slot]),
            _ => {
                slot_reader(random, &mut records, 16);
                &mut records
            }
        };
    }
    (records, stream)
}

/// Any role on any kind, in any root and place of it.
fn roles(random: &mut Random) -> (Records, Vec<u8>) {
    let mut records = Records::new();
    let uuid = random.chance(60).then_some([3; 16]);
    records.clock(4, 9).trace(uuid);
    let root = random.pick(&[0, 0, 1, 2, 3, 5]);
    let clock = if random.chance(70) { 4 } else { 255 };
    match root {
        0 => &mut records,
        1..=3 => records.stream(0, clock),
        _ => records.stream(0, clock).event(0, 0),
    };
    let second = random.chance(30);
    records.root(root, 1 + second as u8);
    if second {
        records.put(&[23]);
    }
    let nested = random.below(6);
    match nested {
        0 => records.structure(1, 0),
        1 => records.static_array(1, 0),
        2 => records.structure(2, 0).put(&[23]),
        _ => &mut records,
    };
    let role = match (root, random.chance(60)) {
        (0, _) if nested < 3 => 1,
        (0, true) => random.pick(&[1, 1, 2, 3, 4, 4]),
        (1, true) => random.between(5, 10) as u8,
        (2, true) => random.pick(&[7, 8, 11]),
        _ => random.below(13) as u8,
    };
    match random.below(5) {
        0 => records.put(&[21, NO_SLOT, role]),
        1 => records.static_blob(random.pick(&[16, 16, 15, 17, 0]), role),
        _ if role == 4 => records.static_blob(16, role),
        _ => records.unsigned(random.pick(&[32, 32, 32, 32, 32, 31, 33, 64]), NO_SLOT, role),
    };
    if root == 0 {
        records.stream(0, clock).event(0, 0);
    }
    let mut stream = vec![0xc1, 0x1f, 0xfc, 0xc1];
    stream.extend((0..random.below(30)).map(|_| random.pick(&[0, 3, 3, 3])));
    (records, stream)
}

/// Clock, stream and event classes with few ids, so that they repeat or are missing.
fn fragments(random: &mut Random) -> (Records, Vec<u8>) {
    let mut records = Records::new();
    for _ in 0..random.between(1, 6) {
        let clock = random.pick(&[0, 1, 2, 254, 255]);
        let (stream, event) = (random.below(3) as u64, random.below(3) as u64);
        match random.below(8) {
            0 => records.trace(None),
            1 => records.put(&[2, random.below(3) as u8]).put(&[0; 16]),
            2 | 3 => records.clock(clock, random.pick(&[0, 1, 1, u64::MAX])),
            4 | 5 => records.stream(stream, random.pick(&[clock, 255])),
            _ => records.event(stream, event),
        };
    }
    (records, vec![0])
}

/// A record of edge values at any depth up to 9, so that it may have several faults.
fn faults_of_a_record(random: &mut Random) -> (Records, Vec<u8>) {
    let mut records = Records::new();
    records.clock(0, 1).trace(Some([3; 16]));
    let root = random.pick(&[0, 1, 2, 5]);
    match root {
        0 => &mut records,
        5 => records.stream(0, 0).event(0, 0),
        _ => records.stream(0, 0),
    };
    records.root(root, 1);
    let slot = random.pick(&[0, 0, 16]);
    for _ in 0..random.pick(&[0, 1, 6, 7, 7]) {
        match random.below(4) {
            0 => records.static_array(1, 0),
            1 => records.put(&[31, slot, 0]),
            _ => records.structure(1, 0),
        };
    }
    let kind = if random.chance(85) { Some(random.between(16, 32) as u8) } else { None };
    let record = if random.chance(50) { random_record(random, kind) } else { near_record(random) };
    records.put(&record).put(&[23, 23]);
    (records, vec![0])
}

/// A record whose numbers are mostly right, so that two faults of it compete.
fn near_record(random: &mut Random) -> Vec<u8> {
    let slot = random.pick(&[0, 16, 64, 254, 255]);
    let role = random.pick(&[0, 0, 1, 2, 4, 7, 11, 12, 255]);
    let order = random.pick(&[0, 0, 1, 1, 2]);
    match random.below(7) {
        0 => vec![20, random.pick(&[31, 32, 33, 48, 63, 64]), order, 0],
        1 => vec![21, slot, role],
        2 => vec![25, random.pick(&[15, 16]), 0, role],
        3 => vec![30, slot, random.pick(&[0, 6, 7])],
        _ => vec![18, random.pick(&[32, 32, 32, 32, 0, 65]), order, 0, slot, role],
    }
}

/// Roots of all numbers under fragments of all kinds.
fn roots(random: &mut Random) -> (Records, Vec<u8>) {
    let mut records = Records::new();
    let fragment = random.below(5);
    if random.chance(50) {
        records.trace(None);
    }
    match fragment {
        0 => &mut records,
        1 => records.clock(0, 1),
        2 => records.stream(0, 255),
        3 => records.stream(0, 255).event(0, 0),
        _ => records.clock(0, 1).stream(0, 0),
    };
    let mut next = random.pick(&[0, 1, 1, 4, 4]);
    for _ in 0..random.between(1, 4) {
        let root = if random.chance(60) { next } else { random.below(8) as u8 };
        next = root + 1;
        records.root(root, 0);
    }
    (records, vec![0])
}

#[cfg(test)]
mod tests {
    use super::*;

    #[test]
    fn corners_reach_many_numbers() {
        let mut random = Random::new(31);
        let mut numbers = std::collections::BTreeSet::new();
        for _ in 0..4000 {
            let answer = corner(&mut random).answer();
            numbers.extend([answer.check.0, answer.reading.number]);
        }
        for number in [0, 7, 8, 9, 10, 12, 14, 22, 23, 25, 26, 27, 29, 32, 34, 39] {
            assert!(numbers.contains(&number), "{number} in {numbers:?}");
        }
    }
}
