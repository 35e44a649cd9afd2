//! Cases at the edges of the limits, made by hand rather than by luck.

use crate::case::Case;
use crate::damage::random_record;
use crate::encode::leb;
use crate::random::Random;
use crate::records::{Records, NO_SLOT};

const ROOM: usize = 8000;

fn payload(members: u8) -> Records {
    let mut records = Records::new();
    records.stream(0, 255).event(0, 0).root(5, members);
    records
}

fn case(records: Records, stream: Vec<u8>) -> Case {
    Case::new(records.bytes, stream, ROOM)
}

fn noise(random: &mut Random, count: usize) -> Vec<u8> {
    (0..count).map(|_| random.byte()).collect()
}

/// An edge case of a few bytes.
pub fn small_edge(random: &mut Random) -> Case {
    match random.below(11) {
        0 | 8 => leb_edge(random),
        9 | 10 => text_edge(random),
        1 => clock_edge(random),
        2 => depth_edge(random),
        3 => count_edge(random),
        4 => length_edge(random),
        5 => record_soup(random),
        6 => bound_edge(random),
        _ => many_fragments(random),
    }
}

/// Bytes at the borders of RFC 3629's rows, as text or cut, behind a field that may leave the byte.
fn text_edge(random: &mut Random) -> Case {
    const FIRST: [u8; 18] = [
        0x7f, 0x80, 0xbf, 0xc0, 0xc1, 0xc2, 0xdf, 0xe0, 0xe1, 0xec, 0xed, 0xee, 0xef, 0xf0, 0xf1,
        0xf3, 0xf4, 0xf5,
    ];
    const OTHER: [u8; 10] = [0, 0x7f, 0x80, 0x8f, 0x90, 0x9f, 0xa0, 0xbf, 0xc0, 0xff];
    let mut text = Vec::new();
    for _ in 0..random.below(3) {
        text.extend(random.character());
    }
    text.push(random.pick(&FIRST));
    (0..random.below(4)).for_each(|_| text.push(random.pick(&OTHER)));
    for _ in 0..random.below(3) {
        text.extend(random.character());
    }
    let mut records = payload(2);
    let mut stream = vec![text.len() as u8];
    match random.below(3) {
        0 => records.unsigned(random.between(1, 8) as u8, NO_SLOT, 0).put(&[23]),
        1 => records.unsigned(8, NO_SLOT, 0).static_string(text.len() as u16),
        _ => records.unsigned(8, 16, 0).put(&[26, 16]),
    };
    stream.extend(text);
    stream.extend(&[0, 0x80][..random.below(3)]);
    case(records, stream)
}

/// LEB128 numbers of nine to eleven bytes.
fn leb_edge(random: &mut Random) -> Case {
    let mut records = payload(1);
    match random.below(2) {
        0 => records.put(&[21, NO_SLOT, 0]),
        _ => records.put(&[22, NO_SLOT]),
    };
    let fill = random.pick(&[0x80, 0xff, 0xfe, 0xc0]);
    let mut stream = vec![fill; random.pick(&[7, 8, 9, 9, 9, 9, 10])];
    stream.push(random.pick(&[0, 1, 2, 0x3f, 0x40, 0x7e, 0x7f, 0x80, 0x81, 0xff]));
    stream.truncate(random.pick(&[8, 9, 10, 10, 10, 11]));
    case(records, stream)
}

/// Clocks near 2 to the 64, timestamps of all lengths.
fn clock_edge(random: &mut Random) -> Case {
    let mut records = Records::new();
    records.clock(0, 1).stream(0, 0).root(1, 1).unsigned(64, NO_SLOT, 7).root(2, 1);
    let length = random.pick(&[1, 7, 8, 16, 32, 63, 64]);
    let by_leb = random.chance(40);
    match by_leb {
        true => records.put(&[21, NO_SLOT, 7]),
        false => records.put(&[18, length, random.below(2) as u8, 3, NO_SLOT, 7]),
    };
    records.event(0, 0);
    let base = random.pick(&[u64::MAX, u64::MAX - 1, 250, 261, 5, 1 << 63, u64::MAX - 255]);
    let mut stream = base.to_le_bytes().to_vec();
    for _ in 0..random.between(1, 4) {
        let stamp = base.wrapping_add(random.pick(&[0, 1, u64::MAX, 256, 5]));
        if by_leb {
            stream.extend(leb(stamp & random.edge_word(), false, random.between(1, 10)));
        } else {
            stream.extend(&stamp.to_le_bytes()[..(length as usize).div_ceil(8)]);
        }
    }
    case(records, stream)
}

/// A class at a depth of 7 to 9 within containers of all kinds.
pub fn depth_edge(random: &mut Random) -> Case {
    let mut records = payload(2);
    records.unsigned(8, 16, 0);
    for _ in 0..random.between(5, 7) {
        match random.below(5) {
            0 => records.structure(1, 0),
            1 => records.static_array(random.between(1, 2) as u16, 0),
            2 => records.put(&[30, 16, 0]),
            3 => records.put(&[31, 16, 1]).range(0, 1, 9),
            _ => records.put(&[32, 16, 1, 34, 1]).range(0, 0, 9),
        };
    }
    match random.below(3) {
        0 => records.structure(0, 0),
        1 => records.put(&[23]),
        _ => records.unsigned(8, random.pick(&[16, 17]), 0),
    };
    let mut stream = vec![random.between(0, 2) as u8];
    stream.extend((0..random.below(100)).map(|_| random.below(2) as u8));
    case(records, stream)
}

/// Counts of members, options and ranges at their limits.
fn count_edge(random: &mut Random) -> Case {
    let mut records = payload(2);
    records.unsigned(8, 16, 0);
    let over = random.chance(30) as u8;
    match random.below(3) {
        0 => {
            records.structure(64 + over, 0);
            for _ in 0..64 + over {
                records.unsigned(4, NO_SLOT, 0);
            }
        }
        1 => {
            records.put(&[31, 16, 16 + over]);
            for low in 0..(16 + over) as u64 {
                records.range(0, low * 16, low * 16 + random.below(20) as u64);
            }
            records.put(&[23]);
        }
        _ => {
            records.put(&[32, 16, 32 + over]);
            for low in 0..(32 + over) as u64 {
                records.put(&[34, 1]).range(0, low * 8, low * 8 + random.between(5, 8) as u64);
                records.unsigned(8, NO_SLOT, 0);
            }
        }
    }
    let length = random.between(1, 60);
    case(records, noise(random, length))
}

/// Lengths about 65,535 of strings, BLOBs and arrays, the stream being short.
fn length_edge(random: &mut Random) -> Case {
    let mut records = payload(2);
    let by_leb = random.chance(50);
    match by_leb {
        true => records.put(&[21, 16, 0]),
        false => records.unsigned(32, 16, 0),
    };
    match random.below(4) {
        0 => records.put(&[26, 16]),
        1 => records.put(&[27, 16]),
        2 => records.put(&[30, 16, 0]).structure(0, 0),
        _ => records.put(&[30, 16, 0, 16, 1, 0, 0]),
    };
    let length = random.pick(&[0, 1, 1000, 65_534, 65_535, 65_536, 65_537, 1 << 31]);
    let mut stream = match by_leb {
        true => leb(length, false, random.between(1, 4)),
        false => (length as u32).to_le_bytes().to_vec(),
    };
    let count = random.below(200);
    stream.extend(noise(random, count));
    case(records, stream)
}

/// Records of all kinds without regard to where they may stand.
fn record_soup(random: &mut Random) -> Case {
    let mut records = Records::new();
    let start = random.below(5);
    if start > 0 {
        records.trace(Some([1; 16])).clock(0, 1);
    }
    if start > 1 {
        records.stream(0, 0).event(0, 0);
    }
    match start {
        3 => records.root(5, 5),
        4 => records.stream(1, 0).root(random.between(1, 3) as u8, 5),
        _ => &mut records,
    };
    for _ in 0..random.between(1, 6) {
        let record = random_record(random, None);
        records.put(&record);
    }
    case(records, vec![1, 2, 3])
}

/// A content that ends inside a byte, with each kind behind it.
fn bound_edge(random: &mut Random) -> Case {
    let mut records = Records::new();
    records.stream(0, 255).root(1, 2).unsigned(16, NO_SLOT, 5).unsigned(16, NO_SLOT, 6);
    let members = random.between(1, 3);
    records.event(0, 0).root(5, members as u8);
    for _ in 0..members {
        match random.below(8) {
            0 => records.put(&[23]),
            1 => records.static_string(random.below(3) as u16),
            2 => records.static_blob(random.below(3) as u16, 0),
            3 => records.put(&[21, NO_SLOT, 0]),
            4 => records.structure(0, random.below(7) as u8),
            5 => records.static_array(0, 0).put(&[16, 8, 0, random.below(7) as u8]),
            6 => records.put(&[16, random.between(1, 20) as u8, 0, random.below(7) as u8]),
            _ => records.unsigned(random.between(1, 20) as u8, NO_SLOT, 0),
        };
    }
    let total = 8 * random.between(4, 20);
    let content = random.between(30, total.min(100) + 1);
    let mut stream = (total as u16).to_le_bytes().to_vec();
    stream.extend((content as u16).to_le_bytes());
    let rest = random.pick(&[0, 0, 3]);
    stream.extend((4..total / 8 + rest).map(|_| random.pick(&[0, 1, 0x80, 0xff])));
    case(records, stream)
}

/// 511 to 513 fragments.
pub fn many_fragments(random: &mut Random) -> Case {
    let mut records = Records::new();
    records.clock(0, 1).stream(0, 255);
    let count = random.between(509, 512);
    for id in 0..count as u64 {
        match random.below(20) {
            0 => records.stream(id + 1, 0),
            _ => records.event(0, id),
        };
    }
    if random.chance(60) {
        match random.below(3) {
            0 => records.put(&random_record(random, None)),
            _ => records.clock(random.pick(&[0, 5, 255]), random.pick(&[0, 1])),
        };
    }
    case(records, vec![0])
}

/// A case of some 65,536 bytes.
pub fn large_edge(random: &mut Random) -> Case {
    match random.below(4) {
        0 => {
            let mut records = payload(1);
            let bytes = random.pick(&[65_534, 65_535]);
            match random.below(2) {
                0 => records.static_string(bytes),
                _ => records.static_blob(bytes, 0),
            };
            let length = random.between(65_533, 65_535);
            case(records, vec![random.byte() | 1; length])
        }
        1 => {
            let mut records = payload(2);
            records.unsigned(16, 16, 0);
            records.put(random.pick(&[&[26, 16][..], &[27, 16], &[30, 16, 0, 16, 8, 0, 0]]));
            let mut stream = vec![random.byte() | 1; 65_536];
            let length: u16 = random.pick(&[65_532, 65_533, 65_534, 65_535]);
            stream[..2].copy_from_slice(&length.to_le_bytes());
            case(records, stream)
        }
        2 => {
            let mut records = payload(1);
            records.put(&[23]);
            let mut stream = vec![b'x'; 65_536];
            stream[random.pick(&[0, 65_534, 65_535])] = random.pick(&[0, 0, 1]);
            case(records, stream)
        }
        _ => {
            let size = random.pick(&[65_535, 65_536, 65_536, 65_537]);
            case(Records { bytes: large_table(size) }, vec![0; 70])
        }
    }
}

/// An acceptable table but for its size, of exactly that many bytes.
fn large_table(size: usize) -> Vec<u8> {
    let mut records = Records::new();
    records.stream(0, 255);
    // Each event class takes 17 bytes, a root 5 and a null-terminated string 1.
    for id in 0.. {
        let left = size - records.bytes.len();
        if left < 2 * (17 + 2 * 5 + 2 * 64) {
            let members = left - (17 + 2 * 5);
            records.event(0, id).put(&[6, 4]);
            spread(&mut records, members / 2);
            records.put(&[6, 5]);
            spread(&mut records, members - members / 2);
            return records.bytes;
        }
        records.event(0, id);
        for root in [4, 5] {
            records.root(root, 64);
            records.bytes.resize(records.bytes.len() + 64, 23);
        }
    }
    records.bytes
}

/// A structure and its members, three bytes and exactly `bytes` more.
fn spread(records: &mut Records, bytes: usize) {
    // A nested structure adds three bytes of its own.
    if bytes <= 64 {
        records.structure(bytes as u8, 0);
        records.bytes.resize(records.bytes.len() + bytes, 23);
    } else {
        records.structure(3, 0);
        let (third, left) = ((bytes - 9) / 3, (bytes - 9) % 3);
        for part in [third, third, third + left] {
            records.structure(part as u8, 0);
            records.bytes.resize(records.bytes.len() + part, 23);
        }
    }
}

#[cfg(test)]
mod tests {
    use super::*;

    #[test]
    fn large_tables_have_their_size() {
        for size in 65_400..=65_536 {
            let table = large_table(size);
            assert_eq!(table.len(), size);
            assert_eq!(crate::table::check(&table), (0, size as u64));
        }
        assert_eq!(crate::table::check(&large_table(65_537)), (1, 0));
    }

    #[test]
    fn streams_keep_to_their_limits() {
        let mut random = Random::new(5);
        for _ in 0..300 {
            let case =
                if random.chance(80) { small_edge(&mut random) } else { large_edge(&mut random) };
            assert!(case.stream.len() <= 65_536 && case.table.len() <= 65_537);
        }
    }
}
