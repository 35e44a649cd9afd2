//! The eight shapes of a stream. A packet's header and context are those that LTTng writes, and so are the sizes: packets of
//! 64 KiB, padded behind their last event. Event classes are picked evenly, and stand in the table in no order of their ids
//! but for LTTng's own, which count from 0.

use crate::class::*;
use crate::random::Random;

#[derive(Clone, Copy)]
pub enum Shape {
    /// Integers of 8, 16, 32 and 64 bits on byte boundaries.
    WholeBytes,
    /// Fields of 1 to 33 bits one behind the other, in both orders.
    UnalignedBits,
    /// Every kind of class.
    MixedKinds,
    /// Arrays of structures that hold strings.
    Structures,
    /// LTTng's large event header: a short id and stamp, or after its largest id long ones, by a variant.
    VariantHeader,
    /// What LTTng itself writes: that header, two or three integers, and now and then a string.
    Lttng,
    /// Arrays of structures that hold arrays of structures; each element forgets the inner one's length.
    NestedArrays,
    /// Integers as in whole bytes, of the last of eight stream classes, each of which has as many event classes, 62 at
    /// most, and counts its ids from 0.
    EightStreams,
}

pub const SHAPES: [Shape; 8] = [
    Shape::WholeBytes,
    Shape::UnalignedBits,
    Shape::MixedKinds,
    Shape::Structures,
    Shape::VariantHeader,
    Shape::Lttng,
    Shape::NestedArrays,
    Shape::EightStreams,
];

impl Shape {
    pub fn name(self) -> &'static str {
        match self {
            Shape::WholeBytes => "whole-bytes",
            Shape::UnalignedBits => "unaligned-bits",
            Shape::MixedKinds => "mixed-kinds",
            Shape::Structures => "structures",
            Shape::VariantHeader => "variant-header",
            Shape::Lttng => "lttng",
            Shape::NestedArrays => "nested-arrays",
            Shape::EightStreams => "eight-streams",
        }
    }

    fn stream_classes(self) -> u64 {
        match self {
            Shape::EightStreams => 8,
            _ => 1,
        }
    }

    /// The id of an event class, counted from 0 in its stream class.
    fn id(self, turn: u64) -> u64 {
        match self {
            Shape::Lttng | Shape::EightStreams => turn,
            // 251 and LONG_ID have no common divisor, so that no id occurs twice.
            _ => (turn + 1) * 251 % LONG_ID,
        }
    }
}

/// An event class: the number of its stream class, its id, and its payload.
#[derive(Clone)]
struct Event {
    of: u64,
    id: u64,
    payload: Class,
}

pub struct Sample {
    pub table: Vec<u8>,
    pub stream: Vec<u8>,
}

pub const PACKET_BYTES: usize = 65_536;

/// 16.7 MB: as long as a stream might be before request 4. The figures since are of the same streams.
pub const PACKETS: u64 = 255;

/// The id of the first stream class; the others' follow.
const STREAM_CLASS: u64 = 7;

/// The id that LTTng's large header has where a long one follows.
const LONG_ID: u64 = 65_535;

const WHOLE_LENGTHS: [u8; 7] = [8, 16, 32, 32, 32, 64, 64];

/// The slots that the events' classes use.
const SELECTOR: u8 = 16;
const FIRST_FREE: u8 = 17;

fn number(kind: u8, length: u8, align: u8) -> Class {
    let (slot, role, value) = (NO_SLOT, NO_ROLE, Value::Any);
    Class::Bits { kind, length, order: LITTLE, align, slot, role, value }
}

fn with_role(length: u8, role: u8) -> Class {
    let (slot, value) = (NO_SLOT, Value::Said);
    Class::Bits { kind: 18, length, order: LITTLE, align: 3, slot, role, value }
}

fn in_slot(kind: u8, length: u8, slot: u8, below: u64) -> Class {
    let (role, value) = (NO_ROLE, Value::Below(below));
    Class::Bits { kind, length, order: LITTLE, align: 3, slot, role, value }
}

fn structure(align: u8, members: Vec<Class>) -> Class {
    Class::Structure { align, members }
}

fn packet_header() -> Class {
    let uuid = Class::StaticBlob(THE_UUID.len() as u16, UUID);
    structure(
        0,
        vec![with_role(32, MAGIC), uuid, with_role(32, STREAM_CLASS_ID), with_role(64, STREAM_ID)],
    )
}

fn packet_context() -> Class {
    let roles = [CLOCK, END_CLOCK, CONTENT_LENGTH, TOTAL_LENGTH, SEQUENCE, DISCARDED];
    let mut members = Vec::from(roles.map(|role| with_role(64, role)));
    members.push(number(18, 32, 3));
    structure(0, members)
}

fn event_header(shape: Shape) -> Class {
    if !matches!(shape, Shape::VariantHeader | Shape::Lttng) {
        return structure(3, vec![with_role(16, EVENT_CLASS_ID), with_role(32, CLOCK)]);
    }
    let (slot, role, value) = (SELECTOR, EVENT_CLASS_ID, Value::SaidOr(LONG_ID));
    let id = Class::Bits { kind: 18, length: 16, order: LITTLE, align: 3, slot, role, value };
    let short = structure(3, vec![with_role(32, CLOCK)]);
    let long = structure(3, vec![with_role(32, EVENT_CLASS_ID), with_role(64, CLOCK)]);
    let options = vec![(0, LONG_ID - 1, short), (LONG_ID, LONG_ID, long)];
    structure(3, vec![id, Class::Variant(SELECTOR, options)])
}

fn payload(shape: Shape, random: &mut Random) -> Class {
    match shape {
        Shape::WholeBytes | Shape::EightStreams => {
            let count = random.between(3, 8);
            structure(0, (0..count).map(|_| whole(random)).collect())
        }
        Shape::UnalignedBits => {
            let order = random.pick(&[LITTLE, BIG]);
            let member = |random: &mut Random| Class::Bits {
                kind: random.pick(&[16, 17, 18, 18, 19]),
                length: random.between(1, 33) as u8,
                order,
                align: 0,
                slot: NO_SLOT,
                role: NO_ROLE,
                value: Value::Any,
            };
            let count = random.between(4, 12);
            structure(3, (0..count).map(|_| member(random)).collect())
        }
        Shape::MixedKinds => {
            let count = random.between(4, 8);
            let parts = (0..count).flat_map(|turn| mixed(random, FIRST_FREE + turn as u8));
            structure(0, parts.collect())
        }
        Shape::Structures => {
            let count = random.between(1, 3);
            let mut members: Vec<Class> = (0..count).map(|_| whole(random)).collect();
            members.push(in_slot(18, 8, SELECTOR, 8));
            members.push(Class::DynamicArray(SELECTOR, Box::new(element(random))));
            structure(0, members)
        }
        Shape::VariantHeader => {
            let count = random.between(1, 5);
            let mut members: Vec<Class> = (0..count).map(|_| whole(random)).collect();
            match random.between(0, 5) {
                0 | 1 => members.insert(0, Class::StaticString(16)),
                2 => members.push(Class::String),
                _ => {}
            }
            structure(0, members)
        }
        Shape::Lttng => {
            let count = random.between(2, 3);
            let mut members: Vec<Class> = (0..count).map(|_| whole(random)).collect();
            if random.between(1, 5) == 1 {
                members.push(Class::String);
            }
            structure(0, members)
        }
        Shape::NestedArrays => {
            let count = random.between(1, 3);
            let mut members: Vec<Class> = (0..count).map(|_| whole(random)).collect();
            let inner = structure(0, vec![whole(random), whole(random)]);
            let outer = vec![
                whole(random),
                in_slot(18, 8, FIRST_FREE, 6),
                Class::DynamicArray(FIRST_FREE, Box::new(inner)),
            ];
            members.push(in_slot(18, 8, SELECTOR, 8));
            members.push(Class::DynamicArray(SELECTOR, Box::new(structure(0, outer))));
            structure(0, members)
        }
    }
}

fn whole(random: &mut Random) -> Class {
    number(random.pick(&[18, 18, 18, 19]), random.pick(&WHOLE_LENGTHS), 3)
}

/// A structure with a key, a string up to its zero byte, and in half of them one that has a length.
fn element(random: &mut Random) -> Class {
    let mut members = vec![number(18, 32, 3), Class::String];
    if random.between(0, 1) == 1 {
        members.push(Class::UnsignedLeb { slot: FIRST_FREE, value: Value::Below(24) });
        members.push(Class::DynamicString(FIRST_FREE));
    }
    members.push(whole(random));
    structure(0, members)
}

/// A class of any kind; where it reads a slot, the field that sets it stands before it.
fn mixed(random: &mut Random, slot: u8) -> Vec<Class> {
    let length = random.between(1, 64) as u8;
    let align = random.pick(&[0, 3]);
    match random.between(16, 32) as u8 {
        kind @ 16..=19 => vec![number(kind, length, align)],
        20 => vec![number(20, random.pick(&[32, 64]), 3)],
        21 => vec![Class::UnsignedLeb { slot: NO_SLOT, value: Value::Any }],
        22 => vec![Class::SignedLeb],
        23 => vec![Class::String],
        24 => vec![Class::StaticString(random.between(8, 24) as u16)],
        25 => vec![Class::StaticBlob(random.between(6, 16) as u16, NO_ROLE)],
        26 => vec![in_slot(18, 8, slot, 24), Class::DynamicString(slot)],
        27 => {
            let length = Class::UnsignedLeb { slot, value: Value::Below(24) };
            vec![length, Class::DynamicBlob(slot)]
        }
        28 => vec![structure(0, vec![whole(random), whole(random)])],
        29 => vec![Class::StaticArray(4, Box::new(whole(random)))],
        30 => vec![in_slot(18, 8, slot, 8), Class::DynamicArray(slot, Box::new(whole(random)))],
        31 => vec![in_slot(17, 8, slot, 2), Class::Optional(slot, Box::new(whole(random)))],
        _ => {
            let options = vec![(0, 99, whole(random)), (100, 255, Class::String)];
            vec![in_slot(18, 8, slot, 256), Class::Variant(slot, options)]
        }
    }
}

/// The sample of a shape: so many event classes are met in the stream, and so many are in the table.
pub fn sample(shape: Shape, met: usize, known: usize) -> Sample {
    sample_of(shape, met, known, PACKETS)
}

/// One of so many packets. With more of them it begins as with fewer.
pub fn sample_of(shape: Shape, met: usize, known: usize, packets: u64) -> Sample {
    let mut random = Random(shape as u64 * 1000 + met as u64);
    // 8 times 62 is what a table may have.
    let each = |classes: usize| if shape.stream_classes() == 1 { classes } else { classes.min(62) };
    let some = |from: usize, to: usize, random: &mut Random| -> Vec<Event> {
        let turns = |of| (from as u64..to as u64).map(move |turn| (of, turn));
        let event = |(of, turn)| Event { of, id: shape.id(turn), payload: payload(shape, random) };
        (0..shape.stream_classes()).flat_map(turns).map(event).collect()
    };
    let events = some(0, each(met), &mut random);
    let others = some(each(met), each(known), &mut Random(known as u64));
    let header = event_header(shape);
    let stream = stream(shape, &header, &events, packets, &mut random);
    Sample { table: table(shape, &header, &[others, events].concat()), stream }
}

fn table(shape: Shape, header: &Class, events: &[Event]) -> Vec<u8> {
    let mut table = vec![1, 2, 2, 1];
    table.extend(THE_UUID);
    let root = |table: &mut Vec<u8>, number: u8, class: &Class| {
        table.extend([6, number]);
        class.describe(table);
    };
    root(&mut table, 0, &packet_header());
    table.extend([3, 0]);
    table.extend(1_000_000_000u64.to_le_bytes());
    for number in 0..shape.stream_classes() {
        let stream_class = (STREAM_CLASS + number).to_le_bytes();
        table.push(4);
        table.extend(stream_class);
        table.push(0);
        root(&mut table, 1, &packet_context());
        root(&mut table, 2, header);
        for Event { id, payload, .. } in events.iter().filter(|event| event.of == number) {
            table.push(5);
            table.extend(stream_class);
            table.extend(id.to_le_bytes());
            root(&mut table, 5, payload);
        }
    }
    table
}

fn stream(
    shape: Shape,
    header: &Class,
    events: &[Event],
    packets: u64,
    random: &mut Random,
) -> Vec<u8> {
    let of = shape.stream_classes() - 1;
    let events: Vec<&Event> = events.iter().filter(|event| event.of == of).collect();
    let mut stream = Vec::with_capacity(packets as usize * PACKET_BYTES);
    let mut clock = 1 << 40;
    for sequence in 0..packets {
        let mut said = [0; ROLES];
        said[MAGIC as usize] = 0xc1fc_1fc1;
        said[STREAM_CLASS_ID as usize] = STREAM_CLASS + of;
        said[TOTAL_LENGTH as usize] = 8 * PACKET_BYTES as u64;
        said[CLOCK as usize] = clock;
        said[SEQUENCE as usize] = sequence;
        let mut packet = Packet::new(said);
        packet_header().write(&mut packet, random);
        packet_context().write(&mut packet, random);
        loop {
            let begun = packet.place;
            clock += random.between(100, 10_000);
            let event = events[random.between(0, events.len() as u64 - 1) as usize];
            packet.said[CLOCK as usize] = clock;
            packet.said[EVENT_CLASS_ID as usize] = event.id;
            header.write(&mut packet, random);
            event.payload.write(&mut packet, random);
            if packet.bytes.len() > PACKET_BYTES {
                packet.cut(begun);
                break;
            }
        }
        packet.settle(CONTENT_LENGTH, packet.place as u64);
        packet.settle(END_CLOCK, clock);
        packet.bytes.resize(PACKET_BYTES, 0);
        stream.extend(packet.bytes);
    }
    stream
}
