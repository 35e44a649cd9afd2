//! Classes: the records that describe one in a table, and fields of it with values by chance.

use crate::random::Random;

pub const LITTLE: u8 = 0;
pub const BIG: u8 = 1;

pub const NO_SLOT: u8 = 255;

pub const NO_ROLE: u8 = 0;
pub const MAGIC: u8 = 1;
pub const STREAM_CLASS_ID: u8 = 2;
pub const STREAM_ID: u8 = 3;
pub const UUID: u8 = 4;
pub const TOTAL_LENGTH: u8 = 5;
pub const CONTENT_LENGTH: u8 = 6;
pub const CLOCK: u8 = 7;
pub const END_CLOCK: u8 = 8;
pub const DISCARDED: u8 = 9;
pub const SEQUENCE: u8 = 10;
pub const EVENT_CLASS_ID: u8 = 11;
pub const ROLES: usize = 12;

pub const THE_UUID: [u8; 16] = *b"trevoskel bench.";

/// What a number's field gets.
#[derive(Clone, Copy)]
pub enum Value {
    /// Any bits.
    Any,
    Below(u64),
    /// What its role says.
    Said,
    /// The same, but in one field of 64 this number.
    SaidOr(u64),
}

#[derive(Clone)]
pub enum Class {
    /// Kinds 16 to 20.
    Bits {
        kind: u8,
        length: u8,
        order: u8,
        align: u8,
        slot: u8,
        role: u8,
        value: Value,
    },
    UnsignedLeb {
        slot: u8,
        value: Value,
    },
    SignedLeb,
    String,
    StaticString(u16),
    StaticBlob(u16, u8),
    DynamicString(u8),
    DynamicBlob(u8),
    Structure {
        align: u8,
        members: Vec<Class>,
    },
    StaticArray(u16, Box<Class>),
    DynamicArray(u8, Box<Class>),
    /// By a flag.
    Optional(u8, Box<Class>),
    /// By an unsigned number; each option has one range.
    Variant(u8, Vec<(u64, u64, Class)>),
}

impl Class {
    pub fn describe(&self, table: &mut Vec<u8>) {
        match self {
            Class::Bits { kind, length, order, align, slot, role, .. } => {
                table.extend([*kind, *length, *order, *align]);
                match kind {
                    17 | 19 => table.push(*slot),
                    18 => table.extend([*slot, *role]),
                    _ => {}
                }
            }
            Class::UnsignedLeb { slot, .. } => table.extend([21, *slot, NO_ROLE]),
            Class::SignedLeb => table.extend([22, NO_SLOT]),
            Class::String => table.push(23),
            Class::StaticString(bytes) => {
                table.push(24);
                table.extend(bytes.to_le_bytes());
            }
            Class::StaticBlob(bytes, role) => {
                table.push(25);
                table.extend(bytes.to_le_bytes());
                table.push(*role);
            }
            Class::DynamicString(slot) => table.extend([26, *slot]),
            Class::DynamicBlob(slot) => table.extend([27, *slot]),
            Class::Structure { align, members } => {
                table.extend([28, members.len() as u8, *align]);
                members.iter().for_each(|member| member.describe(table));
            }
            Class::StaticArray(elements, element) => {
                table.push(29);
                table.extend(elements.to_le_bytes());
                table.push(0);
                element.describe(table);
            }
            Class::DynamicArray(slot, element) => {
                table.extend([30, *slot, 0]);
                element.describe(table);
            }
            Class::Optional(slot, class) => {
                table.extend([31, *slot, 0]);
                class.describe(table);
            }
            Class::Variant(slot, options) => {
                table.extend([32, *slot, options.len() as u8]);
                for (low, high, class) in options {
                    table.extend([34, 1, 33, 0]);
                    table.extend(low.to_le_bytes());
                    table.extend(high.to_le_bytes());
                    class.describe(table);
                }
            }
        }
    }

    /// The exponent of the alignment that a field of the class needs.
    fn align(&self) -> u8 {
        match self {
            Class::Bits { align, .. } => *align,
            Class::Structure { align, members } => {
                members.iter().map(Class::align).fold(*align, u8::max)
            }
            Class::StaticArray(_, element) | Class::DynamicArray(_, element) => element.align(),
            Class::Optional(..) | Class::Variant(..) => 0,
            _ => 3,
        }
    }

    /// Puts a field of the class behind what is written.
    pub fn write(&self, packet: &mut Packet, random: &mut Random) {
        packet.align(self.align());
        match self {
            Class::Bits { length, order, slot, role, value, .. } => {
                packet.places[*role as usize] = packet.place;
                let number = match value {
                    Value::Any => random.word() >> (64 - length),
                    Value::Below(bound) => random.between(0, bound - 1),
                    Value::SaidOr(other) if random.between(1, 64) == 1 => *other,
                    Value::Said | Value::SaidOr(_) => {
                        packet.said[*role as usize] & (u64::MAX >> (64 - length))
                    }
                };
                packet.put(number, *length as usize, *order);
                packet.set(*slot, number);
            }
            Class::UnsignedLeb { slot, value } => {
                let number = match value {
                    Value::Below(bound) => random.between(0, bound - 1),
                    _ => random.word() >> random.between(20, 63),
                };
                packet.put_leb(number);
                packet.set(*slot, number);
            }
            Class::SignedLeb => packet.put_leb(random.word() >> random.between(20, 63)),
            Class::String => {
                let length = random.between(3, 20);
                packet.put_text(length, random);
                packet.put(0, 8, LITTLE);
            }
            Class::StaticString(bytes) => {
                let length = random.between(1, *bytes as u64);
                packet.put_text(length, random);
                (length..*bytes as u64).for_each(|_| packet.put(0, 8, LITTLE));
            }
            Class::StaticBlob(_, UUID) => {
                THE_UUID.iter().for_each(|&byte| packet.put(byte as u64, 8, LITTLE));
            }
            Class::StaticBlob(bytes, _) => packet.put_text(*bytes as u64, random),
            Class::DynamicString(slot) | Class::DynamicBlob(slot) => {
                packet.put_text(packet.slots[*slot as usize], random);
            }
            Class::Structure { members, .. } => {
                members.iter().for_each(|member| member.write(packet, random));
            }
            Class::StaticArray(elements, element) => {
                (0..*elements).for_each(|_| element.write(packet, random));
            }
            Class::DynamicArray(slot, element) => {
                (0..packet.slots[*slot as usize]).for_each(|_| element.write(packet, random));
            }
            Class::Optional(slot, class) => {
                if packet.slots[*slot as usize] != 0 {
                    class.write(packet, random);
                }
            }
            Class::Variant(slot, options) => {
                let selector = packet.slots[*slot as usize];
                let holds = |option: &&(u64, u64, Class)| (option.0..=option.1).contains(&selector);
                options.iter().find(holds).expect("an option").2.write(packet, random);
            }
        }
    }
}

/// A packet being written, from its first bit on.
pub struct Packet {
    pub bytes: Vec<u8>,
    /// In bits.
    pub place: usize,
    /// What a field with a role says, and where the last such field was put.
    pub said: [u64; ROLES],
    pub places: [usize; ROLES],
    slots: [u64; 64],
}

impl Packet {
    pub fn new(said: [u64; ROLES]) -> Self {
        Packet { bytes: Vec::new(), place: 0, said, places: [0; ROLES], slots: [0; 64] }
    }

    /// Takes back what was written from a place on.
    pub fn cut(&mut self, place: usize) {
        self.place = place;
        self.bytes.truncate(place.div_ceil(8));
    }

    /// Writes a number over the 64 bits of the field that has a role, which is aligned to bytes.
    pub fn settle(&mut self, role: u8, number: u64) {
        let at = self.places[role as usize] / 8;
        self.bytes[at..at + 8].copy_from_slice(&number.to_le_bytes());
    }

    fn set(&mut self, slot: u8, number: u64) {
        if slot != NO_SLOT {
            self.slots[slot as usize] = number;
        }
    }

    fn align(&mut self, exponent: u8) {
        self.place = self.place.next_multiple_of(1 << exponent);
        self.bytes.resize(self.place.div_ceil(8), 0);
    }

    fn put(&mut self, number: u64, length: usize, order: u8) {
        self.bytes.resize((self.place + length).div_ceil(8), 0);
        for i in 0..length {
            let (at, index) = ((self.place + i) / 8, (self.place + i) % 8);
            let (bit, shift) = if order == BIG {
                (number >> (length - 1 - i), 7 - index)
            } else {
                (number >> i, index)
            };
            self.bytes[at] |= (bit as u8 & 1) << shift;
        }
        self.place += length;
    }

    fn put_leb(&mut self, mut number: u64) {
        while number >= 128 {
            self.put(number & 127 | 128, 8, LITTLE);
            number >>= 7;
        }
        self.put(number, 8, LITTLE);
    }

    fn put_text(&mut self, length: u64, random: &mut Random) {
        (0..length).for_each(|_| self.put(random.between(97, 122), 8, LITTLE));
    }
}
