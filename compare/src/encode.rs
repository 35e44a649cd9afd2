//! Writes streams that follow a table, so that most of them read far.

use crate::class::*;
use crate::random::Random;

/// Bits written one by one, independently of how the reader takes them.
#[derive(Default)]
pub struct BitWriter {
    pub bytes: Vec<u8>,
    pub place: u64,
    /// Order of the last field: padding in the same byte must not run into it.
    last: Option<Order>,
}

impl BitWriter {
    fn bit_index(place: u64, order: Order) -> u64 {
        match order {
            Order::Little => place % 8,
            Order::Big => 7 - place % 8,
        }
    }

    /// Writes at a place, over what may be there.
    pub fn write_at(&mut self, place: u64, value: u64, length: u32, order: Order) {
        for i in 0..length as u64 {
            let at = place + i;
            let from = if order == Order::Little { i } else { length as u64 - 1 - i };
            let index = (at / 8) as usize;
            if index >= self.bytes.len() {
                self.bytes.resize(index + 1, 0);
            }
            let bit = 1 << Self::bit_index(at, order);
            if value >> from & 1 == 1 {
                self.bytes[index] |= bit;
            } else {
                self.bytes[index] &= !bit;
            }
        }
    }

    pub fn write(&mut self, value: u64, length: u32, order: Order) {
        self.write_at(self.place, value, length, order);
        self.place += length as u64;
        self.last = Some(order);
    }

    pub fn pad(&mut self, bit: bool) {
        self.write(bit as u64, 1, self.last.unwrap_or(Order::Little));
    }

    pub fn write_byte(&mut self, byte: u8) {
        self.write(byte as u64, 8, Order::Little);
    }
}

/// The bytes of an LEB128 number, at least `least` of them (at most 10).
pub fn leb(value: u64, signed: bool, least: usize) -> Vec<u8> {
    let mut bytes = Vec::new();
    let mut rest = value as i128;
    if signed {
        rest = value as i64 as i128;
    }
    loop {
        let byte = (rest & 0x7f) as u8;
        rest >>= 7;
        let sign = byte & 0x40 != 0;
        let done = if signed { rest == if sign { -1 } else { 0 } } else { rest == 0 };
        if done && bytes.len() + 1 >= least {
            bytes.push(byte);
            return bytes;
        }
        bytes.push(byte | 0x80);
    }
}

#[derive(Clone, Copy)]
enum Slot {
    Unset,
    Flag(bool),
    Number(u64, Sign),
}

/// A length field to be filled in once the packet is written.
struct Patch {
    role: Role,
    place: u64,
    shape: Option<Fixed>,
}

const PATCHED_LEB_BYTES: usize = 5;
const FULL: u64 = 8 * 3000;

/// Arrays of what takes no bits, one in another, would have fields without end.
const MOST_FIELDS: u64 = 1 << 20;

struct Encoder<'a> {
    table: &'a Table,
    random: &'a mut Random,
    /// The number the case should come to, or 0.
    wish: u64,
    bits: BitWriter,
    fields: u64,
    packet: u64,
    slots: [Slot; 64],
    clock: u64,
    event_clock: u64,
    /// The ids to be written, and those last written if any.
    stream_id: u64,
    event_id: u64,
    written_stream: Option<u64>,
    written_event: Option<u64>,
    patches: Vec<Patch>,
}

/// A stream of a few packets for a table.
pub fn encode(table: &Table, random: &mut Random, wish: u64) -> Vec<u8> {
    if table.streams.is_empty() {
        return (0..random.below(20)).map(|_| random.byte()).collect();
    }
    let base = if random.chance(90) { random.below(200) as u64 } else { random.edge_word() };
    let mut encoder = Encoder {
        table,
        random,
        wish,
        bits: BitWriter::default(),
        fields: 0,
        packet: 0,
        slots: [Slot::Unset; 64],
        clock: 0,
        event_clock: base,
        stream_id: 0,
        event_id: 0,
        written_stream: None,
        written_event: None,
        patches: Vec::new(),
    };
    encoder.packets();
    encoder.bits.bytes
}

impl Encoder<'_> {
    /// Whether to write the fault of a number here.
    fn faulty(&mut self, number: u64) -> bool {
        if self.wish == number {
            self.random.chance(50)
        } else {
            self.random.below(3000) == 0
        }
    }

    fn packets(&mut self) {
        let classes = self.table.streams.len();
        let mut class = self.random.below(classes);
        for _ in 0..self.random.between(1, 4) {
            let id = self.table.streams[class].id;
            self.stream_id = if self.faulty(33) { self.random.edge_word() } else { id };
            self.packet();
            if self.faulty(32) {
                class = self.random.below(classes);
            }
            if self.bits.place > FULL || self.patches.is_empty() {
                break;
            }
        }
    }

    fn packet(&mut self) {
        self.packet = self.bits.place;
        self.slots = [Slot::Unset; 64];
        self.clock = 0;
        self.patches.clear();
        self.written_stream = None;
        let table = self.table;
        self.root(&table.trace.header);
        // Without a field for it the id is 0, whatever was chosen.
        let stream = table.stream(self.written_stream.unwrap_or(0));
        let stream = stream.unwrap_or(&table.streams[0]);
        self.root(&stream.context);
        let least = self.patches.is_empty() as usize;
        for _ in 0..self.random.pick(&[0, 1, 1, 2, 3, 3, 4, 6]).max(least) {
            self.event(stream);
            if self.bits.place > FULL {
                break;
            }
        }
        self.close();
    }

    fn event(&mut self, stream: &StreamClass) {
        self.slots[16..].fill(Slot::Unset);
        self.event_id = match stream.events.len() {
            0 => 0,
            count => stream.events[self.random.below(count)].id,
        };
        if self.faulty(37) {
            self.event_id = self.random.edge_word();
        }
        self.written_event = None;
        self.root(&stream.header);
        self.event_clock = self.event_clock.max(self.clock);
        self.root(&stream.common);
        if let Some(event) = stream.event(self.written_event.unwrap_or(0)) {
            self.root(&event.specific);
            self.root(&event.payload);
        }
    }

    /// Ends a packet with its padding and fills in its lengths.
    fn close(&mut self) {
        let has = |role| self.patches.iter().any(|patch| patch.role == role);
        let both = has(Role::TotalLength) && has(Role::ContentLength);
        let end = self.bits.place - self.packet;
        let padding = if both && self.random.chance(40) { self.random.below(9) as u64 } else { 0 };
        let mut total = end.next_multiple_of(8) + 8 * padding;
        let mut content = if both { end } else { total };
        for _ in end..total {
            self.bits.pad(self.random.chance(50));
        }
        if self.faulty(38) {
            // Room for one more event, which may have no bits.
            total += 8;
            content = total;
            (0..8).for_each(|_| self.bits.pad(false));
        }
        if self.faulty(34) {
            let change = self.random.pick(&[1, 8, 64, 1 << 40, u64::MAX, u64::MAX - 7, content]);
            let wrong = if self.random.chance(50) { &mut total } else { &mut content };
            *wrong = wrong.wrapping_add(change);
        }
        for patch in &self.patches {
            let value = if patch.role == Role::TotalLength { total } else { content };
            match patch.shape {
                Some(fixed) => self.bits.write_at(patch.place, value, fixed.length, fixed.order),
                None => {
                    for (i, byte) in (0..).zip(leb(value, false, PATCHED_LEB_BYTES)) {
                        if i < PATCHED_LEB_BYTES as u64 {
                            let place = patch.place + 8 * i;
                            self.bits.write_at(place, byte as u64, 8, Order::Little);
                        }
                    }
                }
            }
        }
    }

    fn root(&mut self, root: &Option<Structure>) {
        if let Some(structure) = root {
            self.align(structure.requirement);
            structure.members.iter().for_each(|member| self.field(&member.class));
        }
    }

    fn align(&mut self, requirement: u64) {
        let garbage = self.random.chance(50);
        while !(self.bits.place - self.packet).is_multiple_of(requirement) {
            self.bits.pad(garbage && self.random.chance(50));
        }
    }

    fn full(&self) -> bool {
        self.bits.place > 2 * FULL || self.fields > MOST_FIELDS
    }

    fn elements(&mut self, count: u64, array: &Array) {
        for _ in 0..count {
            if self.full() {
                break;
            }
            self.field(&array.element.class);
            for (number, slot) in self.slots.iter_mut().enumerate() {
                if array.forgets >> number & 1 == 1 {
                    *slot = Slot::Unset;
                }
            }
        }
    }

    fn field(&mut self, class: &Class) {
        if self.full() {
            return;
        }
        self.fields += 1;
        self.align(class.requirement());
        match class {
            Class::BitArray(fixed) | Class::Float(fixed) => {
                let value = self.random.edge_word();
                self.bits.write(value, fixed.length, fixed.order);
            }
            Class::Boolean { fixed, slot } => {
                let value = if self.random.chance(40) { 0 } else { self.random.word() };
                let value = value & crate::bits::mask(fixed.length);
                self.bits.write(value, fixed.length, fixed.order);
                self.set(*slot, Slot::Flag(value != 0));
            }
            Class::Unsigned { fixed, slot, role } => {
                let place = self.bits.place;
                let value = self.unsigned(*slot, *role, fixed.length, place, Some(*fixed));
                self.bits.write(value, fixed.length, fixed.order);
            }
            Class::Signed { fixed, slot } => {
                let value = self.small_signed(*slot);
                self.bits.write(value, fixed.length, fixed.order);
                let value =
                    crate::bits::extend_sign(value & crate::bits::mask(fixed.length), fixed.length);
                self.set(*slot, Slot::Number(value, Sign::Signed));
            }
            Class::LebUnsigned { slot, role } => self.leb_unsigned(*slot, *role),
            Class::LebSigned { slot } => {
                let value = self.small_signed(*slot);
                let least = self.random.pick(&[0, 0, 0, 2, 10]);
                self.leb(leb(value, true, least));
                self.set(*slot, Slot::Number(value, Sign::Signed));
            }
            Class::NullTerminatedString => {
                let text =
                    (0..self.random.below(5)).flat_map(|_| self.random.character()).collect();
                self.text(text);
                if !self.faulty(25) {
                    self.bits.write_byte(0);
                }
            }
            Class::StaticString { bytes } => self.long_text((*bytes).into()),
            Class::StaticBlob { role: Role::Uuid, .. } => {
                let mut uuid = self.table.trace.uuid.unwrap_or_default();
                if self.faulty(31) {
                    uuid[self.random.below(16)] ^= 1 << self.random.below(8);
                }
                uuid.iter().for_each(|&byte| self.bits.write_byte(byte));
            }
            Class::StaticBlob { bytes, .. } => (0..*bytes).for_each(|_| self.any_byte()),
            Class::DynamicString { slot } => self.long_text(self.count(*slot) as usize),
            Class::DynamicBlob { slot } => {
                (0..self.count(*slot)).for_each(|_| self.any_byte());
            }
            Class::Structure(structure) => {
                structure.members.iter().for_each(|m| self.field(&m.class))
            }
            Class::StaticArray { elements, array } => self.elements((*elements).into(), array),
            Class::DynamicArray { slot, array } => self.elements(self.count(*slot), array),
            Class::Optional { slot, when, class } => {
                if self.is_there(*slot, when) {
                    self.field(&class.class);
                }
            }
            Class::Variant { slot, sign, options } => {
                if let Slot::Number(word, own) = self.slots[*slot as usize] {
                    let key = sign.key(word);
                    let holds = |o: &&Choice| own == *sign && o.ranges.iter().any(|r| r.holds(key));
                    if let Some(option) = options.iter().find(holds) {
                        self.field(&option.class.class);
                    }
                }
            }
        }
    }

    fn any_byte(&mut self) {
        let byte = if self.random.chance(20) { 0 } else { self.random.byte() };
        self.bits.write_byte(byte);
    }

    /// Text of so many bytes, or a shorter one, a zero byte and anything behind it.
    fn long_text(&mut self, count: usize) {
        let wanted = if self.random.chance(40) { self.random.below(count + 1) } else { count };
        let mut text = Vec::new();
        while text.len() < wanted {
            let character = self.random.character();
            // A last character that is too long becomes plain ones.
            match text.len() + character.len() <= wanted {
                true => text.extend(character),
                false => text.push(b'.'),
            }
        }
        if wanted < count {
            text.push(0);
            text.extend((wanted + 1..count).map(|_| self.random.byte()));
        }
        self.text(text);
    }

    /// Text, or bytes that are none: one is another or is gone.
    fn text(&mut self, mut text: Vec<u8>) {
        if !text.is_empty() && self.faulty(41) {
            let at = self.random.below(text.len());
            match self.random.below(3) {
                0 => text[at] = self.random.pick(&[0x80, 0xbf, 0xc0, 0xc1, 0xf5, 0xff]),
                1 => text[at] = self.random.byte().max(1),
                _ => text[at..].rotate_left(1),
            }
        }
        text.iter().for_each(|&byte| self.bits.write_byte(byte));
    }

    fn count(&self, slot: u8) -> u64 {
        match self.slots[slot as usize] {
            Slot::Number(count, Sign::Unsigned) => count.min(3000),
            _ => 0,
        }
    }

    fn is_there(&self, slot: u8, when: &When) -> bool {
        match (self.slots[slot as usize], when) {
            (Slot::Flag(flag), When::Flag) => flag,
            (Slot::Number(word, own), When::In(sign, ranges)) if own == *sign => {
                ranges.iter().any(|range| range.holds(sign.key(word)))
            }
            _ => false,
        }
    }

    fn set(&mut self, slot: Option<u8>, value: Slot) {
        if let Some(slot) = slot {
            self.slots[slot as usize] = value;
        }
    }

    fn small_signed(&mut self, slot: Option<u8>) -> u64 {
        match slot {
            Some(_) if self.random.chance(97) => (self.random.below(9) as i64 - 4) as u64,
            _ => self.random.edge_word(),
        }
    }

    fn leb_unsigned(&mut self, slot: Option<u8>, role: Role) {
        if role == Role::TotalLength || role == Role::ContentLength {
            self.patches.push(Patch { role, place: self.bits.place, shape: None });
            self.leb(leb(0, false, PATCHED_LEB_BYTES));
            return;
        }
        let bytes = self.random.pick(&[1, 1, 1, 1, 2, 3, 5, 9, 10]);
        let length = 7 * bytes as u32;
        let value = self.unsigned(slot, role, length, self.bits.place, None);
        self.leb(leb(value, false, bytes));
    }

    fn leb(&mut self, mut bytes: Vec<u8>) {
        if self.faulty(24) {
            bytes.resize(9, 0);
            bytes.iter_mut().for_each(|byte| *byte |= 0x80);
            let last = self.random.byte();
            bytes.push(last);
        }
        bytes.iter().for_each(|&byte| self.bits.write_byte(byte));
    }

    /// The value of an unsigned field; sets its slot.
    fn unsigned(
        &mut self,
        slot: Option<u8>,
        role: Role,
        length: u32,
        place: u64,
        shape: Option<Fixed>,
    ) -> u64 {
        let value = match role {
            Role::Magic if self.faulty(30) => self.random.word(),
            Role::Magic => 0xc1fc_1fc1,
            Role::StreamClassId => self.stream_id,
            Role::EventClassId => self.event_id,
            Role::TotalLength | Role::ContentLength => {
                self.patches.push(Patch { role, place, shape });
                0
            }
            Role::Clock => self.stamp(length),
            Role::EndClock if self.faulty(35) => self.random.edge_word().min(self.clock),
            Role::EndClock => match self.event_clock.checked_add(100_000) {
                Some(end) if end <= crate::bits::mask(length) => end,
                _ => crate::bits::mask(length),
            },
            _ if slot.is_some() && self.faulty(28) => {
                self.random.pick(&[65_535, 65_536, 65_537, 1 << 32, u64::MAX])
            }
            _ if slot.is_some() && self.random.chance(98) => self.random.below(6) as u64,
            _ => self.random.edge_word(),
        };
        let is_leb = shape.is_none();
        let value = if is_leb { value } else { value & crate::bits::mask(length) };
        match role {
            Role::StreamClassId => self.written_stream = Some(value),
            Role::EventClassId => self.written_event = Some(value),
            _ => {}
        }
        self.set(slot, Slot::Number(value, Sign::Unsigned));
        value
    }

    /// A timestamp of `length` bits, mostly one that lets the clock go on.
    fn stamp(&mut self, length: u32) -> u64 {
        let mask = crate::bits::mask(length);
        if self.faulty(36) {
            // First up to the highest clocks, from there on any stamp.
            if self.clock > u64::MAX - 1000 {
                return self.random.word() & mask;
            }
            self.clock = u64::MAX - self.random.below(600) as u64;
            return self.clock & mask;
        }
        if self.faulty(39) {
            return self.random.edge_word() & mask;
        }
        let advance = self.random.pick(&[0, 1, 5, 30, 100]);
        let target = self.event_clock.max(self.clock).saturating_add(advance);
        let stamp = target & mask;
        self.clock = crate::bits::advance_clock(self.clock, stamp, length).unwrap_or(u64::MAX);
        stamp
    }
}

#[cfg(test)]
mod tests {
    use super::*;
    use crate::bits;

    #[test]
    fn bits_come_back() {
        let mut random = Random::new(3);
        for order in [Order::Little, Order::Big] {
            let mut writer = BitWriter::default();
            let fields: Vec<(u32, u64)> = (0..100)
                .map(|_| {
                    let length = random.between(1, 64) as u32;
                    (length, random.word() & bits::mask(length))
                })
                .collect();
            fields.iter().for_each(|&(length, value)| writer.write(value, length, order));
            let mut place = 0;
            for (length, value) in fields {
                assert_eq!(bits::take(&writer.bytes, place, length, order), value);
                place += length as u64;
            }
        }
    }

    #[test]
    fn leb_comes_back() {
        let mut random = Random::new(4);
        for signed in [false, true] {
            for _ in 0..1000 {
                let (value, least) = (random.edge_word(), random.between(1, 10));
                let bytes = leb(value, signed, least);
                assert!(bytes.len() >= least);
                assert_eq!(bits::leb(&bytes, signed), Ok((value, bytes.len() as u64)));
            }
        }
        assert_eq!(leb(624485, false, 0), [0xe5, 0x8e, 0x26]);
        assert_eq!(leb(-123456i64 as u64, true, 0), [0xc0, 0xbb, 0x78]);
    }
}
