//! Reads a data stream with a class table and lists what it finds.

use crate::bits::{self, LebFault};
use crate::class::*;
use crate::table::{self, Refusal};
use crate::text::is_text;

pub const MOST_STREAM_BYTES: usize = 536_870_911;
const MAGIC: u64 = 0xc1fc_1fc1;
const MOST_LENGTH: u64 = 65_535;
pub const WORDS_PER_ENTRY: usize = 5;
/// Kind, place, bits, value, and the class record's number.
pub type Entry = [u64; WORDS_PER_ENTRY];
/// The bits of the slots 0 to 15, which events leave as they are.
const PACKET_SLOTS: u64 = 0xffff;

/// The result: number (0 accepted), entries, place and two ids.
#[derive(Clone, Copy, Debug, PartialEq, Eq)]
pub struct Reading {
    pub number: u64,
    pub entries: u64,
    pub place: u64,
    pub first: u64,
    pub second: u64,
}

/// Reads the stream; the entries go to the list, words behind them stay.
pub fn read(table: &[u8], stream: &[u8], list: &mut [u64]) -> Reading {
    with_table(table::parse(table), stream, list)
}

/// The same with what became of the table's bytes.
pub fn with_table(table: Result<Table, Refusal>, stream: &[u8], list: &mut [u64]) -> Reading {
    let refuse = |number, place, first| Reading { number, entries: 0, place, first, second: 0 };
    let table = match table {
        Ok(table) => table,
        Err(refusal) => return refuse(20, refusal.byte, refusal.number),
    };
    if stream.is_empty() || stream.len() > MOST_STREAM_BYTES {
        return refuse(21, 0, 0);
    }
    let mut reader = Reader::new(&table, stream, list);
    let stop = match reader.packets() {
        Ok(()) => Stop { number: 0, place: reader.end, first: 0, second: 0 },
        Err(stop) => stop,
    };
    Reading {
        number: stop.number,
        entries: reader.entries as u64,
        place: stop.place,
        first: stop.first,
        second: stop.second,
    }
}

/// Why and where a reading ends.
#[derive(Clone, Copy, Debug)]
struct Stop {
    number: u64,
    place: u64,
    first: u64,
    second: u64,
}

type Step<T = ()> = Result<T, Stop>;

fn stop<T>(number: u64, place: u64) -> Step<T> {
    Err(Stop { number, place, first: 0, second: 0 })
}

/// What a slot that is set holds.
#[derive(Clone, Copy)]
enum Slot {
    Flag(bool),
    Unsigned(u64),
    Signed(u64),
}

/// What the roles of one packet and its current event have set.
#[derive(Default)]
struct Known {
    stream_class: u64,
    total: Option<u64>,
    content: Option<u64>,
    clock: u64,
    end_clock: Option<u64>,
    event_class: u64,
}

struct Reader<'a> {
    table: &'a Table,
    stream: &'a [u8],
    /// The list's room for entries; a rest of under five words is no room.
    list: &'a mut [Entry],
    entries: usize,
    /// The stream's end in bits.
    end: u64,
    /// The stream's end, then the end of the packet's content.
    bound: u64,
    place: u64,
    /// The packet's place.
    packet: u64,
    slots: [Slot; 64],
    /// One bit for each slot that is set.
    set_slots: u64,
    /// Order of the packet's previous field of the kinds 16 to 20.
    order: Option<Order>,
    known: Known,
    /// The stream class id of the first packet.
    first_class: Option<u64>,
    /// The clock of the previous event in the stream.
    event_clock: u64,
}

impl<'a> Reader<'a> {
    fn new(table: &'a Table, stream: &'a [u8], list: &'a mut [u64]) -> Self {
        let end = stream.len() as u64 * 8;
        Reader {
            table,
            stream,
            list: list.as_chunks_mut().0,
            entries: 0,
            end,
            bound: end,
            place: 0,
            packet: 0,
            slots: [Slot::Flag(false); 64],
            set_slots: 0,
            order: None,
            known: Known::default(),
            first_class: None,
            event_clock: 0,
        }
    }

    /// Tests the list for room; `enter` comes after it once all else has passed.
    #[inline]
    fn room(&self) -> Step {
        if self.entries == self.list.len() {
            return stop(40, self.place);
        }
        Ok(())
    }

    /// An entry of the kinds 1 to 7, behind which no class stands.
    #[inline]
    fn mark(&mut self, kind: u64, place: u64, bits: u64, value: u64) {
        self.enter(0, kind, place, bits, value);
    }

    /// A field's entry; `number` is that of its class's record.
    #[inline]
    fn enter(&mut self, number: u64, kind: u64, place: u64, bits: u64, value: u64) {
        self.list[self.entries] = [kind, place, bits, value, number];
        self.entries += 1;
    }

    fn packets(&mut self) -> Step {
        let mut number = 0;
        while self.place < self.end {
            self.packet(number)?;
            number += 1;
        }
        Ok(())
    }

    fn packet(&mut self, number: u64) -> Step {
        self.packet = self.place;
        self.bound = self.end;
        self.set_slots = 0;
        self.order = None;
        self.known = Known::default();
        self.room()?;
        self.mark(1, self.packet, 0, number);
        self.root(&self.table.trace.header)?;
        let stream_class = self.stream_class()?;
        self.root(&stream_class.context)?;
        let total = self.lengths()?;
        let mut events = 0;
        while self.place < self.bound {
            self.event(stream_class, events)?;
            events += 1;
        }
        self.room()?;
        let after = self.packet + total;
        self.mark(7, after, after - self.place, events);
        self.place = after;
        Ok(())
    }

    fn stream_class(&mut self) -> Step<&'a StreamClass> {
        let id = self.known.stream_class;
        if *self.first_class.get_or_insert(id) != id {
            return stop(32, self.place);
        }
        self.room()?;
        let Some(class) = self.table.stream(id) else {
            return Err(Stop { number: 33, place: self.place, first: id, second: 0 });
        };
        self.mark(2, self.place, 0, id);
        Ok(class)
    }

    /// Settles the packet's lengths and the bound; gives the total.
    fn lengths(&mut self) -> Step<u64> {
        self.room()?;
        let rest = self.end - self.packet;
        let Known { total, content, clock, end_clock, .. } = self.known;
        let (total, content) = match (total, content) {
            (Some(total), Some(content)) => (total, content),
            (Some(length), None) | (None, Some(length)) => (length, length),
            (None, None) => (rest, rest),
        };
        let contradict =
            total % 8 != 0 || content > total || total > rest || content < self.place - self.packet;
        if contradict {
            return stop(34, self.place);
        }
        if end_clock.is_some_and(|end| clock > end) {
            return stop(35, self.place);
        }
        self.mark(3, self.place, total, content);
        self.bound = self.packet + content;
        Ok(total)
    }

    fn event(&mut self, stream_class: &'a StreamClass, number: u64) -> Step {
        let start = self.place;
        self.set_slots &= PACKET_SLOTS;
        self.known.event_class = 0;
        self.room()?;
        self.mark(4, start, 0, number);
        self.root(&stream_class.header)?;
        if stream_class.has_clock {
            if self.known.clock < self.event_clock {
                return stop(39, self.place);
            }
            self.event_clock = self.known.clock;
        }
        self.room()?;
        let id = self.known.event_class;
        let Some(class) = stream_class.event(id) else {
            let first = stream_class.id;
            return Err(Stop { number: 37, place: self.place, first, second: id });
        };
        self.mark(5, self.place, 0, id);
        self.root(&stream_class.common)?;
        self.root(&class.specific)?;
        self.root(&class.payload)?;
        if self.place == start {
            return stop(38, start);
        }
        Ok(())
    }

    fn root(&mut self, root: &'a Option<Structure>) -> Step {
        match root {
            Some(structure) => self.structure(structure),
            None => Ok(()),
        }
    }

    /// The next field's place once aligned.
    #[inline]
    fn aligned(&self, requirement: u64) -> Step<u64> {
        let place = bits::align(self.place, self.packet, requirement);
        if place > self.bound {
            return stop(22, self.bound);
        }
        Ok(place)
    }

    fn field(&mut self, numbered: &'a Numbered) -> Step {
        let number = numbered.number;
        match &numbered.class {
            Class::BitArray(fixed) => {
                self.fixed(number, 16, fixed, |value| value)?;
            }
            Class::Boolean { fixed, slot } => {
                let value = self.fixed(number, 17, fixed, |value| (value != 0) as u64)?;
                self.set(*slot, Slot::Flag(value != 0));
            }
            Class::Unsigned { fixed, slot, role } => {
                let value = self.fixed(number, 18, fixed, |value| value)?;
                self.set(*slot, Slot::Unsigned(value));
                self.role(*role, value, fixed.length)?;
            }
            Class::Signed { fixed, slot } => {
                let value =
                    self.fixed(number, 19, fixed, |value| bits::extend_sign(value, fixed.length))?;
                self.set(*slot, Slot::Signed(value));
            }
            Class::Float(fixed) => {
                self.fixed(number, 20, fixed, |value| value)?;
            }
            Class::LebUnsigned { slot, role } => {
                let (value, bytes) = self.leb(number, 21)?;
                self.set(*slot, Slot::Unsigned(value));
                self.role(*role, value, 7 * bytes as u32)?;
            }
            Class::LebSigned { slot } => {
                let (value, _) = self.leb(number, 22)?;
                self.set(*slot, Slot::Signed(value));
            }
            Class::NullTerminatedString => self.null_terminated_string(number)?,
            Class::StaticString { bytes } => {
                self.room()?;
                self.string(number, 24, *bytes as u64)?;
            }
            Class::StaticBlob { bytes, role } => {
                self.room()?;
                let blob = self.blob(number, 25, *bytes as u64)?;
                let uuid = &self.table.trace.uuid;
                if *role == Role::Uuid && uuid.as_ref().map(|uuid| &uuid[..]) != Some(blob) {
                    return stop(31, self.place);
                }
            }
            Class::DynamicString { slot } => {
                self.room()?;
                let length = self.length(*slot)?;
                self.string(number, 26, length)?;
            }
            Class::DynamicBlob { slot } => {
                self.room()?;
                let length = self.length(*slot)?;
                self.blob(number, 27, length)?;
            }
            Class::Structure(structure) => self.structure(structure)?,
            Class::StaticArray { elements, array } => {
                self.room()?;
                self.elements(number, 29, *elements as u64, array)?;
            }
            Class::DynamicArray { slot, array } => {
                self.room()?;
                let length = self.length(*slot)?;
                self.elements(number, 30, length, array)?;
            }
            Class::Optional { slot, when, class } => {
                self.room()?;
                let is_there = self.is_there(*slot, when)?;
                self.enter(number, 31, self.place, 0, is_there as u64);
                if is_there {
                    self.field(class)?;
                }
            }
            Class::Variant { slot, sign, options } => {
                self.room()?;
                let key = self.selector(*slot, *sign)?;
                let holds = |option: &Choice| option.ranges.iter().any(|range| range.holds(key));
                let Some(option) = options.iter().position(holds) else {
                    return stop(29, self.place);
                };
                self.enter(number, 32, self.place, 0, option as u64);
                self.field(&options[option].class)?;
            }
        }
        Ok(())
    }

    /// A field of the kinds 16 to 20; `mean` turns its bits into its value.
    #[inline]
    fn fixed(
        &mut self,
        number: u64,
        kind: u64,
        fixed: &Fixed,
        mean: impl Fn(u64) -> u64,
    ) -> Step<u64> {
        self.room()?;
        let place = self.aligned(fixed.align)?;
        let offset = place - self.packet;
        if !offset.is_multiple_of(8) && self.order != Some(fixed.order) {
            return stop(23, self.place);
        }
        if fixed.length as u64 > self.bound - place {
            return stop(22, self.bound);
        }
        let value = mean(bits::take(self.stream, place, fixed.length, fixed.order));
        self.order = Some(fixed.order);
        self.enter(number, kind, place, fixed.length as u64, value);
        self.place = place + fixed.length as u64;
        Ok(value)
    }

    fn leb(&mut self, number: u64, kind: u64) -> Step<(u64, u64)> {
        self.room()?;
        let place = self.aligned(8)?;
        let bytes = &self.stream[(place / 8) as usize..(self.bound / 8) as usize];
        let (value, count) = match bits::leb(bytes, kind == 22) {
            Ok(read) => read,
            Err(LebFault::PastBound) => return stop(22, self.bound),
            Err(LebFault::TooLong(index)) => return stop(24, place + 8 * index),
        };
        self.enter(number, kind, place, 8 * count, value);
        self.place = place + 8 * count;
        Ok((value, count))
    }

    fn text(&self, bytes: &[u8]) -> Step {
        match is_text(bytes) {
            true => Ok(()),
            false => stop(41, self.place),
        }
    }

    fn null_terminated_string(&mut self, number: u64) -> Step {
        self.room()?;
        let place = self.aligned(8)?;
        let bytes = &self.stream[(place / 8) as usize..(self.bound / 8) as usize];
        let Some(count) = bytes.iter().position(|&byte| byte == 0) else {
            return stop(25, self.place);
        };
        self.text(&bytes[..count])?;
        let bits = 8 * (count as u64 + 1);
        self.enter(number, 23, place, bits, count as u64);
        self.place = place + bits;
        Ok(())
    }

    /// The place and bytes of a field of `count` bytes.
    fn bytes(&self, count: u64) -> Step<(u64, &'a [u8])> {
        let place = self.aligned(8)?;
        if 8 * count > self.bound - place {
            return stop(22, self.bound);
        }
        let first = (place / 8) as usize;
        Ok((place, &self.stream[first..first + count as usize]))
    }

    fn string(&mut self, number: u64, kind: u64, count: u64) -> Step {
        let (place, bytes) = self.bytes(count)?;
        let value = bytes.iter().position(|&byte| byte == 0).map_or(count, |zero| zero as u64);
        self.text(&bytes[..value as usize])?;
        self.enter(number, kind, place, 8 * count, value);
        self.place = place + 8 * count;
        Ok(())
    }

    fn blob(&mut self, number: u64, kind: u64, count: u64) -> Step<&'a [u8]> {
        let (place, bytes) = self.bytes(count)?;
        self.enter(number, kind, place, 8 * count, count);
        self.place = place + 8 * count;
        Ok(bytes)
    }

    fn structure(&mut self, structure: &'a Structure) -> Step {
        self.room()?;
        let place = self.aligned(structure.requirement)?;
        self.enter(structure.number, 28, place, 0, structure.members.len() as u64);
        self.place = place;
        for member in &structure.members {
            self.field(member)?;
        }
        Ok(())
    }

    fn elements(&mut self, number: u64, kind: u64, count: u64, array: &'a Array) -> Step {
        let place = self.aligned(array.requirement)?;
        self.enter(number, kind, place, 0, count);
        self.place = place;
        // Most elements set no slot, and have nothing to pay for those that do.
        if array.forgets == 0 {
            for _ in 0..count {
                self.field(&array.element)?;
            }
            return Ok(());
        }
        for _ in 0..count {
            self.set_slots &= !array.forgets;
            self.field(&array.element)?;
            self.set_slots &= !array.forgets;
        }
        Ok(())
    }

    fn slot(&self, slot: u8) -> Step<Slot> {
        if self.set_slots >> slot & 1 == 0 {
            return stop(26, self.place);
        }
        Ok(self.slots[slot as usize])
    }

    /// A length from a slot.
    fn length(&self, slot: u8) -> Step<u64> {
        match self.slot(slot)? {
            Slot::Unsigned(length) if length > MOST_LENGTH => stop(28, self.place),
            Slot::Unsigned(length) => Ok(length),
            _ => stop(27, self.place),
        }
    }

    /// The key of a selector of the given sign.
    fn selector(&self, slot: u8, sign: Sign) -> Step<u64> {
        match (self.slot(slot)?, sign) {
            (Slot::Unsigned(word), Sign::Unsigned) | (Slot::Signed(word), Sign::Signed) => {
                Ok(sign.key(word))
            }
            _ => stop(27, self.place),
        }
    }

    fn is_there(&self, slot: u8, when: &When) -> Step<bool> {
        match when {
            When::Flag => match self.slot(slot)? {
                Slot::Flag(flag) => Ok(flag),
                _ => stop(27, self.place),
            },
            When::In(sign, ranges) => {
                let key = self.selector(slot, *sign)?;
                Ok(ranges.iter().any(|range| range.holds(key)))
            }
        }
    }

    #[inline]
    fn set(&mut self, slot: Option<u8>, value: Slot) {
        if let Some(slot) = slot {
            self.slots[slot as usize] = value;
            self.set_slots |= 1 << slot;
        }
    }

    /// What a role does once its field is listed and its slot set; `length` is the field's L.
    #[inline]
    fn role(&mut self, role: Role, value: u64, length: u32) -> Step {
        let known = &mut self.known;
        match role {
            Role::None | Role::StreamId | Role::DiscardedCount | Role::SequenceNumber => {}
            Role::Magic if value != MAGIC => return stop(30, self.place),
            // Kind 25 compares its UUID itself: a number has none.
            Role::Magic | Role::Uuid => {}
            Role::StreamClassId => known.stream_class = value,
            Role::TotalLength => known.total = Some(value),
            Role::ContentLength => known.content = Some(value),
            Role::EndClock => known.end_clock = Some(value),
            Role::EventClassId => known.event_class = value,
            Role::Clock => {
                self.room()?;
                let Some(clock) = bits::advance_clock(self.known.clock, value, length) else {
                    return stop(36, self.place);
                };
                self.mark(6, self.place, length as u64, clock);
                self.known.clock = clock;
            }
        }
        Ok(())
    }
}

#[cfg(test)]
#[path = "reader_tests.rs"]
mod tests;
