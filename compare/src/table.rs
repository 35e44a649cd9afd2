//! The checker of a class table; an accepted table becomes a tree.
//!
//! The first record with a fault decides, and there the lowest number. So each
//! record is tested for the numbers in rising order: 2 to 9 in `take`, whatever
//! place the record stands at, and 10 to 15 where its body is understood.

use crate::class::*;
use crate::homes::{Home, Homes};
use crate::records::NO_SLOT;
use std::collections::{HashMap, HashSet};

pub const MOST_BYTES: usize = 65_536;
const MOST_FRAGMENTS: usize = 512;
const MOST_DEPTH: u32 = 8;

const NO_KIND: u8 = 255;
#[rustfmt::skip]
const BODY_LENGTHS: [u8; 35] = [
    NO_KIND, 1, 17, 9, 9, 16, 1,
    NO_KIND, NO_KIND, NO_KIND, NO_KIND, NO_KIND, NO_KIND, NO_KIND, NO_KIND, NO_KIND,
    3, 4, 5, 4, 3, 2, 1, 0, 2, 3, 1, 1, 2, 3, 2, 2, 2, 17, 1,
];

/// The bytes behind the kind, or nothing for an unknown kind.
pub fn body_length(kind: u8) -> Option<usize> {
    match BODY_LENGTHS.get(kind as usize) {
        None | Some(&NO_KIND) => None,
        Some(&length) => Some(length as usize),
    }
}

#[derive(Clone, Copy, Debug, PartialEq, Eq)]
pub struct Refusal {
    pub number: u64,
    pub byte: u64,
}

/// 0 and the table's length, or the refusal's number and byte.
pub fn check(table: &[u8]) -> (u64, u64) {
    check_by(table, Elements::Forget)
}

pub fn check_by(table: &[u8], elements: Elements) -> (u64, u64) {
    match parse_by(table, elements) {
        Ok(_) => (0, table.len() as u64),
        Err(refusal) => (refusal.number, refusal.byte),
    }
}

pub fn parse(bytes: &[u8]) -> Result<Table, Refusal> {
    parse_by(bytes, Elements::Forget)
}

/// What array elements do to the slots that are set in them.
#[derive(Clone, Copy, PartialEq, Eq)]
pub enum Elements {
    Forget,
    /// Document 01 before request 3: kept to count the cases that this one changed.
    Remember,
}

pub fn parse_by(bytes: &[u8], elements: Elements) -> Result<Table, Refusal> {
    if bytes.is_empty() || bytes.len() > MOST_BYTES {
        return Err(Refusal { number: 1, byte: 0 });
    }
    let mut parser = Parser::new(bytes, elements);
    while parser.next < bytes.len() || parser.next == 0 {
        parser.fragment_or_root()?;
    }
    let mut table = parser.table;
    for stream in &mut table.streams {
        stream.events.sort_unstable_by_key(|event| event.id);
    }
    table.streams.sort_unstable_by_key(|stream| stream.id);
    Ok(table)
}

/// What may stand at the next byte.
#[derive(Clone, Copy, PartialEq, Eq)]
enum Expected {
    FragmentOrRoot,
    Structure,
    Class,
    Range,
    Option,
}

impl Expected {
    fn allows(self, kind: u8) -> bool {
        match self {
            Expected::FragmentOrRoot => kind <= 6,
            Expected::Structure => kind == 28,
            Expected::Class => (16..=32).contains(&kind),
            Expected::Range => kind == 33,
            Expected::Option => kind == 34,
        }
    }
}

/// The fragment that is open.
#[derive(Clone, Copy)]
enum Fragment {
    Preamble,
    Trace,
    Clock,
    Stream(usize),
    Event { stream: usize, event: usize },
}

impl Fragment {
    fn owns(self, root: u8) -> bool {
        match self {
            Fragment::Preamble | Fragment::Clock => false,
            Fragment::Trace => root == 0,
            Fragment::Stream(_) => (1..=3).contains(&root),
            Fragment::Event { .. } => (4..=5).contains(&root),
        }
    }
}

#[derive(Clone, Copy)]
struct Record<'a> {
    at: usize,
    /// Counted in its fragment, from 0 at the record that opens it.
    number: u64,
    kind: u8,
    body: &'a [u8],
}

impl Record<'_> {
    fn demand(&self, holds: bool, number: u64) -> Result<(), Refusal> {
        if holds {
            Ok(())
        } else {
            Err(Refusal { number, byte: self.at as u64 })
        }
    }

    fn word(&self, at: usize) -> u64 {
        u64::from_le_bytes(self.body[at..at + 8].try_into().expect("eight bytes"))
    }

    fn half(&self, at: usize) -> u16 {
        u16::from_le_bytes([self.body[at], self.body[at + 1]])
    }
}

/// What the records inside a root depend on.
#[derive(Clone, Copy)]
struct Scope {
    root: u8,
    has_uuid: bool,
    has_clock: bool,
}

impl Scope {
    fn is_packet(&self) -> bool {
        self.root <= 1
    }

    fn sets(&self, slot: u8) -> bool {
        slot == NO_SLOT || (slot < 16) == self.is_packet()
    }

    fn reads(&self, slot: u8) -> bool {
        slot < 16 || (slot < 64 && !self.is_packet())
    }

    /// Roles of kinds 18 and 21; kind 25 has its own rule.
    fn allows(&self, role: Role) -> bool {
        match role {
            Role::None => true,
            Role::Magic | Role::StreamClassId | Role::StreamId => self.root == 0,
            Role::Uuid => false,
            Role::TotalLength | Role::ContentLength => self.root == 1,
            Role::DiscardedCount | Role::SequenceNumber => self.root == 1,
            Role::Clock => self.has_clock && (self.root == 1 || self.root == 2),
            Role::EndClock => self.has_clock && self.root == 1,
            Role::EventClassId => self.root == 2,
        }
    }
}

/// Where a class stands within its root.
#[derive(Clone, Copy)]
struct Spot {
    depth: u32,
    /// The first member of the root structure, where a magic may stand.
    leads: bool,
    home: Home,
}

impl Spot {
    const ROOT: Spot = Spot { depth: 1, leads: false, home: Home::NoArray };

    fn within(self) -> Spot {
        Spot { depth: self.depth + 1, leads: false, home: self.home }
    }

    fn member(self, index: u8) -> Spot {
        Spot { leads: self.depth == 1 && index == 0, ..self.within() }
    }

    fn element(self, array: &Record) -> Spot {
        Spot { home: Home::Array(array.at), ..self.within() }
    }
}

fn slot_in_range(slot: u8) -> bool {
    slot < 64 || slot == NO_SLOT
}

struct Parser<'a> {
    bytes: &'a [u8],
    next: usize,
    /// How many records the open fragment has so far.
    records: u64,
    fragment: Fragment,
    last_root: Option<u8>,
    has_trace: bool,
    fragments: usize,
    clocks: [bool; 256],
    stream_index: HashMap<u64, usize>,
    events: HashSet<(u64, u64)>,
    elements: Elements,
    homes: Homes,
    table: Table,
}

impl<'a> Parser<'a> {
    fn new(bytes: &'a [u8], elements: Elements) -> Self {
        Parser {
            bytes,
            next: 0,
            records: 0,
            fragment: Fragment::Preamble,
            last_root: None,
            has_trace: false,
            fragments: 0,
            clocks: [false; 256],
            stream_index: HashMap::new(),
            events: HashSet::new(),
            elements,
            homes: Homes::default(),
            table: Table::default(),
        }
    }

    /// The next record, tested for the numbers 2 to 9.
    fn take(&mut self, expected: Expected) -> Result<Record<'a>, Refusal> {
        let at = self.next;
        let refuse = |number| Err(Refusal { number, byte: at as u64 });
        let Some(&kind) = self.bytes.get(at) else { return refuse(3) };
        let Some(length) = body_length(kind) else { return refuse(2) };
        let Some(body) = self.bytes.get(at + 1..at + 1 + length) else { return refuse(3) };
        let opens = (1..=5).contains(&kind);
        let record = Record { at, number: if opens { 0 } else { self.records }, kind, body };
        record.demand((at == 0) == (kind == 1), 4)?;
        match kind {
            1 => record.demand(body[0] == 2, 5)?,
            2 => record.demand(!self.has_trace && self.stream_index.is_empty(), 6)?,
            3 => record.demand(!self.clocks[body[0] as usize], 7)?,
            4 => {
                let clock = body[8];
                record.demand(!self.stream_index.contains_key(&record.word(0)), 7)?;
                record.demand(clock == 255 || self.clocks[clock as usize], 8)?;
            }
            5 => {
                let stream = record.word(0);
                record.demand(!self.events.contains(&(stream, record.word(8))), 7)?;
                record.demand(self.stream_index.contains_key(&stream), 8)?;
            }
            _ => {}
        }
        record.demand(expected.allows(kind), 9)?;
        if kind == 6 && body[0] <= 5 {
            let in_turn = self.last_root.is_none_or(|last| last < body[0]);
            record.demand(in_turn && self.fragment.owns(body[0]), 9)?;
        }
        self.next = at + 1 + length;
        self.records = record.number + 1;
        Ok(record)
    }

    fn fragment_or_root(&mut self) -> Result<(), Refusal> {
        let record = self.take(Expected::FragmentOrRoot)?;
        let body = record.body;
        if record.kind == 6 {
            record.demand(body[0] <= 5, 10)?;
            self.last_root = Some(body[0]);
            return self.root(body[0]);
        }
        self.last_root = None;
        self.fragment = match record.kind {
            1 => Fragment::Preamble,
            2 => {
                record.demand(body[0] <= 1, 10)?;
                self.has_trace = true;
                if body[0] == 1 {
                    self.table.trace.uuid = body[1..].try_into().ok();
                }
                Fragment::Trace
            }
            3 => {
                record.demand(body[0] != 255 && record.word(1) != 0, 10)?;
                self.count_fragment(&record)?;
                self.clocks[body[0] as usize] = true;
                Fragment::Clock
            }
            4 => {
                self.count_fragment(&record)?;
                let id = record.word(0);
                let stream = self.table.streams.len();
                self.stream_index.insert(id, stream);
                self.homes.open_stream();
                self.table.streams.push(StreamClass {
                    id,
                    has_clock: body[8] != 255,
                    context: None,
                    header: None,
                    common: None,
                    events: Vec::new(),
                });
                Fragment::Stream(stream)
            }
            _ => {
                self.count_fragment(&record)?;
                let (stream_id, id) = (record.word(0), record.word(8));
                self.events.insert((stream_id, id));
                let stream = self.stream_index[&stream_id];
                self.homes.open_event(stream);
                let events = &mut self.table.streams[stream].events;
                events.push(EventClass { id, specific: None, payload: None });
                Fragment::Event { stream, event: events.len() - 1 }
            }
        };
        Ok(())
    }

    fn count_fragment(&mut self, record: &Record) -> Result<(), Refusal> {
        self.fragments += 1;
        record.demand(self.fragments <= MOST_FRAGMENTS, 15)
    }

    fn root(&mut self, root: u8) -> Result<(), Refusal> {
        let has_clock = match self.fragment {
            Fragment::Stream(stream) => self.table.streams[stream].has_clock,
            _ => false,
        };
        let scope = Scope { root, has_uuid: self.table.trace.uuid.is_some(), has_clock };
        let record = self.take(Expected::Structure)?;
        let structure = self.structure(&record, scope, Spot::ROOT)?;
        let place = match self.fragment {
            Fragment::Stream(stream) => {
                let stream = &mut self.table.streams[stream];
                match root {
                    1 => &mut stream.context,
                    2 => &mut stream.header,
                    _ => &mut stream.common,
                }
            }
            Fragment::Event { stream, event } => {
                let event = &mut self.table.streams[stream].events[event];
                if root == 4 {
                    &mut event.specific
                } else {
                    &mut event.payload
                }
            }
            _ => &mut self.table.trace.header,
        };
        *place = Some(structure);
        Ok(())
    }

    fn structure(
        &mut self,
        record: &Record,
        scope: Scope,
        spot: Spot,
    ) -> Result<Structure, Refusal> {
        let (count, align) = (record.body[0], record.body[1]);
        record.demand(count <= 64 && align <= 6, 10)?;
        record.demand(spot.depth <= MOST_DEPTH, 14)?;
        let mut requirement = 1 << align;
        let mut members = Vec::with_capacity(count as usize);
        for index in 0..count {
            let member = self.class(scope, spot.member(index))?;
            requirement = requirement.max(member.class.requirement());
            members.push(member);
        }
        Ok(Structure { number: record.number, requirement, members })
    }

    fn class(&mut self, scope: Scope, spot: Spot) -> Result<Numbered, Refusal> {
        let record = self.take(Expected::Class)?;
        let class = self.class_of(&record, scope, spot)?;
        Ok(Numbered { number: record.number, class })
    }

    fn class_of(&mut self, record: &Record, scope: Scope, spot: Spot) -> Result<Class, Refusal> {
        let body = record.body;
        match record.kind {
            16..=20 => self.fixed(record, scope, spot),
            21 | 22 => {
                let role = if record.kind == 21 { body[1] } else { 0 };
                record.demand(slot_in_range(body[0]), 10)?;
                let role = numbered_role(record, role)?;
                let slot = self.set_slot(record, scope, spot, body[0])?;
                record.demand(scope.allows(role) && role != Role::Magic, 12)?;
                record.demand(spot.depth <= MOST_DEPTH, 14)?;
                Ok(match record.kind {
                    21 => Class::LebUnsigned { slot, role },
                    _ => Class::LebSigned { slot },
                })
            }
            23..=27 => self.bytes_class(record, scope, spot),
            28 => Ok(Class::Structure(self.structure(record, scope, spot)?)),
            29 | 30 => self.array(record, scope, spot),
            31 => self.optional(record, scope, spot),
            _ => self.variant(record, scope, spot),
        }
    }

    fn fixed(&mut self, record: &Record, scope: Scope, spot: Spot) -> Result<Class, Refusal> {
        let body = record.body;
        let length = body[0];
        record.demand((1..=64).contains(&length) && body[1] <= 1 && body[2] <= 6, 10)?;
        record.demand(record.kind != 20 || length == 32 || length == 64, 10)?;
        let slot = if (17..=19).contains(&record.kind) { body[3] } else { NO_SLOT };
        record.demand(slot_in_range(slot), 10)?;
        let role = numbered_role(record, if record.kind == 18 { body[4] } else { 0 })?;
        let slot = self.set_slot(record, scope, spot, slot)?;
        let magic_fits = role != Role::Magic || (length == 32 && spot.leads);
        record.demand(scope.allows(role) && magic_fits, 12)?;
        record.demand(spot.depth <= MOST_DEPTH, 14)?;
        let fixed = Fixed {
            length: length as u32,
            order: if body[1] == 0 { Order::Little } else { Order::Big },
            align: 1 << body[2],
        };
        Ok(match record.kind {
            16 => Class::BitArray(fixed),
            17 => Class::Boolean { fixed, slot },
            18 => Class::Unsigned { fixed, slot, role },
            19 => Class::Signed { fixed, slot },
            _ => Class::Float(fixed),
        })
    }

    fn bytes_class(&self, record: &Record, scope: Scope, spot: Spot) -> Result<Class, Refusal> {
        let body = record.body;
        let class = match record.kind {
            23 => Class::NullTerminatedString,
            24 => Class::StaticString { bytes: record.half(0) },
            25 => {
                let bytes = record.half(0);
                let role = numbered_role(record, body[2])?;
                let uuid_fits = scope.root == 0 && scope.has_uuid && bytes == 16;
                let fits = role == Role::None || (role == Role::Uuid && uuid_fits);
                record.demand(fits, 12)?;
                Class::StaticBlob { bytes, role }
            }
            _ => {
                self.read_slot(record, scope, true)?;
                match record.kind {
                    26 => Class::DynamicString { slot: body[0] },
                    _ => Class::DynamicBlob { slot: body[0] },
                }
            }
        };
        record.demand(spot.depth <= MOST_DEPTH, 14)?;
        Ok(class)
    }

    /// Tests a slot that is set: it is one of the root's, and has one home.
    fn set_slot(
        &mut self,
        record: &Record,
        scope: Scope,
        spot: Spot,
        slot: u8,
    ) -> Result<Option<u8>, Refusal> {
        record.demand(scope.sets(slot), 11)?;
        if slot == NO_SLOT {
            return Ok(None);
        }
        let one_home = self.homes.note(slot, spot.home);
        record.demand(one_home || self.elements == Elements::Remember, 11)?;
        Ok(Some(slot))
    }

    /// Tests the slot in a body's first byte, its other numbers being in range or not.
    fn read_slot(&self, record: &Record, scope: Scope, others: bool) -> Result<(), Refusal> {
        record.demand(others && slot_in_range(record.body[0]), 10)?;
        record.demand(scope.reads(record.body[0]), 11)
    }

    fn array(&mut self, record: &Record, scope: Scope, spot: Spot) -> Result<Class, Refusal> {
        let body = record.body;
        let align = *body.last().expect("arrays have an align");
        if record.kind == 29 {
            record.demand(align <= 6, 10)?;
        } else {
            self.read_slot(record, scope, align <= 6)?;
        }
        record.demand(spot.depth <= MOST_DEPTH, 14)?;
        let element = Box::new(self.class(scope, spot.element(record))?);
        let forgets = match self.elements {
            Elements::Forget => element.class.can_set(),
            Elements::Remember => 0,
        };
        let requirement = element.class.requirement().max(1 << align);
        let array = Array { requirement, forgets, element };
        Ok(match record.kind {
            29 => Class::StaticArray { elements: record.half(0), array },
            _ => Class::DynamicArray { slot: body[0], array },
        })
    }

    fn optional(&mut self, record: &Record, scope: Scope, spot: Spot) -> Result<Class, Refusal> {
        let (slot, count) = (record.body[0], record.body[1]);
        self.read_slot(record, scope, count <= 16)?;
        record.demand(spot.depth <= MOST_DEPTH, 14)?;
        let mut sign = None;
        let mut ranges = Vec::with_capacity(count as usize);
        for _ in 0..count {
            ranges.push(self.range(&mut sign, &[])?);
        }
        let when = match sign {
            None => When::Flag,
            Some(sign) => When::In(sign, ranges),
        };
        let class = Box::new(self.class(scope, spot.within())?);
        Ok(Class::Optional { slot, when, class })
    }

    fn variant(&mut self, record: &Record, scope: Scope, spot: Spot) -> Result<Class, Refusal> {
        let (slot, count) = (record.body[0], record.body[1]);
        self.read_slot(record, scope, (1..=32).contains(&count))?;
        record.demand(spot.depth <= MOST_DEPTH, 14)?;
        let mut sign = None;
        let mut options: Vec<Choice> = Vec::with_capacity(count as usize);
        for _ in 0..count {
            let option = self.take(Expected::Option)?;
            option.demand((1..=16).contains(&option.body[0]), 10)?;
            let mut ranges = Vec::with_capacity(option.body[0] as usize);
            for _ in 0..option.body[0] {
                ranges.push(self.range(&mut sign, &options)?);
            }
            let class = self.class(scope, spot.within())?;
            options.push(Choice { ranges, class });
        }
        let sign = sign.expect("each option has a range");
        Ok(Class::Variant { slot, sign, options })
    }

    /// A range, which may not meet those of the earlier options.
    fn range(&mut self, sign: &mut Option<Sign>, earlier: &[Choice]) -> Result<Range, Refusal> {
        let record = self.take(Expected::Range)?;
        record.demand(record.body[0] <= 1, 10)?;
        let own = if record.body[0] == 0 { Sign::Unsigned } else { Sign::Signed };
        let range = Range { low: own.key(record.word(1)), high: own.key(record.word(9)) };
        record.demand(*sign.get_or_insert(own) == own && range.low <= range.high, 13)?;
        let meets =
            earlier.iter().flat_map(|option| &option.ranges).any(|other| other.meets(&range));
        record.demand(!meets, 13)?;
        Ok(range)
    }
}

fn numbered_role(record: &Record, number: u8) -> Result<Role, Refusal> {
    let role = Role::from_number(number);
    role.ok_or(Refusal { number: 10, byte: record.at as u64 })
}

#[cfg(test)]
#[path = "table_tests.rs"]
mod tests;
