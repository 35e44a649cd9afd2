//! The tree an accepted class table stands for.

/// Which bit of a byte comes first.
#[derive(Clone, Copy, Debug, PartialEq, Eq)]
pub enum Order {
    Little,
    Big,
}

/// Whether a range and its selector are unsigned or signed numbers.
#[derive(Clone, Copy, Debug, PartialEq, Eq)]
pub enum Sign {
    Unsigned,
    Signed,
}

impl Sign {
    /// Turns a word into a number that compares unsigned in the sign's order.
    pub fn key(self, word: u64) -> u64 {
        match self {
            Sign::Unsigned => word,
            Sign::Signed => word ^ (1 << 63),
        }
    }
}

/// What a field means to the reader besides its value.
#[derive(Clone, Copy, Debug, PartialEq, Eq)]
pub enum Role {
    None,
    Magic,
    StreamClassId,
    StreamId,
    Uuid,
    TotalLength,
    ContentLength,
    Clock,
    EndClock,
    DiscardedCount,
    SequenceNumber,
    EventClassId,
}

impl Role {
    pub fn from_number(number: u8) -> Option<Role> {
        use Role::*;
        const ROLES: [Role; 12] = [
            None,
            Magic,
            StreamClassId,
            StreamId,
            Uuid,
            TotalLength,
            ContentLength,
            Clock,
            EndClock,
            DiscardedCount,
            SequenceNumber,
            EventClassId,
        ];
        ROLES.get(number as usize).copied()
    }
}

/// The shape of kinds 16 to 20.
#[derive(Clone, Copy, Debug, PartialEq, Eq)]
pub struct Fixed {
    pub length: u32,
    pub order: Order,
    pub align: u64,
}

/// A range with both ends included, the ends being keys of its sign.
#[derive(Clone, Copy, Debug, PartialEq, Eq)]
pub struct Range {
    pub low: u64,
    pub high: u64,
}

impl Range {
    pub fn holds(&self, key: u64) -> bool {
        self.low <= key && key <= self.high
    }

    pub fn meets(&self, other: &Range) -> bool {
        self.low <= other.high && other.low <= self.high
    }
}

/// When an optional is there.
#[derive(Clone, Debug, PartialEq, Eq)]
pub enum When {
    Flag,
    In(Sign, Vec<Range>),
}

/// One option of a variant.
#[derive(Clone, Debug, PartialEq, Eq)]
pub struct Choice {
    pub ranges: Vec<Range>,
    pub class: Numbered,
}

/// A class within another, with its record's number in its fragment, from 0 at the record that opens it.
#[derive(Clone, Debug, PartialEq, Eq)]
pub struct Numbered {
    pub number: u64,
    pub class: Class,
}

#[derive(Clone, Debug, PartialEq, Eq)]
pub struct Structure {
    /// Its record's number in its fragment.
    pub number: u64,
    /// The largest of its own align and that of its members.
    pub requirement: u64,
    pub members: Vec<Numbered>,
}

/// What both kinds of arrays have.
#[derive(Clone, Debug, PartialEq, Eq)]
pub struct Array {
    /// The largest of its own align and that of its element.
    pub requirement: u64,
    /// One bit for each slot that becomes unset where an element starts and where it ends.
    pub forgets: u64,
    pub element: Box<Numbered>,
}

/// A field class. A slot that is set is `None` where the table has 255.
#[derive(Clone, Debug, PartialEq, Eq)]
pub enum Class {
    BitArray(Fixed),
    Boolean { fixed: Fixed, slot: Option<u8> },
    Unsigned { fixed: Fixed, slot: Option<u8>, role: Role },
    Signed { fixed: Fixed, slot: Option<u8> },
    Float(Fixed),
    LebUnsigned { slot: Option<u8>, role: Role },
    LebSigned { slot: Option<u8> },
    NullTerminatedString,
    StaticString { bytes: u16 },
    StaticBlob { bytes: u16, role: Role },
    DynamicString { slot: u8 },
    DynamicBlob { slot: u8 },
    Structure(Structure),
    StaticArray { elements: u16, array: Array },
    DynamicArray { slot: u8, array: Array },
    Optional { slot: u8, when: When, class: Box<Numbered> },
    Variant { slot: u8, sign: Sign, options: Vec<Choice> },
}

impl Class {
    /// The alignment, in bits from the packet's place, a field of this class needs.
    pub fn requirement(&self) -> u64 {
        match self {
            Class::BitArray(fixed) | Class::Float(fixed) => fixed.align,
            Class::Boolean { fixed, .. }
            | Class::Unsigned { fixed, .. }
            | Class::Signed { fixed, .. } => fixed.align,
            Class::LebUnsigned { .. }
            | Class::LebSigned { .. }
            | Class::NullTerminatedString
            | Class::StaticString { .. }
            | Class::StaticBlob { .. }
            | Class::DynamicString { .. }
            | Class::DynamicBlob { .. } => 8,
            Class::Structure(structure) => structure.requirement,
            Class::StaticArray { array, .. } | Class::DynamicArray { array, .. } => {
                array.requirement
            }
            Class::Optional { .. } | Class::Variant { .. } => 1,
        }
    }

    /// One bit for each slot that this class or one inside it can set, read or not.
    pub fn can_set(&self) -> u64 {
        match self {
            Class::Boolean { slot, .. }
            | Class::Unsigned { slot, .. }
            | Class::Signed { slot, .. }
            | Class::LebUnsigned { slot, .. }
            | Class::LebSigned { slot } => slot.map_or(0, |slot| 1 << slot),
            Class::BitArray(_)
            | Class::Float(_)
            | Class::NullTerminatedString
            | Class::StaticString { .. }
            | Class::StaticBlob { .. }
            | Class::DynamicString { .. }
            | Class::DynamicBlob { .. } => 0,
            Class::Structure(structure) => {
                structure.members.iter().fold(0, |slots, member| slots | member.class.can_set())
            }
            Class::StaticArray { array, .. } | Class::DynamicArray { array, .. } => {
                array.element.class.can_set()
            }
            Class::Optional { class, .. } => class.class.can_set(),
            Class::Variant { options, .. } => {
                options.iter().fold(0, |slots, option| slots | option.class.class.can_set())
            }
        }
    }
}

#[derive(Clone, Debug, Default)]
pub struct TraceClass {
    pub uuid: Option<[u8; 16]>,
    pub header: Option<Structure>,
}

#[derive(Clone, Debug)]
pub struct EventClass {
    pub id: u64,
    pub specific: Option<Structure>,
    pub payload: Option<Structure>,
}

#[derive(Clone, Debug)]
pub struct StreamClass {
    pub id: u64,
    pub has_clock: bool,
    pub context: Option<Structure>,
    pub header: Option<Structure>,
    pub common: Option<Structure>,
    /// In rising order of their ids.
    pub events: Vec<EventClass>,
}

impl StreamClass {
    pub fn event(&self, id: u64) -> Option<&EventClass> {
        let index = self.events.binary_search_by_key(&id, |event| event.id).ok()?;
        Some(&self.events[index])
    }
}

#[derive(Clone, Debug, Default)]
pub struct Table {
    pub trace: TraceClass,
    /// In rising order of their ids.
    pub streams: Vec<StreamClass>,
}

impl Table {
    pub fn stream(&self, id: u64) -> Option<&StreamClass> {
        let index = self.streams.binary_search_by_key(&id, |stream| stream.id).ok()?;
        Some(&self.streams[index])
    }
}
