//! One slot, one home: where the classes stand that set each slot.
//!
//! Slots are held against each other within the roots that one packet or one event has: root 0
//! with those of a stream class, and these with those of an event class. An event class never meets
//! another, so each starts from what its stream class left.

/// The innermost array in whose element a class stands, known by its record's place: two classes
/// have one home if that is the same, and no step is needed where an array begins or ends.
#[derive(Clone, Copy, PartialEq, Eq)]
pub enum Home {
    NoArray,
    Array(usize),
}

/// The home of each slot that a class so far sets.
#[derive(Clone, Copy)]
struct Known([Option<Home>; 64]);

impl Default for Known {
    fn default() -> Self {
        Known([None; 64])
    }
}

#[derive(Default)]
pub struct Homes {
    trace: Known,
    streams: Vec<Known>,
    event: Known,
    open: Open,
}

/// Whose roots come next.
#[derive(Default)]
enum Open {
    #[default]
    Trace,
    Stream,
    Event,
}

impl Homes {
    pub fn open_stream(&mut self) {
        self.streams.push(self.trace);
        self.open = Open::Stream;
    }

    /// Opens an event class of a stream class, by the number of this one in the order of the table.
    pub fn open_event(&mut self, stream: usize) {
        self.event = self.streams[stream];
        self.open = Open::Event;
    }

    /// Notes a class that sets a slot; false if an earlier one sets it from another home.
    pub fn note(&mut self, slot: u8, home: Home) -> bool {
        let known = match self.open {
            Open::Trace => &mut self.trace,
            Open::Stream => self.streams.last_mut().expect("a stream class is open"),
            Open::Event => &mut self.event,
        };
        *known.0[slot as usize].get_or_insert(home) == home
    }
}
