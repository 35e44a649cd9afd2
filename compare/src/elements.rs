//! Small cases about slots that array elements set: read in the element, in a later one and behind
//! the array, in the same root and in a later one; and set by two classes, of one home or of two.

use crate::case::Case;
use crate::encode::encode;
use crate::random::Random;
use crate::records::{Records, NO_SLOT};
use crate::table::{self, Elements};
use std::collections::BTreeMap;

const ROOM: usize = 8000;

/// A class's records, with those of the classes inside it.
type Class = Vec<u8>;

/// The members of each root, by fragment and number.
type Roots = BTreeMap<(Fragment, u8), Vec<Class>>;

#[derive(Clone, Copy, PartialEq, Eq, PartialOrd, Ord)]
enum Fragment {
    Trace,
    Stream,
    OtherStream,
    Event,
    OtherEvent,
    OtherStreamsEvent,
}

use Fragment::*;

/// The fragments in the order of their bytes, each with its roots.
const FRAGMENTS: [(Fragment, &[u8]); 6] = [
    (Trace, &[0]),
    (Stream, &[1, 2, 3]),
    (OtherStream, &[1, 2, 3]),
    (Event, &[4, 5]),
    (OtherEvent, &[4, 5]),
    (OtherStreamsEvent, &[4, 5]),
];

/// The roots that a packet or an event of the first classes has, in the order they are read.
const READ: [(Fragment, u8); 6] =
    [(Trace, 0), (Stream, 1), (Stream, 2), (Stream, 3), (Event, 4), (Event, 5)];

/// Most cases are to be such that the answer hangs on what elements forget; the last try stands.
pub fn element_case(random: &mut Random) -> Case {
    let shape = random.pick(&SHAPES);
    let tries = random.pick(&[1, 8, 8]);
    let mut case = Case::default();
    for _ in 0..tries {
        let roots = shape(random);
        case = case_of(random, &roots);
        if case.answer() != case.answer_by(Elements::Remember) {
            break;
        }
    }
    case
}

const SHAPES: [fn(&mut Random) -> Roots; 6] =
    [absent_in_an_element, read_behind, read_behind, nested, two_setters, any_classes];

fn case_of(random: &mut Random, roots: &Roots) -> Case {
    let bytes = table_of(random, roots);
    let stream = match table::parse(&bytes) {
        Ok(table) => encode(&table, random, 0),
        Err(_) => vec![1, 2, 3],
    };
    Case::new(bytes, stream, ROOM)
}

/// A table with these roots; ids and a total length are there where they can be told apart.
fn table_of(random: &mut Random, roots: &Roots) -> Vec<u8> {
    let mut records = Records::new();
    let has = |wanted| roots.keys().any(|&(fragment, _)| fragment == wanted);
    for (fragment, numbers) in FRAGMENTS {
        match fragment {
            Trace => records.trace(None),
            Stream => records.stream(0, 255),
            OtherStream if has(OtherStream) || has(OtherStreamsEvent) => records.stream(1, 255),
            Event => records.event(0, 0),
            OtherEvent if has(OtherEvent) => records.event(0, 1),
            OtherStreamsEvent if has(OtherStreamsEvent) => records.event(1, 0),
            _ => continue,
        };
        for &number in numbers {
            let role = match number {
                0 if has(OtherStream) || has(OtherStreamsEvent) => Some(2),
                1 if random.chance(60) => Some(5),
                2 if has(OtherEvent) => Some(11),
                _ => None,
            };
            let given = roots.get(&(fragment, number)).map_or(&[][..], Vec::as_slice);
            if role.is_some() || !given.is_empty() {
                records.root(number, given.len() as u8 + role.is_some() as u8);
                role.map(|role| records.unsigned(16, NO_SLOT, role));
                records.put(&given.concat());
            }
        }
    }
    records.bytes
}

/// Four slots that a root may set.
fn slots(random: &mut Random, root: u8) -> [u8; 4] {
    let first = if root <= 1 { random.pick(&[0, 0, 12]) } else { random.pick(&[16, 16, 60]) };
    [first, first + 1, first + 2, first + 3]
}

fn byte() -> Class {
    vec![16, 8, 0, 0]
}

/// Sets a slot, mostly to an unsigned number.
fn setter(random: &mut Random, slot: u8) -> Class {
    match random.below(20) {
        0 => vec![17, 8, 0, 0, slot],
        1 => vec![19, 8, 0, 0, slot],
        2 => vec![22, slot],
        3..=8 => vec![21, slot, 0],
        _ => vec![18, 8, 0, 0, slot, 0],
    }
}

/// Reads a slot, mostly as an unsigned number.
fn reader(random: &mut Random, slot: u8) -> Class {
    match random.below(10) {
        0 => vec![26, slot],
        1 => vec![27, slot],
        2 | 3 => array_of(slot, byte()),
        4 => optional(slot, byte()),
        5 | 6 => {
            [&Records::default().put(&[31, slot, 1]).range(0, 0, 3).bytes[..], &byte()].concat()
        }
        _ => variant(slot, byte(), vec![23]),
    }
}

fn structure(members: &[Class]) -> Class {
    [&[28, members.len() as u8, 0][..], &members.concat()].concat()
}

fn optional(flag: u8, class: Class) -> Class {
    [&[31, flag, 0][..], &class].concat()
}

/// One class for 0 to 2, the other for all above.
fn variant(slot: u8, low: Class, high: Class) -> Class {
    let mut records = Records::default();
    records.put(&[32, slot, 2, 34, 1]).range(0, 0, 2).put(&low);
    records.put(&[34, 1]).range(0, 3, u64::MAX).put(&high);
    records.bytes
}

/// The class in one of a variant's two options.
fn one_option(random: &mut Random, slot: u8, class: Class) -> Class {
    match random.chance(50) {
        true => variant(slot, class, byte()),
        false => variant(slot, byte(), class),
    }
}

fn array_of(length: u8, element: Class) -> Class {
    [&[30, length, 0][..], &element].concat()
}

/// An array of up to three elements, or of as many as a slot says.
fn array(random: &mut Random, length: u8, element: Class) -> Class {
    match random.chance(30) {
        true => array_of(length, element),
        false => [&[29, random.pick(&[0, 1, 2, 2, 3]), 0, 0][..], &element].concat(),
    }
}

/// An array whose elements have a selector, what it announces, and a class that reads this: an
/// element without it may follow one with it.
fn absent_in_an_element(random: &mut Random) -> Roots {
    let root = random.pick(&READ);
    let [selector, value, length, _] = slots(random, root.1);
    let set = setter(random, value);
    let mut members = match random.chance(60) {
        true => vec![vec![17, 8, 0, 0, selector], optional(selector, set)],
        false => vec![vec![18, 8, 0, 0, selector, 0], one_option(random, selector, set)],
    };
    members.push(reader(random, value));
    match random.below(6) {
        // The reader in front sees what an earlier element left, which is nothing.
        0 => members.rotate_right(1),
        1 => members[1] = structure(&[members[1].clone(), byte()]),
        _ => {}
    }
    let mut class = array(random, length, structure(&members));
    if random.chance(30) {
        class = array(random, length, class);
    }
    let mut own = vec![setter(random, length), class];
    if random.chance(40) {
        own.push(byte());
    }
    Roots::from([(root, own)])
}

/// An array as the last member of a root, or of a structure in it, and behind it a class that reads
/// what its elements set: in the same root or in a later one.
fn read_behind(random: &mut Random) -> Roots {
    let mut first = random.below(READ.len());
    let mut later = random.between(first, READ.len() - 1);
    if random.chance(25) {
        // The common context and the payload: the array's end is the root's.
        (first, later) = (3, 5);
    }
    let [value, inner, length, _] = slots(random, READ[first].1);
    let set = setter(random, value);
    let element = match random.below(7) {
        0 => set,
        1 => (0..random.between(1, 4)).fold(set, |class, _| array(random, length, class)),
        2 => {
            let again = setter(random, inner);
            structure(&[set, one_option(random, value, again)])
        }
        3 => structure(&[set, array_of(value, byte())]),
        4 => structure(&[set, structure(&[reader(random, value)])]),
        _ => {
            let inside = structure(&[setter(random, inner), reader(random, value)]);
            structure(&[set, array(random, value, inside)])
        }
    };
    let class = array(random, length, element);
    let class = if random.chance(30) { structure(&[byte(), class]) } else { class };
    let mut roots = Roots::from([(READ[first], vec![setter(random, length), class])]);
    let slot = random.pick(&[value, value, inner, length]);
    let members = roots.entry(READ[later]).or_default();
    members.extend([reader(random, slot), byte()]);
    roots
}

/// Arrays two or three deep, as long as the element around them says or not, and what is read in
/// the inner ones and behind them.
fn nested(random: &mut Random) -> Roots {
    let root = random.pick(&READ);
    let [outer, middle, inner, length] = slots(random, root.1);
    let mut class = setter(random, inner);
    // At three the innermost element is at depth 7, and has no room for what a reader holds.
    let mut around = vec![middle, outer];
    if random.chance(50) {
        around.remove(0);
        let slot = random.pick(&[outer, outer, inner]);
        class = structure(&[class, reader(random, slot)]);
    }
    for own in around {
        let mut members = vec![setter(random, own), array(random, own, class)];
        if random.chance(50) {
            let slot = random.pick(&[own, inner]);
            members.push(reader(random, slot));
        }
        class = structure(&members);
    }
    Roots::from([(root, vec![setter(random, length), array(random, length, class)])])
}

/// A class within up to three others, of which arrays have elements, or rarely within seven.
fn around(random: &mut Random, slot: u8, mut class: Class) -> Class {
    for _ in 0..random.pick(&[0, 1, 1, 1, 2, 2, 3, 7]) {
        class = match random.below(8) {
            0..=3 => array(random, slot, class),
            4 | 5 => structure(&[class]),
            6 => optional(slot, class),
            _ => one_option(random, slot, class),
        };
    }
    class
}

/// Two classes that set one slot, in any two roots, and in elements or outside.
fn two_setters(random: &mut Random) -> Roots {
    let group = random.pick(&[&[0, 1][..], &[2, 3, 4, 5]]);
    let (one, other) = (random.pick(group), random.pick(group));
    let [slot, read, ..] = slots(random, one.max(other));
    let slot = if random.chance(5) { NO_SLOT } else { slot };
    let place = |random: &mut Random, root: u8| match root {
        0 => (Trace, root),
        1..=3 => (random.pick(&[Stream, Stream, Stream, OtherStream]), root),
        _ => (random.pick(&[Event, Event, Event, OtherEvent, OtherStreamsEvent]), root),
    };
    let set = setter(random, slot);
    let mut again = setter(random, slot);
    if random.chance(20) {
        // Its align or its role is a fault too: 10 comes before 11, and 12 behind it.
        again = vec![18, 8, 0, random.pick(&[0, 0, 7]), slot, random.pick(&[0, 1, 12])];
    }
    let mut roots = Roots::new();
    match random.below(4) {
        0 => {
            let both = match random.below(3) {
                0 => structure(&[set, again]),
                1 => structure(&[array(random, read, set), again]),
                _ => structure(&[set, array(random, read, again)]),
            };
            roots.insert(place(random, one), vec![around(random, read, both)]);
        }
        _ => {
            for (root, class) in [(one, set), (other, again)] {
                let root = place(random, root);
                let class = around(random, read, class);
                roots.entry(root).or_default().push(class);
            }
        }
    }
    roots
}

/// Classes of all sorts that set and read a few slots, wherever they may stand.
fn any_classes(random: &mut Random) -> Roots {
    let mut roots = Roots::new();
    for _ in 0..random.between(1, 3) {
        let root = random.pick(&READ);
        let own = slots(random, root.1);
        let members = (0..random.between(1, 3)).map(|_| any_class(random, &own, 2)).collect();
        roots.insert(root, members);
    }
    roots
}

fn any_class(random: &mut Random, slots: &[u8; 4], depth: u32) -> Class {
    let slot = random.pick(slots);
    let roll = if depth < 7 { random.below(20) } else { random.below(9) };
    match roll {
        0..=5 => setter(random, slot),
        6..=8 => reader(random, slot),
        9..=13 => {
            let element = any_class(random, slots, depth + 1);
            array(random, slot, element)
        }
        14 => optional(slot, any_class(random, slots, depth + 1)),
        15 => {
            let class = any_class(random, slots, depth + 1);
            one_option(random, slot, class)
        }
        _ => {
            let count = random.between(1, 3);
            structure(&Vec::from_iter((0..count).map(|_| any_class(random, slots, depth + 1))))
        }
    }
}

#[cfg(test)]
mod tests {
    use super::*;

    /// How many of so many cases of a shape have a check and a verdict that only forgetting gives.
    fn changed(shape: fn(&mut Random) -> Roots, check: u64, number: u64) -> usize {
        let mut random = Random::new(17);
        let cases = (0..500).filter(|_| {
            let roots = shape(&mut random);
            let case = case_of(&mut random, &roots);
            let answer = case.answer();
            (answer.check.0, answer.reading.number) == (check, number)
                && answer != case.answer_by(Elements::Remember)
        });
        cases.count()
    }

    #[test]
    fn shapes_reach_their_refusals() {
        for shape in [absent_in_an_element, read_behind, nested] {
            assert!(changed(shape, 0, 26) > 50);
        }
        for shape in [two_setters, any_classes] {
            assert!(changed(shape, 11, 20) > 100);
        }
    }
}
