use super::*;
use crate::records::{Records, NO_SLOT};

fn event_root(root: u8, members: u8) -> Records {
    let mut records = Records::new();
    records.stream(0, 255).event(0, 0).root(root, members);
    records
}

fn packet_root(root: u8, members: u8) -> Records {
    let mut records = Records::new();
    if root == 0 {
        records.trace(Some([7; 16])).root(0, members);
    } else {
        records.clock(1, 1).stream(0, 1).root(root, members);
    }
    records
}

fn number(records: &Records) -> u64 {
    check(&records.bytes).0
}

#[test]
fn accepted() {
    let mut records = event_root(5, 1);
    records.unsigned(8, NO_SLOT, 0);
    assert_eq!(records.bytes.len(), 40);
    assert_eq!(check(&records.bytes), (0, 40));
    assert_eq!(check(&[1, 2]), (0, 2));
}

#[test]
fn sizes() {
    assert_eq!(check(&[]), (1, 0));
    assert_eq!(check(&vec![0; MOST_BYTES + 1]), (1, 0));
    assert_eq!(check(&vec![0; MOST_BYTES]), (2, 0));
}

#[test]
fn lengths_of_bodies() {
    let known: Vec<u8> = (0..=255).filter(|&kind| body_length(kind).is_some()).collect();
    let expected: Vec<u8> = (1..=6).chain(16..=34).collect();
    assert_eq!(known, expected);
    assert_eq!(body_length(33), Some(17));
    assert_eq!(body_length(34), Some(1));
    assert_eq!(body_length(23), Some(0));
}

#[test]
fn missing_records_stand_at_the_length() {
    assert_eq!(check(&event_root(5, 1).bytes), (3, 34));
    let mut records = event_root(5, 0);
    records.bytes.truncate(31);
    assert_eq!(check(&records.bytes), (3, 31));
    records.bytes.truncate(30);
    assert_eq!(check(&records.bytes), (3, 29));
    assert_eq!(check(&[1]), (3, 0));
}

#[test]
fn preambles() {
    assert_eq!(check(&[1, 3]), (5, 0));
    assert_eq!(check(&[1, 2, 1, 3]), (4, 2));
    assert_eq!(check(&[6, 9]), (4, 0));
    assert_eq!(check(&[7, 9]), (2, 0));
    assert_eq!(check(&[2, 9]), (3, 0));
    let mut records = event_root(5, 1);
    records.put(&[1, 2]);
    assert_eq!(check(&records.bytes), (4, 34));
}

#[test]
fn trace_classes() {
    let mut records = Records::new();
    records.clock(0, 1).trace(None);
    assert_eq!(number(&records), 0);
    assert_eq!(number(records.trace(None)), 6);
    let mut records = Records::new();
    assert_eq!(number(records.stream(0, 255).trace(None)), 6);
    // Inside a structure the lower number of 6 and 9 decides.
    assert_eq!(number(event_root(5, 1).trace(None)), 6);
    assert_eq!(number(Records::new().trace(None).root(0, 1).clock(0, 1)), 9);
}

#[test]
fn ids() {
    assert_eq!(number(Records::new().clock(0, 1).clock(0, 1)), 7);
    assert_eq!(number(Records::new().stream(5, 255).stream(5, 3)), 7);
    assert_eq!(number(Records::new().stream(5, 255).event(5, 1).event(5, 1)), 7);
    assert_eq!(number(Records::new().stream(5, 3)), 8);
    assert_eq!(number(Records::new().stream(5, 255).event(4, 1)), 8);
    assert_eq!(number(Records::new().clock(255, 1)), 10);
    assert_eq!(number(Records::new().clock(254, 0)), 10);
    assert_eq!(number(Records::new().clock(254, 0).clock(254, 0)), 10);
}

#[test]
fn roots() {
    assert_eq!(number(Records::new().root(0, 0)), 9);
    assert_eq!(number(Records::new().clock(0, 1).root(1, 0)), 9);
    assert_eq!(number(Records::new().trace(None).root(1, 0)), 9);
    assert_eq!(number(event_root(5, 0).root(4, 0)), 9);
    assert_eq!(number(event_root(4, 0).root(4, 0)), 9);
    assert_eq!(number(event_root(4, 0).root(5, 0)), 0);
    assert_eq!(number(event_root(4, 0).root(6, 0)), 10);
    assert_eq!(number(Records::new().stream(0, 255).root(1, 0).root(3, 0)), 0);
    assert_eq!(number(Records::new().put(&[6, 0, 18, 8, 0, 0, 255, 0])), 9);
    assert_eq!(check(&packet_root(1, 1).put(&[33, 0]).bytes).0, 3);
    assert_eq!(number(event_root(5, 1).put(&[6, 7])), 9);
}

#[test]
fn ranges_of_numbers() {
    for class in [
        &[16, 0, 0, 0][..],
        &[16, 65, 0, 0],
        &[16, 1, 2, 0],
        &[16, 1, 0, 7],
        &[17, 1, 0, 0, 64],
        &[18, 1, 0, 0, 254, 0],
        &[18, 1, 0, 0, 3, 12],
        &[20, 33, 0, 0],
        &[21, 100, 0],
        &[21, 255, 12],
        &[22, 64],
        &[26, 64],
        &[28, 65, 0],
        &[28, 0, 7],
        &[29, 0, 0, 7],
        &[30, 255, 7],
        &[31, 0, 17],
        &[32, 255, 0],
        &[32, 16, 33],
    ] {
        assert_eq!(number(event_root(5, 1).put(class)), 10, "{class:?}");
    }
}

#[test]
fn slots() {
    for (slot, packet, event) in [(0, 0, 11), (15, 0, 11), (16, 11, 0), (63, 11, 0), (255, 0, 0)] {
        assert_eq!(number(packet_root(1, 1).put(&[22, slot])), packet);
        assert_eq!(number(event_root(4, 1).put(&[22, slot])), event);
    }
    for (slot, packet, event) in [(0, 0, 0), (15, 0, 0), (16, 11, 0), (63, 11, 0), (255, 11, 11)] {
        assert_eq!(number(packet_root(0, 1).put(&[26, slot])), packet);
        assert_eq!(number(event_root(4, 1).put(&[26, slot])), event);
    }
}

#[test]
fn one_slot_one_home() {
    let set = |records: &mut Records| records.unsigned(8, 16, 0).bytes.len() as u64 - 6;
    // Inside an element and outside it: the later class is at fault.
    let mut records = event_root(5, 2);
    set(&mut records);
    let later = set(records.static_array(1, 0));
    assert_eq!(check(&records.bytes), (11, later));
    let mut records = event_root(5, 2);
    set(records.static_array(0, 0));
    let later = set(&mut records);
    assert_eq!(check(&records.bytes), (11, later));
    // Side by side: the second is outside the first one's element.
    let mut records = event_root(5, 2);
    set(records.static_array(1, 0));
    let later = set(records.static_array(1, 0));
    assert_eq!(check(&records.bytes), (11, later));
    // In an inner element and in the outer one outside the inner array.
    let mut records = event_root(5, 1);
    set(records.static_array(1, 0).structure(2, 0));
    let later = set(records.static_array(1, 0));
    assert_eq!(check(&records.bytes), (11, later));
    let mut records = event_root(5, 1);
    set(records.static_array(1, 0).structure(2, 0).put(&[30, 16, 0]));
    let later = set(&mut records);
    assert_eq!(check(&records.bytes), (11, later));
}

#[test]
fn two_classes_of_one_home() {
    let twice = |records: &mut Records| number(records.put(&[22, 16, 22, 16]));
    assert_eq!(twice(&mut event_root(5, 2)), 0);
    assert_eq!(twice(event_root(5, 1).static_array(2, 0).structure(2, 0)), 0);
    // Neither an optional nor an option is an element.
    let mut records = event_root(5, 1);
    records.static_array(2, 0).structure(3, 0).put(&[22, 16, 31, 16, 0, 22, 16]);
    records.put(&[32, 16, 1, 34, 1]).range(1, 0, 0).put(&[22, 16]);
    assert_eq!(number(&records), 0);
    // 255 is no slot, and what reads a slot has no home.
    let mut records = event_root(5, 3);
    records.put(&[22, 255]).static_array(1, 0).put(&[22, 255]).put(&[30, 16, 0, 22, 16]);
    assert_eq!(number(&records), 0);
}

#[test]
fn roots_that_meet() {
    let outside = |records: &mut Records, slot| number(records.put(&[22, slot]));
    let inside = |records: &mut Records, slot| number(records.static_array(1, 0).put(&[22, slot]));
    for (root, slot) in [(1, 0), (2, 16), (3, 16)] {
        let mut records = Records::new();
        assert_eq!(outside(records.trace(None).root(0, 1), 0), 0);
        assert_eq!(outside(records.stream(7, 255).root(1, 1), 0), 0);
        // Another stream class's roots are held against root 0 alone.
        let expected = if root == 1 { 11 } else { 0 };
        assert_eq!(inside(records.stream(0, 255).root(root, 1), slot), expected);
    }
    let mut records = Records::new();
    assert_eq!(outside(records.stream(0, 255).root(2, 1), 16), 0);
    assert_eq!(inside(records.clone().root(3, 1), 16), 11);
    assert_eq!(inside(records.clone().event(0, 0).root(4, 1), 16), 11);
    assert_eq!(inside(records.clone().stream(1, 255).event(0, 0).root(5, 1), 16), 11);
    assert_eq!(inside(records.clone().stream(1, 255).event(1, 0).root(5, 1), 16), 0);
    // Two event classes never meet.
    assert_eq!(outside(records.event(0, 0).root(5, 1), 17), 0);
    assert_eq!(inside(records.event(0, 1).root(5, 1), 17), 0);
}

#[test]
fn second_homes_among_other_faults() {
    let mut records = event_root(5, 2);
    records.put(&[22, 16]).static_array(1, 0);
    assert_eq!(number(records.clone().put(&[18, 8, 0, 7, 16, 0])), 10);
    assert_eq!(number(records.clone().put(&[18, 8, 0, 0, 16, 12])), 10);
    assert_eq!(number(records.clone().put(&[18, 8, 0, 0, 16, 1])), 11);
    for _ in 0..6 {
        records.structure(1, 0);
    }
    assert_eq!(number(records.clone().put(&[22, 17])), 14);
    assert_eq!(number(records.put(&[22, 16])), 11);
}

#[test]
fn roles() {
    let allowed: [(u8, &[u8]); 6] =
        [(0, &[1, 2, 3]), (1, &[5, 6, 7, 8, 9, 10]), (2, &[7, 11]), (3, &[]), (4, &[]), (5, &[])];
    for (root, roles) in allowed {
        for role in 1..12 {
            let mut records = if root < 4 { packet_root(root, 1) } else { event_root(root, 1) };
            records.unsigned(32, NO_SLOT, role);
            let expected = if roles.contains(&role) { 0 } else { 12 };
            assert_eq!(number(&records), expected, "root {root} role {role}");
        }
    }
    assert_eq!(number(packet_root(0, 1).unsigned(31, NO_SLOT, 1)), 12);
    assert_eq!(number(packet_root(0, 1).put(&[21, 255, 1])), 12);
    assert_eq!(number(packet_root(0, 2).put(&[23]).unsigned(32, NO_SLOT, 1)), 12);
    assert_eq!(number(packet_root(0, 1).structure(1, 0).unsigned(32, NO_SLOT, 1)), 12);
    assert_eq!(number(packet_root(0, 2).static_blob(16, 4).static_blob(16, 4)), 0);
    assert_eq!(number(packet_root(0, 1).static_blob(15, 4)), 12);
    assert_eq!(number(packet_root(0, 1).static_blob(16, 3)), 12);
    assert_eq!(number(packet_root(0, 1).static_blob(16, 12)), 10);
    assert_eq!(number(Records::new().trace(None).root(0, 1).static_blob(16, 4)), 12);
    let mut records = Records::new();
    assert_eq!(number(records.stream(0, 255).root(1, 1).unsigned(8, NO_SLOT, 7)), 12);
}

#[test]
fn ranges() {
    let optional = |count| event_root(5, 1).put(&[31, 16, count]).clone();
    assert_eq!(number(optional(1).range(0, 4, 3)), 13);
    assert_eq!(number(optional(1).range(2, 4, 3)), 10);
    assert_eq!(number(optional(1).range(1, u64::MAX, 0).put(&[23])), 0);
    assert_eq!(number(optional(1).range(0, u64::MAX, 0)), 13);
    assert_eq!(number(optional(2).range(0, 0, 5).range(0, 3, 9).put(&[23])), 0);
    assert_eq!(number(optional(2).range(0, 0, 5).range(1, 3, 9)), 13);
    let variant =
        || event_root(5, 1).put(&[32, 16, 2, 34, 2]).range(0, 1, 5).range(0, 2, 3).clone();
    assert_eq!(number(variant().put(&[23, 34, 1]).range(0, 6, 6).put(&[23])), 0);
    assert_eq!(number(variant().put(&[23, 34, 1]).range(0, 5, 6)), 13);
    assert_eq!(number(variant().put(&[23, 34, 1]).range(1, 6, 6)), 13);
    assert_eq!(number(variant().put(&[23, 34, 0])), 10);
    assert_eq!(number(variant().put(&[34, 1])), 9);
}

#[test]
fn depth() {
    let nested = |structures: usize| {
        let mut records = event_root(5, 1);
        for _ in 0..structures {
            records.structure(1, 0);
        }
        records.put(&[23]);
        records
    };
    assert_eq!(number(&nested(6)), 0);
    assert_eq!(check(&nested(7).bytes), (14, 34 + 21));
    // The variant at depth 8 passes, its option's class does not.
    let mut records = event_root(5, 1);
    for _ in 0..6 {
        records.structure(1, 0);
    }
    records.put(&[32, 16, 1, 34, 1]).range(0, 0, 0);
    let at = records.bytes.len() as u64;
    records.put(&[23]);
    assert_eq!(check(&records.bytes), (14, at));
}

#[test]
fn fragments() {
    let mut records = Records::new();
    records.stream(0, 255);
    for id in 0..511 {
        records.event(0, id);
    }
    assert_eq!(number(&records), 0);
    assert_eq!(check(&records.clone().event(0, 511).bytes), (15, records.bytes.len() as u64));
    assert_eq!(number(records.clone().event(0, 510)), 7);
    assert_eq!(number(records.event(9, 9)), 8);
}
