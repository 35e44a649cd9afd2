//! Makes valid class tables at random.

use crate::random::Random;
use crate::records::{Records, NO_SLOT};

/// What a slot holds by the time a class is made, as far as the maker knows.
#[derive(Clone, Copy, PartialEq, Eq)]
enum Sort {
    Unset,
    Flag,
    Unsigned,
    Signed,
}

/// An array by its number, from 1 on in the order they are made, or 0 outside all of them.
type Home = usize;

/// What the maker knows of the slots.
#[derive(Clone, Copy)]
struct Slots {
    sorts: [Sort; 64],
    /// Where the classes stand that set each slot, one home for all of them.
    homes: [Option<Home>; 64],
}

/// Makes a table; `wish` is the number the case should come to, or 0.
pub fn make_table(random: &mut Random, wish: u64) -> Vec<u8> {
    let mut maker = Maker {
        wish,
        whole_bytes: random.chance(55),
        order: random.below(2) as u8,
        records: Records::new(),
        slots: Slots { sorts: [Sort::Unset; 64], homes: [None; 64] },
        home: 0,
        arrays: 0,
        root: 0,
        budget: 0,
        random,
    };
    maker.table();
    maker.records.bytes
}

struct Maker<'r> {
    random: &'r mut Random,
    wish: u64,
    /// Whether fields fill bytes, so that packets need no lengths.
    whole_bytes: bool,
    /// The order most fields have.
    order: u8,
    records: Records,
    slots: Slots,
    home: Home,
    arrays: usize,
    root: u8,
    /// Classes the current root may still have.
    budget: usize,
}

/// How many bits the field of an id has; 0 stands for LEB128.
fn id_limit(bits: u8) -> u64 {
    match bits {
        0 | 64 => u64::MAX,
        bits => (1 << bits) - 1,
    }
}

impl Maker<'_> {
    /// `part` of 100, or nearly always if the case wishes for one of the numbers.
    fn chance(&mut self, part: usize, wishes: &[u64]) -> bool {
        let part = if wishes.contains(&self.wish) { 97 } else { part };
        self.random.chance(part)
    }

    fn id_bits(&mut self) -> u8 {
        match self.whole_bytes {
            true => self.random.pick(&[0, 8, 8, 16, 32, 64]),
            false => self.random.pick(&[0, 2, 3, 5, 8, 13, 64]),
        }
    }

    fn new_id(&mut self, limit: u64, used: &[u64]) -> Option<u64> {
        (0..20).find_map(|_| {
            let id = match self.random.below(4) {
                0 => self.random.edge_word() & limit,
                1 => limit - self.random.below(4) as u64,
                _ => self.random.below(6) as u64 & limit,
            };
            (!used.contains(&id)).then_some(id)
        })
    }

    fn table(&mut self) {
        let mut clocks = Vec::new();
        let early = self.random.below(2);
        self.clocks(&mut clocks, early);
        let has_trace = self.chance(75, &[30, 31, 32, 33, 12, 6]);
        let mut class_bits = None;
        if has_trace {
            let uuid = self.chance(60, &[31]).then(|| self.random.bytes());
            self.records.trace(uuid);
            if self.chance(85, &[30, 31, 32, 33]) {
                class_bits = self.packet_header(uuid.is_some());
            }
        }
        let header_slots = self.slots;
        let late = self.random.below(3);
        self.clocks(&mut clocks, late);
        if clocks.is_empty() && self.chance(50, &[35, 36, 39]) {
            self.clocks(&mut clocks, 1);
        }
        let mut streams: Vec<u64> = Vec::new();
        let mut waiting = Vec::new();
        for index in 0..self.random.between(1, 4) {
            let id = match class_bits {
                Some(bits) => self.new_id(id_limit(bits), &streams),
                None if index == 0 => Some(0),
                None => self.new_id(u64::MAX, &streams),
            };
            let Some(id) = id else { continue };
            streams.push(id);
            self.slots = header_slots;
            let event_bits = self.stream(id, &clocks);
            waiting.push((id, event_bits, self.slots));
            // Some classes get their events later, behind other stream classes.
            if self.random.chance(70) {
                self.waiting_events(&mut waiting);
            }
        }
        self.waiting_events(&mut waiting);
    }

    fn clocks(&mut self, clocks: &mut Vec<u8>, count: usize) {
        for _ in 0..count {
            let id = self.random.pick(&[0, 1, 2, 7, 254]);
            if !clocks.contains(&id) {
                clocks.push(id);
                let frequency = self.random.edge_word().max(1);
                self.records.clock(id, frequency);
            }
        }
    }

    fn packet_header(&mut self, has_uuid: bool) -> Option<u8> {
        let mut roles = Vec::new();
        let class_bits = self.chance(80, &[32, 33]).then(|| self.id_bits());
        if class_bits.is_some() {
            roles.push(2);
        }
        if self.random.chance(40) {
            roles.push(3);
        }
        if has_uuid && self.chance(60, &[31]) {
            roles.push(4);
        }
        let magic = self.chance(50, &[30]);
        self.roles_root(0, magic, &roles, class_bits.unwrap_or(8));
        class_bits
    }

    /// A stream class and its roots; gives the bits of the event id, if it has any.
    fn stream(&mut self, id: u64, clocks: &[u8]) -> Option<u8> {
        let has_clock = !clocks.is_empty() && self.chance(70, &[35, 36, 39]);
        let clock = if has_clock { self.random.pick(clocks) } else { 255 };
        self.records.stream(id, clock);
        if !self.whole_bytes || self.chance(85, &[34, 35]) {
            // Events that do not fill bytes need both lengths.
            let choice = if self.whole_bytes { 0 } else { 5 };
            let mut roles = match self.random.between(choice, 20) {
                0 => vec![],
                1 | 2 => vec![5],
                3 | 4 => vec![6],
                5 => vec![5, 6, 5],
                _ => vec![5, 6],
            };
            if has_clock && self.chance(60, &[35, 36]) {
                roles.push(7);
            }
            if has_clock && self.chance(40, &[35]) {
                roles.push(8);
            }
            roles.extend([9, 10].into_iter().filter(|_| self.random.chance(30)));
            self.roles_root(1, false, &roles, 0);
        }
        let mut event_bits = None;
        if self.random.chance(if self.wish == 38 { 5 } else { 90 }) {
            let mut roles = Vec::new();
            if self.chance(85, &[37]) {
                event_bits = Some(self.id_bits());
                roles.push(11);
            }
            if has_clock && self.chance(80, &[36, 39]) {
                roles.push(7);
            }
            self.roles_root(2, false, &roles, event_bits.unwrap_or(8));
        }
        if self.random.chance(35) {
            self.plain_root(3);
        }
        event_bits
    }

    fn waiting_events(&mut self, waiting: &mut Vec<(u64, Option<u8>, Slots)>) {
        for (stream, bits, slots) in waiting.drain(..) {
            let mut events = Vec::new();
            for index in 0..self.random.between(1, 4) {
                let id = match bits {
                    Some(bits) => self.new_id(id_limit(bits), &events),
                    None if index == 0 => Some(0),
                    None => self.new_id(u64::MAX, &events),
                };
                let Some(id) = id else { continue };
                events.push(id);
                self.records.event(stream, id);
                self.slots = slots;
                if self.random.chance(35) {
                    self.plain_root(4);
                }
                if self.random.chance(85) {
                    self.plain_root(5);
                }
            }
        }
    }

    fn plain_root(&mut self, root: u8) {
        self.open_root(root);
        self.records.put(&[6, root]);
        let least = if self.wish == 38 { 0 } else { 1 };
        let count =
            if self.wish == 38 { self.random.below(2) } else { self.random.between(least, 6) };
        let align = self.align();
        self.records.structure(count as u8, align);
        (0..count).for_each(|_| self.class(2));
    }

    fn open_root(&mut self, root: u8) {
        self.root = root;
        self.budget = self.random.between(4, 30);
        if root == 2 {
            self.slots.sorts[16..].fill(Sort::Unset);
        }
    }

    /// A root whose fields have roles, with other fields between them.
    fn roles_root(&mut self, root: u8, magic: bool, roles: &[u8], id_bits: u8) {
        self.open_root(root);
        let mut plan: Vec<u8> = roles.to_vec();
        plan.extend((0..self.random.below(4)).map(|_| 0));
        for index in (1..plan.len()).rev() {
            plan.swap(index, self.random.below(index + 1));
        }
        self.records.put(&[6, root]);
        let align = self.align();
        self.records.structure((plan.len() + magic as usize) as u8, align);
        if magic {
            let slot = self.role_slot();
            self.records.put(&[18, 32, self.order, 0, slot, 1]);
        }
        for role in plan {
            match role {
                0 => self.class(2),
                role => self.role(role, id_bits),
            }
        }
    }

    /// A field with a role, sometimes inside a structure or an array.
    fn role(&mut self, role: u8, id_bits: u8) {
        match self.random.below(24) {
            0 => {
                self.records.structure(1, 0);
                self.bare_role(role, id_bits);
            }
            1 => {
                self.records.static_array(self.random.between(1, 2) as u16, 0);
                self.element(|maker| maker.bare_role(role, id_bits));
            }
            _ => self.bare_role(role, id_bits),
        }
    }

    fn bare_role(&mut self, role: u8, id_bits: u8) {
        if role == 4 {
            self.records.static_blob(16, 4);
            return;
        }
        let bits = match role {
            2 | 11 => id_bits,
            5 | 6 => self.random.pick(&[0, 16, 24, 32, 64, 64]),
            7 | 8 if self.whole_bytes => self.random.pick(&[0, 8, 16, 32, 64, 64]),
            7 | 8 => self.random.pick(&[0, 8, 13, 27, 32, 64]),
            _ => self.random.pick(&[0, 8, 16, 64]),
        };
        let slot = match role {
            5..=8 => NO_SLOT,
            _ => self.role_slot(),
        };
        if bits == 0 {
            self.records.put(&[21, slot, role]);
        } else {
            let (order, align) = self.order_and_align(bits);
            self.records.put(&[18, bits, order, align, slot, role]);
        }
    }

    fn align(&mut self) -> u8 {
        match self.random.below(8) {
            0 => self.random.below(7) as u8,
            1 => 3,
            _ => 0,
        }
    }

    /// The slot of a field with a role; its value is too large to rely on.
    fn role_slot(&mut self) -> u8 {
        if self.random.chance(70) {
            return NO_SLOT;
        }
        self.set_slot(Sort::Unset)
    }

    fn order_and_align(&mut self, length: u8) -> (u8, u8) {
        let align = match self.whole_bytes {
            true => self.random.pick(&[0, 0, 0, 3, 3, 4, 5]),
            false => self.align(),
        };
        // The other order only fits where the field starts and ends at bytes.
        let fits = length.is_multiple_of(8) || self.random.chance(1);
        if fits && self.random.chance(20) {
            return (1 - self.order, align.max(3));
        }
        if self.wish == 23 && self.random.chance(40) {
            return (1 - self.order, align);
        }
        (self.order, align)
    }

    /// A slot a field of this root may set, or none.
    fn set_slot(&mut self, sort: Sort) -> u8 {
        if !self.random.chance(60) {
            return NO_SLOT;
        }
        let own: &[u8] = match self.root {
            0 | 1 => &[0, 1, 2, 3, 4, 15],
            _ => &[16, 17, 18, 19, 20, 21, 22, 63],
        };
        // Most slots are free; one that other classes set has its home.
        let fits =
            |slot: &u8| self.slots.homes[*slot as usize].is_none_or(|home| home == self.home);
        let fitting: Vec<u8> = own.iter().copied().filter(fits).collect();
        if fitting.is_empty() {
            return NO_SLOT;
        }
        let slot = self.random.pick(&fitting);
        self.slots.sorts[slot as usize] = sort;
        self.slots.homes[slot as usize] = Some(self.home);
        slot
    }

    /// A slot that holds the sort, or rarely any.
    fn read_slot(&mut self, sort: Sort) -> Option<u8> {
        let limit = if self.root <= 1 { 16 } else { 64 };
        if self.random.chance(if self.wish == 26 || self.wish == 27 { 30 } else { 1 }) {
            // Any, or one that some class so far sets, be it in an element or in an option.
            let set = self.slots_where(limit, |slots, slot| slots.homes[slot].is_some());
            return match self.random.chance(50) && !set.is_empty() {
                true => Some(self.random.pick(&set)),
                false => Some(self.random.below(limit) as u8),
            };
        }
        let fitting = self.slots_where(limit, |slots, slot| slots.sorts[slot] == sort);
        (!fitting.is_empty()).then(|| self.random.pick(&fitting))
    }

    fn slots_where(&self, limit: usize, holds: impl Fn(&Slots, usize) -> bool) -> Vec<u8> {
        (0..limit).filter(|&slot| holds(&self.slots, slot)).map(|slot| slot as u8).collect()
    }

    fn class(&mut self, depth: u32) {
        self.budget = self.budget.saturating_sub(1);
        let holds = depth < 8 && self.budget > 0;
        let roll = if holds { self.random.below(100) } else { self.random.below(60) };
        match roll {
            0..=34 => self.fixed(),
            35..=44 => self.leb(),
            45..=59 => self.bytes(),
            60..=67 => {
                let count = self.random.below(5);
                let align = self.align();
                self.records.structure(count as u8, align);
                (0..count).for_each(|_| self.class(depth + 1));
            }
            68..=75 => {
                let elements = self.random.below(4) as u16;
                let align = self.align();
                self.records.static_array(elements, align);
                self.element(|maker| maker.guarded(depth + 1));
            }
            76..=82 => match self.read_slot(Sort::Unsigned) {
                Some(slot) => {
                    let align = self.align();
                    self.records.put(&[30, slot, align]);
                    self.element(|maker| maker.guarded(depth + 1));
                }
                None => self.fixed(),
            },
            83..=91 => self.optional(depth),
            _ => self.variant(depth),
        }
    }

    /// A class that may not be read, so that its slots cannot be relied on.
    fn guarded(&mut self, depth: u32) {
        let sorts = self.slots.sorts;
        self.class(depth);
        self.slots.sorts = sorts;
    }

    /// What an array's element is, which has a home of its own.
    fn element(&mut self, make: impl FnOnce(&mut Self)) {
        let outer = self.home;
        self.arrays += 1;
        self.home = self.arrays;
        make(self);
        self.home = outer;
    }

    fn fixed(&mut self) {
        let length = match self.whole_bytes {
            true => self.random.pick(&[8, 8, 16, 24, 32, 56, 64]),
            false if self.random.chance(60) => self.random.between(1, 17) as u8,
            false => self.random.between(1, 64) as u8,
        };
        let (order, align) = self.order_and_align(length);
        let kind = self.random.pick(&[16, 17, 17, 18, 18, 18, 18, 19, 19, 20]);
        match kind {
            16 => self.records.put(&[16, length, order, align]),
            20 => {
                let length = self.random.pick(&[32, 64]);
                let (order, align) = self.order_and_align(length);
                self.records.put(&[20, length, order, align])
            }
            kind => {
                let sorts = [Sort::Flag, Sort::Unsigned, Sort::Signed];
                let slot = self.set_slot(sorts[kind as usize - 17]);
                self.records.put(&[kind, length, order, align, slot]);
                if kind == 18 {
                    self.records.put(&[0]);
                }
                &mut self.records
            }
        };
    }

    fn leb(&mut self) {
        if self.random.chance(60) {
            let slot = self.set_slot(Sort::Unsigned);
            self.records.put(&[21, slot, 0]);
        } else {
            let slot = self.set_slot(Sort::Signed);
            self.records.put(&[22, slot]);
        }
    }

    fn bytes(&mut self) {
        let count = self.random.below(6) as u16;
        match self.random.below(6) {
            0 => self.records.put(&[23]),
            1 => self.records.static_string(count),
            2 => self.records.static_blob(count, 0),
            _ => match self.read_slot(Sort::Unsigned) {
                Some(slot) => {
                    let kind = self.random.pick(&[26, 27]);
                    self.records.put(&[kind, slot])
                }
                None => self.records.put(&[23]),
            },
        };
    }

    /// A range of small numbers, such as selectors are, from `low` to `high` or beyond.
    fn range(&mut self, sign: u8, low: i64, high: i64) {
        self.records.range(sign, low as u64, high as u64);
    }

    fn optional(&mut self, depth: u32) {
        let sort = self.random.pick(&[Sort::Flag, Sort::Unsigned, Sort::Signed]);
        let Some(slot) = self.read_slot(sort) else { return self.fixed() };
        let count = if sort == Sort::Flag { 0 } else { self.random.between(1, 3) };
        self.records.put(&[31, slot, count as u8]);
        for _ in 0..count {
            let low = self.random.below(6) as i64 - if sort == Sort::Signed { 3 } else { 0 };
            let high = low + self.random.below(4) as i64;
            self.range((sort == Sort::Signed) as u8, low, high);
        }
        self.guarded(depth + 1);
    }

    fn variant(&mut self, depth: u32) {
        let sort = self.random.pick(&[Sort::Unsigned, Sort::Signed]);
        let Some(slot) = self.read_slot(sort) else { return self.fixed() };
        let sign = (sort == Sort::Signed) as u8;
        let gaps = self.random.chance(if self.wish == 29 { 50 } else { 3 });
        let mut low = if sign == 1 { -4 } else { 0 };
        let mut parts = Vec::new();
        while low < 6 {
            let high = low + self.random.below(4) as i64;
            parts.push((low, high));
            low = high + 1;
        }
        if gaps {
            parts.remove(self.random.below(parts.len()));
            parts.push((low + 40, low + 60));
        } else if sign == 0 && self.random.chance(40) {
            parts.push((low, -1));
        } else if sign == 1 && self.random.chance(40) {
            parts.push((low, i64::MAX));
            parts.push((i64::MIN, -5));
        }
        let first = self.random.below(parts.len());
        parts.rotate_left(first);
        self.records.put(&[32, slot, parts.len() as u8]);
        for (low, high) in parts {
            let twice = self.random.chance(20);
            self.records.put(&[34, 1 + twice as u8]);
            self.range(sign, low, high);
            if twice {
                self.range(sign, low, low);
            }
            self.guarded(depth + 1);
        }
    }
}
