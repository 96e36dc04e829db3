//! Stories of change 5: tables loaded, reloaded and put back, good ones and bad ones, and calls that tell one from another.

use super::drafts::Draft;
use super::Traffic;
use crate::records::*;
use crate::table::*;

/// What may come between a load and the call that its table decides.
#[derive(Clone, Copy)]
enum Event {
    Plain(u8), // an operation of 1 to 6
    WorkingKey,
    PartitionKey,
    DriveKey,
    BadLoad,
    RefusedLoad,
    OtherLoad,
}

const EVENTS: [Event; 12] = [
    Event::Plain(READ),
    Event::Plain(WRITE),
    Event::Plain(LOOK),
    Event::Plain(RAISE),
    Event::Plain(CREATE),
    Event::Plain(DELETE),
    Event::WorkingKey,
    Event::PartitionKey,
    Event::DriveKey,
    Event::BadLoad,
    Event::RefusedLoad,
    Event::OtherLoad,
];

/// The bits of a mask.
fn bits(mask: u16) -> Vec<u16> {
    (0..16).map(|k| 1 << k).filter(|bit| mask & bit != 0).collect()
}

impl Traffic<'_> {
    pub(super) fn tables(&mut self, p: u8) {
        self.ready(p);
        self.an_object(p);
        match self.rng.below(11) {
            0 => self.reads_that_need_look(p),
            1 => self.writes_only_at_level_2(p),
            2 => self.reloads(p),
            3 | 4 => self.the_table_stays(p),
            5 => self.bad_tables(p),
            6 => self.low_level_without_a_key(),
            7 | 8 => self.near_loads(p),
            _ => self.keys_by_the_table(),
        }
        if self.rng.chance(60) {
            self.load(p, &Table::default());
        }
    }

    /// The request's first mill, and its neighbour that is another's.
    fn reads_that_need_look(&mut self, p: u8) {
        let q = self.neighbour(p);
        self.load(p, &reads_need_look());
        for rights in self.shuffled(&[0b1, 0b100, 0b101, 0x7a, 0x7b, 0x7e, 0x7f]) {
            self.with_rights(p, READ, rights); // 13 but with bits 0 and 2
        }
        self.with_rights(q, READ, 0b1);
        self.with_rights(p, LOOK, 0b100);
        self.load(p, &Table::default());
        self.with_rights(p, READ, 0b1);
    }

    /// The request's second mill, and its neighbour.
    fn writes_only_at_level_2(&mut self, p: u8) {
        let q = self.neighbour(p);
        self.load(p, &writes_at_level_2());
        for (place, op) in [(p, WRITE), (q, WRITE), (p, READ)] {
            for level in self.shuffled(&[0, 1, 2]) {
                self.at_level(place, op, level); // 7 for the first but at level 2
            }
        }
        self.load(p, &Table::default());
        self.at_level(p, WRITE, 0);
    }

    /// One table after another, good ones all, and calls that each decides; among them some that were drafted for the table before.
    fn reloads(&mut self, p: u8) {
        for _ in 0..3 + self.rng.below(4) {
            let mut early = vec![];
            for _ in 0..3 {
                let op = self.some_operation();
                early.extend(self.at_the_need(p, op));
            }
            let table = self.some_table(p);
            self.load(p, &table);
            for draft in early {
                self.plain_at(self.drive.mark, &draft);
            }
            for _ in 0..1 + self.rng.below(4) {
                let op = self.some_operation();
                self.try_the_table(p, op);
                self.against_document_01(p);
            }
        }
    }

    /// Whatever else is granted or refused, a table stays until the next one is loaded.
    fn the_table_stays(&mut self, p: u8) {
        let table = self.any_table();
        self.load(p, &table);
        for event in self.shuffled(&EVENTS) {
            self.happen(p, event);
            self.against_document_01(p);
        }
    }

    fn happen(&mut self, p: u8, event: Event) {
        let clock = self.tick();
        let mark = self.drive.mark.max(clock);
        let draft = match event {
            Event::Plain(op) => match self.at_the_need(p, op) {
                Some(draft) => draft,
                None => return,
            },
            Event::WorkingKey => self.plain(mark, SET_KEY, p, 2, 0, 0, 0),
            Event::PartitionKey if self.may_set(3, 0, p as u32) => self.plain(mark, SET_KEY, 0, 3, 0, p as u32, 0),
            Event::PartitionKey | Event::DriveKey => self.plain(mark, SET_KEY, 0, 4, 0, 0, 0),
            Event::BadLoad => {
                let mut draft = self.load_draft(mark, p);
                self.spoil_a_table(&mut draft);
                draft
            }
            Event::RefusedLoad => {
                let mut draft = self.load_draft(mark, p);
                draft.c.rights = 0x3f; // 13
                draft
            }
            Event::OtherLoad => {
                let q = self.neighbour(p);
                self.load_draft(mark, q)
            }
        };
        self.plain_at(clock, &draft);
    }

    /// Bad tables, mostly with one fault; after some of them a call that the present table decides.
    fn bad_tables(&mut self, p: u8) {
        for _ in 0..6 + self.rng.below(6) {
            self.happen(p, Event::BadLoad);
            if self.rng.chance(30) {
                self.against_document_01(p);
            }
        }
    }

    /// Loads with one thing that is not as it must be: another length, slot, object, version, A or B, no level, no right.
    fn near_loads(&mut self, p: u8) {
        for _ in 0..2 {
            for row in self.shuffled(&[5, 5, 5, 6, 6, 6, 6, 6, 7, 13]) {
                let clock = self.tick();
                let mark = self.drive.mark.max(clock);
                let mut draft = self.load_draft(mark, p);
                match row {
                    5 => self.resize_a_table(&mut draft),
                    6 => self.misfit_of_a_load(&mut draft),
                    7 => draft.r.level = 0,
                    _ => self.take_rights(&mut draft),
                }
                self.plain_at(clock, &draft);
            }
            self.against_document_01(p);
        }
    }

    /// A level under the table's, under a key that was never set: row 7. With the level it is row 8.
    fn low_level_without_a_key(&mut self) {
        let unset = |p: &u8| {
            let partition = &self.drive.partitions[*p as usize];
            partition.key.is_some() && partition.working.iter().any(Option::is_none)
        };
        let open: Vec<u8> = (0..4).filter(unset).collect();
        if open.is_empty() {
            return;
        }
        let p = self.rng.pick(&open);
        let slot = self.drive.partitions[p as usize].working.iter().position(Option::is_none).unwrap() as u8;
        let least = 1 + self.rng.below(2) as u8;
        let mut table = Table::default();
        table.0[..4].iter_mut().for_each(|need| need.level = least as u32);
        self.load(p, &table);
        for op in self.shuffled(&[READ, WRITE, LOOK, RAISE]) {
            for level in [least - 1, least] {
                let Some(mut draft) = self.at_the_need(p, op) else { continue };
                (draft.c.slot, draft.c.least, draft.r.level) = (slot, 0, level);
                self.plain_at(draft.r.time, &draft);
            }
        }
        if self.rng.chance(60) {
            self.load(p, &Table::default());
        }
    }

    /// Operation 7 under slot 2 by the table of its partition; under slots 3 and 4, and operation 8, by document 01's rule.
    fn keys_by_the_table(&mut self) {
        self.ready(0);
        let other = 1 + self.rng.below(3) as u8;
        let (right, any) = (1 << self.rng.below(6), 1 + self.rng.below(ALL_RIGHTS as u64) as u32);
        let mask = self.rng.pick(&[right, right, right | 1 << (SET_KEY - 1), any]);
        let need = Need { mask, level: self.rng.pick(&[1, 1, 2]) };
        for p in [0, other] {
            self.load(p, &with(SET_KEY, need.mask, need.level));
        }
        let calls = [(SET_KEY, 2, 0), (SET_KEY, 3, 0), (SET_KEY, 3, other), (SET_KEY, 4, 0), (LOAD, 2, 0), (LOAD, 2, 0)];
        for (op, slot, a) in self.shuffled(&[calls, calls].concat()) {
            let clock = self.tick();
            let mark = self.drive.mark.max(clock);
            let mut draft = self.plain(mark, op, 0, slot, 0, a as u32, 0);
            if op == LOAD {
                draft.data = with(SET_KEY, need.mask, need.level).bytes();
            }
            let (own, mask) = (1 << (SET_KEY - 1), need.mask as u16);
            draft.c.rights = self.rng.pick(&[own, own, mask, mask & !own, mask & !own, 0x3f]);
            (draft.r.level, draft.c.least) = (self.rng.pick(&[1, 1, 2, 2, 0]), 0);
            if self.may_set(slot, 0, a as u32) {
                self.plain_at(clock, &draft);
            }
        }
        if self.rng.chance(60) {
            self.load(other, &Table::default());
            self.load(0, &Table::default());
        }
    }

    /// Another partition that has its keys, and an object where there is room.
    fn neighbour(&mut self, p: u8) -> u8 {
        let q = (p + 1 + self.rng.below(3) as u8) % 4;
        self.ready(q);
        self.an_object(q);
        q
    }

    /// Sees to it that a partition has an object, where it can.
    pub(super) fn an_object(&mut self, p: u8) {
        if self.drive.partitions[p as usize].objects.is_empty() {
            let size = 1 + self.rng.below(20) as u32;
            self.create(p, size);
        }
    }

    /// Loads a table, a tick later.
    pub(super) fn load(&mut self, p: u8, table: &Table) -> u8 {
        let clock = self.tick();
        let mark = self.drive.mark.max(clock);
        let draft = Draft { data: table.bytes(), ..self.plain(mark, LOAD, p, 2, 0, 0, 0) };
        self.plain_at(clock, &draft)
    }

    fn with_rights(&mut self, p: u8, op: u8, rights: u16) {
        if let Some(mut draft) = self.at_the_need(p, op) {
            draft.c.rights = rights;
            self.plain_at(draft.r.time, &draft);
        }
    }

    fn at_level(&mut self, p: u8, op: u8, level: u8) {
        if let Some(mut draft) = self.at_the_need(p, op) {
            (draft.r.level, draft.c.least) = (level, 0);
            self.plain_at(draft.r.time, &draft);
        }
    }

    /// A draft of an operation of 1 to 7, a tick later, with exactly the rights and the level that its partition's table needs. None
    /// where there is no object for it.
    pub(super) fn at_the_need(&mut self, p: u8, op: u8) -> Option<Draft> {
        self.an_object(p);
        let objects = &self.drive.partitions[p as usize].objects;
        let object = if objects.is_empty() { None } else { Some(self.rng.pick(objects)) };
        let (number, size) = object.map_or((0, 0), |o| (o.number, o.size));
        let (slot, object, a, b) = match op {
            READ | WRITE => (0, number, 0, size.min(4)),
            DELETE => (0, number, 0, 0),
            LOOK | RAISE => (0, self.rng.pick(&[number, number, 0]), 0, 0),
            CREATE => (0, 0, self.new_number(p), 1 + self.rng.below(8) as u32),
            _ => (2, 0, 0, 0),
        };
        if object == 0 && matches!(op, READ | WRITE | DELETE) {
            return None;
        }
        let clock = self.tick();
        let mut draft = self.plain(self.drive.mark.max(clock), op, p, slot, object, a, b);
        (draft.c.rights, draft.r.level) = self.reachable_need(&draft);
        draft.c.least = self.rng.below(draft.r.level as u64 + 1) as u8;
        Some(draft)
    }

    /// A call at an edge of what it needs: with just that; without one right of it; with no right but document 01's, or every right but
    /// that; a level lower.
    pub(super) fn try_the_table(&mut self, p: u8, op: u8) {
        let Some(mut draft) = self.at_the_need(p, op) else { return };
        let own = 1u16 << (op - 1);
        match self.rng.below(6) {
            0 | 1 => {}
            2 => self.take_rights(&mut draft),
            3 => draft.c.rights = own,
            4 => draft.c.rights = 0x7f & !own,
            _ => self.lower_the_level(&mut draft),
        }
        self.plain_at(draft.r.time, &draft);
    }

    /// A call that a partition's table and document 01's rule answer differently, where they differ.
    pub(super) fn against_document_01(&mut self, p: u8) {
        let table = self.drive.partitions[p as usize].table.clone();
        let lines: Vec<u8> = (1..=7).filter(|op| table.line(*op) != document_01(*op)).collect();
        if lines.is_empty() {
            return;
        }
        let op = self.rng.pick(&lines);
        let Some(mut draft) = self.at_the_need(p, op) else { return };
        let (need, rule) = (table.line(op).unwrap(), document_01(op).unwrap());
        let (both, most) = (need.mask | rule.mask, need.level.max(rule.level));
        let ways = [
            (need.mask & !rule.mask != 0, rule.mask, most), // 13, and not by document 01
            (rule.mask & !need.mask != 0, need.mask, most), // granted, and 13 by document 01
            (need.level != rule.level, both, need.level.min(rule.level)), // 7, or not
        ];
        let ways: Vec<(bool, u32, u32)> = ways.into_iter().filter(|(differ, ..)| *differ).collect();
        let (_, rights, level) = self.rng.pick(&ways);
        draft.c.rights = (rights & ALL_RIGHTS) as u16;
        (draft.r.level, draft.c.least) = (level.min(MOST_LEVEL) as u8, 0);
        self.plain_at(draft.r.time, &draft);
    }

    /// One that a table has a line for.
    fn some_operation(&mut self) -> u8 {
        1 + self.rng.below(LINES as u64) as u8
    }

    /// A good table: document 01's rule, one of the request's mills, one that differs from document 01 or from the present one in a
    /// line, a neighbour's, or any.
    pub(super) fn some_table(&mut self, p: u8) -> Table {
        let op = self.some_operation();
        let need = self.some_need(op);
        let near = |mut table: Table| {
            table.0[op as usize - 1] = need;
            table
        };
        let other = self.rng.below(4) as usize;
        let table = match self.rng.weighted(&[40, 8, 8, 18, 8, 8, 10]) {
            0 => Table::default(),
            1 => reads_need_look(),
            2 => writes_at_level_2(),
            3 => near(Table::default()),
            4 => near(self.drive.partitions[p as usize].table.clone()),
            5 => self.drive.partitions[other].table.clone(),
            _ => self.any_table(),
        };
        if table.good() {
            table
        } else {
            Table::default() // a record's table need not be good
        }
    }

    /// A good table of which most lines are not document 01's.
    fn any_table(&mut self) -> Table {
        Table([1, 2, 3, 4, 5, 6, 7].map(|op| self.unlike(op)))
    }

    /// A good line that is mostly not document 01's.
    fn unlike(&mut self, op: u8) -> Need {
        let first = self.some_need(op);
        if Some(first) == document_01(op) {
            self.some_need(op)
        } else {
            first
        }
    }

    /// A good line, often at an edge.
    pub(super) fn some_need(&mut self, op: u8) -> Need {
        let own = document_01(op).unwrap().mask;
        let other = 1 << self.rng.below(7);
        let any = 1 + self.rng.below(ALL_RIGHTS as u64) as u32;
        let mask = self.rng.pick(&[own, own, own | other, own | other, other, any, ALL_RIGHTS]);
        let levels: &[u32] = if op == SET_KEY { &[1, 1, 2] } else { &[0, 0, 1, 2] };
        Need { mask, level: self.rng.pick(levels) }
    }

    /// A call on a drive without any key, at any level: row 8 at one that its table lets through, else row 7.
    pub(super) fn draft_without_a_key(&mut self, mark: u64) -> Draft {
        let (p, op) = (self.rng.below(4) as u8, self.rng.pick(&[1, 2, 3, 4, 5, 6, SET_KEY, SET_KEY, SET_KEY, LOAD]));
        let slot = if op >= SET_KEY { 2 } else { self.rng.below(2) as u8 };
        let (object, a, b) = match op {
            READ | WRITE | DELETE => (1, 0, 0),
            CREATE => (0, 1, 1),
            _ => (0, 0, 0),
        };
        let mut draft = self.plain(mark, op, p, slot, object, a, b);
        draft.r.level = self.rng.pick(&[0, 0, 1, 2]);
        draft.c.least = if self.rng.chance(90) { 0 } else { self.rng.below(3) as u8 };
        draft
    }
}

/// Spoiling for rows 5, 6, 7, 13 and 31.
impl Traffic<'_> {
    /// Row 5 of a load: the data has another length, and n says so.
    pub(super) fn resize_a_table(&mut self, d: &mut Draft) {
        let (less, more) = (TABLE_BYTES - 1, TABLE_BYTES + 1);
        let length = self.rng.pick(&[less, less, less, more, more, more, 16, 0, 2 * TABLE_BYTES]);
        d.data.resize(length, 1);
        d.r.n = length as u32;
    }

    /// Row 6 of a load: another slot, or an object, version, A or B that is not 0.
    pub(super) fn misfit_of_a_load(&mut self, d: &mut Draft) {
        let high = 1 << self.rng.below(32);
        let number = self.rng.pick(&[1, high]);
        match self.rng.below(6) {
            0 => d.c.slot = self.rng.below(2) as u8,
            1 => (d.c.slot, d.c.partition) = (3 + self.rng.below(2) as u8, 0),
            2 => d.c.object = number,
            3 => d.c.version = number,
            4 => d.r.a = number,
            _ => d.r.b = number,
        }
    }

    /// Row 7: the level is under what the operation needs, where it needs any, or under the credential's least.
    pub(super) fn lower_the_level(&mut self, d: &mut Draft) {
        let (_, level) = self.reachable_need(d);
        if level > 0 && self.rng.chance(60) {
            d.r.level = self.rng.below(level as u64) as u8;
            d.c.least = self.rng.below(d.r.level as u64 + 1) as u8;
        } else {
            d.c.least = 1 + self.rng.below(2) as u8;
            d.r.level = self.rng.below(d.c.least as u64) as u8;
        }
    }

    /// Row 13: one right that is needed goes, or each of them.
    pub(super) fn take_rights(&mut self, d: &mut Draft) {
        let (mask, _) = self.reachable_need(d);
        if mask == 0 {
            return;
        }
        let one = self.rng.pick(&bits(mask));
        d.c.rights &= !self.rng.pick(&[one, one, one, mask]);
    }

    /// Row 31: the table gets a fault, seldom more than one.
    pub(super) fn spoil_a_table(&mut self, d: &mut Draft) {
        if d.r.operation != LOAD || d.data.len() != TABLE_BYTES {
            return;
        }
        for _ in 0..self.rng.pick(&[1, 1, 1, 1, 2, 3]) {
            let line = 3 * self.rng.below(LINES as u64) as usize;
            let (bit, level) = (7 + self.rng.below(9), 3 + self.rng.below(253) as u8);
            let (one, two) = (1u16 << self.rng.pick(&[7, 7, bit]), 1u16 << bit);
            match self.rng.below(4) {
                0 => d.data[line..line + 2].fill(0),
                1 => {
                    let more = self.rng.pick(&[one, one, one | two]).to_be_bytes();
                    (d.data[line], d.data[line + 1]) = (d.data[line] | more[0], d.data[line + 1] | more[1]);
                }
                2 => d.data[line + 2] = self.rng.pick(&[3, 3, level]),
                _ => d.data[TABLE_BYTES - 1] = 0, // operation 7 at level 0
            }
        }
    }
}
