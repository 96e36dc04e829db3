//! What calls meet of change 5, so that the tests can ask for it.

use crate::drive::Drive;
use crate::frame::Frame;
use crate::records::*;
use crate::table::*;

/// What is counted of calls that come to row 7, in the order of [`Asked::met`].
pub const NEEDS: [&str; 16] = [
    "row 7 by a loaded table where document 01's rule asks for no more",
    "row 13 by a loaded table where document 01's right is there",
    "grants by a loaded table without document 01's right",
    "row 13 with some right of a mask, but not every one",
    "grants with every right of a mask of several",
    "row 7 with a key never set",
    "row 7 by a loaded table with a key never set",
    "grants that a neighbour's table would refuse",
    "row 7 or 13 where a neighbour's table would let the call through",
    "grants that the table before the last load would refuse",
    "row 7 or 13 where the table before the last load would let the call through",
    "grants under slots 3 and 4 that partition 0's table would refuse",
    "row 13 under slots 3 and 4 where partition 0's table would let the call through",
    "grants under slot 3 that the table of the partition whose key is set would refuse",
    "loads granted that the table's line of operation 7 would refuse",
    "row 13 of loads that the table's line of operation 7 would let through",
];

/// What is counted of loads, in the order of [`Asked::met_by_a_load`].
pub const LOADS: [&str; 7] = [
    "tables loaded over another that was loaded",
    "tables loaded that put document 01's rule back",
    "tables loaded with every right in a mask",
    "tables loaded with a level of 2",
    "tables loaded with another right than the operation's own alone",
    "row 31 with a full memory",
    "good tables turned away by a full memory",
];

/// Frames that are nearly loads, in the order of [`near_load`].
pub const NEAR_LOADS: [&str; 10] = [
    "row 5 of a load of 20 bytes",
    "row 5 of a load of 22 bytes",
    "row 6 of a load by slot 0 or 1 alone",
    "row 6 of a load by slot 3 or 4 alone",
    "row 6 of a load by its object alone",
    "row 6 of a load by its version alone",
    "row 6 of a load by A alone",
    "row 6 of a load by B alone",
    "row 7 of a load at level 0, the credential's least",
    "row 13 of a load with every right but its own",
];

/// Ways for a table to have nothing but one fault, in the order of [`Asked::only_fault`].
pub const FAULTS: [&str; 6] = [
    "row 31 by a mask of 0 alone",
    "row 31 by bit 7 of a mask alone",
    "row 31 by a bit over 7 of a mask alone",
    "row 31 by a level of 3 alone",
    "row 31 by a level over 3 alone",
    "row 31 by operation 7 at level 0 alone",
];

/// Where that fault is.
pub const FAULTY_LINES: [&str; LINES] = [
    "row 31 by the line of operation 1 alone",
    "row 31 by the line of operation 2 alone",
    "row 31 by the line of operation 3 alone",
    "row 31 by the line of operation 4 alone",
    "row 31 by the line of operation 5 alone",
    "row 31 by the line of operation 6 alone",
    "row 31 by the line of operation 7 alone",
];

/// What may come between a load and a call that its table decides otherwise than document 01's rule, in the order of [`Since::events`].
pub const AFTER: [&str; 10] = [
    "calls decided by a loaded table after a read, write or look",
    "calls decided by a loaded table after a raise",
    "calls decided by a loaded table after a create",
    "calls decided by a loaded table after a delete",
    "calls decided by a loaded table after a change of a working key",
    "calls decided by a loaded table after a change of its partition's key",
    "calls decided by a loaded table after a change of the drive key",
    "calls decided by a loaded table after a load of a bad table",
    "calls decided by a loaded table after a good load that was refused",
    "calls decided by a loaded table after a load in another partition",
];

/// What only a library's calls meet: tables that no load makes, and the drive of a refused format. In the order of
/// [`Asked::met_in_a_library`].
pub const NEEDS_OF_A_LIBRARY: [&str; 9] = [
    "grants by a mask of 0 that a record has",
    "row 13 by a bit from 7 to 15 of a mask that a record has",
    "row 13 by a bit over 15 alone of a mask that a record has",
    "row 7 at level 2 by a level over 2 that a record has",
    "row 7 by a level that a record has, of which the last byte would let the call through",
    "grants of operation 7 at level 0 by a table that a record has",
    "tables loaded over one that is not good, which a record has",
    "row 7 by the table of the drive that a refused format returned",
    "row 8 at level 0 by the table of the drive that a refused format returned",
];

/// Where a partition's table is from, and what came after.
#[derive(Clone, Debug, Default, PartialEq, Eq)]
pub struct Since {
    replaced: Option<Table>, // by a grant of operation 8; none where the table is from the format or from outside
    events: [bool; AFTER.len()],
}

impl Since {
    /// Of a call put to this drive, answered by this row, what matters to each partition's table.
    pub fn follow(all: &mut [Since; 4], before: &Drive, frame: &[u8], row: u8) {
        let Some(Frame { c, r, .. }) = Frame::read(frame).filter(|_| !(1..=6).contains(&row)) else { return };
        let p = c.partition as usize;
        let event = match (r.operation, row) {
            (READ | WRITE | LOOK, 0) => 0,
            (RAISE, 0) => 1,
            (CREATE, 0) => 2,
            (DELETE, 0) => 3,
            (SET_KEY, 0) if c.slot == 2 => 4,
            (SET_KEY, 0) if c.slot == 3 => return all[r.a as usize].events[5] = true,
            (SET_KEY, 0) => return all.iter_mut().for_each(|since| since.events[6] = true),
            (LOAD, 0) => {
                all.iter_mut().for_each(|since| since.events[9] = true);
                all[p] = Since { replaced: Some(before.partitions[p].table.clone()), ..Since::default() };
                return;
            }
            (LOAD, 31) => 7,
            (LOAD, _) => 8,
            _ => return,
        };
        all[p].events[event] = true;
    }
}

/// A call that came to row 7, with the tables as they were before it.
pub struct Asked {
    c: Credential,
    r: Request,
    data: Vec<u8>,
    rows: Vec<u8>, // all that apply, lowest first
    tables: [Table; 4],
    since: Since,    // of its partition
    formatted: bool, // the drive
}

impl Asked {
    /// Of a call put to this drive, if it is one.
    pub fn of(before: &Drive, since: &[Since; 4], frame: &[u8], rows: &[u8]) -> Option<Asked> {
        if rows.first().is_some_and(|row| *row < 7) {
            return None;
        }
        let Frame { c, r, data, .. } = Frame::read(frame)?;
        Some(Asked {
            since: since[c.partition as usize].clone(),
            c,
            r,
            data: data.to_vec(),
            rows: rows.to_vec(),
            tables: [0, 1, 2, 3].map(|p: usize| before.partitions[p].table.clone()),
            formatted: before.master.is_some(),
        })
    }

    fn row(&self) -> u8 {
        self.rows.first().copied().unwrap_or(0)
    }

    /// The row that it would get if this were needed. Nothing but rows 7 and 13 goes by it.
    fn row_by(&self, need: Need) -> u8 {
        let other = self.rows.iter().copied().find(|row| *row != 7 && *row != 13);
        if row_7(&self.c, &self.r, Some(need)) {
            7
        } else if !need.rights_met(self.c.rights) && other.map_or(true, |row| row > 13) {
            13
        } else {
            other.unwrap_or(0)
        }
    }

    fn table(&self) -> &Table {
        &self.tables[self.c.partition as usize]
    }

    /// What it needs by its partition's table, where the table is asked.
    pub fn by_the_table(&self) -> Option<Need> {
        self.table().line(self.r.operation).filter(|_| self.c.slot <= 2)
    }

    /// Whether a loaded table gave another answer than document 01's rule.
    pub fn decided_by_a_load(&self) -> bool {
        let loaded = self.since.replaced.is_some() && self.by_the_table().is_some();
        loaded && self.row_by(document_01(self.r.operation).unwrap()) != self.row()
    }

    /// Whether the table before the last load would give another answer.
    fn otherwise_before(&self) -> bool {
        let before = self.since.replaced.as_ref().and_then(|table| table.line(self.r.operation));
        self.by_the_table().is_some() && before.is_some_and(|need| self.row_by(need) != self.row())
    }

    /// Whether the table of one of the other partitions would give another answer.
    fn otherwise_next_door(&self) -> bool {
        let here = self.c.partition as usize;
        let next_door = (0..4).filter(|p| *p != here).filter_map(|p| self.tables[p].line(self.r.operation));
        self.by_the_table().is_some() && next_door.into_iter().any(|need| self.row_by(need) != self.row())
    }

    /// Which of [`NEEDS`] it met.
    pub fn met(&self) -> [bool; NEEDS.len()] {
        let (row, load) = (self.row(), self.r.operation == LOAD);
        let decided = self.decided_by_a_load();
        let mask = self.by_the_table().map_or(0, |need| need.mask);
        let unset = row == 7 && self.rows.contains(&8);
        let (next_door, before) = (self.otherwise_next_door(), self.otherwise_before());
        let high = self.c.slot >= 3;
        let set_by = |p: usize| self.row_by(self.tables[p].line(SET_KEY).unwrap());
        [
            row == 7 && decided,
            row == 13 && decided,
            row == 0 && decided,
            row == 13 && self.c.rights as u32 & mask != 0,
            row == 0 && mask.count_ones() > 1,
            unset,
            unset && decided,
            row == 0 && next_door,
            (row == 7 || row == 13) && next_door,
            row == 0 && before,
            (row == 7 || row == 13) && before,
            row == 0 && high && set_by(0) != 0,
            row == 13 && high && set_by(0) != 13,
            row == 0 && self.c.slot == 3 && set_by(self.r.a as usize) != 0,
            row == 0 && load && set_by(self.c.partition as usize) != 0,
            row == 13 && load && set_by(self.c.partition as usize) != 13,
        ]
    }

    /// Which of [`LOADS`] it met.
    pub fn met_by_a_load(&self) -> [bool; LOADS.len()] {
        if self.r.operation != LOAD || self.data.len() != TABLE_BYTES {
            return [false; LOADS.len()];
        }
        let (row, table) = (self.row(), Table::read(&self.data));
        let (granted, another) = (row == 0, table != *self.table());
        let instead = |operation: u8| table.line(operation).unwrap().mask & document_01(operation).unwrap().mask == 0;
        [
            granted && another && self.since.replaced.is_some() && *self.table() != Table::default(),
            granted && another && table == Table::default(),
            granted && table.0.iter().any(|need| need.mask == ALL_RIGHTS),
            granted && table.0.iter().any(|need| need.level == MOST_LEVEL),
            granted && (1..=7).any(instead),
            row == 31 && self.rows.contains(&22),
            row == 22,
        ]
    }

    /// Where row 31 is the answer by one fault of the table alone: which of [`FAULTS`], and the operation.
    pub fn only_fault(&self) -> Option<(usize, u8)> {
        if self.row() != 31 {
            return None;
        }
        let table = Table::read(&self.data);
        let faults: Vec<(usize, u8)> = (1..).zip(table.0).flat_map(|(operation, need)| faults(operation, need)).collect();
        match faults[..] {
            [only] => Some(only),
            _ => None,
        }
    }

    /// Which of [`AFTER`] it met.
    pub fn met_after(&self) -> [bool; AFTER.len()] {
        if self.decided_by_a_load() {
            self.since.events
        } else {
            [false; AFTER.len()]
        }
    }

    /// Which of [`NEEDS_OF_A_LIBRARY`] it met.
    pub fn met_in_a_library(&self) -> [bool; NEEDS_OF_A_LIBRARY.len()] {
        let (row, level) = (self.row(), self.r.level);
        let Some(need) = self.by_the_table() else {
            let over_a_bad_one = row == 0 && self.r.operation == LOAD && !self.table().good();
            return [false, false, false, false, false, false, over_a_bad_one, false, false];
        };
        let met_without = |bits: u32| Need { mask: need.mask & !bits, ..need }.rights_met(self.c.rights);
        let lacks_bits = |bits: u32| row == 13 && need.mask & bits != 0 && met_without(bits);
        let by_the_level = row == 7 && level >= self.c.least;
        [
            row == 0 && need.mask == 0,
            lacks_bits(0xff80),
            lacks_bits(0xffff_0000),
            by_the_level && level == 2,
            by_the_level && level as u32 >= need.level & 0xff,
            row == 0 && self.r.operation == SET_KEY && level == 0,
            false,
            by_the_level && !self.formatted,
            row == 8 && level == 0 && !self.formatted,
        ]
    }
}

/// Which of [`NEAR_LOADS`] a frame is that was answered by this row, if it is one.
pub fn near_load(frame: &[u8], row: u8) -> Option<usize> {
    let frame = Frame::read(frame).filter(|f| f.r.operation == LOAD && !f.c.is_of_a_group() && !f.r.is_of_a_group())?;
    let (c, r, whole) = (&frame.c, &frame.r, frame.length() == frame.r.frame_length());
    let misfits = [c.slot < 2, c.slot > 2, c.object != 0, c.version != 0, r.a != 0, r.b != 0];
    let near = [
        row == 5 && whole && r.n as usize == TABLE_BYTES - 1,
        row == 5 && whole && r.n as usize == TABLE_BYTES + 1,
        row == 6 && misfits == [true, false, false, false, false, false],
        row == 6 && misfits == [false, true, false, false, false, false],
        row == 6 && misfits == [false, false, true, false, false, false],
        row == 6 && misfits == [false, false, false, true, false, false],
        row == 6 && misfits == [false, false, false, false, true, false],
        row == 6 && misfits == [false, false, false, false, false, true],
        row == 7 && r.level == 0 && c.least == 0,
        row == 13 && c.rights as u32 == ALL_RIGHTS & !document_01(LOAD).unwrap().mask,
    ];
    near.into_iter().position(|met| met)
}

/// The faults of a line, each with its operation.
fn faults(operation: u8, need: Need) -> Vec<(usize, u8)> {
    let high = need.mask >> 7;
    let all = [
        need.mask == 0,
        high & 1 != 0,
        high & !1 != 0,
        need.level == 3,
        need.level > 3,
        operation == SET_KEY && need.level == 0,
    ];
    (0..all.len()).filter(|kind| all[*kind]).map(|kind| (kind, operation)).collect()
}

#[cfg(test)]
mod tests {
    use super::*;
    use crate::drive::Partition;
    use crate::gate::tests::{credential, request};
    use crate::table::with;

    /// A call in partition 1, whose table was loaded, that these rows refuse.
    fn asked(c: Credential, r: Request, rows: &[u8], tables: [Table; 4]) -> Asked {
        let since = Since { replaced: Some(Table::default()), ..Since::default() };
        Asked { c: Credential { partition: 1, ..c }, r, data: vec![], rows: rows.to_vec(), tables, since, formatted: true }
    }

    /// The same, where partition 1 has this table and the others document 01's rule.
    fn alone(c: Credential, r: Request, rows: &[u8], table: Table) -> Asked {
        asked(c, r, rows, [Table::default(), table, Table::default(), Table::default()])
    }

    fn places<const N: usize>(all: [bool; N]) -> Vec<usize> {
        (0..N).filter(|i| all[*i]).collect()
    }

    fn at(operation: u8, rights: u16, level: u8) -> (Credential, Request) {
        (Credential { rights, ..credential() }, Request { level, ..request(operation, 0, 0) })
    }

    /// What a read meets by a table in which reads need look too, and what it meets next door.
    #[test]
    fn rights_of_a_mask() {
        let met = |rights, rows: &[u8]| {
            let (c, r) = at(READ, rights, 0);
            places(alone(c, r, rows, with(READ, 5, 0)).met())
        };
        assert_eq!(met(1, &[13]), [1, 3, 8, 10]);
        assert_eq!(met(4, &[13]), [3]);
        assert_eq!(met(0, &[13]), []);
        assert_eq!(met(5, &[]), [4]);
        assert_eq!([met(1, &[8, 13]), met(1, &[13, 17]), met(5, &[17])], [vec![], vec![1, 3, 8, 10], vec![]]);
    }

    /// A table by which look will do for a read; and one of a neighbour, by which it would not be refused.
    #[test]
    fn another_right_instead() {
        let (c, r) = at(READ, 4, 0);
        assert_eq!(places(alone(c, r, &[], with(READ, 4, 0)).met()), [2, 7, 9]);
        let (c, r) = at(READ, 4, 0);
        let next_door = [Table::default(), Table::default(), Table::default(), with(READ, 4, 0)];
        assert_eq!(places(asked(c, r, &[13], next_door).met()), [8]);
    }

    #[test]
    fn levels_of_a_table() {
        let met = |level, least, rows: &[u8]| {
            let (c, r) = at(WRITE, 2, level);
            places(alone(Credential { least, ..c }, r, rows, with(WRITE, 2, 2)).met())
        };
        assert_eq!(met(1, 0, &[7]), [0, 8, 10]);
        assert_eq!(met(1, 2, &[7]), []); // by the credential's least
        assert_eq!(met(2, 0, &[]), []);
        assert_eq!(met(1, 0, &[7, 8]), [0, 5, 6, 8, 10]);
        assert_eq!(met(1, 2, &[7, 8]), [5]);
    }

    /// A table that was not loaded decides nothing, and may still answer otherwise than a neighbour's.
    #[test]
    fn where_no_table_was_loaded() {
        let (c, r) = at(READ, 1, 0);
        let fresh = Asked { since: Since::default(), ..alone(c, r, &[13], with(READ, 5, 0)) };
        assert_eq!((places(fresh.met()), places(fresh.met_after())), (vec![3, 8], vec![]));
    }

    /// A table that was loaded over another than document 01's rule.
    #[test]
    fn the_table_before() {
        let met = |rights, rows: &[u8]| {
            let (c, r) = at(READ, rights, 0);
            let since = Since { replaced: Some(with(READ, 3, 0)), ..Since::default() };
            places(Asked { since, ..alone(c, r, rows, with(READ, 5, 0)) }.met())
        };
        assert_eq!([met(5, &[]), met(7, &[])], [vec![4, 9], vec![4]]);
        assert_eq!([met(3, &[13]), met(1, &[13])], [vec![1, 3, 8, 10], vec![1, 3, 8]]);
    }

    /// Slots 3 and 4 carry partition 0; slot 3 sets the key of partition A.
    #[test]
    fn slots_3_and_4() {
        let met = |slot, a, rights, rows: &[u8], tables: [Table; 4]| {
            let (c, r) = at(SET_KEY, rights, 1);
            let call = asked(Credential { slot, ..c }, Request { a, ..r }, rows, tables);
            places(Asked { c: Credential { partition: 0, ..call.c.clone() }, ..call }.met())
        };
        let tables = || [with(SET_KEY, 1, 2), Table::default(), with(SET_KEY, 0x41, 1), Table::default()];
        assert_eq!([met(4, 0, 0x40, &[], tables()), met(3, 1, 0x40, &[], tables())], [[11], [11]]);
        assert_eq!(met(3, 2, 0x40, &[], tables()), [11, 13]);
        assert_eq!(met(3, 1, 0x40, &[], tables().map(|_| Table::default())), []);
        let lower = || [with(SET_KEY, 1, 1), Table::default(), Table::default(), Table::default()];
        assert_eq!([met(4, 0, 1, &[13], lower()), met(4, 0, 0, &[13], lower())], [vec![12], vec![]]);
    }

    fn load(rights: u16, rows: &[u8], present: Table, data: Vec<u8>) -> Asked {
        let (c, r) = at(LOAD, rights, 1);
        Asked { data, ..alone(Credential { slot: 2, ..c }, r, rows, present) }
    }

    #[test]
    fn loads_are_not_by_the_table() {
        let met = |rights, rows: &[u8], present| places(load(rights, rows, present, vec![]).met());
        assert_eq!(met(0x40, &[], with(SET_KEY, 0x41, 1)), [14]);
        assert_eq!(met(1, &[13], with(SET_KEY, 1, 1)), [15]);
        assert_eq!(met(0x40, &[], Table::default()), []);
    }

    #[test]
    fn what_is_loaded() {
        let met = |rows: &[u8], present, table: Table| places(load(0x7f, rows, present, table.bytes()).met_by_a_load());
        assert_eq!(met(&[], Table::default(), with(READ, 5, 0)), []);
        assert_eq!(met(&[], with(READ, 5, 0), with(READ, 3, 0)), [0]);
        assert_eq!(met(&[], with(READ, 5, 0), Table::default()), [0, 1]);
        assert_eq!(met(&[], with(READ, 5, 0), with(READ, 5, 0)), []);
        assert_eq!(met(&[], Table::default(), with(READ, 0x7f, 2)), [2, 3]);
        assert_eq!(met(&[], Table::default(), with(LOOK, 1, 0)), [4]);
        assert_eq!(met(&[31, 22], Table::default(), with(READ, 0, 0)), [5]);
        assert_eq!(met(&[22], Table::default(), with(READ, 0x7f, 2)), [6]);
    }

    #[test]
    fn the_only_fault_of_a_table() {
        let fault = |table: Table| load(0x7f, &[31], Table::default(), table.bytes()).only_fault();
        assert_eq!([fault(with(1, 0, 0)), fault(with(2, 0x80, 0)), fault(with(3, 0x180, 1))], [Some((0, 1)), Some((1, 2)), None]);
        assert_eq!([fault(with(4, 0x4008, 1)), fault(with(5, 1, 3)), fault(with(6, 1, 255))], [Some((2, 4)), Some((3, 5)), Some((4, 6))]);
        assert_eq!([fault(with(7, 64, 0)), fault(with(7, 0, 0)), fault(with(7, 64, 4))], [Some((5, 7)), None, Some((4, 7))]);
        assert_eq!(load(0x7f, &[13, 31], Table::default(), vec![0; 21]).only_fault(), None);
    }

    #[test]
    fn frames_that_are_nearly_loads() {
        let good = || {
            let (c, r) = at(LOAD, 0x7f, 1);
            (Credential { slot: 2, object: 0, version: 0, ..c }, r)
        };
        let near = |c: Credential, r: Request, row| near_load(&[&c.bytes()[..], &r.bytes(), &vec![0; r.n as usize + 32]].concat(), row);
        let (c, r) = good();
        assert_eq!([20, 22, 16].map(|n| near(c.clone(), Request { n, ..r.clone() }, 5)), [Some(0), Some(1), None]);
        let under = |slot| near(Credential { slot, ..c.clone() }, r.clone(), 6);
        assert_eq!([under(0), under(1), under(3), under(4), under(2)], [Some(2), Some(2), Some(3), Some(3), None]);
        assert_eq!(near(Credential { object: 1, ..c.clone() }, r.clone(), 6), Some(4));
        assert_eq!(near(Credential { version: 1, ..c.clone() }, r.clone(), 6), Some(5));
        assert_eq!(near(c.clone(), Request { a: 1, ..r.clone() }, 6), Some(6));
        assert_eq!(near(c.clone(), Request { b: 1, ..r.clone() }, 6), Some(7));
        assert_eq!(near(c.clone(), Request { a: 1, b: 1, ..r.clone() }, 6), None);
        assert_eq!(near(c.clone(), Request { level: 0, ..r.clone() }, 7), Some(8));
        assert_eq!(near(Credential { rights: 0x3f, ..c.clone() }, r.clone(), 13), Some(9));
        assert_eq!([near(c.clone(), Request { operation: SET_KEY, b: 1, ..r.clone() }, 6), near(c, r, 0)], [None, None]);
    }

    /// Frames of these operations, answered by these rows, each under a slot and with A.
    fn followed(calls: &[(u8, u8, u8, u8, u8)]) -> [Since; 4] {
        let mut all = <[Since; 4]>::default();
        for &(partition, operation, slot, a, row) in calls {
            let mut frame = vec![0; 96];
            (frame[2], frame[3], frame[38], frame[55]) = (partition, slot, operation, a);
            Since::follow(&mut all, &Drive::default(), &frame, row);
        }
        all
    }

    #[test]
    fn what_comes_after_a_load() {
        let load = (1, LOAD, 2, 0, 0);
        let after = |calls: &[(u8, u8, u8, u8, u8)]| {
            let since = followed(&[&[load], calls].concat())[1].clone();
            assert_eq!(since.replaced, Some(Table::default()));
            places(since.events)
        };
        assert_eq!(after(&[(1, READ, 0, 0, 0), (1, RAISE, 0, 0, 0), (1, CREATE, 0, 0, 0), (1, DELETE, 0, 0, 0)]), [0, 1, 2, 3]);
        assert_eq!(after(&[(0, RAISE, 0, 0, 0), (1, RAISE, 0, 0, 13), (1, LOAD, 2, 0, 5)]), []);
        assert_eq!(after(&[(1, SET_KEY, 2, 0, 0), (0, SET_KEY, 3, 1, 0), (0, SET_KEY, 4, 0, 0)]), [4, 5, 6]);
        assert_eq!(after(&[(0, SET_KEY, 3, 2, 0)]), []);
        assert_eq!(after(&[(1, LOAD, 2, 0, 31), (1, LOAD, 2, 0, 13), (3, LOAD, 2, 0, 0)]), [7, 8, 9]);
        assert_eq!(after(&[(1, RAISE, 0, 0, 0), load]), []);
        assert_eq!(followed(&[load])[2].replaced, None);
    }

    #[test]
    fn calls_after_a_load() {
        let (c, r) = at(READ, 1, 0);
        let mut call = alone(c, r, &[13], with(READ, 5, 0));
        (call.since.events[1], call.since.events[8]) = (true, true);
        assert_eq!(places(call.met_after()), [1, 8]);
        call.c.rights = 0;
        assert_eq!(places(call.met_after()), []); // by document 01's rule too
    }

    #[test]
    fn in_a_library() {
        let met = |operation, rights, level, rows: &[u8], table| {
            let (c, r) = at(operation, rights, level);
            places(alone(c, r, rows, table).met_in_a_library())
        };
        assert_eq!(met(READ, 0, 0, &[], with(READ, 0, 0)), [0]);
        assert_eq!(met(READ, 1, 0, &[13], with(READ, 0x81, 0)), [1]);
        assert_eq!(met(READ, 0x7f, 0, &[13], with(READ, 1 << 16, 0)), [2]);
        assert_eq!(met(READ, 0x7f, 0, &[13], with(READ, 0x1_0080, 0)), []);
        assert_eq!([met(READ, 1, 2, &[7], with(READ, 1, 3)), met(READ, 1, 1, &[7], with(READ, 1, 257))], [[3], [4]]);
        assert_eq!(met(SET_KEY, 64, 0, &[], with(SET_KEY, 64, 0)), [5]);
        let loaded = |present| places(load(0x7f, &[], present, vec![]).met_in_a_library());
        assert_eq!([loaded(with(READ, 0, 0)), loaded(Table::default())], [vec![6], vec![]]);
        let refused = |operation, rows: &[u8]| {
            let (c, r) = at(operation, 0x7f, 0);
            places(Asked { formatted: false, ..alone(c, r, rows, Table::default()) }.met_in_a_library())
        };
        assert_eq!([refused(SET_KEY, &[7, 8]), refused(READ, &[8])], [[7], [8]]);
    }

    /// Only calls that came to row 7, with the tables and the history that they found.
    #[test]
    fn which_calls_are_told() {
        let mut drive = Drive::default();
        drive.partitions[2] = Partition { table: with(READ, 5, 2), ..Partition::default() };
        let mut frame = vec![0; 96];
        (frame[2], frame[38]) = (2, READ);
        let since = followed(&[(2, LOAD, 2, 0, 0)]);
        let told = |rows: &[u8]| Asked::of(&drive, &since, &frame, rows);
        let asked = told(&[7, 8]).unwrap();
        assert_eq!((asked.by_the_table(), asked.since.replaced), (Some(Need { mask: 5, level: 2 }), Some(Table::default())));
        assert!([&[][..], &[7], &[13, 31]].iter().all(|rows| told(rows).is_some()));
        assert!([&[1][..], &[2], &[4, 13], &[6, 7]].iter().all(|rows| told(rows).is_none()));
    }
}
