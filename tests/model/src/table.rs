//! Change 5, "A mill's own operation table": what an operation needs, by document 01's rule or by its partition's table.

use crate::records::{LOAD, READ, SET_KEY, WRITE};

/// The operations that a table has a line for: "a table for operations 1 to 7".
pub const LINES: usize = 7;
/// "21 data bytes, two of mask and one of level for each operation in order".
pub const TABLE_BYTES: usize = 21;
const LINE_BYTES: usize = 3;
/// "within bits 0 to 6".
pub const ALL_RIGHTS: u32 = 0x7f;
pub const MOST_LEVEL: u32 = 2;

/// "a mask of required rights and a least level". Row 1 asks for no good table, so that a drive record may hold any two numbers here.
#[derive(Clone, Copy, Debug, PartialEq, Eq)]
pub struct Need {
    pub mask: u32,
    pub level: u32,
}

impl Need {
    /// "every right in the mask being needed". A bit that no credential can have is never met.
    pub fn rights_met(&self, rights: u16) -> bool {
        rights as u32 & self.mask == self.mask
    }

    pub fn level_met(&self, level: u8) -> bool {
        level as u32 >= self.level
    }

    /// "A good table has every mask nonzero within bits 0 to 6, levels at most 2, and at least 1 for operation 7."
    pub fn good(&self, operation: u8) -> bool {
        self.mask != 0
            && self.mask & !ALL_RIGHTS == 0
            && self.level <= MOST_LEVEL
            && (operation != SET_KEY || self.level >= 1)
    }
}

/// Document 01's rule: "Operation k needs rights bit k − 1", and by row 7 the level may not be "0 with operation 7". Change 5:
/// "operation 8 treated as 7". None where there is no such operation.
pub fn document_01(operation: u8) -> Option<Need> {
    let k = match operation {
        1..=SET_KEY => operation,
        LOAD => SET_KEY,
        _ => return None,
    };
    Some(Need { mask: 1 << (k - 1), level: if k == SET_KEY { 1 } else { 0 } })
}

/// "Each partition gets a table for operations 1 to 7: a mask of required rights and a least level."
#[derive(Clone, Debug, PartialEq, Eq)]
pub struct Table(pub [Need; LINES]);

/// "It starts, in row 24's drive too, as document 01's rule."
impl Default for Table {
    fn default() -> Table {
        Table([1, 2, 3, 4, 5, 6, 7].map(|operation| document_01(operation).unwrap()))
    }
}

impl Table {
    /// Of exactly 21 bytes.
    pub fn read(bytes: &[u8]) -> Table {
        assert_eq!(bytes.len(), TABLE_BYTES);
        Table([0, 1, 2, 3, 4, 5, 6].map(|i| {
            let line = &bytes[LINE_BYTES * i..LINE_BYTES * (i + 1)];
            Need { mask: u16::from_be_bytes([line[0], line[1]]) as u32, level: line[2] as u32 }
        }))
    }

    /// The 21 bytes that load it. Only of a table whose masks have 16 bits and whose levels have 8.
    pub fn bytes(&self) -> Vec<u8> {
        let line = |need: &Need| {
            let [high, low] = u16::try_from(need.mask).unwrap().to_be_bytes();
            [high, low, u8::try_from(need.level).unwrap()]
        };
        self.0.iter().flat_map(line).collect()
    }

    /// What an operation of 1 to 7 needs by this table.
    pub fn line(&self, operation: u8) -> Option<Need> {
        self.0.get(usize::from(operation).checked_sub(1)?).copied()
    }

    pub fn good(&self) -> bool {
        (1..).zip(&self.0).all(|(operation, need)| need.good(operation))
    }
}

/// Document 01's rule with another line for one operation.
pub fn with(operation: u8, mask: u32, level: u32) -> Table {
    let mut table = Table::default();
    table.0[operation as usize - 1] = Need { mask, level };
    table
}

/// "One mill wants reads to need the look right too".
pub fn reads_need_look() -> Table {
    with(READ, 0b101, 0)
}

/// "another every write at level 2".
pub fn writes_at_level_2() -> Table {
    with(WRITE, 0b10, 2)
}

/// Whether these are 21 bytes of a good table.
pub fn good_data(data: &[u8]) -> bool {
    data.len() == TABLE_BYTES && Table::read(data).good()
}

/// What an operation needs under a slot. "Frames under slots 3 and 4 .. keep document 01's rule, operation 8 treated as 7." Operation 8,
/// "(slot 2, rights bit 6, level at least 1 ..)", has no line in the table and needs under slot 2 the same. None where there is no such
/// operation.
pub fn needed(table: &Table, slot: u8, operation: u8) -> Option<Need> {
    if slot >= 3 || operation == LOAD {
        document_01(operation)
    } else {
        table.line(operation)
    }
}

#[cfg(test)]
mod tests {
    use super::*;

    #[test]
    fn tables_read_back() {
        let bytes: Vec<u8> = (100..121).collect();
        assert_eq!(Table::read(&bytes).bytes(), bytes);
        assert_eq!(Table::read(&bytes).line(1), Some(Need { mask: 0x6465, level: 0x66 }));
        assert_eq!(Table::read(&bytes).line(7), Some(Need { mask: 0x7677, level: 0x78 }));
        assert_eq!([0, 8, 255].map(|operation| Table::read(&bytes).line(operation)), [None; 3]);
    }

    /// "It starts .. as document 01's rule", which is itself good.
    #[test]
    fn document_01_is_a_good_table() {
        let bytes = [0, 1, 0, 0, 2, 0, 0, 4, 0, 0, 8, 0, 0, 16, 0, 0, 32, 0, 0, 64, 1];
        assert_eq!(Table::default().bytes(), bytes);
        assert!(good_data(&bytes));
        assert_eq!([0, 9, 255].map(document_01), [None; 3]);
        assert_eq!(document_01(LOAD), document_01(SET_KEY));
    }

    /// Each way to be bad, alone and in each line; beside it what is just good.
    #[test]
    fn every_way_to_be_bad() {
        for operation in 1..=7 {
            let good = |mask, level| good_data(&with(operation, mask, level).bytes());
            assert_eq!([good(0, 1), good(1, 1)], [false, true]);
            for bit in 0..16 {
                assert_eq!([good(1 << bit, 1), good(0x7f | 1 << bit, 2)], [bit < 7; 2], "bit {bit}");
            }
            assert_eq!([good(0xffff, 1), good(0x7f, 1)], [false, true]);
            assert_eq!([good(1, 1), good(1, 2), good(1, 3), good(1, 4), good(1, 255)], [true, true, false, false, false]);
            assert_eq!(good(1, 0), operation != SET_KEY);
        }
        assert!(!good_data(&Table::default().bytes()[1..]));
        assert!(!good_data(&[&Table::default().bytes()[..], &[1]].concat()));
    }

    /// Numbers that 21 bytes do not hold, and a record may.
    #[test]
    fn numbers_of_a_record() {
        assert!(!with(1, 1 << 16, 0).good() && !with(1, 1, 256).good() && !with(7, 64, 1 << 31).good());
        assert!(with(1, 0, 0).0[0].rights_met(0));
        for bit in 7..32 {
            assert!(!Need { mask: 1 << bit, level: 0 }.rights_met(0x7f), "bit {bit}");
        }
        for level in [3, 4, 255, 256, 258, 1 << 16, u32::MAX] {
            assert!(!Need { mask: 0, level }.level_met(2), "level {level}");
        }
    }

    /// The table is asked under slots 0 to 2 and for operations 1 to 7; else it is document 01's rule.
    #[test]
    fn where_the_table_is_asked() {
        let odd = Table([Need { mask: 3, level: 2 }; LINES]);
        for operation in 0..=9 {
            for slot in 0..=4 {
                let by_the_table = slot <= 2 && (1..=7).contains(&operation);
                let due = if by_the_table { Some(Need { mask: 3, level: 2 }) } else { document_01(operation) };
                assert_eq!(needed(&odd, slot, operation), due, "{slot} {operation}");
            }
        }
    }
}
