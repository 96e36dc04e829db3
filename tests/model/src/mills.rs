//! Change 5 through the gate: the request's two mills, and what its other sentences say.

use crate::digest::hmac;
use crate::drive::*;
use crate::gate::gate;
use crate::gate::tests::{credential, drive, frame_under, request};
use crate::records::*;
use crate::table::{reads_need_look, with, writes_at_level_2, Need, Table};

const NOW: u64 = 10_000;
const OBJECT: u32 = 9; // of 40 bytes

/// A drive whose partitions 0 and 1 have the same object, a partition key and a black key, and no gold one.
#[derive(Clone)]
struct Mill {
    drive: Drive,
    medium: Vec<u8>,
    count: u32,
}

impl Mill {
    fn new() -> Mill {
        let (mut drive, medium) = drive();
        drive.partitions[0].key = Some([6; 32]);
        drive.partitions[1] = drive.partitions[0].clone();
        Mill { drive, medium, count: 0 }
    }

    /// Signs under the slot's key, or under zeros where it has none. The count is a new one. Row and reply length.
    fn put(&mut self, c: &Credential, r: &Request, data: &[u8]) -> (u8, usize) {
        self.count += 1;
        let r = Request { count: self.count, ..r.clone() };
        let mut frame = [&c.bytes()[..], &r.bytes(), data].concat();
        let signed = if r.level >= 1 { &frame[..] } else { &frame[..64] };
        let key = self.drive.key(c.slot, c.partition).unwrap_or([0; 32]);
        let digest = hmac(&hmac(&key, &frame[..36]), signed);
        frame.extend(digest);
        gate(&mut self.drive, &mut self.medium, &frame, NOW, &mut [0; 100])
    }

    fn ask(&mut self, c: &Credential, r: &Request) -> u8 {
        self.put(c, r, &vec![7; r.n as usize]).0
    }

    fn load(&mut self, partition: u8, table: &Table) -> u8 {
        self.put(&under(2, partition), &request(LOAD, 0, 0), &table.bytes()).0
    }

    /// The row of an operation of 1 to 7 that fits, in partition 0, with these rights, level and least level.
    fn row(&mut self, operation: u8, rights: u16, level: u8, least: u8) -> u8 {
        let (slot, a, b) = match operation {
            READ | WRITE => (0, 1, 2),
            CREATE => (0, 4, 2),
            SET_KEY => (2, 0, 0),
            _ => (0, 0, 0),
        };
        let mut c = Credential { rights, least, ..under(slot, 0) };
        if operation <= 6 && operation != CREATE {
            (c.object, c.version) = (OBJECT, self.drive.partitions[0].find(OBJECT).unwrap().version);
        } else if operation == CREATE {
            c.version = self.drive.partitions[0].version;
        }
        self.ask(&c, &Request { level, ..request(operation, a, b) })
    }

    /// Reads in a partition with these rights.
    fn reads<const N: usize>(&mut self, partition: u8, rights: [u16; N]) -> [u8; N] {
        rights.map(|rights| self.ask(&Credential { partition, rights, ..credential() }, &request(READ, 1, 2)))
    }

    /// Writes in a partition at levels 0, 1 and 2.
    fn writes(&mut self, partition: u8) -> [u8; 3] {
        [0, 1, 2].map(|level| self.ask(&Credential { partition, ..credential() }, &Request { level, ..request(WRITE, 1, 2) }))
    }
}

/// For the partition itself.
fn under(slot: u8, partition: u8) -> Credential {
    Credential { slot, partition, object: 0, version: 0, ..credential() }
}

/// "One mill wants reads to need the look right too".
#[test]
fn reads_that_need_the_look_right_too() {
    let mut mill = Mill::new();
    assert_eq!(mill.reads(0, [1, 5, 4]), [0, 0, 13]);
    assert_eq!(mill.load(0, &reads_need_look()), 0);
    assert_eq!(mill.reads(0, [1, 4, 5, 0x7a, 0x7b, 0x7e, 0x7f, 0]), [13, 13, 0, 13, 13, 13, 0, 13]);
    assert_eq!(mill.reads(1, [1, 4, 5]), [0, 13, 0]);
    assert_eq!([mill.row(LOOK, 4, 0, 0), mill.row(LOOK, 1, 0, 0), mill.row(WRITE, 2, 0, 0)], [0, 13, 0]);
    assert_eq!(mill.load(0, &Table::default()), 0);
    assert_eq!(mill.reads(0, [1, 4, 5]), [0, 13, 0]);
}

/// "another every write at level 2".
#[test]
fn every_write_at_level_2() {
    let mut mill = Mill::new();
    assert_eq!(mill.writes(0), [0, 0, 0]);
    assert_eq!(mill.load(0, &writes_at_level_2()), 0);
    assert_eq!([mill.writes(0), mill.writes(1)], [[7, 7, 0], [0, 0, 0]]);
    assert_eq!([mill.row(READ, 1, 0, 0), mill.row(READ, 1, 1, 2), mill.row(WRITE, 2, 2, 2)], [0, 7, 0]);
    assert_eq!(mill.load(0, &reads_need_look()), 0);
    assert_eq!(mill.writes(0), [0, 0, 0]);
}

/// A table by which another right will do instead, and that asks less of the operation's own.
#[test]
fn another_right_instead() {
    let mut mill = Mill::new();
    assert_eq!(mill.load(0, &with(READ, 4, 0)), 0);
    assert_eq!(mill.reads(0, [1, 4, 5]), [13, 0, 0]);
}

/// Rows 7 and 13 of document 01, for every operation, level, least level and set of rights: at first, and where its rule is loaded.
#[test]
fn document_01_as_before() {
    let fresh = Mill::new();
    let mut again = fresh.clone();
    assert_eq!([again.load(0, &Table([Need { mask: 9, level: 2 }; 7])), again.load(0, &Table::default())], [0, 0]);
    for operation in 1..=7u8 {
        for (level, least) in [0, 1, 2].into_iter().flat_map(|level| [0, 1, 2].map(|least| (level, least))) {
            for rights in 0..=127u16 {
                // "The level is under the credential's least, or is 0 with operation 7." "The right is missing."
                let due = match (level < least || (level == 0 && operation == 7), rights >> (operation - 1) & 1) {
                    (true, _) => 7,
                    (_, 0) => 13,
                    _ => 0,
                };
                let rows = [&fresh, &again].map(|mill| mill.clone().row(operation, rights, level, least));
                assert_eq!(rows, [due, due], "{operation} {level} {least} {rights}");
            }
        }
    }
}

/// "Frames under slots 3 and 4 .. keep document 01's rule": partition 0's table, which they carry, is not asked, nor that of the
/// partition whose key they set.
#[test]
fn slots_3_and_4_are_not_by_the_table() {
    let mut mill = Mill::new();
    let table = with(SET_KEY, 0b100_0001, 2);
    assert_eq!([mill.load(0, &table), mill.load(1, &table)], [0, 0]);
    let set = |slot, a, rights, level| {
        mill.clone().ask(&Credential { rights, ..under(slot, 0) }, &Request { level, ..request(SET_KEY, a, 0) })
    };
    assert_eq!([set(2, 0, 0x41, 2), set(2, 0, 0x41, 1), set(2, 0, 0x40, 2), set(2, 0, 0x7f, 2)], [0, 7, 13, 0]);
    for (slot, a) in [(3, 0), (3, 1), (3, 2), (4, 0)] {
        assert_eq!([set(slot, a, 0x40, 1), set(slot, a, 0x40, 0), set(slot, a, 0x3f, 2)], [0, 7, 13]);
    }
}

/// A table that asks less of operation 7 than document 01 does: "operation 8 treated as 7", and slots 3 and 4 too, by document 01.
#[test]
fn operation_8_is_not_by_the_table() {
    let mut mill = Mill::new();
    let mut load = |table: &Table, rights, level| {
        let c = Credential { rights, ..under(2, 0) };
        mill.put(&c, &Request { level, ..request(LOAD, 0, 0) }, &table.bytes()).0
    };
    let more = with(SET_KEY, 0x7f, 2);
    let other = with(SET_KEY, 1, 1);
    assert_eq!([load(&more, 0x40, 1), load(&other, 0x40, 1), load(&more, 0x3f, 2)], [0, 0, 13]);
    assert_eq!([load(&more, 0x40, 0), load(&more, 1, 1), load(&more, 0x40, 2)], [7, 13, 0]);
    let least = Credential { least: 2, ..under(2, 0) };
    assert_eq!(mill.ask(&least, &Request { level: 1, ..request(LOAD, 0, 0) }), 7);
}

/// "Operation 8 (slot 2 ..; object, version, A and B 0 ..) .. 21 data bytes".
#[test]
fn rows_4_to_6_of_operation_8() {
    let mut mill = Mill::new();
    let (c, r, table) = (under(2, 0), request(LOAD, 0, 0), Table::default().bytes());
    let mut put = |c: &Credential, r: &Request, data: &[u8]| mill.put(c, &Request { n: data.len() as u32, ..r.clone() }, data).0;
    assert_eq!(put(&c, &Request { operation: 9, ..r.clone() }, &table), 4);
    assert_eq!([put(&c, &r, &table[..20]), put(&c, &r, &[&table[..], &[0]].concat()), put(&c, &r, &[])], [5, 5, 5]);
    assert_eq!(put(&c, &Request { operation: SET_KEY, ..r.clone() }, &table), 5);
    for slot in [0, 1, 3, 4] {
        assert_eq!(put(&Credential { slot, ..c.clone() }, &r, &table), 6, "slot {slot}");
    }
    assert_eq!(put(&Credential { object: OBJECT, ..c.clone() }, &r, &table), 6);
    assert_eq!(put(&Credential { version: 1, ..c.clone() }, &r, &table), 6);
    assert_eq!(put(&c, &Request { a: 1, ..r.clone() }, &table), 6);
    assert_eq!(put(&c, &Request { b: 1, ..r.clone() }, &table), 6);
    assert_eq!(put(&c, &r, &table), 0);
}

/// "empty result": the head alone, and at level 2 the digest. The data, as a write's, is covered from level 1.
#[test]
fn the_reply_of_a_load() {
    let mut mill = Mill::new();
    let table = reads_need_look().bytes();
    for (level, length) in [(1, 8), (2, 40)] {
        assert_eq!(mill.put(&under(2, 0), &Request { level, ..request(LOAD, 0, 0) }, &table), (0, length));
    }
    let entries: Vec<(u8, u32)> = mill.drive.partitions[0].memory.iter().map(|e| (e.slot, e.object)).collect();
    assert_eq!(entries, [(2, 0), (2, 0)]);
}

/// "Turned away: 31 .. when the table is not good", and the table stays.
#[test]
fn bad_tables() {
    let mut mill = Mill::new();
    assert_eq!(mill.load(0, &reads_need_look()), 0);
    for table in [with(READ, 0, 0), with(LOOK, 0x84, 0), with(DELETE, 0x8020, 0), with(CREATE, 16, 3), with(SET_KEY, 64, 0)] {
        assert_eq!(mill.load(0, &table), 31, "{table:?}");
    }
    assert_eq!(mill.reads(0, [1, 5]), [13, 0]);
    // a lower row is told first
    let bad = with(READ, 0, 0).bytes();
    let mut put = |c: &Credential, r: &Request| mill.put(c, r, &bad).0;
    assert_eq!(put(&Credential { rights: 0x3f, ..under(2, 0) }, &request(LOAD, 0, 0)), 13);
    assert_eq!(put(&Credential { expiry: NOW - 1, ..under(2, 0) }, &request(LOAD, 0, 0)), 10);
    assert_eq!(put(&under(2, 0), &Request { level: 0, ..request(LOAD, 0, 0) }), 7);
    assert_eq!(put(&under(2, 2), &request(LOAD, 0, 0)), 8);
}

/// 31 stands before 22, although the number is higher, and before 23.
#[test]
fn a_bad_table_with_a_full_memory() {
    let mut mill = Mill::new();
    let entry = |count| Nonce { count, ..Nonce::of(&under(2, 0), &request(LOAD, 0, 0)) };
    mill.drive.partitions[0].memory = (1_000..1_064).map(entry).collect();
    assert_eq!([mill.load(0, &with(READ, 0, 0)), mill.load(0, &reads_need_look())], [31, 22]);
    mill.drive.partitions[0].memory.clear();
    let frame = frame_under(&[6; 32], &under(2, 0), &request(LOAD, 0, 0), &with(READ, 0, 0).bytes());
    assert_eq!(gate(&mut mill.drive, &mut mill.medium, &frame, NOW, &mut [0; 39]), (31, 0));
}

/// Row 7 comes before row 8, by the table too.
#[test]
fn a_low_level_with_a_key_never_set() {
    let mut mill = Mill::new();
    assert_eq!(mill.load(0, &writes_at_level_2()), 0);
    let gold = Credential { slot: 1, ..credential() };
    let mut write = |level, b| mill.ask(&gold, &Request { level, ..request(WRITE, 1, b) });
    assert_eq!([write(0, 2), write(1, 2), write(2, 2)], [7, 7, 8]);
    let mut ask = |operation, level| mill.ask(&under(2, 2), &Request { level, ..request(operation, 0, 0) });
    assert_eq!([ask(LOAD, 0), ask(LOAD, 1), ask(SET_KEY, 0), ask(SET_KEY, 1)], [7, 8, 7, 8]);
    // and after row 6
    assert_eq!(mill.ask(&Credential { object: 0, ..gold }, &Request { level: 0, ..request(WRITE, 1, 2) }), 6);
}

/// "the table that earlier grants loaded": nothing but another load changes it.
#[test]
fn the_table_stays() {
    let mut mill = Mill::new();
    assert_eq!(mill.load(0, &reads_need_look()), 0);
    let stays = |mill: &mut Mill, row: u8| {
        assert_eq!(row, 0);
        let version = mill.drive.partitions[0].find(OBJECT).unwrap().version;
        let c = Credential { rights: 1, version, ..credential() };
        assert_eq!(mill.ask(&c, &request(READ, 1, 2)), 13);
    };
    for operation in [LOOK, RAISE, WRITE, CREATE, SET_KEY] {
        let row = mill.row(operation, 0x7f, 2, 0);
        stays(&mut mill, row);
    }
    for (object, operation) in [(0, RAISE), (4, DELETE)] {
        let version = mill.drive.partitions[0].present_version(object).unwrap();
        let row = mill.ask(&Credential { object, version, ..credential() }, &request(operation, 0, 0));
        stays(&mut mill, row);
    }
    for (slot, a) in [(4, 0), (3, 1), (3, 0)] {
        let row = mill.ask(&under(slot, 0), &request(SET_KEY, a, 0));
        stays(&mut mill, row);
    }
    let row = mill.load(1, &writes_at_level_2());
    stays(&mut mill, row);
}

/// "bound to no version": a load is granted whatever versions were given.
#[test]
fn a_load_after_a_raise() {
    let mut mill = Mill::new();
    let raise = Credential { object: 0, version: 1, ..credential() };
    assert_eq!([mill.ask(&raise, &request(RAISE, 0, 0)), mill.load(0, &reads_need_look())], [0, 0]);
    mill.drive.partitions[0].last_given = u32::MAX;
    assert_eq!(mill.load(0, &Table::default()), 0);
}

/// A record from elsewhere may hold any table, and all of its bits count.
#[test]
fn the_table_of_a_record() {
    let mut mill = Mill::new();
    let mut rows = |operation: u8, mask, level| {
        mill.drive.partitions[0].table = with(operation, mask, level);
        [(0, 0), (0, 2), (0x7f, 0), (0x7f, 2)].map(|(rights, level)| mill.clone().row(operation, rights, level, 0))
    };
    assert_eq!(rows(READ, 0, 0), [0, 0, 0, 0]);
    assert_eq!(rows(READ, 1 << 7, 0), [13, 13, 13, 13]);
    assert_eq!(rows(READ, 1 | 1 << 31, 0), [13, 13, 13, 13]);
    assert_eq!([rows(WRITE, 2, 3), rows(WRITE, 0, 256), rows(WRITE, 0, u32::MAX)], [[7; 4]; 3]);
    assert_eq!(rows(SET_KEY, 0, 0), [0, 0, 0, 0]);
    assert_eq!(rows(SET_KEY, 64, 0), [13, 13, 0, 0]);
}
