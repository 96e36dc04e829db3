//! Change 6 through the gate: what each of its sentences says, at both sides of its edges.

use crate::digest::hmac;
use crate::drive::*;
use crate::gate::gate;
use crate::gate::tests::{credential, drive, frame, request};
use crate::group::bytes_of;
use crate::records::*;
use crate::table::{reads_need_look, with, writes_at_level_2, Table};

const NOW: u64 = 10_000;
const GROUP: u32 = 5; // of 12 bytes and version 4; it lists SMALL, LOG and MISSING
const SMALL: u32 = 3; // of 4 bytes and version 3
const LOG: u32 = 9; // of 40 bytes and version 2
const MISSING: u32 = 77;
const OTHER: u32 = 8; // of 8 bytes and version 5; it is not listed
const HEAD: usize = 8; // of a reply

/// A drive whose partition 0 has these objects.
#[derive(Clone, PartialEq, Debug)]
struct Stack {
    drive: Drive,
    medium: Vec<u8>,
    count: u32,
    reply: Vec<u8>,
}

impl Stack {
    fn new() -> Stack {
        let (mut drive, medium) = drive();
        let partition = &mut drive.partitions[0];
        partition.last_given = 5;
        for (number, version, start, size) in [(SMALL, 3, 13, 4), (GROUP, 4, 0, 12), (OTHER, 5, 80, 8)] {
            partition.objects.push(Object { number, version, start, size });
        }
        let mut stack = Stack { drive, medium, count: 0, reply: vec![] };
        stack.list(&[SMALL, LOG, MISSING]);
        stack
    }

    fn put(&mut self, frame: &[u8]) -> u8 {
        self.put_into(frame, 200)
    }

    fn put_into(&mut self, frame: &[u8], space: usize) -> u8 {
        let mut reply = vec![0; space];
        let (row, length) = gate(&mut self.drive, &mut self.medium, frame, NOW, &mut reply);
        self.reply = reply[..length].to_vec();
        row
    }

    fn version(&self, number: u32) -> u32 {
        self.drive.partitions[0].present_version(number).unwrap()
    }

    /// A group's credential, and a request for a member; all rights, in range, a new count.
    fn records(&mut self, group: u32, member: u32, op: u8, a: u32, b: u32) -> (Credential, Request) {
        self.count += 1;
        let c = Credential { object: group, version: self.version(group), rights: 0xff, ..credential() };
        (c, Request { mark: GROUP_MARK, member, count: self.count, ..request(op, a, b) })
    }

    /// The row of an operation on a member through a group.
    fn through(&mut self, group: u32, member: u32, op: u8, a: u32, b: u32) -> u8 {
        let (c, r) = self.records(group, member, op, a, b);
        self.put(&frame(&c, &r, &vec![7; r.n as usize]))
    }

    /// The row of a look at a member through a group.
    fn look(&mut self, group: u32, member: u32) -> u8 {
        self.through(group, member, LOOK, 0, 0)
    }

    fn looks<const N: usize>(&mut self, members: [u32; N]) -> [u8; N] {
        members.map(|member| self.look(GROUP, member))
    }

    /// An operation under the object's own credential.
    fn own(&mut self, object: u32, op: u8, a: u32, b: u32) -> u8 {
        self.count += 1;
        let c = Credential { object, version: self.version(object), ..credential() };
        let r = Request { count: self.count, ..request(op, a, b) };
        self.put(&frame(&c, &r, &vec![6; r.n as usize]))
    }

    /// Writes bytes under the object's own credential.
    fn write(&mut self, object: u32, a: u32, data: &[u8]) {
        self.count += 1;
        let c = Credential { object, version: self.version(object), ..credential() };
        let r = Request { count: self.count, ..request(WRITE, a, data.len() as u32) };
        assert_eq!(self.put(&frame(&c, &r, data)), 0);
    }

    fn list(&mut self, numbers: &[u32]) {
        self.write(GROUP, 0, &bytes_of(numbers));
    }
}

/// "range, size, result and the granted writes that a read shows are the member's"
#[test]
fn a_member_is_reached() {
    let mut stack = Stack::new();
    assert_eq!(stack.look(GROUP, LOG), 0);
    assert_eq!(stack.reply[HEAD..16], [0, 0, 0, 40, 0, 0, 0, 2]);
    assert_eq!(stack.look(GROUP, SMALL), 0);
    assert_eq!(stack.reply[HEAD..16], [0, 0, 0, 4, 0, 0, 0, 3]);
    assert_eq!(stack.through(GROUP, LOG, WRITE, 38, 2), 0);
    assert_eq!(stack.medium[66..71], [0, 0, 7, 7, 0]); // the log starts at byte 30
    assert_eq!(stack.own(LOG, READ, 37, 3), 0);
    assert_eq!(stack.reply[HEAD..11], [0, 7, 7]);
    assert_eq!(stack.own(SMALL, WRITE, 1, 2), 0);
    assert_eq!(stack.through(GROUP, SMALL, READ, 0, 4), 0);
    assert_eq!(stack.reply[..12], [0x4c, 0x41, 1, 2, 0, 0, 0, 4, 0, 6, 6, 0]);
    assert_eq!(stack.medium[..12], bytes_of(&[SMALL, LOG, MISSING]));
}

/// "32 .. when the group's bytes are no such list": a fresh one is zeros, and a list that is half written is none.
#[test]
fn a_list_before_it_is_written() {
    let mut stack = Stack::new();
    stack.list(&[0, 0, 0]);
    assert_eq!(stack.looks([LOG, SMALL, MISSING, OTHER, 0]), [32; 5]);
    stack.write(GROUP, 0, &[0, 0, 0, 3, 0, 0, 0, 9]);
    assert_eq!(stack.looks([LOG, SMALL, 0]), [32; 3]);
    stack.write(GROUP, 8, &[0, 0, 0]);
    assert_eq!(stack.looks([LOG, SMALL]), [32; 2]);
    stack.write(GROUP, 11, &[MISSING as u8]);
    assert_eq!(stack.looks([LOG, SMALL, MISSING, OTHER, 0]), [0, 0, 34, 33, 33]);
}

/// Each way to break a list, alone: before the member, behind it, at it. Beside each what is just a list.
#[test]
fn broken_lists() {
    let mut stack = Stack::new();
    for (list, row) in [
        ([3, 9, 10], 0),
        ([3, 9, 9], 32),
        ([3, 9, 8], 32),
        ([8, 9, 10], 0),
        ([9, 9, 10], 32),
        ([10, 9, 11], 32),
        ([1, 9, 10], 0),
        ([0, 9, 10], 32),
        ([9, 10, 11], 0),
        ([9, 11, 11], 32),
        ([9, 11, 10], 32),
        ([9, 0, 10], 32),
        ([9, 10, u32::MAX], 0),
        ([9, u32::MAX, 0], 32),
    ] {
        stack.list(&list);
        assert_eq!(stack.look(GROUP, LOG), row, "{list:?}");
    }
}

/// "and no other byte": a group of any other length is no list, whatever it holds.
#[test]
fn lists_of_odd_length() {
    for size in 1..=12 {
        let mut stack = Stack::new();
        stack.drive.partitions[0].objects.iter_mut().find(|o| o.number == GROUP).unwrap().size = size;
        let row = if size % 4 == 0 { 0 } else { 32 };
        assert_eq!(stack.look(GROUP, SMALL), row, "{size} bytes");
    }
}

/// "33, next, when the member is not in it; 34, next, when the member does not exist." An object that is neither is 33.
#[test]
fn members_that_are_not_there() {
    let mut stack = Stack::new();
    let rows = stack.looks([SMALL, LOG, MISSING, OTHER, GROUP, 0, 7, 78, u32::MAX]);
    assert_eq!(rows, [0, 0, 34, 33, 33, 33, 33, 33, 33]);
    assert_eq!(stack.own(0, CREATE, MISSING, 4), 0);
    assert_eq!(stack.looks([MISSING, OTHER]), [0, 33]);
    assert_eq!([stack.own(LOG, DELETE, 0, 0), stack.look(GROUP, LOG)], [0, 34]);
    assert_eq!([stack.own(0, CREATE, LOG, 6), stack.look(GROUP, LOG)], [0, 0]);
    assert_eq!(stack.reply[HEAD..16], [0, 0, 0, 6, 0, 0, 0, 7]);
    assert_eq!([stack.own(GROUP, DELETE, 0, 0), stack.own(0, CREATE, GROUP, 12)], [0, 0]);
    assert_eq!(stack.looks([LOG, OTHER, 0]), [32; 3]);
}

/// In the partition, as row 14 has it: a neighbour's objects and lists are not asked.
#[test]
fn neighbours_are_not_asked() {
    let mut stack = Stack::new();
    let mut next_door = stack.drive.partitions[0].clone();
    next_door.objects[0].number = MISSING;
    next_door.memory.clear();
    stack.drive.partitions[1] = next_door;
    stack.medium[100..112].copy_from_slice(&bytes_of(&[OTHER, LOG, MISSING]));
    assert_eq!(stack.looks([MISSING, OTHER, LOG]), [34, 33, 0]);
    let mut next_door = |member| {
        let (c, r) = stack.records(GROUP, member, LOOK, 0, 0);
        stack.put(&frame(&Credential { partition: 1, ..c }, &r, &[]))
    };
    assert_eq!([MISSING, OTHER, LOG, SMALL].map(|member| next_door(member)), [0, 0, 34, 33]);
}

/// Two rows at once: "32, after row 15 .. 33, next .. 34, next", and row 16 only then.
#[test]
fn the_order_of_the_rows() {
    let mut stack = Stack::new();
    let mut row = |list: [u32; 3], member, change: fn(&mut Credential, &mut Request)| {
        stack.list(&list);
        let (mut c, mut r) = stack.records(GROUP, member, READ, 1, 2);
        change(&mut c, &mut r);
        stack.put(&frame(&c, &r, &[]))
    };
    let (good, bad) = ([SMALL, LOG, MISSING], [SMALL, LOG, LOG]);
    let broken = [(bad, LOG, 32), (bad, OTHER, 32), (bad, MISSING, 32)];
    let others = [(good, OTHER, 33), (good, 7, 33), (good, MISSING, 34), (good, LOG, 0)];
    for (list, member, due) in broken.into_iter().chain(others) {
        assert_eq!(row(list, member, |_, _| {}), due);
        // lower rows
        assert_eq!(row(list, member, |c, _| c.version = 3), 15);
        assert_eq!(row(list, member, |c, _| c.object = 99), 14);
        assert_eq!(row(list, member, |c, _| c.rights = 0xfe), 13);
        assert_eq!(row(list, member, |c, _| c.expiry = NOW - 1), 10);
        // higher ones
        assert_eq!(row(list, member, |c, _| c.first = 2), if due == 0 { 16 } else { due });
        assert_eq!(row(list, member, |c, _| c.end = 2), if due == 0 { 16 } else { due });
        assert_eq!(row(list, member, |c, r| (c.end, r.b) = (41, 40)), if due == 0 { 17 } else { due });
    }
}

/// Rows 22 and 23 come behind them.
#[test]
fn with_a_full_memory_or_a_short_space() {
    let mut stack = Stack::new();
    let entry = |count| Nonce { count, ..Nonce::of(&credential(), &request(LOOK, 0, 0)) };
    let mut broken = stack.clone();
    broken.list(&[LOG, LOG, MISSING]);
    broken.drive.partitions[0].memory.clear();
    for (member, rows) in [(OTHER, [33, 33]), (MISSING, [34, 34]), (LOG, [23, 0])] {
        let (c, r) = stack.records(GROUP, member, LOOK, 0, 0);
        let frame = frame(&c, &r, &[]);
        assert_eq!([stack.put_into(&frame, 47), stack.put_into(&frame, 48)], rows);
        assert_eq!(broken.put_into(&frame, 47), 32);
    }
    let full: Vec<Nonce> = (1_000..1_064).map(entry).collect();
    stack.drive.partitions[0].memory = full.clone();
    broken.drive.partitions[0].memory = full;
    assert_eq!(stack.looks([OTHER, MISSING, LOG]), [33, 34, 22]);
    assert_eq!(broken.look(GROUP, LOG), 32);
}

/// "range, size .. are the member's": the group has 12 bytes, the members 4 and 40.
#[test]
fn range_and_size() {
    let mut stack = Stack::new();
    for op in [READ, WRITE] {
        assert_eq!([stack.through(GROUP, SMALL, op, 0, 4), stack.through(GROUP, SMALL, op, 0, 5)], [0, 17]);
        assert_eq!([stack.through(GROUP, SMALL, op, 4, 0), stack.through(GROUP, SMALL, op, 5, 0)], [0, 17]);
        assert_eq!([stack.through(GROUP, LOG, op, 0, 40), stack.through(GROUP, LOG, op, 1, 40)], [0, 17]);
        assert_eq!([stack.through(GROUP, LOG, op, 12, 1), stack.through(GROUP, LOG, op, 40, 0)], [0, 0]);
        // the credential's first 8 and end 16
        let mut at = |a, b| {
            let (c, r) = stack.records(GROUP, LOG, op, a, b);
            stack.put(&frame(&Credential { first: 8, end: 16, ..c }, &r, &vec![7; r.n as usize]))
        };
        assert_eq!([at(8, 8), at(16, 0), at(8, 9), at(17, 0), at(7, 1)], [0, 0, 16, 16, 16]);
    }
}

/// "Version is the group object's .. So a credential made for the log before is known by the group's version only, and the file manager
/// raises that too."
#[test]
fn versions() {
    let mut stack = Stack::new();
    let mut at = |version| {
        let (c, r) = stack.records(GROUP, LOG, LOOK, 0, 0);
        stack.clone().put(&frame(&Credential { version, ..c }, &r, &[]))
    };
    assert_eq!([at(4), at(2), at(3), at(5), at(1)], [0, 15, 15, 15, 15]); // 2 is the log's, 1 the partition's
    assert_eq!([stack.own(LOG, RAISE, 0, 0), stack.look(GROUP, LOG)], [0, 0]);
    assert_eq!(stack.reply[HEAD..16], [0, 0, 0, 40, 0, 0, 0, 6]);
    let (c, r) = stack.records(GROUP, LOG, LOOK, 0, 0);
    assert_eq!(stack.own(GROUP, RAISE, 0, 0), 0);
    assert_eq!(stack.put(&frame(&c, &r, &[])), 15);
    assert_eq!(stack.put(&frame(&Credential { version: 7, ..c }, &r, &[])), 0);
    assert_eq!(stack.reply[HEAD..16], [0, 0, 0, 40, 0, 0, 0, 6]);
}

/// "The nonce's object is the group."
#[test]
fn nonces() {
    let mut stack = Stack::new();
    stack.write(OTHER, 0, &bytes_of(&[GROUP, LOG]));
    let (c, r) = stack.records(GROUP, LOG, LOOK, 0, 0);
    let through = |stack: &mut Stack, object, member| {
        let c = Credential { object, version: stack.version(object), ..c.clone() };
        stack.put(&frame(&c, &Request { member, ..r.clone() }, &[]))
    };
    let own = |stack: &mut Stack, object| {
        let c = Credential { object, version: stack.version(object), ..credential() };
        stack.put(&frame(&c, &Request { mark: REQUEST_MARK, ..r.clone() }, &[]))
    };
    assert_eq!([LOG, LOG, SMALL, MISSING].map(|member| through(&mut stack, GROUP, member)), [0, 12, 12, 12]);
    assert_eq!([LOG, GROUP, SMALL, 0].map(|object| own(&mut stack, object)), [0, 12, 0, 0]);
    assert_eq!([LOG, GROUP].map(|member| through(&mut stack, OTHER, member)), [0, 12]);
    let objects: Vec<u32> = stack.drive.partitions[0].memory.iter().filter(|e| e.count == r.count).map(|e| e.object).collect();
    assert_eq!(objects, [GROUP, LOG, SMALL, 0, OTHER]);
}

/// A group may list itself, and a write through it may change its own list.
#[test]
fn a_group_in_its_own_list() {
    let mut stack = Stack::new();
    stack.list(&[SMALL, GROUP, LOG]);
    assert_eq!(stack.look(GROUP, GROUP), 0);
    assert_eq!(stack.reply[HEAD..16], [0, 0, 0, 12, 0, 0, 0, 4]);
    assert_eq!(stack.through(GROUP, GROUP, READ, 0, 12), 0);
    assert_eq!(stack.reply[HEAD..20], bytes_of(&[SMALL, GROUP, LOG]));
    let mut rewrite = |a, data: &[u8]| {
        let (c, r) = stack.records(GROUP, GROUP, WRITE, a, data.len() as u32);
        let row = stack.put(&frame(&c, &r, data));
        (row, stack.looks([SMALL, LOG, OTHER, GROUP]))
    };
    assert_eq!(rewrite(8, &bytes_of(&[OTHER])), (0, [0, 33, 0, 0]));
    assert_eq!(rewrite(11, &[4]), (0, [32; 4]));
    assert_eq!(rewrite(11, &[9]), (32, [32; 4]));
    stack.list(&[SMALL, GROUP, LOG]);
    assert_eq!(stack.looks([SMALL, LOG, OTHER, GROUP]), [0, 0, 33, 0]);
}

/// A group that another one lists is an object like any: its bytes are reached, its list is not followed.
#[test]
fn groups_are_not_followed() {
    let mut stack = Stack::new();
    stack.write(OTHER, 0, &bytes_of(&[GROUP, MISSING]));
    assert_eq!([GROUP, LOG, SMALL, MISSING].map(|member| stack.look(OTHER, member)), [0, 33, 33, 34]);
    assert_eq!(stack.through(OTHER, GROUP, WRITE, 0, 12), 0); // three times 07 07 07 07
    assert_eq!(stack.looks([LOG, SMALL]), [32, 32]);
    assert_eq!(stack.look(OTHER, GROUP), 0);
}

/// "so 32 bytes, in rows 5 and 28 too; row 2 keeps 96 for every form"
#[test]
fn frames_of_other_lengths() {
    let mut stack = Stack::new();
    let (c, r) = stack.records(GROUP, LOG, LOOK, 0, 0);
    let good = frame(&c, &r, &[]);
    assert_eq!(good.len(), 100);
    let rows: Vec<u8> = (94..100).map(|length| stack.put(&good[..length])).collect();
    assert_eq!(rows, [2, 2, 5, 5, 5, 5]);
    assert_eq!(stack.put(&[&good[..], &[0]].concat()), 5);
    // without its member, and signed so
    let short = [&good[..64], &hmac(&hmac(&[5; 32], &good[..36]), &good[..64])].concat();
    assert_eq!([stack.put(&short), stack.put(&good)], [5, 0]);
    let (c, r) = stack.records(GROUP, LOG, WRITE, 0, 3);
    let good = frame(&c, &r, &[1, 2, 3]);
    assert_eq!([stack.put(&good[..102]), stack.put(&good), stack.put(&[&good[..], &[0]].concat())], [5, 0, 5]);
    // 100 bytes with the other mark
    let mut other = frame(&c, &Request { operation: LOOK, a: 0, b: 0, n: 0, ..r.clone() }, &[]);
    other[37] = REQUEST_MARK[1];
    assert_eq!(stack.put(&other), 5);
}

/// Row 6 comes behind row 5 and before row 7, and by it a frame is of one form alone.
#[test]
fn frames_of_two_forms() {
    let mut stack = Stack::new();
    let mut row = |rights, mark, level, least| {
        let (c, r) = stack.records(GROUP, LOG, LOOK, 0, 0);
        let (c, r) = (Credential { rights, least, ..c }, Request { mark, level, ..r });
        let records = [c.bytes(), r.bytes()].concat();
        stack.put(&[&records[..], &hmac(&hmac(&[5; 32], &c.bytes()), &records)].concat())
    };
    assert_eq!([row(0xff, GROUP_MARK, 2, 2), row(0x7f, REQUEST_MARK, 2, 2)], [0, 0]);
    assert_eq!([row(0xff, REQUEST_MARK, 2, 2), row(0x7f, GROUP_MARK, 2, 2)], [6, 6]);
    assert_eq!([row(0xff, REQUEST_MARK, 1, 2), row(0x7f, GROUP_MARK, 1, 2), row(0xff, GROUP_MARK, 1, 2)], [6, 6, 7]);
    assert_eq!([row(0x1ff, GROUP_MARK, 2, 2), row(0xff, [0x4c, 0x46], 2, 2)], [4, 3]);
}

/// The digests of frame and reply take all 32 bytes of the request, at every level.
#[test]
fn digests_take_the_member() {
    for level in 0..=2 {
        let mut stack = Stack::new();
        let (c, r) = stack.records(GROUP, LOG, WRITE, 1, 2);
        let good = frame(&c, &Request { level, ..r }, &[1, 2]);
        for (at, row) in [(64, 9), (67, 9), (63, 5), (68, if level == 0 { 0 } else { 9 })] {
            let mut other = good.clone();
            other[at] ^= SMALL as u8 ^ LOG as u8;
            assert_eq!(stack.clone().put(&other), row, "byte {at} at level {level}");
        }
        assert_eq!(stack.put(&good), 0);
        let key = hmac(&[5; 32], &good[..36]);
        let digest = hmac(&key, &[&good[..68], &stack.reply[..HEAD]].concat());
        assert_eq!(stack.reply[HEAD..], digest[..if level == 2 { 32 } else { 0 }]);
    }
}

/// Under a table as other frames: every right in the mask, and its level.
#[test]
fn under_a_table() {
    let mut stack = Stack::new();
    let mut row = |table: Table, op, rights, level| {
        stack.drive.partitions[0].table = table;
        let (c, r) = stack.records(GROUP, LOG, op, 0, if op == LOOK { 0 } else { 2 });
        stack.put(&frame(&Credential { rights, ..c }, &Request { level, ..r.clone() }, &vec![7; r.n as usize]))
    };
    assert_eq!([row(Table::default(), READ, 0x81, 0), row(Table::default(), READ, 0xfe, 0)], [0, 13]);
    assert_eq!([row(reads_need_look(), READ, 0x85, 0), row(reads_need_look(), READ, 0x81, 0)], [0, 13]);
    assert_eq!([0, 1, 2].map(|level| row(writes_at_level_2(), WRITE, 0x82, level)), [7, 7, 0]);
    assert_eq!([row(Table::default(), LOOK, 0x84, 0), row(Table::default(), LOOK, 0x80, 0)], [0, 13]);
    // a mask that no load makes has bit 7: "every right in the mask being needed", and a group credential has it
    assert_eq!([row(with(READ, 0x81, 0), READ, 0x81, 0), row(with(READ, 0x80, 0), READ, 0x80, 0)], [0, 0]);
    assert_eq!(row(with(READ, 0x181, 0), READ, 0xff, 0), 13);
}

/// Under the gold key too.
#[test]
fn under_the_gold_key() {
    let mut stack = Stack::new();
    let (c, r) = stack.records(GROUP, LOG, LOOK, 0, 0);
    let gold = frame(&Credential { slot: 1, ..c }, &r, &[]);
    assert_eq!(stack.put(&gold), 8);
    stack.drive.partitions[0].working[1] = Some([5; 32]);
    assert_eq!(stack.put(&gold), 0);
}

/// "Everything lent is untouched; of the drive only mark and outlived entries change."
#[test]
fn refusals_change_nothing() {
    let mut stack = Stack::new();
    let rows = [(OTHER, 33), (0, 33), (MISSING, 34), (SMALL, 17)];
    for (member, row) in rows.into_iter().chain([(LOG, 32), (OTHER, 32)]) {
        if row == 32 {
            stack.list(&[LOG, LOG, MISSING]);
        }
        let (c, r) = stack.records(GROUP, member, WRITE, 1, 8);
        let before = stack.clone();
        assert_eq!(stack.put(&frame(&c, &r, &[7; 8])), row);
        assert_eq!(Stack { reply: before.reply.clone(), ..stack.clone() }, before);
        assert_eq!(stack.reply, []);
    }
}
