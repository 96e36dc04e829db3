//! "The ledger of demand 3": what the list of calls itself says, "nothing comes from the drive record". The tests keep one beside
//! the model's drive and hold every call to demand 3's sentences.

use crate::digest::hmac;
use crate::drive::{areas, chosen_start, Drive, Key, Object};
use crate::frame::Frame;
use crate::group::{is_list, lists};
use crate::records::*;
use crate::table::{needed, Need, Table};
use std::collections::HashSet;

pub struct Ledger {
    quarter: u32,
    mark: u64,
    master: Key,
    drive: Key,
    partitions: Vec<Page>,
    grants: HashSet<(u8, u8, u32, u64, u32, u32)>, // every grant's nonce memory, slot, holder, time, count and object
}

#[derive(Clone)]
struct Page {
    key: Option<Key>,
    working: [Option<Key>; 2],
    version: u32,
    last_given: u32,
    objects: Vec<(Object, Vec<u8>)>, // "each with number, version, area and bytes"
    table: Table,                    // change 5: "the table that earlier grants loaded, which the ledger holds too"
}

impl Page {
    fn position(&self, number: u32) -> Option<usize> {
        self.objects.iter().position(|(o, _)| o.number == number)
    }

    /// Change 6: "Demand 3 judges rows 32 to 34 as well", by the ledger's own bytes of the group; range and size "are the member's, in the
    /// ledger too".
    fn reaches(&self, frame: &Frame) {
        let (c, r) = (&frame.c, &frame.r);
        let target = self.position(frame.target());
        if c.is_of_a_group() {
            let list = &self.objects[self.position(c.object).expect("row 14")].1;
            assert!(is_list(list), "row 32");
            assert!(lists(list, r.member), "row 33");
            assert!(target.is_some(), "row 34");
        }
        let sum = r.a as u64 + r.b as u64;
        if r.operation <= 2 {
            assert!(c.first <= r.a && sum <= c.end as u64, "row 16");
            assert!(sum <= self.objects[target.unwrap()].1.len() as u64, "row 17");
        }
    }
}

impl Ledger {
    /// "Start: mark 0; master and drive key set, no other; each partition's version and last given are F; no object." Change 5: the
    /// table "starts .. as document 01's rule".
    pub fn new(m: usize, f: u32, master: Key, drive: Key) -> Ledger {
        let page = Page { key: None, working: [None; 2], version: f, last_given: f, objects: vec![], table: Table::default() };
        Ledger { quarter: (m / 4) as u32, mark: 0, master, drive, partitions: vec![page; 4], grants: HashSet::new() }
    }

    /// For a list that starts from a record which no list of calls makes: an object that the record has behind the others, and the last
    /// version given that its partition has. Its bytes are the medium's.
    pub fn join(&mut self, partition: usize, object: &Object, last_given: u32, medium: &[u8]) {
        let from = partition * self.quarter as usize + object.start as usize;
        let bytes = medium[from..from + object.size as usize].to_vec();
        self.partitions[partition].objects.push((object.clone(), bytes));
        self.partitions[partition].last_given = last_given;
    }

    /// For such a list too: what an operation needs by the table of such a record.
    pub fn need(&mut self, partition: usize, operation: u8, need: Need) {
        self.partitions[partition].table.0[operation as usize - 1] = need;
    }

    /// Feeds one call that was not refused by row 1, and checks the grant against the sentences of demand 3. `reply` is the
    /// reply written.
    pub fn call(&mut self, frame: &[u8], clock: u64, row: u8, reply: &[u8]) {
        // "Every call: the mark becomes the larger of itself and the clock reading. A refused call does no more."
        self.mark = self.mark.max(clock);
        if row != 0 {
            return;
        }
        let frame = Frame::read(frame).expect("row 2");
        let (c, r) = (&frame.c, &frame.r);

        // "No two grants in the whole list share nonce memory, key slot, holder, time and count." Change 2: "What a list of grants
        // never repeats is then nonce memory, slot, holder, time, count and object together." Change 6: "The nonce's object is the
        // group."
        let memory = if c.slot >= 3 { 4 } else { c.partition };
        let fresh = self.grants.insert((memory, c.slot, c.holder, r.time, r.count, c.object));
        assert!(fresh, "a nonce is granted twice");
        self.keeps(&frame);
        self.enter(&frame, reply);
    }

    fn key(&self, c: &Credential) -> Option<Key> {
        match c.slot {
            4 => Some(self.master),
            3 => Some(self.drive),
            2 => self.partitions[c.partition as usize].key,
            s => self.partitions[c.partition as usize].working[s as usize],
        }
    }

    /// "Rights, expiry, range, key and version are kept when none of rows 8–10 and 13–17 applies, judged by the ledger before the call,
    /// but with the mark that this call sets." Change 5: "a grant keeps to the table that earlier grants loaded", so that row 7 is one
    /// of these rows.
    fn keeps(&self, frame: &Frame) {
        let (c, r) = (&frame.c, &frame.r);
        let page = &self.partitions[c.partition as usize];
        let need = needed(&page.table, c.slot, r.operation).unwrap();
        assert!(!row_7(c, r, Some(need)), "row 7");
        let key = self.key(c).expect("row 8");
        assert_eq!(frame.digest_due(&key), frame.digest, "row 9");
        assert!(self.mark <= c.expiry, "row 10");
        assert!(need.rights_met(c.rights), "row 13");
        let at = page.position(c.object);
        assert!(c.object == 0 || at.is_some(), "row 14");
        // Change 5: "a grant of operation 8, like one that sets a key, is bound to no version". Change 6: "Version is the group object's".
        if r.operation <= 6 {
            let version = at.map_or(page.version, |i| page.objects[i].0.version);
            assert_eq!(c.version, version, "row 15");
        }
        page.reaches(frame);
    }

    /// "A grant then does as follows."
    fn enter(&mut self, frame: &Frame, reply: &[u8]) {
        let (c, r) = (&frame.c, &frame.r);
        let page = &mut self.partitions[c.partition as usize];
        let at = page.position(c.object);
        // Change 6: "the granted writes that a read shows are the member's, in the ledger too".
        let target = page.position(frame.target());
        let (a, b) = (r.a as usize, r.b as usize);
        match r.operation {
            // "A granted read's result is the bytes from A up to A + B of the ledger's object."
            READ => assert_eq!(reply[8..8 + b], page.objects[target.unwrap()].1[a..a + b], "a read shows other bytes"),
            LOOK => {}
            // "the data replaces the object's bytes from A up to A + B"
            WRITE => page.objects[target.unwrap()].1[a..a + b].copy_from_slice(frame.data),
            // "last given rises by one; the object, or for object 0 the partition, has it as version"
            RAISE => {
                page.last_given += 1;
                match at {
                    Some(i) => page.objects[i].0.version = page.last_given,
                    None => page.version = page.last_given,
                }
            }
            // "last given rises by one; object A joins, with it as version, the area that operation 5 finds among the
            // partition's areas in the ledger, and B zero bytes"
            CREATE => {
                page.last_given += 1;
                let objects: Vec<Object> = page.objects.iter().map(|(o, _)| o.clone()).collect();
                let start = chosen_start(self.quarter, &areas(&objects), r.b).unwrap();
                let object = Object { number: r.a, version: page.last_given, start, size: r.b };
                page.objects.push((object, vec![0; b]));
            }
            // "the object leaves"
            DELETE => {
                page.objects.remove(at.unwrap());
            }
            // Change 5: "Operation 8 .. loads it from 21 data bytes".
            LOAD => page.table = Table::read(frame.data),
            _ => self.set_key(frame),
        }
    }

    /// "keys change by operation 7, from the ledger's signing key"
    fn set_key(&mut self, frame: &Frame) {
        let (c, a) = (&frame.c, frame.r.a as usize);
        let new = hmac(&self.key(c).unwrap(), &[frame.request, frame.data].concat());
        match c.slot {
            4 => self.drive = new,
            3 => self.partitions[a].key = Some(new),
            _ => self.partitions[c.partition as usize].working[a] = Some(new),
        }
    }

    /// "After every call the drive's mark, keys, versions, last versions given and objects are the ledger's, objects in its
    /// order, and each object's area of the medium holds its bytes in the ledger." Change 5: and the tables.
    pub fn agrees(&self, drive: &Drive, medium: &[u8]) {
        assert_eq!(drive.mark, self.mark);
        assert_eq!((drive.master, drive.drive), (Some(self.master), Some(self.drive)));
        for (p, page) in self.partitions.iter().enumerate() {
            let real = &drive.partitions[p];
            assert_eq!((real.key, real.working), (page.key, page.working));
            assert_eq!((real.version, real.last_given), (page.version, page.last_given));
            assert_eq!(real.table, page.table);
            assert!(real.objects.iter().eq(page.objects.iter().map(|(o, _)| o)));
            for (o, bytes) in &page.objects {
                let from = p * self.quarter as usize + o.start as usize;
                assert_eq!(medium[from..from + o.size as usize], bytes[..]);
            }
        }
        assert!(drive.sound());
    }
}

#[cfg(test)]
mod tests {
    use super::*;
    use crate::drive::format;
    use crate::gate::tests::{credential, frame, request};

    /// A ledger of quarters of 100 bytes, each with objects 5 and 9 at bytes 5 and 9.
    fn ledger() -> Ledger {
        let mut ledger = Ledger::new(400, 2, [0; 32], [1; 32]);
        for page in &mut ledger.partitions {
            page.working[0] = Some([5; 32]);
            page.objects = [5, 9].map(|number| (Object { number, version: 2, start: number, size: 1 }, vec![0])).to_vec();
        }
        ledger
    }

    /// Feeds looks of the same slot, holder, time and count, granted, at these objects of partitions 0 and 1.
    fn granted(looks: &[(u8, u32)]) {
        let mut ledger = ledger();
        for &(partition, object) in looks {
            let c = Credential { partition, object, ..credential() };
            ledger.call(&frame(&c, &request(LOOK, 0, 0), &[]), 10_000, 0, &[]);
        }
    }

    /// "the area that operation 5 finds among the partition's areas in the ledger", by change 3: gaps 0–4, 6–8 and 10–99.
    #[test]
    fn areas_start_on_steps() {
        let mut ledger = ledger();
        let c = Credential { object: 0, ..credential() };
        for b in [6, 2, 68] {
            let r = Request { count: b, ..request(CREATE, b, b) };
            ledger.call(&frame(&c, &r, &[]), 10_000, 0, &[]);
        }
        let starts: Vec<(u32, u32)> = ledger.partitions[0].objects.iter().map(|(o, _)| (o.number, o.start)).collect();
        assert_eq!(starts, [(5, 5), (9, 9), (6, 16), (2, 0), (68, 32)]);
    }

    /// A ledger that an object of a record joined, and the drive and medium of that record.
    fn joined() -> (Ledger, Drive, Vec<u8>) {
        let mut medium = vec![0; 400];
        let (_, mut drive) = format(&mut medium, 2, &[0; 32], &[1; 32]);
        medium[121..124].copy_from_slice(&[6, 7, 8]);
        let object = Object { number: 4, version: 3, start: 21, size: 3 };
        let mut ledger = Ledger::new(400, 2, [0; 32], [1; 32]);
        ledger.join(1, &object, 5, &medium);
        drive.partitions[1].objects.push(object);
        drive.partitions[1].last_given = 5;
        (ledger, drive, medium)
    }

    #[test]
    fn an_object_of_a_record_joins() {
        let (ledger, drive, medium) = joined();
        ledger.agrees(&drive, &medium);
    }

    #[test]
    #[should_panic]
    fn an_object_of_a_record_has_its_bytes() {
        let (ledger, drive, mut medium) = joined();
        medium[123] = 9;
        ledger.agrees(&drive, &medium);
    }

    /// Feeds a granted load, under the key of partition 0, of a table by which reads need look too and writes level 2.
    fn loaded() -> Ledger {
        let mut ledger = ledger();
        ledger.partitions[0].key = Some([5; 32]);
        let mut table = Table::default();
        table.0[0] = Need { mask: 5, level: 0 };
        table.0[1] = Need { mask: 2, level: 2 };
        let c = Credential { slot: 2, object: 0, version: 0, ..credential() };
        ledger.call(&frame(&c, &request(LOAD, 0, 0), &table.bytes()), 10_000, 0, &[]);
        assert_eq!([&ledger.partitions[0].table, &ledger.partitions[1].table], [&table, &Table::default()]);
        ledger
    }

    /// A granted look, read or write of a byte after that load.
    fn granted_after_a_load(partition: u8, rights: u16, operation: u8, level: u8) {
        let c = Credential { partition, rights, ..credential() };
        let r = Request { level, b: (operation != LOOK) as u32, n: (operation == WRITE) as u32, ..request(operation, 0, 0) };
        loaded().call(&frame(&c, &r, &vec![7; r.n as usize]), 10_000, 0, &[0; 9]);
    }

    #[test]
    fn grants_keep_to_the_table() {
        granted_after_a_load(0, 5, READ, 0);
        granted_after_a_load(1, 1, READ, 0);
        granted_after_a_load(0, 2, WRITE, 2);
        granted_after_a_load(1, 2, WRITE, 0);
        granted_after_a_load(0, 4, LOOK, 0);
    }

    #[test]
    #[should_panic(expected = "row 13")]
    fn a_grant_without_every_right_of_the_mask() {
        granted_after_a_load(0, 1, READ, 2);
    }

    #[test]
    #[should_panic(expected = "row 7")]
    fn a_grant_under_the_level_of_the_table() {
        granted_after_a_load(0, 0x7f, WRITE, 1);
    }

    #[test]
    #[should_panic]
    fn a_drive_with_another_table() {
        let (ledger, mut drive, medium) = joined();
        drive.partitions[3].table.0[4].level = 1;
        ledger.agrees(&drive, &medium);
    }

    #[test]
    fn a_need_of_a_record_joins() {
        let (mut ledger, mut drive, medium) = joined();
        let odd = Need { mask: 1 << 31, level: 256 };
        drive.partitions[3].table.0[6] = odd;
        ledger.need(3, 7, odd);
        ledger.agrees(&drive, &medium);
    }

    /// A ledger of which object 9 is a group of these bytes, in partition 0, and 5 a log of one byte.
    fn stacked(list: &[u8]) -> Ledger {
        let mut ledger = ledger();
        let (object, bytes) = &mut ledger.partitions[0].objects[1];
        (object.size, object.start, object.version, *bytes) = (list.len() as u32, 9, 4, list.to_vec());
        ledger
    }

    /// Feeds a granted operation on a member through that group, of one byte where it reads or writes, that was answered by `shown`.
    fn granted_through(ledger: &mut Ledger, change: Credential, r: Request, shown: u8) {
        let r = Request { mark: GROUP_MARK, b: (r.operation != LOOK) as u32, n: (r.operation == WRITE) as u32, ..r };
        ledger.call(&frame(&change, &r, &vec![7; r.n as usize]), 10_000, 0, &[0, 0, 0, 0, 0, 0, 0, 0, shown]);
    }

    fn of_the_group() -> Credential {
        Credential { rights: 0xff, version: 4, ..credential() }
    }

    fn on(member: u32, operation: u8, count: u32) -> Request {
        Request { member, count, ..request(operation, 0, 0) }
    }

    const LIST: [u8; 12] = [0, 0, 0, 5, 0, 0, 0, 9, 0, 0, 0, 10]; // there is no object 10

    /// "the granted writes that a read shows are the member's, in the ledger too"
    #[test]
    fn writes_through_a_group_are_the_members() {
        let mut ledger = stacked(&LIST);
        granted_through(&mut ledger, of_the_group(), on(5, WRITE, 1), 0);
        granted_through(&mut ledger, of_the_group(), on(5, READ, 2), 7);
        let own = |count| frame(&Credential { object: 5, ..credential() }, &Request { count, b: 1, ..request(READ, 0, 0) }, &[]);
        ledger.call(&own(3), 10_000, 0, &[0, 0, 0, 0, 0, 0, 0, 0, 7]);
        assert_eq!((&ledger.partitions[0].objects[0].1[..], &ledger.partitions[0].objects[1].1[..]), (&[7][..], &LIST[..]));
        granted_through(&mut ledger, of_the_group(), on(9, WRITE, 4), 0); // its own list, which starts with 7 from now on
        assert_eq!(ledger.partitions[0].objects[1].1[..4], [7, 0, 0, 5]);
    }

    #[test]
    #[should_panic(expected = "a read shows other bytes")]
    fn a_read_through_a_group_shows_the_groups_bytes() {
        let mut ledger = stacked(&[0, 0, 0, 5, 7, 0, 0, 9]);
        granted_through(&mut ledger, of_the_group(), on(5, READ, 1), 7);
    }

    #[test]
    #[should_panic(expected = "row 32")]
    fn a_grant_through_a_broken_list() {
        granted_through(&mut stacked(&[0, 0, 0, 5, 0, 0, 0, 5]), of_the_group(), on(5, LOOK, 1), 0);
    }

    /// The ledger's own bytes, after the grants so far.
    #[test]
    #[should_panic(expected = "row 32")]
    fn a_grant_through_a_list_that_a_grant_broke() {
        let mut ledger = stacked(&LIST);
        granted_through(&mut ledger, of_the_group(), on(9, WRITE, 1), 0);
        granted_through(&mut ledger, of_the_group(), on(9, LOOK, 2), 0);
    }

    #[test]
    #[should_panic(expected = "row 33")]
    fn a_grant_to_a_member_that_is_not_listed() {
        granted_through(&mut stacked(&[0, 0, 0, 9]), of_the_group(), on(5, LOOK, 1), 0);
    }

    #[test]
    #[should_panic(expected = "row 34")]
    fn a_grant_to_a_member_that_does_not_exist() {
        granted_through(&mut stacked(&LIST), of_the_group(), on(10, LOOK, 1), 0);
    }

    #[test]
    #[should_panic(expected = "row 15")]
    fn a_grant_by_the_members_version() {
        granted_through(&mut stacked(&LIST), Credential { version: 2, ..of_the_group() }, on(5, LOOK, 1), 0);
    }

    #[test]
    #[should_panic(expected = "row 16")]
    fn a_grant_out_of_the_range() {
        granted_through(&mut stacked(&LIST), Credential { end: 0, ..of_the_group() }, on(5, READ, 1), 0);
    }

    /// A byte of the group's size, and not of the member's.
    #[test]
    #[should_panic(expected = "row 17")]
    fn a_grant_over_the_members_size() {
        granted_through(&mut stacked(&LIST), of_the_group(), Request { a: 1, ..on(5, READ, 1) }, 0);
    }

    #[test]
    #[should_panic(expected = "a nonce is granted twice")]
    fn two_members_under_one_nonce() {
        let mut ledger = stacked(&LIST);
        granted_through(&mut ledger, of_the_group(), on(5, LOOK, 1), 0);
        granted_through(&mut ledger, of_the_group(), on(9, LOOK, 1), 0);
    }

    /// A group's nonce is not its member's.
    #[test]
    fn a_member_and_its_group_under_one_nonce() {
        let mut ledger = stacked(&LIST);
        granted_through(&mut ledger, of_the_group(), on(5, LOOK, 1), 0);
        let own = frame(&Credential { object: 5, ..credential() }, &Request { count: 1, ..request(LOOK, 0, 0) }, &[]);
        ledger.call(&own, 10_000, 0, &[]);
    }

    #[test]
    fn objects_and_memories_tell_nonces_apart() {
        granted(&[(0, 5), (0, 9), (0, 0), (1, 9), (1, 0), (1, 5)]);
    }

    #[test]
    #[should_panic(expected = "a nonce is granted twice")]
    fn an_object_repeats_its_nonce() {
        granted(&[(0, 5), (0, 9), (1, 5), (0, 5)]);
    }

    #[test]
    #[should_panic(expected = "a nonce is granted twice")]
    fn the_partition_repeats_its_nonce() {
        granted(&[(0, 0), (0, 9), (0, 0)]);
    }
}
