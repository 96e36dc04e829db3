//! The gate: rows 1 to 23 and 31 to 34, the eight operations, the reply.

use crate::digest::{hmac, Digest};
use crate::drive::*;
use crate::frame::Frame;
use crate::group::{is_list, lists};
use crate::records::*;
use crate::table::{good_data, Table};

/// Puts a frame to the gate. Returns the row (0 for a grant) and the reply's length.
pub fn gate(drive: &mut Drive, medium: &mut [u8], frame: &[u8], clock: u64, space: &mut [u8]) -> (u8, usize) {
    let (rows, length) = gate_with_rows(drive, medium, frame, clock, space);
    (rows.first().copied().unwrap_or(0), length)
}

/// The same, telling every row that applies and not only the lowest: the tests count which ones met.
pub fn gate_with_rows(
    drive: &mut Drive,
    medium: &mut [u8],
    frame: &[u8],
    clock: u64,
    space: &mut [u8],
) -> (Vec<u8>, usize) {
    // "1. The drive record is not sound (it comes back unchanged, mark included), or the medium lent is not M bytes long."
    if !drive.sound() || medium.len() != drive.size {
        return (vec![1], 0);
    }
    // "each frame put to the gate first sets [the mark], before rows 2 on are judged .. refusals included"
    drive.pass_time(clock);
    // "The lowest row that applies is returned, with length 0. Everything lent is untouched; of the drive only mark and
    // outlived entries change."
    // "2. The frame is under 96 bytes."
    let Some(frame) = Frame::read(frame) else {
        return (vec![2], 0);
    };
    let rows = rows_that_apply(drive, medium, &frame, space.len());
    if !rows.is_empty() {
        return (rows, 0);
    }
    let reply = grant(drive, medium, &frame);
    space[..reply.len()].copy_from_slice(&reply); // "In any space written, later bytes keep their values."
    (rows, reply.len())
}

/// Rows 3 to 23 and 31 to 34 that apply, in their order. The drive's mark and memories are already those of this call.
fn rows_that_apply(drive: &Drive, medium: &[u8], frame: &Frame, space: usize) -> Vec<u8> {
    let Frame { c, r, data, digest, .. } = frame;
    let op = r.operation;
    let none = Partition::default();
    let partition = drive.partitions.get(c.partition as usize).unwrap_or(&none);
    let object = partition.find(c.object);
    let nothing = Vec::new();
    let memory = drive.memory(c.slot, c.partition).unwrap_or(&nothing);
    let key = drive.key(c.slot, c.partition);
    // Change 2: "Each memory entry, and so row 12's nonce, has the credential's object too."
    let nonce = Nonce::of(c, r);
    // Change 5: the table "that earlier grants loaded", or document 01's rule.
    let need = drive.need(c, op);
    // Change 6: "Version is the group object's; range, size, result .. are the member's".
    let target = partition.find(frame.target());
    let group = object.filter(|_| frame.is_through_a_group()).map(|o| drive.bytes(medium, c.partition as usize, o));

    // "Sums in rules are whole numbers and never wrap."
    let mark = drive.mark as u128;
    let t = r.time as u128;
    let a_plus_b = r.a as u64 + r.b as u64;
    let reads_or_writes = op == READ || op == WRITE;

    let rows = [
        // Bytes 0–1 or 36–37 are not the marks.
        (3, row_3(c, r)),
        // A field is outside the values above.
        (4, row_4(c, r)),
        // n is not 0, B, 16, 21 by the operation, or the frame is not as long as its parts together, 96 + n bytes, or 100 + n.
        (5, row_5_records(r) || frame.length() != r.frame_length()),
        // Operation misfits.
        (6, row_6(c, r)),
        // The level is under the credential's least, or under what the operation needs.
        (7, row_7(c, r, need)),
        // The named key was never set.
        (8, key.is_none()),
        // The digest differs.
        (9, key.is_some_and(|k| frame.digest_due(&k) != *digest)),
        // The mark is over the expiry.
        (10, drive.mark > c.expiry),
        // T + 5,000 is under the mark, or T is over the mark + 5,000.
        (11, t + 5_000 < mark || t > mark + 5_000),
        // Its memory holds the nonce.
        (12, memory.contains(&nonce)),
        // The right is missing. Change 5: "every right in the mask being needed".
        (13, need.is_some_and(|need| !need.rights_met(c.rights))),
        // The object, not 0, does not exist in the partition.
        (14, c.object != 0 && object.is_none()),
        // Operations 1–6: the version is not the present one.
        (15, (1..=6).contains(&op) && partition.present_version(c.object).is_some_and(|v| v != c.version)),
        // Change 6: "Turned away: 32, after row 15, when the group's bytes are no such list;
        (32, group.is_some_and(|bytes| !is_list(bytes))),
        // 33, next, when the member is not in it;
        (33, group.is_some_and(|bytes| !lists(bytes, r.member))),
        // 34, next, when the member does not exist."
        (34, frame.is_through_a_group() && target.is_none()),
        // Operations 1, 2: not (first ≤ A and A + B ≤ end).
        (16, reads_or_writes && !(c.first <= r.a && a_plus_b <= c.end as u64)),
        // Operations 1, 2: A + B is over the size.
        (17, reads_or_writes && target.is_some_and(|o| a_plus_b > o.size as u64)),
        // Create: the number is taken.
        (18, op == CREATE && partition.find(r.a).is_some()),
        // Create: 16 objects exist.
        (19, op == CREATE && partition.objects.len() >= MOST_OBJECTS),
        // Create: no gap has B bytes. Change 3: "Row 20 is met exactly when no gap fits."
        (20, op == CREATE && chosen_start(drive.quarter(), &areas(&partition.objects), r.b).is_none()),
        // Operations 4, 5: the partition has given version 4,294,967,295.
        (21, (op == RAISE || op == CREATE) && partition.last_given == u32::MAX),
        // Change 5: "Turned away: 31, after row 21, when the table is not good."
        (31, op == LOAD && !good_data(data)),
        // The memory holds 64 entries; here and in row 12 outlived entries have gone first.
        (22, memory.len() >= MOST_ENTRIES),
        // The reply space is too short.
        (23, (space as u64) < r.reply_length()),
    ];
    rows.into_iter().filter(|(_, applies)| *applies).map(|(row, _)| row).collect()
}

/// What a grant does. No row applies, so every field is within its values.
fn grant(drive: &mut Drive, medium: &mut [u8], frame: &Frame) -> Vec<u8> {
    let c = &frame.c;
    let signing_key = drive.key(c.slot, c.partition).unwrap();
    let result = match frame.r.operation {
        READ | WRITE | LOOK => reach(drive, medium, frame),
        RAISE | CREATE | DELETE => change(drive, medium, frame),
        _ => rule(drive, frame, &signing_key),
    };
    // "A grant enters (slot, holder, T, count)." Change 2: "Each memory entry, and so row 12's nonce, has the credential's object
    // too."
    drive.memory_mut(c.slot, c.partition).push(Nonce::of(c, &frame.r));
    reply(frame, &result, &frame.credential_key(&signing_key))
}

/// Operations 1 to 3, on the credential's object. Change 6: or on the member.
fn reach(drive: &Drive, medium: &mut [u8], frame: &Frame) -> Vec<u8> {
    let (p, r, number) = (frame.c.partition as usize, &frame.r, frame.target());
    let partition = &drive.partitions[p];
    let from = partition.find(number).map_or(0, |o| drive.place(p, o.start)) + r.a as usize;
    match r.operation {
        // "Read: A offset, B length, both within the object; result the B bytes."
        READ => medium[from..from + r.b as usize].to_vec(),
        // "Write: A offset, B = n .. Result empty."
        WRITE => {
            medium[from..from + r.b as usize].copy_from_slice(frame.data);
            vec![]
        }
        // "Look: result size (the quarter's for object 0) and version, four bytes each."
        _ => {
            let size = partition.find(number).map_or(drive.quarter(), |o| o.size);
            [size.to_be_bytes(), partition.present_version(number).unwrap().to_be_bytes()].concat()
        }
    }
}

/// Operations 4 to 6.
fn change(drive: &mut Drive, medium: &mut [u8], frame: &Frame) -> Vec<u8> {
    let (c, r) = (&frame.c, &frame.r);
    let p = c.partition as usize;
    match r.operation {
        // "Raise: object or partition gets the next version; result that version in four bytes."
        RAISE => {
            let partition = &mut drive.partitions[p];
            partition.last_given += 1;
            match partition.objects.iter_mut().find(|o| o.number == c.object) {
                Some(object) => object.version = partition.last_given,
                None => partition.version = partition.last_given,
            }
            partition.last_given.to_be_bytes().to_vec()
        }
        // "Create, on object 0: A new number, B size .. The area .. is zeroed. It gets the next version; result that version
        // in four bytes."
        CREATE => {
            let start = chosen_start(drive.quarter(), &areas(&drive.partitions[p].objects), r.b).unwrap();
            let from = drive.place(p, start);
            medium[from..from + r.b as usize].fill(0);
            let partition = &mut drive.partitions[p];
            partition.last_given += 1;
            partition.objects.push(Object { number: r.a, version: partition.last_given, start, size: r.b });
            partition.last_given.to_be_bytes().to_vec()
        }
        // "Delete: the object goes; its bytes are free again. Result empty."
        _ => {
            drive.partitions[p].objects.retain(|o| o.number != c.object);
            vec![]
        }
    }
}

/// Operations 7 and 8.
fn rule(drive: &mut Drive, frame: &Frame, signing_key: &Key) -> Vec<u8> {
    let (c, a) = (&frame.c, frame.r.a as usize);
    let p = c.partition as usize;
    // "New key = HMAC(key in the signing slot, request and seed)."
    let new_key = Some(hmac(signing_key, &[frame.request, frame.data].concat()));
    match (frame.r.operation, c.slot) {
        // Change 5: "Operation 8 .. loads [the partition's table] from 21 data bytes"; "empty result".
        (LOAD, _) => drive.partitions[p].table = Table::read(frame.data),
        // "Set key: data is a 16-byte seed. Slot 4 sets the drive key, slot 3 partition A's key, slot 2 working key A (0 or
        // 1). .. Result empty; lower keys keep their values."
        (_, 4) => drive.drive = new_key,
        (_, 3) => drive.partitions[a].key = new_key,
        _ => drive.partitions[p].working[a] = new_key,
    }
    vec![]
}

/// "Reply: mark 4C 41, operation, level, result length (four bytes), result; at level 2, then HMAC under the credential key over
/// credential, request, those 8 bytes and result."
fn reply(frame: &Frame, result: &[u8], credential_key: &Digest) -> Vec<u8> {
    let mut reply = REPLY_MARK.to_vec();
    reply.extend([frame.r.operation, frame.r.level]);
    reply.extend((result.len() as u32).to_be_bytes());
    reply.extend(result);
    if frame.r.level == 2 {
        let digest = hmac(credential_key, &[frame.credential, frame.request, &reply].concat());
        reply.extend(digest);
    }
    reply
}

#[cfg(test)]
pub(crate) mod tests {
    use super::*;
    use crate::client::{build, issue};

    /// A drive of one 100 byte quarter after another, with black key of partition 0 set by hand and one object.
    pub(crate) fn drive() -> (Drive, Vec<u8>) {
        let mut medium = vec![0; 400];
        let (row, mut drive) = format(&mut medium, 1, &[0; 32], &[1; 32]);
        assert_eq!(row, 0);
        drive.partitions[0].working[0] = Some([5; 32]);
        drive.partitions[0].last_given = 2;
        drive.partitions[0].objects.push(Object { number: 9, version: 2, start: 30, size: 40 });
        (drive, medium)
    }

    pub(crate) fn credential() -> Credential {
        Credential {
            mark: CREDENTIAL_MARK,
            partition: 0,
            slot: 0,
            object: 9,
            version: 2,
            rights: 0x7f,
            least: 0,
            zero: 0,
            first: 0,
            end: 100,
            expiry: u64::MAX,
            holder: 1,
        }
    }

    pub(crate) fn request(operation: u8, a: u32, b: u32) -> Request {
        let n = match operation {
            WRITE => b,
            SET_KEY => 16,
            LOAD => 21,
            _ => 0,
        };
        Request { mark: REQUEST_MARK, operation, level: 2, time: 10_000, count: 0, a, b, n, member: 0 }
    }

    pub(crate) fn frame(c: &Credential, r: &Request, data: &[u8]) -> Vec<u8> {
        frame_under(&[5; 32], c, r, data)
    }

    pub(crate) fn frame_under(key: &Key, c: &Credential, r: &Request, data: &[u8]) -> Vec<u8> {
        let mut record = [0; 36];
        let (row, key) = issue(key, c, &mut record);
        assert_eq!(row, 0);
        let length = r.frame_length() as usize;
        let mut space = vec![0; length];
        assert_eq!(build(&record, &r.bytes(), data, &key, &mut space), (0, length));
        space
    }

    fn row_of(c: &Credential, r: &Request) -> u8 {
        let (mut drive, mut medium) = drive();
        gate(&mut drive, &mut medium, &frame(c, r, &vec![7; r.n as usize]), 10_000, &mut [0; 200]).0
    }

    /// "mark 10,000: T = 5,000 and 15,000 pass row 11; 4,999 and 15,001 do not".
    #[test]
    fn table_of_cases_row_11() {
        let at = |time| row_of(&credential(), &Request { time, ..request(LOOK, 0, 0) });
        assert_eq!([at(5_000), at(15_000), at(4_999), at(15_001)], [0, 0, 11, 11]);
    }

    /// "mark 10,000: expiry 10,000 passes row 10, 9,999 does not".
    #[test]
    fn table_of_cases_row_10() {
        let at = |expiry| row_of(&Credential { expiry, ..credential() }, &request(LOOK, 0, 0));
        assert_eq!([at(10_000), at(9_999)], [0, 10]);
    }

    /// "first 8, end 16: (A, B) = (8, 8), (16, 0) pass row 16; (8, 9), (17, 0) do not".
    #[test]
    fn table_of_cases_row_16() {
        let c = Credential { first: 8, end: 16, ..credential() };
        for op in [READ, WRITE] {
            let at = |a, b| row_of(&c, &request(op, a, b));
            assert_eq!([at(8, 8), at(16, 0), at(8, 9), at(17, 0)], [0, 0, 16, 16]);
        }
    }

    /// "Forgetting a nonce when T + 5,000 equals the mark: the frame passes again."
    #[test]
    fn nonce_at_the_edge() {
        let (mut drive, mut medium) = drive();
        let f = frame(&credential(), &request(LOOK, 0, 0), &[]);
        let mut put = |clock| gate(&mut drive, &mut medium, &f, clock, &mut [0; 200]).0;
        assert_eq!([put(10_000), put(10_000), put(15_000), put(15_001)], [0, 12, 12, 11]);
    }

    /// The drive with a second object for a second head, and frames that differ in little but the object.
    struct Heads {
        drive: Drive,
        medium: Vec<u8>,
    }

    impl Heads {
        fn new() -> Heads {
            let (mut drive, medium) = drive();
            drive.partitions[0].last_given = 3;
            drive.partitions[0].objects.push(Object { number: 5, version: 3, start: 0, size: 30 });
            Heads { drive, medium }
        }

        fn put(&mut self, frame: &[u8], clock: u64) -> u8 {
            gate(&mut self.drive, &mut self.medium, frame, clock, &mut [0; 200]).0
        }

        /// A request on an object, or on the partition.
        fn ask(&mut self, object: u32, r: &Request, clock: u64) -> u8 {
            let version = self.drive.partitions[0].present_version(object).unwrap();
            let c = Credential { object, version, ..credential() };
            self.put(&frame(&c, r, &vec![7; r.n as usize]), clock)
        }

        /// Looks of this time, with count 0: the row of each.
        fn looks<const N: usize>(&mut self, objects: [u32; N], time: u64, clock: u64) -> [u8; N] {
            objects.map(|object| self.ask(object, &Request { time, ..request(LOOK, 0, 0) }, clock))
        }

        /// Object and time of each entry of partition 0, in order.
        fn entries(&self) -> Vec<(u32, u64)> {
            self.drive.partitions[0].memory.iter().map(|e| (e.object, e.time)).collect()
        }
    }

    /// Change 2: "Two heads now run as one holder, each counting from zero, so frames for two objects pass for repeats." They no
    /// longer do; a second frame for the same object does, whatever it asks and whatever version it has.
    #[test]
    fn two_heads_under_one_holder_number() {
        let mut heads = Heads::new();
        assert_eq!(heads.looks([9, 5, 9, 5], 10_000, 10_000), [0, 0, 12, 12]);
        assert_eq!(heads.entries(), [(9, 10_000), (5, 10_000)]);
        assert_eq!(heads.ask(9, &request(WRITE, 0, 3), 10_000), 12);
        let raise = Request { count: 1, ..request(RAISE, 0, 0) };
        assert_eq!([heads.ask(9, &raise, 10_000), heads.ask(5, &raise, 10_000)], [0, 0]);
        assert_eq!(heads.looks([9, 5], 10_000, 10_000), [12, 12]);
    }

    /// Row 12 comes before row 14, and a recreated object is the same object here.
    #[test]
    fn an_object_that_went_is_still_in_its_entry() {
        let mut heads = Heads::new();
        assert_eq!(heads.looks([9], 10_000, 10_000), [0]);
        assert_eq!(heads.ask(9, &Request { count: 1, ..request(DELETE, 0, 0) }, 10_000), 0);
        let look = |object| frame(&Credential { object, ..credential() }, &request(LOOK, 0, 0), &[]);
        assert_eq!([heads.put(&look(9), 10_000), heads.put(&look(8), 10_000)], [12, 14]);
        assert_eq!(heads.ask(0, &Request { count: 2, ..request(CREATE, 9, 4) }, 10_000), 0);
        assert_eq!(heads.ask(9, &request(LOOK, 0, 0), 10_000), 12);
        assert_eq!(heads.ask(9, &Request { count: 2, ..request(LOOK, 0, 0) }, 10_000), 0);
    }

    /// The partition is object 0: a nonce of its own beside each object's, one for all that is asked of the partition.
    #[test]
    fn the_partition_beside_an_object() {
        let mut heads = Heads::new();
        assert_eq!(heads.ask(0, &request(RAISE, 0, 0), 10_000), 0);
        assert_eq!(heads.looks([5, 0, 9, 5], 10_000, 10_000), [0, 12, 0, 12]);
        assert_eq!(heads.ask(0, &request(CREATE, 7, 4), 10_000), 12);
        assert_eq!(heads.entries(), [(0, 10_000), (5, 10_000), (9, 10_000)]);
    }

    /// Two partitions are two memories, whatever the object.
    #[test]
    fn the_same_object_number_in_two_partitions() {
        let mut heads = Heads::new();
        let mut other = heads.drive.partitions[0].clone();
        other.working[0] = Some([5; 32]);
        heads.drive.partitions[2] = other;
        let look = frame(&Credential { partition: 2, ..credential() }, &request(LOOK, 0, 0), &[]);
        assert_eq!(heads.looks([9, 5], 10_000, 10_000), [0, 0]);
        assert_eq!([heads.put(&look, 10_000), heads.put(&look, 10_000)], [0, 12]);
        assert_eq!(heads.drive.partitions[2].memory.len(), 1);
    }

    /// Frames of slots 2 to 4 are on object 0: what they set is no part of the nonce, and the slot is.
    #[test]
    fn slots_over_1_have_object_0() {
        let mut heads = Heads::new();
        heads.drive.partitions[0].key = Some([6; 32]);
        let mut set = |slot: u8, a| {
            let c = Credential { slot, object: 0, version: 0, ..credential() };
            let key = [[6; 32], [1; 32], [0; 32]][slot as usize - 2];
            let row = heads.put(&frame_under(&key, &c, &request(SET_KEY, a, 0), &[7; 16]), 10_000);
            let memory = heads.drive.memory(slot, 0).unwrap();
            assert!(memory.iter().all(|e| e.object == 0));
            (row, memory.len())
        };
        assert_eq!([set(3, 1), set(3, 2), set(4, 0)], [(0, 1), (12, 1), (0, 2)]);
        assert_eq!([set(2, 1), set(2, 0)], [(0, 1), (12, 1)]);
        assert_eq!(heads.looks([0, 9], 10_000, 10_000), [0, 0]);
    }

    /// Entries go, and those that stay keep their objects.
    #[test]
    fn outlived_entries_leave_the_objects_of_the_others() {
        let mut heads = Heads::new();
        assert_eq!(heads.looks([0], 6_000, 10_000), [0]);
        assert_eq!(heads.looks([9], 9_000, 10_000), [0]);
        assert_eq!(heads.looks([0], 7_000, 10_000), [0]);
        assert_eq!(heads.looks([5], 9_000, 10_000), [0]);
        assert_eq!(heads.looks([9, 5, 0], 6_000, 11_000), [0, 0, 12]);
        assert_eq!(heads.put(&[], 12_001), 2);
        assert_eq!(heads.entries(), [(9, 9_000), (5, 9_000)]);
        assert_eq!(heads.looks([9, 5, 0, 0], 9_000, 14_000), [12, 12, 0, 12]);
        assert_eq!(heads.looks([9, 5, 0], 9_000, 14_001), [11, 11, 11]);
        assert_eq!(heads.entries(), []);
    }

    /// Row 22's 64 are entries, also where they differ in nothing but the object.
    #[test]
    fn a_memory_full_of_one_count() {
        let mut heads = Heads::new();
        let entry = |object| Nonce { object, ..Nonce::of(&credential(), &request(LOOK, 0, 0)) };
        heads.drive.partitions[0].memory = (10..73).map(entry).collect();
        assert_eq!(heads.looks([9, 5, 9], 10_000, 10_000), [0, 22, 12]);
        assert_eq!(heads.drive.partitions[0].memory.len(), MOST_ENTRIES);
        assert_eq!(heads.looks([5], 15_001, 15_001), [0]);
    }

    /// Change 3: "a new area now starts at a multiple of 16 from the quarter's start". Partition 1 starts at byte 100 of the medium, and
    /// its gaps are 0–29 and 70–99.
    #[test]
    fn new_areas_start_on_steps_of_the_quarter() {
        let (mut drive, mut medium) = drive();
        drive.partitions[1] = drive.partitions[0].clone();
        medium.fill(7);
        let c = Credential { partition: 1, object: 0, version: 1, ..credential() };
        let mut create = |number, b| {
            let r = Request { count: b, ..request(CREATE, number, b) };
            gate(&mut drive, &mut medium, &frame(&c, &r, &[]), 10_000, &mut [0; 200]).0
        };
        assert_eq!([create(1, 31), create(1, 10)], [20, 0]); // 0–9, the lower of two gaps of 30 bytes
        assert_eq!([create(2, 15), create(3, 14)], [0, 0]); // 80–94, since 10–29 has 20 bytes and 14 from byte 16 on; 16–29
        assert_eq!([create(4, 6), create(4, 5), create(4, 4)], [20, 20, 0]); // 70–79 has 10 bytes, 95–99 has 5; 96–99
        assert_eq!(create(5, 1), 20); // 17 bytes are free
        let starts: Vec<(u32, u32)> = drive.partitions[1].objects.iter().map(|o| (o.number, o.start)).collect();
        assert_eq!(starts, [(9, 30), (1, 0), (2, 80), (3, 16), (4, 96)]);
        let zeroed: Vec<usize> = (0..medium.len()).filter(|at| medium[*at] == 0).collect();
        assert_eq!(zeroed, [100..110, 116..130, 180..195, 196..200].map(|area| area.collect::<Vec<usize>>()).concat());
    }

    #[test]
    fn row_1_leaves_the_mark() {
        let (mut drive, mut medium) = drive();
        let before = drive.clone();
        assert_eq!(gate(&mut drive, &mut medium[..399], &[], 5, &mut []), (1, 0));
        assert_eq!(drive, before);
        drive.partitions[0].objects[0].number = 0;
        let before = drive.clone();
        assert_eq!(gate(&mut drive, &mut medium, &[], 5, &mut []), (1, 0));
        assert_eq!(drive, before);
    }

    #[test]
    fn a_write_is_read_back() {
        let (mut drive, mut medium) = drive();
        let mut space = [9; 60];
        let mut put = |r: &Request, data: &[u8], medium: &mut Vec<u8>| {
            gate(&mut drive, medium, &frame(&credential(), r, data), 10_000, &mut space)
        };
        assert_eq!(put(&request(WRITE, 2, 3), &[1, 2, 3], &mut medium), (0, 40));
        let read = Request { level: 1, count: 1, ..request(READ, 1, 5) };
        assert_eq!(put(&read, &[], &mut medium), (0, 13));
        assert_eq!(space[..13], [0x4c, 0x41, 1, 1, 0, 0, 0, 5, 0, 1, 2, 3, 0]);
        assert_eq!(medium[31..37], [0, 1, 2, 3, 0, 0]);
    }
}
