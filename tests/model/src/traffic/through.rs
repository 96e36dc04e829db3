//! What calls meet of change 6, so that the tests can ask for it.

use super::trail::{Past, Told, Trail};
use crate::drive::{Drive, Nonce, Object};
use crate::frame::Frame;
use crate::group::*;
use crate::records::*;

/// Grants through a group, in the order of [`Through::granted`].
pub const GRANTS: [&str; 6] = [
    "reads granted through a group",
    "writes granted through a group",
    "looks granted through a group",
    "grants through a group at level 0",
    "grants through a group at level 1",
    "grants through a group at level 2",
];

/// What is counted of other frames that go through a group, in the order of [`Through::met`].
pub const FORMS: [&str; 15] = [
    "row 4 of a group's frame",
    "row 5 of a group's frame of 96 bytes",
    "row 5 of a group's frame of 97 bytes",
    "row 5 of a group's frame of 98 bytes",
    "row 5 of a group's frame of 99 bytes",
    "row 5 of a group's frame of over 99 bytes that ends too early",
    "row 5 of a group's frame that ends too late",
    "row 7 of a group's frame",
    "row 8 of a group's frame",
    "row 9 of a group's frame",
    "rows 10 and 11 of a group's frame",
    "row 12 of a group's frame",
    "rows 13 and 14 of a group's frame",
    "row 17 of a group's frame",
    "row 22 of a group's frame",
];

/// Frames of which row 6 refuses the form alone, in the order of [`Through::met_by_its_form`].
pub const MISFITS: [&str; 9] = [
    "row 6 by bit 7 with mark 4C 52 alone",
    "row 6 by mark 4C 47 without bit 7 alone",
    "row 6 of a raise through a group alone",
    "row 6 of a delete through a group alone",
    "row 6 of a create through a group",
    "row 6 of a set key through a group",
    "row 6 of a load through a group",
    "row 6 of a look through object 0 alone",
    "row 6 of a group's frame by what misfits without a group too",
];

/// What may be wrong with a list, in the order of [`Through::met_by_a_list`]. Alone: nothing else is wrong with the list, and no other row
/// applies.
pub const FAULTS_OF_LISTS: [&str; 11] = [
    "row 32 by equal numbers alone",
    "row 32 by a number under the one before it alone",
    "row 32 by a list that starts with 0 alone",
    "row 32 by one byte behind the last number alone",
    "row 32 by two bytes behind the last number alone",
    "row 32 by three bytes behind the last number alone",
    "row 32 by a fault up to the member alone",
    "row 32 by a fault behind the member alone",
    "row 32 by a list of which the last bytes are zeros still",
    "row 32 by a group of zeros",
    "row 32 by a group of under four bytes",
];

/// What is counted of members, in the order of [`Through::met_by_a_member`].
pub const MEMBERS: [&str; 16] = [
    "row 33 of member 0",
    "row 33 of an object",
    "row 33 of what is no object",
    "row 33 of the group itself",
    "row 34 where another partition has the object",
    "row 34 of an object that was deleted",
    "row 34 of an object that never was",
    "grants through a group to a group",
    "grants through a group to itself",
    "writes granted through a group to its own list",
    "grants through a group to a member that other groups list too",
    "grants of a read or write past the group's size",
    "row 17 of a read or write within the group's size",
    "looks granted through a group of another size and another version",
    "grants to a member behind the sixteenth number of a list",
    "row 32 by a fault behind the sixteenth number of a list",
];

/// Behind so many numbers a list is long.
const MANY: usize = 16;

/// What is counted where a loaded table decides such a frame.
pub const FORMS_BY_A_TABLE: [&str; 2] =
    ["rows 7 and 13 of a group's frame by a loaded table", "grants through a group by a loaded table without document 01's right"];

/// A call that reads, writes or looks, or that has a group in one of its records; and what it found.
pub struct Through {
    pub c: Credential,
    pub r: Request,
    pub length: u64,    // of the frame
    pub rows: Vec<u8>,  // all that apply, in their order
    pub memory: Vec<(Nonce, Option<u32>)>, // entries that are its nonce but for the object; and their members, if through a group
    pub next_door: Vec<u32>, // objects of the other partitions
    pub(super) objects: Vec<(Object, Vec<u8>)>, // of its partition, with their bytes where one of the records is of a group
    pub(super) group_past: Past,
    pub(super) target_past: Past,
    pub(super) told: Told,
    pub(super) deleted: bool, // the member, once
}

impl Through {
    /// Of a frame that is about to be put to this drive, if it is one. Its rows are not known yet.
    pub fn of(drive: &Drive, medium: &[u8], trail: &Trail, frame: &[u8], clock: u64) -> Option<Through> {
        let frame = Frame::read(frame)?;
        let (p, c, r) = (frame.c.partition, &frame.c, &frame.r);
        let of_a_group = c.is_of_a_group() || r.is_of_a_group();
        let partition = drive.partitions.get(p as usize).filter(|_| of_a_group || (READ..=LOOK).contains(&r.operation))?;
        let (mark, nonce) = (drive.mark.max(clock) as u128, Nonce::of(c, r));
        let living = drive.memory(c.slot, p)?.iter().filter(|e| e.time as u128 + 5_000 >= mark);
        let alike = living.filter(|e| Nonce { object: nonce.object, ..(*e).clone() } == nonce);
        let bytes = |o: &Object| if of_a_group { drive.bytes(medium, p as usize, o).to_vec() } else { vec![] };
        let others = (0..4).filter(|q| *q != p).flat_map(|q| &drive.partitions[q as usize].objects);
        Some(Through {
            c: c.clone(),
            r: r.clone(),
            length: frame.length(),
            rows: vec![],
            memory: alike.map(|e| (e.clone(), trail.member_of(p, e))).collect(),
            next_door: others.map(|o| o.number).collect(),
            objects: partition.objects.iter().map(|o| (o.clone(), bytes(o))).collect(),
            group_past: trail.past(p, c.object),
            target_past: trail.past(p, frame.target()),
            told: trail.told(p, c.object, r.member),
            deleted: trail.was_deleted(p, r.member),
        })
    }

    /// With all the rows that apply to it.
    pub fn answered(self, rows: &[u8]) -> Through {
        Through { rows: rows.to_vec(), ..self }
    }

    pub fn row(&self) -> u8 {
        self.rows.first().copied().unwrap_or(0)
    }

    pub fn is_through_a_group(&self) -> bool {
        is_through_a_group(&self.c, &self.r)
    }

    pub fn target(&self) -> u32 {
        target(&self.c, &self.r)
    }

    pub fn object(&self, number: u32) -> Option<&Object> {
        self.objects.iter().map(|(o, _)| o).find(|o| o.number == number)
    }

    pub fn bytes(&self, number: u32) -> Option<&[u8]> {
        self.objects.iter().find(|(o, _)| o.number == number).map(|(_, bytes)| &bytes[..])
    }

    /// The bytes of the group that it goes through, if it does and the group is there.
    pub fn list(&self) -> Option<&[u8]> {
        self.bytes(self.c.object).filter(|_| self.is_through_a_group())
    }

    /// Which of [`GRANTS`] it is.
    pub fn granted(&self) -> [bool; GRANTS.len()] {
        let (granted, op, level) = (self.row() == 0 && self.is_through_a_group(), self.r.operation, self.r.level);
        [op == READ, op == WRITE, op == LOOK, level == 0, level == 1, level == 2].map(|met| met && granted)
    }

    /// Which of [`FORMS`] it met.
    pub fn met(&self) -> [bool; FORMS.len()] {
        let (row, due) = (self.row(), self.r.frame_length());
        if !self.is_through_a_group() {
            return [false; FORMS.len()];
        }
        let short = |length| row == 5 && self.length == length;
        [
            row == 4,
            short(96),
            short(97),
            short(98),
            short(99),
            row == 5 && self.length > 99 && self.length < due,
            row == 5 && self.length > due,
            row == 7,
            row == 8,
            row == 9,
            row == 10 || row == 11,
            row == 12,
            row == 13 || row == 14,
            row == 17,
            row == 22,
        ]
    }

    /// Which of [`MISFITS`] it met.
    pub fn met_by_its_form(&self) -> [bool; MISFITS.len()] {
        let (c, r) = (&self.c, &self.r);
        if self.row() != 6 {
            return [false; MISFITS.len()];
        }
        let straight = (Credential { rights: c.rights & !GROUP_BIT, ..c.clone() }, Request { mark: REQUEST_MARK, ..r.clone() });
        let alone = !row_6(&straight.0, &straight.1);
        let through = self.is_through_a_group();
        let over_3 = |op| through && alone && r.operation == op;
        [
            alone && c.is_of_a_group() && r.mark == REQUEST_MARK && r.operation <= LOOK && c.object != 0 && self.rows == [6],
            alone && !c.is_of_a_group() && r.is_of_a_group() && self.rows == [6],
            over_3(RAISE),
            over_3(DELETE),
            over_3(CREATE),
            over_3(SET_KEY),
            over_3(LOAD),
            over_3(LOOK) && c.object == 0,
            through && !alone,
        ]
    }

    /// Which of [`FAULTS_OF_LISTS`] it met.
    pub fn met_by_a_list(&self) -> [bool; FAULTS_OF_LISTS.len()] {
        let Some(list) = self.list().filter(|_| self.row() == 32) else { return [false; FAULTS_OF_LISTS.len()] };
        let faults = faults(list);
        let only = faults[0];
        let alone = faults.len() == 1 && self.rows == [32];
        let member = numbers(list).position(|number| number == self.r.member).unwrap_or(0);
        let over = |bytes| alone && only.0 == Fault::OtherBytes && list.len() % NUMBER_BYTES == bytes;
        let written: Vec<u32> = numbers(list).take_while(|number| *number != 0).collect();
        let rest = &list[written.len() * NUMBER_BYTES..];
        [
            alone && only.0 == Fault::Equal,
            alone && only.0 == Fault::Falling,
            alone && only.0 == Fault::Zero,
            over(1),
            over(2),
            over(3),
            alone && only.1 <= member,
            alone && only.1 > member,
            !written.is_empty() && is_list(&bytes_of(&written)) && rest.len() >= NUMBER_BYTES && rest.iter().all(|byte| *byte == 0),
            list.iter().all(|byte| *byte == 0),
            list.len() < NUMBER_BYTES,
        ]
    }

    /// Which of [`MEMBERS`] it met.
    pub fn met_by_a_member(&self) -> [bool; MEMBERS.len()] {
        let Some(list) = self.list() else { return [false; MEMBERS.len()] };
        let (row, number, op) = (self.row(), self.r.member, self.r.operation);
        let (member, granted, end) = (self.object(number), row == 0, self.r.a as u64 + self.r.b as u64);
        let group = self.object(self.c.object).unwrap();
        let others = self.objects.iter().filter(|(o, bytes)| o.number != group.number && is_list(bytes) && lists(bytes, number));
        [
            row == 33 && number == 0,
            row == 33 && member.is_some(),
            row == 33 && member.is_none() && number != 0,
            row == 33 && number == group.number,
            row == 34 && self.next_door.contains(&number),
            row == 34 && self.deleted,
            row == 34 && !self.deleted,
            granted && number != group.number && self.bytes(number).is_some_and(is_list),
            granted && number == group.number,
            granted && number == group.number && op == WRITE && self.r.b > 0,
            granted && others.count() > 0,
            granted && op != LOOK && end > list.len() as u64,
            row == 17 && end <= list.len() as u64,
            granted && op == LOOK && member.is_some_and(|o| o.size != group.size && o.version != group.version),
            granted && numbers(list).position(|n| n == number).is_some_and(|at| at >= MANY),
            row == 32 && faults(list).iter().all(|(_, at)| *at >= MANY),
        ]
    }

}

#[derive(Clone, Copy, Debug, PartialEq, Eq)]
enum Fault {
    Equal,
    Falling,
    Zero,
    OtherBytes,
}

/// All that is wrong with bytes that are no list, each with the place of the number that is.
fn faults(bytes: &[u8]) -> Vec<(Fault, usize)> {
    let all: Vec<u32> = numbers(bytes).collect();
    let mut found = vec![];
    for (at, number) in all.iter().enumerate() {
        let before = if at == 0 { 0 } else { all[at - 1] };
        match (at, number.cmp(&before)) {
            (0, std::cmp::Ordering::Equal) => found.push((Fault::Zero, 0)),
            (_, std::cmp::Ordering::Equal) => found.push((Fault::Equal, at)),
            (_, std::cmp::Ordering::Less) => found.push((Fault::Falling, at)),
            _ => {}
        }
    }
    if bytes.len() % NUMBER_BYTES != 0 {
        found.push((Fault::OtherBytes, all.len()));
    }
    found
}

#[cfg(test)]
pub mod tests {
    use super::*;
    use crate::gate::tests::{credential, request};

    pub const GROUP: u32 = 5; // of version 2
    pub const LOG: u32 = 9; // of 40 bytes and version 3

    /// A call for a member of GROUP, which holds these bytes beside LOG; all these rows apply.
    pub fn call(list: &[u8], member: u32, operation: u8, rows: &[u8]) -> Through {
        let object = |number, version, size| Object { number, version, start: 0, size };
        let r = Request { mark: GROUP_MARK, member, ..request(operation, 0, if operation == LOOK { 0 } else { 2 }) };
        Through {
            c: Credential { object: GROUP, rights: 0xff, ..credential() },
            length: r.frame_length(),
            r,
            rows: rows.to_vec(),
            memory: vec![],
            next_door: vec![],
            objects: vec![(object(GROUP, 2, list.len() as u32), list.to_vec()), (object(LOG, 3, 40), vec![0; 40])],
            group_past: Past::default(),
            target_past: Past::default(),
            told: Told::default(),
            deleted: false,
        }
    }

    /// The same with a good list of GROUP, LOG and an object that is missing.
    pub fn listed(member: u32, operation: u8, rows: &[u8]) -> Through {
        call(&bytes_of(&[GROUP, LOG, 77]), member, operation, rows)
    }

    /// Under the object's own credential.
    pub fn own(object: u32, operation: u8, rows: &[u8]) -> Through {
        let call = listed(0, operation, rows);
        Through {
            c: Credential { object, rights: 0x7f, ..call.c.clone() },
            r: Request { mark: REQUEST_MARK, ..call.r.clone() },
            length: call.length - 4,
            ..call
        }
    }

    impl Through {
        /// With an object of these bytes, in the place of the one of its number.
        pub fn put(&mut self, number: u32, bytes: &[u8]) {
            self.objects.retain(|(o, _)| o.number != number);
            self.objects.push((Object { number, version: 3, start: 0, size: bytes.len() as u32 }, bytes.to_vec()));
        }
    }

    pub fn places<const N: usize>(all: [bool; N]) -> Vec<usize> {
        (0..N).filter(|i| all[*i]).collect()
    }

    #[test]
    fn grants_and_their_levels() {
        let granted = |operation, level| {
            let call = listed(LOG, operation, &[]);
            places(Through { r: Request { level, ..call.r.clone() }, ..call }.granted())
        };
        assert_eq!([granted(READ, 0), granted(WRITE, 1), granted(LOOK, 2)], [[0, 3], [1, 4], [2, 5]]);
        assert_eq!([places(listed(LOG, READ, &[17]).granted()), places(own(LOG, READ, &[]).granted())], [[]; 2]);
    }

    #[test]
    fn rows_of_frames() {
        let met = |length, rows: &[u8]| places(Through { length, ..listed(LOG, LOOK, rows) }.met());
        assert_eq!([96, 97, 98, 99].map(|length| met(length, &[5, 9])), [[1], [2], [3], [4]]);
        assert_eq!([met(101, &[5]), met(100, &[5]), met(100, &[])], [vec![6], vec![], vec![]]);
        let write = |length| places(Through { length, ..listed(LOG, WRITE, &[5]) }.met());
        assert_eq!([write(100), write(101), write(103), write(96)], [[5], [5], [6], [1]]);
        assert_eq!([4, 7, 8, 9, 10, 11, 12, 13, 14, 17, 22].map(|row| met(100, &[row])[0]), [0, 7, 8, 9, 10, 10, 11, 12, 12, 13, 14]);
        assert_eq!(places(own(LOG, LOOK, &[9]).met()), []);
    }

    #[test]
    fn forms_that_misfit() {
        let met = |rights, mark, operation, object, rows: &[u8]| {
            let call = listed(LOG, LOOK, rows);
            let a = (operation == CREATE) as u32;
            let c = Credential { rights, object, slot: if operation > DELETE { 2 } else { 0 }, version: 0, ..call.c.clone() };
            places(Through { c, r: Request { mark, operation, a, b: a, ..call.r.clone() }, ..call }.met_by_its_form())
        };
        assert_eq!([met(0xff, REQUEST_MARK, LOOK, GROUP, &[6]), met(0x7f, GROUP_MARK, LOOK, GROUP, &[6])], [[0], [1]]);
        assert_eq!([met(0xff, REQUEST_MARK, LOOK, GROUP, &[6, 9]), met(0x7f, GROUP_MARK, LOOK, GROUP, &[6, 9])], [[]; 2]);
        assert_eq!([RAISE, DELETE].map(|operation| met(0xff, GROUP_MARK, operation, GROUP, &[6])), [[2], [3]]);
        assert_eq!([CREATE, SET_KEY, LOAD, LOOK].map(|operation| met(0xff, GROUP_MARK, operation, 0, &[6])), [[4], [5], [6], [7]]);
        assert_eq!([met(0xff, GROUP_MARK, READ, 0, &[6]), met(0xff, GROUP_MARK, CREATE, GROUP, &[6])], [[8], [8]]);
        assert_eq!(met(0xff, GROUP_MARK, RAISE, GROUP, &[5, 6]), []);
    }

    #[test]
    fn what_is_wrong_with_a_list() {
        let met = |list: &[u32], more: usize, rows: &[u8]| {
            let bytes = [bytes_of(list), vec![1; more]].concat();
            places(call(&bytes, LOG, LOOK, rows).met_by_a_list())
        };
        assert_eq!([met(&[LOG, LOG], 0, &[32]), met(&[3, 3, LOG], 0, &[32]), met(&[LOG, 11, 11], 0, &[32])], [[0, 7], [0, 6], [0, 7]]);
        assert_eq!([met(&[LOG, 8], 0, &[32]), met(&[10, LOG, 11], 0, &[32]), met(&[0, LOG], 0, &[32])], [[1, 7], [1, 6], [2, 6]]);
        assert_eq!([1, 2, 3].map(|more| met(&[3, LOG], more, &[32])), [[3, 7], [4, 7], [5, 7]]);
        assert_eq!([met(&[LOG, LOG], 0, &[32, 16]), met(&[LOG, LOG], 0, &[15, 32]), met(&[LOG, LOG, 8], 0, &[32])], [[]; 3]);
        assert_eq!([met(&[LOG, 0], 0, &[32]), met(&[3, LOG, 0, 0], 0, &[32])], [vec![1, 7, 8], vec![8]]);
        assert_eq!(met(&[LOG, 0, 8], 0, &[32]), [1, 7]);
        assert_eq!([met(&[0], 0, &[32, 33]), met(&[0, 0], 0, &[32, 33]), met(&[], 3, &[32, 33])], [[9], [9], [10]]);
        assert_eq!(met(&[3, LOG], 0, &[]), []);
    }

    #[test]
    fn members_and_objects() {
        let met = |member, operation, rows: &[u8]| places(listed(member, operation, rows).met_by_a_member());
        assert_eq!([met(0, LOOK, &[33, 34]), met(8, LOOK, &[33, 34]), met(LOG, LOOK, &[33])], [[0], [2], [1]]);
        assert_eq!([met(GROUP, LOOK, &[33]), met(77, LOOK, &[34]), met(77, LOOK, &[15, 34])], [vec![1, 3], vec![6], vec![]]);
        let gone = Through { deleted: true, next_door: vec![77], ..listed(77, LOOK, &[34]) };
        assert_eq!(places(gone.met_by_a_member()), [4, 5]);
        assert_eq!([met(GROUP, READ, &[]), met(GROUP, WRITE, &[])], [vec![8], vec![8, 9]]);
        assert_eq!([met(LOG, READ, &[]), met(LOG, LOOK, &[])], [vec![], vec![13]]);
        let end = |a, rows: &[u8]| {
            let call = listed(LOG, READ, rows);
            places(Through { r: Request { a, ..call.r.clone() }, ..call }.met_by_a_member())
        };
        assert_eq!([end(10, &[]), end(11, &[]), end(10, &[17]), end(11, &[17])], [vec![], vec![11], vec![12], vec![]]);
        let many: Vec<u32> = (10..40).collect();
        let long = |change: fn(&mut Vec<u32>), member, rows: &[u8]| {
            let mut list = many.clone();
            change(&mut list);
            let met = places(call(&bytes_of(&list), member, LOOK, rows).met_by_a_member());
            met.into_iter().filter(|place| *place >= 14).collect::<Vec<usize>>()
        };
        assert_eq!([long(|_| {}, 25, &[]), long(|_| {}, 26, &[]), long(|_| {}, 26, &[15])], [vec![], vec![14], vec![]]);
        assert_eq!([long(|l| l[16] = 25, 25, &[32]), long(|l| l[15] = 24, 25, &[32])], [vec![15], vec![]]);
        let mut other = listed(LOG, READ, &[]);
        other.objects.push((Object { number: 3, version: 1, start: 0, size: 4 }, bytes_of(&[LOG])));
        assert_eq!(places(other.met_by_a_member()), [10]);
        let through = Through { r: Request { member: 3, ..other.r.clone() }, ..other };
        assert_eq!(places(through.met_by_a_member()), [7]);
    }
}
