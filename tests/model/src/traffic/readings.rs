//! Drives that misread change 6, and the rows that they would answer: each must be told from a right one by some calls.

use super::through::Through;
use crate::drive::Nonce;
use crate::group::*;
use crate::records::*;

/// A misreading. By it a call that has a group in one of its records is answered by `row`.
pub struct Reading {
    pub what: &'static str,
    row: fn(&Through) -> u8,
}

/// The order of the rows: "32, after row 15 .. 33, next .. 34, next"; "31, after row 21".
const ORDER: [u8; 27] = [1, 2, 3, 4, 5, 6, 7, 8, 9, 10, 11, 12, 13, 14, 15, 32, 33, 34, 16, 17, 18, 19, 20, 21, 31, 22, 23];

const GROUP_ROWS: [u8; 3] = [32, 33, 34];

const fn reading(what: &'static str, row: fn(&Through) -> u8) -> Reading {
    Reading { what, row }
}

pub const READINGS: [Reading; 29] = [
    reading("equal numbers were allowed in a list", |t| t.by_a_list(equal_allowed)),
    reading("falling numbers were allowed in a list", |t| t.by_a_list(falling_allowed)),
    reading("a list might start with 0", |t| t.by_a_list(zero_allowed)),
    reading("a list might have bytes behind its last whole number", |t| t.by_a_list(other_bytes_allowed)),
    reading("a list were read up to the member only", up_to_the_member),
    reading("the numbers of a list had their lowest byte first", lowest_byte_first),
    reading("numbers over 31 bits were under 0", |t| t.by_a_list(signed)),
    reading("the member's own bytes were the list", by_the_members_bytes),
    reading("the lists of groups that are listed counted too", followed),
    reading("a member might stand at any byte of the list", at_any_byte),
    reading("a member might be another partition's object", next_door),
    reading("the member stood four bytes earlier, where n is", four_bytes_early),
    reading("row 34 came before row 33", |t| t.sooner(34, &[33])),
    reading("row 16 came before row 32", |t| t.sooner(16, &GROUP_ROWS)),
    reading("row 17 came before row 32", |t| t.sooner(17, &GROUP_ROWS)),
    reading("row 15 came behind row 34", |t| t.behind_34(15)),
    reading("row 13 came behind row 34", |t| t.behind_34(13)),
    reading("row 12 came behind row 34", |t| t.behind_34(12)),
    reading("row 22 came before row 32", |t| t.sooner(22, &GROUP_ROWS)),
    reading("the size were the group's", by_the_groups_size),
    reading("the version were the member's", by_the_members_version),
    reading("the nonce's object were the member", nonce_of_the_member),
    reading("the nonce had the member too", nonce_of_both),
    reading("bit 7 meant nothing with mark 4C 52", bit_7_ignored),
    reading("mark 4C 47 were enough without bit 7", mark_alone),
    reading("a group's frame had 96 + n bytes", length_without_the_member),
    reading("operations over 3 went through a group too", operations_over_3),
    reading("a group might be the partition", group_of_the_partition),
    reading("row 2 asked for 100 bytes of a group's frame", row_2_of_100),
];

impl Through {
    /// Which of [`READINGS`] would answer the call otherwise.
    pub fn told_apart(&self) -> [bool; READINGS.len()] {
        READINGS.each_ref().map(|reading| (reading.row)(self) != self.row())
    }

    /// The row, if some rows applied by these judgements instead.
    fn instead(&self, judged: &[(u8, bool)]) -> u8 {
        let others = self.rows.iter().copied().filter(|row| judged.iter().all(|(other, _)| other != row));
        let rows: Vec<u8> = others.chain(judged.iter().filter(|(_, applies)| *applies).map(|(row, _)| *row)).collect();
        lowest(&ORDER, &rows)
    }

    /// The row, if this one came before some others.
    fn sooner(&self, row: u8, others: &[u8]) -> u8 {
        if others.contains(&self.row()) && self.rows.contains(&row) {
            row
        } else {
            self.row()
        }
    }

    /// The row, if rows 32 to 34 came before this one.
    fn behind_34(&self, row: u8) -> u8 {
        if self.row() == row {
            lowest(&[32, 33, 34, row], &self.rows)
        } else {
            self.row()
        }
    }

    /// The row, if these were the lists.
    fn by_a_list(&self, is_list: fn(&[u8]) -> bool) -> u8 {
        match self.list() {
            Some(list) => self.instead(&[(32, !is_list(list))]),
            None => self.row(),
        }
    }

    /// Whether row 17 applies by this size.
    fn over(&self, size: Option<u32>) -> bool {
        self.r.operation <= WRITE && size.is_some_and(|size| self.r.a as u64 + self.r.b as u64 > size as u64)
    }
}

fn lowest(order: &[u8], rows: &[u8]) -> u8 {
    order.iter().copied().find(|row| rows.contains(row)).unwrap_or(0)
}

fn whole(bytes: &[u8]) -> bool {
    bytes.len() % NUMBER_BYTES == 0
}

fn pairs(bytes: &[u8]) -> impl Iterator<Item = (u32, u32)> + '_ {
    numbers(bytes).zip(numbers(bytes).skip(1))
}

fn starts_from_1(bytes: &[u8]) -> bool {
    numbers(bytes).next().map_or(true, |first| first >= 1)
}

fn equal_allowed(bytes: &[u8]) -> bool {
    whole(bytes) && starts_from_1(bytes) && pairs(bytes).all(|(one, next)| one <= next)
}

fn falling_allowed(bytes: &[u8]) -> bool {
    whole(bytes) && starts_from_1(bytes) && pairs(bytes).all(|(one, next)| one != next && next != 0)
}

fn zero_allowed(bytes: &[u8]) -> bool {
    whole(bytes) && pairs(bytes).all(|(one, next)| one < next)
}

fn other_bytes_allowed(bytes: &[u8]) -> bool {
    is_list(&bytes[..bytes.len() - bytes.len() % NUMBER_BYTES])
}

fn signed(bytes: &[u8]) -> bool {
    is_list(bytes) && numbers(bytes).all(|number| number as i32 >= 1)
}

fn up_to_the_member(t: &Through) -> u8 {
    let Some(list) = t.list() else { return t.row() };
    let read = numbers(list).position(|number| number == t.r.member).map_or(list.len(), |at| (at + 1) * NUMBER_BYTES);
    t.instead(&[(32, !is_list(&list[..read]))])
}

fn lowest_byte_first(t: &Through) -> u8 {
    let Some(list) = t.list() else { return t.row() };
    let turned: Vec<u8> = list.chunks(NUMBER_BYTES).flat_map(|number| number.iter().rev().copied()).collect();
    t.instead(&[(32, !is_list(&turned)), (33, !lists(&turned, t.r.member))])
}

fn by_the_members_bytes(t: &Through) -> u8 {
    match (t.list(), t.bytes(t.r.member)) {
        (Some(_), Some(bytes)) => t.instead(&[(32, !is_list(bytes)), (33, !lists(bytes, t.r.member))]),
        _ => t.row(),
    }
}

fn followed(t: &Through) -> u8 {
    let Some(list) = t.list() else { return t.row() };
    let by_a_listed_group = |number: u32| t.bytes(number).is_some_and(|bytes| is_list(bytes) && lists(bytes, t.r.member));
    t.instead(&[(33, !lists(list, t.r.member) && !numbers(list).any(by_a_listed_group))])
}

fn at_any_byte(t: &Through) -> u8 {
    let Some(list) = t.list() else { return t.row() };
    t.instead(&[(33, !list.windows(NUMBER_BYTES).any(|bytes| bytes == t.r.member.to_be_bytes()))])
}

fn next_door(t: &Through) -> u8 {
    let somewhere = t.next_door.contains(&t.r.member) || t.object(t.r.member).is_some();
    t.instead(&[(34, t.is_through_a_group() && !somewhere)])
}

fn four_bytes_early(t: &Through) -> u8 {
    let Some(list) = t.list() else { return t.row() };
    let member = t.object(t.r.n);
    t.instead(&[(33, !lists(list, t.r.n)), (34, member.is_none()), (17, t.over(member.map(|o| o.size)))])
}

fn by_the_groups_size(t: &Through) -> u8 {
    match t.list() {
        Some(list) => t.instead(&[(17, t.over(Some(list.len() as u32)))]),
        None => t.row(),
    }
}

fn by_the_members_version(t: &Through) -> u8 {
    match (t.list(), t.object(t.r.member)) {
        (Some(_), Some(member)) => t.instead(&[(15, t.c.version != member.version)]),
        _ => t.row(),
    }
}

/// By it an entry that was made through a group has the member, and so has this call's nonce.
fn nonce_of_the_member(t: &Through) -> u8 {
    let nonce = Nonce { object: t.target(), ..Nonce::of(&t.c, &t.r) };
    t.instead(&[(12, t.memory.iter().any(|(entry, member)| Nonce { object: member.unwrap_or(entry.object), ..entry.clone() } == nonce))])
}

fn nonce_of_both(t: &Through) -> u8 {
    let (nonce, member) = (Nonce::of(&t.c, &t.r), t.is_through_a_group().then_some(t.r.member));
    t.instead(&[(12, t.memory.contains(&(nonce, member)))])
}

/// Without a group in either record.
fn straight(t: &Through) -> (Credential, Request) {
    (Credential { rights: t.c.rights & !GROUP_BIT, ..t.c.clone() }, Request { mark: REQUEST_MARK, ..t.r.clone() })
}

fn bit_7_ignored(t: &Through) -> u8 {
    if !t.c.is_of_a_group() || t.r.mark != REQUEST_MARK {
        return t.row();
    }
    let (c, r) = straight(t);
    t.instead(&[(6, row_6(&c, &r))])
}

fn mark_alone(t: &Through) -> u8 {
    if t.c.is_of_a_group() || !t.r.is_of_a_group() {
        return t.row();
    }
    let c = Credential { rights: t.c.rights | GROUP_BIT, ..t.c.clone() };
    let (list, member) = (t.bytes(c.object), t.object(t.r.member));
    t.instead(&[
        (6, row_6(&c, &t.r)),
        (32, list.is_some_and(|list| !is_list(list))),
        (33, list.is_some_and(|list| !lists(list, t.r.member))),
        (34, member.is_none()),
        (17, t.over(member.map(|o| o.size))),
    ])
}

fn length_without_the_member(t: &Through) -> u8 {
    if !t.r.is_of_a_group() {
        return t.row();
    }
    t.instead(&[(5, row_5_records(&t.r) || t.length != t.r.frame_length() - NUMBER_BYTES as u64)])
}

fn operations_over_3(t: &Through) -> u8 {
    if !t.is_through_a_group() || t.r.operation <= LOOK || t.c.object == 0 {
        return t.row();
    }
    let (c, r) = straight(t);
    t.instead(&[(6, row_6(&c, &r))])
}

fn group_of_the_partition(t: &Through) -> u8 {
    if !t.is_through_a_group() || t.r.operation > LOOK || t.c.object != 0 {
        return t.row();
    }
    let (c, r) = straight(t);
    t.instead(&[(6, row_6(&c, &r))])
}

fn row_2_of_100(t: &Through) -> u8 {
    let least = t.r.frame_length() - t.r.n as u64;
    if t.r.is_of_a_group() && t.length < least {
        2
    } else {
        t.row()
    }
}

#[cfg(test)]
mod tests {
    use super::super::through::tests::{call, listed, places, GROUP, LOG};
    use super::*;

    /// The readings that answer a look at LOG otherwise, if the group holds these numbers and more bytes.
    fn by_a_list(list: &[u32], more: usize, rows: &[u8]) -> Vec<usize> {
        let bytes = [bytes_of(list), vec![0; more]].concat();
        places(call(&bytes, LOG, LOOK, rows).told_apart())
    }

    /// Those that a good look through a group tells from a right drive: by the lowest byte first, the member's own bytes, n in the
    /// member's place, the member's version, 96 bytes.
    const BY_ANY_GRANT: [usize; 5] = [5, 7, 11, 20, 25];

    #[test]
    fn readings_of_a_list() {
        assert_eq!(by_a_list(&[3, LOG, 12], 0, &[]), BY_ANY_GRANT);
        assert_eq!(by_a_list(&[3, LOG, 1 << 31], 0, &[]), [5, 6, 7, 11, 20, 25]);
        assert_eq!(by_a_list(&[3, 3, LOG], 0, &[32]), [0, 20, 25]);
        assert_eq!(by_a_list(&[LOG, 12, 12], 0, &[32]), [0, 4, 20, 25]);
        assert_eq!(by_a_list(&[12, LOG, 13], 0, &[32]), [1, 20, 25]);
        assert_eq!(by_a_list(&[0, LOG, 13], 0, &[32]), [2, 20, 25]);
        assert_eq!(by_a_list(&[3, LOG], 1, &[32]), [3, 4, 20, 25]);
        assert_eq!(by_a_list(&[3, LOG, LOG, 0], 0, &[32]), [4, 20, 25]);
        assert_eq!(by_a_list(&[0x0900_0000], 0, &[33]), [5, 7, 20, 25]);
        assert_eq!(by_a_list(&[0x0000_0900, 0x0001_0000], 0, &[33]), [5, 7, 20, 25]);
        assert_eq!(by_a_list(&[0x0100_0000, 0x0900_0000], 0, &[33]), [5, 7, 9, 20, 25]); // bytes 1 to 4 are 00 00 00 09
    }

    /// Of a look at a member by this list, all these rows apply.
    fn by_a_member(member: u32, rows: &[u8]) -> Vec<usize> {
        places(listed(member, LOOK, rows).told_apart())
    }

    #[test]
    fn readings_of_a_member() {
        assert_eq!(by_a_member(8, &[33, 34]), [12, 25]);
        assert_eq!(by_a_member(77, &[34]), [5, 11, 25]);
        let next_door = Through { next_door: vec![77], ..listed(77, LOOK, &[34]) };
        assert_eq!(places(next_door.told_apart()), [5, 10, 11, 25]);
        let across = call(&bytes_of(&[0x0000_0001, 0x0900_0002]), 0x0000_0109, LOOK, &[33, 34]);
        assert_eq!(places(across.told_apart()), [9, 12, 25]);
        let n = listed(8, WRITE, &[33, 34]);
        let n = Through { r: Request { n: LOG, b: LOG, ..n.r.clone() }, length: 100 + LOG as u64, ..n };
        assert_eq!(places(n.told_apart()), [11, 12, 25]);
    }

    /// LOG is no member, and a group that is one lists it.
    #[test]
    fn lists_that_are_followed() {
        let followed = |inner: &[u32]| {
            let mut t = call(&bytes_of(&[7, 8]), LOG, LOOK, &[33]);
            t.put(7, &bytes_of(inner));
            places(t.told_apart()).contains(&8)
        };
        assert_eq!([followed(&[3, LOG]), followed(&[LOG, 3]), followed(&[3])], [true, false, false]);
    }

    #[test]
    fn readings_of_the_order() {
        let among = |rows: &[u8]| -> Vec<usize> { by_a_member(8, rows).into_iter().filter(|i| (12..=18).contains(i)).collect() };
        assert_eq!([among(&[33, 34]), among(&[32, 34]), among(&[32, 16]), among(&[33, 16])], [vec![12], vec![], vec![13], vec![13]]);
        assert_eq!([among(&[34, 16]), among(&[32, 17])], [[13], [14]]);
        assert_eq!([among(&[16, 17]), among(&[34, 16, 17])], [vec![], vec![13, 14]]);
        assert_eq!([among(&[15, 32]), among(&[13, 33]), among(&[12, 34]), among(&[12, 13])], [vec![15], vec![16], vec![17], vec![]]);
        assert_eq!([among(&[32, 22]), among(&[33, 22]), among(&[34, 16, 22]), among(&[22])], [vec![18], vec![18], vec![13, 18], vec![]]);
    }

    #[test]
    fn readings_of_size_and_version() {
        let read = |a, b, rows: &[u8]| {
            let t = listed(LOG, READ, rows);
            let t = Through { r: Request { a, b, ..t.r.clone() }, ..t };
            places(t.told_apart()).contains(&19)
        };
        assert_eq!([read(0, 12, &[]), read(0, 13, &[]), read(0, 41, &[17])], [false, true, false]); // the group has 12 bytes
        let small = |a, b, rows: &[u8]| {
            let mut t = listed(LOG, READ, rows);
            t.put(LOG, &[0; 4]);
            let t = Through { r: Request { a, b, ..t.r.clone() }, ..t };
            places(t.told_apart()).contains(&19)
        };
        assert_eq!([small(0, 4, &[]), small(0, 5, &[17]), small(0, 12, &[17]), small(0, 13, &[17])], [false, true, true, false]);
        let at = |version, rows: &[u8]| {
            let t = listed(LOG, READ, rows);
            places(Through { c: Credential { version, ..t.c.clone() }, ..t }.told_apart()).contains(&20)
        };
        assert_eq!([at(2, &[]), at(3, &[15]), at(1, &[15])], [true, true, false]);
    }

    #[test]
    fn readings_of_a_nonce() {
        let with = |object, member, rows: &[u8]| {
            let t = listed(LOG, LOOK, rows);
            let entry = Nonce { object, ..Nonce::of(&t.c, &t.r) };
            let told = places(Through { memory: vec![(entry, member)], ..t }.told_apart());
            [told.contains(&21), told.contains(&22)]
        };
        assert_eq!(with(GROUP, Some(LOG), &[12]), [false, false]);
        assert_eq!(with(GROUP, Some(GROUP), &[12]), [true, true]);
        assert_eq!(with(GROUP, None, &[12]), [true, true]); // under the group's own credential
        assert_eq!(with(LOG, None, &[]), [true, false]); // under the member's own
        assert_eq!(with(3, Some(LOG), &[]), [true, false]); // through another group
        assert_eq!(with(3, None, &[]), [false, false]);
    }

    /// The readings from 23 on that answer otherwise: the frame has these rights, mark, operation and object.
    fn by_a_form(rights: u16, mark: [u8; 2], operation: u8, object: u32, rows: &[u8]) -> Vec<usize> {
        let t = listed(LOG, LOOK, rows);
        let c = Credential { rights, object, ..t.c.clone() };
        let t = Through { c, r: Request { mark, operation, ..t.r.clone() }, ..t };
        places(t.told_apart()).into_iter().filter(|i| *i >= 23).collect()
    }

    #[test]
    fn readings_of_a_form() {
        assert_eq!(by_a_form(0xff, REQUEST_MARK, LOOK, GROUP, &[6]), [23]);
        assert_eq!(by_a_form(0x7f, GROUP_MARK, LOOK, GROUP, &[6]), [24, 25]);
        assert_eq!(by_a_form(0xff, REQUEST_MARK, LOOK, GROUP, &[5, 6]), []);
        assert_eq!([RAISE, DELETE].map(|operation| by_a_form(0xff, GROUP_MARK, operation, GROUP, &[6])), [[25, 26]; 2]);
        assert_eq!([by_a_form(0xff, GROUP_MARK, LOOK, 0, &[6]), by_a_form(0xff, GROUP_MARK, READ, 0, &[6])], [vec![25, 27], vec![25]]);
        let short = |length, rows: &[u8]| {
            let told = places(Through { length, ..listed(LOG, LOOK, rows) }.told_apart());
            [told.contains(&25), told.contains(&28)]
        };
        assert_eq!([short(96, &[5, 9]), short(99, &[5])], [[true, true], [false, true]]);
        assert_eq!([short(100, &[]), short(101, &[5])], [[true, false], [false, false]]);
    }
}
