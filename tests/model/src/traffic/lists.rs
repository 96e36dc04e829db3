//! What change 6 asks of drafts: lists that groups hold, frames that go through a group to a member, and how they are spoiled.
//!
//! A *group* here is an object whose bytes are a list at that moment.

use super::drafts::Draft;
use super::Traffic;
use crate::group::*;
use crate::records::*;

/// So many of a hundred reads, writes and looks go through a group, where one has a member.
const SHARE: u64 = 30;
/// The largest object that a list is written to by chance.
const MOST_LISTED: u32 = 64;

impl Traffic<'_> {
    /// The bytes of an object, if it exists.
    pub(super) fn bytes_of(&self, p: u8, number: u32) -> Option<&[u8]> {
        let object = self.drive.partitions[p as usize].find(number)?;
        Some(self.drive.bytes(&self.medium, p as usize, object))
    }

    fn exists(&self, p: u8, number: u32) -> bool {
        self.drive.partitions[p as usize].find(number).is_some()
    }

    pub(super) fn is_group(&self, p: u8, number: u32) -> bool {
        self.bytes_of(p, number).is_some_and(is_list)
    }

    pub(super) fn numbers_of(&self, p: u8) -> Vec<u32> {
        self.drive.partitions[p as usize].objects.iter().map(|o| o.number).collect()
    }

    /// Each group of a partition with each number that it lists.
    fn listed(&self, p: u8) -> Vec<(u32, u32)> {
        let groups = self.numbers_of(p).into_iter().filter(|number| self.is_group(p, *number));
        groups.flat_map(|group| numbers(self.bytes_of(p, group).unwrap()).map(move |member| (group, member)).collect::<Vec<_>>()).collect()
    }

    /// Those of them that exist.
    pub(super) fn in_reach(&self, p: u8) -> Vec<(u32, u32)> {
        self.listed(p).into_iter().filter(|(_, member)| self.exists(p, *member)).collect()
    }

    /// An operation of 1 to 3 on a member of a group, now and then, and where one of rows 32 to 34 is aimed at. Such a row may also do
    /// with a group that is none.
    pub(super) fn group_draft(&mut self, mark: u64, op: u8, p: u8, wants: &[u8]) -> Option<Draft> {
        let aimed = wants.iter().any(|row| (32..=34).contains(row));
        if op > LOOK || !(aimed || self.rng.chance(SHARE)) {
            return None;
        }
        let mut ways = self.in_reach(p);
        let all = self.numbers_of(p);
        if ways.is_empty() && aimed {
            ways = all.iter().map(|number| (*number, self.rng.pick(&all))).collect();
        }
        let slot = self.working_slot(p);
        if wants.contains(&12) {
            let entered: Vec<u32> = self.living(slot, p, mark).iter().map(|e| e.object).collect();
            let repeated: Vec<(u32, u32)> = ways.iter().copied().filter(|(group, _)| entered.contains(group)).collect();
            ways = if repeated.is_empty() { ways } else { repeated };
        }
        if ways.is_empty() {
            return None;
        }
        let (group, member) = self.rng.pick(&ways);
        Some(self.member_draft(mark, op, p, slot, group, member))
    }

    /// An operation of 1 to 3 on a member, at the edges of its size.
    pub(super) fn member_draft(&mut self, mark: u64, op: u8, p: u8, slot: u8, group: u32, member: u32) -> Draft {
        let size = self.drive.partitions[p as usize].find(member).map_or(0, |o| o.size);
        let (a, b) = if op == LOOK { (0, 0) } else { self.range(size, op == WRITE) };
        let mut draft = self.plain(mark, op, p, slot, group, a, b);
        draft.go_through(member);
        self.give_a_range(&mut draft, size);
        draft
    }

    /// A write of a small object becomes, in one of two, the write of a list, whole or its last number; else random bytes would leave no
    /// group for long.
    pub(super) fn write_a_list(&mut self, d: &mut Draft) {
        let (p, target) = (d.c.partition, d.target());
        let size = self.drive.partitions[p as usize].find(target).map_or(0, |o| o.size);
        if d.r.operation != WRITE || !(4..=MOST_LISTED).contains(&size) || self.rng.chance(50) {
            return;
        }
        let list = self.some_list(p, target, size as usize / NUMBER_BYTES);
        let mut data = bytes_of(&list);
        data.resize(size as usize, 1);
        let a = if self.rng.chance(15) { size & !3 } else { 0 };
        let a = if a == size { size - NUMBER_BYTES as u32 } else { a };
        (d.r.a, d.r.b, d.r.n) = (a, size - a, size - a);
        d.data = data.split_off(a as usize);
        (d.c.first, d.c.end) = self.rng.pick(&[(0, size), (a, size), (0, u32::MAX)]);
    }

    /// So many numbers that rise: objects of the partition, perhaps the group itself, and some that do not exist.
    pub(super) fn some_list(&mut self, p: u8, group: u32, count: usize) -> Vec<u32> {
        let mut list = self.shuffled(&self.numbers_of(p));
        let itself = self.rng.chance(30);
        list.retain(|number| *number != group || itself);
        list.truncate(count.saturating_sub(self.rng.below(3) as usize).max(1));
        while list.len() < count {
            let number = self.some_number(p);
            if !list.contains(&number) {
                list.push(number);
            }
        }
        list.sort();
        list
    }

    /// A number from 1, mostly of no object of the partition: near one, a neighbour's, or with any of its bits.
    pub(super) fn some_number(&mut self, p: u8) -> u32 {
        let (here, q) = (self.numbers_of(p), self.rng.below(4) as u8);
        let near = if here.is_empty() { 1 } else { self.rng.pick(&here).wrapping_add(1) };
        let next_door = self.numbers_of(q).first().copied().unwrap_or(2);
        let (few, any) = (1 + self.rng.below(40) as u32, self.rng.next() as u32);
        let shifted = few << self.rng.pick(&[8, 16, 24]);
        self.rng.pick(&[near, near, next_door, few, few, few, shifted, any, u32::MAX]).max(1)
    }

    /// A number that is no object's, and in none of these bytes.
    pub(super) fn missing_number(&mut self, p: u8, list: &[u8]) -> u32 {
        loop {
            let number = self.some_number(p);
            if !self.exists(p, number) && !lists(list, number) {
                return number;
            }
        }
    }

    /// A granted frame's member becomes another one.
    pub(super) fn another_member(&mut self, d: &mut Draft) {
        let p = d.c.partition;
        let others: Vec<u32> = self.bytes_of(p, d.c.object).map_or(vec![], |list| numbers(list).filter(|n| *n != d.r.member).collect());
        if !others.is_empty() {
            d.r.member = self.rng.pick(&others);
        }
    }
}

/// Spoiling for rows 5, 6 and 32 to 34.
impl Traffic<'_> {
    /// Row 5: the length of the other form, or one between.
    pub(super) fn resize_for_a_form(&mut self, d: &mut Draft) {
        if !d.r.is_of_a_group() {
            d.add = NUMBER_BYTES; // 100 + n
            return;
        }
        match self.rng.below(3) {
            0 => d.memberless = true, // 96 + n
            1 => d.cut = 1 + self.rng.below(NUMBER_BYTES as u64) as usize,
            _ => d.cut_to = Some(96 + self.rng.below(NUMBER_BYTES as u64) as usize),
        }
    }

    /// Row 6: one record is of a group and the other is not; or a group's frame has an operation over 3, object 0, or what would misfit
    /// without a group too.
    pub(super) fn misfit_of_a_form(&mut self, d: &mut Draft) {
        if !d.is_through_a_group() {
            let member = self.some_number(d.c.partition % 4);
            match self.rng.below(3) {
                0 => d.c.rights |= GROUP_BIT,
                1 => (d.r.mark, d.r.member) = (GROUP_MARK, member),
                _ => d.go_through(member), // refused with an operation over 3, or with object 0
            }
            return;
        }
        match self.rng.below(8) {
            0 | 1 => (d.r.mark, d.r.member) = (REQUEST_MARK, 0),
            2 | 3 => d.c.rights &= !GROUP_BIT,
            4 => d.c.object = 0,
            5 => d.c.slot = 2,
            6 if d.r.operation == LOOK => d.r.a = 1 << self.rng.below(32),
            _ => {
                let op = self.rng.pick(&[RAISE, RAISE, DELETE, DELETE, CREATE, SET_KEY, LOAD]);
                self.over_3(d, op)
            }
        }
    }

    /// An operation of 4 to 8 in the place of its own, as it fits without a group.
    pub(super) fn over_3(&mut self, d: &mut Draft, op: u8) {
        let p = d.c.partition % 4;
        let (slot, object, a) = match op {
            RAISE | DELETE => (d.c.slot, d.c.object, 0),
            CREATE => (d.c.slot, 0, self.new_number(p)),
            _ => (2, 0, 0),
        };
        let other = self.plain(d.r.time, op, p, slot, object, a, (op == CREATE) as u32);
        (d.c.slot, d.c.object, d.c.version) = (slot, object, other.c.version);
        (d.c.rights, d.r.level) = (d.c.rights | other.c.rights, d.r.level.max(other.r.level));
        (d.r.operation, d.r.a, d.r.b, d.r.n, d.data) = (op, a, other.r.b, other.r.n, other.data);
    }

    /// Row 32: the group is an object whose bytes are no list.
    pub(super) fn spoil_a_group(&mut self, d: &mut Draft) {
        let p = d.c.partition % 4;
        let others: Vec<u32> = self.numbers_of(p).into_iter().filter(|number| !self.is_group(p, *number)).collect();
        if !d.is_through_a_group() || others.is_empty() {
            return;
        }
        d.c.object = self.rng.pick(&others);
        d.c.version = self.drive.partitions[p as usize].present_version(d.c.object).unwrap();
        let among: Vec<u32> = self.numbers_of(p).into_iter().filter(|o| lists(self.bytes_of(p, d.c.object).unwrap(), *o)).collect();
        if !among.is_empty() && self.rng.chance(70) {
            d.r.member = self.rng.pick(&among); // so that nothing else is wrong, but the range perhaps
        }
    }

    /// Row 33: the member is an object that the group does not list, or none.
    pub(super) fn spoil_a_member(&mut self, d: &mut Draft) {
        let p = d.c.partition % 4;
        let Some(list) = self.bytes_of(p, d.c.object).map(<[u8]>::to_vec) else { return };
        if !d.is_through_a_group() {
            return;
        }
        let unlisted = |number: &u32| !lists(&list, *number);
        let mut others = self.numbers_of(p);
        others.retain(unlisted);
        others.push(self.missing_number(p, &list));
        let windows = list.windows(NUMBER_BYTES).take(60);
        let across: Vec<u32> = windows.map(|bytes| u32::from_be_bytes(bytes.try_into().unwrap())).collect();
        let member = match self.rng.below(8) {
            0 => 0,
            1 => d.c.object,
            2 if !across.is_empty() => self.rng.pick(&across),
            3 => self.missing_number(p, &list),
            _ => self.rng.pick(&others),
        };
        d.r.member = if unlisted(&member) { member } else { self.rng.pick(&others) };
    }

    /// Row 34: the member is listed, and does not exist. Where the group lists none, another one may.
    pub(super) fn lose_a_member(&mut self, d: &mut Draft) {
        let p = d.c.partition % 4;
        if !d.is_through_a_group() {
            return;
        }
        if !self.is_group(p, d.c.object) {
            d.r.member = self.missing_number(p, &[]); // beside row 32
            return;
        }
        let mut ways = self.listed(p);
        ways.retain(|(_, member)| !self.exists(p, *member));
        let own: Vec<(u32, u32)> = ways.iter().copied().filter(|(group, _)| *group == d.c.object).collect();
        let ways = if own.is_empty() { ways } else { own };
        if !ways.is_empty() {
            (d.c.object, d.r.member) = self.rng.pick(&ways);
            d.c.version = self.drive.partitions[p as usize].present_version(d.c.object).unwrap();
        }
    }
}
