//! Stories of change 6: lists written in parts, broken, repaired, rewritten through themselves; members that are missing, come, are raised
//! and go; one nonce for several members; groups of groups and of neighbours. Those of frames and sizes stand in `groups.rs`.

use super::drafts::Draft;
use super::Traffic;
use crate::drive::{Gap, MOST_OBJECTS};
use crate::group::*;
use crate::records::*;

/// So many bytes take two logs, a group and another one, each from a step on.
const ROOM: u32 = 150;

/// A group of a partition and the numbers that it lists.
#[derive(Clone)]
pub(super) struct Stack {
    pub(super) p: u8,
    pub(super) group: u32,
    pub(super) list: Vec<u32>, // logs, one that is missing, perhaps the group itself
    pub(super) logs: [u32; 2], // two objects that were made for it, the first one smaller than the group
    pub(super) missing: u32,
}

impl Traffic<'_> {
    pub(super) fn stacks(&mut self, p: u8) {
        self.ready(p);
        self.room_for_a_stack(p);
        match self.rng.weighted(&[1, 6, 8, 4, 2, 4, 3, 4, 3, 2, 3, 5, 6, 3]) {
            0 => self.list_from_zeros_on(p),
            1 => self.list_broken_and_repaired(p),
            2 => self.lists_of_odd_length(p),
            3 => self.list_rewritten_through_itself(p),
            4 => self.members_come_and_go(p),
            5 => self.one_nonce_for_two_members(p),
            6 => self.versions_of_a_group(p),
            7 => self.written_here_read_there(p),
            8 => self.groups_of_groups(p),
            9 => self.members_next_door(p),
            10 => self.sizes_of_members(p),
            11 => self.groups_by_a_table(p),
            12 => self.nearly_a_groups_frame(p),
            _ => self.long_list(p),
        }
    }

    /// Objects go until there is room for some more, where a partition can have it.
    pub(super) fn room_for_a_stack(&mut self, p: u8) {
        for _ in 0..MOST_OBJECTS {
            let room = self.open_gaps(p).iter().map(Gap::room).max().unwrap_or(0);
            let few = self.drive.partitions[p as usize].objects.len() + 5 <= MOST_OBJECTS;
            if few && room >= ROOM.min(self.drive.quarter() / 5 * 4) {
                return;
            }
            self.let_one_go(p);
        }
    }

    /// A new object of this size; none where it cannot be.
    pub(super) fn made(&mut self, p: u8, size: u32) -> Option<u32> {
        let number = self.new_number(p);
        (self.simply(CREATE, p, 0, number, size) == 0).then_some(number)
    }

    /// A group before its list is written. Numbers are small mostly, and now and then of all 32 bits.
    fn unwritten_stack(&mut self, p: u8, itself: bool) -> Option<Stack> {
        let narrow = self.drive.quarter() < ROOM;
        let (small, more) = (1 + self.rng.below(11) as u32, if narrow { 0 } else { self.rng.below(2) as usize });
        let large = if narrow { 17 + self.rng.below(12) } else { 25 + self.rng.below(40) } as u32;
        let logs = [self.made(p, small)?, self.made(p, large)?];
        let group = self.made(p, (NUMBER_BYTES * (3 + more + itself as usize)) as u32)?;
        let missing = self.missing_number(p, &[]);
        let mut list = vec![logs[0], logs[1], missing];
        list.extend(itself.then_some(group));
        if more > 0 {
            list.push(self.missing_number(p, &bytes_of(&list)));
        }
        list.sort();
        Some(Stack { p, group, list, logs, missing })
    }

    pub(super) fn stack(&mut self, p: u8, itself: bool) -> Option<Stack> {
        let stack = self.unwritten_stack(p, itself)?;
        self.put_list(p, stack.group, &stack.list);
        Some(stack)
    }

    /// Writes these bytes under the object's own credential.
    pub(super) fn put_bytes(&mut self, p: u8, object: u32, a: usize, data: &[u8]) {
        let clock = self.tick();
        let plain = self.plain(self.drive.mark.max(clock), WRITE, p, 0, object, a as u32, data.len() as u32);
        self.plain_at(clock, &Draft { data: data.to_vec(), ..plain });
    }

    fn put_list(&mut self, p: u8, group: u32, list: &[u32]) {
        self.put_bytes(p, group, 0, &bytes_of(list));
    }

    /// Writes these bytes to a member through a group.
    fn put_through(&mut self, p: u8, group: u32, member: u32, a: usize, data: &[u8]) {
        let clock = self.tick();
        let mut draft = self.plain(self.drive.mark.max(clock), WRITE, p, 0, group, a as u32, data.len() as u32);
        draft.data = data.to_vec();
        draft.go_through(member);
        self.plain_at(clock, &draft);
    }

    /// A good draft of an operation of 1 to 3 on a member through a group, a tick later, at any level that will do.
    pub(super) fn draft_through(&mut self, p: u8, group: u32, member: u32, op: u8) -> Draft {
        let clock = self.tick();
        let mut draft = self.member_draft(self.drive.mark.max(clock), op, p, 0, group, member);
        let (_, level) = self.reachable_need(&draft);
        draft.r.level = level + self.rng.below(3 - level as u64) as u8;
        draft
    }

    fn reach_by(&mut self, p: u8, group: u32, member: u32, op: u8) -> u8 {
        let draft = self.draft_through(p, group, member, op);
        self.plain_at(draft.r.time, &draft)
    }

    /// Some operation on a member that leaves its bytes, or not.
    pub(super) fn reach(&mut self, p: u8, group: u32, member: u32) -> u8 {
        let op = self.rng.pick(&[READ, READ, WRITE, LOOK]);
        self.reach_by(p, group, member, op)
    }

    /// Each log of a stack through its group, in any order.
    pub(super) fn reach_the_logs(&mut self, stack: &Stack) {
        for log in self.shuffled(&stack.logs) {
            self.reach(stack.p, stack.group, log);
        }
    }

    /// A fresh group is zeros; then its list comes in parts, of which one may end within a number.
    fn list_from_zeros_on(&mut self, p: u8) {
        let Some(stack) = self.unwritten_stack(p, false) else { return };
        self.reach_the_logs(&stack); // 32
        let bytes = bytes_of(&stack.list);
        let cut = self.rng.pick(&[4, 7, 8, bytes.len() - 1]);
        self.put_bytes(p, stack.group, 0, &bytes[..cut]);
        self.reach_the_logs(&stack); // 32
        self.put_bytes(p, stack.group, cut, &bytes[cut..]);
        self.reach_the_logs(&stack);
        let others = [stack.missing, stack.group, 0, self.missing_number(p, &bytes)];
        for member in self.shuffled(&others) {
            self.reach(p, stack.group, member); // 34, then 33
        }
        if self.rng.chance(50) {
            self.put_bytes(p, stack.group, bytes.len() - 1, &[0]);
            self.reach_the_logs(&stack); // 32, or the last number is another one now
        }
    }

    /// Each way to break a list alone, before the log that is asked for or behind it; after most of them the list is put back.
    fn list_broken_and_repaired(&mut self, p: u8) {
        let itself = self.rng.chance(50);
        let Some(stack) = self.stack(p, itself) else { return };
        self.reach_the_logs(&stack);
        for kind in self.shuffled(&[0, 0, 1, 1, 2, 2, 3, 3]) {
            let mut list = stack.list.clone();
            let at = 1 + self.rng.below(list.len() as u64 - 1) as usize;
            match kind {
                0 => list[at] = list[at - 1],
                1 => list.swap(at - 1, at),
                2 => list[0] = 0,
                _ => list[at..].fill(0),
            }
            self.put_list(p, stack.group, &list);
            let left: Vec<u32> = stack.logs.into_iter().filter(|log| list.contains(log)).collect();
            for log in self.shuffled(&left.repeat(4)).into_iter().take(4) {
                self.reach(p, stack.group, log); // 32
            }
            if self.rng.chance(40) {
                self.put_list(p, stack.group, &stack.list);
                self.reach(p, stack.group, stack.logs[1]);
            }
        }
    }

    /// A list of many numbers with a log far down in it; then a fault near its end or before the log, and the list again.
    fn long_list(&mut self, p: u8) {
        let room = self.open_gaps(p).iter().map(Gap::room).max().unwrap_or(0) as usize;
        let count = (18 + self.rng.below(200) as usize).min(room / NUMBER_BYTES);
        let list: Vec<u32> = (0..count as u32).map(|i| 50 + 7 * i + self.rng.below(7) as u32).collect();
        let Some(group) = self.made(p, (NUMBER_BYTES * count) as u32).filter(|_| count >= 18) else { return };
        self.put_list(p, group, &list);
        for _ in 0..2 {
            let at = 16 + self.rng.below(count as u64 - 17) as usize;
            self.reach(p, group, list[at]); // 34
            self.simply(CREATE, p, 0, list[at], 12);
            self.reach(p, group, list[at]);
            self.reach(p, group, list[at] + 8); // 33, or 34
            let mut broken = list.clone();
            let fault = self.rng.pick(&[at, count - 1, count - 1]);
            broken.swap(fault - 1, fault);
            self.put_list(p, group, &broken);
            for _ in 0..3 {
                self.reach(p, group, list[at]); // 32
            }
            self.put_bytes(p, group, NUMBER_BYTES * (fault - 1), &bytes_of(&list[fault - 1..=fault]));
            self.reach(p, group, list[at]);
        }
    }

    /// Groups with one to three bytes behind their numbers, or of no number at all. A byte less, and the list would be one.
    fn lists_of_odd_length(&mut self, p: u8) {
        let Some(stack) = self.stack(p, false) else { return };
        for more in self.shuffled(&[1, 2, 3]) {
            let mut bytes = bytes_of(&stack.list);
            bytes.extend(vec![self.rng.pick(&[0, 0, 1, 255]); more]);
            if self.rng.chance(10) {
                bytes = bytes.split_off(bytes.len() - more);
            }
            let Some(group) = self.made(p, bytes.len() as u32) else { return };
            self.put_bytes(p, group, 0, &bytes);
            for log in self.shuffled(&[stack.logs; 3].concat()) {
                self.reach(p, group, log); // 32
            }
            self.simply(DELETE, p, group, 0, 0);
        }
    }

    /// A group lists itself, and writes through it change its own list: another member, the old one again, no list at all. From then on
    /// nothing goes through it, until the list is put back under its own credential.
    fn list_rewritten_through_itself(&mut self, p: u8) {
        let Some(stack) = self.stack(p, true) else { return };
        let (group, [gone, kept]) = (stack.group, stack.logs);
        self.reach_by(p, group, group, READ);
        self.reach(p, group, gone);
        let mut other: Vec<u32> = stack.list.iter().copied().filter(|number| *number != gone).collect();
        other.push(self.missing_number(p, &bytes_of(&stack.list)));
        other.sort();
        let mut broken = other.clone();
        broken.swap(0, 1);
        self.put_through(p, group, group, 0, &bytes_of(&other));
        self.reach(p, group, gone); // 33
        self.reach(p, group, kept);
        self.reach(p, group, gone);
        self.put_through(p, group, group, 0, &bytes_of(&stack.list));
        self.reach(p, group, gone);
        self.put_through(p, group, group, 0, &bytes_of(&broken));
        self.reach(p, group, kept); // 32
        self.put_through(p, group, group, 0, &bytes_of(&stack.list)); // 32
        self.reach(p, group, gone); // 32
        self.put_list(p, group, &stack.list);
        self.reach(p, group, gone);
        let at = bytes_of(&stack.list).len() - 1;
        let last = self.rng.next() as u8;
        self.put_through(p, group, group, at, &[last]); // the last number's last byte
        self.reach_the_logs(&stack);
        self.reach_by(p, group, group, LOOK);
    }

    /// A listed object is missing, comes, is raised, goes and comes again; a log that was there goes too.
    fn members_come_and_go(&mut self, p: u8) {
        let Some(stack) = self.stack(p, false) else { return };
        let (group, missing) = (stack.group, stack.missing);
        self.reach(p, group, missing); // 34
        for _ in 0..2 {
            let size = 1 + self.rng.below(30) as u32;
            self.simply(CREATE, p, 0, missing, size);
            self.reach_by(p, group, missing, READ);
            self.reach_by(p, group, missing, WRITE);
            self.simply(RAISE, p, missing, 0, 0);
            self.reach_by(p, group, missing, LOOK);
            self.simply(DELETE, p, missing, 0, 0);
            self.reach(p, group, missing); // 34
        }
        let log = self.rng.pick(&stack.logs);
        self.reach(p, group, log);
        self.simply(DELETE, p, log, 0, 0);
        self.reach(p, group, log); // 34
        self.simply(CREATE, p, 0, log, 20);
        self.reach_by(p, group, log, READ); // zeros
        self.simply(DELETE, p, group, 0, 0);
        let draft = self.draft_through(p, group, log, LOOK);
        self.plain_at(draft.r.time, &draft); // 14
        self.simply(CREATE, p, 0, group, 12);
        self.reach(p, group, log); // 32
    }

    /// Two members under one time and count are a repeat. The member itself has another nonce, and so has another group; the group
    /// itself has the same.
    fn one_nonce_for_two_members(&mut self, p: u8) {
        let Some(stack) = self.stack(p, false) else { return };
        let Some(other) = self.made(p, 4) else { return };
        self.put_list(p, other, &[stack.logs[0]]);
        for _ in 0..3 {
            let first = self.draft_through(p, stack.group, stack.logs[0], LOOK);
            let second = Draft { r: Request { member: stack.logs[1], ..first.r.clone() }, ..first.clone() };
            let elsewhere = self.as_of(&first, other);
            let (mut own, mut groups) = (self.as_of(&first, stack.logs[0]), first.clone());
            own.go_straight();
            groups.go_straight();
            let mut drafts = self.shuffled(&[second.clone(), elsewhere, own, groups]);
            drafts.insert(self.rng.below(3) as usize, first);
            drafts.push(second);
            for draft in drafts {
                self.plain_at(draft.r.time, &draft); // 12, but for the first of each object
            }
        }
    }

    /// A draft for another object, with its present version.
    fn as_of(&self, d: &Draft, object: u32) -> Draft {
        let version = self.drive.partitions[d.c.partition as usize].present_version(object).unwrap_or(1);
        Draft { c: Credential { object, version, ..d.c.clone() }, ..d.clone() }
    }

    /// A credential goes by the group's version, not by the member's: raised members are reached, through a raised group nothing is.
    fn versions_of_a_group(&mut self, p: u8) {
        let Some(stack) = self.stack(p, false) else { return };
        for _ in 0..2 {
            let log = self.rng.pick(&stack.logs);
            let (one, two) = (self.draft_through(p, stack.group, log, READ), self.draft_through(p, stack.group, log, LOOK));
            self.simply(RAISE, p, log, 0, 0);
            self.plain_at(one.r.time, &one);
            self.reach_by(p, stack.group, log, LOOK);
            self.simply(RAISE, p, stack.group, 0, 0);
            self.plain_at(two.r.time, &two); // 15
            self.reach_the_logs(&stack);
            let mut by_the_member = self.draft_through(p, stack.group, log, READ);
            by_the_member.c.version = self.drive.partitions[p as usize].present_version(log).unwrap_or(1);
            self.plain_at(by_the_member.r.time, &by_the_member); // 15
        }
        self.put_list(p, stack.group, &stack.list[1..]); // with a last number that is written before
        let mut old = self.draft_through(p, stack.group, stack.logs[0], LOOK);
        old.c.version = old.c.version.wrapping_sub(1);
        self.plain_at(old.r.time, &old); // 15, with 32 beside it
    }

    /// What is written through one group is read through another and under the log's own credential, and the other way round.
    fn written_here_read_there(&mut self, p: u8) {
        let Some(stack) = self.stack(p, false) else { return };
        let Some(other) = self.made(p, 8) else { return };
        let mut logs = stack.logs;
        logs.sort();
        self.put_list(p, other, &logs);
        for _ in 0..3 {
            let log = self.rng.pick(&logs);
            let size = self.drive.partitions[p as usize].find(log).map_or(0, |o| o.size);
            let data = self.rng.bytes(size.min(20) as usize);
            match self.rng.below(3) {
                0 => self.put_bytes(p, log, 0, &data),
                1 => self.put_through(p, stack.group, log, 0, &data),
                _ => self.put_through(p, other, log, 0, &data),
            }
            self.simply(READ, p, log, 0, size);
            for group in self.shuffled(&[stack.group, other]) {
                let mut whole = self.draft_through(p, group, log, READ);
                (whole.r.a, whole.r.b, whole.c.first, whole.c.end) = (0, size, 0, size);
                self.plain_at(whole.r.time, &whole);
            }
        }
    }

    /// A group that another one lists: its bytes are reached and written, its list is not followed.
    fn groups_of_groups(&mut self, p: u8) {
        let Some(stack) = self.stack(p, false) else { return };
        let Some(outer) = self.made(p, 8) else { return };
        let mut list = vec![stack.group, self.missing_number(p, &bytes_of(&[stack.group]))];
        list.sort();
        self.put_list(p, outer, &list);
        self.reach_by(p, outer, stack.group, READ);
        for log in stack.logs {
            self.reach(p, outer, log); // 33
        }
        let mut shorter = stack.list.clone();
        shorter[0] = self.rng.pick(&[0, shorter[1], 1]);
        self.put_through(p, outer, stack.group, 0, &bytes_of(&shorter));
        self.reach_the_logs(&stack); // 32, mostly
        self.put_through(p, outer, stack.group, 0, &bytes_of(&stack.list));
        self.reach_the_logs(&stack);
        self.reach_by(p, outer, stack.group, LOOK);
    }

    /// A group lists numbers that exist in another partition alone; there, a group of the same number lists others.
    fn members_next_door(&mut self, p: u8) {
        let q = (p + 1 + self.rng.below(3) as u8) % 4;
        self.ready(q);
        self.room_for_a_stack(q);
        let Some(stack) = self.stack(p, false) else { return };
        for number in [stack.group, stack.missing] {
            if self.bytes_of(q, number).is_none() {
                self.simply(CREATE, q, 0, number, 8);
            }
        }
        self.reach(p, stack.group, stack.missing); // 34
        self.reach_the_logs(&stack);
        let mut list = vec![stack.missing, self.missing_number(p, &bytes_of(&stack.list))];
        list.sort();
        if self.bytes_of(q, stack.group).is_some_and(|bytes| bytes.len() == 8) {
            self.put_list(q, stack.group, &list);
            for member in [stack.missing, stack.logs[0], list[0], list[1]] {
                self.reach(q, stack.group, member);
                self.reach(p, stack.group, member);
            }
        }
    }

}
