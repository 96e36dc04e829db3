//! More stories of change 6: sizes and ranges, operation tables, frames that are nearly a group's; and groups where stories of other
//! changes meet them, as in a full memory or from outside.

use super::stacks::Stack;
use super::Traffic;
use crate::drive::MOST_OBJECTS;
use crate::group::*;
use crate::records::*;
use crate::table::*;

impl Traffic<'_> {
    /// Reads and writes at the edges of the member's size, the group's and the credential's range.
    pub(super) fn sizes_of_members(&mut self, p: u8) {
        let Some(stack) = self.stack(p, false) else { return };
        let size = |traffic: &Self, number| traffic.drive.partitions[p as usize].find(number).map_or(0, |o| o.size);
        let group = size(self, stack.group);
        for log in self.shuffled(&[stack.logs, stack.logs].concat()) {
            let own = size(self, log);
            let edges = [(0, own), (0, own + 1), (own, 0), (own + 1, 0), (own.saturating_sub(1), 1)];
            let groups = [(0, group), (0, group + 1), (group, 1)];
            let ((a, b), op) = (self.rng.pick(&[&edges[..], &groups].concat()), self.rng.pick(&[READ, WRITE]));
            let mut draft = self.draft_through(p, stack.group, log, op);
            (draft.r.a, draft.r.b) = (a, b);
            if op == WRITE {
                draft.data = self.rng.bytes(b as usize);
                draft.r.n = b;
            }
            (draft.c.first, draft.c.end) = self.rng.pick(&[(0, u32::MAX), (0, u32::MAX), (a, a + b), (0, own), (0, group), (a + 1, a + b)]);
            self.plain_at(draft.r.time, &draft);
        }
        for _ in 0..2 {
            self.write_as_long_as_a_member(&stack);
        }
    }

    /// A write of as many bytes as some listed object's number says, to one that is not listed: 33.
    fn write_as_long_as_a_member(&mut self, stack: &Stack) {
        let lengths: Vec<u32> = stack.logs.into_iter().filter(|log| *log < 200).collect();
        let member = self.missing_number(stack.p, &bytes_of(&stack.list));
        if !lengths.is_empty() {
            let mut draft = self.draft_through(stack.p, stack.group, member, WRITE);
            let n = self.rng.pick(&lengths);
            (draft.r.a, draft.r.b, draft.r.n, draft.data) = (0, n, n, self.rng.bytes(n as usize));
            (draft.c.first, draft.c.end) = (0, n);
            self.plain_at(draft.r.time, &draft);
        }
    }

    /// Under a loaded table: with just what is needed, without a right of it, a level lower, with document 01's right alone.
    pub(super) fn groups_by_a_table(&mut self, p: u8) {
        let Some(stack) = self.stack(p, false) else { return };
        for _ in 0..2 {
            let mut table = self.rng.pick(&[reads_need_look(), writes_at_level_2(), Table::default()]);
            for op in READ..=LOOK {
                let (some, right) = (self.some_need(op), 1 << self.rng.below(7));
                let need = table.0[op as usize - 1];
                table.0[op as usize - 1] = self.rng.pick(&[need, some, some, Need { mask: right, ..some }]);
            }
            self.load(p, &table);
            for op in self.shuffled(&[READ, WRITE, LOOK, READ, WRITE, LOOK]) {
                let log = self.rng.pick(&stack.logs);
                let mut draft = self.draft_through(p, stack.group, log, op);
                let (mask, level) = self.reachable_need(&draft);
                (draft.c.rights, draft.r.level) = (mask | GROUP_BIT, level);
                match self.rng.below(5) {
                    0 | 1 => {}
                    2 => self.take_rights(&mut draft),
                    3 => draft.c.rights = 1 << (op - 1) | GROUP_BIT,
                    _ => self.lower_the_level(&mut draft),
                }
                self.plain_at(draft.r.time, &draft);
            }
        }
        if self.rng.chance(70) {
            self.load(p, &Table::default());
        }
    }

    /// Frames of another length, of two forms at once, or of an operation that no group has; and good ones between them.
    pub(super) fn nearly_a_groups_frame(&mut self, p: u8) {
        let Some(stack) = self.stack(p, true) else { return };
        for kind in self.shuffled(&(0..24).collect::<Vec<u8>>()) {
            let op = self.rng.pick(&[READ, WRITE, LOOK]);
            let log = self.rng.pick(&stack.logs);
            let mut draft = self.draft_through(p, stack.group, log, op);
            match kind {
                0 => draft.memberless = true,
                1 | 2 => draft.cut = 1 + self.rng.below(5) as usize,
                3 | 4 => draft.add = self.rng.pick(&[1, 4, 4, 28]),
                5..=8 => draft.cut_to = Some(91 + kind as usize), // 96 to 99
                9 | 10 => (draft.r.mark, draft.r.member) = (REQUEST_MARK, 0),
                11 | 12 => draft.c.rights &= !GROUP_BIT,
                13 | 14 => {
                    draft = self.draft_through(p, stack.group, log, LOOK);
                    draft.c.object = 0;
                }
                15..=19 => self.over_3(&mut draft, kind - 11), // 4 to 8
                20 => {
                    draft.go_straight();
                    self.resize_for_a_form(&mut draft); // 100 + n bytes
                }
                _ => {}
            }
            self.plain_at(draft.r.time, &draft);
        }
    }
}

/// Where a story of another change meets groups.
impl Traffic<'_> {
    /// Frames through groups of a partition whose memory is full: 32, 33 and 34, and 22 where they do not apply.
    pub(super) fn groups_of_a_full_memory(&mut self, p: u8) {
        let mark = self.drive.mark;
        for wants in [&[][..], &[32], &[33], &[34], &[32], &[33], &[34]] {
            let op = self.rng.pick(&[READ, WRITE, LOOK]);
            for _ in 0..4 {
                if let Some(mut draft) = self.group_draft(mark, op, p, wants) {
                    wants.iter().for_each(|row| self.spoil(&mut draft, *row, mark));
                    self.plain_at(mark, &draft);
                    break;
                }
            }
        }
    }

    /// Sees to it that a partition has a group with a member, where it can.
    pub(super) fn a_group(&mut self, p: u8) {
        if self.in_reach(p).is_empty() {
            self.room_for_a_stack(p);
            self.stack(p, false);
        }
    }

    /// An object of a partition comes from outside, and holds what the bytes there held: none, or a group that was deleted there. Then a
    /// list is written to it. Its members are objects from outside too.
    pub(super) fn groups_from_outside(&mut self, p: u8) {
        self.ready(p);
        self.room_for_a_stack(p);
        let Some(stack) = self.stack(p, false) else { return };
        let Some(place) = self.drive.partitions[p as usize].find(stack.group).cloned() else { return };
        if self.simply(DELETE, p, stack.group, 0, 0) != 0 {
            return;
        }
        let again = self.put_sound_object(p, place.start, place.size);
        self.reach_the_logs(&Stack { group: again, ..stack.clone() });
        for _ in 0..2 {
            let few = self.drive.partitions[p as usize].objects.len() < MOST_OBJECTS - 2;
            let Some((start, size)) = self.area_off_a_step(p).filter(|_| few) else { return };
            let group = self.put_sound_object(p, start, if size > 4 { size & !3 } else { size });
            let size = self.bytes_of(p, group).unwrap().len();
            self.reach(p, group, stack.logs[0]); // 32, mostly
            let list = self.some_list(p, group, size / NUMBER_BYTES);
            self.put_bytes(p, group, 0, &bytes_of(&list));
            for member in self.shuffled(&list).into_iter().take(4) {
                self.reach(p, group, member);
            }
        }
    }

    /// A line of a table that no load makes, and frames through a group with the rights that they can have.
    pub(super) fn groups_on_a_line(&mut self, p: u8, op: u8) {
        let ways = self.in_reach(p);
        if op > LOOK || ways.is_empty() {
            return;
        }
        for rights in self.shuffled(&[0xff, GROUP_BIT | 1 << (op - 1), GROUP_BIT]) {
            let (group, member) = self.rng.pick(&ways);
            let mut draft = self.draft_through(p, group, member, op);
            (draft.c.rights, draft.r.level) = (rights, 2);
            self.plain_at(draft.r.time, &draft);
        }
    }
}
