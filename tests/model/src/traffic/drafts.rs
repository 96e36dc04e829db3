//! Drafts: frames before they are signed, that no row refuses where the state lets them be, with their fields near the edges.

use super::Traffic;
use crate::digest::hmac;
use crate::drive::*;
use crate::frame::Frame;
use crate::records::*;
use crate::rng::Rng;
use crate::table::{Table, ALL_RIGHTS, MOST_LEVEL};

#[derive(Clone)]
pub(super) enum Sign {
    Right,
    Under(Key),  // another key in the slot
    OtherCover,  // over the data when it should not, or not over it when it should
    Flip(usize), // one bit of the digest
}

/// A frame before it is signed.
#[derive(Clone)]
pub(super) struct Draft {
    pub(super) c: Credential,
    pub(super) r: Request,
    pub(super) data: Vec<u8>,
    pub(super) sign: Sign,
    pub(super) memberless: bool, // a group's request without its last four bytes, and signed so
    pub(super) cut_to: Option<usize>,
    pub(super) cut: usize, // bytes off the end
    pub(super) add: usize, // bytes more
}

impl Draft {
    pub(super) fn is_through_a_group(&self) -> bool {
        is_through_a_group(&self.c, &self.r)
    }

    pub(super) fn target(&self) -> u32 {
        target(&self.c, &self.r)
    }

    /// Takes what it asks to a member of its object.
    pub(super) fn go_through(&mut self, member: u32) {
        self.c.rights |= GROUP_BIT;
        (self.r.mark, self.r.member) = (GROUP_MARK, member);
    }

    /// The other way round.
    pub(super) fn go_straight(&mut self) {
        self.c.rights &= !GROUP_BIT;
        (self.r.mark, self.r.member) = (REQUEST_MARK, 0);
    }
}

impl Traffic<'_> {
    /// A write's bytes, a seed, or for a load document 01's rule.
    fn plain_data(&mut self, operation: u8, b: u32) -> Vec<u8> {
        match operation {
            WRITE => self.rng.bytes(b as usize),
            SET_KEY => self.rng.bytes(16),
            LOAD => Table::default().bytes(),
            _ => vec![],
        }
    }

    /// A valid draft, plain: T at the mark, all rights, the level that is needed, everything in range.
    pub(super) fn plain(&mut self, mark: u64, operation: u8, partition: u8, slot: u8, object: u32, a: u32, b: u32) -> Draft {
        let data = self.plain_data(operation, b);
        let present = self.drive.partitions[partition as usize].present_version(object).unwrap_or(1);
        let version = if operation >= SET_KEY { 0 } else { present };
        self.counter = self.counter.wrapping_add(1);
        let mut draft = Draft {
            c: Credential {
                mark: CREDENTIAL_MARK,
                partition,
                slot,
                object,
                version,
                rights: 0x7f,
                least: 0,
                zero: 0,
                first: 0,
                end: u32::MAX,
                expiry: u64::MAX,
                holder: 1,
            },
            r: Request {
                mark: REQUEST_MARK,
                operation,
                level: 1 + (self.counter % 2) as u8,
                time: mark,
                count: self.counter,
                a,
                b,
                n: data.len() as u32,
                member: 0,
            },
            data,
            sign: Sign::Right,
            memberless: false,
            cut_to: None,
            cut: 0,
            add: 0,
        };
        self.meet_the_need(&mut draft);
        draft
    }

    /// Gives a draft what it needs by its partition's table, as far as a frame can have it.
    pub(super) fn meet_the_need(&self, d: &mut Draft) {
        let (mask, level) = self.reachable_need(d);
        d.c.rights |= mask;
        d.r.level = d.r.level.max(level);
    }

    /// The rights and the level that a draft needs. A record may ask for more than any frame has: then as much as one can have.
    pub(super) fn reachable_need(&self, d: &Draft) -> (u16, u8) {
        let need = self.drive.need(&d.c, d.r.operation);
        need.map_or((0, 0), |need| ((need.mask & ALL_RIGHTS) as u16, need.level.min(MOST_LEVEL) as u8))
    }

    /// Keys that stay unset for long, so that row 8 stays in reach.
    pub(super) fn may_set(&self, slot: u8, partition: u8, a: u32) -> bool {
        !(slot == 2 && partition == 3 && a == 1 && self.progress() < 95) && !(slot == 3 && a == 3 && self.progress() < 10)
    }

    /// A draft that the state lets through where it can, with the fields near their edges.
    pub(super) fn draft(&mut self, mark: u64, wants: &[u8]) -> Draft {
        let place = self.rng.pick(&self.taste.places);
        let p = if place < 4 { place } else { self.rng.below(4) as u8 };
        let (fitting, forced) = self.fitting_operation(wants);
        let op = if place == 4 && !forced { SET_KEY } else { self.possible_operation(fitting, p, wants, forced) };
        let through = self.group_draft(mark, op, p, wants);
        let mut draft = match (op, through) {
            (SET_KEY, _) => self.key_draft(mark, place, p),
            (LOAD, _) => self.load_draft(mark, p),
            (_, Some(draft)) => draft,
            _ => self.object_draft(mark, op, p, wants),
        };
        self.write_a_list(&mut draft);
        self.vary(&mut draft, mark);
        draft
    }

    /// An operation by the episode's taste that can be refused by these rows, and whether they left a choice.
    fn fitting_operation(&mut self, wants: &[u8]) -> (u8, bool) {
        let mut op = self.rng.weighted(&self.taste.ops) as u8 + 1;
        let mut forced = false;
        for want in wants {
            let fitting: &[u8] = match want {
                14 => &[1, 2, 3, 4, 6],
                15 => &[1, 2, 3, 4, 5, 6],
                16 | 17 => &[1, 2],
                18..=20 => &[5],
                21 => &[4, 5],
                31 => &[LOAD],
                32..=34 => &[READ, WRITE, LOOK],
                _ => continue,
            };
            forced = true;
            if !fitting.contains(&op) {
                op = self.rng.pick(fitting);
            }
        }
        (op, forced)
    }

    /// What the state does not let through becomes something else.
    fn possible_operation(&mut self, op: u8, p: u8, wants: &[u8], forced: bool) -> u8 {
        let partition = &self.drive.partitions[p as usize];
        let (objects, keyless) = (partition.objects.len(), partition.working.iter().all(Option::is_none));
        let unset = if op == LOAD { partition.key.is_none() } else { keyless };
        let op = match op {
            READ | WRITE | DELETE if objects == 0 && !wants.contains(&14) => {
                if self.rng.chance(70) { CREATE } else { LOOK }
            }
            CREATE if objects == MOST_OBJECTS && !forced && self.rng.chance(60) => DELETE,
            _ => op,
        };
        if unset && self.rng.chance(85) {
            SET_KEY
        } else {
            op
        }
    }

    /// Sets a key: of the drive or a partition where the place is 4, else a working key.
    fn key_draft(&mut self, mark: u64, place: u8, p: u8) -> Draft {
        let mut slot = if place == 4 { self.rng.pick(&[3, 3, 3, 4]) } else { 2 };
        if slot == 2 && self.drive.partitions[p as usize].key.is_none() {
            slot = 3;
        }
        let mut a = match slot {
            4 => 0,
            3 if place == 4 => self.rng.below(4) as u32,
            3 => p as u32,
            _ => self.rng.below(2) as u32,
        };
        if !self.may_set(slot, p, a) {
            a = 0;
        }
        self.plain(mark, SET_KEY, if slot == 2 { p } else { 0 }, slot, 0, a, 0)
    }

    /// Loads some good table.
    pub(super) fn load_draft(&mut self, mark: u64, p: u8) -> Draft {
        let table = self.some_table(p);
        Draft { data: table.bytes(), ..self.plain(mark, LOAD, p, 2, 0, 0, 0) }
    }

    /// An operation of 1 to 6, under a working key that is set if one is.
    fn object_draft(&mut self, mark: u64, op: u8, p: u8, wants: &[u8]) -> Draft {
        let partition = self.drive.partitions[p as usize].clone();
        let objects = &partition.objects;
        let slot = self.working_slot(p);
        let some = |rng: &mut Rng| if objects.is_empty() { 1 } else { rng.pick(objects).number };
        let mut entered: Vec<u32> = vec![]; // objects that a repeat may be for
        if wants.contains(&12) {
            entered = self.living(slot, p, mark).iter().map(|e| e.object).collect();
            entered.retain(|o| partition.find(*o).is_some() || (*o == 0 && matches!(op, LOOK | RAISE)));
        }
        let object = match op {
            CREATE => 0,
            _ if !entered.is_empty() => self.rng.pick(&entered),
            LOOK | RAISE if self.rng.chance(40) => 0,
            _ => some(&mut self.rng),
        };
        let size = partition.find(object).map_or(0, |o| o.size);
        let (a, b) = match op {
            READ | WRITE => self.range(size, op == WRITE),
            CREATE => self.creation(&partition),
            _ => (0, 0),
        };
        let mut draft = self.plain(mark, op, p, slot, object, a, b);
        self.give_a_range(&mut draft, size);
        draft
    }

    /// One whose key is set, if there is one.
    pub(super) fn working_slot(&mut self, p: u8) -> u8 {
        let working = self.drive.partitions[p as usize].working;
        let set: Vec<u8> = (0..2).filter(|slot| working[*slot as usize].is_some()).collect();
        self.rng.pick(if set.is_empty() { &[0, 1] } else { &set })
    }

    /// First and end around what a read or write asks of an object of this size; other operations may have any.
    pub(super) fn give_a_range(&mut self, d: &mut Draft, size: u32) {
        if d.r.operation == READ || d.r.operation == WRITE {
            let (a, end) = (d.r.a, d.r.a.saturating_add(d.r.b));
            (d.c.first, d.c.end) = match self.rng.below(4) {
                0 => (a, end),
                1 => (0, size),
                2 => (self.rng.below(a as u64 + 1) as u32, end.saturating_add(self.rng.below(30) as u32)),
                _ => (0, u32::MAX),
            };
        } else if self.rng.chance(50) {
            d.c.first = self.rng.next() as u32;
            d.c.end = self.rng.next() as u32; // not judged here, whatever they say
        }
    }

    /// Offset and length within a size, at its edges.
    pub(super) fn range(&mut self, size: u32, write: bool) -> (u32, u32) {
        let (whole, part) = if write { (1, 48) } else { (25, 200) };
        let most = if self.rng.chance(whole) { size } else { part };
        match self.rng.below(7) {
            0 => (0, size.min(most)),
            1 => (size, 0),
            2 => (0, 0),
            3 => (size.saturating_sub(1), size.min(1)),
            4 => (size - size.min(most), size.min(most)),
            _ => {
                let a = self.rng.below(size as u64 + 1) as u32;
                (a, self.rng.below((size - a).min(most) as u64 + 1) as u32)
            }
        }
    }

    /// A new number and a size that fits.
    fn creation(&mut self, partition: &Partition) -> (u32, u32) {
        let mut number = 1 + self.rng.below(24) as u32;
        while partition.find(number).is_some() {
            number = if self.rng.chance(90) { 1 + self.rng.below(30) as u32 } else { self.rng.next() as u32 | 1 };
        }
        if self.rng.chance(2) && partition.find(u32::MAX).is_none() {
            number = u32::MAX;
        }
        let gaps = gaps(self.drive.quarter(), &areas(&partition.objects));
        (number, self.fitting_size(&gaps))
    }

    /// A size that some gap fits, if any does: often all that a gap leaves, or more than that in a gap that has the bytes.
    fn fitting_size(&mut self, gaps: &[Gap]) -> u32 {
        let open: Vec<Gap> = gaps.iter().copied().filter(|gap| gap.fits(1)).collect();
        let Some(most) = open.iter().map(Gap::room).max() else { return 1 };
        let (room, length) = (self.rng.pick(&open).room(), self.rng.pick(gaps).length);
        let one_of_many = open.len() > 1 || self.rng.chance(10);
        let size = match self.rng.weighted(&[4, 1, 2, 3, 3, 2, 6]) {
            0 if one_of_many => room,
            1 if one_of_many => room - 1,
            2 => length,
            3 => STEP * (1 + self.rng.below(4) as u32) + self.rng.below(3) as u32 - 1,
            4 => 1 + self.rng.below((room as u64 / 4).min(2_000) + 1) as u32,
            5 => 1 + self.rng.below(room as u64) as u32,
            _ => 1 + self.rng.below((self.drive.quarter() as u64 / 20).min(60)) as u32,
        };
        size.clamp(1, most)
    }

    /// A size that no gap fits: a byte more than any leaves, as many as one has, or far too many.
    pub(super) fn size_that_fits_nowhere(&mut self, partition: &Partition) -> u32 {
        let quarter = self.drive.quarter();
        let gaps = gaps(quarter, &areas(&partition.objects));
        let most = gaps.iter().map(Gap::room).max().unwrap_or(0);
        let longest = gaps.iter().map(|gap| gap.length).max().unwrap_or(0);
        self.rng.pick(&[most + 1, most + 1, longest.max(most + 1), quarter + 1, u32::MAX])
    }

    /// The fields that every operation has, still valid, at their edges.
    fn vary(&mut self, d: &mut Draft, mark: u64) {
        let (needed, level) = self.reachable_need(d);
        d.r.level = level + self.rng.below(3 - level as u64) as u8;
        d.c.least = self.rng.below(d.r.level as u64 + 1) as u8;
        let rights = match self.rng.below(3) {
            0 => needed,
            1 => 0x7f,
            _ => needed | (self.rng.next() as u16 & 0x7f),
        };
        d.c.rights = d.c.rights & GROUP_BIT | rights;
        let later = self.rng.below(10_000);
        d.c.expiry = self.rng.pick(&[mark, mark.saturating_add(1), mark.saturating_add(later), u64::MAX]);
        let low = mark.saturating_sub(5_000);
        let high = mark.saturating_add(5_000);
        let between = low + self.rng.below(high - low + 1);
        d.r.time = match self.rng.below(8) {
            0 => low,
            1 => high,
            2 | 3 => mark,
            _ => between,
        };
        let any = self.rng.next() as u32;
        d.c.holder = self.rng.pick(&[0, 1, 1, 2, 3, u32::MAX, any]);
        d.r.count = match self.rng.below(10) {
            0 => self.rng.below(4) as u32,
            1 => self.rng.pick(&[u32::MAX, 0x8000_0000, 256]),
            _ => d.r.count,
        };
        if self.rng.chance(10) {
            self.become_a_twin(d, mark);
        }
    }

    /// Entries of a slot and its memory that live at this mark.
    pub(super) fn living(&self, slot: u8, partition: u8, mark: u64) -> Vec<Nonce> {
        let mut entries = self.drive.memory(slot, partition).cloned().unwrap_or_default();
        entries.retain(|e| e.slot == slot && e.time as u128 + 5_000 >= mark as u128);
        entries
    }

    /// The nonce of another object's entry, where this object has not used it yet.
    fn become_a_twin(&mut self, d: &mut Draft, mark: u64) {
        let entries = self.living(d.c.slot, d.c.partition, mark);
        let used = |e: &Nonce| entries.contains(&Nonce { object: d.c.object, ..e.clone() });
        let free: Vec<&Nonce> = entries.iter().filter(|e| !used(e)).collect();
        if !free.is_empty() {
            let e = self.rng.pick(&free);
            (d.c.holder, d.r.time, d.r.count) = (e.holder, e.time, e.count);
        }
    }

    /// Signs a draft with the present keys, and damages it last.
    pub(super) fn finish(&mut self, d: &Draft) -> Vec<u8> {
        let mut frame = d.c.bytes();
        frame.extend(d.r.bytes());
        frame.truncate(if d.memberless { CREDENTIAL_BYTES + REQUEST_BYTES } else { frame.len() });
        let covered = frame.len();
        frame.extend(&d.data);
        let key = match &d.sign {
            Sign::Under(key) => *key,
            _ => self.drive.key(d.c.slot, d.c.partition).unwrap_or(match d.c.slot {
                3 | 4 => self.lent_keys[d.c.slot as usize - 3],
                _ => [0; 32],
            }),
        };
        let over_data = (d.r.level >= 1) != matches!(d.sign, Sign::OtherCover);
        let signed = if over_data { &frame[..] } else { &frame[..covered] };
        let mut digest = hmac(&hmac(&key, &frame[..CREDENTIAL_BYTES]), signed);
        if let Sign::Flip(bit) = d.sign {
            digest[bit / 8] ^= 1 << (bit % 8);
        }
        frame.extend(digest);
        frame.truncate(frame.len() - d.cut.min(frame.len()));
        frame.extend(self.rng.bytes(d.add));
        if let Some(length) = d.cut_to {
            frame.truncate(length);
        }
        frame
    }

    /// A frame taken apart again, to be changed and signed anew.
    pub(super) fn draft_of(frame: &[u8]) -> Draft {
        let Frame { c, r, data, .. } = Frame::read(frame).unwrap();
        Draft {
            c,
            r,
            data: data.to_vec(),
            sign: Sign::Right,
            memberless: false,
            cut_to: None,
            cut: 0,
            add: 0,
        }
    }
}
