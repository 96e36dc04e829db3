//! Episodes: the short stories that random calls are made of.

use super::drafts::Draft;
use super::{nonce_of, Clock, Taste, Traffic};
use crate::drive::*;
use crate::records::*;

/// The rows that calls are aimed at. Of the program's calls none meets rows 21 and 23, and row 22 has its own story.
const AIMED_AT: [u8; 23] = [2, 3, 4, 5, 6, 7, 8, 9, 10, 11, 12, 13, 14, 15, 16, 17, 18, 19, 20, 31, 32, 33, 34];
const AIMED_AT_IN_A_LIBRARY: [u8; 26] =
    [2, 3, 4, 5, 6, 7, 8, 9, 10, 11, 12, 13, 14, 15, 16, 17, 18, 19, 20, 21, 22, 23, 31, 32, 33, 34];
const ROWS_OF_ONE_OPERATION: [[u8; 2]; 10] =
    [[16, 17], [14, 16], [15, 17], [18, 20], [15, 18], [14, 15], [12, 13], [13, 31], [12, 31], [7, 13]];
/// Of frames that go through a group.
const ROWS_OF_A_GROUP: [[u8; 2]; 14] = [
    [12, 32],
    [12, 33],
    [13, 32],
    [13, 34],
    [15, 32],
    [15, 33],
    [15, 34],
    [32, 33],
    [33, 34],
    [16, 32],
    [16, 33],
    [16, 34],
    [17, 32],
    [17, 33],
];

impl Traffic<'_> {
    /// All the calls.
    pub fn run(&mut self) {
        if self.drive.master.is_none() {
            return self.unformatted();
        }
        if self.objects_from_outside {
            self.furnish();
        }
        let tail = if self.breach.is_some() { 0 } else { (self.total / 20).min(1_500) };
        self.start();
        let mut leapt = false;
        while self.left > tail {
            if !leapt && self.progress() >= 70 {
                leapt = true;
                let over = (1 << 63) + self.rng.below(1 << 40);
                self.one_at(over, &[]); // past the 63 bits of a signed number
            }
            self.episode();
        }
        match self.breach {
            Some((breach, calls)) => self.break_record(breach, calls),
            None => self.finale(),
        }
    }

    /// One of the stories.
    fn episode(&mut self) {
        self.taste = Taste::balanced();
        let p = self.rng.below(4) as u8;
        let steps = if self.library { 20 } else { 12 };
        let (objects, needs) = (if self.objects_from_outside { 50 } else { 0 }, if self.needs_from_outside { 80 } else { 0 });
        let (stacks, stacks_too) = (if self.library { 130 } else { 46 }, if self.objects_from_outside { 20 } else { 0 });
        match self.rng.weighted(&[50, 6, 12, 6, 9, 9, 9, 6, 3, 6, 9, steps, 20, objects, needs, stacks, stacks_too]) {
            0 => self.balanced(),
            1 => {
                let place = self.rng.below(5) as u8;
                self.fill_memory(place)
            }
            2 => self.fill_partition(p),
            3 => self.set_back(p),
            4 => self.edges(),
            5 => self.recreate(p),
            6 => self.late_frames(),
            7 => self.two_part_read(p),
            8 => self.leap(),
            9 => self.last_versions(p),
            10 => self.two_heads(p),
            11 => self.steps(p),
            12 => self.tables(p),
            13 => self.more_objects(p),
            14 => self.more_needs(p),
            15 => self.stacks(p),
            _ => self.groups_from_outside(p),
        }
    }

    /// The drive of a refused format: no key, so a good frame is row 8. First two calls that tell its table: rows 7 and 8.
    fn unformatted(&mut self) {
        for (op, slot) in [(SET_KEY, 2), (LOOK, 0)] {
            let (clock, p) = (self.rng.below(10_000), self.rng.below(4) as u8);
            let mut d = self.plain(self.drive.mark.max(clock), op, p, slot, 0, 0, 0);
            d.r.level = 0;
            self.plain_at(clock, &d);
        }
        while self.left > 0 {
            let clock = self.rng.below(10_000);
            let mark = self.drive.mark.max(clock);
            match self.rng.weighted(&[15, 35, 50]) {
                0 => self.one_at(clock, &[]),
                1 => {
                    let slot = self.rng.pick(&[3, 4]);
                    let d = self.plain(mark, SET_KEY, 0, slot, 0, 0, 0);
                    self.plain_at(clock, &d)
                }
                _ => {
                    let d = self.draft_without_a_key(mark);
                    self.plain_at(clock, &d)
                }
            };
        }
    }

    /// A bit of everything.
    fn balanced(&mut self) {
        let length = 40 + self.rng.below(200);
        self.taste.clock = self.rng.pick(&[Clock::Drift, Clock::Drift, Clock::Wild, Clock::Still]);
        if self.rng.chance(40) {
            let p = self.rng.below(4) as u8;
            self.taste.places = vec![p, p, p, 4];
        }
        for _ in 0..length {
            match self.rng.weighted(&[5, 4, 3, 4, 4, 80]) {
                0 => self.replay(),
                1 => self.damage(),
                2 => {
                    let clock = self.drive.mark;
                    let frame = self.frame_for(clock, &[]);
                    self.held.push(frame);
                }
                3 => self.send_held(),
                4 => self.near_nonce(),
                _ => {
                    let wants = self.wants();
                    self.one(&wants);
                }
            }
        }
    }

    /// Rows to aim at: none, one, two or three, any together.
    pub(super) fn wants(&mut self) -> Vec<u8> {
        let many = self.rng.weighted(&self.taste.spoils);
        let mut wants = vec![];
        for _ in 0..many {
            let row = self.rng.pick(if self.library { &AIMED_AT_IN_A_LIBRARY[..] } else { &AIMED_AT });
            if !wants.contains(&row) {
                wants.push(row);
            }
        }
        // Two of one operation's rows meet seldom by chance.
        if many == 2 && self.rng.chance(25) {
            wants = self.rng.pick(&ROWS_OF_ONE_OPERATION).to_vec();
        } else if many == 2 && self.rng.chance(20) {
            wants = self.rng.pick(&ROWS_OF_A_GROUP).to_vec();
        }
        wants
    }

    fn some_granted(&mut self) -> Option<Vec<u8>> {
        if self.granted.is_empty() {
            return None;
        }
        let back = if self.rng.chance(70) { self.rng.below(20) } else { self.rng.below(300) } as usize;
        Some(self.granted[self.granted.len() - 1 - back.min(self.granted.len() - 1)].clone())
    }

    /// A granted frame, once more.
    fn replay(&mut self) {
        if let Some(frame) = self.some_granted() {
            let clock = self.clock();
            self.put(clock, frame);
        }
    }

    /// A granted frame with one part of its nonce changed and signed anew: it is another nonce.
    fn near_nonce(&mut self) {
        let Some(frame) = self.some_granted() else { return };
        let mut d = Self::draft_of(&frame);
        let ways = if d.is_through_a_group() { 12 } else { 9 };
        match self.rng.below(ways) {
            0 => d.c.holder ^= 1 << self.rng.below(32),
            1 => d.r.count ^= 1 << self.rng.below(32),
            2 => d.r.time = d.r.time.wrapping_add(1),
            3 => d.r.time = d.r.time.wrapping_sub(1),
            4 if d.c.slot < 2 => d.c.slot = 1 - d.c.slot,
            5 if d.c.slot == 3 => (d.c.slot, d.r.a) = (4, 0),
            6 | 7 => self.look_elsewhere(&mut d),
            9 => self.another_member(&mut d), // the same nonce
            10 | 11 => {
                d.c.object = self.rng.pick(&[d.c.object, d.r.member]); // the same nonce, or the member's own
                d.go_straight();
            }
            _ => d.r.level = 1 + d.r.level % 2, // the same nonce
        }
        if d.r.operation <= 6 {
            let p = &self.drive.partitions[d.c.partition as usize];
            d.c.version = p.present_version(d.c.object).unwrap_or(d.c.version);
        }
        if !self.may_set(d.c.slot, d.c.partition, d.r.a) && d.r.operation == SET_KEY {
            return;
        }
        if self.rng.chance(80) {
            self.meet_the_need(&mut d); // the table may be another one now
        }
        let clock = self.clock();
        self.plain_at(clock, &d);
    }

    /// A look at another object, or at the partition, in the place of what a draft under a working key asks.
    fn look_elsewhere(&mut self, d: &mut Draft) {
        let objects = &self.drive.partitions[d.c.partition as usize].objects;
        let elsewhere: Vec<u32> = objects.iter().map(|o| o.number).chain([0]).filter(|o| *o != d.c.object).collect();
        if d.c.slot < 2 && !elsewhere.is_empty() {
            d.c.object = self.rng.pick(&elsewhere);
            d.go_straight();
            (d.r.operation, d.r.a, d.r.b, d.r.n) = (LOOK, 0, 0, 0);
            d.data.clear();
            self.meet_the_need(d);
        }
    }

    fn send_held(&mut self) {
        if self.held.is_empty() {
            return;
        }
        let at = self.rng.below(self.held.len() as u64) as usize;
        let frame = self.held.swap_remove(at);
        let clock = self.clock();
        self.put(clock, frame);
    }

    /// Frames damaged on the wire.
    fn damage(&mut self) {
        let clock = self.clock();
        let mut frame = self.frame_for(clock, &[]);
        match self.rng.below(10) {
            0 => {
                let length = self.rng.below(200) as usize;
                frame = self.rng.bytes(length);
            }
            1 => {
                let length = self.rng.below(frame.len() as u64) as usize;
                frame.truncate(length);
            }
            2 => frame.truncate(96),
            3 => {
                // One frame's credential before another's request.
                if let Some(other) = self.some_granted() {
                    frame[..36].copy_from_slice(&other[..36]);
                }
            }
            4 => {
                if let Some(other) = self.some_granted() {
                    frame[36..64].copy_from_slice(&other[36..64]);
                }
            }
            5 => {
                // At level 0 the digest does not cover the data: other bytes pass.
                if frame.len() > 96 {
                    let at = 64 + self.rng.below(frame.len() as u64 - 96) as usize;
                    frame[at] ^= 0x55;
                }
            }
            6 if self.rng.chance(15) => {
                let most = if self.library { 70_000 } else { 65_536 };
                let length = self.rng.pick(&[most, most - 1]);
                if let Some(object) = self.drive.partitions[0].objects.first().map(|o| o.number) {
                    let mut d = self.plain(self.drive.mark.max(clock), WRITE, 0, 0, object, 0, length as u32 - 96);
                    d.r.level = self.rng.below(3) as u8;
                    frame = self.finish(&d);
                } else {
                    frame.resize(length, 0);
                }
            }
            _ => {
                for _ in 0..1 + self.rng.below(3) {
                    let at = self.rng.below(frame.len() as u64) as usize;
                    frame[at] ^= 1 << self.rng.below(8);
                }
            }
        }
        self.put(clock, frame);
    }

    /// Sees to it that a partition has its key and a black key.
    pub(super) fn ready(&mut self, p: u8) {
        let mark = self.drive.mark;
        if self.drive.partitions[p as usize].key.is_none() && self.may_set(3, 0, p as u32) {
            let d = self.plain(mark, SET_KEY, 0, 3, 0, p as u32, 0);
            self.plain_at(mark, &d);
        }
        if self.drive.partitions[p as usize].working[0].is_none() {
            let d = self.plain(mark, SET_KEY, p, 2, 0, 0, 0);
            self.plain_at(mark, &d);
        }
    }

    fn memory_of(&self, place: u8) -> &Vec<Nonce> {
        if place == 4 {
            &self.drive.fifth
        } else {
            &self.drive.partitions[place as usize].memory
        }
    }

    /// 64 entries; every other row against row 22; then outlived one by one, at the edge.
    fn fill_memory(&mut self, place: u8) {
        if place < 4 {
            self.ready(place);
            self.a_group(place);
        }
        self.taste.places = vec![place];
        self.taste.ops = [10, 10, 30, 5, 4, 2, 3, 2];
        self.taste.clock = Clock::Still;
        for _ in 0..160 {
            if self.memory_of(place).len() >= MOST_ENTRIES {
                break;
            }
            self.one(&[]);
        }
        for row in 2..=23 {
            self.one(&[row]);
        }
        if place < 4 {
            self.groups_of_a_full_memory(place);
        }
        for _ in 0..4 {
            self.one(&[31]);
            let (mark, p) = (self.drive.mark, place % 4);
            let good = self.load_draft(mark, p);
            self.plain_at(mark, &good);
        }
        for _ in 0..6 {
            self.one(&[]);
            self.replay();
        }
        for _ in 0..5 {
            let Some(oldest) = self.memory_of(place).iter().map(|e| e.time).min() else { return };
            let Some(edge) = oldest.checked_add(5_000).filter(|e| *e < self.ceiling && *e >= self.drive.mark) else { return };
            self.one_at(edge, &[]);
            self.one_at(edge + 1, &[]);
            for _ in 0..3 {
                self.one(&[]);
            }
        }
    }

    /// 16 objects; every other row against row 19; then gaps that fit exactly, and by one not.
    fn fill_partition(&mut self, p: u8) {
        self.ready(p);
        self.taste.places = vec![p];
        self.taste.ops = [2, 2, 1, 1, 30, 0, 0, 0];
        self.fill_to_the_last_byte(p);
        for row in 2..=20 {
            let clock = self.tick();
            let wants = if row == 19 { vec![19] } else { vec![row, 19] };
            self.one_at(clock, &wants);
        }
        for wants in [vec![19, 20], vec![18, 20], vec![18, 19, 20]] {
            let clock = self.tick();
            self.one_at(clock, &wants);
        }
        for _ in 0..4 {
            self.let_some_go(p);
            self.fill_at_edges(p); // new ones come into the gaps
        }
    }

    /// Up to 16 objects, many of a size that leaves room for the others. Where one gap is left with room, the last one takes all of it.
    fn fill_to_the_last_byte(&mut self, p: u8) {
        for _ in 0..40 {
            let missing = MOST_OBJECTS - self.drive.partitions[p as usize].objects.len();
            let open = self.open_gaps(p);
            let most = open.iter().map(Gap::room).max().unwrap_or(0);
            let share = 1 + self.rng.below(most as u64 / missing.max(1) as u64) as u32;
            match missing {
                0 => return,
                1 if open.len() == 1 => self.create(p, most),
                _ if self.rng.chance(60) => self.create(p, share),
                _ => {
                    let clock = self.tick();
                    self.one_at(clock, &[]);
                }
            }
        }
    }

    /// A partition that is near its last version: full, then raised to the end, and row 21 beside every other.
    fn last_versions(&mut self, p: u8) {
        if u32::MAX - self.drive.partitions[p as usize].last_given > 80 {
            return;
        }
        self.ready(p);
        for _ in 0..20 {
            let partition = self.drive.partitions[p as usize].clone();
            if partition.objects.len() < MOST_OBJECTS && partition.last_given < u32::MAX {
                let number = self.new_number(p);
                self.simply(CREATE, p, 0, number, 1);
            }
        }
        for _ in 0..90 {
            if self.drive.partitions[p as usize].last_given < u32::MAX {
                self.simply(RAISE, p, 0, 0, 0);
            }
        }
        self.taste.places = vec![p];
        for row in 2..=23 {
            let clock = self.tick();
            self.one_at(clock, &[row, 21]);
        }
        for _ in 0..3 {
            self.simply(RAISE, p, 0, 0, 0);
            let number = self.new_number(p);
            self.simply(CREATE, p, 0, number, 1);
        }
    }

    pub(super) fn new_number(&mut self, p: u8) -> u32 {
        loop {
            let number = 1 + self.rng.below(40) as u32;
            if self.drive.partitions[p as usize].find(number).is_none() {
                return number;
            }
        }
    }

    /// One plain operation under the black key, a tick later.
    pub(super) fn simply(&mut self, op: u8, p: u8, object: u32, a: u32, b: u32) -> u8 {
        let clock = self.tick();
        let d = self.plain(self.drive.mark.max(clock), op, p, 0, object, a, b);
        self.plain_at(clock, &d)
    }

    /// "Dropping nonces at a key change: a key may be set back." The same request and seed from another holder set the same key.
    fn set_back(&mut self, p: u8) {
        self.ready(p);
        let clock = self.tick();
        let mark = self.drive.mark.max(clock);
        // The key that is set, and an operation signed by it.
        let (first, used) = match self.rng.below(3) {
            0 => (self.plain(mark, SET_KEY, p, 2, 0, 0, 0), self.plain(mark, LOOK, p, 0, 0, 0, 0)),
            1 if self.may_set(3, 0, p as u32) => {
                (self.plain(mark, SET_KEY, 0, 3, 0, p as u32, 0), self.plain(mark, SET_KEY, p, 2, 0, 0, 0))
            }
            _ => (self.plain(mark, SET_KEY, 0, 4, 0, 0, 0), self.plain(mark, SET_KEY, 0, 3, 0, 0, 0)),
        };
        let first_frame = self.finish(&first);
        self.put(clock, first_frame.clone());
        let used = self.finish(&used);
        self.put(clock, used.clone());
        self.put(clock, used.clone()); // 12
        let mut second = first.clone();
        second.r.count = second.r.count.wrapping_add(1_000_000);
        self.plain_at(clock, &second);
        self.put(clock, used.clone()); // 9
        let mut back = first.clone();
        back.c.holder = self.rng.next() as u32;
        self.plain_at(clock, &back);
        self.put(clock, used.clone()); // 12, under the old key again
        self.put(clock, first_frame); // 12
        let edge = mark.saturating_add(5_000);
        if edge < self.ceiling && self.rng.chance(50) {
            self.put(edge, used.clone()); // 12 still
            self.put(edge + 1, used); // 11
        }
    }

    /// Granted frames again when their entry is just kept and just outlived; expiries and times around the mark.
    fn edges(&mut self) {
        for _ in 0..6 {
            let clock = self.tick();
            self.one_at(clock, &[]);
        }
        self.granted_edges();
        for _ in 0..12 {
            let clock = self.tick();
            let mark = self.drive.mark.max(clock);
            let mut d = self.draft(mark, &[]);
            d.c.expiry = self.rng.pick(&[mark, mark.wrapping_sub(1), mark.wrapping_add(1)]);
            d.r.time = self.rng.pick(&[
                mark,
                mark.wrapping_sub(5_000),
                mark.wrapping_sub(5_001),
                mark.wrapping_add(5_000),
                mark.wrapping_add(5_001),
            ]);
            self.plain_at(clock, &d);
        }
    }

    fn granted_edges(&mut self) {
        let mut frames: Vec<Vec<u8>> = self.granted.iter().rev().take(5).cloned().collect();
        frames.sort_by_key(|f| nonce_of(f).time);
        for frame in frames {
            let time = nonce_of(&frame).time;
            let Some(edge) = time.checked_add(5_000) else { continue };
            if edge >= self.drive.mark && edge < self.ceiling {
                self.put(edge, frame.clone());
                self.put(edge + 1, frame);
            }
        }
    }

    /// "Giving a recreated object its old version", and its old bytes.
    fn recreate(&mut self, p: u8) {
        self.ready(p);
        let (Some(room), number) = (self.open_gaps(p).iter().map(Gap::room).max(), self.new_number(p)) else { return };
        let size = 1 + self.rng.below(room.min(64) as u64) as u32;
        self.simply(CREATE, p, 0, number, size);
        self.simply(WRITE, p, number, 0, size);
        self.simply(READ, p, number, 0, size);
        let clock = self.tick();
        let mark = self.drive.mark.max(clock);
        let early = [self.plain(mark, READ, p, 0, number, 0, size), self.plain(mark, READ, p, 0, number, 0, size)];
        if self.rng.chance(50) {
            self.simply(RAISE, p, number, 0, 0);
            self.plain_at(clock, &early[0]); // 15
        }
        self.simply(DELETE, p, number, 0, 0);
        let mut between = early[0].clone();
        between.r.count = between.r.count.wrapping_add(1_000);
        self.plain_at(clock, &between); // 14
        self.simply(CREATE, p, 0, number, size);
        self.plain_at(clock, &early[1]); // 15
        self.simply(READ, p, number, 0, size); // zeros
    }

    /// Frames built in one order and sent in another, some twice, some after a key or version change.
    fn late_frames(&mut self) {
        let clock = self.tick();
        let mut frames = vec![];
        for _ in 0..4 + self.rng.below(12) {
            let frame = self.frame_for(clock, &[]);
            if self.rng.chance(30) {
                frames.push(frame.clone());
            }
            frames.push(frame);
        }
        self.rng.shuffle(&mut frames);
        for frame in frames {
            let clock = match self.rng.below(4) {
                0 => clock,
                1 => self.drive.mark.saturating_sub(1),
                _ => self.drive.mark + self.rng.below(1_500),
            };
            self.put(clock.min(self.ceiling), frame);
        }
    }

    /// The old store's fault: an expiry, a version change and a late frame between two parts of one read.
    fn two_part_read(&mut self, p: u8) {
        self.ready(p);
        let Some(object) = self.drive.partitions[p as usize].objects.first().cloned() else { return };
        let clock = self.tick();
        let mark = self.drive.mark.max(clock);
        let half = object.size / 2;
        let mut first = self.plain(mark, READ, p, 0, object.number, 0, half);
        let mut second = self.plain(mark, READ, p, 0, object.number, half, object.size - half);
        first.c.expiry = mark + 300;
        second.c.expiry = mark + 300;
        let late = self.plain(mark, WRITE, p, 0, object.number, 0, object.size.min(30));
        let (second, late) = (self.finish(&second), self.finish(&late));
        self.plain_at(clock, &first);
        match self.rng.below(4) {
            0 => {
                self.simply(RAISE, p, object.number, 0, 0);
            }
            1 => {
                self.put(clock, late.clone());
            }
            2 => {
                self.put(mark + 301, vec![]); // the mark moves by a frame that is refused
            }
            _ => {}
        }
        self.put(clock, second.clone());
        self.put(clock, late);
        self.put(clock, second);
    }

    /// The clock jumps far ahead, with any frame.
    fn leap(&mut self) {
        let far = self.drive.mark.saturating_add(1 << (13 + self.rng.below(32))).min(self.ceiling);
        let wants = self.wants();
        self.one_at(far, &wants);
        for _ in 0..10 {
            self.replay();
        }
    }

    /// The first milliseconds: the paper's example, then a clock at 0, then around 5,000.
    fn start(&mut self) {
        self.put(0, vec![]);
        self.put(0, vec![0; 96]);
        self.taste.clock = Clock::Still;
        for _ in 0..(self.total / 40).min(120) {
            let wants = self.wants();
            self.one(&wants);
        }
        for reading in [1, 4_999, 5_000, 5_001, 9_999, 10_000, 10_001] {
            for _ in 0..(self.total / 200).min(25) {
                let wants = self.wants();
                self.one_at(reading, &wants);
            }
        }
    }

    /// The last milliseconds that 64 bits hold. From there no entry is outlived any more.
    pub(super) fn finale(&mut self) {
        self.ceiling = u64::MAX;
        self.taste = Taste::balanced();
        // A library's short lives may jump to the end at once.
        let skipped = if self.library { self.rng.below(8) as usize } else { 0 };
        for back in [20_000, 10_001, 10_000, 5_001, 5_000, 4_999, 1, 0].into_iter().skip(skipped) {
            let reading = u64::MAX - back;
            let length = self.left / if back == 0 { 1 } else { 12 };
            self.taste.clock = Clock::Still;
            let wants = self.wants();
            self.one_at(reading, &wants);
            for _ in 0..length {
                match self.rng.below(10) {
                    0 => self.replay(),
                    1 => self.near_nonce(),
                    2 => {
                        let mark = self.drive.mark;
                        let mut d = self.draft(mark, &[]);
                        d.r.time = self.rng.pick(&[
                            u64::MAX,
                            u64::MAX - 5_000,
                            u64::MAX - 5_001,
                            u64::MAX - 1,
                            0,
                            4_999,
                            5_000,
                            mark.wrapping_add(5_000),
                            mark.wrapping_add(5_001),
                            mark.wrapping_sub(5_001),
                        ]);
                        self.plain_at(mark, &d);
                    }
                    _ => {
                        let wants = self.wants();
                        self.one(&wants);
                    }
                }
            }
        }
        while self.left > 0 {
            self.one(&[]);
        }
    }
}
