//! Stories of change 2: "Two heads now run as one holder, each counting from zero". Several heads send the same slot, holder, times and
//! counts on purpose, each on an object of its own, so that nothing but the object, or the memory, tells their nonces apart.

use super::{nonce_of, Traffic};
use crate::drive::*;
use crate::records::*;

/// What all heads put into their frames at one moment.
struct Beat {
    slot: u8,
    holder: u32,
    time: u64,
    count: u32,
}

impl Traffic<'_> {
    pub(super) fn two_heads(&mut self, p: u8) {
        self.ready(p);
        match self.rng.below(5) {
            0 | 1 => self.heads_in_turn(p),
            2 => self.heads_and_a_purge(p),
            3 => self.heads_of_two_partitions(p),
            _ => self.heads_fill_a_memory(p),
        }
    }

    /// Each head counts from zero. Some frames come twice; an object goes and comes back.
    fn heads_in_turn(&mut self, p: u8) {
        let heads = self.heads(p);
        let clock = self.tick();
        let mut beat = self.first_beat(p, clock);
        for _ in 0..2 + self.rng.below(3) {
            for object in self.shuffled(&heads) {
                let frame = self.head_frame(p, object, &beat);
                self.put(clock, frame.clone());
                if self.rng.chance(40) {
                    self.put(clock, frame); // 12
                }
            }
            beat.count += 1;
        }
        beat.count -= 1;
        let missing = self.new_number(p);
        let frame = self.head_frame(p, missing, &beat);
        self.put(clock, frame); // 14, and no repeat
        let Some(object) = heads.into_iter().find(|o| *o != 0) else { return };
        self.simply(DELETE, p, object, 0, 0);
        let frame = self.head_frame(p, object, &beat);
        self.put(clock, frame); // 12, and no longer there
        self.have(p, object);
        let frame = self.head_frame(p, object, &beat);
        self.put(clock, frame); // 12: the number is the same, whatever the version
    }

    /// Heads send at several times, in any order; then all comes again where the oldest entries are just kept and just outlived, and
    /// heads that were silent join with what the others sent.
    fn heads_and_a_purge(&mut self, p: u8) {
        let mut heads = self.heads(p);
        let late = if heads.len() > 2 { heads.pop() } else { None };
        let clock = self.tick();
        let mut beat = self.first_beat(p, clock);
        let mut sent = vec![];
        for late_by in [0, 40, 20, 60] {
            for object in self.shuffled(&heads) {
                let frame = self.head_frame(p, object, &Beat { time: beat.time.saturating_add(late_by), ..beat });
                self.put(clock, frame.clone());
                sent.push(frame);
            }
            beat.count += self.rng.below(2) as u32;
        }
        for edge in [5_000, 5_001, 5_020, 5_021, 5_060] {
            let Some(edge) = beat.time.checked_add(edge).filter(|e| *e >= self.drive.mark && *e < self.ceiling) else { return };
            for frame in self.shuffled(&sent) {
                self.put(edge, frame); // 11 or 12
            }
            if let Some(object) = late {
                let other = nonce_of(&self.rng.pick(&sent));
                let frame = self.head_frame(p, object, &Beat { time: other.time, count: other.count, ..beat });
                self.put(edge, frame);
            }
        }
    }

    /// Two partitions with the same object numbers: two memories, so that all that differs may be the partition.
    fn heads_of_two_partitions(&mut self, p: u8) {
        let q = (p + 1 + self.rng.below(3) as u8) % 4;
        self.ready(q);
        let heads = self.heads(p);
        self.make_room(q);
        for object in &heads {
            self.have(q, *object);
        }
        let clock = self.tick();
        let beat = Beat { slot: 0, ..self.first_beat(p, clock) };
        let mut places: Vec<(u8, u32)> = heads.iter().flat_map(|object| [(p, *object), (q, *object)]).collect();
        places.extend(places.clone()); // each once more: 12
        for (partition, object) in self.shuffled(&places) {
            let frame = self.head_frame(partition, object, &beat);
            self.put(clock, frame);
        }
    }

    /// 64 entries of a few counts; then one more, and a repeat, which is told first.
    fn heads_fill_a_memory(&mut self, p: u8) {
        self.heads(p);
        let mut heads: Vec<u32> = self.drive.partitions[p as usize].objects.iter().map(|o| o.number).collect();
        heads.push(0);
        let clock = self.tick();
        let mut beat = self.first_beat(p, clock);
        for _ in 0..MOST_ENTRIES {
            for object in self.shuffled(&heads) {
                let frame = self.head_frame(p, object, &beat);
                let row = self.put(clock, frame.clone());
                if row == 22 || row == 255 {
                    let sent = Beat { count: beat.count.saturating_sub(1), ..beat };
                    let again = self.head_frame(p, object, &sent);
                    self.put(clock, again); // 12, or 22 in the first round
                    return;
                }
            }
            beat.count += 1;
        }
    }

    /// Heads of a partition: two on objects whose numbers differ in one bit, where there is room for them; perhaps a third, perhaps one
    /// on the partition itself, which is object 0.
    fn heads(&mut self, p: u8) -> Vec<u32> {
        self.make_room(p);
        let objects = self.drive.partitions[p as usize].objects.clone();
        let one = if objects.is_empty() { self.new_number(p) } else { self.rng.pick(&objects).number };
        let mut heads = vec![one, one ^ 1 << self.rng.below(32)];
        for object in heads.clone() {
            self.have(p, object);
        }
        if !objects.is_empty() && self.rng.chance(40) {
            heads.push(self.rng.pick(&objects).number);
        }
        if self.rng.chance(60) {
            heads.push(0);
        }
        heads.retain(|o| self.drive.partitions[p as usize].present_version(*o).is_some());
        heads.sort();
        heads.dedup();
        self.shuffled(&heads)
    }

    /// Sees to it that two more objects may be created.
    fn make_room(&mut self, p: u8) {
        for _ in 0..2 {
            let objects = &self.drive.partitions[p as usize].objects;
            if objects.len() > MOST_OBJECTS - 2 {
                let oldest = objects[0].number;
                self.simply(DELETE, p, oldest, 0, 0);
            }
        }
    }

    /// Sees to it that the object exists, where it can.
    fn have(&mut self, p: u8, number: u32) {
        if self.drive.partitions[p as usize].present_version(number).is_none() {
            let size = 1 + self.rng.below(8) as u32;
            self.simply(CREATE, p, 0, number, size);
        }
    }

    /// Counting from zero, under a working key that is set.
    fn first_beat(&mut self, p: u8, clock: u64) -> Beat {
        let gold = self.drive.partitions[p as usize].working[1].is_some() && self.rng.chance(30);
        let (mark, any) = (self.drive.mark.max(clock), self.rng.next() as u32);
        let (early, late) = (mark.saturating_sub(self.rng.below(4_000)), mark.saturating_add(self.rng.below(4_000)));
        Beat {
            slot: gold as u8,
            holder: self.rng.pick(&[0, 1, 7, u32::MAX, any]),
            time: self.rng.pick(&[mark, early, late]),
            count: 0,
        }
    }

    /// What a head asks: something of its object.
    fn head_frame(&mut self, p: u8, object: u32, beat: &Beat) -> Vec<u8> {
        let op = if object == 0 { self.rng.pick(&[LOOK, LOOK, RAISE]) } else { self.rng.pick(&[READ, WRITE, LOOK, RAISE]) };
        let size = self.drive.partitions[p as usize].find(object).map_or(0, |o| o.size);
        let b = if op == READ || op == WRITE { self.rng.below(size.min(16) as u64 + 1) as u32 } else { 0 };
        let mut d = self.plain(beat.time, op, p, beat.slot, object, 0, b);
        d.c.holder = beat.holder;
        d.r.count = beat.count;
        self.finish(&d)
    }

    pub(super) fn shuffled<T: Clone>(&mut self, list: &[T]) -> Vec<T> {
        let mut list = list.to_vec();
        self.rng.shuffle(&mut list);
        list
    }
}
