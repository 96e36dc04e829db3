//! Stories of change 3: gaps that start on a step and off it, of equal and of different lengths, filled at their edges.

use super::Traffic;
use crate::drive::*;
use crate::records::*;

impl Traffic<'_> {
    pub(super) fn steps(&mut self, p: u8) {
        self.ready(p);
        self.keep_few(p);
        self.pillars(p);
        self.take_the_rest(p);
        for _ in 0..3 + self.rng.below(4) {
            if self.rng.chance(50) {
                self.let_equals_go(p);
            } else {
                self.let_some_go(p);
            }
            self.fill_at_edges(p);
        }
        if self.rng.chance(70) {
            self.give_back_the_rest(p);
        }
    }

    /// Most of the objects go.
    pub(super) fn keep_few(&mut self, p: u8) {
        let kept = self.rng.below(6) as usize;
        for _ in kept..self.drive.partitions[p as usize].objects.len() {
            self.let_one_go(p);
        }
    }

    pub(super) fn let_one_go(&mut self, p: u8) {
        let objects = self.drive.partitions[p as usize].objects.clone();
        if !objects.is_empty() {
            let number = self.rng.pick(&objects).number;
            self.simply(DELETE, p, number, 0, 0);
        }
    }

    pub(super) fn let_some_go(&mut self, p: u8) {
        for _ in 0..1 + self.rng.below(4) {
            self.let_one_go(p);
        }
    }

    /// Up to three of one size that are no neighbours, so that equal gaps may come to be.
    fn let_equals_go(&mut self, p: u8) {
        let mut objects = self.drive.partitions[p as usize].objects.clone();
        if objects.is_empty() {
            return;
        }
        let size = self.rng.pick(&objects).size;
        objects.retain(|o| o.size == size);
        objects.sort_by_key(|o| o.start);
        for object in objects.iter().step_by(2).take(3) {
            self.simply(DELETE, p, object.number, 0, 0);
        }
    }

    /// Objects behind one another: of one size, so that those which go leave equal gaps; of two; or of any.
    fn pillars(&mut self, p: u8) {
        let (one, other) = (self.pillar(), self.pillar());
        let sizes = self.rng.below(3);
        for _ in 0..7 + self.rng.below(4) {
            let any = self.pillar();
            let size = self.rng.pick(&[[one, one], [one, other], [any, any]][sizes as usize]);
            self.create(p, size);
        }
    }

    /// A size of a few steps, a byte more or less, or anything between.
    fn pillar(&mut self) -> u32 {
        let steps = STEP * (1 + self.rng.below(4) as u32);
        let less = self.rng.below(STEP as u64) as u32;
        self.rng.pick(&[steps, steps + 1, steps - 1, steps - less])
    }

    pub(super) fn create(&mut self, p: u8, size: u32) {
        let number = self.new_number(p);
        self.simply(CREATE, p, 0, number, size);
    }

    /// One object for all that remains in the largest gap: from then on small gaps decide what fits.
    fn take_the_rest(&mut self, p: u8) {
        if let Some(gap) = self.open_gaps(p).into_iter().max_by_key(Gap::room) {
            self.create(p, gap.room());
        }
    }

    fn give_back_the_rest(&mut self, p: u8) {
        let largest = self.drive.partitions[p as usize].objects.iter().max_by_key(|o| o.size);
        if let Some(number) = largest.map(|o| o.number) {
            self.simply(DELETE, p, number, 0, 0);
        }
    }

    /// New objects at the edges of some gap, or of that with the most room.
    pub(super) fn fill_at_edges(&mut self, p: u8) {
        for _ in 0..1 + self.rng.below(4) {
            let gaps = self.gaps(p);
            let Some(roomiest) = gaps.iter().copied().max_by_key(Gap::room) else { return };
            let some = self.rng.pick(&gaps);
            let gap = self.rng.pick(&[some, some, roomiest]);
            let size = self.at_an_edge(&gap);
            self.create(p, size);
        }
    }

    /// A size at an edge of what a gap takes: all that remains from its place on, a byte less or more, all its bytes though the place
    /// lies behind its start, or between.
    fn at_an_edge(&mut self, gap: &Gap) -> u32 {
        let room = gap.room();
        let between = room + self.rng.below((gap.length - room) as u64 + 1) as u32;
        let part = 1 + self.rng.below(room as u64) as u32;
        self.rng.pick(&[room, room, room.saturating_sub(1), room + 1, gap.length, between, part]).max(1)
    }
}
