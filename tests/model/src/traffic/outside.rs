//! What comes into the drive record from outside, so that no list of calls makes it: objects at any start, by change 3's "row 1 asks for
//! no such step", and lines of operation tables that are not good, of which row 1 says nothing. Calls go on among them; in the end an
//! object may leave the record unsound.

use super::asked::Since;
use super::{Put, PutNeed, Taste, Traffic};
use crate::drive::*;
use crate::records::{GROUP_BIT, LOOK, READ, SET_KEY};
use crate::table::*;

/// Which clause an object breaks: "with different numbers from 1, nonempty disjoint areas inside its quarter and no version over the
/// last given".
#[derive(Clone, Copy, Debug)]
pub enum Breach {
    NumberTwice,
    NumberZero,
    Empty,
    Overlap,
    PastTheQuarter,
    VersionOver,
}

pub const BREACHES: [Breach; 6] = [
    Breach::NumberTwice,
    Breach::NumberZero,
    Breach::Empty,
    Breach::Overlap,
    Breach::PastTheQuarter,
    Breach::VersionOver,
];

impl<'a> Traffic<'a> {
    /// Objects come from outside too, before the first call and between others.
    pub fn with_objects(mut self) -> Traffic<'a> {
        self.objects_from_outside = true;
        self
    }

    /// Lines of operation tables come from outside too, between calls.
    pub fn with_needs(mut self) -> Traffic<'a> {
        self.needs_from_outside = true;
        self
    }

    /// The last calls, so many of all, find a record that an object from outside has made unsound.
    pub fn broken_by(mut self, breach: Breach, calls: usize) -> Traffic<'a> {
        assert!(self.drive.quarter() > 0);
        self.left -= calls;
        self.breach = Some((breach, calls));
        self
    }

    /// Before the first call: no, few or many objects in each partition.
    pub(super) fn furnish(&mut self) {
        for p in 0..4 {
            let count = self.rng.pick(&[0, 1, 3, 6, 10, 16, 16]);
            self.put_some(p, count);
        }
    }

    /// Between calls: a few more, and creates at the edges of the gaps that they leave.
    pub(super) fn more_objects(&mut self, p: u8) {
        self.ready(p);
        if self.rng.chance(50) {
            self.keep_few(p);
        }
        let count = 1 + self.rng.below(9) as usize;
        self.put_some(p, count);
        for _ in 0..1 + self.rng.below(3) {
            self.fill_at_edges(p);
            self.let_some_go(p);
        }
    }

    /// So many objects, where the partition has room for them: at any distance, or at one.
    fn put_some(&mut self, p: u8, count: usize) {
        if self.rng.chance(40) {
            self.put_a_comb(p, count);
        } else {
            self.put_objects(p, count);
        }
    }

    /// Objects of one size at one distance, up to a last one that may take the rest of the gap. Their gaps are equal, and the first
    /// multiples lie differently far in them.
    fn put_a_comb(&mut self, p: u8, count: usize) {
        let Some(whole) = self.gaps(p).into_iter().max() else { return };
        let teeth = count.min(MOST_OBJECTS - self.drive.partitions[p as usize].objects.len());
        let (size, apart) = (1 + self.rng.below(20) as u32, 10 + self.rng.below(40) as u32);
        let first = whole.start + 1 + self.rng.below(20) as u32;
        for i in 0..teeth {
            let start = first + i as u32 * (size + apart);
            let rest = whole.end().saturating_sub(start);
            let last = i == teeth - 1 || rest < size + apart;
            let size = if last && self.rng.chance(70) { rest } else { size };
            if size > 0 && size <= rest {
                self.put_sound_object(p, start, size);
            }
        }
    }

    /// So many objects at any distance, mostly off a step.
    fn put_objects(&mut self, p: u8, count: usize) {
        for _ in 0..count {
            let objects = self.drive.partitions[p as usize].objects.len();
            let area = self.area_off_a_step(p);
            if let Some((start, size)) = area.filter(|_| objects < MOST_OBJECTS) {
                self.put_sound_object(p, start, size);
            }
        }
    }

    /// A new object with this area, which number it has, and a last version given that is not under the partition's.
    pub(super) fn put_sound_object(&mut self, p: u8, start: u32, size: u32) -> u32 {
        let number = self.new_number(p);
        let partition = &self.drive.partitions[p as usize];
        let (version, last) = (partition.version, partition.last_given);
        let few = self.rng.below(40) as u32;
        let many = 1 << self.rng.below(32);
        let last_given = match self.rng.weighted(&[50, 47, 3]) {
            0 => last,
            1 => last.saturating_add(few),
            _ => last.saturating_add(many),
        };
        let version = self.rng.pick(&[last_given, last_given, last, version, 0]);
        self.put_object(p, Object { number, version, start, size }, last_given);
        assert!(self.drive.sound());
        number
    }

    /// Some free bytes, mostly not from a multiple of 16 on.
    pub(super) fn area_off_a_step(&mut self, p: u8) -> Option<(u32, u32)> {
        let mut area = self.free_area(p)?;
        for _ in 0..6 {
            if area.0 % STEP == 0 && self.rng.chance(95) {
                area = self.free_area(p)?;
            }
        }
        Some(area)
    }

    /// Some free bytes: start and size. Often near an end of their gap, so that small gaps come to be.
    fn free_area(&mut self, p: u8) -> Option<(u32, u32)> {
        let gaps = self.gaps(p);
        if gaps.is_empty() {
            return None;
        }
        let gap = self.rng.pick(&gaps);
        let most = self.rng.pick(&[2, 20, 70, 300]).min(gap.length);
        let size = 1 + self.rng.below(most as u64) as u32;
        let rest = gap.length - size;
        let near = self.rng.below(rest.min(50) as u64 + 1) as u32;
        let anywhere = self.rng.below(rest as u64 + 1) as u32;
        Some((gap.start + self.rng.pick(&[near, near, rest - near, anywhere]), size))
    }

    /// Puts an object behind those of its partition. Tells the sink, and the ledger, which there is only of a sound record.
    fn put_object(&mut self, p: u8, object: Object, last_given: u32) {
        let partition = &mut self.drive.partitions[p as usize];
        partition.objects.push(object.clone());
        partition.last_given = last_given;
        self.trail.put(p, object.number);
        self.sink.object(&Put { partition: p, object: &object, last_given, medium: &self.medium });
        self.ledger = self.ledger.take().filter(|_| self.drive.sound());
        if let Some(ledger) = &mut self.ledger {
            ledger.join(p as usize, &object, last_given, &self.medium);
        }
    }

    /// Between calls: a table that no load makes, calls that it decides, and others. Then a good one again, by a load or from outside.
    pub(super) fn more_needs(&mut self, p: u8) {
        self.ready(p);
        self.an_object(p);
        if self.rng.chance(70) {
            self.a_group(p);
        }
        for _ in 0..1 + self.rng.below(3) {
            let op = self.rng.pick(&[1, 1, 2, 3, 3, 4, 5, 6, SET_KEY, SET_KEY]);
            let need = self.odd_need(op);
            self.put_need(p, op, need);
            self.calls_on_a_line(p, op);
        }
        if self.rng.chance(40) {
            self.bit_7_in_a_line(p);
        }
        self.taste.places = vec![p, p, p, 4];
        for _ in 0..self.rng.below(12) {
            let wants = self.wants();
            self.one(&wants);
        }
        if self.rng.chance(70) {
            let table = self.some_table(p);
            self.load(p, &table);
        }
        if !self.drive.partitions[p as usize].table.good() {
            (1..=SET_KEY).for_each(|op| self.put_need(p, op, document_01(op).unwrap()));
        }
    }

    /// A line whose mask has the bit that group credentials have.
    fn bit_7_in_a_line(&mut self, p: u8) {
        let (op, bit) = (self.rng.pick(&[READ, LOOK]), GROUP_BIT as u32);
        let mask = self.rng.pick(&[bit, bit | document_01(op).unwrap().mask]);
        self.put_need(p, op, Need { mask, level: 0 });
        self.groups_on_a_line(p, op);
    }

    /// Calls of an operation with all that a frame can have, with no right, at the lowest level, and at the line's edges.
    fn calls_on_a_line(&mut self, p: u8, op: u8) {
        for (rights, level) in self.shuffled(&[(0x7f, 2), (0x7f, 0), (0, 2), (0, 0)]) {
            if let Some(mut draft) = self.at_the_need(p, op) {
                (draft.c.rights, draft.r.level, draft.c.least) = (rights, level, 0);
                self.plain_at(draft.r.time, &draft);
            }
        }
        for _ in 0..3 {
            self.try_the_table(p, op);
            self.against_document_01(p);
        }
        self.groups_on_a_line(p, op);
    }

    /// A line that is not good in the mask, in the level or in both.
    fn odd_need(&mut self, op: u8) -> Need {
        let rule = document_01(op).unwrap();
        let (mask, level) = (self.odd_mask(rule.mask), self.odd_level(op));
        let good_level = self.rng.pick(&[rule.level, rule.level, 2]);
        match self.rng.below(5) {
            0 | 1 => Need { mask, level: good_level },
            2 | 3 => Need { mask: rule.mask, level },
            _ => Need { mask, level },
        }
    }

    /// No right, or a bit that no credential has, or only a group's, alone or beside the operation's own right.
    fn odd_mask(&mut self, own: u32) -> u32 {
        let (bit, any) = (1 << (7 + self.rng.below(25)), self.rng.next() as u32 | 1 << 7);
        self.rng.pick(&[0, 0, 1 << 7, own | 1 << 7, bit, own | bit, own | bit, u32::MAX, any])
    }

    /// Over 2, often with a last byte that is not, or for operation 7 under 1.
    fn odd_level(&mut self, op: u8) -> u32 {
        if op == SET_KEY && self.rng.chance(60) {
            return 0;
        }
        let (bit, any) = (1 << (8 + self.rng.below(24)), self.rng.next() as u32 | 4);
        self.rng.pick(&[3, 3, 4, 255, 256, 257, 258, bit, u32::MAX, any])
    }

    /// Puts a line into the table of a partition. Tells the sink and the ledger.
    fn put_need(&mut self, p: u8, operation: u8, need: Need) {
        self.drive.partitions[p as usize].table.0[operation as usize - 1] = need;
        self.since[p as usize] = Since::default();
        self.sink.need(&PutNeed { partition: p, operation, need, medium: &self.medium });
        if let Some(ledger) = &mut self.ledger {
            ledger.need(p as usize, operation, need);
        }
    }

    /// An object that leaves the record unsound, and frames that were made for the record as it was: each is row 1. Where every
    /// partition has its 16 objects, the life ends as others do.
    pub(super) fn break_record(&mut self, breach: Breach, calls: usize) {
        self.left = calls;
        let room: Vec<u8> = (0..4).filter(|p| self.drive.partitions[*p as usize].objects.len() < MOST_OBJECTS).collect();
        if room.is_empty() {
            return self.finale();
        }
        let frames = self.frames_ahead(calls);
        let p = self.rng.pick(&room);
        let (object, last_given) = self.unsound_object(p, breach);
        self.put_object(p, object, last_given);
        assert!(!self.drive.sound());
        for (clock, frame) in frames {
            assert_eq!(self.put(clock, frame), 1);
        }
    }

    /// So many frames for the drive as it is, with their clock readings. No row refuses most of them.
    fn frames_ahead(&mut self, calls: usize) -> Vec<(u64, Vec<u8>)> {
        self.taste = Taste { spoils: [70, 20, 7, 3], ..Taste::balanced() };
        let mut frames = vec![];
        for _ in 0..calls {
            let (clock, wants) = (self.tick(), self.wants());
            frames.push((clock, self.frame_for(clock, &wants)));
        }
        frames
    }

    /// An object that breaks this clause, and no other one where the partition has a free byte; and the last version given beside it.
    fn unsound_object(&mut self, p: u8, breach: Breach) -> (Object, u32) {
        if self.drive.partitions[p as usize].objects.is_empty() {
            self.put_objects(p, 1);
        }
        let quarter = self.drive.quarter();
        let last = self.drive.partitions[p as usize].last_given;
        let other = self.rng.pick(&self.drive.partitions[p as usize].objects);
        let (start, size) = self.free_area(p).unwrap_or((0, 1));
        let good = Object { number: self.new_number(p), version: last, start, size };
        match breach {
            Breach::NumberTwice => (Object { number: other.number, ..good }, last),
            Breach::NumberZero => (Object { number: 0, ..good }, last),
            Breach::Empty => (Object { size: 0, ..good }, last),
            Breach::VersionOver if last < u32::MAX && self.rng.chance(50) => (Object { version: last + 1, ..good }, last),
            Breach::VersionOver => (good, last - 1),
            Breach::Overlap => {
                let (first, last_byte) = (other.start, other.start + other.size - 1);
                let (start, size) = self.rng.pick(&[(first, other.size), (first, 1), (last_byte, 1)]);
                (Object { start, size, ..good }, last)
            }
            Breach::PastTheQuarter => {
                // By a byte, or so far that 32 bits do not hold the area's end.
                let far = [(u32::MAX, 1), (u32::MAX, 2), (u32::MAX - 15, 16), (u32::MAX - 15, 16 + size)];
                let near = [(quarter, 1), (quarter - 1, 2), (start, quarter - start + 1)];
                let (start, size) = self.rng.pick(&[&far[..], &near].concat());
                (Object { start, size, ..good }, last)
            }
        }
    }
}

#[cfg(test)]
mod tests {
    use super::super::{Done, Sink, Tally, GUARD};
    use super::*;
    use crate::rng::Rng;

    /// Keeps what it is told: the calls counted, the starts of the objects, and the lines of tables.
    #[derive(Default)]
    struct Told {
        tally: Tally,
        starts: Vec<u32>,
        needs: Vec<(u8, Need)>,
    }

    impl Sink for Told {
        fn call(&mut self, done: &Done) {
            self.tally.count(done);
        }

        fn object(&mut self, put: &Put) {
            self.starts.push(put.object.start);
        }

        fn need(&mut self, put: &PutNeed) {
            self.needs.push((put.operation, put.need));
        }
    }

    /// So many calls on a drive of this size.
    fn traffic(told: &mut Told, seed: u64, size: usize, calls: usize) -> Traffic<'_> {
        let mut medium = vec![9; size + GUARD];
        let (_, drive) = format(&mut medium[..size], 7, &[0; 32], &[1; 32]);
        Traffic::new(Rng::new(seed), drive, medium, true, calls, told)
    }

    /// Objects mostly off a step, creates granted and refused among them, each call held to the ledger.
    #[test]
    fn calls_go_on_among_objects_from_outside() {
        let mut told = Told::default();
        traffic(&mut told, 8, 4_002, 6_000).with_objects().run();
        let off = told.starts.iter().filter(|start| *start % STEP != 0).count();
        assert!(off > 20 && off * 10 > told.starts.len() * 8, "{off} of {}", told.starts.len());
        let tally = told.tally;
        assert!(tally.steps.iter().chain(&tally.steps_of_a_library).all(|n| *n > 0), "{:?} {:?}", tally.steps, tally.steps_of_a_library);
        assert!(tally.forms_of_a_library.iter().all(|n| *n > 0), "{:?}", tally.forms_of_a_library);
        assert!(tally.rows[32..].iter().all(|n| *n > 0), "{:?}", tally.rows);
        assert_eq!((tally.unsound, tally.rows.iter().sum::<u64>()), (0, 6_000));
    }

    /// Tables that no load makes, calls granted and refused by them, each held to the ledger.
    #[test]
    fn calls_go_on_by_tables_from_outside() {
        let mut told = Told::default();
        traffic(&mut told, 9, 4_002, 6_000).with_needs().run();
        let bad = told.needs.iter().filter(|(operation, need)| !need.good(*operation)).count();
        assert!(bad > 20, "{bad} of {}", told.needs.len());
        let of_a_record = &told.tally.needs_of_a_library[..7];
        assert!(of_a_record.iter().all(|n| *n > 0) && told.tally.by_bit_7 > 0, "{of_a_record:?} {}", told.tally.by_bit_7);
        assert_eq!((told.tally.rows[0] > 1_500, told.tally.rows.iter().sum::<u64>()), (true, 6_000));
    }

    /// On the drive of a refused format rows 7 and 8 tell its table, which is document 01's rule.
    #[test]
    fn calls_on_the_drive_of_a_refused_format() {
        let mut told = Told::default();
        let (row, drive) = format(&mut [0; 9], 0, &[0; 32], &[1; 32]);
        assert_eq!(row, 25);
        Traffic::new(Rng::new(10), drive, vec![9; GUARD], true, 400, &mut told).run();
        let of_a_refused_format = &told.tally.needs_of_a_library[7..];
        assert!(of_a_refused_format.iter().all(|n| *n > 0), "{of_a_refused_format:?}");
        assert_eq!((told.tally.rows[0], told.tally.rows.iter().sum::<u64>()), (0, 400));
    }

    /// Whatever the clause, and whatever the drive: ten calls are row 1 by it, and all calls are made.
    #[test]
    fn every_breach_is_row_1() {
        for seed in 0..120 {
            let mut told = Told::default();
            let breach = BREACHES[seed % BREACHES.len()];
            traffic(&mut told, seed as u64, 4 + seed * 7, 60).with_objects().broken_by(breach, 10).run();
            assert_eq!((told.tally.unsound, told.tally.rows.iter().sum::<u64>()), (10, 60), "{breach:?}");
        }
    }
}
