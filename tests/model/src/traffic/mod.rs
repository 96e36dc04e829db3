//! Random calls that know the drive's state and its keys, so that they can aim at every row.
//!
//! A call starts as a draft that no row refuses; then it is spoiled for none, one, two or more rows, signed, and put to the model.
//! Around that stand short stories: full memories, full partitions, gaps on and off the steps of change 3, keys set and set back, late
//! frames, recreated objects, heads under one holder number, operation tables loaded and put back, groups whose lists and members change,
//! the first and the last milliseconds. Some lives of a library start from a record that no list of calls makes, or come to one. Beside the
//! drive a [`Ledger`] is kept, and every call is held to demand 3.
//!
//! An entry is a frame's *twin* when it is in the frame's memory and is its nonce in all but the object.

use crate::drive::*;
use crate::frame::{Frame, LEAST_FRAME};
use crate::gate::gate_with_rows;
use crate::ledger::Ledger;
use crate::records::*;
use crate::rng::Rng;
use crate::table::Need;
use asked::{Asked, Since};
use drafts::Draft;
pub use outside::{Breach, BREACHES};
use placing::Placing;
use std::mem::replace;
pub use tally::Tally;
use through::Through;
use trail::Trail;

mod asked;
mod drafts;
mod episodes;
mod groups;
mod heads;
mod histories;
mod lists;
mod outside;
mod placing;
mod readings;
mod spoil;
mod stacks;
mod steps;
mod tables;
mod tally;
mod through;
mod trail;

/// Bytes after the medium that a test may lend too much of, and that nobody may write.
pub const GUARD: usize = 8;

pub struct Call {
    pub clock: u64,
    pub frame: Vec<u8>,
    pub lent: usize, // how much of the medium
    pub space: usize,
    pub fill: u8, // what the reply space holds before
}

pub struct Done<'a> {
    pub call: &'a Call,
    pub rows: &'a [u8], // all that apply, lowest first
    pub row: u8,
    pub length: usize,
    pub space: &'a [u8],
    pub medium: &'a [u8], // with its guard bytes
    pub twins: &'a [u32], // the objects of the frame's twins, as the memory was when the rows were judged
    pub placing: Option<&'a Placing>,
    pub asked: Option<&'a Asked>,
    pub through: Option<&'a Through>,
    pub sound: bool, // the drive record, before the call
}

/// What a call left behind, before it is looked at.
struct Answer<'a> {
    call: &'a Call,
    rows: &'a [u8],
    length: usize,
    space: &'a [u8],
    through: Option<&'a Through>,
    sound: bool,
}

/// An object that was put into the drive record from outside, behind those of its partition.
pub struct Put<'a> {
    pub partition: u8,
    pub object: &'a Object,
    pub last_given: u32,  // of the partition, from now on
    pub medium: &'a [u8], // with its guard bytes
}

/// A line of a partition's operation table that was put into the drive record from outside.
pub struct PutNeed<'a> {
    pub partition: u8,
    pub operation: u8,
    pub need: Need,
    pub medium: &'a [u8], // with its guard bytes
}

/// Who is told of every call, and of all that comes from outside.
pub trait Sink {
    fn call(&mut self, done: &Done);
    fn object(&mut self, put: &Put);
    fn need(&mut self, put: &PutNeed);
}

/// Enough for traffic in which nothing comes from outside.
impl<F: FnMut(&Done)> Sink for F {
    fn call(&mut self, done: &Done) {
        self(done)
    }

    fn object(&mut self, _: &Put) {
        unreachable!("nobody is told of this object")
    }

    fn need(&mut self, _: &PutNeed) {
        unreachable!("nobody is told of this need")
    }
}

#[derive(Clone, Copy)]
enum Clock {
    Still,
    Drift,
    Wild,
}

/// What an episode likes.
#[derive(Clone)]
struct Taste {
    places: Vec<u8>, // partitions; 4 stands for drive and master key
    ops: [u64; 8],
    clock: Clock,
    spoils: [u64; 4], // weights of none, one, two, three rows aimed at
}

impl Taste {
    fn balanced() -> Taste {
        Taste { places: vec![0, 0, 1, 1, 2, 3, 4], ops: [20, 20, 12, 12, 16, 8, 6, 4], clock: Clock::Drift, spoils: [30, 40, 22, 8] }
    }
}

pub struct Traffic<'a> {
    pub rng: Rng,
    pub drive: Drive,
    medium: Vec<u8>,
    ledger: Option<Ledger>,
    library: bool, // spaces and media of any length; else the program's
    total: usize,
    left: usize,
    counter: u32,
    ceiling: u64,
    taste: Taste,
    short: bool,
    granted: Vec<Vec<u8>>,      // late grants' frames
    held: Vec<Vec<u8>>,         // built, to be sent later
    past: Vec<(u8, u32, u32)>,  // partition, object and a version that it had
    old_keys: Vec<Key>,
    lent_keys: [Key; 2],             // drive and master key as a refused format was lent them
    since: [Since; 4],               // of each partition's table: where it is from, and what came after
    trail: Trail,                    // of objects and groups
    objects_from_outside: bool,
    needs_from_outside: bool,        // lines of operation tables
    breach: Option<(Breach, usize)>, // what makes the record unsound in the end, and how many calls find it so
    sink: &'a mut dyn Sink,
}

impl<'a> Traffic<'a> {
    /// Over a drive just formatted (or refused, with F = 0 and the like: then there is no ledger). `medium` has the guard bytes.
    pub fn new(
        rng: Rng,
        drive: Drive,
        medium: Vec<u8>,
        library: bool,
        calls: usize,
        sink: &'a mut dyn Sink,
    ) -> Traffic<'a> {
        let ledger = match (drive.master, drive.drive) {
            (Some(m), Some(d)) => Some(Ledger::new(drive.size, drive.partitions[0].version, m, d)),
            _ => None,
        };
        Traffic {
            rng,
            drive,
            medium,
            ledger,
            library,
            total: calls,
            left: calls,
            counter: 0,
            ceiling: u64::MAX - 100_000,
            taste: Taste::balanced(),
            short: false,
            granted: vec![],
            held: vec![],
            past: vec![],
            old_keys: vec![[0; 32], [1; 32]],
            lent_keys: [[0; 32]; 2],
            since: Default::default(),
            trail: Trail::default(),
            objects_from_outside: false,
            needs_from_outside: false,
            breach: None,
            sink,
        }
    }

    /// For a drive whose format was refused: the keys that it was lent, to sign frames with that must find no key.
    pub fn with_keys(mut self, drive: &[u8], master: &[u8]) -> Traffic<'a> {
        self.lent_keys = [drive, master].map(|k| Key::try_from(k).unwrap_or([0; 32]));
        self
    }

    fn progress(&self) -> usize {
        (self.total - self.left) * 100 / self.total.max(1)
    }

    /// Puts a frame to the model, tells the sink and the ledger. Returns the row; 255 when all calls are spent.
    fn put(&mut self, clock: u64, frame: Vec<u8>) -> u8 {
        if self.left == 0 {
            return 255;
        }
        self.left -= 1;
        let (lent, space, fill) = self.spaces(&frame);
        let call = Call { clock, frame, lent, space, fill };
        let mut reply = vec![fill; space];
        let before = self.drive.clone();
        let sound = before.sound();
        let through = if sound { Through::of(&before, &self.medium, &self.trail, &call.frame, clock) } else { None };
        let (rows, length) =
            gate_with_rows(&mut self.drive, &mut self.medium[..lent], &call.frame, clock, &mut reply);
        let row = rows.first().copied().unwrap_or(0);
        let through = through.filter(|_| row != 1).map(|through| through.answered(&rows));
        self.tell(&before, &Answer { call: &call, rows: &rows, length, space: &reply, through: through.as_ref(), sound });
        if row == 1 {
            assert_eq!(self.drive, before);
        } else if let Some(ledger) = &mut self.ledger {
            ledger.call(&call.frame, clock, row, &reply[..length]);
            ledger.agrees(&self.drive, &self.medium);
        }
        if row == 0 {
            self.remember(&before, call.frame);
        }
        row
    }

    /// Tells the sink of a call to this drive.
    fn tell(&mut self, before: &Drive, answer: &Answer) {
        let Answer { call, rows, length, space, through, sound } = *answer;
        let row = rows.first().copied().unwrap_or(0);
        let twins = twins(&self.drive, &call.frame);
        let placing = Placing::of(before, &call.frame, row);
        let asked = Asked::of(before, &self.since, &call.frame, rows);
        self.sink.call(&Done {
            call,
            rows,
            row,
            length,
            space,
            medium: &self.medium,
            twins: &twins,
            placing: placing.as_ref(),
            asked: asked.as_ref(),
            through,
            sound,
        });
        Since::follow(&mut self.since, before, &call.frame, row);
        self.trail.follow(&call.frame, row);
    }

    /// The gaps of a partition.
    fn gaps(&self, p: u8) -> Vec<Gap> {
        gaps(self.drive.quarter(), &areas(&self.drive.partitions[p as usize].objects))
    }

    /// Those in which something fits.
    fn open_gaps(&self, p: u8) -> Vec<Gap> {
        self.gaps(p).into_iter().filter(|gap| gap.fits(1)).collect()
    }

    /// Keeps what later calls may try again: frames, versions and keys gone by.
    fn remember(&mut self, before: &Drive, frame: Vec<u8>) {
        let Frame { c, r, .. } = Frame::read(&frame).unwrap();
        if r.operation == RAISE || r.operation == DELETE {
            self.past.push((c.partition, c.object, c.version));
        }
        if r.operation == SET_KEY {
            let old = match c.slot {
                4 => before.drive,
                3 => before.partitions[r.a as usize].key,
                _ => before.partitions[c.partition as usize].working[r.a as usize],
            };
            self.old_keys.extend(old);
        }
        self.granted.push(frame);
        if self.granted.len() > 300 {
            self.granted.remove(0);
        }
        if self.past.len() > 200 {
            self.past.remove(0);
        }
        if self.old_keys.len() > 30 {
            self.old_keys.remove(0);
        }
    }

    /// Medium lent, reply space and its filling: the program's, or any.
    fn spaces(&mut self, frame: &[u8]) -> (usize, usize, u8) {
        if !self.library {
            return (self.drive.size, 65_536, 0);
        }
        let asked = Frame::read(frame).map_or(8, |f| f.r.reply_length());
        let needed = if asked > 20_000 && self.rng.chance(97) { 48 } else { asked.min(70_000) as usize };
        let short = replace(&mut self.short, false);
        let space = if short {
            match self.rng.below(4) {
                0 => 0,
                1 => self.rng.below(needed as u64) as usize,
                _ => needed - 1,
            }
        } else {
            match self.rng.weighted(&[450, 350, 100, 2, 30, 10, 10]) {
                0 => needed,
                1 => needed + 1 + self.rng.below(40) as usize,
                2 => needed + self.rng.below(300) as usize,
                3 => 70_000,
                4 => needed - 1,
                5 => 0,
                _ => self.rng.below(needed as u64) as usize,
            }
        };
        let size = self.drive.size;
        let most = self.medium.len();
        let lent = if self.rng.chance(2) {
            match self.rng.below(4) {
                0 => size.saturating_sub(1),
                1 => (size + 1).min(most),
                2 => 0,
                _ => self.rng.below(most as u64 + 1) as usize,
            }
        } else {
            size
        };
        (lent, space.min(70_000), self.rng.next() as u8)
    }

    /// A call by the episode's taste, aimed at these rows (none: a grant, if the state lets it).
    fn one(&mut self, wants: &[u8]) -> u8 {
        let clock = self.clock();
        self.one_at(clock, wants)
    }

    fn one_at(&mut self, clock: u64, wants: &[u8]) -> u8 {
        let frame = self.frame_for(clock, wants);
        self.short = wants.contains(&23);
        self.put(clock, frame)
    }

    fn frame_for(&mut self, clock: u64, wants: &[u8]) -> Vec<u8> {
        let mark = self.drive.mark.max(clock);
        let mut draft = self.draft(mark, wants);
        let mut order = wants.to_vec();
        self.rng.shuffle(&mut order);
        // Another group has another version, and a smaller member; other rows change slot and object, and the nonce has them.
        order.sort_by_key(|row| (*row == 12, !(32..=34).contains(row)));
        for row in order {
            self.spoil(&mut draft, row, mark);
        }
        self.finish(&draft)
    }

    fn plain_at(&mut self, clock: u64, draft: &Draft) -> u8 {
        let frame = self.finish(draft);
        self.put(clock, frame)
    }

    fn clock(&mut self) -> u64 {
        let mark = self.drive.mark;
        let reading = match self.taste.clock {
            Clock::Still => match self.rng.below(6) {
                0 => 0,
                1 => self.rng.below(mark.saturating_add(1)),
                2 => mark.saturating_sub(1),
                _ => mark,
            },
            Clock::Drift => match self.rng.weighted(&[60, 20, 8, 8, 4]) {
                0 => mark.saturating_add(self.rng.below(400)),
                1 => mark,
                2 => self.rng.below(mark.saturating_add(1)),
                3 => self.edge_of_an_entry(),
                _ => mark.saturating_add(self.rng.pick(&[1, 5_000, 5_001, 10_000, 10_001])),
            },
            Clock::Wild => match self.rng.below(5) {
                0 => self.rng.below(mark.saturating_add(1)),
                1 => mark,
                2 => mark.saturating_add(1 << self.rng.below(14)),
                _ => self.edge_of_an_entry(),
            },
        };
        if mark < self.ceiling {
            reading.min(self.ceiling)
        } else {
            reading
        }
    }

    /// A reading at which some entry is just kept or just outlived.
    fn edge_of_an_entry(&mut self) -> u64 {
        let memories: Vec<&Vec<Nonce>> =
            self.drive.partitions.iter().map(|p| &p.memory).chain([&self.drive.fifth]).collect();
        let memory = memories[self.rng.below(5) as usize];
        if memory.is_empty() {
            return self.drive.mark;
        }
        let time = memory[self.rng.below(memory.len() as u64) as usize].time;
        time.saturating_add(4_999 + self.rng.below(3))
    }

    /// A little later, so that memories have room.
    fn tick(&mut self) -> u64 {
        let reading = self.drive.mark.saturating_add(100 + self.rng.below(300));
        reading.min(self.ceiling.max(self.drive.mark))
    }
}

/// The nonce of a frame that has one.
fn nonce_of(frame: &[u8]) -> Nonce {
    let Frame { c, r, .. } = Frame::read(frame).unwrap();
    Nonce::of(&c, &r)
}

/// The objects of a frame's twins in the drive that a call returned. Its own entry, if it was granted, is not among them.
fn twins(drive: &Drive, frame: &[u8]) -> Vec<u32> {
    if frame.len() < LEAST_FRAME {
        return vec![];
    }
    let nonce = nonce_of(frame);
    let memory = drive.memory(nonce.slot, frame[2]).map_or(&[][..], |m| &m[..]);
    let alike = memory.iter().filter(|e| Nonce { object: nonce.object, ..(*e).clone() } == nonce);
    alike.map(|e| e.object).filter(|o| *o != nonce.object).collect()
}

#[cfg(test)]
mod tests {
    use super::placing::STEPS;
    use super::tally::BESIDE_A_TWIN;
    use super::*;

    /// A run in which every row that a program meets is met, each call held to demand 3 by the ledger.
    #[test]
    fn every_row_of_the_program() {
        let mut medium = vec![0; 65_536 + GUARD];
        let (_, drive) = format(&mut medium[..65_536], 1, &[0; 32], &[1; 32]);
        let mut tally = Tally::default();
        let mut sink = |done: &Done| tally.count(done);
        Traffic::new(Rng::new(5), drive, medium, false, 16_000, &mut sink).run();
        for row in (0..=22).filter(|r| *r != 1 && *r != 21).chain(31..=34) {
            assert!(tally.rows[row] > 0, "row {row} is not met");
        }
        assert!(tally.beside_a_twin.iter().all(|n| *n > 0), "{BESIDE_A_TWIN:?}: {:?}", tally.beside_a_twin);
        assert!(tally.steps.iter().all(|n| *n > 0), "{STEPS:?}: {:?}", tally.steps);
        for (names, counts) in tally.of_tables().into_iter().chain(tally.of_groups()).chain(tally.often()) {
            assert!(counts.iter().all(|n| *n > 0), "{names:?}: {counts:?}");
        }
        assert!(tally.readings.iter().all(|n| *n > 0), "{:?}", tally.readings);
        assert_eq!((tally.steps_of_a_library, tally.needs_of_a_library, tally.unsound), ([0; 2], [0; 9], 0));
        assert_eq!((tally.forms_of_a_library, tally.by_bit_7), ([0; 4], 0));
        assert_eq!(tally.rows.iter().sum::<u64>(), 16_000);
    }

    /// A small drive that soon has given its last version, with spaces and media of any length: the other three rows.
    #[test]
    fn every_row_of_the_library() {
        let mut medium = vec![9; 402 + GUARD];
        let (_, drive) = format(&mut medium[..402], u32::MAX - 9, &[0; 32], &[1; 32]);
        let mut tally = Tally::default();
        let mut sink = |done: &Done| {
            tally.count(done);
            assert!(done.medium[402..].iter().all(|b| *b == 9));
            assert!(done.space[done.length..].iter().all(|b| *b == done.call.fill));
        };
        Traffic::new(Rng::new(6), drive, medium, true, 3_000, &mut sink).run();
        for row in [0, 1, 21, 23, 31, 32] {
            assert!(tally.rows[row] > 0, "row {row} is not met");
        }
        assert!(tally.beside_a_twin.iter().all(|n| *n > 0), "{BESIDE_A_TWIN:?}: {:?}", tally.beside_a_twin);
    }

    /// Twins are entries of the same memory that differ in the object, and in nothing else.
    #[test]
    fn what_a_twin_is() {
        let (mut drive, frame) = (Drive::default(), vec![0; 96]);
        let own = nonce_of(&frame);
        let other = |object| Nonce { object, ..own.clone() };
        let (counted, gold) = (Nonce { count: 1, ..other(5) }, Nonce { slot: 1, ..other(6) });
        drive.partitions[0].memory = vec![own.clone(), other(7), counted, other(9), gold];
        drive.partitions[1].memory = vec![other(8)];
        drive.fifth = vec![other(4)];
        assert_eq!(twins(&drive, &frame), [7, 9]);
        assert_eq!(twins(&drive, &frame[1..]), []);
    }
}
