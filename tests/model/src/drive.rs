//! "Drive state", the placing rule of operation 5 and change 3, and format: rows 24 to 26.

use crate::digest::LONGEST;
use crate::records::{Credential, Request};
use crate::table::{needed, Need, Table};

pub type Key = [u8; 32];

pub const MOST_OBJECTS: usize = 16;
pub const MOST_ENTRIES: usize = 64;
/// "M is at most 16,777,216".
pub const MOST_MEDIUM: usize = LONGEST;
/// Change 3: "The transfer unit moves sixteen bytes at a time, so a new area now starts at a multiple of 16 from the quarter's
/// start; row 1 asks for no such step."
pub const STEP: u32 = 16;

/// An object "with number, version, size and area inside the quarter". The start counts from the quarter's start.
#[derive(Clone, Debug, PartialEq, Eq)]
pub struct Object {
    pub number: u32,
    pub version: u32,
    pub start: u32,
    pub size: u32,
}

/// "A grant enters (slot, holder, T, count)." Change 2: "Each memory entry, and so row 12's nonce, has the credential's object
/// too." Change 6: "The nonce's object is the group", which is the credential's.
#[derive(Clone, Debug, PartialEq, Eq)]
pub struct Nonce {
    pub slot: u8,
    pub holder: u32,
    pub time: u64,
    pub count: u32,
    pub object: u32, // 0 where the credential is for the partition
}

impl Nonce {
    /// The one that these records carry.
    pub fn of(c: &Credential, r: &Request) -> Nonce {
        Nonce { slot: c.slot, holder: c.holder, time: r.time, count: r.count, object: c.object }
    }
}

#[derive(Clone, Debug, PartialEq, Eq, Default)]
pub struct Partition {
    pub key: Option<Key>,
    pub working: [Option<Key>; 2], // black, gold
    pub version: u32,
    pub last_given: u32,
    pub objects: Vec<Object>, // "in order of creation"
    pub memory: Vec<Nonce>,   // for slots 0–2
    pub table: Table,         // change 5: at first "document 01's rule"
}

#[derive(Clone, Debug, PartialEq, Eq, Default)]
pub struct Drive {
    pub size: usize, // M
    pub mark: u64,
    pub master: Option<Key>,
    pub drive: Option<Key>,
    pub partitions: [Partition; 4],
    pub fifth: Vec<Nonce>, // "a fifth for slots 3 and 4"
}

impl Partition {
    pub fn find(&self, number: u32) -> Option<&Object> {
        self.objects.iter().find(|o| o.number == number)
    }

    /// Object 0 means the partition.
    pub fn present_version(&self, object: u32) -> Option<u32> {
        if object == 0 {
            Some(self.version)
        } else {
            self.find(object).map(|o| o.version)
        }
    }
}

impl Drive {
    /// "Quarter q = M / 4 rounded down".
    pub fn quarter(&self) -> u32 {
        (self.size / 4) as u32
    }

    /// Where byte `at` of a partition's area stands in the medium: "partition p spans p × q up to (p + 1) × q".
    pub fn place(&self, partition: usize, at: u32) -> usize {
        partition * self.quarter() as usize + at as usize
    }

    /// The bytes of an object of a partition: its area of the medium.
    pub fn bytes<'a>(&self, medium: &'a [u8], partition: usize, object: &Object) -> &'a [u8] {
        let from = self.place(partition, object.start);
        &medium[from..from + object.size as usize]
    }

    /// The key in a slot, if it was ever set.
    pub fn key(&self, slot: u8, partition: u8) -> Option<Key> {
        match slot {
            4 => self.master,
            3 => self.drive,
            2 => self.partitions.get(partition as usize)?.key,
            0 | 1 => self.partitions.get(partition as usize)?.working[slot as usize],
            _ => None,
        }
    }

    /// "Nonce memories: one for each partition (slots 0–2), a fifth for slots 3 and 4."
    pub fn memory(&self, slot: u8, partition: u8) -> Option<&Vec<Nonce>> {
        match slot {
            3 | 4 => Some(&self.fifth),
            0..=2 => self.partitions.get(partition as usize).map(|p| &p.memory),
            _ => None,
        }
    }

    pub fn memory_mut(&mut self, slot: u8, partition: u8) -> &mut Vec<Nonce> {
        if slot >= 3 {
            &mut self.fifth
        } else {
            &mut self.partitions[partition as usize].memory
        }
    }

    /// What an operation needs under a credential, by the table of its partition where the table is asked.
    pub fn need(&self, c: &Credential, operation: u8) -> Option<Need> {
        let start = Table::default();
        let table = self.partitions.get(c.partition as usize).map_or(&start, |p| &p.table);
        needed(table, c.slot, operation)
    }

    /// The mark becomes "the larger of itself and the clock reading", and every memory keeps "exactly its entries with
    /// T + 5,000 at least the mark".
    pub fn pass_time(&mut self, clock: u64) {
        self.mark = self.mark.max(clock);
        let mark = self.mark as u128;
        let lives = |e: &Nonce| e.time as u128 + 5_000 >= mark;
        for p in &mut self.partitions {
            p.memory.retain(lives);
        }
        self.fifth.retain(lives);
    }

    /// "A drive record is sound when M is at most 16,777,216, each partition has at most 16 objects, with different numbers
    /// from 1, nonempty disjoint areas inside its quarter and no version over the last given, and each memory has at most 64
    /// entries." It says nothing of an operation table, which may be any.
    pub fn sound(&self) -> bool {
        let quarter = self.quarter() as u64;
        let end = |o: &Object| o.start as u64 + o.size as u64;
        self.size <= MOST_MEDIUM
            && self.fifth.len() <= MOST_ENTRIES
            && self.partitions.iter().all(|p| {
                p.memory.len() <= MOST_ENTRIES
                    && p.objects.len() <= MOST_OBJECTS
                    && p.objects.iter().all(|o| {
                        o.number >= 1 && o.size >= 1 && end(o) <= quarter && o.version <= p.last_given
                    })
                    && p.objects.iter().enumerate().all(|(i, o)| {
                        p.objects[..i].iter().all(|e| {
                            e.number != o.number && (end(e) <= o.start as u64 || end(o) <= e.start as u64)
                        })
                    })
            })
    }
}

/// "A gap is a run of the quarter's bytes in no area that can't be lengthened at either end." Start and end count from the quarter's
/// start. Gaps are in the order of the choice, "the smallest gap .., lowest start among equals": by the whole gap's length and by its
/// own start, wherever in it the place is.
#[derive(Clone, Copy, Debug, PartialEq, Eq, PartialOrd, Ord)]
pub struct Gap {
    pub length: u32,
    pub start: u32,
}

impl Gap {
    pub fn end(&self) -> u32 {
        self.start + self.length
    }

    /// Change 3: "In a gap the place is the first such multiple", which may lie at its end or past it.
    pub fn place(&self) -> u32 {
        first_multiple(STEP, self.start)
    }

    /// The bytes that "remain from there".
    pub fn room(&self) -> u32 {
        self.end().saturating_sub(self.place())
    }

    /// "and the gap fits if B bytes remain from there". B is not 0: that is row 6.
    pub fn fits(&self, b: u32) -> bool {
        self.room() >= b
    }
}

/// The first multiple of the step that is not under `from`.
pub fn first_multiple(step: u32, from: u32) -> u32 {
    from.div_ceil(step) * step
}

/// The gaps between areas, each given as (start, size), from the lowest on.
pub fn gaps(quarter: u32, areas: &[(u32, u32)]) -> Vec<Gap> {
    let mut sorted: Vec<(u32, u32)> = areas.to_vec();
    sorted.sort();
    sorted.push((quarter, 0));
    let mut found = Vec::new();
    let mut free_from = 0;
    for (start, size) in sorted {
        if start > free_from {
            found.push(Gap { length: start - free_from, start: free_from });
        }
        free_from = start + size;
    }
    found
}

/// Change 3: "The choice is still the smallest gap that fits, lowest start among equals."
pub fn chosen_gap(gaps: &[Gap], b: u32) -> Option<Gap> {
    gaps.iter().copied().filter(|gap| gap.fits(b)).min()
}

/// Where a new area of B bytes starts. Change 3: "Row 20 is met exactly when no gap fits." None is row 20.
pub fn chosen_start(quarter: u32, areas: &[(u32, u32)], b: u32) -> Option<u32> {
    chosen_gap(&gaps(quarter, areas), b).map(|gap| gap.place())
}

pub fn areas(objects: &[Object]) -> Vec<(u32, u32)> {
    objects.iter().map(|o| (o.start, o.size)).collect()
}

/// "Format takes a medium, first version F, master and drive key (32 bytes each); it zeroes the medium, of M bytes."
pub fn format(medium: &mut [u8], f: u32, master: &[u8], drive: &[u8]) -> (u8, Drive) {
    // "24. Format: M is over 16,777,216; the drive returned has no key, object or entry, and M, versions and mark are 0." Change 5:
    // the table is "in row 24's drive too .. document 01's rule", as a `Table::default` is.
    if medium.len() > MOST_MEDIUM {
        return (24, Drive::default());
    }
    // "25. Format: F is 0; the same."
    if f == 0 {
        return (25, Drive::default());
    }
    // "26. Format (drive as in row 24) ..: a key lent is not 32 bytes."
    let (Ok(master), Ok(drive)) = (Key::try_from(master), Key::try_from(drive)) else {
        return (26, Drive::default());
    };
    medium.fill(0);
    // "No object exists, no partition or working key is set, each partition's version is F, the mark is 0."
    let fresh = Partition { version: f, last_given: f, ..Partition::default() };
    let drive = Drive {
        size: medium.len(),
        mark: 0,
        master: Some(master),
        drive: Some(drive),
        partitions: [fresh.clone(), fresh.clone(), fresh.clone(), fresh],
        fifth: Vec::new(),
    };
    (0, drive)
}

#[cfg(test)]
mod tests {
    use super::*;
    use crate::rng::Rng;

    /// "Quarter 100: areas 10–29, 40–99, B = 10: start 0; B = 11: row 20". Change 3: "In document 01's cases, areas 0–19, 25–99 with
    /// B = 5 now give row 20."
    #[test]
    fn table_of_cases_placing() {
        let first = [(10, 20), (40, 60)];
        assert_eq!(chosen_start(100, &first, 10), Some(0));
        assert_eq!(chosen_start(100, &first, 11), None);
        assert_eq!(chosen_start(100, &[(0, 20), (25, 75)], 5), None);
    }

    /// Where an area of B bytes starts in a quarter of 100 with one gap, from `start` up to `end`.
    fn in_one_gap(start: u32, end: u32, b: u32) -> Option<u32> {
        chosen_start(100, &[(0, start), (end, 100 - end)], b)
    }

    /// A gap that starts on a multiple, one byte behind one, one byte before one; each with all that remains, and a byte more.
    #[test]
    fn a_gap_at_the_edges_of_a_step() {
        assert_eq!([in_one_gap(32, 60, 1), in_one_gap(32, 60, 28), in_one_gap(32, 60, 29)], [Some(32), Some(32), None]);
        assert_eq!([in_one_gap(33, 60, 1), in_one_gap(33, 60, 12), in_one_gap(33, 60, 13)], [Some(48), Some(48), None]);
        assert_eq!([in_one_gap(31, 60, 1), in_one_gap(31, 60, 28), in_one_gap(31, 60, 29)], [Some(32), Some(32), None]);
        assert_eq!([in_one_gap(81, 100, 1), in_one_gap(81, 100, 4), in_one_gap(81, 100, 5)], [Some(96), Some(96), None]);
    }

    /// A gap whose first multiple is its last byte, its end, or lies past it.
    #[test]
    fn a_gap_without_a_multiple() {
        assert_eq!([in_one_gap(33, 49, 1), in_one_gap(33, 49, 2)], [Some(48), None]);
        assert_eq!([in_one_gap(33, 48, 1), in_one_gap(33, 48, 15)], [None, None]);
        assert_eq!([in_one_gap(33, 47, 1), in_one_gap(97, 100, 1)], [None, None]);
        assert_eq!(Gap { length: 14, start: 33 }.room(), 0);
        assert_eq!(chosen_start(0, &[], 1), None);
    }

    /// Areas may start anywhere: gaps 0, 3–49 and 57–99, with 1 byte from byte 0 on, 34 from byte 16 on, 36 from byte 64 on.
    #[test]
    fn areas_off_a_step() {
        let areas = [(50, 7), (1, 2)];
        assert_eq!([1, 2, 34, 36, 37].map(|b| chosen_start(100, &areas, b)), [Some(0), Some(64), Some(64), Some(64), None]);
    }

    /// "The choice is still the smallest gap that fits", by the whole gap: one that is smaller from its first multiple on does not win.
    #[test]
    fn gaps_are_not_measured_from_their_multiples() {
        let longer_leaves_less = [(0, 16), (40, 9), (80, 20)]; // 16–39 leaves all its 24 bytes, 49–79 leaves 16 of 31
        assert_eq!([1, 16, 17, 24, 25].map(|b| chosen_start(100, &longer_leaves_less, b)), [Some(16), Some(16), Some(16), Some(16), None]);
        let both_leave_16 = [(0, 1), (32, 15), (64, 36)]; // 1–31 has 31 bytes, 47–63 has 17
        assert_eq!([1, 16, 17].map(|b| chosen_start(100, &both_leave_16, b)), [Some(48), Some(48), None]);
    }

    /// A gap that has the bytes but does not fit is passed over, for a larger one or for none.
    #[test]
    fn a_larger_gap_that_fits() {
        let areas = [(0, 1), (36, 12), (80, 20)]; // 1–35 leaves 20 bytes from byte 16 on, 48–79 all its 32
        assert_eq!([20, 21, 32, 33, 35].map(|b| chosen_start(100, &areas, b)), [Some(48), Some(48), Some(48), None, None]);
        let smaller_is_off = [(0, 33), (60, 4), (96, 4)]; // 33–59 leaves 12 bytes from byte 48 on, 64–95 all its 32
        assert_eq!([12, 13, 27, 32].map(|b| chosen_start(100, &smaller_is_off, b)), [Some(48), Some(64), Some(64), Some(64)]);
    }

    /// Equal gaps: the lower one wins, and where it does not fit the higher one does.
    #[test]
    fn equal_gaps() {
        let alike = [(0, 17), (40, 9), (72, 28)]; // 17–39 and 49–71, both of 23 bytes, 8 from byte 32 and from byte 64 on
        assert_eq!([1, 8, 9].map(|b| chosen_start(100, &alike, b)), [Some(32), Some(32), None]);
        let lower_is_off = [(0, 17), (40, 24), (87, 13)]; // 17–39 has 8 bytes from byte 32 on, 64–86 all its 23
        assert_eq!([8, 9, 23, 24].map(|b| chosen_start(100, &lower_is_off, b)), [Some(32), Some(64), Some(64), None]);
    }

    /// Areas at any start that do not meet, in any order, as (start, size).
    fn some_areas(rng: &mut Rng, quarter: u32) -> Vec<(u32, u32)> {
        let mut list: Vec<(u32, u32)> = vec![];
        for _ in 0..rng.below(8) {
            let (start, size) = (rng.below(120) as u32, 1 + rng.below(30) as u32);
            let free = start + size <= quarter && list.iter().all(|(s, n)| start + size <= *s || s + n <= start);
            list.extend(free.then_some((start, size)));
        }
        list
    }

    /// The rule byte by byte, as the sentences have it: whether the area starts behind its gap's start, and where.
    fn by_the_words(quarter: u32, areas: &[(u32, u32)], b: u32) -> Option<(bool, u32)> {
        // "A gap is a run of the quarter's bytes in no area that can't be lengthened at either end."
        let taken: Vec<bool> = (0..=quarter).map(|i| i == quarter || areas.iter().any(|(s, n)| (*s..s + n).contains(&i))).collect();
        let run = |(start, end): &(u32, u32)| taken[*start as usize..*end as usize].iter().all(|t| !t);
        let ends = |(start, end): &(u32, u32)| (*start == 0 || taken[*start as usize - 1]) && taken[*end as usize];
        // "In a gap the place is the first such multiple, and the gap fits if B bytes remain from there."
        let place = |start: u32| (0..).step_by(16).find(|multiple| *multiple >= start).unwrap();
        (0..quarter)
            .flat_map(|start| (start + 1..=quarter).map(move |end| (start, end)))
            .filter(|gap| run(gap) && ends(gap))
            .filter(|(start, end)| (place(*start)..*end).count() >= b as usize)
            // "The choice is still the smallest gap that fits, lowest start among equals."
            .min_by_key(|(start, end)| (end - start, *start))
            .map(|(start, _)| (place(start) > start, place(start)))
    }

    /// The placing rule byte by byte against the one over sorted areas, and how often each kind of answer came.
    #[test]
    fn placing_byte_by_byte() {
        let mut rng = Rng::new(7);
        let (mut none, mut at_the_start, mut behind) = (0, 0, 0);
        for _ in 0..6_000 {
            let quarter = rng.below(121) as u32;
            let areas = some_areas(&mut rng, quarter);
            let b = 1 + rng.below(40) as u32;
            let due = by_the_words(quarter, &areas, b);
            assert_eq!(chosen_start(quarter, &areas, b), due.map(|(_, place)| place), "{quarter} {areas:?} {b}");
            none += due.is_none() as u32;
            at_the_start += due.is_some_and(|(later, _)| !later) as u32;
            behind += due.is_some_and(|(later, _)| later) as u32;
        }
        assert!(none > 500 && at_the_start > 500 && behind > 500, "{none} {at_the_start} {behind}");
    }

    /// "mark 10,000, clock 9,000: mark 10,000".
    #[test]
    fn table_of_cases_mark() {
        let mut drive = Drive { mark: 10_000, ..Drive::default() };
        drive.pass_time(9_000);
        assert_eq!(drive.mark, 10_000);
    }

    #[test]
    fn format_rows() {
        let key = [0; 32];
        let mut medium = vec![7; MOST_MEDIUM + 1];
        assert_eq!(format(&mut medium, 0, &[], &[]), (24, Drive::default()));
        assert_eq!(format(&mut medium[..9], 0, &[], &[]), (25, Drive::default()));
        assert_eq!(format(&mut medium[..9], 1, &key[..31], &key), (26, Drive::default()));
        assert_eq!(format(&mut medium[..9], 1, &key, &[0; 33]), (26, Drive::default()));
        assert!(medium.iter().all(|b| *b == 7));
        let (row, drive) = format(&mut medium[..9], 5, &key, &[1; 32]);
        assert_eq!((row, drive.quarter(), drive.partitions[3].version, drive.partitions[0].last_given), (0, 2, 5, 5));
        assert!(drive.sound());
        assert_eq!(medium[..10], [0, 0, 0, 0, 0, 0, 0, 0, 0, 7]);
    }

    /// Change 5: the table "starts, in row 24's drive too, as document 01's rule".
    #[test]
    fn tables_of_a_format() {
        let key = [0; 32];
        let mut medium = vec![7; 9];
        let drives = [(1, &key[..]), (0, &key), (1, &key[1..])].map(|(f, master)| format(&mut medium, f, master, &key).1);
        for partition in drives.iter().chain([&Drive::default()]).flat_map(|drive| &drive.partitions) {
            for (operation, rights, level) in [(1, 1, 0), (2, 2, 0), (3, 4, 0), (4, 8, 0), (5, 16, 0), (6, 32, 0), (7, 64, 1)] {
                assert_eq!(partition.table.line(operation), Some(Need { mask: rights, level }));
            }
        }
    }

    /// Each clause of the sentence, broken alone. Change 3: "row 1 asks for no such step".
    #[test]
    fn soundness() {
        let object = |number, start, size| Object { number, version: 1, start, size };
        let with = |objects: Vec<Object>| {
            let mut medium = vec![0; 400];
            let mut drive = format(&mut medium, 1, &[0; 32], &[0; 32]).1;
            drive.partitions[2].objects = objects;
            drive
        };
        assert!(with(vec![object(1, 0, 50), object(9, 50, 50)]).sound());
        assert!(with(vec![object(1, 99, 1), object(2, 1, 15), object(3, 17, 2)]).sound());
        assert!(!with(vec![object(1, 0, 50), object(1, 50, 50)]).sound());
        assert!(!with(vec![object(0, 0, 50)]).sound());
        assert!(!with(vec![object(1, 0, 0)]).sound());
        assert!(!with(vec![object(1, 0, 50), object(2, 49, 1)]).sound());
        assert!(!with(vec![object(1, 51, 50)]).sound());
        assert!(!with(vec![object(1, u32::MAX, u32::MAX)]).sound());
        assert!(!with(vec![object(1, u32::MAX, 2)]).sound());
        assert!(!with(vec![Object { version: 2, ..object(1, 0, 5) }]).sound());
        assert!(with((1..=16).map(|i| object(i, i, 1)).collect()).sound());
        assert!(!with((1..=17).map(|i| object(i, i, 1)).collect()).sound());
        let entry = Nonce { slot: 0, holder: 0, time: 0, count: 0, object: 0 };
        let mut drive = with(vec![]);
        drive.fifth = vec![entry.clone(); 64];
        assert!(drive.sound());
        drive.partitions[1].memory = vec![entry; 65];
        assert!(!drive.sound());
        assert!(!Drive { size: MOST_MEDIUM + 1, ..with(vec![]) }.sound());
    }

    /// No clause of the sentence speaks of the table.
    #[test]
    fn a_sound_record_may_hold_any_table() {
        let mut medium = vec![0; 400];
        let mut drive = format(&mut medium, 1, &[0; 32], &[0; 32]).1;
        for need in [Need { mask: 0, level: 0 }, Need { mask: u32::MAX, level: u32::MAX }, Need { mask: 1 << 7, level: 3 }] {
            drive.partitions[2].table = Table([need; 7]);
            assert!(drive.sound());
        }
    }
}
