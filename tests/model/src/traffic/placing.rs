//! What creates meet of change 3, so that the tests can ask for it.

use crate::drive::*;
use crate::frame::Frame;
use crate::records::*;

/// What is counted of creates that come to the placing rule, in the order of [`Placing::met`].
pub const STEPS: [&str; 7] = [
    "areas placed behind their gap's start",
    "areas placed behind their gap's start and up to its end",
    "creates answered row 20 although a gap has the bytes",
    "areas placed past a better gap that has the bytes but does not fit",
    "areas placed in another gap than if gaps were measured from their first multiples",
    "areas placed where a step of 8 would not place them",
    "areas placed in the lowest of equal gaps that fit",
];

/// What only the library's calls meet: the program's quarters are of whole steps, and its areas all start on one. In the order of
/// [`Placing::met_in_a_library`].
pub const STEPS_OF_A_LIBRARY: [&str; 2] = [
    "areas placed where multiples from the medium's start would not place them",
    "areas placed in a partition with an area off a step, which a record put there",
];

/// A create that came to the placing rule: it was granted, or answered row 20.
pub struct Placing {
    ahead: u32, // bytes of the medium before the quarter
    areas: Vec<(u32, u32)>,
    gaps: Vec<Gap>,
    b: u32,
}

impl Placing {
    /// Of a call put to this drive, if it is one.
    pub fn of(before: &Drive, frame: &[u8], row: u8) -> Option<Placing> {
        let Frame { c, r, .. } = Frame::read(frame).filter(|f| f.r.operation == CREATE && (row == 0 || row == 20))?;
        let p = c.partition as usize;
        let areas = areas(&before.partitions[p].objects);
        Some(Placing { ahead: before.place(p, 0) as u32, gaps: gaps(before.quarter(), &areas), areas, b: r.b })
    }

    /// Which of [`STEPS`] it met.
    pub fn met(&self) -> [bool; STEPS.len()] {
        let has_the_bytes = |gap: &Gap| gap.length >= self.b;
        let Some(gap) = chosen_gap(&self.gaps, self.b) else {
            let although = self.gaps.iter().any(has_the_bytes);
            return [false, false, although, false, false, false, false];
        };
        let behind = gap.place() > gap.start;
        [
            behind,
            behind && gap.room() == self.b,
            false,
            self.gaps.iter().any(|better| *better < gap && has_the_bytes(better)), // one that fits would be the choice
            self.smallest_from_its_multiple() != Some(gap),
            self.place_by(8, 0) != Some(gap.place()),
            self.gaps.iter().any(|equal| equal.length == gap.length && *equal > gap && equal.fits(self.b)),
        ]
    }

    /// Which of [`STEPS_OF_A_LIBRARY`] it met.
    pub fn met_in_a_library(&self) -> [bool; STEPS_OF_A_LIBRARY.len()] {
        let Some(gap) = chosen_gap(&self.gaps, self.b) else { return [false; STEPS_OF_A_LIBRARY.len()] };
        [self.place_by(STEP, self.ahead) != Some(gap.place()), self.areas.iter().any(|(start, _)| start % STEP != 0)]
    }

    /// The choice, if gaps were measured from their first multiples.
    fn smallest_from_its_multiple(&self) -> Option<Gap> {
        self.gaps.iter().copied().filter(|gap| gap.fits(self.b)).min_by_key(|gap| (gap.room(), gap.start))
    }

    /// The place, if the step were another, or multiples counted from a byte that lies before the quarter.
    fn place_by(&self, step: u32, ahead: u32) -> Option<u32> {
        let place = |gap: &Gap| first_multiple(step, ahead + gap.start) - ahead;
        let fits = |gap: &&Gap| place(gap) as u64 + self.b as u64 <= gap.end() as u64;
        self.gaps.iter().filter(fits).min().map(place)
    }
}

#[cfg(test)]
mod tests {
    use super::*;

    /// What a create of B bytes meets in partition 1 of a drive of quarters of 100 bytes, between these areas.
    fn placing(areas: &[(u32, u32)], b: u32) -> Placing {
        Placing { ahead: 100, areas: areas.to_vec(), gaps: gaps(100, areas), b }
    }

    /// The places in [`STEPS`] of what it met.
    fn met(areas: &[(u32, u32)], b: u32) -> Vec<usize> {
        let all = placing(areas, b).met();
        (0..all.len()).filter(|i| all[*i]).collect()
    }

    #[test]
    fn at_the_start_of_a_gap() {
        assert_eq!([met(&[], 100), met(&[], 101), met(&[(0, 16), (32, 68)], 16)], [[]; 3]);
    }

    #[test]
    fn behind_the_start_of_a_gap() {
        let met_in_9_to_63 = |b| met(&[(0, 9), (64, 36)], b); // 55 bytes, 48 from byte 16 on
        assert_eq!([met_in_9_to_63(47), met_in_9_to_63(48), met_in_9_to_63(49)], [vec![0], vec![0, 1], vec![2]]);
        assert_eq!([met_in_9_to_63(55), met_in_9_to_63(56)], [vec![2], vec![]]);
    }

    #[test]
    fn past_a_better_gap() {
        assert_eq!(met(&[(0, 9), (32, 16)], 17), [3]); // 9–31 has 23 bytes, 16 from byte 16 on; 48–99
        assert_eq!(met(&[(0, 9), (32, 16)], 24), []);
        assert_eq!(met(&[(0, 9), (32, 32), (87, 13)], 17), [3]); // 9–31; 64–86, as small and higher
    }

    #[test]
    fn measured_from_the_multiples() {
        assert_eq!(met(&[(0, 1), (32, 15), (64, 36)], 16), [0, 1, 4]); // 1–31 and 47–63, both with 16 bytes from a multiple on
        assert_eq!(met(&[(0, 16), (40, 9), (80, 20)], 16), [4]); // 16–39 with 24, 49–79 with 16
    }

    #[test]
    fn a_step_of_8() {
        assert_eq!(met(&[(0, 8), (64, 36)], 2), [0, 5]); // 8–63
        assert_eq!(met(&[(0, 9), (64, 36)], 2), [0]);
        assert_eq!(met(&[(0, 17), (30, 2)], 2), [3, 5]); // 17–29 has byte 24, and byte 32 is past it; 32–99
    }

    #[test]
    fn equal_gaps() {
        let equal = [(0, 17), (40, 9), (72, 28)]; // 17–39 and 49–71, both with 8 bytes from a multiple on
        assert_eq!([met(&equal, 1), met(&equal, 8), met(&equal, 9)], [vec![0, 5, 6], vec![0, 1, 5, 6], vec![2]]);
        let only_one_fits = [(0, 9), (32, 32), (87, 13)]; // 9–31 with 16, 64–86 with 23
        assert_eq!([met(&only_one_fits, 16), met(&only_one_fits, 17)], [vec![0, 1, 6], vec![3]]);
    }

    #[test]
    fn in_a_library() {
        let (on_a_step, off) = ([(0, 9), (64, 36)], [(12, 1)]);
        assert_eq!(placing(&on_a_step, 2).met_in_a_library(), [true, false]); // byte 16 of the quarter is the medium's byte 116
        assert_eq!(placing(&off, 12).met_in_a_library(), [true, true]);
        assert_eq!(Placing { ahead: 96, ..placing(&on_a_step, 2) }.met_in_a_library(), [false, false]);
        assert_eq!(Placing { ahead: 96, ..placing(&off, 12) }.met_in_a_library(), [false, true]);
        assert_eq!(placing(&off, 88).met_in_a_library(), [false, false]);
    }

    /// Only creates that came to the rule, in the partition that they name.
    #[test]
    fn which_calls_are_told() {
        let mut medium = vec![0; 400];
        let (_, mut drive) = format(&mut medium, 1, &[0; 32], &[1; 32]);
        drive.partitions[2].objects = vec![Object { number: 1, version: 1, start: 3, size: 50 }];
        let mut frame = vec![0; 96];
        (frame[2], frame[38], frame[59]) = (2, CREATE, 36);
        let told = Placing::of(&drive, &frame, 0).unwrap();
        assert_eq!((told.ahead, told.areas, told.b), (200, vec![(3, 50)], 36));
        assert_eq!(told.gaps, [Gap { length: 3, start: 0 }, Gap { length: 47, start: 53 }]);
        assert_eq!([0, 20, 18, 21, 1].map(|row| Placing::of(&drive, &frame, row).is_some()), [true, true, false, false, false]);
        assert!(Placing::of(&drive, &frame[..95], 0).is_none());
        frame[38] = LOOK;
        assert!(Placing::of(&drive, &frame, 0).is_none());
    }
}
