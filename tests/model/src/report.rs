//! Change request 1, "A shift report in exact counts": "A program reads the same input as `gate` and prints a line for each
//! nonzero count: partition, row (0 for a grant), count, in rising order."

use crate::drive::format;
use crate::gate::gate;
use crate::input::{next, Next};
use std::collections::BTreeMap;
use std::fmt;
use std::io::BufRead;

/// Where a call counts. In the order of the lines: "`none`, which comes after partition 3".
#[derive(Clone, Copy, Debug, PartialEq, Eq, PartialOrd, Ord)]
pub enum Place {
    Partition(u8),
    None,
}

/// The counts that are not zero, by place and row, and the total.
#[derive(Clone, Debug, Default, PartialEq, Eq)]
pub struct Report {
    pub counts: BTreeMap<(Place, u8), u64>,
    pub calls: u64,
}

/// "Rows 2 to 4 count under `none`", and so would row 1, which this drive never meets. Every other frame has passed row 4, and
/// byte 2 is its credential's partition; "Slots 3 and 4 carry partition 0."
pub fn place(frame: &[u8], row: u8) -> Place {
    if (1..=4).contains(&row) {
        return Place::None;
    }
    assert!(frame[2] <= 3);
    Place::Partition(frame[2])
}

/// The calls of an input, put to a drive formatted as that of `gate`, and counted. Where the input is broken: of the calls before.
pub fn report(input: &mut impl BufRead) -> Report {
    let mut medium = vec![0; 65_536];
    let (_, mut drive) = format(&mut medium, 1, &[0; 32], &[1; 32]);
    let mut space = vec![0; 65_536];
    let mut report = Report::default();
    while let Next::Record { clock, frame } = next(input) {
        let (row, _) = gate(&mut drive, &mut medium, &frame, clock, &mut space);
        *report.counts.entry((place(&frame, row), row)).or_insert(0) += 1;
        report.calls += 1;
    }
    // "All counts add up to the calls."
    assert_eq!(report.counts.values().sum::<u64>(), report.calls);
    report
}

impl fmt::Display for Report {
    fn fmt(&self, out: &mut fmt::Formatter) -> fmt::Result {
        for ((place, row), count) in &self.counts {
            match place {
                Place::Partition(p) => writeln!(out, "{p} {row} {count}")?,
                Place::None => writeln!(out, "none {row} {count}")?,
            }
        }
        // "The last line is `calls` and the total."
        writeln!(out, "calls {}", self.calls)
    }
}

#[cfg(test)]
mod tests {
    use super::*;
    use crate::client::{build, issue};
    use crate::digest::{hmac, Digest};
    use crate::records::*;
    use crate::table::Table;

    fn record(frame: &[u8]) -> Vec<u8> {
        [&[0x4c, 0x49][..], &[0; 8], &(frame.len() as u32).to_be_bytes(), frame].concat()
    }

    /// What is printed of these bytes.
    fn printed(bytes: &[u8]) -> String {
        report(&mut &bytes[..]).to_string()
    }

    fn printed_of(frames: &[Vec<u8>]) -> String {
        printed(&frames.iter().flat_map(|f| record(f)).collect::<Vec<u8>>())
    }

    fn credential(partition: u8, slot: u8) -> Credential {
        Credential {
            mark: CREDENTIAL_MARK,
            partition,
            slot,
            object: 0,
            version: 0,
            rights: 0x7f,
            least: 0,
            zero: 0,
            first: 0,
            end: 0,
            expiry: u64::MAX,
            holder: 1,
        }
    }

    fn request(operation: u8, a: u32, n: u32) -> Request {
        Request { mark: REQUEST_MARK, operation, level: 1, time: 0, count: 0, a, b: 0, n, member: 0 }
    }

    fn frame(c: &Credential, r: &Request, data: &[u8], key: &[u8]) -> Vec<u8> {
        let credential = c.bytes();
        let length = r.frame_length() as usize;
        let mut space = vec![0; length];
        let (row, secret) = issue(key, c, &mut [0; 36]);
        assert_eq!(row, 0);
        assert_eq!(build(&credential, &r.bytes(), data, &secret, &mut space), (0, length));
        space
    }

    /// A look at a partition whose keys were never set: row 8.
    fn look(partition: u8) -> Vec<u8> {
        frame(&credential(partition, 0), &request(LOOK, 0, 0), &[], &[5; 32])
    }

    /// A look with one byte another.
    fn spoiled(partition: u8, at: usize, byte: u8) -> Vec<u8> {
        let mut f = look(partition);
        assert_ne!(f[at], byte);
        f[at] = byte;
        f
    }

    /// A granted change of key `a` in the slot below, and that key.
    fn set_key(partition: u8, slot: u8, a: u32, key: &[u8]) -> (Vec<u8>, Digest) {
        let r = request(SET_KEY, a, 16);
        (frame(&credential(partition, slot), &r, &[9; 16], key), hmac(key, &[&r.bytes()[..], &[9; 16]].concat()))
    }

    /// "For the example in document 01 it prints `none 2 1`, `none 3 1`, `calls 2`."
    #[test]
    fn report_of_the_example() {
        assert_eq!(printed_of(&[vec![], vec![0; 96]]), "none 2 1\nnone 3 1\ncalls 2\n");
    }

    #[test]
    fn report_of_nothing() {
        assert_eq!(printed(&[]), "calls 0\n");
    }

    /// Each way to break the input off, as the second record and as the first: the calls before it count, what follows does not.
    #[test]
    fn report_of_a_broken_input() {
        let whole = record(&look(1));
        let mut breaks = vec![];
        for n in [1, 2, 3, 10, 13, 14, 15, 109] {
            breaks.push(whole[..n].to_vec()); // without all its bytes
        }
        for (at, byte) in [(0, 0x4d), (1, 0x43)] {
            let mut other = whole.clone();
            other[at] = byte; // another mark
            breaks.push([&other[..], &whole].concat());
        }
        for length in [65_537, 65_538, 1 << 31, u32::MAX] {
            let mut long = record(&vec![0; 65_538]);
            long[10..14].copy_from_slice(&u32::to_be_bytes(length));
            breaks.push([&long[..], &whole].concat());
        }
        for broken in breaks {
            assert_eq!(printed(&broken), "calls 0\n");
            assert_eq!(printed(&[&whole[..], &broken].concat()), "1 8 1\ncalls 1\n");
        }
        // a frame of the greatest length is none of these
        assert_eq!(printed_of(&[vec![0; 65_536], look(1)]), "1 8 1\nnone 3 1\ncalls 2\n");
    }

    /// Rows 2, 3 and 4 count under `none`, whatever partition byte 2 would name; from row 5 on it is that partition.
    #[test]
    fn report_of_rows_under_none() {
        let short = look(1)[..95].to_vec(); // 2
        let mark = spoiled(2, 0, 0); // 3
        let request_mark = spoiled(3, 37, 0); // 3
        let level = spoiled(3, 39, 3); // 4
        let partition = spoiled(0, 2, 4); // 4
        let slot = spoiled(1, 3, 3); // 4: slot 3 with partition 1
        let longer = [&look(1)[..], &[0]].concat(); // 5
        let misfit = spoiled(2, 3, 2); // 6: a look in slot 2
        let least = spoiled(3, 14, 2); // 7
        assert_eq!(
            printed_of(&[short, mark, request_mark, level, partition, slot, longer, misfit, least]),
            "1 5 1\n2 6 1\n3 7 1\nnone 2 1\nnone 3 2\nnone 4 3\ncalls 9\n"
        );
    }

    /// Slots 3 and 4 count under partition 0, also where the key that they set is another partition's; slot 2 under its own.
    #[test]
    fn report_of_slots_3_and_4() {
        let (drive_key, made) = set_key(0, 4, 0, &[0; 32]);
        let (partition_key, partition_2) = set_key(0, 3, 2, &made);
        let (working_key, _) = set_key(2, 2, 1, &partition_2);
        let repeated = partition_key.clone(); // 12
        let (other_key, _) = set_key(0, 3, 3, &[1; 32]); // 9: the drive key is another one now
        assert_eq!(
            printed_of(&[drive_key, partition_key, working_key, repeated, other_key]),
            "0 0 2\n0 9 1\n0 12 1\n2 0 1\ncalls 5\n"
        );
    }

    /// Row 31 counts under the partition whose table is bad, behind the lower rows.
    #[test]
    fn report_of_row_31() {
        let (partition_key, made) = set_key(0, 3, 2, &[1; 32]);
        let load = |count, data: &[u8]| frame(&credential(2, 2), &Request { count, ..request(LOAD, 0, 21) }, data, &made);
        let good = Table::default().bytes();
        let calls = [partition_key, load(1, &[0; 21]), load(2, &good), load(2, &good), load(3, &[255; 21])];
        assert_eq!(printed_of(&calls), "0 0 1\n2 0 1\n2 12 1\n2 31 2\ncalls 5\n");
    }

    /// Rows 32 to 34 count under the group's partition.
    #[test]
    fn report_of_rows_32_to_34() {
        let (partition_key, made) = set_key(0, 3, 2, &[1; 32]);
        let (working_key, black) = set_key(2, 2, 0, &made);
        let own = |object, count, operation, a, b, data: &[u8]| {
            let c = Credential { object, version: 1 + (object != 0) as u32, end: 9, ..credential(2, 0) };
            frame(&c, &Request { count, b, ..request(operation, a, data.len() as u32) }, data, &black)
        };
        let look = |count, member| {
            let c = Credential { object: 5, version: 2, rights: 0x84, ..credential(2, 0) };
            frame(&c, &Request { mark: GROUP_MARK, count, member, ..request(LOOK, 0, 0) }, &[], &black)
        };
        let list = [0, 0, 0, 5, 0, 0, 0, 9];
        let calls = [
            partition_key,
            working_key,
            own(0, 1, CREATE, 5, 8, &[]),
            look(2, 5),
            own(5, 3, WRITE, 0, 8, &list),
            look(4, 5),
            look(5, 8),
            look(6, 9),
            look(7, 0),
        ];
        assert_eq!(printed_of(&calls), "0 0 1\n2 0 4\n2 32 1\n2 33 2\n2 34 1\ncalls 9\n");
    }

    /// Partitions rise, `none` is last, and in each the rows rise as numbers, whatever the order of the calls.
    #[test]
    fn report_in_rising_order() {
        let (key, _) = set_key(0, 3, 0, &[1; 32]);
        let least = spoiled(0, 14, 2); // 7
        let calls = [vec![], look(3), key.clone(), look(2), vec![0; 96], key, look(0), look(1), least, look(3), vec![]];
        let lines = "0 0 1\n0 7 1\n0 8 1\n0 12 1\n1 8 1\n2 8 1\n3 8 2\nnone 2 2\nnone 3 1\ncalls 11\n";
        assert_eq!(printed_of(&calls), lines);
        let mut turned = calls;
        turned.reverse();
        assert_eq!(printed_of(&turned), lines);
    }
}
