//! Spoiling: a draft changed so that a given row applies to it.

use super::drafts::{Draft, Sign};
use super::Traffic;
use crate::records::*;
use crate::table::TABLE_BYTES;

impl Traffic<'_> {
    /// Changes a draft so that this row applies to it, where state and operation let it.
    pub(super) fn spoil(&mut self, d: &mut Draft, row: u8, mark: u64) {
        let op = d.r.operation;
        let any = self.rng.next();
        let partition = self.drive.partitions[d.c.partition as usize % 4].clone();
        match row {
            2 => {
                let length = self.rng.below(96) as usize;
                d.cut_to = Some(self.rng.pick(&[0, 95, 64, 36, length]));
            }
            3 => {
                let mark = if any & 1 == 0 { &mut d.c.mark } else { &mut d.r.mark };
                match any >> 1 & 3 {
                    0 => mark[0] ^= 1 << (any >> 8 & 7),
                    1 => mark[1] ^= 1 << (any >> 8 & 7),
                    2 => mark.swap(0, 1),
                    _ => *mark = REPLY_MARK,
                }
            }
            4 => match any % 11 {
                0 => d.c.partition = self.rng.pick(&[4, 5, 8, 128, 255]),
                1 => d.c.slot = self.rng.pick(&[5, 6, 8, 128, 255]),
                2 => d.c.rights |= 1 << (8 + self.rng.below(8)),
                3 => d.c.least = self.rng.pick(&[3, 4, 255]),
                4 => d.c.zero = self.rng.pick(&[1, 128, 255]),
                5 => (d.c.slot, d.c.partition) = (3, 1 + self.rng.below(3) as u8),
                6 => (d.c.slot, d.c.partition) = (4, 1 + self.rng.below(3) as u8),
                7 => d.r.operation = self.rng.pick(&[0, 9, 10, 128, 255]),
                8 => d.r.level = self.rng.pick(&[3, 4, 255]),
                9 => d.r.n = self.rng.pick(&[1_048_577, 0x0100_0000, u32::MAX]),
                _ => d.r.n = d.r.n.wrapping_add(0x0100_0000),
            },
            5 if any >> 8 & 7 == 0 || (d.r.is_of_a_group() && any >> 8 & 1 == 0) => self.resize_for_a_form(d),
            5 => match any % 8 {
                0 => d.cut = 1, // may fall under 96: then it is row 2
                1 => d.add = 1 + self.rng.below(40) as usize,
                2 => d.r.n = self.rng.pick(&[1_048_576, d.r.n.wrapping_add(1), d.r.n.wrapping_sub(1), 65_440]),
                3 => d.data.push(any as u8), // longer than n says
                4 if op == WRITE => d.r.b = d.r.b.wrapping_add(self.rng.pick(&[1, u32::MAX, 0x0001_0000])),
                5 if op == WRITE && d.data.len() > 1 => {
                    d.data.pop(); // n is the data's length, and B is not
                    d.r.n = d.r.n.wrapping_sub(1);
                }
                4..=7 if op == LOAD => self.resize_a_table(d),
                6 if op == SET_KEY => (d.data, d.r.n) = (self.rng.bytes(TABLE_BYTES), TABLE_BYTES as u32), // as a load has
                _ => {
                    let more = 1 + self.rng.below(20) as usize;
                    d.data.extend(self.rng.bytes(more)); // n is the data's length, and wrong
                    d.r.n = d.data.len() as u32;
                }
            },
            6 if d.is_through_a_group() || any >> 8 & 7 == 0 => self.misfit_of_a_form(d),
            6 => {
                let high = 1 << self.rng.below(32);
                match (op, any % 4) {
                    (LOAD, _) => self.misfit_of_a_load(d),
                    (SET_KEY, 0) => d.c.slot = self.rng.below(2) as u8,
                    (SET_KEY, 1) => d.c.version = high,
                    (SET_KEY, 2) => d.r.b = high,
                    (SET_KEY, _) if any & 64 == 0 => d.c.object = high,
                    (SET_KEY, _) => {
                        let over = match d.c.slot {
                            2 => 2,
                            3 => 4,
                            _ => 1,
                        };
                        d.r.a = self.rng.pick(&[over, over, 256, u32::MAX]);
                    }
                    (_, 0) => {
                        d.c.slot = if d.c.partition == 0 { self.rng.pick(&[2, 3, 4]) } else { 2 };
                    }
                    (READ | WRITE, _) => d.c.object = 0,
                    (DELETE, 1) => d.c.object = 0,
                    (CREATE, 1) => d.c.object = if partition.objects.is_empty() { 1 } else { partition.objects[0].number },
                    (CREATE, 2) => d.r.a = 0,
                    (CREATE, _) => d.r.b = 0,
                    (_, 2) => d.r.a = high,
                    _ => d.r.b = high,
                }
            }
            7 => self.lower_the_level(d),
            8 => {
                let mut unset = vec![];
                for p in 0..4u8 {
                    for slot in 0..3u8 {
                        let fits = (op >= SET_KEY) == (slot == 2);
                        if self.drive.key(slot, p).is_none() && fits {
                            unset.push((slot, p));
                        }
                    }
                }
                if !unset.is_empty() {
                    (d.c.slot, d.c.partition) = self.rng.pick(&unset);
                    if op == SET_KEY {
                        d.r.a &= 1;
                    }
                }
            }
            9 => {
                d.sign = match any % 6 {
                    0 => Sign::Under(self.rng.pick(&self.old_keys)),
                    1 => {
                        let (slot, p) = (self.rng.below(5) as u8, self.rng.below(4) as u8);
                        Sign::Under(self.drive.key(slot, p).unwrap_or([9; 32])) // may be the right one
                    }
                    2 if !d.data.is_empty() => Sign::OtherCover,
                    _ => Sign::Flip(self.rng.pick(&[0, 255, (any >> 8) as usize % 256])),
                }
            }
            10 => {
                if mark > 0 {
                    let low = self.rng.below(mark);
                    d.c.expiry = self.rng.pick(&[mark - 1, mark - 1, low, 0]);
                }
            }
            11 => {
                let m = mark as u128;
                let times = [
                    mark.wrapping_sub(5_001),
                    mark.wrapping_add(5_001),
                    mark.wrapping_sub(5_001 + any % 1_000),
                    mark.wrapping_add(5_001 + any % 1_000),
                    0,
                    u64::MAX,
                    any,
                ];
                for _ in 0..12 {
                    let t = self.rng.pick(&times);
                    if t as u128 + 5_000 < m || t as u128 > m + 5_000 {
                        d.r.time = t;
                        break;
                    }
                }
            }
            12 => {
                let mut same = self.living(d.c.slot, d.c.partition % 4, mark);
                same.retain(|e| e.object == d.c.object);
                if !same.is_empty() {
                    let e = self.rng.pick(&same);
                    (d.c.holder, d.r.time, d.r.count) = (e.holder, e.time, e.count);
                }
            }
            13 => self.take_rights(d),
            14 => {
                let mut number = match any % 4 {
                    0 => self.past.iter().rev().find(|(p, ..)| *p == d.c.partition).map_or(40, |(_, o, _)| *o),
                    1 => {
                        let other = &self.drive.partitions[(any >> 8) as usize % 4].objects;
                        other.first().map_or(u32::MAX, |o| o.number)
                    }
                    2 => {
                        // One that went and left an entry: row 12 may apply too.
                        let entries = self.living(d.c.slot, d.c.partition % 4, mark);
                        entries.iter().rev().map(|e| e.object).find(|o| partition.find(*o).is_none()).unwrap_or(41)
                    }
                    _ => (any >> 16) as u32,
                };
                while number == 0 || partition.find(number).is_some() {
                    number = 1 + self.rng.below(200) as u32;
                }
                d.c.object = number;
            }
            15 => {
                let present = partition.present_version(d.c.object);
                let old = self.past.iter().rev().find(|(p, o, _)| *p == d.c.partition && *o == d.c.object);
                let old = old.map_or(0, |(_, _, v)| *v);
                let members = partition.find(d.target()).map_or(0, |o| o.version);
                let other = self.rng.pick(&[partition.version, partition.last_given, old, members]);
                for _ in 0..12 {
                    let v = self.rng.pick(&[
                        old,
                        other,
                        d.c.version.wrapping_sub(1),
                        d.c.version.wrapping_add(1),
                        d.c.version ^ 0x100,
                        0,
                        u32::MAX,
                    ]);
                    if Some(v) != present {
                        d.c.version = v;
                        break;
                    }
                }
            }
            16 => {
                let sum = d.r.a as u64 + d.r.b as u64;
                match any % 4 {
                    0 if d.r.a < u32::MAX => d.c.first = d.r.a + 1,
                    1 if sum > 0 => (d.c.first, d.c.end) = (0, (sum - 1).min(u32::MAX as u64) as u32),
                    2 if d.r.a < u32::MAX => (d.c.first, d.c.end) = (u32::MAX, 0),
                    _ if op == READ => d.r.b = u32::MAX - (any >> 32) as u32 % 3,
                    _ => d.r.a = u32::MAX - (any >> 32) as u32 % 3,
                }
            }
            17 => {
                let size = partition.find(d.target()).map_or(0, |o| o.size);
                if !(d.c.first == u32::MAX || d.c.end == 0) {
                    (d.c.first, d.c.end) = (0, u32::MAX);
                }
                match any % 3 {
                    0 => d.r.a = size.saturating_sub(d.r.b) + 1,
                    1 => d.r.a = size.saturating_add(1 + (any >> 8) as u32 % 100),
                    _ if op == READ => d.r.b = size.saturating_sub(d.r.a) + 1,
                    _ => d.r.a = size.saturating_add(1),
                }
            }
            18 => {
                if op == CREATE && !partition.objects.is_empty() {
                    d.r.a = self.rng.pick(&partition.objects).number;
                }
            }
            20 => {
                if op == CREATE {
                    d.r.b = self.size_that_fits_nowhere(&partition);
                }
            }
            31 => self.spoil_a_table(d),
            32 => self.spoil_a_group(d),
            33 => self.spoil_a_member(d),
            34 => self.lose_a_member(d),
            _ => {} // 19, 21, 22: by the state; 23: by the space
        }
    }
}
