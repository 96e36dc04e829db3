//! `library SEED CALLS OUT.in OUT.expected [big]`: random calls for the drive's library itself, with media, first versions, keys and
//! reply spaces of many kinds, some on drive records that no list of calls makes, and what every call must leave behind. Prints how often
//! each row is in it, and how often it has what the tests ask for.
//!
//! # The trace, OUT.in
//!
//! Records one after another until the file ends. Numbers are unsigned and big-endian. The player keeps one drive record, one medium
//! buffer of at least 70,008 bytes (with `big`: 16,777,225) and one reply space of at least 70,000; a frame has at most 70,000 bytes.
//!
//! Format, 96 bytes:
//! ```text
//!  0       46 (F)
//!  1       fill: every byte of the medium buffer from 0 up to M + 8 is set to it before the call
//!  2       length of the master key lent, 0 to 40
//!  3       length of the drive key lent, 0 to 40
//!  4 –  7  M: format is lent the first M bytes of the medium buffer
//!  8 – 11  F
//! 12 – 15  0
//! 16 – 55  master key, its first bytes
//! 56 – 95  drive key, its first bytes
//! ```
//! Call, 32 bytes and the frame:
//! ```text
//!  0       43 (C)
//!  1       fill: every byte of the reply space is set to it before the call
//!  2 –  3  0
//!  4 –  7  length of the medium lent: the first so many bytes of the buffer, 0 to M + 8 (mostly M)
//!  8 – 15  clock
//! 16 – 19  frame length
//! 20 – 23  reply space length
//! 24 – 31  0
//! 32 ..    frame
//! ```
//! Object, 32 bytes:
//! ```text
//!  0       4F (O)
//!  1       partition, 0 to 3
//!  2 –  3  0
//!  4 –  7  number
//!  8 – 11  version
//! 12 – 15  size
//! 16 – 19  start, from the quarter's start
//! 20 – 23  the partition's last version given
//! 24 – 31  0
//! ```
//! Need, 32 bytes:
//! ```text
//!  0       4E (N)
//!  1       partition, 0 to 3
//!  2       operation, 1 to 7
//!  3       0
//!  4 –  7  mask
//!  8 – 11  least level
//! 12 – 31  0
//! ```
//! The drive that a format or call returns is the next call's, refused or not. After a refused format M stands for the length that
//! was lent to it; the drive is that of row 24, so only an empty medium fits it.
//!
//! By an object record the partition has this object behind those that it has, 16 at most, and this last version given; nothing else of
//! the drive or of the medium changes. The object need not start on a step, which row 1 does not ask for, and it may leave the drive
//! record unsound. A record with a partition over 3, or for a partition that has 16 objects already, is none: the player ends with `cut`.
//!
//! By a need record the partition's operation table has this mask and this least level for this operation; nothing else changes. Both may
//! be any numbers: row 1 asks for no good table. A record with a partition over 3, or with an operation that is not 1 to 7, is none: the
//! player ends with `cut`.
//!
//! # What must be printed, OUT.expected
//!
//! A line for each record, so that the line's number is the record's: row, reply length, reply space, digest, one space between.
//! - After a call the reply space is all its bytes in lowercase hexadecimal, written or not; `-` when it has none, for a format, for an
//!   object and for a need. The line of an object or a need is `0 0 - DIGEST`.
//! - The digest is SHA-256, in lowercase hexadecimal, of the first M + 8 bytes of the medium buffer: the medium and 8 bytes behind it.
//!
//! `replay < OUT.in` prints it with the model in the drive's place.

use model::digest::{hex, sha256};
use model::drive::{format, MOST_MEDIUM};
use model::rng::Rng;
use model::traffic::{Breach, Done, Put, PutNeed, Sink, Tally, Traffic, BREACHES, GUARD};
use std::fs::write;

#[derive(Default)]
struct Trace {
    records: Vec<u8>,
    lines: String,
    tally: Tally,
}

impl Sink for Trace {
    fn call(&mut self, done: &Done) {
        let call = done.call;
        self.tally.count(done);
        self.records.extend([b'C', call.fill, 0, 0]);
        self.records.extend((call.lent as u32).to_be_bytes());
        self.records.extend(call.clock.to_be_bytes());
        self.records.extend((call.frame.len() as u32).to_be_bytes());
        self.records.extend((call.space as u32).to_be_bytes());
        self.records.extend([0; 8]);
        self.records.extend(&call.frame);
        let space = if done.space.is_empty() { "-".to_string() } else { hex(done.space) };
        self.line(done.row, done.length, &space, done.medium);
    }

    fn object(&mut self, put: &Put) {
        let object = put.object;
        self.records.extend([b'O', put.partition, 0, 0]);
        for number in [object.number, object.version, object.size, object.start, put.last_given, 0, 0] {
            self.records.extend(number.to_be_bytes());
        }
        self.line(0, 0, "-", put.medium);
    }

    fn need(&mut self, put: &PutNeed) {
        self.records.extend([b'N', put.partition, put.operation, 0]);
        for number in [put.need.mask, put.need.level, 0, 0, 0, 0, 0] {
            self.records.extend(number.to_be_bytes());
        }
        self.line(0, 0, "-", put.medium);
    }
}

/// What a format is lent.
struct Lent<'a> {
    size: usize,
    f: u32,
    master: &'a [u8],
    drive: &'a [u8],
}

/// What happens after it.
struct Plot {
    calls: usize,
    objects: bool, // come from outside too
    needs: bool,   // so do lines of operation tables
    breach: Option<(Breach, usize)>,
}

/// Calls and nothing else.
fn plainly(calls: usize) -> Plot {
    Plot { calls, objects: false, needs: false, breach: None }
}

impl Trace {
    fn line(&mut self, row: u8, length: usize, space: &str, medium: &[u8]) {
        self.lines.push_str(&format!("{row} {length} {space} {}\n", hex(&sha256(medium))));
    }

    /// One format and what comes after it.
    fn life(&mut self, rng: &mut Rng, lent: &Lent, plot: &Plot) {
        let fill = rng.next() as u8;
        self.records.extend([b'F', fill, lent.master.len() as u8, lent.drive.len() as u8]);
        self.records.extend((lent.size as u32).to_be_bytes());
        self.records.extend(lent.f.to_be_bytes());
        self.records.extend([0; 4]);
        for key in [lent.master, lent.drive] {
            let mut field = key.to_vec();
            field.resize(40, 0);
            self.records.extend(field);
        }
        let mut medium = vec![fill; lent.size + GUARD];
        let (row, fresh) = format(&mut medium[..lent.size], lent.f, lent.master, lent.drive);
        self.tally.rows[row as usize] += (row != 0) as u64;
        self.line(row, 0, "-", &medium);

        let mut traffic =
            Traffic::new(Rng::new(rng.next()), fresh, medium, true, plot.calls, self).with_keys(lent.drive, lent.master);
        if plot.objects {
            traffic = traffic.with_objects();
        }
        if plot.needs {
            traffic = traffic.with_needs();
        }
        if let Some((breach, calls)) = plot.breach {
            traffic = traffic.broken_by(breach, calls);
        }
        traffic.run();
    }
}

fn size(rng: &mut Rng) -> usize {
    let n = match rng.weighted(&[2, 4, 16, 56, 20, 2]) {
        0 => 0,
        1 => 1 + rng.below(7),
        2 => 8 + rng.below(400),
        3 => 400 + rng.below(4_600),
        4 => 5_000 + rng.below(65_000),
        _ => rng.pick(&[70_000, 69_999, 65_536, 65_535]),
    };
    n as usize
}

fn first_version(rng: &mut Rng) -> u32 {
    match rng.weighted(&[45, 5, 15, 35]) {
        0 => 1,
        1 => u32::MAX,
        2 => u32::MAX - 1 - rng.below(60) as u32,
        _ => rng.next() as u32 | 1,
    }
}

/// A format with F = 0, a key too short or too long, or both, and some calls on the drive that it returns.
fn refused_life(trace: &mut Trace, rng: &mut Rng, left: &mut usize) {
    let (size, f) = (size(rng), first_version(rng));
    let (master, drive) = (rng.bytes(32), rng.bytes(32));
    let wrong = rng.pick(&[0, 1, 31, 33, 40]);
    let other = rng.bytes(wrong);
    let calls = (rng.below(12) as usize).min(*left);
    *left -= calls;
    let good = Lent { size, f, master: &master, drive: &drive };
    let lent = match rng.below(4) {
        0 => Lent { f: 0, ..good },
        1 => Lent { master: &other, ..good },
        2 => Lent { drive: &other, ..good },
        _ => Lent { f: 0, drive: &other, ..good },
    };
    trace.life(rng, &lent, &plainly(calls));
}

/// A short life among objects from outside, whose last one leaves the record unsound; each clause in turn.
fn broken_life(trace: &mut Trace, rng: &mut Rng, left: &mut usize, breaches: &mut impl Iterator<Item = Breach>) {
    let (size, f) = (size(rng).max(4), first_version(rng));
    let (master, drive) = (rng.bytes(32), rng.bytes(32));
    let calls = (8 + rng.below(70) as usize).min(*left);
    let breach = breaches.next().map(|breach| (breach, calls.min(1 + rng.below(6) as usize)));
    *left -= calls;
    trace.life(rng, &Lent { size, f, master: &master, drive: &drive }, &Plot { calls, objects: true, needs: false, breach });
}

/// A life of up to some hundred calls, in one of three among objects from outside, in two of five by tables from outside.
fn whole_life(trace: &mut Trace, rng: &mut Rng, left: &mut usize) {
    let (size, f) = (size(rng), first_version(rng));
    let (objects, needs) = (rng.chance(33), rng.chance(40));
    let (master, drive) = (rng.bytes(32), rng.bytes(32));
    let calls = (30 + rng.below(800) as usize).min(*left);
    *left -= calls;
    trace.life(rng, &Lent { size, f, master: &master, drive: &drive }, &Plot { calls, objects, needs, breach: None });
}

/// The largest medium and one byte more.
fn big_lives(trace: &mut Trace, rng: &mut Rng) {
    let most = MOST_MEDIUM;
    let good = Lent { size: most, f: 1, master: &[0; 32], drive: &[1; 32] };
    trace.life(rng, &Lent { size: most + 1, f: 0, master: &[], drive: &[] }, &plainly(2)); // rows 24, 25 and 26 at once
    trace.life(rng, &Lent { size: most + 1, ..good }, &plainly(2));
    trace.life(rng, &good, &plainly(10));
    trace.life(rng, &Lent { f: 0, ..good }, &plainly(2));
}

fn main() {
    let args: Vec<String> = std::env::args().collect();
    if args.len() < 5 {
        eprintln!("usage: library SEED CALLS OUT.in OUT.expected [big]");
        std::process::exit(2);
    }
    let mut rng = Rng::new(args[1].parse().expect("SEED is a number"));
    let mut left: usize = args[2].parse().expect("CALLS is a number");
    let mut trace = Trace::default();
    if args.get(5).is_some_and(|a| a == "big") {
        big_lives(&mut trace, &mut rng);
    }
    let mut breaches = BREACHES.into_iter().cycle();
    while left > 0 {
        for _ in 0..rng.below(4) {
            refused_life(&mut trace, &mut rng, &mut left);
        }
        if left > 0 && rng.chance(70) {
            broken_life(&mut trace, &mut rng, &mut left, &mut breaches);
        }
        if left > 0 {
            whole_life(&mut trace, &mut rng, &mut left);
        }
    }
    write(&args[3], trace.records).expect("cannot write OUT.in");
    write(&args[4], trace.lines).expect("cannot write OUT.expected");
    trace.tally.print();
    trace.tally.print_of_a_library();
}
