//! `cuts SEED COUNT IN EXPECTED DIR`: a stream of `streams` broken off in COUNT ways, as DIR/1.in, DIR/1.expected and so on.
//!
//! "on a record with another mark or without all its bytes, or a length over 65,536, `cut` and that count": the lines before the
//! break stay, and what comes after it is never looked at.

use model::rng::Rng;
use std::fs::{read, read_to_string, write};

fn main() {
    let args: Vec<String> = std::env::args().collect();
    let [_, seed, count, input, expected, dir] = &args[..] else {
        eprintln!("usage: cuts SEED COUNT IN EXPECTED DIR");
        std::process::exit(2);
    };
    let mut rng = Rng::new(seed.parse().expect("SEED is a number"));
    let stream = read(input).expect("cannot read IN");
    let text = read_to_string(expected).expect("cannot read EXPECTED");
    let lines: Vec<&str> = text.lines().collect();

    // Where each record starts, and where the stream ends.
    let mut starts = vec![0];
    while *starts.last().unwrap() < stream.len() {
        let at = *starts.last().unwrap();
        let length = u32::from_be_bytes(stream[at + 10..at + 14].try_into().unwrap());
        starts.push(at + 14 + length as usize);
    }
    let calls = starts.len() - 1;
    assert_eq!(calls + 1, lines.len());

    for i in 1..=count.parse().expect("COUNT is a number") {
        let mut broken = stream.clone();
        let record = if rng.chance(10) { 0 } else { rng.below(calls as u64) as usize };
        let (start, end) = (starts[record], starts[record + 1]);
        let (kept, word) = match i % 8 {
            0 => {
                broken.truncate(start + 1 + rng.below(13) as usize); // in the record's head
                (record, "cut")
            }
            1 => {
                broken.truncate(end - 1); // a byte too few
                (record, "cut")
            }
            2 => {
                broken.truncate(start + 1 + rng.below((end - start - 1) as u64) as usize);
                (record, "cut")
            }
            3 => {
                broken[start + rng.below(2) as usize] ^= 1 << rng.below(8); // another mark
                (record, "cut")
            }
            4 => {
                let length: u32 = rng.pick(&[65_537, 65_538, 0x0001_0000 + 96, u32::MAX, 0x8000_0000]);
                broken[start + 10..start + 14].copy_from_slice(&length.to_be_bytes());
                (record, "cut")
            }
            5 => {
                let more = 1 + rng.below(20) as usize;
                broken.extend(rng.bytes(more)); // bytes after the last record that are none
                let last = stream.len();
                broken[last] = if more > 13 { 0 } else { 0x4c };
                (calls, "cut")
            }
            6 => {
                // The last record says a byte more than there is.
                let last = starts[calls - 1];
                let length = u32::from_be_bytes(stream[last + 10..last + 14].try_into().unwrap()) + 1;
                broken[last + 10..last + 14].copy_from_slice(&length.to_be_bytes());
                (calls - 1, "cut")
            }
            _ => {
                broken.truncate(start); // between two records: an end, not a cut
                (record, "end")
            }
        };
        let mut out = lines[..kept].join("\n");
        if kept > 0 {
            out.push('\n');
        }
        out.push_str(&format!("{word} {kept}\n"));
        write(format!("{dir}/{i}.in"), broken).expect("cannot write");
        write(format!("{dir}/{i}.expected"), out).expect("cannot write");
    }
}
