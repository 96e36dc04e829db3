//! `streams SEED CALLS OUT.in OUT.expected`: a random stream of records for the program `gate`, and the lines it must print.
//! Prints how often each row is in it, and how often it has what the tests ask for. The same seed and count give the same files.

use model::drive::format;
use model::rng::Rng;
use model::traffic::{Done, Tally, Traffic, GUARD};
use std::fs::write;

fn main() {
    let args: Vec<String> = std::env::args().collect();
    let [_, seed, calls, input, expected] = &args[..] else {
        eprintln!("usage: streams SEED CALLS OUT.in OUT.expected");
        std::process::exit(2);
    };
    let seed: u64 = seed.parse().expect("SEED is a number");
    let calls: usize = calls.parse().expect("CALLS is a number");

    // "The program `gate` formats 65,536 bytes with F = 1, master key 32 zero bytes, drive key 32 bytes of 01."
    let mut medium = vec![0; 65_536 + GUARD];
    let (row, drive) = format(&mut medium[..65_536], 1, &[0; 32], &[1; 32]);
    assert_eq!(row, 0);

    let mut tally = Tally::default();
    let mut records: Vec<u8> = vec![];
    let mut lines = String::new();
    let mut count = 0;
    let mut sink = |done: &Done| {
        count += 1;
        tally.count(done);
        // "records: mark 4C 49, clock (8 bytes), frame length (4), frame"
        records.extend([0x4c, 0x49]);
        records.extend(done.call.clock.to_be_bytes());
        records.extend((done.call.frame.len() as u32).to_be_bytes());
        records.extend(&done.call.frame);
        // "Each prints a line: call number from 1, row, reply length."
        lines.push_str(&format!("{count} {} {}\n", done.row, done.length));
    };
    Traffic::new(Rng::new(seed), drive, medium, false, calls, &mut sink).run();
    // "Last comes `end` and the count of calls".
    lines.push_str(&format!("end {count}\n"));
    write(input, records).expect("cannot write OUT.in");
    write(expected, lines).expect("cannot write OUT.expected");
    tally.print();
}
