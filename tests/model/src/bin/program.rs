//! The model in the place of the program `gate`: records from standard input, lines to standard output. It tests the tests.

use model::drive::format;
use model::gate::gate;
use model::input::{next, Next};
use std::io::{stdin, stdout, BufReader, BufWriter, Write};

fn main() {
    let mut input = BufReader::new(stdin());
    let mut output = BufWriter::new(stdout());
    let mut medium = vec![0; 65_536];
    let (_, mut drive) = format(&mut medium, 1, &[0; 32], &[1; 32]);
    let mut space = vec![0; 65_536];
    let mut count = 0u64;
    let last = loop {
        match next(&mut input) {
            Next::Record { clock, frame } => {
                count += 1;
                let (row, reply) = gate(&mut drive, &mut medium, &frame, clock, &mut space);
                writeln!(output, "{count} {row} {reply}").unwrap();
            }
            Next::End => break "end",
            Next::Broken => break "cut",
        }
    };
    writeln!(output, "{last} {count}").unwrap();
}
