//! The model in the place of the program `report`: records from standard input, the counts to standard output. It says what the
//! program must print, and tests the tests.

use model::report::report;
use std::io::{stdin, stdout, BufReader, Write};

fn main() {
    let text = report(&mut BufReader::new(stdin())).to_string();
    // Where it cannot be written there is nobody to tell.
    let _ = stdout().write_all(text.as_bytes());
}
