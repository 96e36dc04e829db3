//! Plays a trace of `library` (its head has the layout) with the model in the drive's place. It tests the tests, and shows what a
//! player has to do. A record that is none, or not whole, ends the lines with `cut`, and the status is 1.

use model::digest::{hex, sha256};
use model::drive::{format, Drive, Object, MOST_MEDIUM, MOST_OBJECTS};
use model::gate::gate;
use model::table::Need;
use model::traffic::GUARD;
use std::io::{stdin, stdout, BufReader, BufWriter, Read, Write};
use std::process::ExitCode;

const FIRST_PART: usize = 32; // of a record; tells its kind
const SECOND_PART: usize = 64; // of a format
const LONGEST_KEY: usize = 40;
const LONGEST_FRAME: usize = 70_000;
const LONGEST_SPACE: usize = 70_000;

fn four(bytes: &[u8], at: usize) -> u32 {
    u32::from_be_bytes(bytes[at..at + 4].try_into().unwrap())
}

/// So many bytes; fewer where the input ends.
fn read(input: &mut impl Read, n: usize) -> Vec<u8> {
    let mut bytes = vec![];
    input.take(n as u64).read_to_end(&mut bytes).expect("cannot read");
    bytes
}

/// So many bytes, if there are.
fn whole(input: &mut impl Read, n: usize) -> Option<Vec<u8>> {
    Some(read(input, n)).filter(|bytes| bytes.len() == n)
}

#[derive(Default)]
struct Player {
    drive: Drive,
    medium: Vec<u8>, // M bytes and those behind
}

impl Player {
    fn line(&self, row: u8, length: usize, space: &[u8]) -> Option<String> {
        let space = if space.is_empty() { "-".to_string() } else { hex(space) };
        Some(format!("{row} {length} {space} {}", hex(&sha256(&self.medium))))
    }

    /// The line of a record whose first part is this; none where it is no record.
    fn play(&mut self, head: &[u8], input: &mut impl Read) -> Option<String> {
        match (head.len(), head[0]) {
            (FIRST_PART, b'F') => self.format(head, input),
            (FIRST_PART, b'C') => self.call(head, input),
            (FIRST_PART, b'O') => self.object(head),
            (FIRST_PART, b'N') => self.need(head),
            _ => None,
        }
    }

    fn format(&mut self, head: &[u8], input: &mut impl Read) -> Option<String> {
        let record = [head, &whole(input, SECOND_PART)?].concat();
        let (m, master, drive) = (four(head, 4) as usize, head[2] as usize, head[3] as usize);
        if m > MOST_MEDIUM + 1 || master > LONGEST_KEY || drive > LONGEST_KEY {
            return None;
        }
        self.medium = vec![head[1]; m + GUARD];
        let (row, fresh) = format(&mut self.medium[..m], four(head, 8), &record[16..16 + master], &record[56..56 + drive]);
        self.drive = fresh;
        self.line(row, 0, &[])
    }

    fn call(&mut self, head: &[u8], input: &mut impl Read) -> Option<String> {
        let (lent, frame, space) = (four(head, 4) as usize, four(head, 16) as usize, four(head, 20) as usize);
        if lent > self.medium.len() || frame > LONGEST_FRAME || space > LONGEST_SPACE {
            return None;
        }
        let clock = u64::from_be_bytes(head[8..16].try_into().unwrap());
        let frame = whole(input, frame)?;
        let mut space = vec![head[1]; space];
        let (row, length) = gate(&mut self.drive, &mut self.medium[..lent], &frame, clock, &mut space);
        self.line(row, length, &space)
    }

    fn object(&mut self, head: &[u8]) -> Option<String> {
        let partition = self.drive.partitions.get_mut(head[1] as usize)?;
        if partition.objects.len() == MOST_OBJECTS {
            return None;
        }
        let object = Object { number: four(head, 4), version: four(head, 8), size: four(head, 12), start: four(head, 16) };
        partition.objects.push(object);
        partition.last_given = four(head, 20);
        self.line(0, 0, &[])
    }

    fn need(&mut self, head: &[u8]) -> Option<String> {
        let partition = self.drive.partitions.get_mut(head[1] as usize)?;
        let line = partition.table.0.get_mut(usize::from(head[2]).checked_sub(1)?)?;
        *line = Need { mask: four(head, 4), level: four(head, 8) };
        self.line(0, 0, &[])
    }
}

fn main() -> ExitCode {
    let mut input = BufReader::new(stdin());
    let mut output = BufWriter::new(stdout());
    let mut player = Player::default();
    loop {
        let head = read(&mut input, FIRST_PART);
        if head.is_empty() {
            return ExitCode::SUCCESS;
        }
        let Some(line) = player.play(&head, &mut input) else {
            writeln!(output, "cut").unwrap();
            return ExitCode::FAILURE;
        };
        writeln!(output, "{line}").unwrap();
    }
}
