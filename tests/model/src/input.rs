//! The standard input of the programs `gate` and `report`: "Standard input is records: mark 4C 49, clock (8 bytes), frame length
//! (4), frame."

use std::io::{BufRead, ErrorKind};

pub enum Next {
    Record { clock: u64, frame: Vec<u8> },
    End,
    Broken,
}

/// The record that comes next. A read that fails breaks the input off.
pub fn next(input: &mut impl BufRead) -> Next {
    match at_end(input) {
        None => return Next::Broken,
        Some(true) => return Next::End,
        Some(false) => {}
    }
    // "on a record with another mark or without all its bytes, or a length over 65,536, `cut` and that count"
    let mut head = [0; 14];
    if input.read_exact(&mut head).is_err() || head[..2] != [0x4c, 0x49] {
        return Next::Broken;
    }
    let clock = u64::from_be_bytes(head[2..10].try_into().unwrap());
    let length = u32::from_be_bytes(head[10..].try_into().unwrap()) as usize;
    if length > 65_536 {
        return Next::Broken;
    }
    let mut frame = vec![0; length];
    if input.read_exact(&mut frame).is_err() {
        return Next::Broken;
    }
    Next::Record { clock, frame }
}

/// Whether no byte is left; nothing where the read fails. One that a signal interrupts is tried again, as `read_exact` does.
fn at_end(input: &mut impl BufRead) -> Option<bool> {
    loop {
        match input.fill_buf() {
            Ok(bytes) => return Some(bytes.is_empty()),
            Err(e) if e.kind() == ErrorKind::Interrupted => {}
            Err(_) => return None,
        }
    }
}
