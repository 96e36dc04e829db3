//! `cases SEED COUNT OUT`: COUNT cases for the builder and the reply check as C has them and a quarter as many for the issuer, with the
//! model's answers. Prints the counts.
//!
//! # The file
//!
//! Cases one after another until the file ends, each a head of 40 bytes and then its parts. Numbers are unsigned and big-endian.
//! ```text
//!  0       42 (B): sievelast_build; 4B (K): sievelast_check; 49 (I): sievelast_issue
//!  1       fill: every byte of the space is set to it before a build or an issue
//!  2 –  3  0
//!  4 –  7  credential length, 36 for an issue: its bytes give the fields
//!  8 – 11  request length, mostly 28, or 32 with mark 4C 47; 0 for an issue
//! 12 – 15  key length; for an issue it is the slot's key
//! 16 – 19  data length for a build, reply length for a check, 32 for an issue
//! 20 – 23  space length for a build or an issue, 0 for a check
//! 24 – 27  row expected
//! 28 – 31  start expected of a check, 0 for the others
//! 32 – 35  length expected; of an issue the bytes written
//! 36 – 39  0
//! 40 ..    credential, request, key, data or reply, for an issue the credential key expected; then for a build or an issue as many bytes
//!          of frame or credential as the length expected
//! ```
//! After a build or an issue the space must hold those bytes and, behind them, the fill; refused, the fill alone. Nothing else may
//! change.

use model::client::{build, check, issue};
use model::digest::hmac;
use model::records::*;
use model::rng::Rng;
use std::collections::BTreeMap;
use std::fs::write;

/// So many of a hundred reads, writes and looks go through a group.
const THROUGH_A_GROUP: u64 = 50;

/// Two records that rows 3 to 7 let through, of any of the eight operations, in either form.
fn valid(rng: &mut Rng) -> (Credential, Request) {
    let operation = 1 + rng.below(8) as u8;
    let slot = match operation {
        SET_KEY => 2 + rng.below(3) as u8,
        LOAD => 2,
        _ => rng.below(2) as u8,
    };
    let level = if operation >= SET_KEY { 1 + rng.below(2) } else { rng.below(3) } as u8;
    let object = match operation {
        CREATE | SET_KEY | LOAD => 0,
        LOOK | RAISE => rng.below(3) as u32,
        _ => 1 + rng.below(u32::MAX as u64) as u32,
    };
    let (a, b) = match operation {
        READ | WRITE => (rng.next() as u32, rng.below(300) as u32),
        CREATE => (1 + rng.below(u32::MAX as u64) as u32, 1 + rng.below(u32::MAX as u64) as u32),
        SET_KEY => (rng.below([2, 4, 1][slot as usize - 2]) as u32, 0),
        _ => (0, 0),
    };
    let c = Credential {
        mark: CREDENTIAL_MARK,
        partition: if slot >= 3 { 0 } else { rng.below(4) as u8 },
        slot,
        object,
        version: if operation >= SET_KEY { 0 } else { rng.next() as u32 },
        rights: rng.next() as u16 & 0x7f,
        least: rng.below(level as u64 + 1) as u8,
        zero: 0,
        first: rng.next() as u32,
        end: rng.next() as u32,
        expiry: rng.next(),
        holder: rng.next() as u32,
    };
    let (time, count, n) = (rng.next(), rng.next() as u32, data_length(operation, b));
    let (mut c, mut r) = (c, Request { mark: REQUEST_MARK, operation, level, time, count, a, b, n, member: 0 });
    if operation <= LOOK && rng.chance(THROUGH_A_GROUP) {
        (c.rights, c.object) = (c.rights | GROUP_BIT, c.object.max(1));
        (r.mark, r.member) = (GROUP_MARK, some_member(rng));
    }
    (c, r)
}

/// A member may be any number.
fn some_member(rng: &mut Rng) -> u32 {
    let any = rng.next() as u32;
    rng.pick(&[0, 1, any, any, u32::MAX])
}

/// The n that row 5 asks for.
fn data_length(operation: u8, b: u32) -> u32 {
    match operation {
        WRITE => b,
        SET_KEY => 16,
        LOAD => 21,
        _ => 0,
    }
}

/// One field given another value, near its edges: it may stay valid.
fn damage(rng: &mut Rng, c: &mut Credential, r: &mut Request) {
    let bit = 1u8 << rng.below(8);
    let high = 1u32 << rng.below(32);
    match rng.below(22) {
        0 => c.mark[rng.below(2) as usize] ^= bit,
        1 => r.mark[rng.below(2) as usize] ^= bit,
        2 => c.partition = rng.pick(&[0, 1, 3, 4, 255]),
        3 => c.slot = rng.pick(&[0, 1, 2, 3, 4, 5, 255]),
        4 => c.object = rng.pick(&[0, 1, u32::MAX]),
        5 => c.version = rng.pick(&[0, 1, high]),
        6 => c.rights |= 1 << rng.below(16),
        7 => c.least = rng.pick(&[0, 1, 2, 3, 255]),
        8 => c.zero = bit,
        9 => r.operation = rng.pick(&[0, 1, 2, 3, 4, 5, 6, 7, 8, 9, 255]),
        10 => r.level = rng.pick(&[0, 1, 2, 3, 255]),
        11 => r.a = rng.pick(&[0, 1, 2, 3, 4, high, u32::MAX]),
        12 => r.b = rng.pick(&[0, 1, r.n, high, u32::MAX]),
        13 => r.n = rng.pick(&[0, 15, 16, 17, 20, 21, 22, r.n.wrapping_add(1), 1_048_576, 1_048_577, u32::MAX]),
        14 => (c.slot, c.partition) = (3 + rng.below(2) as u8, rng.below(4) as u8),
        15 => r.b = rng.pick(&[4_194_304, 4_194_305]),
        16 => (c.least, r.level) = (0, 0),
        17 => c.rights ^= GROUP_BIT,
        18 => r.mark = if r.is_of_a_group() { REQUEST_MARK } else { GROUP_MARK },
        19 => (c.rights, r.mark) = (c.rights | GROUP_BIT, GROUP_MARK),
        20 => r.mark = rng.pick(&[[0x4c, 0x46], [0x4c, 0x57], [0x47, 0x4c], REPLY_MARK, CREDENTIAL_MARK]),
        _ => (c.least, r.level) = (1 + rng.below(2) as u8, rng.below(2) as u8),
    }
}

/// Why the records are refused, for the counts: the lowest of rows 3 to 7.
fn reason(c: &Credential, r: &Request) -> u8 {
    let rows = [(3, row_3(c, r)), (4, row_4(c, r)), (5, row_5_records(r)), (6, row_6(c, r)), (7, row_7_client(c, r))];
    rows.iter().find(|(_, met)| *met).map_or(0, |(row, _)| *row)
}

/// A record or key that is not as long as it must be, now and then.
fn misfit(rng: &mut Rng, bytes: &mut Vec<u8>) {
    let right = bytes.len();
    let length = rng.pick(&[0, 1, right - 1, right + 1, 2 * right]);
    bytes.resize(length, 0x4c);
}

struct Parts {
    credential: Vec<u8>,
    request: Vec<u8>,
    key: Vec<u8>,
    data: Vec<u8>, // a build's data, a check's reply
}

fn put(out: &mut Vec<u8>, kind: u8, fill: u8, parts: &Parts, space: usize, row: u8, start: usize, length: usize) {
    out.extend([kind, fill, 0, 0]);
    let lengths = [parts.credential.len(), parts.request.len(), parts.key.len(), parts.data.len(), space];
    for number in lengths.into_iter().chain([row as usize, start, length, 0]) {
        out.extend((number as u32).to_be_bytes());
    }
    for part in [&parts.credential, &parts.request, &parts.key, &parts.data] {
        out.extend(part);
    }
}

fn build_case(out: &mut Vec<u8>, rng: &mut Rng, parts: &Parts, space: usize) -> u8 {
    let fill = rng.next() as u8;
    let mut frame = vec![fill; space];
    let (row, length) = build(&parts.credential, &parts.request, &parts.data, &parts.key, &mut frame);
    assert!(frame[length..].iter().all(|b| *b == fill));
    put(out, b'B', fill, parts, space, row, 0, length);
    out.extend(&frame[..length]);
    row
}

/// C's issuer takes fields: mark and zero byte are always the right ones. Which credential it is, and its row.
fn issue_case(out: &mut Vec<u8>, rng: &mut Rng) -> (&'static str, u8) {
    let (mut c, mut r) = valid(rng);
    for _ in 0..rng.below(4) {
        damage(rng, &mut c, &mut r);
    }
    (c.mark, c.zero) = (CREDENTIAL_MARK, 0);
    let mut key = rng.bytes(32);
    if rng.chance(8) {
        misfit(rng, &mut key);
    }
    let space = rng.pick(&[36, 36, 37, 100, 35, 1, 0]);
    let fill = rng.next() as u8;
    let mut written = vec![fill; space];
    let (row, secret) = issue(&key, &c, &mut written);
    let length = if row == 0 { 36 } else { 0 };
    assert!(written[length..].iter().all(|b| *b == fill));
    let parts = Parts { credential: c.bytes(), request: vec![], key, data: secret.to_vec() };
    put(out, b'I', fill, &parts, space, row, 0, length);
    out.extend(&written[..length]);
    let name = match (c.is_of_a_group(), c.object) {
        (false, _) => "issue",
        (_, 0) => "issue of a group credential for object 0",
        _ => "issue of a group credential",
    };
    (name, row)
}

fn check_case(out: &mut Vec<u8>, parts: &Parts) -> u8 {
    let (row, start, length) = check(&parts.credential, &parts.request, &parts.key, &parts.data);
    put(out, b'K', 0, parts, 0, row, start, length);
    row
}

/// The reply that these records call for, with any result.
fn reply(rng: &mut Rng, parts: &Parts, r: &Request) -> Vec<u8> {
    let length = r.result_length().min(5_000_000) as usize;
    let mut reply = REPLY_MARK.to_vec();
    reply.extend([r.operation, r.level]);
    reply.extend((r.result_length() as u32).to_be_bytes());
    reply.extend(rng.bytes(length));
    if r.level == 2 {
        let digest = hmac(&parts.key, &[&parts.credential[..], &parts.request, &reply].concat());
        reply.extend(digest);
    }
    reply
}

/// A reply that is not quite the one called for.
fn spoil_reply(rng: &mut Rng, parts: &Parts, r: &Request, reply: &mut Vec<u8>) {
    let flip = |rng: &mut Rng, reply: &mut Vec<u8>, from: usize| {
        if reply.len() > from {
            let at = from + rng.below((reply.len() - from) as u64) as usize;
            reply[at] ^= 1 << rng.below(8);
        }
    };
    match rng.below(if r.is_of_a_group() { 13 } else { 9 }) {
        0 => reply.truncate(8), // the head alone
        1 => {
            let length = rng.below(reply.len() as u64) as usize;
            reply.truncate(length);
        }
        2 => reply.push(0),
        3 => {
            reply.pop();
        }
        4 => reply[rng.below(8) as usize] ^= 1 << rng.below(8),
        5 => reply.clear(),
        6 if r.level == 2 => sign_for(parts, &Request { count: r.count ^ 1, ..r.clone() }.bytes(), reply),
        9 | 10 if r.level == 2 => sign_for(parts, &Request { member: r.member ^ 1, ..r.clone() }.bytes(), reply),
        11 | 12 if r.level == 2 => sign_for(parts, &parts.request[..REQUEST_BYTES], reply), // without the member
        7 if r.level == 2 => reply.truncate(reply.len() - 32), // no digest
        _ => flip(rng, reply, 8), // under level 2 another result passes: nothing covers it
    }
}

/// Signs a reply of level 2 for another request.
fn sign_for(parts: &Parts, request: &[u8], reply: &mut [u8]) {
    let end = reply.len() - 32;
    let digest = hmac(&parts.key, &[&parts.credential[..], request, &reply[..end]].concat());
    reply[end..].copy_from_slice(&digest);
}

/// How often which row was a call's answer, and why.
#[derive(Default)]
struct Counts(BTreeMap<(String, u8, Why), u64>);

#[derive(PartialEq, Eq, PartialOrd, Ord)]
enum Why {
    Plain,
    ByTheRecords(u8), // one of rows 3 to 7
    OtherForm,        // the request is as long as one of the other form
    OneByteShort,     // the space
    MemberShort,      // the space: as long as for a frame without its member
    Largest,
}

impl Counts {
    fn count(&mut self, name: &str, row: u8, why: Why) {
        *self.0.entry((name.to_string(), row, why)).or_default() += 1;
    }

    /// Lines `NAME row R: N`, with a word on what the records had where they were refused.
    fn print(&self) {
        for ((name, row, why), n) in &self.0 {
            let why = match why {
                Why::Plain => String::new(),
                Why::ByTheRecords(row) => format!(" (row {row} met by the records)"),
                Why::OtherForm => " (a request as long as one of the other form)".to_string(),
                Why::OneByteShort => " (a byte too few)".to_string(),
                Why::MemberShort => " (four bytes too few)".to_string(),
                Why::Largest => " (largest and one over)".to_string(),
            };
            println!("{name} row {row}{why}: {n}");
        }
    }
}

/// Which records a case has, for the counts.
fn form(c: &Credential, r: &Request) -> &'static str {
    match (c.is_of_a_group(), r.is_of_a_group()) {
        (true, true) => " of a group request",
        (true, false) => " of a group credential with another request",
        (false, true) => " of a group request with another credential",
        _ if r.operation == LOAD => " of operation 8",
        _ => "",
    }
}

/// One case for the builder or the reply check: its row, and why.
fn one_case(out: &mut Vec<u8>, rng: &mut Rng, c: &Credential, r: &Request, builds: bool) -> (u8, Why) {
    let slot_key = rng.bytes(32);
    let mut record = [0; 36];
    let (row, key) = issue(&slot_key, c, &mut record);
    let key = if row == 0 { key.to_vec() } else { rng.bytes(32) };
    let mut parts = Parts { credential: c.bytes(), request: r.bytes(), key, data: vec![] };
    let odd = rng.below(100);
    if !builds {
        parts.data = reply_or_nearly(rng, &parts, r);
        let of_the_other_form = lengths(rng, &mut parts, odd);
        return why(check_case(out, &parts), c, r, of_the_other_form, 0);
    }
    parts.data = rng.bytes((r.n as usize).min(2_000));
    if odd == 0 {
        parts.data.push(7);
    } else if odd == 1 {
        parts.data.pop();
    }
    let of_the_other_form = lengths(rng, &mut parts, odd);
    let needed = 68 + r.bytes().len() + parts.data.len();
    let space = match rng.below(8) {
        0 => needed - 1,
        1 => rng.below(needed as u64) as usize,
        2 => needed + 1 + rng.below(100) as usize,
        3 => needed - 4,
        _ => needed,
    };
    why(build_case(out, rng, &parts, space), c, r, of_the_other_form, needed.saturating_sub(space))
}

/// A row, and why it is the answer.
fn why(row: u8, c: &Credential, r: &Request, of_the_other_form: bool, missing: usize) -> (u8, Why) {
    let why = match (row, reason(c, r), missing) {
        (28, 0, _) if of_the_other_form => Why::OtherForm,
        (28, 0, _) => Why::Plain,
        (28, met, _) => Why::ByTheRecords(met),
        (29, _, 1) => Why::OneByteShort,
        (29, _, 4) => Why::MemberShort,
        _ => Why::Plain,
    };
    (row, why)
}

/// A reply for these records, good or spoiled; seldom one of many bytes.
fn reply_or_nearly(rng: &mut Rng, parts: &Parts, r: &Request) -> Vec<u8> {
    if r.operation == READ && r.b > 2_000 && rng.chance(90) {
        return rng.bytes(48);
    }
    let mut short = r.clone();
    if r.result_length() > 5_000 {
        short.b = 100;
    }
    let mut good = reply(rng, parts, &short);
    if rng.chance(40) {
        spoil_reply(rng, parts, &short, &mut good);
    }
    good
}

/// The largest that there are, in either form: 1,048,576 bytes of data, 4,194,304 of result, and one more of each.
fn largest_cases(out: &mut Vec<u8>, rng: &mut Rng, counts: &mut Counts) {
    for (more, of_a_group) in [(0, false), (1, false), (0, true), (1, true)] {
        for (operation, level) in [(WRITE, 1), (READ, 2)] {
            let (mut c, mut r) = valid(rng);
            while r.operation != operation || r.is_of_a_group() != of_a_group {
                (c, r) = valid(rng);
            }
            (c.least, r.level) = (0, level);
            r.b = if operation == WRITE { 1_048_576 } else { 4_194_304 } + more;
            r.n = if operation == WRITE { r.b } else { 0 };
            let mut parts = Parts { credential: c.bytes(), request: r.bytes(), key: rng.bytes(32), data: vec![] };
            let (name, row) = if operation == WRITE {
                parts.data = rng.bytes(r.n as usize);
                ("build", build_case(out, rng, &parts, r.frame_length() as usize))
            } else {
                parts.data = reply(rng, &parts, &r);
                ("check", check_case(out, &parts))
            };
            counts.count(&format!("{name}{}", form(&c, &r)), row, Why::Largest);
        }
    }
}

fn main() {
    let args: Vec<String> = std::env::args().collect();
    let [_, seed, count, path] = &args[..] else {
        eprintln!("usage: cases SEED COUNT OUT");
        std::process::exit(2);
    };
    let mut rng = Rng::new(seed.parse().expect("SEED is a number"));
    let count: usize = count.parse().expect("COUNT is a number");
    let (mut out, mut counts) = (vec![], Counts::default());
    for i in 0..count {
        let (mut c, mut r) = valid(&mut rng);
        for _ in 0..rng.weighted(&[60, 28, 12]) {
            damage(&mut rng, &mut c, &mut r);
        }
        let name = format!("{}{}", if i % 2 == 0 { "build" } else { "check" }, form(&c, &r));
        let (row, why) = one_case(&mut out, &mut rng, &c, &r, i % 2 == 0);
        counts.count(&name, row, why);
    }
    largest_cases(&mut out, &mut rng, &mut counts);
    for _ in 0..count.div_ceil(4) {
        let (name, row) = issue_case(&mut out, &mut rng);
        counts.count(name, row, Why::Plain);
    }
    write(path, out).expect("cannot write OUT");
    counts.print();
}

/// Now and then a part that is not as long as it must be; whether it is the request, and as long as one of the other form.
fn lengths(rng: &mut Rng, parts: &mut Parts, odd: u64) -> bool {
    match odd {
        2 | 3 => misfit(rng, &mut parts.credential),
        4 | 5 => misfit(rng, &mut parts.request),
        6 | 7 => misfit(rng, &mut parts.key),
        8 => {
            misfit(rng, &mut parts.key);
            misfit(rng, &mut parts.credential);
        }
        9..=12 => parts.request.resize(REQUEST_BYTES + GROUP_REQUEST_BYTES - parts.request.len(), 0x4c),
        _ => {}
    }
    (9..=12).contains(&odd)
}
