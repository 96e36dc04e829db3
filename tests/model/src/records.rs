//! The two records of a frame, and what they say: rows 3 to 6 by themselves, row 7 with what the operation needs.

use crate::digest::DIGEST_BYTES;
use crate::table::{document_01, Need, TABLE_BYTES};

/// "Credential, 36 bytes". Any 36 bytes are one of these, and back: the mark and the zero byte are kept as fields.
#[derive(Clone, Debug, PartialEq, Eq)]
pub struct Credential {
    pub mark: [u8; 2],  // 0–1 mark 4C 43
    pub partition: u8,  // 2 partition 0–3
    pub slot: u8,       // 3 key slot (0 black, 1 gold, 2 partition key, 3 drive key, 4 master key)
    pub object: u32,    // 4–7 object, 0 meaning the partition
    pub version: u32,   // 8–11 version
    pub rights: u16,    // 12–13 rights (bit k, counted from the lowest, k = 0–6); change 6: or 7
    pub least: u8,      // 14 least level 0–2
    pub zero: u8,       // 15 zero
    pub first: u32,     // 16–19 first
    pub end: u32,       // 20–23 end, exclusive
    pub expiry: u64,    // 24–31 expiry, milliseconds
    pub holder: u32,    // 32–35 holder, the client's number
}

/// "Request, 28 bytes". Change 6: that of a group credential "has mark 4C 47 and the member's number in four more bytes at its end, so 32
/// bytes". Any 28 bytes with another mark, and any 32 with that one, are one of these, and back.
#[derive(Clone, Debug, PartialEq, Eq)]
pub struct Request {
    pub mark: [u8; 2], // 0–1 mark 4C 52; change 6: or 4C 47
    pub operation: u8, // 2 operation 1–7; change 5: or 8
    pub level: u8,     // 3 level 0–2
    pub time: u64,     // 4–11 time T, milliseconds
    pub count: u32,    // 12–15 count
    pub a: u32,        // 16–19 A
    pub b: u32,        // 20–23 B
    pub n: u32,        // 24–27 data length n, at most 1,048,576
    pub member: u32,   // change 6: 28–31 the member's number; there is none, and here is 0, with another mark than 4C 47
}

pub const CREDENTIAL_MARK: [u8; 2] = [0x4c, 0x43];
pub const REQUEST_MARK: [u8; 2] = [0x4c, 0x52];
/// Change 6: the mark of a group credential's request.
pub const GROUP_MARK: [u8; 2] = [0x4c, 0x47];
pub const REPLY_MARK: [u8; 2] = [0x4c, 0x41];

pub const CREDENTIAL_BYTES: usize = 36;
pub const REQUEST_BYTES: usize = 28;
/// Change 6: "the member's number in four more bytes at its end, so 32 bytes".
pub const GROUP_REQUEST_BYTES: usize = 32;

/// Change 6: "Rights bit 7, now allowed by row 4, marks a group credential."
pub const GROUP_BIT: u16 = 1 << 7;

pub const READ: u8 = 1;
pub const WRITE: u8 = 2;
pub const LOOK: u8 = 3;
pub const RAISE: u8 = 4;
pub const CREATE: u8 = 5;
pub const DELETE: u8 = 6;
pub const SET_KEY: u8 = 7;
/// Change 5: "Operation 8 .. loads [the table] from 21 data bytes".
pub const LOAD: u8 = 8;

fn four(bytes: &[u8], at: usize) -> u32 {
    u32::from_be_bytes(bytes[at..at + 4].try_into().unwrap())
}

fn eight(bytes: &[u8], at: usize) -> u64 {
    u64::from_be_bytes(bytes[at..at + 8].try_into().unwrap())
}

impl Credential {
    /// Of exactly 36 bytes.
    pub fn read(bytes: &[u8]) -> Credential {
        assert_eq!(bytes.len(), CREDENTIAL_BYTES);
        Credential {
            mark: [bytes[0], bytes[1]],
            partition: bytes[2],
            slot: bytes[3],
            object: four(bytes, 4),
            version: four(bytes, 8),
            rights: u16::from_be_bytes([bytes[12], bytes[13]]),
            least: bytes[14],
            zero: bytes[15],
            first: four(bytes, 16),
            end: four(bytes, 20),
            expiry: eight(bytes, 24),
            holder: four(bytes, 32),
        }
    }

    pub fn bytes(&self) -> Vec<u8> {
        let mut out = self.mark.to_vec();
        out.extend([self.partition, self.slot]);
        out.extend(self.object.to_be_bytes());
        out.extend(self.version.to_be_bytes());
        out.extend(self.rights.to_be_bytes());
        out.extend([self.least, self.zero]);
        out.extend(self.first.to_be_bytes());
        out.extend(self.end.to_be_bytes());
        out.extend(self.expiry.to_be_bytes());
        out.extend(self.holder.to_be_bytes());
        out
    }

    /// Change 6: "Rights bit 7 .. marks a group credential."
    pub fn is_of_a_group(&self) -> bool {
        self.rights & GROUP_BIT != 0
    }
}

/// How long a request is that starts with this mark.
pub fn request_length(mark: [u8; 2]) -> usize {
    if mark == GROUP_MARK {
        GROUP_REQUEST_BYTES
    } else {
        REQUEST_BYTES
    }
}

impl Request {
    /// Of exactly the bytes that its mark says.
    pub fn read(bytes: &[u8]) -> Request {
        let mark = [bytes[0], bytes[1]];
        assert_eq!(bytes.len(), request_length(mark));
        Request {
            mark,
            operation: bytes[2],
            level: bytes[3],
            time: eight(bytes, 4),
            count: four(bytes, 12),
            a: four(bytes, 16),
            b: four(bytes, 20),
            n: four(bytes, 24),
            member: if mark == GROUP_MARK { four(bytes, 28) } else { 0 },
        }
    }

    pub fn bytes(&self) -> Vec<u8> {
        let mut out = self.mark.to_vec();
        out.extend([self.operation, self.level]);
        out.extend(self.time.to_be_bytes());
        out.extend(self.count.to_be_bytes());
        out.extend(self.a.to_be_bytes());
        out.extend(self.b.to_be_bytes());
        out.extend(self.n.to_be_bytes());
        if self.is_of_a_group() {
            out.extend(self.member.to_be_bytes());
        }
        out
    }

    /// Whether it is in the form that has a member: 32 bytes with mark 4C 47.
    pub fn is_of_a_group(&self) -> bool {
        self.mark == GROUP_MARK
    }

    /// "the frame is .. as long as its parts together, 96 + n bytes". Change 6: 32 bytes of request "in rows 5 and 28 too", so that a
    /// group's frame has 100 + n.
    pub fn frame_length(&self) -> u64 {
        (CREDENTIAL_BYTES + request_length(self.mark) + DIGEST_BYTES) as u64 + self.n as u64
    }

    /// How long the result is that this request calls for.
    pub fn result_length(&self) -> u64 {
        match self.operation {
            READ => self.b as u64, // "result the B bytes"
            LOOK => 8,             // "result size .. and version, four bytes each"
            RAISE | CREATE => 4,   // "result that version in four bytes"
            _ => 0,                // "Result empty"; change 5: "empty result"
        }
    }

    /// How long the whole reply is: 8 bytes, the result, and 32 of digest at level 2.
    pub fn reply_length(&self) -> u64 {
        8 + self.result_length() + if self.level == 2 { 32 } else { 0 }
    }
}

/// Change 6: whether a frame of these records goes through a group to a member. Row 6 refuses every one of which only one record is of a
/// group.
pub fn is_through_a_group(c: &Credential, r: &Request) -> bool {
    c.is_of_a_group() && r.is_of_a_group()
}

/// The object that is read, written or looked at. Change 6: "range, size, result and the granted writes that a read shows are the
/// member's".
pub fn target(c: &Credential, r: &Request) -> u32 {
    if is_through_a_group(c, r) {
        r.member
    } else {
        c.object
    }
}

/// Row 3, the credential's half of "Bytes 0–1 or 36–37 are not the marks".
pub fn row_3_credential(c: &Credential) -> bool {
    c.mark != CREDENTIAL_MARK
}

/// Row 3. Change 6: a request has one of two marks.
pub fn row_3(c: &Credential, r: &Request) -> bool {
    row_3_credential(c) || (r.mark != REQUEST_MARK && r.mark != GROUP_MARK)
}

/// Row 4, the credential's fields: "A field is outside the values above, including rights bits 7–15 set and slot 3 or 4 with
/// partition not 0". Change 6: "Rights bit 7, now allowed by row 4".
pub fn row_4_credential(c: &Credential) -> bool {
    c.partition > 3
        || c.slot > 4
        || c.rights >> 8 != 0
        || c.least > 2
        || c.zero != 0
        || ((c.slot == 3 || c.slot == 4) && c.partition != 0)
}

/// Row 4. Change 5: "Rows 4 to 7 and 13 read accordingly", so that operations are 1 to 8. A member may be any number.
pub fn row_4(c: &Credential, r: &Request) -> bool {
    row_4_credential(c) || r.operation < 1 || r.operation > LOAD || r.level > 2 || r.n > 1_048_576
}

/// Row 5, the half that the records show: "n is not 0 for operations 1 and 3–6, B for 2, 16 for 7". Change 5: 21 for 8.
pub fn row_5_records(r: &Request) -> bool {
    match r.operation {
        1 | 3 | 4 | 5 | 6 => r.n != 0,
        2 => r.n != r.b,
        7 => r.n != 16,
        8 => r.n as usize != TABLE_BYTES,
        _ => false,
    }
}

/// Row 6: "Operation misfits". Change 5: "Operation 8 (slot 2 ..; object, version, A and B 0 ..)".
pub fn row_6(c: &Credential, r: &Request) -> bool {
    let op = r.operation;
    // "1–6 with slot over 1; 7 with slot under 2 or version not 0"
    ((1..=6).contains(&op) && c.slot > 1)
        || (op == 7 && (c.slot < 2 || c.version != 0))
        // "1, 2, 6 on object 0; 5, 7 elsewhere"
        || (matches!(op, 1 | 2 | 6) && c.object == 0)
        || (matches!(op, 5 | 7) && c.object != 0)
        // "3, 4, 6 with A or B not 0; 5 with A or B 0"
        || (matches!(op, 3 | 4 | 6) && (r.a != 0 || r.b != 0))
        || (op == 5 && (r.a == 0 || r.b == 0))
        // "7 with B not 0, or A over 1, 3, 0 for slots 2, 3, 4"
        || (op == 7 && r.b != 0)
        || (op == 7 && c.slot == 2 && r.a > 1)
        || (op == 7 && c.slot == 3 && r.a > 3)
        || (op == 7 && c.slot == 4 && r.a > 0)
        || (op == LOAD && (c.slot != 2 || c.object != 0 || c.version != 0 || r.a != 0 || r.b != 0))
        || row_6_of_a_group(c, r)
}

/// Change 6: "Row 6 refuses operations over 3, object 0, and such a credential with a 4C 52 request or the reverse."
fn row_6_of_a_group(c: &Credential, r: &Request) -> bool {
    if c.is_of_a_group() {
        r.operation > LOOK || c.object == 0 || r.mark == REQUEST_MARK
    } else {
        r.mark == GROUP_MARK
    }
}

/// Row 7: "The level is under the credential's least, or is 0 with operation 7." Change 5: or it is under what the operation needs.
pub fn row_7(c: &Credential, r: &Request, need: Option<Need>) -> bool {
    r.level < c.least || need.is_some_and(|need| !need.level_met(r.level))
}

/// Change 5: "row 7 at the client end [keeps] document 01's rule, operation 8 treated as 7".
pub fn row_7_client(c: &Credential, r: &Request) -> bool {
    row_7(c, r, document_01(r.operation))
}

/// "one of rows 3–7 met by the records", for builder and reply check.
pub fn records_refused(c: &Credential, r: &Request) -> bool {
    row_3(c, r) || row_4(c, r) || row_5_records(r) || row_6(c, r) || row_7_client(c, r)
}

#[cfg(test)]
mod tests {
    use super::*;
    use crate::gate::tests::{credential, request};

    #[test]
    fn records_read_back() {
        let bytes: Vec<u8> = (100..136).collect();
        assert_eq!(Credential::read(&bytes).bytes(), bytes);
        let bytes: Vec<u8> = (100..128).collect();
        assert_eq!(Request::read(&bytes).bytes(), bytes);
        assert_eq!(Request::read(&bytes).member, 0);
    }

    /// "the member's number in four more bytes at its end, so 32 bytes"
    #[test]
    fn a_request_of_a_group_reads_back() {
        let bytes: Vec<u8> = [0x4c, 0x47].into_iter().chain(102..132).collect();
        let r = Request::read(&bytes);
        assert_eq!((r.n, r.member), (0x7c7d7e7f, 0x80818283));
        assert_eq!(r.bytes(), bytes);
        let other = Request { mark: REQUEST_MARK, ..r };
        assert_eq!(other.bytes()[2..], bytes[2..28]);
    }

    #[test]
    #[should_panic]
    fn a_request_of_a_group_has_not_28_bytes() {
        Request::read(&[&GROUP_MARK[..], &[0; 26]].concat());
    }

    #[test]
    #[should_panic]
    fn another_request_has_not_32_bytes() {
        Request::read(&[&REQUEST_MARK[..], &[0; 30]].concat());
    }

    /// A read of member 9 through group 5, two records that rows 3 to 7 let through.
    fn through() -> (Credential, Request) {
        let c = Credential { object: 5, rights: 0x81, ..credential() };
        (c, Request { mark: GROUP_MARK, member: 9, ..request(READ, 1, 2) })
    }

    /// Rows 3 to 7, as the records show them.
    fn rows(c: &Credential, r: &Request) -> Vec<u8> {
        let all = [(3, row_3(c, r)), (4, row_4(c, r)), (5, row_5_records(r)), (6, row_6(c, r)), (7, row_7_client(c, r))];
        assert_eq!(records_refused(c, r), all.iter().any(|(_, met)| *met));
        all.into_iter().filter(|(_, met)| *met).map(|(row, _)| row).collect()
    }

    /// Row 3 takes either mark, and no other; the credential's is one.
    #[test]
    fn marks_of_both_forms() {
        let (c, r) = through();
        assert_eq!(rows(&c, &r), []);
        assert_eq!(rows(&credential(), &request(READ, 1, 2)), []);
        for mark in [[0x4c, 0x46], [0x4c, 0x48], [0x47, 0x4c], [0x4c, 0x57], [0x4d, 0x47], [0x4c, 0x43], [0, 0]] {
            assert_eq!(rows(&c, &Request { mark, ..r.clone() }), [3], "{mark:?}");
        }
        assert_eq!(rows(&Credential { mark: GROUP_MARK, ..c }, &r), [3]);
    }

    /// "Rights bit 7, now allowed by row 4": bits 8 to 15 are not. A member may be any number.
    #[test]
    fn rights_of_both_forms() {
        let (c, r) = through();
        for bit in 0..16 {
            let more = Credential { rights: c.rights | 1 << bit, ..c.clone() };
            assert_eq!(rows(&more, &r), if bit < 8 { vec![] } else { vec![4] }, "bit {bit}");
        }
        for member in [0, 1, 5, u32::MAX] {
            assert_eq!(rows(&c, &Request { member, ..r.clone() }), [], "member {member}");
        }
    }

    /// "Row 6 refuses operations over 3".
    #[test]
    fn operations_of_a_group() {
        let (c, r) = through();
        let c = Credential { version: 0, ..c };
        let of = |operation, a, b, slot, object| {
            let n = request(operation, a, b).n;
            rows(&Credential { slot, object, ..c.clone() }, &Request { operation, a, b, n, ..r.clone() })
        };
        assert_eq!([of(READ, 1, 2, 0, 5), of(WRITE, 1, 2, 1, 5), of(LOOK, 0, 0, 0, 5)], [[]; 3]);
        assert_eq!([of(RAISE, 0, 0, 0, 5), of(DELETE, 0, 0, 0, 5)], [[6], [6]]);
        assert_eq!([of(CREATE, 1, 1, 0, 0), of(SET_KEY, 0, 0, 2, 0), of(LOAD, 0, 0, 2, 0)], [[6]; 3]);
        // the lines of document 01 hold too
        assert_eq!([of(LOOK, 1, 0, 0, 5), of(LOOK, 0, 1, 0, 5), of(READ, 1, 2, 2, 5), of(LOOK, 0, 0, 2, 5)], [[6]; 4]);
    }

    /// ".. object 0": also for a look, which another credential may have there.
    #[test]
    fn no_group_is_the_partition() {
        let (c, r) = through();
        let partition = Credential { object: 0, ..c };
        let look = Request { operation: LOOK, a: 0, b: 0, ..r.clone() };
        assert_eq!([rows(&partition, &look), rows(&partition, &r)], [[6], [6]]);
        assert_eq!(rows(&Credential { rights: 0x7f, ..partition }, &Request { mark: REQUEST_MARK, ..look }), []);
    }

    /// ".. and such a credential with a 4C 52 request or the reverse."
    #[test]
    fn forms_that_do_not_fit() {
        let (c, r) = through();
        let (other_c, other_r) = (Credential { rights: 0x7f, ..c.clone() }, Request { mark: REQUEST_MARK, ..r.clone() });
        assert_eq!([rows(&c, &other_r), rows(&other_c, &r), rows(&other_c, &other_r)], [vec![6], vec![6], vec![]]);
        for operation in 1..=8u8 {
            let r = Request { operation, a: 0, b: 0, n: request(operation, 0, 0).n, ..r.clone() };
            let misfits = |rights, mark| row_6(&Credential { rights, ..c.clone() }, &Request { mark, ..r.clone() });
            assert!(misfits(0xff, REQUEST_MARK) && misfits(0x7f, GROUP_MARK), "operation {operation}");
        }
    }

    /// "so 32 bytes, in rows 5 and 28 too"
    #[test]
    fn frames_of_both_forms() {
        let lengths = |mark| [0, 1, 1_048_576].map(|n| Request { mark, n, ..request(WRITE, 0, 0) }.frame_length());
        assert_eq!(lengths(REQUEST_MARK), [96, 97, 1_048_672]);
        assert_eq!(lengths(GROUP_MARK), [100, 101, 1_048_676]);
    }
}
