//! "Client end": issuer, builder, reply check. Rows 26 and 28 to 30.

use crate::digest::{hmac, Digest};
use crate::records::*;

/// "The issuer writes the 36 bytes and returns the credential key".
pub fn issue(key: &[u8], c: &Credential, space: &mut [u8]) -> (u8, Digest) {
    // "26. ..: a key lent is not 32 bytes."
    if key.len() != 32 {
        return (26, [0; 32]);
    }
    // "28. Issuer: a field that row 3 or 4 would refuse in the credential."
    if row_3_credential(c) || row_4_credential(c) {
        return (28, [0; 32]);
    }
    // "29. Issuer or builder: the space lent is too short; it is untouched. An issuer refused by any row returns 32 zero bytes
    // as the key, a builder length 0."
    if space.len() < CREDENTIAL_BYTES {
        return (29, [0; 32]);
    }
    space[..CREDENTIAL_BYTES].copy_from_slice(&c.bytes());
    // "Credential key = HMAC(key in that slot, the 36 bytes)".
    (0, hmac(key, &c.bytes()))
}

/// "28. .. Builder, reply check: a record not 36 or 28 bytes long, or one of rows 3–7 met by the records". Change 6: a request with mark
/// 4C 47 has "32 bytes, in rows 5 and 28 too".
fn fields(credential: &[u8], request: &[u8]) -> Option<Request> {
    let mark = [*request.get(0)?, *request.get(1)?];
    if credential.len() != CREDENTIAL_BYTES || request.len() != request_length(mark) {
        return None;
    }
    let (c, r) = (Credential::read(credential), Request::read(request));
    if records_refused(&c, &r) {
        return None;
    }
    Some(r)
}

/// "the builder writes a frame from both records and data". Returns row and frame length.
pub fn build(credential: &[u8], request: &[u8], data: &[u8], key: &[u8], space: &mut [u8]) -> (u8, usize) {
    if key.len() != 32 {
        return (26, 0);
    }
    let Some(r) = fields(credential, request) else {
        return (28, 0);
    };
    // "for the builder also n not the data's length"
    if r.n as usize != data.len() {
        return (28, 0);
    }
    // "as long as its parts together, 96 + n bytes", or 100 + n
    let length = r.frame_length() as usize;
    if space.len() < length {
        return (29, 0);
    }
    let mut signed = [credential, request].concat();
    if r.level >= 1 {
        signed.extend(data);
    }
    let frame = [credential, request, data, &hmac(key, &signed)].concat();
    space[..length].copy_from_slice(&frame);
    (0, length)
}

/// The reply check, as C has it: "row, start and length, the last two 0 when refused". "The reply check returns the result as a
/// part of the reply itself": `reply[start..start + length]`.
pub fn check(credential: &[u8], request: &[u8], key: &[u8], reply: &[u8]) -> (u8, usize, usize) {
    if key.len() != 32 {
        return (26, 0, 0);
    }
    let Some(r) = fields(credential, request) else {
        return (28, 0, 0);
    };
    // "for the reply check also a result of over 4,194,304 bytes called for"
    let length = r.result_length();
    if length > 4_194_304 {
        return (28, 0, 0);
    }
    // "30. Reply check: the reply is not the mark, operation, level, result length and total length that the request calls
    // for, or its level 2 digest differs."
    let mut head = REPLY_MARK.to_vec();
    head.extend([r.operation, r.level]);
    head.extend((length as u32).to_be_bytes());
    if reply.len() as u64 != r.reply_length() || reply[..8] != head {
        return (30, 0, 0);
    }
    let end = 8 + length as usize;
    if r.level == 2 && hmac(key, &[credential, request, &reply[..end]].concat()) != reply[end..] {
        return (30, 0, 0);
    }
    (0, 8, length as usize)
}

#[cfg(test)]
mod tests {
    use super::*;

    fn credential() -> Credential {
        Credential {
            mark: CREDENTIAL_MARK,
            partition: 3,
            slot: 1,
            object: 7,
            version: 1,
            rights: 3,
            least: 1,
            zero: 0,
            first: 0,
            end: 9,
            expiry: 0,
            holder: 0,
        }
    }

    #[test]
    fn issuer_rows() {
        let c = credential();
        let mut space = [1; 40];
        assert_eq!(issue(&[0; 31], &Credential { slot: 9, ..c.clone() }, &mut []), (26, [0; 32]));
        assert_eq!(issue(&[0; 32], &Credential { slot: 9, ..c.clone() }, &mut []), (28, [0; 32]));
        assert_eq!(issue(&[0; 32], &Credential { slot: 3, ..c.clone() }, &mut []), (28, [0; 32]));
        assert_eq!(issue(&[0; 32], &c, &mut space[..35]), (29, [0; 32]));
        assert_eq!(space, [1; 40]);
        assert_eq!(issue(&[0; 32], &c, &mut space), (0, hmac(&[0; 32], &c.bytes())));
        assert_eq!(space[..36], c.bytes());
        assert_eq!(space[36..], [1; 4]);
    }

    #[test]
    fn builder_and_check_rows() {
        let c = credential().bytes();
        let r = Request { mark: REQUEST_MARK, operation: READ, level: 2, time: 0, count: 0, a: 0, b: 2, n: 0, member: 0 };
        let rb = r.bytes();
        let key = [3; 32];
        let mut space = [0; 100];
        assert_eq!(build(&c[1..], &rb, &[], &key[1..], &mut space), (26, 0));
        assert_eq!(build(&c[1..], &rb, &[], &key, &mut []), (28, 0));
        assert_eq!(build(&c, &rb, &[0], &key, &mut []), (28, 0));
        assert_eq!(build(&c, &rb, &[], &key, &mut space[..95]), (29, 0));
        assert_eq!(space, [0; 100]);
        assert_eq!(build(&c, &rb, &[], &key, &mut space), (0, 96));

        let mut reply = vec![0x4c, 0x41, 1, 2, 0, 0, 0, 2, 8, 9];
        let digest = hmac(&key, &[&c[..], &rb, &reply].concat());
        reply.extend(digest);
        assert_eq!(check(&c, &rb, &key, &reply), (0, 8, 2));
        assert_eq!(check(&c, &rb, &key[1..], &reply), (26, 0, 0));
        assert_eq!(check(&c, &rb[1..], &key, &reply), (28, 0, 0));
        for at in 0..reply.len() {
            let mut damaged = reply.clone();
            damaged[at] ^= 1;
            assert_eq!(check(&c, &rb, &key, &damaged), (30, 0, 0));
        }
        let long = Request { b: 4_194_305, ..r.clone() };
        assert_eq!(check(&c, &long.bytes(), &key, &reply), (28, 0, 0));
        let most = Request { b: 4_194_304, ..r };
        assert_eq!(check(&c, &most.bytes(), &key, &reply), (30, 0, 0));
    }

    /// A read of member 9 through group 7.
    fn through() -> (Credential, Request) {
        let r = Request { mark: GROUP_MARK, operation: READ, level: 2, time: 1, count: 2, a: 3, b: 2, n: 0, member: 9 };
        (Credential { rights: 0x81, ..credential() }, r)
    }

    /// The row of a builder that is lent these records; the reply check says 28 of the same ones.
    fn built(c: &[u8], r: &[u8]) -> u8 {
        let (row, length) = build(c, r, &[], &[3; 32], &mut [0; 200]);
        assert_eq!(length, if row == 0 { 36 + r.len() + 32 } else { 0 });
        assert_eq!(check(c, r, &[3; 32], &[]).0 == 28, row == 28);
        row
    }

    /// Change 6: "so 32 bytes, in rows 5 and 28 too". A request has the length that its mark says.
    #[test]
    fn requests_of_other_lengths() {
        let (c, r) = through();
        let (c, group) = (c.bytes(), [&r.bytes()[..], &[0; 8]].concat());
        let mut plain = group.clone();
        plain[1] = REQUEST_MARK[1];
        let plain_c = Credential { rights: 1, ..credential() }.bytes();
        for length in 0..=40 {
            assert_eq!(built(&c, &group[..length]) == 0, length == 32, "{length} bytes with 4C 47");
            assert_eq!(built(&plain_c, &plain[..length]) == 0, length == 28, "{length} bytes with 4C 52");
            assert_eq!([built(&c, &plain[..length]), built(&plain_c, &group[..length])], [28, 28]);
        }
        assert_eq!([built(&c[1..], &r.bytes()), built(&[&c[..], &[0]].concat(), &r.bytes())], [28, 28]);
    }

    /// "one of rows 3–7 met by the records"; the issuer is refused by rows 3 and 4 alone.
    #[test]
    fn rows_3_to_7_of_a_group() {
        let (c, r) = through();
        let with = |c: &Credential, r: &Request| built(&c.bytes(), &r.bytes());
        let issued = |c: &Credential| issue(&[3; 32], c, &mut [0; 36]).0;
        assert_eq!(with(&c, &r), 0);
        for (change, row) in [
            (Credential { object: 0, ..c.clone() }, 0), // 6
            (Credential { slot: 2, ..c.clone() }, 0),   // 6
            (Credential { rights: 0x181, ..c.clone() }, 28), // 4
            (Credential { rights: 0x8081, ..c.clone() }, 28),
            (Credential { mark: GROUP_MARK, ..c.clone() }, 28), // 3
        ] {
            assert_eq!((with(&change, &r), issued(&change)), (28, row));
        }
        for operation in [RAISE, DELETE] {
            assert_eq!(with(&c, &Request { operation, a: 0, b: 0, ..r.clone() }), 28);
        }
        assert_eq!(with(&c, &Request { operation: LOOK, a: 0, b: 0, ..r.clone() }), 0);
        assert_eq!([with(&c, &Request { member: 0, ..r.clone() }), with(&c, &Request { member: u32::MAX, ..r.clone() })], [0, 0]);
        assert_eq!([with(&c, &Request { level: 0, ..r.clone() }), with(&c, &Request { level: 1, ..r })], [28, 0]);
        assert_eq!([0x80, 0xff, 0x7f].map(|rights| issued(&Credential { rights, ..c.clone() })), [0, 0, 0]);
    }

    /// 100 + n bytes, the digest over the member too.
    #[test]
    fn the_frame_of_a_group() {
        let (c, r) = through();
        let (c, r) = (c.bytes(), Request { operation: WRITE, level: 1, n: 2, ..r }.bytes());
        let mut space = [1; 110];
        assert_eq!(build(&c, &r, &[8, 9], &[3; 32], &mut space[..101]), (29, 0));
        assert_eq!(build(&c, &r, &[8, 9], &[3; 32], &mut space[..98]), (29, 0));
        assert_eq!(space, [1; 110]);
        assert_eq!(build(&c, &r, &[8, 9], &[3; 32], &mut space), (0, 102));
        let signed = [&c[..], &r, &[8, 9]].concat();
        assert_eq!(space[..], [&signed[..], &hmac(&[3; 32], &signed), &[1; 8]].concat());
        assert_eq!([build(&c, &r, &[8], &[3; 32], &mut space), build(&c, &r, &[8, 9, 0], &[3; 32], &mut space)], [(28, 0); 2]);
    }

    /// The reply's digest takes all 32 bytes of the request: a reply for another member is not this one's.
    #[test]
    fn the_reply_of_a_group() {
        let (c, r) = through();
        let (c, bytes) = (c.bytes(), r.bytes());
        let head = [0x4c, 0x41, 1, 2, 0, 0, 0, 2, 8, 9];
        let signed = |request: &[u8]| [&head[..], &hmac(&[3; 32], &[&c[..], request, &head].concat())].concat();
        let checked = |reply: &[u8]| check(&c, &bytes, &[3; 32], reply);
        assert_eq!(checked(&signed(&bytes)), (0, 8, 2));
        assert_eq!(checked(&signed(&Request { member: 8, ..r.clone() }.bytes())), (30, 0, 0));
        assert_eq!([checked(&signed(&bytes[..28])), checked(&head)], [(30, 0, 0); 2]);
        let long = Request { b: 4_194_305, ..r.clone() };
        assert_eq!(check(&c, &long.bytes(), &[3; 32], &[]), (28, 0, 0));
        assert_eq!(check(&c, &Request { b: 4_194_304, ..r }.bytes(), &[3; 32], &[]), (30, 0, 0));
    }

    /// Change 5: "row 7 at the client end [keeps] document 01's rule, operation 8 treated as 7".
    #[test]
    fn operation_8_at_the_client_end() {
        let c = Credential { slot: 2, object: 0, version: 0, least: 0, rights: 0, ..credential() };
        let r = Request { mark: REQUEST_MARK, operation: LOAD, level: 1, time: 0, count: 0, a: 0, b: 0, n: 21, member: 0 };
        let built = |c: &Credential, r: &Request| build(&c.bytes(), &r.bytes(), &vec![0; r.n as usize], &[3; 32], &mut [0; 200]);
        assert_eq!([built(&c, &r), built(&c, &Request { level: 2, ..r.clone() })], [(0, 117); 2]); // the table need not be good
        assert_eq!(built(&c, &Request { level: 0, ..r.clone() }), (28, 0));
        assert_eq!(built(&Credential { least: 2, ..c.clone() }, &r), (28, 0));
        for n in [0, 16, 20, 22] {
            assert_eq!(built(&c, &Request { n, ..r.clone() }), (28, 0), "{n} bytes");
        }
        for slot in [0, 1, 3, 4] {
            assert_eq!(built(&Credential { slot, partition: 0, ..c.clone() }, &r), (28, 0), "slot {slot}");
        }
        assert_eq!(built(&Credential { object: 1, ..c.clone() }, &r), (28, 0));
        assert_eq!(built(&Credential { version: 1, ..c.clone() }, &r), (28, 0));
        assert_eq!([built(&c, &Request { a: 1, ..r.clone() }), built(&c, &Request { b: 1, ..r.clone() })], [(28, 0); 2]);
        assert_eq!(built(&c, &Request { operation: 9, ..r.clone() }), (28, 0));
        // "empty result"
        let checked = |reply: &[u8]| check(&c.bytes(), &r.bytes(), &[3; 32], reply);
        assert_eq!(checked(&[0x4c, 0x41, 8, 1, 0, 0, 0, 0]), (0, 8, 0));
        assert_eq!([checked(&[0x4c, 0x41, 8, 1, 0, 0, 0, 1, 0]), checked(&[0x4c, 0x41, 7, 1, 0, 0, 0, 0])], [(30, 0, 0); 2]);
    }
}
