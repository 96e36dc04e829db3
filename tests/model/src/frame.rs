//! A frame taken apart: "Frame: credential, request, n data bytes, 32 digest bytes."

use crate::digest::{hmac, Digest, DIGEST_BYTES};
use crate::drive::Key;
use crate::records::*;

/// "2. The frame is under 96 bytes." Change 6: "row 2 keeps 96 for every form".
pub const LEAST_FRAME: usize = 96;

/// A frame that row 2 lets through. So many bytes hold the fields of either form of request; where row 5 applies, its last ones may be
/// digest too.
pub struct Frame<'a> {
    bytes: &'a [u8],
    pub c: Credential,
    pub r: Request,
    pub credential: &'a [u8],
    pub request: &'a [u8],
    pub data: &'a [u8], // all that stands between request and digest
    pub digest: &'a [u8],
}

impl<'a> Frame<'a> {
    /// None where row 2 applies.
    pub fn read(bytes: &[u8]) -> Option<Frame<'_>> {
        if bytes.len() < LEAST_FRAME {
            return None;
        }
        let (credential, after) = bytes.split_at(CREDENTIAL_BYTES);
        let length = request_length([after[0], after[1]]);
        let (before, digest) = bytes.split_at(bytes.len() - DIGEST_BYTES);
        Some(Frame {
            bytes,
            c: Credential::read(credential),
            r: Request::read(&after[..length]),
            credential,
            request: &after[..length],
            data: before.get(CREDENTIAL_BYTES + length..).unwrap_or(&[]),
            digest,
        })
    }

    pub fn length(&self) -> u64 {
        self.bytes.len() as u64
    }

    /// "Credential key = HMAC(key in that slot, the 36 bytes)".
    pub fn credential_key(&self, slot_key: &Key) -> Digest {
        hmac(slot_key, self.credential)
    }

    /// "The digest is HMAC under the credential key over credential and request, and the data too from level 1." Change 6: over all 32
    /// bytes of a request that has them.
    pub fn digest_due(&self, slot_key: &Key) -> Digest {
        let data = if self.r.level >= 1 { self.data } else { &[] };
        hmac(&self.credential_key(slot_key), &[self.credential, self.request, data].concat())
    }

    pub fn is_through_a_group(&self) -> bool {
        is_through_a_group(&self.c, &self.r)
    }

    pub fn target(&self) -> u32 {
        target(&self.c, &self.r)
    }
}

#[cfg(test)]
mod tests {
    use super::*;

    /// Bytes that rise from 0 on, with a request mark.
    fn rising(length: u8, mark: [u8; 2]) -> Vec<u8> {
        let mut bytes: Vec<u8> = (0..length).collect();
        bytes[36..38].copy_from_slice(&mark);
        bytes
    }

    /// The first byte and the length of request, data and digest.
    fn parts(bytes: &[u8]) -> Option<[(u8, usize); 3]> {
        Frame::read(bytes).map(|f| [f.request, f.data, f.digest].map(|part| (part.get(0).copied().unwrap_or(0), part.len())))
    }

    #[test]
    fn parts_of_both_forms() {
        assert_eq!(parts(&rising(96, REQUEST_MARK)), Some([(0x4c, 28), (0, 0), (64, 32)]));
        assert_eq!(parts(&rising(99, REQUEST_MARK)), Some([(0x4c, 28), (64, 3), (67, 32)]));
        assert_eq!(parts(&rising(100, GROUP_MARK)), Some([(0x4c, 32), (0, 0), (68, 32)]));
        assert_eq!(parts(&rising(103, GROUP_MARK)), Some([(0x4c, 32), (68, 3), (71, 32)]));
        assert_eq!(Frame::read(&rising(103, GROUP_MARK)).unwrap().r.member, 0x40414243);
    }

    /// "row 2 keeps 96 for every form"
    #[test]
    fn the_shortest_frames() {
        for mark in [REQUEST_MARK, GROUP_MARK, [0, 0]] {
            assert_eq!(parts(&rising(95, mark)), None);
            assert!(parts(&rising(96, mark)).is_some());
        }
        for length in 96..100 {
            assert_eq!(parts(&rising(length, GROUP_MARK)), Some([(0x4c, 32), (0, 0), (length - 32, 32)]));
        }
    }

    /// The member is the target where both records are of a group.
    #[test]
    fn targets() {
        let target = |rights, mark| {
            let mut bytes = rising(100, mark);
            bytes[13] = rights;
            Frame::read(&bytes).unwrap().target()
        };
        let (object, member) = (0x04050607, 0x40414243);
        assert_eq!([target(0x80, GROUP_MARK), target(0xff, GROUP_MARK), target(0x7f, GROUP_MARK)], [member, member, object]);
        assert_eq!([target(0x80, REQUEST_MARK), target(0x7f, REQUEST_MARK)], [object, object]);
    }

    /// The digest covers the whole request in both forms, at level 0 too, and the data from level 1 on.
    #[test]
    fn what_is_signed() {
        for (mark, covered) in [(REQUEST_MARK, 64), (GROUP_MARK, 68)] {
            for level in 0..=2 {
                let mut bytes = rising(120, mark);
                bytes[39] = level;
                let key = hmac(&[7; 32], &bytes[..36]);
                let end = if level == 0 { covered } else { 88 };
                assert_eq!(Frame::read(&bytes).unwrap().digest_due(&[7; 32]), hmac(&key, &bytes[..end]));
            }
        }
    }
}
