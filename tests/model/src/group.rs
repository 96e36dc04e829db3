//! Change 6, "One credential for a stack of logs": what a group object holds. "As in 001, a group object holds four-byte object numbers
//! from 1, in strictly rising order, and no other byte."

/// "four-byte object numbers"
pub const NUMBER_BYTES: usize = 4;

/// The whole numbers that bytes start with, whatever they are.
pub fn numbers(bytes: &[u8]) -> impl Iterator<Item = u32> + '_ {
    bytes.chunks_exact(NUMBER_BYTES).map(|number| u32::from_be_bytes(number.try_into().unwrap()))
}

/// Whether bytes are such a list. A number that is not over the one before it, or for the first one over 0, breaks it.
pub fn is_list(bytes: &[u8]) -> bool {
    let mut least = 1u64; // "from 1"
    let rises = numbers(bytes).all(|number| {
        let over = number as u64 >= least; // "in strictly rising order"
        least = number as u64 + 1;
        over
    });
    rises && bytes.len() % NUMBER_BYTES == 0 // "and no other byte"
}

/// Whether a number is in a list.
pub fn lists(bytes: &[u8], member: u32) -> bool {
    numbers(bytes).any(|number| number == member)
}

/// The bytes that hold these numbers.
pub fn bytes_of(numbers: &[u32]) -> Vec<u8> {
    numbers.iter().flat_map(|number| number.to_be_bytes()).collect()
}

#[cfg(test)]
mod tests {
    use super::*;
    use crate::rng::Rng;

    fn rises(numbers: &[u32]) -> bool {
        is_list(&bytes_of(numbers))
    }

    /// "from 1"
    #[test]
    fn numbers_from_1() {
        assert!(rises(&[1]) && rises(&[1, 2]) && rises(&[u32::MAX]));
        assert!(!rises(&[0]) && !rises(&[0, 1]) && !rises(&[0, 5, 9]));
        assert!(!rises(&[0; 4])); // a fresh group is zeros
    }

    /// "in strictly rising order", at each place, over all 32 bits and the highest byte first
    #[test]
    fn strictly_rising() {
        assert!(rises(&[5, 6]) && !rises(&[5, 5]) && !rises(&[6, 5]));
        assert!(!rises(&[5, 5, 6]) && !rises(&[4, 5, 5]) && !rises(&[4, 6, 5, 7]) && !rises(&[4, 5, 6, 1]));
        assert!(!rises(&[u32::MAX, u32::MAX]) && !rises(&[u32::MAX, 0]) && !rises(&[u32::MAX, 1]));
        assert!(rises(&[1, 0x7fff_ffff, 0x8000_0000, u32::MAX]) && !rises(&[0x8000_0000, 1]));
        assert!(rises(&[0xff, 0x100]) && !rises(&[0x100, 0xff]) && rises(&[0x00ff_ffff, 0x0100_0000]));
    }

    /// "and no other byte"
    #[test]
    fn no_other_byte() {
        let bytes = bytes_of(&[5, 9, 0x0a0b_0c0d]);
        for length in 1..=bytes.len() {
            assert_eq!(is_list(&bytes[..length]), length % 4 == 0, "{length} bytes");
        }
    }

    #[test]
    fn members() {
        let bytes = bytes_of(&[5, 9, 0x0102_0304]);
        assert!(lists(&bytes, 5) && lists(&bytes, 9) && lists(&bytes, 0x0102_0304));
        assert!([0, 1, 4, 6, 10, 0x0304_0000, 0x0901_0203, 0x0500_0000].iter().all(|other| !lists(&bytes, *other)));
        assert!(!lists(&[0, 0, 9], 9) && !lists(&[0, 0, 0, 5, 9], 9));
    }

    /// The sentence word by word against the walk: every number from 1, every pair in order, nothing left over.
    #[test]
    fn lists_word_by_word() {
        let mut rng = Rng::new(3);
        let (mut good, mut bad) = (0, 0);
        for _ in 0..4_000 {
            let length = 1 + rng.below(13) as usize;
            let bytes: Vec<u8> = (0..length).map(|_| rng.pick(&[0, 0, 0, 1, 2])).collect();
            let all: Vec<u32> = numbers(&bytes).collect();
            let due = 4 * all.len() == length
                && all.iter().all(|number| *number >= 1)
                && (0..all.len()).all(|j| (0..j).all(|i| all[i] < all[j]));
            assert_eq!(is_list(&bytes), due, "{bytes:?}");
            good += due as u32;
            bad += !due as u32;
        }
        assert!(good > 300 && bad > 300, "{good} {bad}");
    }
}
