//! RFC 9000 integers: the first two bits tell how many bytes they have. 02, A3.

use std::ops::Range;

/// What 8 bytes can hold.
pub const LARGEST_INTEGER: u64 = (1 << 62) - 1;

/// "1, 2, 4 or 8 bytes, any size accepted"
pub const INTEGER_SIZES: [usize; 4] = [1, 2, 4, 8];

/// The integer at a place and the place behind it; none where it does not lie whole in the bytes.
#[inline]
pub fn integer_at(bytes: &[u8], place: usize) -> Option<(u64, usize)> {
    let (first, rest) = bytes.get(place..)?.split_first()?;
    // Most integers have one byte.
    if *first < 0x40 {
        return Some((u64::from(*first), place + 1));
    }
    let others = rest.get(..(1 << (first >> 6)) - 1)?;
    let start = u64::from(first & 0x3f);
    let value = others
        .iter()
        .fold(start, |value, byte| value << 8 | u64::from(*byte));
    Some((value, place + 1 + others.len()))
}

/// Where the bytes lie whose length stands at a place; none where the length or the bytes do not
/// lie whole in what is there.
#[inline]
pub fn part_at(bytes: &[u8], place: usize) -> Option<Range<usize>> {
    let (length, start) = integer_at(bytes, place)?;
    let length = usize::try_from(length).ok()?;
    if length > bytes.len() - start {
        return None;
    }
    Some(start..start + length)
}

/// The integer in so many bytes, which must be enough for it.
pub fn integer_bytes(value: u64, size: usize) -> Vec<u8> {
    let mut bytes = value.to_be_bytes()[8 - size..].to_vec();
    bytes[0] |= (size.trailing_zeros() as u8) << 6;
    bytes
}

/// Whether so many bytes are enough.
pub fn integer_fits(value: u64, size: usize) -> bool {
    value >> (8 * size - 2) == 0
}

#[cfg(test)]
mod tests {
    use super::*;

    /// RFC 9000, A.1, and 0 in each size.
    #[test]
    fn integers_of_each_size() {
        let long = [0xc2, 0x19, 0x7c, 0x5e, 0xff, 0x14, 0xe8, 0x8c];
        assert_eq!(integer_at(&long, 0), Some((151_288_809_941_952_652, 8)));
        let four = [0x9d, 0x7f, 0x3e, 0x7d];
        assert_eq!(integer_at(&four, 0), Some((494_878_333, 4)));
        assert_eq!(integer_at(&[0x7b, 0xbd], 0), Some((15_293, 2)));
        assert_eq!(integer_at(&[0x25], 0), Some((37, 1)));
        assert_eq!(integer_at(&[0x40, 0x25], 0), Some((37, 2)));
        assert_eq!(integer_at(&[0x80, 0, 0, 0], 0), Some((0, 4)));
        assert_eq!(integer_at(&[0xc0, 0, 0, 0, 0, 0, 0, 0], 0), Some((0, 8)));
        assert_eq!(integer_at(&[0xff; 8], 0), Some((LARGEST_INTEGER, 8)));
    }

    #[test]
    fn what_is_cut_is_none() {
        for (first, size) in [(0x3f, 1), (0x7f, 2), (0xbf, 4), (0xff, 8)] {
            let bytes = [&[9, 9, first][..], &[0xff; 7]].concat();
            for end in 2..2 + size {
                assert_eq!(integer_at(&bytes[..end], 2), None);
            }
            assert!(integer_at(&bytes[..2 + size], 2).is_some());
        }
        assert_eq!(integer_at(&[], 0), None);
        assert_eq!(integer_at(&[0], 1), None);
        assert_eq!(integer_at(&[0], 2), None);
    }

    #[test]
    fn integers_that_are_written_are_read() {
        let edges = [0, 1, 63, 64, 16_383, 16_384, (1 << 30) - 1, 1 << 30];
        for value in edges.into_iter().chain([LARGEST_INTEGER]) {
            for size in INTEGER_SIZES {
                let bits = [6, 14, 30, 62][size.trailing_zeros() as usize];
                assert_eq!(integer_fits(value, size), value < 1 << bits);
                if integer_fits(value, size) {
                    let bytes = integer_bytes(value, size);
                    assert_eq!(bytes.len(), size);
                    assert_eq!(integer_at(&bytes, 0), Some((value, size)));
                }
            }
        }
        assert!(!integer_fits(LARGEST_INTEGER + 1, 8));
    }

    #[test]
    fn parts_behind_their_lengths() {
        assert_eq!(part_at(&[9, 2, 7, 7, 7], 1), Some(2..4));
        assert_eq!(part_at(&[9, 3, 7, 7, 7], 1), Some(2..5));
        assert_eq!(part_at(&[9, 4, 7, 7, 7], 1), None);
        assert_eq!(part_at(&[0x40, 1, 7], 0), Some(2..3));
        assert_eq!(part_at(&[0x40, 0], 0), Some(2..2));
        assert_eq!(part_at(&[0x40], 0), None);
        assert_eq!(part_at(&[], 0), None);
        // Lengths that would wrap around to what is there.
        for length in [LARGEST_INTEGER, LARGEST_INTEGER - 7, 1 << 32, 1 << 61] {
            let bytes = [integer_bytes(length, 8), vec![0; 9]].concat();
            assert_eq!(part_at(&bytes, 0), None);
        }
    }
}
