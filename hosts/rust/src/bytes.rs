//! A few bytes, held in place.

use std::fmt;
use std::ops::Deref;

/// At most `MOST` bytes, held in place and read as a slice.
#[derive(Clone, Copy)]
pub struct Bytes<const MOST: usize> {
    bytes: [u8; MOST],
    length: usize,
}

impl<const MOST: usize> Bytes<MOST> {
    /// The first `length` of these bytes.
    pub(crate) fn front(bytes: [u8; MOST], length: usize) -> Bytes<MOST> {
        debug_assert!(length <= MOST);
        Bytes { bytes, length }
    }

    /// A copy of a slice of at most `MOST` bytes.
    pub(crate) fn copy(slice: &[u8]) -> Bytes<MOST> {
        let mut bytes = [0; MOST];
        bytes[..slice.len()].copy_from_slice(slice);
        Bytes::front(bytes, slice.len())
    }
}

impl<const MOST: usize> Deref for Bytes<MOST> {
    type Target = [u8];

    fn deref(&self) -> &[u8] {
        &self.bytes[..self.length]
    }
}

impl<const MOST: usize> AsRef<[u8]> for Bytes<MOST> {
    fn as_ref(&self) -> &[u8] {
        self
    }
}

impl<const MOST: usize> PartialEq for Bytes<MOST> {
    fn eq(&self, other: &Bytes<MOST>) -> bool {
        self[..] == other[..]
    }
}

impl<const MOST: usize> Eq for Bytes<MOST> {}

impl<const MOST: usize> fmt::Debug for Bytes<MOST> {
    fn fmt(&self, f: &mut fmt::Formatter<'_>) -> fmt::Result {
        fmt::Debug::fmt(&self[..], f)
    }
}

#[cfg(test)]
mod tests {
    use super::*;

    #[test]
    fn only_the_front_counts() {
        let bytes = Bytes::front([1, 2, 3, 4], 2);
        assert_eq!(bytes[..], [1, 2]);
        assert_eq!(bytes, Bytes::front([1, 2, 9, 9], 2));
        assert_ne!(bytes, Bytes::front([1, 2, 3, 4], 3));
        assert_eq!(format!("{bytes:?}"), "[1, 2]");
    }

    #[test]
    fn a_copy_of_any_length() {
        for length in 0..=4 {
            let copy: Bytes<4> = Bytes::copy(&[1, 2, 3, 4][..length]);
            assert_eq!(copy.as_ref(), &[1, 2, 3, 4][..length]);
        }
    }
}
