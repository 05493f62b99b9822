//! Requests, read, and info: 01, "Layouts".

use crate::algorithms::{nenc, Pair, HEAD_LENGTH, TAG_LENGTH};
use crate::refusal::{refusal, Refusal};
use std::ops::Range;

/// "Total at most 65,536."
pub const LONGEST_REQUEST: usize = 65_536;
/// "Info, 29 bytes"
pub const INFO_LENGTH: usize = 29;
const INFO_LABEL: &[u8; 21] = b"message/bhttp request";

/// A request's fields and where its parts start and end.
#[derive(Clone, Debug, PartialEq, Eq)]
pub struct Request {
    pub key_id: u8,
    pub kem: u16,
    pub pair: Pair,
    pub enc: Range<usize>,
    pub ciphertext: Range<usize>,
}

/// Reads a request. Order: 2, 1 (below 7), 3, 1 (shortest).
pub fn read_request(request: &[u8]) -> Result<Request, Refusal> {
    if request.len() > LONGEST_REQUEST {
        return Err(refusal(2));
    }
    if request.len() < HEAD_LENGTH {
        return Err(refusal(1));
    }
    let number = |place: usize| u16::from_be_bytes([request[place], request[place + 1]]);
    let kem = number(1);
    // Nenc is that of the KEM which the request names.
    let enc_end = HEAD_LENGTH + nenc(kem).ok_or_else(|| refusal(3))?;
    if request.len() < enc_end + TAG_LENGTH {
        return Err(refusal(1));
    }
    Ok(Request {
        key_id: request[0],
        kem,
        pair: Pair {
            kdf: number(3),
            aead: number(5),
        },
        enc: HEAD_LENGTH..enc_end,
        ciphertext: enc_end..request.len(),
    })
}

/// The label, a zero byte, then the request's first 7 bytes.
pub fn info(head: &[u8]) -> Vec<u8> {
    let mut info = INFO_LABEL.to_vec();
    info.push(0);
    info.extend_from_slice(&head[..HEAD_LENGTH]);
    info
}

/// Writes at the buffer's front; "the rest stays".
pub fn write_front(buffer: &mut [u8], bytes: &[u8]) {
    buffer[..bytes.len()].copy_from_slice(bytes);
}

#[cfg(test)]
pub mod tests {
    use super::*;
    use crate::answer::hex;
    use crate::call::read_bytes;

    /// A request of a given length with these head fields.
    pub fn request(id: u8, kem: u16, kdf: u16, aead: u16, length: usize) -> Vec<u8> {
        let mut bytes = vec![id];
        bytes.extend(kem.to_be_bytes());
        bytes.extend(kdf.to_be_bytes());
        bytes.extend(aead.to_be_bytes());
        bytes.resize(length, 0x33);
        bytes
    }

    fn number(request: &[u8]) -> u8 {
        read_request(request).unwrap_err().number
    }

    #[test]
    fn sizes_around_the_shortest() {
        for (kem, shortest) in [(16, 88), (17, 120), (18, 156), (32, 55), (33, 79)] {
            assert_eq!(number(&request(7, kem, 1, 3, shortest - 1)), 1);
            let read = read_request(&request(7, kem, 1, 3, shortest)).unwrap();
            assert_eq!(read.enc, 7..shortest - 16);
            assert_eq!(read.ciphertext, shortest - 16..shortest);
        }
    }

    #[test]
    fn order_of_refusals() {
        assert_eq!(number(&[]), 1);
        assert_eq!(number(&[0; 6]), 1);
        assert_eq!(number(&request(7, 0x0022, 1, 3, 7)), 3);
        assert_eq!(number(&request(7, 0x0020, 1, 3, 7)), 1);
        assert_eq!(number(&request(7, 0x0022, 1, 3, 65_537)), 2);
        assert!(read_request(&request(7, 0x0020, 1, 3, 65_536)).is_ok());
        assert_eq!(number(&request(7, 0x0020, 1, 3, 65_537)), 2);
    }

    #[test]
    fn info_of_the_edge_request() {
        let bytes = request(7, 0x0020, 1, 3, 55);
        let expected = "6d6573736167652f626874747020726571756573740007002000010003";
        assert_eq!(hex(&info(&bytes)), expected);
        assert_eq!(info(&bytes).len(), INFO_LENGTH);
    }

    #[test]
    fn rfc_9458_appendix_a_request() {
        let text = concat!(
            "010020000100014b28f881333e7c164ffc499ad9796f877f4e1051ee6d31bad1",
            "9dec96c208b4726374e469135906992e1268c594d2a10c695d858c40a026e796",
            "5e7d86b83dd440b2c0185204b4d63525"
        );
        let bytes = read_bytes(text.as_bytes(), 70_000).unwrap();
        let read = read_request(&bytes).unwrap();
        assert_eq!((read.key_id, read.kem), (1, 0x0020));
        assert_eq!(read.pair, Pair { kdf: 1, aead: 1 });
        let enc = "4b28f881333e7c164ffc499ad9796f877f4e1051ee6d31bad19dec96c208b472";
        assert_eq!(hex(&bytes[read.enc]), enc);
        // The binary HTTP message of 25 bytes and its tag.
        assert_eq!(read.ciphertext.len(), 25 + TAG_LENGTH);
        let expected = "6d6573736167652f626874747020726571756573740001002000010001";
        assert_eq!(hex(&info(&bytes)), expected);
    }
}
