//! The client's side, and the exporter context, which both sides use.

use crate::bytes::Bytes;
use crate::key_list::Pair;
use crate::raw;
use crate::refusal::Refusal;

/// The head of a request, and the info that belongs to it.
#[derive(Clone, Copy, Debug, PartialEq, Eq)]
pub struct Head {
    /// What the request begins with, in front of the ciphertext: 7 bytes and enc.
    pub bytes: Bytes<{ raw::LONGEST_HEAD }>,
    /// HPKE's info.
    pub info: [u8; raw::INFO_LENGTH],
}

/// What HPKE exports for a response.
#[derive(Clone, Copy, Debug, PartialEq, Eq)]
pub struct Exporter {
    /// The exporter context.
    pub context: [u8; raw::EXPORTER_CONTEXT_LENGTH],
    /// How many bytes to export. The response nonce has as many.
    pub secret_length: usize,
}

/// Lays out the head of a request and its info. Refusals: 3, 6, 13.
///
/// HPKE wants info before it gives enc: [`Choice::info`](crate::Choice::info) has it.
pub fn head(key_id: u8, kem: u16, pair: Pair, enc: &[u8]) -> Result<Head, Refusal> {
    let mut bytes = [0; raw::LONGEST_HEAD];
    let mut info = [0; raw::INFO_LENGTH];
    let numbers = (pair.kdf, pair.aead);
    let result = raw::head(key_id, kem, numbers, enc, &mut bytes, &mut info);
    Refusal::or(result.outcome, ())?;
    Ok(Head {
        bytes: Bytes::front(bytes, result.length),
        info,
    })
}

/// A response's two parts, nonce and ciphertext. Refusals: 6, 1, 2.
///
/// ```
/// let response = [0x22; 40];
/// let (nonce, ciphertext) = sealwax::split(0x0001, &response)?;
/// assert_eq!((nonce.len(), ciphertext.len()), (16, 24));
/// # Ok::<(), sealwax::Refusal>(())
/// ```
pub fn split(aead: u16, response: &[u8]) -> Result<(&[u8], &[u8]), Refusal> {
    let result = raw::split(aead, response);
    Refusal::or(result.outcome, ())?;
    let (nonce, rest) = response.split_at(result.nonce_length);
    Ok((nonce, &rest[..result.ciphertext_length]))
}

/// What HPKE exports for the response to a request with this AEAD, at the client and at the gateway.
/// Refusal: 6.
pub fn exporter(aead: u16) -> Result<Exporter, Refusal> {
    let mut context = [0; raw::EXPORTER_CONTEXT_LENGTH];
    let result = raw::exporter(aead, &mut context);
    Refusal::or(result.outcome, ())?;
    Ok(Exporter {
        context,
        secret_length: result.secret_length,
    })
}

#[cfg(test)]
mod tests {
    use super::*;

    const PAIR: Pair = Pair { kdf: 1, aead: 1 };

    #[test]
    fn heads_of_every_kem() {
        for (kem, nenc) in [(0x10, 65), (0x11, 97), (0x12, 133), (0x20, 32), (0x21, 56)] {
            let enc = vec![0x44; nenc];
            let head = head(1, kem, PAIR, &enc).unwrap();
            assert_eq!(head.bytes[..7], [1, 0, kem as u8, 0, 1, 0, 1]);
            assert_eq!(head.bytes[7..], enc);
            assert_eq!(head.info[..22], *b"message/bhttp request\0");
            assert_eq!(head.info[22..], head.bytes[..7]);
        }
    }

    #[test]
    fn refused_heads() {
        let number = |kem, pair, enc| head(1, kem, pair, enc).unwrap_err().number();
        assert_eq!(number(0x22, PAIR, &[0; 32]), 3);
        assert_eq!(number(0x20, Pair { kdf: 4, aead: 1 }, &[0; 32]), 6);
        assert_eq!(number(0x20, PAIR, &[0; 33]), 13);
        assert_eq!(number(0x20, PAIR, &[]), 13);
    }

    #[test]
    fn parts_of_a_response() {
        for (aead, nonce_length) in [(1, 16), (2, 32), (3, 32)] {
            let response: Vec<u8> = (0..nonce_length + 20).collect();
            let (nonce, ciphertext) = split(aead, &response).unwrap();
            assert!(std::ptr::eq(nonce, &response[..usize::from(nonce_length)]));
            assert_eq!(ciphertext, &response[usize::from(nonce_length)..]);
            let short = &response[..usize::from(nonce_length) + 15];
            assert_eq!(split(aead, short).unwrap_err().number(), 1);
        }
        assert_eq!(split(0xffff, &[0; 99]).unwrap_err().number(), 6);
        assert_eq!(split(1, &[0; 65_569]).unwrap_err().number(), 2);
        assert!(split(1, &[0; 65_568]).is_ok());
    }

    #[test]
    fn secrets() {
        for (aead, secret_length) in [(1, 16), (2, 32), (3, 32)] {
            let exporter = exporter(aead).unwrap();
            assert_eq!(exporter.context, *b"message/bhttp response");
            assert_eq!(exporter.secret_length, secret_length);
        }
        assert_eq!(exporter(4).unwrap_err().number(), 6);
    }
}
