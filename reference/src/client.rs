//! The client side but for the list writer: 01, "Client side".

use crate::algorithms::{nenc, response_nonce_length, Pair, HEAD_LENGTH, TAG_LENGTH};
use crate::key_list::{read_list, Configuration};
use crate::refusal::{refusal, Refusal};
use crate::request::{info, write_front, INFO_LENGTH};
use std::ops::Range;

/// "response above nonce + 65,552" is refused.
const LONGEST_CIPHERTEXT: usize = 65_552;

/// "key id, KEM, pair and where the public key starts and ends in the list"
#[derive(Clone, Debug, PartialEq, Eq)]
pub struct Chosen {
    pub key_id: u8,
    pub kem: u16,
    pub pair: Pair,
    pub public_key: Range<usize>,
}

/// Choose. Order: the list's, 13 (pair list of odd length), 16.
pub fn choose(list: &[u8], kems: &[u16], pairs: &[u16]) -> Result<Chosen, Refusal> {
    let configurations = read_list(list)?.configurations;
    if pairs.len() % 2 != 0 {
        return Err(refusal(13));
    }
    let wanted: Vec<Pair> = pairs.chunks(2).map(pair_of).collect();
    configurations
        .iter()
        .filter(|configuration| kems.contains(&configuration.kem))
        .find_map(|configuration| choose_pair(configuration, &wanted))
        .ok_or_else(|| refusal(16))
}

fn pair_of(numbers: &[u16]) -> Pair {
    Pair {
        kdf: numbers[0],
        aead: numbers[1],
    }
}

/// "of its pairs the first such": in the client's list and known.
fn choose_pair(configuration: &Configuration, wanted: &[Pair]) -> Option<Chosen> {
    let pair = configuration
        .pairs
        .iter()
        .find(|pair| pair.is_known() && wanted.contains(pair))?;
    Some(Chosen {
        key_id: configuration.id,
        kem: configuration.kem,
        pair: *pair,
        public_key: configuration.public_key.clone(),
    })
}

/// Head: the number of bytes written to the first buffer. Order: 3, 6 (unknown pair), 13, 14.
pub fn head(
    key_id: u8,
    kem: u16,
    pair: Pair,
    enc: &[u8],
    buffer: &mut [u8],
    info_buffer: &mut [u8],
) -> Result<usize, Refusal> {
    let nenc = nenc(kem).ok_or_else(|| refusal(3))?;
    if !pair.is_known() {
        return Err(refusal(6));
    }
    if enc.len() != nenc {
        return Err(refusal(13));
    }
    let length = HEAD_LENGTH + nenc;
    if buffer.len() < length || info_buffer.len() < INFO_LENGTH {
        return Err(refusal(14));
    }
    let mut head = vec![key_id];
    for number in [kem, pair.kdf, pair.aead] {
        head.extend(number.to_be_bytes());
    }
    head.extend_from_slice(enc);
    write_front(buffer, &head);
    write_front(info_buffer, &info(&head));
    Ok(length)
}

/// Split: nonce and ciphertext. Order: 6 (unknown AEAD), 1, 2.
pub fn split(aead: u16, response: &[u8]) -> Result<(&[u8], &[u8]), Refusal> {
    let nonce = response_nonce_length(aead).ok_or_else(|| refusal(6))?;
    if response.len() < nonce + TAG_LENGTH {
        return Err(refusal(1));
    }
    if response.len() > nonce + LONGEST_CIPHERTEXT {
        return Err(refusal(2));
    }
    Ok(response.split_at(nonce))
}

/// "the 22 ASCII bytes `message/bhttp response`"
pub const EXPORTER_CONTEXT: &[u8; 22] = b"message/bhttp response";

/// Exporter: the secret's length, which "is the nonce length"; the context goes to the buffer's
/// front. Order: 6 (unknown AEAD), 14.
pub fn exporter(aead: u16, buffer: &mut [u8]) -> Result<usize, Refusal> {
    let secret = response_nonce_length(aead).ok_or_else(|| refusal(6))?;
    if buffer.len() < EXPORTER_CONTEXT.len() {
        return Err(refusal(14));
    }
    write_front(buffer, EXPORTER_CONTEXT);
    Ok(secret)
}

#[cfg(test)]
mod tests {
    use super::*;
    use crate::answer::hex;
    use crate::call::read_bytes;
    use crate::key_list::tests::{configuration, edge_list, unknown};
    use crate::refusal::refusal_at;

    fn two_configurations() -> Vec<u8> {
        let first = configuration(1, 0x0010, 65, &[0, 9, 0, 1, 0, 1, 0, 1]);
        let second = configuration(2, 0x0020, 32, &[0, 1, 0, 2, 0, 1, 0, 1, 0, 2, 0, 3]);
        [first, second].concat()
    }

    fn chosen(kems: &[u16], pairs: &[u16]) -> (u8, u16, u16, Range<usize>) {
        let chosen = choose(&two_configurations(), kems, pairs).unwrap();
        let Pair { kdf, aead } = chosen.pair;
        (chosen.key_id, kdf, aead, chosen.public_key)
    }

    #[test]
    fn the_list_order_decides() {
        let (both, pairs) = ([0x20, 0x10], [2, 3, 1, 1]);
        assert_eq!(chosen(&both, &pairs), (1, 1, 1, 5..70));
        assert_eq!(chosen(&[0x20], &pairs), (2, 1, 1, 85..117));
        assert_eq!(chosen(&both, &[2, 3]), (2, 2, 3, 85..117));
        assert_eq!(chosen(&both, &[2, 3, 1, 2]), (2, 1, 2, 85..117));
    }

    #[test]
    fn choose_refuses_in_order() {
        let list = two_configurations();
        assert_eq!(choose(&[], &[], &[1]), Err(refusal_at(18, 0)));
        assert_eq!(choose(&list, &[], &[1]), Err(refusal(13)));
        assert_eq!(choose(&list, &[], &[1, 1]), Err(refusal(16)));
        assert_eq!(choose(&list, &[0x20], &[]), Err(refusal(16)));
        // Unknown numbers never match, even where both sides list them.
        assert_eq!(choose(&list, &[0x10], &[9, 1]), Err(refusal(16)));
        assert_eq!(choose(&list, &[0x11, 0x99], &[1, 1]), Err(refusal(16)));
        // KDF and AEAD by turns: (1, 2) is listed, (2, 1) is not.
        assert_eq!(choose(&list, &[0x20], &[2, 1]), Err(refusal(16)));
        assert!(choose(&edge_list(), &[0x20], &[1, 3]).is_ok());
    }

    /// "A list in which all are skipped ...; choose answers 16."
    #[test]
    fn choose_where_all_are_skipped() {
        let list = [unknown(7, 0x22, 41), unknown(8, 0x30, 3)].concat();
        // "Numbers unknown above never match", even where the client knows them.
        let kems = [0x20, 0x22, 0x30];
        assert_eq!(choose(&list, &kems, &[1, 3]), Err(refusal(16)));
        assert_eq!(choose(&list, &[], &[]), Err(refusal(16)));
        assert_eq!(choose(&list, &kems, &[1, 3, 1]), Err(refusal(13)));
        let cut = &list[..list.len() - 1];
        assert_eq!(choose(cut, &kems, &[1, 3, 1]), Err(refusal_at(18, 43)));
    }

    #[test]
    fn choose_steps_over_skipped_ones() {
        // The first would be the client's choice, had it a KEM that is known.
        let skipped = configuration(7, 0x0022, 32, &[0, 1, 0, 3]);
        let list = [&skipped[..], &edge_list(), &skipped].concat();
        let chosen = choose(&list, &[0x22, 0x20], &[1, 3]).unwrap();
        assert_eq!((chosen.key_id, chosen.kem), (7, 0x0020));
        assert_eq!(chosen.public_key, 48..80);
        assert_eq!(choose(&list, &[0x22], &[1, 3]), Err(refusal(16)));
    }

    #[test]
    fn head_refuses_in_order() {
        let answer = |kem, kdf, aead, enc: usize, room: usize, info_room: usize| {
            let pair = Pair { kdf, aead };
            let (mut buffer, mut info) = (vec![0xa5; room], vec![0xa5; info_room]);
            let answer = head(1, kem, pair, &vec![0; enc], &mut buffer, &mut info);
            if answer.is_err() {
                assert!(buffer.iter().chain(&info).all(|byte| *byte == 0xa5));
            }
            answer.map_err(|refusal| refusal.number)
        };
        assert_eq!(answer(0x22, 9, 9, 0, 0, 0), Err(3));
        assert_eq!(answer(0x20, 9, 1, 0, 0, 0), Err(6));
        assert_eq!(answer(0x20, 1, 9, 0, 0, 0), Err(6));
        assert_eq!(answer(0x20, 1, 1, 31, 0, 0), Err(13));
        assert_eq!(answer(0x20, 1, 1, 33, 99, 99), Err(13));
        assert_eq!(answer(0x20, 1, 1, 32, 38, 29), Err(14));
        assert_eq!(answer(0x20, 1, 1, 32, 39, 28), Err(14));
        assert_eq!(answer(0x20, 1, 1, 32, 39, 29), Ok(39));
    }

    #[test]
    fn rfc_9458_appendix_a_head() {
        let enc = "4b28f881333e7c164ffc499ad9796f877f4e1051ee6d31bad19dec96c208b472";
        let bytes = read_bytes(enc.as_bytes(), 70_000).unwrap();
        let (mut buffer, mut info) = ([0xa5; 40], [0xa5; 30]);
        let pair = Pair { kdf: 1, aead: 1 };
        let answer = head(1, 0x0020, pair, &bytes, &mut buffer, &mut info);
        assert_eq!(answer, Ok(39));
        assert_eq!(hex(&buffer), format!("01002000010001{enc}a5"));
        let expected = "6d6573736167652f626874747020726571756573740001002000010001a5";
        assert_eq!(hex(&info), expected);
    }

    #[test]
    fn sizes_of_responses() {
        for (aead, nonce) in [(1, 16), (2, 32), (3, 32)] {
            assert_eq!(split(aead, &[]), Err(refusal(1)));
            assert_eq!(split(aead, &vec![0; nonce + 15]), Err(refusal(1)));
            assert_eq!(split(aead, &vec![0; nonce + 65_553]), Err(refusal(2)));
            for length in [16, 65_552] {
                let response = vec![0; nonce + length];
                let parts = split(aead, &response).unwrap();
                assert_eq!((parts.0.len(), parts.1.len()), (nonce, length));
            }
        }
        assert_eq!(split(4, &[]), Err(refusal(6)));
        assert_eq!(split(0xffff, &[0; 66_000]), Err(refusal(6)));
    }

    #[test]
    fn rfc_9458_appendix_a_response() {
        let text = concat!(
            "c789e7151fcba46158ca84b04464910d86f9013e404feea014e7be4a441f234f",
            "857fbd"
        );
        let response = read_bytes(text.as_bytes(), 70_000).unwrap();
        let (nonce, ciphertext) = split(1, &response).unwrap();
        assert_eq!(hex(nonce), "c789e7151fcba46158ca84b04464910d");
        assert_eq!(hex(ciphertext), "86f9013e404feea014e7be4a441f234f857fbd");
        // The exported secret of the example has 16 bytes.
        assert_eq!(exporter(1, &mut [0; 22]), Ok(16));
    }

    #[test]
    fn the_exporter_context() {
        for (aead, secret) in [(1, 16), (2, 32), (3, 32)] {
            for room in [22, 23, 256] {
                let mut buffer = vec![0xa5; room];
                assert_eq!(exporter(aead, &mut buffer), Ok(secret));
                assert_eq!(&buffer[..22], b"message/bhttp response");
                assert!(buffer[22..].iter().all(|byte| *byte == 0xa5));
            }
        }
    }

    #[test]
    fn exporter_refuses_in_order() {
        let cases = [
            (0, 21, 6),
            (4, 22, 6),
            (0xffff, 0, 6),
            (1, 0, 14),
            (3, 21, 14),
        ];
        for (aead, room, number) in cases {
            let mut buffer = vec![0xa5; room];
            assert_eq!(exporter(aead, &mut buffer), Err(refusal(number)));
            assert!(buffer.iter().all(|byte| *byte == 0xa5));
        }
    }
}
