//! Key lists: read, written, and chosen from.

use crate::client::{self, Head};
use crate::raw;
use crate::refusal::Refusal;

/// A KDF and an AEAD that belong together.
#[derive(Clone, Copy, Debug, PartialEq, Eq)]
pub struct Pair {
    /// The KDF's number.
    pub kdf: u16,
    /// The AEAD's number.
    pub aead: u16,
}

/// A configuration of a key list, to be written.
#[derive(Clone, Copy, Debug, PartialEq, Eq)]
pub struct Configuration<'c> {
    /// The key's id, of its own in the list.
    pub key_id: u8,
    /// The KEM's number.
    pub kem: u16,
    /// The public key, as long as the KEM's are.
    pub public_key: &'c [u8],
    /// 1 to 16 pairs, the preferred one first.
    pub pairs: &'c [Pair],
}

/// A key list (RFC 9458, 3), the media type `application/ohttp-keys`, over the bytes that hold it.
///
/// Every call reads the whole list first, and a list with one bad configuration is refused whole: 18
/// to 22, with the [`Field`](crate::Field) at fault. A configuration of at least 3 bytes that lies
/// whole in the list and has an unknown KEM is skipped: its inside is not read and its key id not taken, but
/// it counts towards the sixteen. [`KeyList::check`] says how many there are.
///
/// ```
/// use sealwax::{Checked, Configuration, KeyList, Pair};
///
/// let pairs = [Pair { kdf: 0x0001, aead: 0x0001 }, Pair { kdf: 0x0001, aead: 0x0003 }];
/// let bytes = KeyList::write(&[Configuration {
///     key_id: 7,
///     kem: 0x0020,
///     public_key: &[0x11; 32],
///     pairs: &pairs,
/// }])?;
/// let list = KeyList::new(&bytes);
/// assert_eq!(list.check()?, Checked { configurations: 1, skipped: 0 });
/// assert_eq!(list.key(7)?, [0x11; 32]);
///
/// // A list that has gained a configuration with the KEM 0x0030, which is unknown here.
/// let longer = [&bytes[..], &[0x00, 0x03, 0x08, 0x00, 0x30]].concat();
/// let list = KeyList::new(&longer);
/// assert_eq!(list.check()?, Checked { configurations: 1, skipped: 1 });
/// assert_eq!(list.key(7)?, [0x11; 32]);
/// assert_eq!(list.key(8).unwrap_err().number(), 4);
///
/// let damaged = KeyList::new(&bytes[..46]);
/// assert_eq!(
///     damaged.check().unwrap_err().to_string(),
///     "length at byte 0 is 45, but only 44 bytes follow (refusal 18)"
/// );
/// # Ok::<(), sealwax::Refusal>(())
/// ```
#[derive(Clone, Copy, Debug, PartialEq, Eq)]
pub struct KeyList<'l> {
    bytes: &'l [u8],
}

/// What a good list has.
#[derive(Clone, Copy, Debug, PartialEq, Eq)]
pub struct Checked {
    /// How many configurations were read.
    pub configurations: usize,
    /// How many were skipped, since their KEM is unknown. Worth a line in a log.
    pub skipped: usize,
}

/// What a client uses of a list.
#[derive(Clone, Copy, Debug, PartialEq, Eq)]
pub struct Choice<'l> {
    /// The key's id.
    pub key_id: u8,
    /// The KEM's number.
    pub kem: u16,
    /// The pair to use with it.
    pub pair: Pair,
    /// The public key, a part of the list.
    pub public_key: &'l [u8],
}

impl<'l> KeyList<'l> {
    /// A list over any bytes; each call says whether they are good.
    pub fn new(bytes: &'l [u8]) -> KeyList<'l> {
        KeyList { bytes }
    }

    /// How many configurations of a good list were read, and how many skipped. Refusals: 18
    /// to 22.
    pub fn check(self) -> Result<Checked, Refusal> {
        let result = raw::check(self.bytes);
        let checked = Checked {
            configurations: result.configurations,
            skipped: result.skipped,
        };
        Refusal::or_in_list(result.outcome, self.bytes, checked)
    }

    /// The public key of a key id, a part of the list. Refusals: 18 to 22, 4.
    pub fn key(self, key_id: u8) -> Result<&'l [u8], Refusal> {
        let result = raw::key(self.bytes, key_id);
        Refusal::or_in_list(result.outcome, self.bytes, ())?;
        Ok(&self.bytes[result.start..result.end])
    }

    /// The first configuration, and of its pairs the first, that a client can use who knows these
    /// KEMs and these pairs. Refusals: 18 to 22, 16.
    pub fn choose(self, kems: &[u16], pairs: &[Pair]) -> Result<Choice<'l>, Refusal> {
        let result = raw::choose(self.bytes, kems, &by_turns(pairs));
        Refusal::or_in_list(result.outcome, self.bytes, ())?;
        Ok(Choice {
            key_id: result.key_id,
            kem: result.kem,
            pair: Pair {
                kdf: result.kdf,
                aead: result.aead,
            },
            public_key: &self.bytes[result.key_start..result.key_end],
        })
    }

    /// Writes a list of these configurations. Refusals: 18 where there is none; of each in turn 22,
    /// 3, 19, 20, 21. The field at fault is where it would stand in the list.
    pub fn write(configurations: &[Configuration]) -> Result<Vec<u8>, Refusal> {
        let mut list = vec![0; raw::LONGEST_LIST];
        let length = KeyList::write_into(configurations, &mut list)?;
        list.truncate(length);
        Ok(list)
    }

    /// Writes a list at the front of a buffer and answers its length; the rest stays. Refusals: those
    /// of [`KeyList::write`], 14.
    pub fn write_into(
        configurations: &[Configuration],
        buffer: &mut [u8],
    ) -> Result<usize, Refusal> {
        let mut fields = raw::Fields::default();
        for configuration in configurations {
            fields.key_ids.push(configuration.key_id);
            fields.kems.push(configuration.kem);
            fields.key_lengths.push(configuration.public_key.len());
            fields.keys.extend_from_slice(configuration.public_key);
            fields.pair_counts.push(2 * configuration.pairs.len());
            fields.pairs.extend(by_turns(configuration.pairs));
        }
        let result = raw::write(&fields, buffer);
        Refusal::or(result.outcome, result.length)
    }
}

impl Choice<'_> {
    /// HPKE's info, which is needed before there is an enc.
    pub fn info(&self) -> Result<[u8; raw::INFO_LENGTH], Refusal> {
        // Info is the same for every enc, and an enc is as long as the KEM's public keys.
        let any_enc = self.public_key;
        Ok(self.head(any_enc)?.info)
    }

    /// The head of a request to this key: [`head`](crate::head) with what was chosen.
    pub fn head(&self, enc: &[u8]) -> Result<Head, Refusal> {
        client::head(self.key_id, self.kem, self.pair, enc)
    }
}

/// The numbers of pairs as the library takes them: KDF and AEAD by turns.
fn by_turns(pairs: &[Pair]) -> Vec<u16> {
    pairs
        .iter()
        .flat_map(|pair| [pair.kdf, pair.aead])
        .collect()
}

#[cfg(test)]
pub(crate) mod tests {
    use super::*;

    const PAIRS: [Pair; 1] = [Pair { kdf: 1, aead: 3 }];

    const EDGE: Configuration = Configuration {
        key_id: 7,
        kem: 0x0020,
        public_key: &[0x11; 32],
        pairs: &PAIRS,
    };

    /// 01's edge list: one key, id 7, pair (1, 3).
    pub(crate) fn edge_list() -> Vec<u8> {
        let start = [0x00, 0x29, 0x07, 0x00, 0x20];
        let end = [0x00, 0x04, 0x00, 0x01, 0x00, 0x03];
        [&start[..], &[0x11; 32], &end].concat()
    }

    fn checked(configurations: usize, skipped: usize) -> Result<Checked, Refusal> {
        Ok(Checked {
            configurations,
            skipped,
        })
    }

    #[test]
    fn the_edge_list() {
        let bytes = edge_list();
        let list = KeyList::new(&bytes);
        assert_eq!(list.check(), checked(1, 0));
        let key = list.key(7).unwrap();
        // A part of the list, not a copy.
        assert!(std::ptr::eq(key, &bytes[5..37]));
        assert_eq!(list.key(8).unwrap_err().number(), 4);
        let twice = [&bytes[..], &bytes].concat();
        let refusal = KeyList::new(&twice).check().unwrap_err();
        assert_eq!(number_and_field(refusal), (21, Some((45, Some(7)))));
    }

    /// Every reader of lists names the field at fault, and what stands there.
    #[test]
    fn damaged_lists() {
        let damaged = |length: u16, pair_length: u16| {
            let mut list = edge_list();
            list[..2].copy_from_slice(&length.to_be_bytes());
            list[37..39].copy_from_slice(&pair_length.to_be_bytes());
            list
        };
        let seventeen: Vec<u8> = (0..17)
            .flat_map(|id| {
                let mut list = edge_list();
                list[2] = id;
                list
            })
            .collect();
        let lists: [(Vec<u8>, u8, usize, Option<u16>, &str); 10] = [
            (vec![], 18, 0, None, "there is no configuration at all"),
            (
                vec![0],
                18,
                0,
                None,
                "the list ends within the length at byte 0",
            ),
            (
                damaged(42, 4),
                18,
                0,
                Some(42),
                "length at byte 0 is 42, but only 41 bytes follow",
            ),
            (
                damaged(40, 4),
                19,
                0,
                Some(40),
                "length at byte 0 is 40, but its fields need another length",
            ),
            (
                vec![0, 2, 7, 0],
                19,
                0,
                Some(2),
                "length at byte 0 is 2, but its fields need another length",
            ),
            (
                damaged(41, 6),
                20,
                37,
                Some(6),
                "pair length at byte 37 is 6, not a multiple of 4",
            ),
            (
                damaged(41, 0),
                20,
                37,
                Some(0),
                "pair length at byte 37 is 0, and there must be a pair",
            ),
            (
                edge_list().repeat(2),
                21,
                45,
                Some(7),
                "key id at byte 45 is 7, as that of an earlier configuration",
            ),
            (
                seventeen.clone(),
                22,
                688,
                Some(41),
                "a seventeenth configuration at byte 688",
            ),
            (
                seventeen[..689].to_vec(),
                22,
                688,
                None,
                "a seventeenth configuration at byte 688",
            ),
        ];
        for (bytes, number, place, value, sentence) in lists {
            let list = KeyList::new(&bytes);
            let expected = (number, Some((place, value)));
            let sentence = format!("{sentence} (refusal {number})");
            for refusal in [
                list.check().unwrap_err(),
                list.key(7).unwrap_err(),
                list.choose(&[0x0020], &PAIRS).unwrap_err(),
                crate::Gateway::setup(&bytes, 1).map(|_| ()).unwrap_err(),
            ] {
                assert_eq!(number_and_field(refusal), expected);
                assert_eq!(refusal.to_string(), sentence);
            }
        }
    }

    fn number_and_field(refusal: Refusal) -> (u8, Option<(usize, Option<u16>)>) {
        let field = refusal.field();
        (
            refusal.number(),
            field.map(|field| (field.place(), field.value())),
        )
    }

    #[test]
    fn a_skipped_configuration() {
        // Of 3 bytes, with the key id of the one that is read.
        let unknown = [0x00, 0x03, 0x07, 0x00, 0x30];
        let bytes = [&unknown[..], &edge_list()].concat();
        let list = KeyList::new(&bytes);
        assert_eq!(list.check(), checked(1, 1));
        assert!(std::ptr::eq(list.key(7).unwrap(), &bytes[10..42]));
        let choice = list.choose(&[0x0030, 0x0020], EDGE.pairs).unwrap();
        assert_eq!(
            (choice.kem, choice.public_key),
            (0x0020, list.key(7).unwrap())
        );
        let nothing = KeyList::new(&unknown);
        assert_eq!(nothing.check(), checked(0, 1));
        assert_eq!(nothing.key(7).unwrap_err().number(), 4);
        let refusal = nothing.choose(&[0x0030], EDGE.pairs).unwrap_err();
        assert_eq!(refusal.number(), 16);
        // The longest list that may be good, and one that is longer.
        let mut longest = vec![0; raw::LONGEST_LIST_READ];
        for configuration in longest.chunks_mut(65_537) {
            configuration[..2].fill(0xff);
        }
        assert_eq!(KeyList::new(&longest).check(), checked(0, 16));
        longest.extend(unknown);
        assert_eq!(KeyList::new(&longest).check().unwrap_err().number(), 22);
    }

    #[test]
    fn the_writer() {
        assert_eq!(KeyList::write(&[EDGE]), Ok(edge_list()));
        let other = Configuration { key_id: 8, ..EDGE };
        let refused: [(&[Configuration], u8, usize); 5] = [
            (&[], 18, 0),
            (
                &[
                    EDGE,
                    Configuration {
                        kem: 0x0030,
                        ..other
                    },
                ],
                3,
                46,
            ),
            (
                &[
                    EDGE,
                    Configuration {
                        public_key: &[0x11; 31],
                        ..other
                    },
                ],
                19,
                43,
            ),
            (
                &[
                    EDGE,
                    Configuration {
                        pairs: &[],
                        ..other
                    },
                ],
                20,
                80,
            ),
            (&[EDGE, EDGE], 21, 45),
        ];
        for (configurations, number, place) in refused {
            let refusal = KeyList::write(configurations).unwrap_err();
            assert_eq!(number_and_field(refusal), (number, Some((place, None))));
        }
        let mut small = [0xa5; 42];
        let refusal = KeyList::write_into(&[EDGE], &mut small).unwrap_err();
        assert_eq!((refusal.number(), small), (14, [0xa5; 42]));
        let mut large = [0xa5; 44];
        assert_eq!(KeyList::write_into(&[EDGE], &mut large), Ok(43));
        assert_eq!(large[..43], edge_list());
        assert_eq!(large[43], 0xa5);
    }

    #[test]
    fn the_longest_list() {
        let most = [Pair { kdf: 9, aead: 9 }; 16];
        let longest = Configuration {
            key_id: 0,
            kem: 0x0012,
            public_key: &[0x22; 133],
            pairs: &most,
        };
        let mut all: Vec<Configuration> = (0..16)
            .map(|key_id| Configuration { key_id, ..longest })
            .collect();
        let list = KeyList::write(&all).unwrap();
        assert_eq!(list.len(), raw::LONGEST_LIST);
        assert_eq!(KeyList::new(&list).check(), checked(16, 0));
        all.push(Configuration {
            key_id: 16,
            ..longest
        });
        let refusal = KeyList::write(&all).unwrap_err();
        assert_eq!(number_and_field(refusal), (22, Some((3264, None))));
    }

    #[test]
    fn choose_takes_the_first_that_fits() {
        let bytes = edge_list();
        let list = KeyList::new(&bytes);
        let choice = list.choose(&[0x0010, 0x0020], &PAIRS).unwrap();
        assert_eq!((choice.key_id, choice.kem), (7, 0x0020));
        assert_eq!(choice.pair, PAIRS[0]);
        assert!(std::ptr::eq(choice.public_key, &bytes[5..37]));
        let other = [Pair { kdf: 3, aead: 1 }];
        for (kems, pairs) in [
            (&[0x0020][..], &other[..]),
            (&[0x0010], &PAIRS),
            (&[], &PAIRS),
            (&[0x0020], &[]),
        ] {
            let refusal = list.choose(kems, pairs).unwrap_err();
            assert_eq!(refusal.number(), 16);
        }
    }

    #[test]
    fn info_is_the_same_for_every_enc() {
        let bytes = edge_list();
        let choice = KeyList::new(&bytes).choose(&[0x0020], &PAIRS).unwrap();
        let head = choice.head(&[0x44; 32]).unwrap();
        assert_eq!(choice.info(), Ok(head.info));
        assert_eq!(head.bytes[..7], [7, 0x00, 0x20, 0x00, 0x01, 0x00, 0x03]);
        assert_eq!(head.bytes[7..], [0x44; 32]);
        assert_eq!(choice.head(&[0x44; 31]).unwrap_err().number(), 13);
    }
}
