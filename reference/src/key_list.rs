//! Key lists, read: 01, "Layouts", key list, and the key reader; 02, A1 and A2.

use crate::algorithms::{npk, Pair};
use crate::refusal::{refusal, refusal_at, Refusal};
use std::ops::Range;

/// "House limits: 1 to 16 configurations".
pub const MOST_CONFIGURATIONS: usize = 16;
/// "S is a multiple of 4, at least 4; the house limit is 64".
const LONGEST_PAIRS: usize = 64;
/// "length L (2 bytes)"
pub const LENGTH_SIZE: usize = 2;
/// "key id (1), KEM (2), public key (Npk)": where they start, counted from the length's first byte.
pub const ID_PLACE: usize = LENGTH_SIZE;
pub const KEM_PLACE: usize = ID_PLACE + 1;
pub const KEY_PLACE: usize = KEM_PLACE + 2;

/// A good list.
#[derive(Clone, Debug, Default, PartialEq, Eq)]
pub struct KeyList {
    /// Those that were read, in list order.
    pub configurations: Vec<Configuration>,
    /// The number of those that were skipped.
    pub skipped: usize,
}

/// One configuration as it stands in a list.
#[derive(Clone, Debug, PartialEq, Eq)]
pub struct Configuration {
    pub id: u8,
    pub kem: u16,
    /// Where the public key starts and ends in the list.
    pub public_key: Range<usize>,
    pub pairs: Vec<Pair>,
}

impl KeyList {
    /// The configuration with that key id. A skipped one's is "not counted as taken".
    pub fn with_id(&self, id: u8) -> Option<&Configuration> {
        let mut configurations = self.configurations.iter();
        configurations.find(|configuration| configuration.id == id)
    }

    /// A skipped one "counts towards the sixteen".
    pub fn count(&self) -> usize {
        self.configurations.len() + self.skipped
    }
}

/// The configurations of a list, or what is wrong with the first bad one. Order: "22, 18, 20, 19,
/// 21 for each configuration".
pub fn read_list(list: &[u8]) -> Result<KeyList, Refusal> {
    // "or no configuration at all"
    if list.is_empty() {
        return Err(refusal_at(18, 0));
    }
    let mut read = KeyList::default();
    let mut start = 0;
    while start < list.len() {
        // "22 more than sixteen"
        if read.count() == MOST_CONFIGURATIONS {
            return Err(refusal_at(22, start));
        }
        // "18 the two length bytes or the L bytes they announce run past the list's end"
        let inside = inside_at(list, start).ok_or_else(|| refusal_at(18, start))?;
        match read_inside(inside, start)? {
            None => read.skipped += 1,
            Some(configuration) => {
                // "21 key id twice"
                if read.with_id(configuration.id).is_some() {
                    return Err(refusal_at(21, start + ID_PLACE));
                }
                read.configurations.push(configuration);
            }
        }
        start += LENGTH_SIZE + inside.len();
    }
    Ok(read)
}

/// The L bytes behind the length at `start`, if the configuration "lies whole in the list".
pub fn inside_at(list: &[u8], start: usize) -> Option<&[u8]> {
    let length = usize::from(number_at(list, start)?);
    list[start + LENGTH_SIZE..].get(..length)
}

/// The KEM of a configuration "of at least 3 bytes": the two behind its key id.
pub fn kem_of(inside: &[u8]) -> Option<u16> {
    number_at(inside, 1)
}

/// The configuration whose length stands at `start`, from its inside; none where it is skipped.
/// Order: 19 where it "ends before its pair length can be read", 20, 19.
fn read_inside(inside: &[u8], start: usize) -> Result<Option<Configuration>, Refusal> {
    let disagree = refusal_at(19, start);
    let kem = kem_of(inside).ok_or(disagree)?;
    let npk = match npk(kem) {
        Some(npk) => npk,
        // "has an unknown KEM is now skipped, its inside unread"
        None => return Ok(None),
    };
    let pairs_length = number_at(inside, 3 + npk).ok_or(disagree)?;
    if !pairs_length_is_good(pairs_length.into()) {
        return Err(refusal_at(20, start + KEY_PLACE + npk));
    }
    // "L = 5 + Npk + S"
    let pairs = &inside[5 + npk..];
    if pairs.len() != usize::from(pairs_length) {
        return Err(disagree);
    }
    let key_start = start + KEY_PLACE;
    Ok(Some(Configuration {
        id: inside[0],
        kem,
        public_key: key_start..key_start + npk,
        pairs: pairs.chunks(4).map(read_pair).collect(),
    }))
}

/// "S is a multiple of 4, at least 4; the house limit is 64"
pub fn pairs_length_is_good(length: usize) -> bool {
    length % 4 == 0 && (4..=LONGEST_PAIRS).contains(&length)
}

fn read_pair(bytes: &[u8]) -> Pair {
    Pair {
        kdf: u16::from_be_bytes([bytes[0], bytes[1]]),
        aead: u16::from_be_bytes([bytes[2], bytes[3]]),
    }
}

/// The two bytes at a place, big-endian.
pub fn number_at(bytes: &[u8], place: usize) -> Option<u16> {
    let two = bytes.get(place..place + 2)?;
    Some(u16::from_be_bytes([two[0], two[1]]))
}

/// The key reader: "hands back the public key as a part of the lent list". Order: the list's, 4.
pub fn public_key(list: &[u8], id: u8) -> Result<&[u8], Refusal> {
    let read = read_list(list)?;
    let configuration = read.with_id(id).ok_or_else(|| refusal(4))?;
    Ok(&list[configuration.public_key.clone()])
}

#[cfg(test)]
pub mod tests {
    use super::*;

    /// 01, "Edges": the list of 43 bytes.
    pub fn edge_list() -> Vec<u8> {
        let mut list = vec![0x00, 0x29, 0x07, 0x00, 0x20];
        list.extend([0x11; 32]);
        list.extend([0x00, 0x04, 0x00, 0x01, 0x00, 0x03]);
        list
    }

    /// A configuration with its length, whatever it holds.
    pub fn configuration(id: u8, kem: u16, npk: usize, pairs: &[u8]) -> Vec<u8> {
        let mut bytes = Vec::new();
        bytes.extend(((5 + npk + pairs.len()) as u16).to_be_bytes());
        bytes.push(id);
        bytes.extend(kem.to_be_bytes());
        bytes.extend(vec![0x22; npk]);
        bytes.extend((pairs.len() as u16).to_be_bytes());
        bytes.extend(pairs);
        bytes
    }

    /// A configuration of that length with an unknown KEM.
    pub fn unknown(id: u8, kem: u16, length: u16) -> Vec<u8> {
        let [high, low] = kem.to_be_bytes();
        with_length(length, &[id, high, low])
    }

    /// A length and as many bytes, those given first.
    pub fn with_length(length: u16, first: &[u8]) -> Vec<u8> {
        let mut inside = first.to_vec();
        inside.resize(usize::from(length), 0x44);
        [&length.to_be_bytes()[..], &inside].concat()
    }

    /// The number and the place of what is wrong with a list; none where it is good.
    pub fn wrong(list: &[u8]) -> Option<(u8, usize)> {
        let refusal = read_list(list).err()?;
        Some((refusal.number, refusal.place.expect("a place")))
    }

    #[test]
    fn the_edge_list() {
        let list = edge_list();
        assert_eq!(list.len(), 43);
        let KeyList {
            configurations: read,
            skipped,
        } = read_list(&list).unwrap();
        assert_eq!((read.len(), skipped), (1, 0));
        assert_eq!((read[0].id, read[0].kem), (7, 0x0020));
        assert_eq!(read[0].public_key, 5..37);
        assert_eq!(read[0].pairs, [Pair { kdf: 1, aead: 3 }]);
    }

    #[test]
    fn the_same_twice() {
        let list = [edge_list(), edge_list()].concat();
        assert_eq!(wrong(&list), Some((21, 45)));
    }

    #[test]
    fn rfc_9458_appendix_a_configuration() {
        let key = "31e1f05a740102115220e9af918f738674aec95f54db6e04eb705aae8e798155";
        // The RFC shows the configuration's 45 bytes without their length.
        let text = format!("002d010020{key}00080001000100010003");
        let list = crate::call::read_bytes(text.as_bytes(), 70_000).unwrap();
        let read = read_list(&list).unwrap().configurations;
        assert_eq!((read[0].id, read[0].kem), (1, 0x0020));
        let pairs = [Pair { kdf: 1, aead: 1 }, Pair { kdf: 1, aead: 3 }];
        assert_eq!(read[0].pairs, pairs);
        assert_eq!(crate::answer::hex(public_key(&list, 1).unwrap()), key);
    }

    #[test]
    fn empty_truncated_and_left_over() {
        let list = edge_list();
        assert_eq!(wrong(&[]), Some((18, 0)));
        for length in 1..43 {
            assert_eq!(wrong(&list[..length]), Some((18, 0)));
        }
        // A length byte alone, then a configuration of 0 bytes.
        for (extra, number) in [(1, 18), (2, 19), (3, 19), (4, 19)] {
            let list = [list.clone(), vec![0; extra]].concat();
            assert_eq!(wrong(&list), Some((number, 43)));
        }
    }

    #[test]
    fn every_length_one_off_is_bad() {
        for off in [0x28, 0x2a] {
            let mut list = edge_list();
            list[1] = off;
            list.push(0);
            assert_eq!(wrong(&list), Some((19, 0)));
        }
    }

    #[test]
    fn pair_lengths() {
        let good = [4, 8, 60, 64];
        for length in 0..=72 {
            let list = configuration(1, 0x0020, 32, &vec![0; length]);
            let expected = if length % 4 == 0 && (4..=64).contains(&length) {
                None
            } else {
                Some((20, 37))
            };
            assert_eq!(wrong(&list), expected);
            assert!(!good.contains(&length) || expected.is_none());
        }
    }

    #[test]
    fn every_kem_has_its_own_key_length() {
        for (kem, npk) in [(16, 65), (17, 97), (18, 133), (32, 32), (33, 56)] {
            assert_eq!(wrong(&configuration(0, kem, npk, &[0; 4])), None);
            // The pair length is read where it stands for that KEM: here 0x0400 and 0x2200.
            let bad = Some((20, 5 + npk));
            assert_eq!(wrong(&configuration(0, kem, npk - 1, &[0; 4])), bad);
            assert_eq!(wrong(&configuration(0, kem, npk + 1, &[0; 4])), bad);
        }
    }

    #[test]
    fn sixteen_are_good_and_a_seventeenth_is_bad() {
        let of = |count: u8| -> Vec<u8> {
            (0..count)
                .flat_map(|id| configuration(id, 0x0020, 32, &[0; 4]))
                .collect()
        };
        assert_eq!(read_list(&of(16)).unwrap().configurations.len(), 16);
        assert_eq!(wrong(&of(17)), Some((22, 16 * 43)));
    }

    #[test]
    fn the_first_bad_configuration_counts() {
        let good = configuration(1, 0x0020, 32, &[0; 4]);
        let bad = configuration(2, 0x0020, 32, &[0; 5]);
        let skipped = unknown(2, 0x0022, 9);
        let list = [good.clone(), bad.clone(), good.clone()].concat();
        assert_eq!(wrong(&list), Some((20, 43 + 37)));
        let list = [good.clone(), good.clone(), bad.clone()].concat();
        assert_eq!(wrong(&list), Some((21, 43 + 2)));
        let list = [good.clone(), skipped.clone(), good, bad.clone()].concat();
        assert_eq!(wrong(&list), Some((21, 43 + 11 + 2)));
        let list = [skipped.clone(), bad, skipped].concat();
        assert_eq!(wrong(&list), Some((20, 11 + 37)));
    }

    #[test]
    fn the_key_reader_refuses_in_order() {
        let list = edge_list();
        assert_eq!(public_key(&list, 7), Ok(&[0x11; 32][..]));
        assert_eq!(public_key(&list, 8), Err(refusal(4)));
        assert_eq!(public_key(&list[..42], 8), Err(refusal_at(18, 0)));
    }

    /// Ids and where their public keys start, and how many were skipped.
    fn read(list: &[u8]) -> (Vec<(u8, usize)>, usize) {
        let read = read_list(list).unwrap();
        let configurations = read.configurations.iter();
        let keys = configurations.map(|c| (c.id, c.public_key.start));
        (keys.collect(), read.skipped)
    }

    #[test]
    fn skipped_at_every_place() {
        let (one, other) = (configuration(1, 32, 32, &[0; 4]), edge_list());
        let skipped = unknown(9, 0x0030, 20);
        let list = [&skipped[..], &one, &other].concat();
        assert_eq!(read(&list), (vec![(1, 27), (7, 70)], 1));
        let list = [&one[..], &skipped, &other].concat();
        assert_eq!(read(&list), (vec![(1, 5), (7, 70)], 1));
        let list = [&one[..], &other, &skipped].concat();
        assert_eq!(read(&list), (vec![(1, 5), (7, 48)], 1));
        let list = [&skipped[..], &one, &skipped, &skipped, &other, &skipped].concat();
        assert_eq!(read(&list), (vec![(1, 27), (7, 114)], 4));
    }

    /// "of at least 3 bytes"
    #[test]
    fn three_bytes_are_enough() {
        assert_eq!(read(&[0, 3, 9, 0, 0x22]), (vec![], 1));
        let three = unknown(9, 0x0022, 3);
        let list = [&three[..], &edge_list(), &three].concat();
        assert_eq!(read(&list), (vec![(7, 10)], 2));
    }

    #[test]
    fn below_three_bytes_is_bad() {
        let good = edge_list();
        for length in 0..3 {
            let short = with_length(length, &[9, 0, 0x22]);
            let short = &short[..2 + usize::from(length)];
            assert_eq!(wrong(short), Some((19, 0)));
            // Not even where a KEM could be made up from what follows.
            for next in [0x22, 0x20, 0xff] {
                assert_eq!(wrong(&[short, &[next; 90]].concat()), Some((19, 0)));
            }
            assert_eq!(wrong(&[short, &good].concat()), Some((19, 0)));
            assert_eq!(wrong(&[&good[..], short].concat()), Some((19, 43)));
            let list = [&unknown(9, 0x22, 3), short, &good].concat();
            assert_eq!(wrong(&list), Some((19, 5)));
        }
    }

    /// "that lies whole in the list"
    #[test]
    fn a_cut_one_is_bad() {
        let (good, skipped) = (edge_list(), unknown(9, 0x0022, 40));
        let list = [&good[..], &skipped].concat();
        assert_eq!(wrong(&list[..43]), None);
        for length in 44..list.len() {
            assert_eq!(wrong(&list[..length]), Some((18, 43)));
        }
        assert_eq!(wrong(&list), None);
        for length in 1..skipped.len() {
            assert_eq!(wrong(&skipped[..length]), Some((18, 0)));
        }
    }

    #[test]
    fn a_length_that_takes_more_than_its_own() {
        let good = edge_list();
        for (length, expected) in [
            (3, Ok((vec![(7, 10)], 1))),
            // One byte of the next, or the next whole, which is then inside.
            (4, Err(Some((18, 6)))),
            (3 + 43, Ok((vec![], 1))),
            (3 + 44, Err(Some((18, 0)))),
            (u16::MAX, Err(Some((18, 0)))),
        ] {
            let mut list = [&[0, 0, 9, 0, 0x22][..], &good].concat();
            list[..2].copy_from_slice(&length.to_be_bytes());
            match expected {
                Ok(expected) => assert_eq!(read(&list), expected),
                Err(expected) => assert_eq!(wrong(&list), expected),
            }
        }
    }

    /// "its key id not counted as taken"
    #[test]
    fn the_id_of_a_skipped_one_is_free() {
        let (good, twin) = (edge_list(), unknown(7, 0x0022, 41));
        assert_eq!(read(&[&good[..], &twin].concat()), (vec![(7, 5)], 1));
        assert_eq!(read(&[&twin[..], &good].concat()), (vec![(7, 48)], 1));
        let list = [&twin[..], &twin, &good, &twin].concat();
        assert_eq!(read(&list), (vec![(7, 91)], 3));
        // Those that are read take theirs, whatever is skipped between them.
        let list = [&good[..], &twin, &good].concat();
        assert_eq!(wrong(&list), Some((21, 86 + 2)));
        let list = [&twin[..], &good, &unknown(8, 0x0022, 3), &good].concat();
        assert_eq!(wrong(&list), Some((21, 91 + 2)));
    }

    /// "It counts towards the sixteen."
    #[test]
    fn sixteen_with_skipped_ones() {
        let of = |skipped: &[u8], count: u8| -> Vec<u8> {
            let one = |id| match skipped.contains(&id) {
                true => unknown(id, 0x0022, 41),
                false => configuration(id, 0x0020, 32, &[0; 4]),
            };
            (0..count).flat_map(one).collect()
        };
        let all: Vec<u8> = (0..17).collect();
        let places = [
            &all[..],
            &all[..16],
            &all[16..],
            &all[15..],
            &[0],
            &[2, 3, 16],
        ];
        for (skipped, in_sixteen) in places.into_iter().zip([16, 16, 0, 1, 1, 2]) {
            let sixteen = of(skipped, 16);
            let read = read_list(&sixteen).unwrap();
            assert_eq!((read.count(), read.skipped), (16, in_sixteen));
            assert_eq!(wrong(&of(skipped, 17)), Some((22, 16 * 43)));
            // Whatever stands in the seventeenth place is bad there.
            for more in [&[0][..], &[0, 3], &[0, 3, 9, 0, 0x22], &[0, 0]] {
                let list = [&sixteen, more].concat();
                assert_eq!(wrong(&list), Some((22, 16 * 43)));
            }
        }
    }

    #[test]
    fn all_are_skipped() {
        for count in 1..=16 {
            let list = unknown(7, 0x0022, 10).repeat(count);
            assert_eq!(read(&list), (vec![], count));
            assert_eq!(public_key(&list, 7), Err(refusal(4)));
        }
    }

    /// "its inside unread"
    #[test]
    fn the_inside_of_a_skipped_one() {
        let good = edge_list();
        let insides = [
            vec![0; 300],
            vec![0xff; 300],
            // The edge list's configuration but for its KEM, whole and with a fault.
            good[5..].to_vec(),
            good[5..42].to_vec(),
            [&good[5..37], &[0, 5, 0, 1, 0, 3, 0]].concat(),
            // Configurations that can be read, with an id that is taken, and one that is bad.
            good.clone(),
            [&good[..], &good].concat(),
            good[..20].to_vec(),
            unknown(7, 0x0022, 3),
            vec![0, 2, 0, 0],
        ];
        for inside in insides {
            let mut skipped = ((3 + inside.len()) as u16).to_be_bytes().to_vec();
            skipped.extend([7, 0, 0x22]);
            skipped.extend(inside);
            let size = skipped.len();
            assert_eq!(read(&skipped), (vec![], 1));
            let list = [&skipped[..], &good, &skipped].concat();
            assert_eq!(read(&list), (vec![(7, size + 5)], 2));
        }
    }

    #[test]
    fn the_largest_length() {
        let (longest, good) = (unknown(7, 0x0022, u16::MAX), edge_list());
        assert_eq!(longest.len(), 65_537);
        assert_eq!(read(&longest), (vec![], 1));
        assert_eq!(wrong(&longest[..65_536]), Some((18, 0)));
        let list = [&longest[..], &good].concat();
        assert_eq!(read(&list), (vec![(7, 65_542)], 1));
        assert_eq!(wrong(&list[..list.len() - 1]), Some((18, 65_537)));
        let list = [&good[..], &longest].concat();
        assert_eq!(read(&list), (vec![(7, 5)], 1));
        assert_eq!(wrong(&list[..list.len() - 1]), Some((18, 43)));
        // Sixteen of them, and one more.
        assert_eq!(read(&longest.repeat(16)), (vec![], 16));
        assert_eq!(wrong(&longest.repeat(17)), Some((22, 16 * 65_537)));
        // That of a known KEM is bad: here its pair length is 0x4444, and there 4.
        let mut known = unknown(7, 0x0020, u16::MAX);
        assert_eq!(wrong(&known), Some((20, 37)));
        known[37..39].copy_from_slice(&[0, 4]);
        assert_eq!(wrong(&known), Some((19, 0)));
        assert_eq!(wrong(&[&longest[..], &known].concat()), Some((19, 65_537)));
    }

    #[test]
    fn exactly_unknown_kems_are_skipped() {
        let good = edge_list();
        for kem in 0..=u16::MAX {
            let known = [0x10, 0x11, 0x12, 0x20, 0x21].contains(&kem);
            let mut list = [good.clone(), good.clone()].concat();
            list[45] = 8;
            list[46..48].copy_from_slice(&kem.to_be_bytes());
            match kem {
                0x20 => assert_eq!(read(&list), (vec![(7, 5), (8, 48)], 0)),
                // Of 41 bytes, which is none of the other known ones.
                _ if known => assert_eq!(wrong(&list), Some((19, 43))),
                _ => assert_eq!(read(&list), (vec![(7, 5)], 1)),
            }
            let expected = if known { Some((19, 0)) } else { None };
            assert_eq!(wrong(&unknown(7, kem, 3)), expected);
        }
    }

    #[test]
    fn the_key_reader_and_skipped_ones() {
        let good = edge_list();
        let list = [unknown(8, 0x22, 41), good.clone(), unknown(9, 0x22, 3)].concat();
        assert_eq!(public_key(&list, 7), Ok(&[0x11; 32][..]));
        for id in [8, 9, 10] {
            assert_eq!(public_key(&list, id), Err(refusal(4)));
        }
        // Another one may have that id.
        let list = [unknown(7, 0x22, 41), good, unknown(7, 0x22, 3)].concat();
        assert_eq!(public_key(&list, 7), Ok(&[0x11; 32][..]));
        let cut = &list[..list.len() - 1];
        for id in [7, 8] {
            assert_eq!(public_key(cut, id), Err(refusal_at(18, 86)));
        }
    }
}
