//! The list writer: 01, "Client side"; 02, A2.

use crate::algorithms::npk;
use crate::key_list::{pairs_length_is_good, ID_PLACE, KEM_PLACE, KEY_PLACE, MOST_CONFIGURATIONS};
use crate::refusal::{refusal, refusal_at, Refusal};
use crate::request::write_front;

/// A configuration given as fields; `pairs` holds KDF and AEAD by turns.
#[derive(Clone, Debug, PartialEq, Eq)]
pub struct Fields {
    pub id: u8,
    pub kem: u16,
    pub public_key: Vec<u8>,
    pub pairs: Vec<u16>,
}

/// Configurations given field by field: each row holds that field of one after the other. The
/// lengths say how many key bytes and pair numbers belong to each. A KEM or a length that is not
/// there is 0.
#[derive(Clone, Debug, Default, PartialEq, Eq)]
pub struct Rows {
    pub ids: Vec<u8>,
    pub kems: Vec<u16>,
    pub key_lengths: Vec<usize>,
    pub key_bytes: Vec<u8>,
    pub pair_lengths: Vec<usize>,
    pub pair_numbers: Vec<u16>,
}

impl Rows {
    /// Fields in rows, with the lengths that they have.
    pub fn of(configurations: &[Fields]) -> Rows {
        let mut rows = Rows::default();
        for fields in configurations {
            rows.ids.push(fields.id);
            rows.kems.push(fields.kem);
            rows.key_lengths.push(fields.public_key.len());
            rows.key_bytes.extend_from_slice(&fields.public_key);
            rows.pair_lengths.push(fields.pairs.len());
            rows.pair_numbers.extend_from_slice(&fields.pairs);
        }
        rows
    }
}

/// Writes configurations, each with all its fields.
pub fn write_list(configurations: &[Fields], buffer: &mut [u8]) -> Result<usize, Refusal> {
    write_rows(&Rows::of(configurations), buffer)
}

/// The length written. Order: "18 (none given)", then what is wrong with the first bad
/// configuration, then 19 for fields left over, "then 14".
pub fn write_rows(rows: &Rows, buffer: &mut [u8]) -> Result<usize, Refusal> {
    if rows.ids.is_empty() {
        return Err(refusal_at(18, 0));
    }
    let mut list = Vec::new();
    let mut walk = Walk {
        rows,
        place: 0,
        keys: &rows.key_bytes,
        pairs: &rows.pair_numbers,
    };
    while walk.place < rows.ids.len() {
        let fields = walk.next(list.len())?;
        list.extend(encode(&fields));
    }
    if walk.has_left_over() {
        return Err(refusal_at(19, list.len()));
    }
    if buffer.len() < list.len() {
        return Err(refusal(14));
    }
    write_front(buffer, &list);
    Ok(list.len())
}

/// The rows, and what of them is not yet taken.
struct Walk<'a> {
    rows: &'a Rows,
    place: usize,
    keys: &'a [u8],
    pairs: &'a [u16],
}

impl Walk<'_> {
    /// The next configuration, which would start there. Order: "22, 3 (unknown KEM, at the KEM),
    /// 19 (public key of wrong length), 20, 21".
    fn next(&mut self, start: usize) -> Result<Fields, Refusal> {
        let (rows, place) = (self.rows, self.place);
        if place == MOST_CONFIGURATIONS {
            return Err(refusal_at(22, start));
        }
        let kem = rows.kems.get(place).copied().unwrap_or(0);
        let npk = npk(kem).ok_or_else(|| refusal_at(3, start + KEM_PLACE))?;
        let public_key = take(&mut self.keys, rows.key_lengths.get(place))
            .filter(|key| key.len() == npk)
            .ok_or_else(|| refusal_at(19, start))?;
        let pairs = take(&mut self.pairs, rows.pair_lengths.get(place))
            .filter(|pairs| pairs_length_is_good(2 * pairs.len()))
            .ok_or_else(|| refusal_at(20, start + KEY_PLACE + npk))?;
        let id = rows.ids[place];
        if rows.ids[..place].contains(&id) {
            return Err(refusal_at(21, start + ID_PLACE));
        }
        self.place += 1;
        Ok(Fields {
            id,
            kem,
            public_key,
            pairs,
        })
    }

    /// Whether fields are left behind the last configuration.
    fn has_left_over(&self) -> bool {
        let Rows {
            kems,
            key_lengths,
            pair_lengths,
            ..
        } = self.rows;
        let longest = kems.len().max(key_lengths.len()).max(pair_lengths.len());
        longest > self.place || !self.keys.is_empty() || !self.pairs.is_empty()
    }
}

/// So many from the front, which are then gone; none where they are not there.
fn take<T: Copy>(from: &mut &[T], length: Option<&usize>) -> Option<Vec<T>> {
    let length = length.copied().unwrap_or(0);
    let taken = from.get(..length)?.to_vec();
    *from = &from[length..];
    Some(taken)
}

/// A configuration after its length, from fields of any lengths.
pub fn encode(fields: &Fields) -> Vec<u8> {
    let pairs_length = 2 * fields.pairs.len();
    let length = 5 + fields.public_key.len() + pairs_length;
    let mut bytes = Vec::with_capacity(2 + length);
    bytes.extend((length as u16).to_be_bytes());
    bytes.push(fields.id);
    bytes.extend(fields.kem.to_be_bytes());
    bytes.extend_from_slice(&fields.public_key);
    bytes.extend((pairs_length as u16).to_be_bytes());
    for number in &fields.pairs {
        bytes.extend(number.to_be_bytes());
    }
    bytes
}

#[cfg(test)]
mod tests {
    use super::*;
    use crate::key_list::tests::{edge_list, unknown};
    use crate::key_list::{read_list, Configuration};

    fn fields(id: u8, kem: u16, npk: usize, pairs: &[u16]) -> Fields {
        Fields {
            id,
            kem,
            public_key: vec![0x11; npk],
            pairs: pairs.to_vec(),
        }
    }

    fn read_back(list: &[u8], read: Configuration) -> Fields {
        let pairs = read.pairs.iter().flat_map(|pair| [pair.kdf, pair.aead]);
        Fields {
            id: read.id,
            kem: read.kem,
            public_key: list[read.public_key].to_vec(),
            pairs: pairs.collect(),
        }
    }

    fn read_all_back(list: &[u8]) -> Vec<Fields> {
        let configurations = read_list(list).unwrap().configurations.into_iter();
        configurations.map(|read| read_back(list, read)).collect()
    }

    #[test]
    fn reading_gives_them_back() {
        let written = [
            fields(7, 0x0020, 32, &[1, 3]),
            fields(0, 0x0012, 133, &[9, 9, 9, 9, 1, 1]),
            fields(255, 0x0021, 56, &[0; 32]),
        ];
        let mut buffer = [0xa5; 400];
        let length = write_list(&written, &mut buffer).unwrap();
        let list = &buffer[..length];
        assert_eq!(read_all_back(list), written);
        assert!(buffer[length..].iter().all(|byte| *byte == 0xa5));
    }

    #[test]
    fn writing_what_was_read_gives_the_same_bytes() {
        let mut buffer = [0; 43];
        let answer = write_list(&[fields(7, 0x0020, 32, &[1, 3])], &mut buffer);
        assert_eq!(answer, Ok(43));
        assert_eq!(buffer[..], edge_list());
    }

    /// "write-after-read holds for lists without skipped entries only": the others are written
    /// without them.
    #[test]
    fn skipped_ones_are_not_written() {
        let (good, skipped) = (edge_list(), unknown(8, 0x0022, 20));
        let list = [&skipped[..], &good, &skipped].concat();
        let mut buffer = vec![0xa5; list.len()];
        assert_eq!(write_list(&read_all_back(&list), &mut buffer), Ok(43));
        assert_eq!(buffer[..43], good);
        assert!(buffer[43..].iter().all(|byte| *byte == 0xa5));
        // Where all are skipped nothing is given, and no list has no configuration.
        let none = read_all_back(&skipped);
        assert_eq!(write_list(&none, &mut buffer), Err(refusal_at(18, 0)));
    }

    /// "3 (unknown KEM, at the KEM)": whatever it is given with, and before 14.
    #[test]
    fn unknown_kems_are_refused() {
        let good = |id| fields(id, 0x0020, 32, &[1, 3]);
        for npk in [0, 32, 65] {
            let unknown = fields(9, 0x0022, npk, &[1, 3]);
            for place in 0..3 {
                let mut all = vec![good(1), good(2)];
                all.insert(place, unknown.clone());
                for room in [0, 400] {
                    let mut buffer = vec![0xa5; room];
                    let answer = write_list(&all, &mut buffer);
                    assert_eq!(answer, Err(refusal_at(3, 43 * place + 3)));
                    assert!(buffer.iter().all(|byte| *byte == 0xa5));
                }
            }
        }
    }

    /// The refusal's number and place, or the length; a refusal leaves the buffer.
    fn written(configurations: &[Fields], room: usize) -> Result<usize, (u8, Option<usize>)> {
        let mut buffer = vec![0xa5; room];
        let answer = write_list(configurations, &mut buffer);
        assert!(answer.is_ok() || buffer.iter().all(|byte| *byte == 0xa5));
        answer.map_err(|refusal| (refusal.number, refusal.place))
    }

    /// Each rule of the layout broken by a configuration behind the edge list's: its number, and
    /// its place counted from where the configuration would start.
    #[test]
    fn every_rule_of_the_layout() {
        let good = fields(7, 0x0020, 32, &[1, 3]);
        let bad = [
            (fields(8, 0x0022, 32, &[1, 3]), 3, 3),
            (fields(8, 0x0000, 32, &[1, 3]), 3, 3),
            (fields(8, 0x0020, 31, &[1, 3]), 19, 0),
            (fields(8, 0x0020, 33, &[1, 3]), 19, 0),
            (fields(8, 0x0020, 0, &[1, 3]), 19, 0),
            (fields(8, 0x0020, 65, &[1, 3]), 19, 0),
            (fields(8, 0x0020, 32, &[]), 20, 37),
            (fields(8, 0x0020, 32, &[1]), 20, 37),
            (fields(8, 0x0020, 32, &[1, 3, 1]), 20, 37),
            (fields(8, 0x0020, 32, &[1; 33]), 20, 37),
            (fields(8, 0x0020, 32, &[1; 34]), 20, 37),
            (fields(7, 0x0020, 32, &[1, 3]), 21, 2),
            (fields(7, 0x0021, 56, &[1; 32]), 21, 2),
        ];
        for (second, number, place) in bad {
            let both = [good.clone(), second];
            for room in [0, 86, 400] {
                assert_eq!(written(&both, room), Err((number, Some(43 + place))));
            }
        }
        assert_eq!(written(&[], 0), Err((18, Some(0))));
        assert_eq!(written(&[], 400), Err((18, Some(0))));
        let good = [good];
        assert_eq!(written(&good, 42), Err((14, None)));
        assert_eq!(written(&good, 43), Ok(43));
        assert_eq!(written(&[fields(8, 0x20, 32, &[1; 32])], 103), Ok(103));
    }

    /// The public key's length of each KEM, in front and behind each other one.
    #[test]
    fn every_kem_has_its_own_places() {
        for (kem, npk) in [(16, 65), (17, 97), (18, 133), (32, 32), (33, 56)] {
            for (other, other_npk) in [(16, 65), (17, 97), (18, 133), (32, 32), (33, 56)] {
                let first = fields(1, other, other_npk, &[1; 6]);
                let start = 7 + other_npk + 12;
                let refused = |second: Fields| written(&[first.clone(), second], 0);
                let at = |number, place| Err((number, Some(start + place)));
                assert_eq!(refused(fields(2, kem, npk - 1, &[1, 1])), at(19, 0));
                assert_eq!(refused(fields(2, kem, npk + 1, &[1, 1])), at(19, 0));
                assert_eq!(refused(fields(2, kem, npk, &[1; 3])), at(20, 5 + npk));
                assert_eq!(refused(fields(1, kem, npk, &[1; 2])), at(21, 2));
                assert_eq!(refused(fields(2, kem + 64, npk, &[1; 2])), at(3, 3));
                assert_eq!(refused(fields(2, kem, npk, &[1, 1])), Err((14, None)));
            }
        }
    }

    /// Each two rules broken by one configuration, the first in order counts: "22, 3, 19, 20, 21,
    /// then 14".
    #[test]
    fn two_rules_at_once() {
        let spoil = |number: u8, fields: &mut Fields| match number {
            3 => fields.kem = 0x0022,
            19 => fields.public_key.truncate(31),
            20 => fields.pairs.truncate(1),
            21 => fields.id = 0,
            _ => {}
        };
        let places = [(22, 0), (3, 3), (19, 0), (20, 37), (21, 2)];
        for (place, (number, offset)) in places.into_iter().enumerate() {
            for (other, _) in &places[place..] {
                // What is bad as a seventeenth is 22, whatever else it is.
                let before = if number == 22 { 16 } else { 3 };
                let mut all: Vec<Fields> =
                    (0..before).map(|id| fields(id, 32, 32, &[1, 1])).collect();
                let mut bad = fields(99, 32, 32, &[1, 1]);
                spoil(number, &mut bad);
                spoil(*other, &mut bad);
                all.push(bad);
                let start = 43 * usize::from(before);
                for room in [0, 4_096] {
                    let expected = Err((number, Some(start + offset)));
                    assert_eq!(written(&all, room), expected, "{number} {other}");
                }
            }
        }
    }

    /// "so the first bad one counts", whatever the rule that a later one breaks.
    #[test]
    fn the_first_bad_one_counts() {
        let good = |id| fields(id, 32, 32, &[1, 1]);
        let bad = [
            (fields(8, 34, 32, &[1, 1]), 3, 3),
            (fields(8, 32, 31, &[1, 1]), 19, 0),
            (fields(8, 32, 32, &[1]), 20, 37),
            (good(7), 21, 2),
        ];
        for (first, number, place) in &bad {
            for (later, _, _) in &bad {
                let all = [good(7), good(6), first.clone(), good(5), later.clone()];
                assert_eq!(written(&all, 0), Err((*number, Some(86 + place))));
            }
            // A sixteenth counts before the seventeenth.
            let mut all: Vec<Fields> = (20..34).map(good).collect();
            all.insert(0, good(7));
            all.extend([first.clone(), good(99)]);
            assert_eq!(all.len(), 17);
            assert_eq!(written(&all, 0), Err((*number, Some(15 * 43 + place))));
        }
    }

    #[test]
    fn a_seventeenth_is_bad() {
        let mut all: Vec<Fields> = (0..17).map(|id| fields(id, 32, 32, &[1, 1])).collect();
        assert_eq!(write_list(&all, &mut []), Err(refusal_at(22, 16 * 43)));
        all.pop();
        let mut buffer = vec![0xa5; 16 * 43];
        assert_eq!(write_list(&all, &mut buffer[1..]), Err(refusal(14)));
        assert!(buffer.iter().all(|byte| *byte == 0xa5));
        assert_eq!(write_list(&all, &mut buffer), Ok(16 * 43));
    }

    /// Two configurations in rows: 43 and 76 bytes.
    fn two_rows() -> Rows {
        Rows::of(&[
            fields(7, 0x0020, 32, &[1, 3]),
            fields(8, 0x0010, 65, &[1, 1]),
        ])
    }

    fn refused(rows: &Rows) -> (u8, usize) {
        let mut buffer = [0xa5; 200];
        let refusal = write_rows(rows, &mut buffer).unwrap_err();
        assert_eq!(buffer, [0xa5; 200]);
        assert_eq!(write_rows(rows, &mut []), Err(refusal));
        (refusal.number, refusal.place.unwrap())
    }

    #[test]
    fn rows_are_taken_in_order() {
        let mut buffer = [0xa5; 120];
        assert_eq!(write_rows(&two_rows(), &mut buffer), Ok(119));
        assert_eq!(buffer[..43], edge_list());
        assert_eq!(buffer[43..48], [0, 0x4a, 8, 0, 0x10]);
        assert_eq!(buffer[119], 0xa5);
        let mut rows = two_rows();
        rows.key_bytes = (0..97).collect();
        rows.pair_numbers = vec![1, 2, 3, 4];
        assert_eq!(write_rows(&rows, &mut buffer), Ok(119));
        assert!(buffer[5..37].iter().copied().eq(0..32));
        assert!(buffer[48..113].iter().copied().eq(32..97));
        assert_eq!(buffer[37..43], [0, 4, 0, 1, 0, 2]);
        assert_eq!(buffer[113..119], [0, 4, 0, 3, 0, 4]);
    }

    /// "Fields left over are 19 where one more configuration would start".
    #[test]
    fn fields_left_over() {
        let spoil: [fn(&mut Rows); 6] = [
            |rows| rows.kems.push(0x0020),
            |rows| rows.key_lengths.push(0),
            |rows| rows.key_bytes.push(0),
            |rows| rows.pair_lengths.push(0),
            |rows| rows.pair_numbers.push(0),
            |rows| rows.pair_numbers.extend([1, 3]),
        ];
        for spoil in spoil {
            let mut rows = two_rows();
            spoil(&mut rows);
            assert_eq!(refused(&rows), (19, 119));
            // Behind sixteen, too: no seventeenth is given.
            let sixteen: Vec<Fields> = (0..16).map(|id| fields(id, 32, 32, &[1, 1])).collect();
            let mut rows = Rows::of(&sixteen);
            spoil(&mut rows);
            assert_eq!(refused(&rows), (19, 688));
            // What is wrong with a configuration counts before.
            let mut rows = two_rows();
            spoil(&mut rows);
            rows.ids[1] = 7;
            assert_eq!(refused(&rows), (21, 45));
            // Where no key id is given, all are left over: none is given.
            rows.ids.clear();
            assert_eq!(refused(&rows), (18, 0));
        }
        // An id taken away leaves a whole configuration over.
        let mut rows = two_rows();
        rows.ids.pop();
        assert_eq!(refused(&rows), (19, 43));
    }

    /// "key bytes that are not there are 19, pair numbers that are not there 20"
    #[test]
    fn fields_that_are_not_there() {
        let spoilt = |spoil: fn(&mut Rows)| {
            let mut rows = two_rows();
            spoil(&mut rows);
            refused(&rows)
        };
        assert_eq!(spoilt(|rows| rows.key_bytes.truncate(96)), (19, 43));
        assert_eq!(spoilt(|rows| rows.key_bytes.truncate(32)), (19, 43));
        assert_eq!(spoilt(|rows| rows.key_bytes.truncate(31)), (19, 0));
        assert_eq!(spoilt(|rows| rows.key_bytes.clear()), (19, 0));
        assert_eq!(spoilt(|rows| rows.pair_numbers.truncate(3)), (20, 113));
        assert_eq!(spoilt(|rows| rows.pair_numbers.truncate(2)), (20, 113));
        assert_eq!(spoilt(|rows| rows.pair_numbers.truncate(1)), (20, 37));
        assert_eq!(spoilt(|rows| rows.pair_numbers.clear()), (20, 37));
        // KEMs and lengths that are not there are 0.
        assert_eq!(spoilt(|rows| rows.kems.truncate(1)), (3, 46));
        assert_eq!(spoilt(|rows| rows.kems.clear()), (3, 3));
        assert_eq!(spoilt(|rows| rows.key_lengths.truncate(1)), (19, 43));
        assert_eq!(spoilt(|rows| rows.pair_lengths.truncate(1)), (20, 113));
        assert_eq!(spoilt(|rows| rows.pair_lengths.clear()), (20, 37));
        // A key id more than there are other fields.
        assert_eq!(spoilt(|rows| rows.ids.push(9)), (3, 119 + 3));
    }

    /// What a length announces decides, and not what is there.
    #[test]
    fn lengths_that_announce_other_than_is_there() {
        let spoilt = |key: usize, pairs: usize| {
            let mut rows = two_rows();
            rows.key_lengths[0] = key;
            rows.pair_lengths[0] = pairs;
            refused(&rows)
        };
        for key in [0, 31, 33, 97, 98, usize::MAX] {
            assert_eq!(spoilt(key, 2), (19, 0));
        }
        for pairs in [0, 1, 3, 5, 6, 32, 34, usize::MAX, usize::MAX / 2 + 1] {
            assert_eq!(spoilt(32, pairs), (20, 37));
        }
        // The first takes the second's pair numbers, which are then not there.
        assert_eq!(spoilt(32, 4), (20, 47 + 70));
    }
}
