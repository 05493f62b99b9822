//! Skipping changes nothing else (02, A1), on lists from a seed: with a skipped configuration put
//! in anywhere, a good list is read into the same configurations and what is wrong with a bad one
//! stays (02, A2), places aside; and so in setup, key reader and choose.

use crate::algorithms::npk;
use crate::client::{choose, Chosen};
use crate::gateway::Gateway;
use crate::keeper::Keeper;
use crate::key_list::tests::unknown;
use crate::key_list::{public_key, read_list, Configuration, MOST_CONFIGURATIONS};
use crate::list_writer::{encode, Fields};
use crate::random::Random;
use crate::refusal::{refusal_at, Refusal};
use std::ops::Range;

const KEMS: [u16; 5] = [0x0010, 0x0011, 0x0012, 0x0020, 0x0021];

/// So many configurations, each with its length.
fn configurations(random: &mut Random, count: usize) -> Vec<Vec<u8>> {
    let first_id = random.byte();
    let one = |place: usize| {
        let kem = random.pick(&KEMS);
        let pairs = 2 * random.between(1, 4);
        encode(&Fields {
            id: first_id.wrapping_add(place as u8),
            kem,
            public_key: random.bytes(npk(kem).unwrap()),
            pairs: (0..pairs).map(|_| random.between(0, 4) as u16).collect(),
        })
    };
    (0..count).map(one).collect()
}

/// Any key id, those of the list among them; 3 bytes, some more or many.
fn skipped(random: &mut Random, list: &[Vec<u8>]) -> Vec<u8> {
    let of_list = list[random.below(list.len())].get(2).copied();
    let id = match of_list {
        Some(id) if random.one_in(2) => id,
        _ => random.byte(),
    };
    let kem = random.pick(&[0, 0x000f, 0x0013, 0x0022, 0x2000, 0x0120, 0xffff]);
    let length = random.pick(&[3, 4, 5, 41, 74, 255, 256, 3_000]);
    unknown(id, kem, length)
}

/// A skipped configuration that is put into a list.
struct Put {
    at: usize,
    size: usize,
}

impl Put {
    /// Where a byte of the list stands then.
    fn moved(&self, place: usize) -> usize {
        if place < self.at {
            place
        } else {
            place + self.size
        }
    }

    fn moved_range(&self, range: Range<usize>) -> Range<usize> {
        self.moved(range.start)..self.moved(range.end - 1) + 1
    }

    fn moved_refusal(&self, refusal: Refusal) -> Refusal {
        Refusal {
            place: refusal.place.map(|place| self.moved(place)),
            ..refusal
        }
    }

    fn moved_configuration(&self, configuration: Configuration) -> Configuration {
        Configuration {
            public_key: self.moved_range(configuration.public_key.clone()),
            ..configuration
        }
    }

    fn moved_chosen(&self, chosen: Chosen) -> Chosen {
        Chosen {
            public_key: self.moved_range(chosen.public_key.clone()),
            ..chosen
        }
    }
}

/// Holds a list with a skipped configuration put in against the list without it.
fn check(without: &[u8], with: &[u8], put: &Put) {
    let expected = read_list(without).map_err(|refusal| put.moved_refusal(refusal));
    match (read_list(with), expected) {
        (Ok(read), Ok(expected)) => {
            let moved = expected.configurations.into_iter();
            let moved: Vec<_> = moved.map(|c| put.moved_configuration(c)).collect();
            assert_eq!(read.configurations, moved);
            assert_eq!(read.skipped, expected.skipped + 1);
        }
        (read, expected) => assert_eq!(read.err(), expected.err()),
    }
    for cap in [0, 1, 77, 1_000_000_001] {
        let ((gateway, answer), (expected, without)) =
            (Gateway::setup(cap, with), Gateway::setup(cap, without));
        assert_eq!(format!("{gateway:?}"), format!("{expected:?}"));
        assert_eq!(
            answer,
            without.map_err(|refusal| put.moved_refusal(refusal))
        );
    }
    for id in 0..=255 {
        let expected = public_key(without, id).map_err(|refusal| put.moved_refusal(refusal));
        assert_eq!(public_key(with, id), expected);
    }
    check_choose(without, with, put);
}

fn check_choose(without: &[u8], with: &[u8], put: &Put) {
    let all_kems = [KEMS.to_vec(), vec![0x0022, 0xffff]].concat();
    let all_pairs = [1, 1, 1, 2, 1, 3, 2, 1, 2, 2, 2, 3, 3, 1, 3, 2, 3, 3];
    let clients = [
        (&all_kems[..], &all_pairs[..]),
        (&all_kems[..2], &all_pairs[4..10]),
        (&all_kems[3..4], &all_pairs[..6]),
        (&all_kems[5..], &all_pairs[..]),
        (&all_kems[..], &all_pairs[..1]),
        (&[], &[]),
    ];
    for (kems, pairs) in clients {
        let expected = choose(without, kems, pairs);
        let expected = expected.map(|chosen| put.moved_chosen(chosen));
        let expected = expected.map_err(|refusal| put.moved_refusal(refusal));
        assert_eq!(choose(with, kems, pairs), expected);
    }
}

/// Puts a skipped configuration in at each place of a list in turn and checks what becomes of it.
fn check_at_each_place(random: &mut Random, list: &[Vec<u8>]) {
    check_at(random, list, 0..list.len() + 1);
}

fn check_at(random: &mut Random, list: &[Vec<u8>], places: Range<usize>) {
    let without = list.concat();
    for place in places {
        let mut with = list.to_vec();
        with.insert(place, skipped(random, list));
        let put = Put {
            at: list[..place].concat().len(),
            size: with[place].len(),
        };
        check(&without, &with.concat(), &put);
    }
}

#[test]
fn good_lists_at_every_place() {
    let mut random = Random::new(1);
    for count in 1..MOST_CONFIGURATIONS {
        for _ in 0..4 {
            let list = configurations(&mut random, count);
            assert_eq!(read_list(&list.concat()).unwrap().skipped, 0);
            check_at_each_place(&mut random, &list);
        }
    }
}

/// One behind the other, up to sixteen in all; the seventeenth configuration is bad then, be it
/// a skipped one or not.
#[test]
fn up_to_sixteen() {
    let mut random = Random::new(2);
    for _ in 0..8 {
        let count = random.between(1, 14);
        let mut list = configurations(&mut random, count);
        while list.len() < MOST_CONFIGURATIONS {
            check_at_each_place(&mut random, &list);
            let place = random.below(list.len() + 1);
            let one = skipped(&mut random, &list);
            list.insert(place, one);
        }
        let read = read_list(&list.concat()).unwrap();
        assert_eq!(read.configurations.len(), count);
        assert_eq!(read.count(), MOST_CONFIGURATIONS);
        for place in 0..=MOST_CONFIGURATIONS {
            let mut with = list.clone();
            with.insert(place, skipped(&mut random, &list));
            let seventeenth = with[..MOST_CONFIGURATIONS].concat().len();
            assert_eq!(read_list(&with.concat()), Err(refusal_at(22, seventeenth)));
        }
    }
}

/// A bad configuration made of a good one, and its number.
fn spoilt(random: &mut Random, good: &[u8]) -> (Vec<u8>, u8) {
    match random.below(6) {
        0 => (vec![0, 0], 19),
        1 => (vec![0, 2, 7, 0], 19),
        // One byte less, and one more, than the pair length says.
        2 => {
            let length = good.len() - 3;
            let head = (length as u16).to_be_bytes();
            ([&head, &good[2..2 + length]].concat(), 19)
        }
        3 => {
            let head = ((good.len() - 1) as u16).to_be_bytes();
            ([&head, &good[2..], &[0]].concat(), 19)
        }
        // Bad pair bytes, with their length or without.
        4 => {
            let mut bad = good.to_vec();
            let kem = u16::from_be_bytes([good[3], good[4]]);
            bad[6 + npk(kem).unwrap()] = random.pick(&[0, 1, 66, 68]);
            (bad, 20)
        }
        _ => {
            let mut bad = good.to_vec();
            let kem = u16::from_be_bytes([good[3], good[4]]);
            bad[1] += 2;
            bad[6 + npk(kem).unwrap()] += 2;
            ([bad, vec![0, 0]].concat(), 20)
        }
    }
}

/// The first bad configuration counts as it did.
#[test]
fn bad_lists_at_every_place() {
    let mut random = Random::new(3);
    for _ in 0..40 {
        let count = random.between(1, 6);
        let mut list = configurations(&mut random, count);
        let place = random.below(count);
        let good = list[place].clone();
        let number = if random.one_in(4) {
            list.push(good);
            21
        } else {
            let (bad, number) = spoilt(&mut random, &good);
            list[place] = bad;
            number
        };
        let refusal = read_list(&list.concat()).unwrap_err();
        assert_eq!(refusal.number, number);
        check_at_each_place(&mut random, &list);
    }
}

/// What is put behind a cut one would be taken for its end, so these stand in front.
#[test]
fn cut_lists_at_every_place() {
    let mut random = Random::new(4);
    for _ in 0..20 {
        let count = random.between(1, 6);
        let mut list = configurations(&mut random, count);
        let last = list.last_mut().unwrap();
        let length = random.between(1, last.len() - 1);
        last.truncate(length);
        let start = list[..count - 1].concat().len();
        assert_eq!(read_list(&list.concat()), Err(refusal_at(18, start)));
        check_at(&mut random, &list, 0..count);
    }
}
