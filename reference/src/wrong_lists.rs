//! What is wrong with a list (02, A2): each number at its bounds, with its place, its turn among
//! the others, and in each place of a list.

use crate::book::Book;
use crate::client::choose;
use crate::gateway::Gateway;
use crate::keeper::Keeper;
use crate::key_list::public_key;
use crate::key_list::tests::{configuration, edge_list, unknown, with_length, wrong};
use crate::refusal::refusal_at;

/// Each KEM and its Npk.
const KEMS: [(u16, usize); 5] = [
    (0x0010, 65),
    (0x0011, 97),
    (0x0012, 133),
    (0x0020, 32),
    (0x0021, 56),
];

/// A configuration of L bytes that says it has S bytes of pairs.
fn of(id: u8, kem: u16, npk: usize, length: usize, pairs_length: usize) -> Vec<u8> {
    let mut inside = configuration(id, kem, npk, &[])[2..3 + 2 + npk].to_vec();
    inside.extend((pairs_length as u16).to_be_bytes());
    with_length(length as u16, &inside[..length.min(inside.len())])
}

/// One that is good.
fn good(id: u8) -> Vec<u8> {
    configuration(id, 0x0020, 32, &[0; 4])
}

/// What may stand in front of a bad one, and the bytes that it has.
fn fronts() -> Vec<(Vec<u8>, usize)> {
    let (long, skipped) = (configuration(100, 0x12, 133, &[0; 64]), unknown(7, 0x22, 3));
    vec![
        (vec![], 0),
        (good(101), 43),
        ([good(101), good(102)].concat(), 86),
        (long.clone(), 204),
        (skipped.clone(), 5),
        ([&skipped[..], &long, &skipped].concat(), 214),
    ]
}

/// A bad configuration, in first place and in others: its number and the place, counted from where
/// it starts.
fn assert_wrong(bad: &[u8], number: u8, place: usize) {
    for (front, start) in fronts() {
        assert_eq!(front.len(), start);
        let list = [&front[..], bad].concat();
        assert_eq!(wrong(&list), Some((number, start + place)), "{bad:?}");
    }
}

/// The same, and with others behind it too.
fn assert_wrong_before_others(bad: &[u8], number: u8, place: usize) {
    assert_wrong(bad, number, place);
    for behind in [good(1), unknown(1, 0x22, 3), vec![0], vec![0, 0]] {
        assert_wrong(&[bad, &behind].concat(), number, place);
    }
}

#[test]
fn the_list_ends_before_the_configuration() {
    assert_eq!(wrong(&[]), Some((18, 0)));
    for length_byte in 0..=255 {
        assert_wrong(&[length_byte], 18, 0);
    }
    for bytes in [&[0, 1][..], &[1, 0], &[0, 2, 7], &[0xff, 0xff], &[0xff; 40]] {
        assert_wrong(bytes, 18, 0);
    }
    for (kem, npk) in KEMS {
        let whole = configuration(7, kem, npk, &[0; 8]);
        for length in 1..whole.len() {
            assert_wrong(&whole[..length], 18, 0);
        }
        // L past the end by one; with that byte there it is not.
        let mut longer = whole.clone();
        longer[1] += 1;
        assert_wrong(&longer, 18, 0);
        longer.push(0);
        assert_wrong(&longer, 19, 0);
    }
}

/// 18 before all but 22.
#[test]
fn what_is_cut_is_not_judged() {
    for bad in [
        // too short for a KEM, for its key, for its pair length
        of(7, 0x20, 32, 2, 4),
        of(7, 0x20, 32, 20, 4),
        of(7, 0x20, 32, 36, 4),
        // bad pair bytes; an L that disagrees; a key id twice; an unknown KEM
        of(7, 0x20, 32, 41, 6),
        of(7, 0x20, 32, 41, 8),
        unknown(7, 0x22, 3),
    ] {
        assert_wrong(&bad[..bad.len() - 1], 18, 0);
    }
    let twice = [good(7), good(7)].concat();
    assert_eq!(wrong(&twice[..85]), Some((18, 43)));
}

#[test]
fn below_three_bytes() {
    for bad in [&[0, 0][..], &[0, 1, 7], &[0, 2, 7, 0]] {
        assert_wrong_before_others(bad, 19, 0);
        // Whatever KEM could be made up from what follows.
        for next in [[0x00, 0x20], [0x20, 0x00], [0x00, 0x22], [0x22, 0x22]] {
            assert_wrong_before_others(&[bad, &next].concat(), 19, 0);
        }
    }
}

#[test]
fn it_ends_before_its_pair_length() {
    for (kem, npk) in KEMS {
        for length in 3..3 + npk + 2 {
            // Whatever the pair length would say.
            for pairs_length in [0, 4, 6, 68, 0x0404] {
                let bad = of(7, kem, npk, length, pairs_length);
                assert_wrong(&bad, 19, 0);
            }
        }
        for length in [3, 2 + npk, 3 + npk, 4 + npk] {
            let bad = of(7, kem, npk, length, 4);
            assert_wrong_before_others(&bad, 19, 0);
            // The bytes behind it are not its pair length.
            for next in [[0, 0], [4, 0], [0, 4], [0, 5], [5, 5]] {
                assert_wrong(&[&bad[..], &next].concat(), 19, 0);
            }
        }
    }
}

/// With its last byte the pair length can be read.
#[test]
fn it_ends_behind_its_pair_length() {
    for (kem, npk) in KEMS {
        let ends = |pairs_length| of(7, kem, npk, 5 + npk, pairs_length);
        for pairs_length in [0, 1, 2, 3, 5, 66, 68, 256, 65_535] {
            assert_wrong_before_others(&ends(pairs_length), 20, 5 + npk);
        }
        for pairs_length in [4, 8, 64] {
            assert_wrong_before_others(&ends(pairs_length), 19, 0);
        }
    }
}

/// Every S from 0 to 80, and others, with every L about it: 20 where S is bad, whatever L is; 19
/// where it is not and L is another; else good.
#[test]
fn pair_bytes_and_length() {
    let large = [252, 255, 256, 257, 260, 320, 1_024, 1_028, 16_388];
    for (kem, npk) in [(0x0012, 133), (0x0020, 32)] {
        for pairs_length in (0..=80).chain(large) {
            let right = 5 + npk + pairs_length;
            for length in (5 + npk..5 + npk + 90).chain([right - 1, right, right + 1]) {
                if length < 5 + npk {
                    continue;
                }
                let one = of(7, kem, npk, length, pairs_length);
                let multiple = [4, 8, 12, 16, 20, 24, 28, 32, 36, 40, 44, 48, 52, 56, 60, 64];
                let expected = if !multiple.contains(&pairs_length) {
                    Some((20, 5 + npk))
                } else if length != right {
                    Some((19, 0))
                } else {
                    None
                };
                assert_eq!(wrong(&one), expected, "{length} {pairs_length}");
                let expected = expected.map(|(number, place)| (number, 43 + place));
                assert_eq!(wrong(&[good(8), one].concat()), expected);
            }
        }
    }
}

#[test]
fn pair_bytes_in_every_place() {
    for (kem, npk) in KEMS {
        for pairs_length in [0, 2, 6, 65, 68, 65_535, 65_532] {
            // L that agrees, where it can, and others.
            for length in [5 + npk, 7 + npk, 9 + npk, 5 + npk + pairs_length % 1_000] {
                let bad = of(7, kem, npk, length, pairs_length);
                assert_wrong_before_others(&bad, 20, 5 + npk);
            }
        }
        for (length, pairs_length) in [(8, 4), (10, 4), (9, 8), (5, 4), (68, 64), (70, 64)] {
            let bad = of(7, kem, npk, length + npk, pairs_length);
            assert_wrong_before_others(&bad, 19, 0);
        }
    }
}

#[test]
fn a_key_id_twice() {
    for id in [0, 1, 7, 99, 255] {
        for (kem, npk) in KEMS {
            let other = configuration(id, kem, npk, &[9; 12]);
            assert_wrong_before_others(&[&other[..], &good(id)].concat(), 21, 7 + npk + 12 + 2);
            let twins = [&good(id)[..], &other].concat();
            assert_wrong_before_others(&twins, 21, 43 + 2);
        }
    }
    // In third place and behind skipped ones; three times: the second counts.
    let skipped = unknown(7, 0x22, 10);
    let list = [good(7), good(8), good(7)].concat();
    assert_wrong_before_others(&list, 21, 86 + 2);
    let list = [good(8), good(7), good(7)].concat();
    assert_wrong_before_others(&list, 21, 86 + 2);
    assert_wrong_before_others(&good(7).repeat(3), 21, 43 + 2);
    let list = [&skipped[..], &good(7), &skipped, &good(7)].concat();
    assert_wrong(&list, 21, 12 + 43 + 12 + 2);
}

/// 20 and 19 before 21.
#[test]
fn a_twin_that_is_bad() {
    let after_good = |bad: &[u8]| wrong(&[&good(7), bad].concat());
    assert_eq!(after_good(&of(7, 0x20, 32, 41, 6)), Some((20, 43 + 37)));
    assert_eq!(after_good(&of(7, 0x20, 32, 43, 6)), Some((20, 43 + 37)));
    assert_eq!(after_good(&of(7, 0x20, 32, 41, 8)), Some((19, 43)));
    assert_eq!(after_good(&of(7, 0x20, 32, 36, 4)), Some((19, 43)));
    assert_eq!(after_good(&of(7, 0x20, 32, 1, 4)), Some((19, 43)));
    assert_eq!(after_good(&of(7, 0x20, 32, 41, 4)), Some((21, 43 + 2)));
    assert_eq!(after_good(&of(8, 0x20, 32, 41, 4)), None);
}

/// 22 before all others: whatever is there behind sixteen, be it a single byte.
#[test]
fn a_seventeenth() {
    let sixteens = [
        (0..16).flat_map(good).collect(),
        unknown(0, 0x22, 3).repeat(16),
        [
            unknown(0, 0x22, 3).repeat(9),
            (0..7).flat_map(good).collect(),
        ]
        .concat(),
        [(0..15).flat_map(good).collect(), unknown(0, 0x22, 9)].concat(),
    ];
    for sixteen in sixteens {
        assert_eq!(wrong(&sixteen), None);
        let expected = Some((22, sixteen.len()));
        for more in [
            vec![0],
            vec![0xff],
            vec![0, 0],
            vec![0, 1, 7],
            vec![0, 9],
            edge_list()[..42].to_vec(),
            good(16),
            good(0),
            unknown(16, 0x22, 3),
            unknown(0, 0x22, 3)[..4].to_vec(),
            of(16, 0x20, 32, 41, 6),
            of(16, 0x20, 32, 41, 8),
            of(16, 0x20, 32, 36, 4),
        ] {
            assert_eq!(wrong(&[&sixteen[..], &more].concat()), expected);
        }
    }
}

/// A sixteenth is judged as any other, and it counts before a seventeenth.
#[test]
fn a_sixteenth() {
    let fifteen: Vec<u8> = (0..15).flat_map(good).collect();
    let after = |bad: &[u8]| wrong(&[&fifteen, bad].concat());
    assert_eq!(after(&[0]), Some((18, 645)));
    for behind in [vec![], good(16), good(0), vec![0]] {
        let after = |bad: Vec<u8>| after(&[bad, behind.clone()].concat());
        assert_eq!(after(vec![0, 0]), Some((19, 645)));
        assert_eq!(after(of(15, 0x20, 32, 41, 8)), Some((19, 645)));
        assert_eq!(after(of(15, 0x20, 32, 41, 6)), Some((20, 645 + 37)));
        assert_eq!(after(good(14)), Some((21, 645 + 2)));
    }
}

/// A skipped one is judged by its length alone.
#[test]
fn a_skipped_one_is_not_judged() {
    for kem in [0, 0x000f, 0x0013, 0x0022, 0x2000, 0xffff] {
        for (length, pairs_length) in [(41, 6), (41, 8), (41, 0), (36, 4), (20, 4), (3, 0)] {
            let skipped = of(7, kem, 32, length, pairs_length);
            assert_eq!(wrong(&skipped), None);
            assert_eq!(wrong(&[&good(7), &skipped[..], &good(8)].concat()), None);
            assert_wrong(&skipped[..2 + length - 1], 18, 0);
        }
        for length in 0..3 {
            assert_wrong_before_others(&of(7, kem, 32, length, 4), 19, 0);
        }
    }
}

/// Places do not end at 16 bits.
#[test]
fn behind_the_largest_configuration() {
    let longest = unknown(7, 0x22, u16::MAX);
    let behind = |bad: &[u8]| wrong(&[&longest[..], bad].concat());
    assert_eq!(behind(&[0]), Some((18, 65_537)));
    assert_eq!(behind(&of(7, 0x20, 32, 41, 8)), Some((19, 65_537)));
    assert_eq!(behind(&of(7, 0x20, 32, 41, 6)), Some((20, 65_574)));
    let twins = [good(7), good(7)].concat();
    assert_eq!(behind(&twins), Some((21, 65_582)));
    assert_eq!(behind(&unknown(7, 0x22, 3).repeat(16)), Some((22, 65_612)));
}

/// "Setup, choose, key reader ... pass these on": each before its own refusals. The list writer has
/// its tests in `list_writer`.
#[test]
fn they_are_passed_on() {
    let lists = [
        (good(7)[..42].to_vec(), refusal_at(18, 0)),
        ([good(7), vec![0, 0]].concat(), refusal_at(19, 43)),
        (
            [good(8), of(7, 0x20, 32, 41, 6)].concat(),
            refusal_at(20, 80),
        ),
        ([good(7), good(7)].concat(), refusal_at(21, 45)),
        ((0..17).flat_map(good).collect(), refusal_at(22, 688)),
    ];
    for (list, refusal) in lists {
        for cap in [0, 1, 1_000_000_001] {
            let (gateway, answer) = Gateway::setup(cap, &list);
            assert_eq!(answer, Err(refusal));
            assert_eq!((gateway.cap, gateway.keys.len()), (1, 0));
            assert_eq!(Book::setup(cap, &list).1, Err(refusal));
        }
        for id in [7, 99] {
            assert_eq!(public_key(&list, id), Err(refusal));
        }
        for pairs in [&[0, 0][..], &[0], &[]] {
            assert_eq!(choose(&list, &[0x20], pairs), Err(refusal));
            assert_eq!(choose(&list, &[], pairs), Err(refusal));
        }
    }
}
