//! KEM, KDF and AEAD numbers with their sizes: 01, "Algorithm sizes"; one Nenc changed: 02, A4.

use crate::call::{read_decimal, read_number};
use std::sync::atomic::{AtomicU32, Ordering};

/// "tag 16 for all three"
pub const TAG_LENGTH: usize = 16;
/// "Nn 12 ... for all three"
pub const NN: usize = 12;
/// Key id, KEM, KDF and AEAD stand before enc in a request.
pub const HEAD_LENGTH: usize = 7;

/// Each KEM's number, its Nenc, which is the length of enc, and its Npk, that of a public key.
const KEMS: [(u16, usize, usize); 5] = [
    (0x0010, 65, 65),
    (0x0011, 97, 97),
    (0x0012, 133, 133),
    (0x0020, 32, 32),
    (0x0021, 56, 56),
];

const KDFS: [u16; 3] = [0x0001, 0x0002, 0x0003];

/// Each AEAD's number and its Nk.
const AEADS: [(u16, usize); 3] = [(0x0001, 16), (0x0002, 32), (0x0003, 32)];

/// A KDF and an AEAD that belong together.
#[derive(Clone, Copy, Debug, PartialEq, Eq)]
pub struct Pair {
    pub kdf: u16,
    pub aead: u16,
}

impl Pair {
    /// Both numbers stand in the tables above.
    pub fn is_known(self) -> bool {
        KDFS.contains(&self.kdf) && response_nonce_length(self.aead).is_some()
    }
}

/// "a test build with only one row's Nenc changed": a KEM of the table and its other Nenc, not 0.
#[derive(Clone, Copy, Debug, PartialEq, Eq)]
pub struct NencChange {
    kem: u16,
    nenc: u16,
}

/// The change of this run, as [`NencChange::to_bits`] gives it; 0 for none.
static CHANGE: AtomicU32 = AtomicU32::new(0);

impl NencChange {
    /// Reads `KEM=SIZE`, four hex digits and a decimal from 1 to 65,535; else says what is wrong.
    pub fn read(word: &str) -> Result<NencChange, String> {
        let (kem, size) = word
            .split_once('=')
            .ok_or_else(|| format!("not KEM=SIZE: {word}"))?;
        let number = read_number(kem.as_bytes())
            .ok_or_else(|| format!("a KEM is four lower-case hex digits: {word}"))?;
        if row(number).is_none() {
            return Err(format!("the table has no KEM {kem}: {word}"));
        }
        let size = read_decimal(size.as_bytes()).and_then(|size| u16::try_from(size).ok());
        match size {
            None | Some(0) => Err(format!("a size is a decimal from 1 to 65535: {word}")),
            Some(nenc) => Ok(NencChange { kem: number, nenc }),
        }
    }

    /// Makes the change, for the whole run: to be called before anything is looked up.
    pub fn make(self) {
        CHANGE.store(self.to_bits(), Ordering::Relaxed);
    }

    fn of_run() -> Option<NencChange> {
        NencChange::from_bits(CHANGE.load(Ordering::Relaxed))
    }

    /// The KEM, then Nenc, 16 bits each.
    fn to_bits(self) -> u32 {
        u32::from(self.kem) << 16 | u32::from(self.nenc)
    }

    fn from_bits(bits: u32) -> Option<NencChange> {
        let (kem, nenc) = ((bits >> 16) as u16, bits as u16);
        if nenc == 0 {
            return None;
        }
        Some(NencChange { kem, nenc })
    }
}

/// The numbers of the KEMs.
pub fn kems() -> impl Iterator<Item = u16> {
    KEMS.iter().map(|row| row.0)
}

fn row(kem: u16) -> Option<&'static (u16, usize, usize)> {
    KEMS.iter().find(|row| row.0 == kem)
}

/// Nenc of a known KEM.
pub fn nenc(kem: u16) -> Option<usize> {
    nenc_with(NencChange::of_run(), kem)
}

/// The same with that change.
fn nenc_with(change: Option<NencChange>, kem: u16) -> Option<usize> {
    let row = row(kem)?;
    match change {
        Some(change) if change.kem == kem => Some(change.nenc.into()),
        _ => Some(row.1),
    }
}

/// Npk of a known KEM.
pub fn npk(kem: u16) -> Option<usize> {
    row(kem).map(|row| row.2)
}

/// Head, enc and a ciphertext of the tag alone.
pub fn shortest_request(kem: u16) -> Option<usize> {
    nenc(kem).map(|nenc| HEAD_LENGTH + nenc + TAG_LENGTH)
}

/// "The response nonce has max(Nn, Nk) bytes"; none for an unknown AEAD.
pub fn response_nonce_length(aead: u16) -> Option<usize> {
    let row = AEADS.iter().find(|row| row.0 == aead)?;
    Some(row.1.max(NN))
}

#[cfg(test)]
mod tests {
    use super::*;

    #[test]
    fn the_table_of_kems() {
        let rows = [
            (0x0010, 65, 88),
            (0x0011, 97, 120),
            (0x0012, 133, 156),
            (0x0020, 32, 55),
            (0x0021, 56, 79),
        ];
        for (kem, size, shortest) in rows {
            assert_eq!(nenc(kem), Some(size));
            assert_eq!(npk(kem), Some(size));
            assert_eq!(shortest_request(kem), Some(shortest));
        }
        assert_eq!(kems().collect::<Vec<_>>(), rows.map(|row| row.0));
    }

    /// The changed row has the new Nenc and the old Npk; every other number has what it had, none
    /// where it is unknown. AEADs are looked up without the change.
    #[test]
    fn one_row_with_another_nenc() {
        for changed in kems() {
            for size in [1, 31, 32, 33, 64, 66, 133, 255, 256, 65_535] {
                let change = NencChange {
                    kem: changed,
                    nenc: size,
                };
                for kem in 0..=u16::MAX {
                    let expected = if kem == changed {
                        Some(usize::from(size))
                    } else {
                        npk(kem)
                    };
                    assert_eq!(
                        nenc_with(Some(change), kem),
                        expected,
                        "{change:?} {kem:04x}"
                    );
                }
            }
        }
    }

    #[test]
    fn without_a_change_nenc_is_npk() {
        assert_eq!(NencChange::of_run(), None);
        for kem in 0..=u16::MAX {
            assert_eq!(nenc_with(None, kem), npk(kem));
            assert_eq!(nenc(kem), npk(kem));
        }
    }

    /// Words that name no change.
    const BAD: [&str; 29] = [
        "",
        "=",
        "0020",
        "0020=",
        "=31",
        "0020 31",
        "20=31",
        "00020=31",
        "0x0020=31",
        "002O=31",
        " 0020=31",
        "0020=31 ",
        "0020= 31",
        "0020=+31",
        "0020=-1",
        "0020=0x1f",
        "0020=1f",
        "0020=31=31",
        "0020=31,0010=64",
        "0020=0",
        "0020=65536",
        "0020=65568",
        "0020=18446744073709551617",
        "000f=65",
        "0013=133",
        "001f=32",
        "0022=56",
        "0000=1",
        "ffff=1",
    ];

    #[test]
    fn changes_are_read() {
        for (word, kem, nenc) in [
            ("0020=31", 0x0020, 31),
            ("0010=1", 0x0010, 1),
            ("0021=65535", 0x0021, 65_535),
            ("0012=0134", 0x0012, 134),
            ("0011=97", 0x0011, 97),
        ] {
            let change = NencChange { kem, nenc };
            assert_eq!(NencChange::read(word), Ok(change));
            assert_eq!(NencChange::from_bits(change.to_bits()), Some(change));
        }
        for word in BAD {
            assert!(NencChange::read(word).is_err(), "{word}");
        }
    }

    #[test]
    fn no_other_number_is_known() {
        let kems = (0..=u16::MAX).filter(|kem| nenc(*kem).is_some()).count();
        assert_eq!(kems, 5);
        let aeads: Vec<u16> = (0..=u16::MAX)
            .filter(|aead| response_nonce_length(*aead).is_some())
            .collect();
        assert_eq!(aeads, [1, 2, 3]);
        let kdfs: Vec<u16> = (0..=u16::MAX)
            .filter(|kdf| Pair { kdf: *kdf, aead: 1 }.is_known())
            .collect();
        assert_eq!(kdfs, [1, 2, 3]);
    }

    #[test]
    fn the_nonce_is_as_long_as_the_key() {
        assert_eq!(response_nonce_length(1), Some(16));
        assert_eq!(response_nonce_length(2), Some(32));
        assert_eq!(response_nonce_length(3), Some(32));
        assert_eq!(response_nonce_length(0xffff), None);
    }
}
