//! Key ids and KEMs of skipped configurations (02, A1). No rule asks for them, since the inside
//! stays unread: the generator puts them into calls, and the table counts such calls.

use crate::algorithms::npk;
use crate::key_list::{inside_at, kem_of, LENGTH_SIZE};

#[derive(Clone, Copy, Debug, PartialEq, Eq)]
pub struct Skipped {
    pub id: u8,
    pub kem: u16,
}

/// The list's skipped configurations in order, as far as it can be stepped through.
pub fn skipped(list: &[u8]) -> Vec<Skipped> {
    let mut all = Vec::new();
    let mut start = 0;
    while let Some(inside) = inside_at(list, start) {
        match kem_of(inside) {
            Some(kem) if npk(kem).is_none() => all.push(Skipped { id: inside[0], kem }),
            _ => {}
        }
        start += LENGTH_SIZE + inside.len();
    }
    all
}

#[cfg(test)]
mod tests {
    use super::*;
    use crate::key_list::tests::{edge_list, unknown};

    #[test]
    fn ids_and_kems() {
        let head = |id, kem| Skipped { id, kem };
        let list = [unknown(7, 0x22, 3), edge_list(), unknown(9, 0xffff, 40)].concat();
        assert_eq!(skipped(&list), [head(7, 0x22), head(9, 0xffff)]);
        // What is bad is no skipped one: a byte too few, or below 3 bytes.
        let cut = &list[..list.len() - 1];
        assert_eq!(skipped(cut), [head(7, 0x22)]);
        assert_eq!(skipped(&[0, 2, 7, 0, 0x22]), []);
        assert_eq!(skipped(&[]), []);
        assert_eq!(skipped(&edge_list()), []);
    }
}
