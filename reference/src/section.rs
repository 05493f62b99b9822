//! Field sections: 02, A3, "Our profile".

use crate::integer::part_at;
use std::ops::Range;

/// What an octet may be; a bit for each.
const NAME: u8 = 1;
const VALUE: u8 = 2;
const BLANK: u8 = 4;

/// The classes of each octet.
const CLASSES: [u8; 256] = classes();

const fn classes() -> [u8; 256] {
    let mut classes = [0; 256];
    let mut octet = 0;
    while octet < 256 {
        classes[octet] = classes_of(octet as u8);
        octet += 1;
    }
    classes
}

const fn classes_of(octet: u8) -> u8 {
    match octet {
        0 | b'\r' | b'\n' => 0,
        b' ' | b'\t' => VALUE | BLANK,
        // RFC 9110, 5.6.2, without the upper-case letters
        b'a'..=b'z' | b'0'..=b'9' => NAME | VALUE,
        b'!' | b'#' | b'$' | b'%' | b'&' | b'\'' | b'*' | b'+' => NAME | VALUE,
        b'-' | b'.' | b'^' | b'_' | b'`' | b'|' | b'~' => NAME | VALUE,
        _ => VALUE,
    }
}

#[inline]
fn is(octet: u8, class: u8) -> bool {
    CLASSES[usize::from(octet)] & class != 0
}

/// Fields that were checked.
#[derive(Clone, Copy, Debug, Default, PartialEq, Eq)]
pub struct Section<'a>(&'a [u8]);

impl<'a> Section<'a> {
    /// Checks the fields that lie in this part of the message; else the place of the first fault.
    pub(crate) fn read(message: &'a [u8], part: Range<usize>) -> Result<Section<'a>, usize> {
        check_fields(&message[..part.end], part.start)?;
        Ok(Section(&message[part]))
    }

    /// Names and values, in order.
    pub fn fields(self) -> FieldReader<'a> {
        FieldReader {
            section: self.0,
            place: 0,
        }
    }
}

/// Walks fields that were checked.
#[derive(Clone, Debug)]
pub struct FieldReader<'a> {
    section: &'a [u8],
    place: usize,
}

impl<'a> Iterator for FieldReader<'a> {
    type Item = (&'a [u8], &'a [u8]);

    #[inline]
    fn next(&mut self) -> Option<Self::Item> {
        let name = part_at(self.section, self.place)?;
        let value = part_at(self.section, name.end)?;
        self.place = value.end;
        Some((&self.section[name], &self.section[value]))
    }
}

/// Checks the fields from a place up to the end, which is the section's.
fn check_fields(bytes: &[u8], mut place: usize) -> Result<(), usize> {
    while place < bytes.len() {
        // "an empty name and a field past its section's end count at that integer's first byte"
        let name = part_at(bytes, place).ok_or(place)?;
        if name.is_empty() {
            return Err(place);
        }
        check_octets(bytes, &name, NAME)?;
        let value = part_at(bytes, name.end).ok_or(name.end)?;
        check_value(bytes, &value)?;
        place = value.end;
    }
    Ok(())
}

/// "no NUL, CR or LF and no space or tab at either end"
fn check_value(bytes: &[u8], value: &Range<usize>) -> Result<(), usize> {
    if value.is_empty() {
        return Ok(());
    }
    let last = value.end - 1;
    if is(bytes[value.start], BLANK) {
        return Err(value.start);
    }
    check_octets(bytes, value, VALUE)?;
    if is(bytes[last], BLANK) {
        return Err(last);
    }
    Ok(())
}

/// The first octet that is not of the class is at fault.
#[inline]
fn check_octets(bytes: &[u8], part: &Range<usize>, class: u8) -> Result<(), usize> {
    let mut octets = bytes[part.clone()].iter();
    match octets.position(|octet| !is(*octet, class)) {
        Some(offset) => Err(part.start + offset),
        None => Ok(()),
    }
}

#[cfg(test)]
mod tests {
    use super::*;

    /// The rule over the whole table.
    #[test]
    fn the_classes_of_every_octet() {
        let token = b"!#$%&'*+-.^_`|~0123456789abcdefghijklmnopqrstuvwxyz";
        for octet in 0..=255 {
            assert_eq!(is(octet, NAME), token.contains(&octet), "{octet}");
            assert_eq!(is(octet, VALUE), !b"\0\r\n".contains(&octet), "{octet}");
            assert_eq!(is(octet, BLANK), b" \t".contains(&octet), "{octet}");
        }
    }

    type Field = (Vec<u8>, Vec<u8>);

    /// A section at place 1, with bytes in front of it and behind it.
    fn read(section: &[u8]) -> Result<Vec<Field>, usize> {
        let message = [b"A", section, b"\0\x01a\0\0\0\0\0\0"].concat();
        let section = Section::read(&message, 1..1 + section.len())?;
        let fields = section.fields();
        Ok(fields.map(|(n, v)| (n.to_vec(), v.to_vec())).collect())
    }

    fn field(name: &[u8], value: &[u8]) -> Field {
        (name.to_vec(), value.to_vec())
    }

    #[test]
    fn fields_in_order() {
        assert_eq!(read(b""), Ok(vec![]));
        assert_eq!(read(b"\x01a\0"), Ok(vec![field(b"a", b"")]));
        let two = vec![field(b"b", b"c d"), field(b"a", b"")];
        assert_eq!(read(b"\x01b\x03c d\x01a\0"), Ok(two));
        let long = vec![field(b"a", b"b")];
        assert_eq!(read(b"\x80\0\0\x01a\xc0\0\0\0\0\0\0\x01b"), Ok(long));
    }

    #[test]
    fn empty_names_and_fields_past_the_end() {
        // The name's length: empty, cut, past the end.
        let faults: [&[u8]; 8] = [
            b"\0",
            b"\0\0",
            b"\x40\0\0",
            b"\x40",
            b"\xc0\0\0\0\0\0\0",
            b"\x01",
            b"\x02a",
            b"\xff\xff\xff\xff\xff\xff\xff\xffa\0",
        ];
        for section in faults {
            assert_eq!(read(section), Err(1), "{section:?}");
            let second = [b"\x01a\0", section].concat();
            assert_eq!(read(&second), Err(4), "{section:?}");
        }
        // The value's length: none, cut, past the end.
        let faults: [&[u8]; 6] = [
            b"\x01a",
            b"\x01a\x40",
            b"\x01a\x80\0\0",
            b"\x01a\x01",
            b"\x01a\x02b",
            b"\x01a\xff\xff\xff\xff\xff\xff\xff\xffb",
        ];
        for section in faults {
            assert_eq!(read(section), Err(3), "{section:?}");
        }
    }

    #[test]
    fn wrong_bytes() {
        let faults: [(&[u8], usize); 16] = [
            (b"\x01A\0", 2),
            (b"\x03aBC\0", 3),
            (b"\x03ab:\0", 4),
            (b"\x01\xe4\0", 2),
            // A name is judged before its value's length is read.
            (b"\x01A", 2),
            (b"\x01A\x05", 2),
            (b"\x01A\x01\0", 2),
            (b"\x01a\x01\0", 4),
            (b"\x01a\x03b\rc", 5),
            (b"\x01a\x02b\n", 5),
            (b"\x01a\x01 ", 4),
            (b"\x01a\x02\tb", 4),
            (b"\x01a\x02b\t", 5),
            (b"\x01a\x03b  ", 6),
            (b"\x01a\x04b\0c ", 5),
            (b"\x01a\x02 \0", 4),
        ];
        for (section, place) in faults {
            assert_eq!(read(section), Err(place), "{section:?}");
        }
    }
}
