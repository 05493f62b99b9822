//! The known-length request of RFC 9292: 02, A3.

use crate::integer::{integer_at, part_at};
use crate::section::Section;

/// A request's parts, lent from the message. What is missing at the end is empty.
#[derive(Clone, Copy, Debug, Default, PartialEq, Eq)]
pub struct Message<'a> {
    pub method: &'a [u8],
    pub scheme: &'a [u8],
    pub authority: &'a [u8],
    pub path: &'a [u8],
    pub headers: Section<'a>,
    pub content: &'a [u8],
    pub trailers: Section<'a>,
    /// How many bytes.
    pub padding: usize,
}

/// Reads a request; else "the offset of its first wrong byte, or the message length where bytes
/// are missing".
pub fn read_message(message: &[u8]) -> Result<Message<'_>, usize> {
    let mut reader = Reader { message, place: 0 };
    reader.framing()?;
    let mut read = Message {
        method: reader.part()?,
        scheme: reader.part()?,
        authority: reader.part()?,
        path: reader.part()?,
        ..Message::default()
    };
    // The message may end behind each of these.
    if !reader.is_at_end() {
        read.headers = reader.section()?;
    }
    if !reader.is_at_end() {
        read.content = reader.part()?;
    }
    if !reader.is_at_end() {
        read.trailers = reader.section()?;
    }
    read.padding = reader.padding()?;
    Ok(read)
}

/// The message and the place up to which it is read. Faults are places.
struct Reader<'a> {
    message: &'a [u8],
    place: usize,
}

impl<'a> Reader<'a> {
    fn is_at_end(&self) -> bool {
        self.place == self.message.len()
    }

    /// "A bad framing ... count[s] at that integer's first byte"
    fn framing(&mut self) -> Result<(), usize> {
        let (framing, behind) = integer_at(self.message, self.place).ok_or(self.message.len())?;
        if framing != 0 {
            return Err(self.place);
        }
        self.place = behind;
        Ok(())
    }

    fn part(&mut self) -> Result<&'a [u8], usize> {
        let part = part_at(self.message, self.place).ok_or(self.message.len())?;
        self.place = part.end;
        Ok(&self.message[part])
    }

    /// "A section longer than the message is missing bytes, before its fields are read."
    fn section(&mut self) -> Result<Section<'a>, usize> {
        let part = part_at(self.message, self.place).ok_or(self.message.len())?;
        self.place = part.end;
        Section::read(self.message, part)
    }

    /// The number of bytes left, all of them zero.
    fn padding(&self) -> Result<usize, usize> {
        let rest = &self.message[self.place..];
        match rest.iter().position(|byte| *byte != 0) {
            Some(offset) => Err(self.place + offset),
            None => Ok(rest.len()),
        }
    }
}

#[cfg(test)]
mod tests {
    use super::*;
    use crate::generate::message;
    use crate::integer::integer_bytes;
    use crate::random::Random;
    use crate::request_cases::cases_of;

    const APPENDIX_A: &[u8] = b"\0\x03GET\x05https\x0bexample.com\x01/";

    /// Each part and padding of two bytes.
    const WHOLE: &[u8] = b"\0\x01m\x01s\x01a\x01p\x04\x01b\x01c\x02de\x03\x01f\0\0\0";

    fn words(section: Section<'_>) -> Vec<(&[u8], &[u8])> {
        section.fields().collect()
    }

    #[test]
    fn rfc_9458_appendix_a_message() {
        let read = read_message(APPENDIX_A).unwrap();
        let expected = Message {
            method: b"GET",
            scheme: b"https",
            authority: b"example.com",
            path: b"/",
            ..Message::default()
        };
        assert_eq!(read, expected);
    }

    #[test]
    fn each_end() {
        let read = read_message(WHOLE).unwrap();
        assert_eq!((read.method, read.scheme), (&b"m"[..], &b"s"[..]));
        assert_eq!((read.authority, read.path), (&b"a"[..], &b"p"[..]));
        assert_eq!(words(read.headers), [(&b"b"[..], &b"c"[..])]);
        assert_eq!(read.content, b"de");
        assert_eq!(words(read.trailers), [(&b"f"[..], &b""[..])]);
        assert_eq!(read.padding, 2);
        let mut rest = read;
        for (end, padding) in [(22, 1), (21, 0)] {
            rest.padding = padding;
            assert_eq!(read_message(&WHOLE[..end]), Ok(rest));
        }
        rest.trailers = Section::default();
        assert_eq!(read_message(&WHOLE[..17]), Ok(rest));
        rest.content = b"";
        assert_eq!(read_message(&WHOLE[..14]), Ok(rest));
        rest.headers = Section::default();
        assert_eq!(read_message(&WHOLE[..9]), Ok(rest));
    }

    #[test]
    fn zeros_are_empty_parts_and_padding() {
        for length in 0..20 {
            let read = read_message(&[0; 20][..length]).map(|read| read.padding);
            let expected = if length < 5 {
                Err(length)
            } else {
                Ok(length.saturating_sub(8))
            };
            assert_eq!(read, expected);
        }
    }

    #[test]
    fn integers_of_every_size() {
        for size in [1, 2, 4, 8] {
            let mut message = integer_bytes(0, size);
            let field = |name: &[u8]| {
                let one = integer_bytes(1, size);
                [&one[..], name, &one, b"v"].concat()
            };
            let (headers, trailers) = (field(b"h"), field(b"t"));
            let parts: [&[u8]; 7] = [b"m", b"s", b"a", b"p", &headers, b"c", &trailers];
            for part in parts {
                message.extend(integer_bytes(part.len() as u64, size));
                message.extend(part);
            }
            let read = read_message(&message).unwrap();
            assert_eq!((read.method, read.scheme), (parts[0], parts[1]));
            assert_eq!((read.authority, read.path), (parts[2], parts[3]));
            assert_eq!(words(read.headers), [(&b"h"[..], &b"v"[..])]);
            assert_eq!(read.content, parts[5]);
            assert_eq!(words(read.trailers), [(&b"t"[..], &b"v"[..])]);
            assert_eq!(read.padding, 0);
        }
    }

    #[test]
    fn places_of_faults() {
        let faults: [(&[u8], usize); 22] = [
            (b"", 0),
            (b"\x01", 0),
            (b"\x40\x01\0\0\0\0", 0),
            (b"\xc0\0\0\x01\0\0\0\0\0\0\0\0", 0),
            (b"\x41", 1),
            (b"\xff\xff\xff\xff\xff\xff\xff", 7),
            (b"\0\x40", 2),
            (b"\0\x02m", 3),
            (b"\0\0\0\0\xff\xff\xff\xff\xff\xff\xff\xff", 12),
            (b"\0\xc0\0\0\x01\0\0\0\x01m\0\0\0", 13),
            (b"\0\0\0\0\0\x40", 6),
            (b"\0\0\0\0\0\x04\x01A\0", 9),
            (b"\0\0\0\0\0\x03\x01A\0", 7),
            (b"\0\0\0\0\0\x02\x01a\0\0", 8),
            (b"\0\0\0\0\0\x03\x01a\x40\x01c", 8),
            (b"\0\0\0\0\0\0\x02c", 8),
            (b"\0\0\0\0\0\0\0\x01", 8),
            (b"\0\0\0\0\0\0\0\x03\x01A\0", 9),
            (b"\0\0\0\0\0\0\0\0\x01", 8),
            (b"\0\0\0\0\0\0\0\0\0\0\x40\0", 10),
            // The first of two counts.
            (b"\0\0\0\0\0\x03\x01A\0\x09", 7),
            (b"\0\0\0\0\0\0\0\x03\x01A\0\x01", 9),
        ];
        for (message, place) in faults {
            assert_eq!(read_message(message), Err(place), "{message:?}");
        }
    }

    /// Messages from a seed.
    fn messages(seed: u64, count: usize) -> impl Iterator<Item = Vec<u8>> {
        let mut random = Random::new(seed);
        let short = move || loop {
            let message = message(&mut random);
            if message.len() < 1_000 {
                return message;
            }
        };
        std::iter::repeat_with(short).take(count)
    }

    /// A good message may end behind its path and each later part, and in its padding; anywhere
    /// else bytes are missing.
    #[test]
    fn cuts_of_good_messages() {
        for message in messages(1, 3_000) {
            let mut ends = vec![];
            let mut place = match read_message(&message) {
                Ok(_) => integer_at(&message, 0).unwrap().1,
                Err(_) => continue,
            };
            while let (0..=6, Some(part)) = (ends.len(), part_at(&message, place)) {
                place = part.end;
                ends.push(place);
            }
            for end in 0..=message.len() {
                let is_end = ends.len() > 3 && ends[3..].contains(&end);
                let in_padding = ends.len() == 7 && end > ends[6];
                let expected = if is_end || in_padding {
                    Ok(())
                } else {
                    Err(end)
                };
                let read = read_message(&message[..end]).map(drop);
                assert_eq!(read, expected, "{end} {message:?}");
            }
        }
    }

    /// A cut bad message has its fault still, or bytes are missing, or it ends in front of the
    /// fault and is good.
    #[test]
    fn cuts_of_bad_messages() {
        for message in messages(2, 3_000) {
            let place = match read_message(&message) {
                Ok(_) => continue,
                Err(place) => place,
            };
            for end in 0..message.len() {
                match read_message(&message[..end]) {
                    Ok(_) => assert!(end <= place, "{end} {message:?}"),
                    Err(fault) => assert!(fault == place || fault == end, "{end} {message:?}"),
                }
            }
        }
    }

    /// A fault hangs on the message's length, on what is in front of it and on an integer of at
    /// most 8 bytes.
    #[test]
    fn what_follows_a_fault_does_not_count() {
        let mut random = Random::new(3);
        for mut message in messages(3, 20_000) {
            let place = match read_message(&message) {
                Ok(_) => continue,
                Err(place) => place,
            };
            assert!(place <= message.len());
            for _ in 0..3 {
                for byte in message.iter_mut().skip(place + 8) {
                    *byte = random.byte();
                }
                assert_eq!(read_message(&message), Err(place), "{message:?}");
            }
        }
    }

    /// The second reading finds the same first fault.
    #[test]
    fn both_readings_agree() {
        for seed in 4..8 {
            for message in messages(seed, 20_000) {
                let fault = cases_of(&message).fault;
                assert_eq!(read_message(&message).err(), fault, "{message:?}");
            }
        }
    }

    /// All short messages of a few bytes that matter.
    #[test]
    fn both_readings_agree_on_short_messages() {
        const BYTES: &[u8] = b"\0\x01\x02\x03\x40 aA";
        let front: [&[u8]; 2] = [b"\0\0\0\0\0", b"\0\0\0\0\0\0\0"];
        for number in 0..BYTES.len().pow(6) {
            let digit = |place: u32| BYTES[number / BYTES.len().pow(place) % BYTES.len()];
            let rest: Vec<u8> = (0..6).map(digit).collect();
            for front in front {
                let message = [front, &rest].concat();
                let fault = cases_of(&message).fault;
                assert_eq!(read_message(&message).err(), fault, "{message:?}");
            }
        }
    }
}
