//! What a request inside is like (02, A3): its shape where it is good, else its faults. A second
//! reading, which shares the integers alone with the first and goes on behind a fault where it
//! can: for the table, and for the tests.

use crate::integer::{integer_at, LARGEST_INTEGER};
use std::ops::Range;

/// The parts behind the framing, in order; the two sections among them.
const PATH: usize = 3;
const HEADERS: usize = 4;
const CONTENT: usize = 5;
const TRAILERS: usize = 6;

/// Where a good message ends.
const ENDS: [&str; 5] = [
    "ends behind path",
    "ends behind headers",
    "ends behind content",
    "whole, no padding",
    "whole, padding",
];
/// A part that is there, and empty.
const EMPTY_PARTS: [&str; 7] = [
    "empty method",
    "empty scheme",
    "empty authority",
    "empty path",
    "empty headers",
    "empty content",
    "empty trailers",
];
/// What there is in it.
const CONTENT_THERE: &str = "content";
const LONG_CONTENT: &str = "content of 16,384 bytes or more";
const SOME_FIELDS: [&str; 2] = ["header fields", "trailer fields"];
const MANY_FIELDS: [&str; 2] = ["10 header fields or more", "3 trailer fields or more"];
const EMPTY_VALUE: &str = "empty value";
const INNER_BLANK: &str = "blank within a value";
const OTHER_CONTROL: &str = "other control in a value";
const HIGH_VALUE: &str = "value byte above 0x7f";
/// The sizes of its integers: 1, 2, 4 and 8 bytes.
const FRAMING_OF: [&str; 4] = [
    "framing of 1",
    "framing of 2",
    "framing of 4",
    "framing of 8",
];
const PART_OF: [&str; 4] = [
    "part length of 1",
    "part length of 2",
    "part length of 4",
    "part length of 8",
];
const SECTION_OF: [&str; 4] = [
    "section length of 1",
    "section length of 2",
    "section length of 4",
    "section length of 8",
];
const CONTENT_OF: [&str; 4] = [
    "content length of 1",
    "content length of 2",
    "content length of 4",
    "content length of 8",
];
const NAME_OF: [&str; 4] = [
    "name length of 1",
    "name length of 2",
    "name length of 4",
    "name length of 8",
];
const VALUE_OF: [&str; 4] = [
    "value length of 1",
    "value length of 2",
    "value length of 4",
    "value length of 8",
];

/// The cases of good messages.
pub const GOOD: &[&[&str]] = &[
    &ENDS,
    &EMPTY_PARTS,
    &[CONTENT_THERE, LONG_CONTENT],
    &SOME_FIELDS,
    &MANY_FIELDS,
    &[EMPTY_VALUE, INNER_BLANK, OTHER_CONTROL, HIGH_VALUE],
    &FRAMING_OF,
    &PART_OF,
    &SECTION_OF,
    &CONTENT_OF,
    &NAME_OF,
    &VALUE_OF,
];

/// The framing's faults; a cut one may show already that it is not 0.
const NO_FRAMING: &str = "empty message";
const FRAMING_CUT: &str = "framing cut";
const FRAMING_CUT_NOT_0: &str = "framing cut, not 0";
const FRAMING_NOT_0: [&str; 4] = [
    "framing of 1 not 0",
    "framing of 2 not 0",
    "framing of 4 not 0",
    "framing of 8 not 0",
];
/// Missing bytes: the length, a part of it, or bytes that it announces.
const NO_LENGTH: [&str; 4] = [
    "no method length",
    "no scheme length",
    "no authority length",
    "no path length",
];
const LENGTH_CUT: [&str; 7] = [
    "method length cut",
    "scheme length cut",
    "authority length cut",
    "path length cut",
    "header length cut",
    "content length cut",
    "trailer length cut",
];
const BYTES_MISSING: [&str; 7] = [
    "method bytes missing",
    "scheme bytes missing",
    "authority bytes missing",
    "path bytes missing",
    "header bytes missing",
    "content bytes missing",
    "trailer bytes missing",
];
/// With a wrong byte or an empty name in the section, which is not read.
const UNREAD_FAULT: [&str; 2] = ["header bytes missing, bad", "trailer bytes missing, bad"];
/// A length that announces too much, in front of a part or in a section.
const LARGEST: [&str; 2] = ["part of 2^62 - 1", "field of 2^62 - 1"];
const LOW_BITS: [&str; 2] = ["part right in low 32 bits", "field right in low 32 bits"];
/// A field past its section's end, in headers or trailers.
const NAME_LENGTH_CUT: [&str; 2] = ["header name length cut", "trailer name length cut"];
const NAME_PAST_END: [&str; 2] = ["header name past end", "trailer name past end"];
const NO_VALUE_LENGTH: [&str; 2] = ["header without value", "trailer without value"];
const VALUE_LENGTH_CUT: [&str; 2] = ["header value length cut", "trailer value length cut"];
const VALUE_PAST_END: [&str; 2] = ["header value past end", "trailer value past end"];
const PAST_END: [[&str; 2]; 5] = [
    NAME_LENGTH_CUT,
    NAME_PAST_END,
    NO_VALUE_LENGTH,
    VALUE_LENGTH_CUT,
    VALUE_PAST_END,
];
/// A name's faults.
const NAME_EMPTY: [&str; 2] = ["header name empty", "trailer name empty"];
const NAME_UPPER: [&str; 2] = ["header name upper case", "trailer name upper case"];
const NAME_SEPARATOR: [&str; 2] = ["header name separator", "trailer name separator"];
const NAME_CONTROL: [&str; 2] = ["header name control", "trailer name control"];
const NAME_HIGH: [&str; 2] = ["header name above 0x7f", "trailer name above 0x7f"];
/// A value's faults.
const VALUE_NUL: [&str; 2] = ["header value NUL", "trailer value NUL"];
const VALUE_CR: [&str; 2] = ["header value CR", "trailer value CR"];
const VALUE_LF: [&str; 2] = ["header value LF", "trailer value LF"];
const BLANK_FIRST: [&str; 2] = ["header blank first", "trailer blank first"];
const BLANK_LAST: [&str; 2] = ["header blank last", "trailer blank last"];
const BLANK_ALONE: [&str; 2] = ["header blank alone", "trailer blank alone"];
const BLANK: [&str; 2] = ["blank is a space", "blank is a tab"];
/// Where the wrong byte of a name, or of a value, stands in it.
const IN_NAME: [&str; 4] = [
    "alone in name",
    "first in name",
    "within name",
    "last in name",
];
const IN_VALUE: [&str; 4] = [
    "alone in value",
    "first in value",
    "within value",
    "last in value",
];
/// The field is not its section's first.
const LATER_FIELD: &str = "later field";
/// The padding's faults.
const PADDING: [&str; 2] = ["padding's first byte", "padding's later byte"];
/// There is another fault behind the first.
const TWO_FAULTS: &str = "another fault behind";

/// The cases of bad messages.
pub const BAD: &[&[&str]] = &[
    &[NO_FRAMING, FRAMING_CUT, FRAMING_CUT_NOT_0],
    &FRAMING_NOT_0,
    &NO_LENGTH,
    &LENGTH_CUT,
    &BYTES_MISSING,
    &UNREAD_FAULT,
    &LARGEST,
    &LOW_BITS,
    &NAME_LENGTH_CUT,
    &NAME_PAST_END,
    &NO_VALUE_LENGTH,
    &VALUE_LENGTH_CUT,
    &VALUE_PAST_END,
    &NAME_EMPTY,
    &NAME_UPPER,
    &NAME_SEPARATOR,
    &NAME_CONTROL,
    &NAME_HIGH,
    &VALUE_NUL,
    &VALUE_CR,
    &VALUE_LF,
    &BLANK_FIRST,
    &BLANK_LAST,
    &BLANK_ALONE,
    &BLANK,
    &IN_NAME,
    &IN_VALUE,
    &PADDING,
    &[LATER_FIELD, TWO_FAULTS],
];

/// The cases of a message, and the place of its first fault.
pub struct Cases {
    pub cases: Vec<&'static str>,
    pub fault: Option<usize>,
}

pub fn cases_of(message: &[u8]) -> Cases {
    let mut walk = Walk {
        message,
        place: 0,
        shape: Vec::new(),
        faults: Vec::new(),
        notes: Vec::new(),
    };
    walk.message();
    let first = match walk.faults.first() {
        Some(first) => *first,
        None => {
            return Cases {
                cases: walk.shape,
                fault: None,
            }
        }
    };
    let mut cases = walk.notes;
    cases.push(first.case);
    if walk.faults.len() > 1 {
        cases.push(TWO_FAULTS);
    }
    Cases {
        cases,
        fault: Some(first.place),
    }
}

#[derive(Clone, Copy)]
struct Fault {
    place: usize,
    case: &'static str,
}

struct Walk<'a> {
    message: &'a [u8],
    /// Up to where the parts are read.
    place: usize,
    /// The cases of the message, were it good.
    shape: Vec<&'static str>,
    faults: Vec<Fault>,
    /// More cases of the first fault.
    notes: Vec<&'static str>,
}

/// 0 to 3 for an integer of 1, 2, 4 or 8 bytes.
fn size_index(integer: Range<usize>) -> usize {
    integer.len().trailing_zeros() as usize
}

/// 0 for headers, 1 for trailers.
fn section_index(part: usize) -> usize {
    usize::from(part == TRAILERS)
}

impl Walk<'_> {
    /// Notes a fault, and what else is to be said of it where it is the first.
    fn fault(&mut self, place: usize, case: &'static str, notes: &[&'static str]) {
        if self.faults.is_empty() {
            self.notes.extend(notes);
        }
        self.faults.push(Fault { place, case });
    }

    fn missing(&mut self, case: &'static str) {
        self.fault(self.message.len(), case, &[]);
    }

    /// Reads as far as it can be read.
    fn message(&mut self) -> Option<()> {
        self.framing()?;
        let end = self.message.len();
        let mut ends = ENDS[0];
        for part in 0..=TRAILERS {
            if part > PATH && self.place == end {
                break;
            }
            self.part(part)?;
            ends = ENDS[part.saturating_sub(PATH)];
        }
        let padding = &self.message[self.place..];
        if !padding.is_empty() {
            ends = ENDS[4];
        }
        self.shape.push(ends);
        if let Some(offset) = padding.iter().position(|byte| *byte != 0) {
            let case = PADDING[usize::from(offset > 0)];
            self.fault(self.place + offset, case, &[]);
        }
        Some(())
    }

    fn framing(&mut self) -> Option<()> {
        let (framing, behind) = match (integer_at(self.message, 0), self.message.first()) {
            (Some(whole), _) => whole,
            (None, first) => {
                self.missing(match first {
                    None => NO_FRAMING,
                    Some(first) if first & 0x3f == 0 => FRAMING_CUT,
                    Some(_) => FRAMING_CUT_NOT_0,
                });
                return None;
            }
        };
        let size = size_index(0..behind);
        self.shape.push(FRAMING_OF[size]);
        if framing != 0 {
            self.fault(0, FRAMING_NOT_0[size], &[]);
        }
        self.place = behind;
        Some(())
    }

    fn part(&mut self, part: usize) -> Option<()> {
        let end = self.message.len();
        let (length, start) = match integer_at(self.message, self.place) {
            Some(whole) => whole,
            None => {
                let is_there = self.place < end;
                self.missing(if is_there {
                    LENGTH_CUT[part]
                } else {
                    NO_LENGTH[part]
                });
                return None;
            }
        };
        let left = end - start;
        if length > left as u64 {
            let notes = length_notes(length, left, 0);
            self.fault(end, BYTES_MISSING[part], &notes);
            self.unread(part, start);
            return None;
        }
        let sizes = match part {
            0..=PATH => PART_OF,
            CONTENT => CONTENT_OF,
            _ => SECTION_OF,
        };
        self.shape.push(sizes[size_index(self.place..start)]);
        self.place = start + length as usize;
        self.bytes(part, start..self.place);
        Some(())
    }

    /// What stands in a section that is longer than the message.
    fn unread(&mut self, part: usize, start: usize) {
        if part != HEADERS && part != TRAILERS {
            return;
        }
        let (faults, section) = (self.faults.len(), section_index(part));
        self.fields(section, start..self.message.len());
        let is_past_end = |fault: &Fault| PAST_END.concat().contains(&fault.case);
        if faults == 1 && !self.faults[faults..].iter().all(is_past_end) {
            self.notes.push(UNREAD_FAULT[section]);
        }
    }

    /// The bytes of a part that is there.
    fn bytes(&mut self, part: usize, bytes: Range<usize>) {
        if bytes.is_empty() {
            self.shape.push(EMPTY_PARTS[part]);
        }
        match part {
            HEADERS | TRAILERS => self.fields(section_index(part), bytes),
            CONTENT if !bytes.is_empty() => {
                self.shape.push(CONTENT_THERE);
                if bytes.len() >= 16_384 {
                    self.shape.push(LONG_CONTENT);
                }
            }
            _ => {}
        }
    }

    fn fields(&mut self, section: usize, bytes: Range<usize>) {
        let (mut place, mut count) = (bytes.start, 0);
        while place < bytes.end {
            let faults = self.faults.len();
            let behind = self.field(section, place, bytes.end);
            if faults == 0 && !self.faults.is_empty() && count > 0 {
                self.notes.push(LATER_FIELD);
            }
            place = match behind {
                Some(behind) => behind,
                None => return,
            };
            count += 1;
        }
        if count > 0 {
            self.shape.push(SOME_FIELDS[section]);
        }
        if count >= [10, 3][section] {
            self.shape.push(MANY_FIELDS[section]);
        }
    }

    /// The place behind a field; none where it runs past the section's end.
    fn field(&mut self, section: usize, place: usize, end: usize) -> Option<usize> {
        let cases = [NAME_LENGTH_CUT[section], NAME_PAST_END[section]];
        let name = self.field_part(place, end, cases, NAME_OF)?;
        if name.is_empty() {
            self.fault(place, NAME_EMPTY[section], &[]);
        }
        self.name(section, name.clone());
        if name.end == end {
            self.fault(end, NO_VALUE_LENGTH[section], &[]);
            return None;
        }
        let cases = [VALUE_LENGTH_CUT[section], VALUE_PAST_END[section]];
        let value = self.field_part(name.end, end, cases, VALUE_OF)?;
        self.value(section, value.clone());
        Some(value.end)
    }

    /// A name or a value; none where its length is cut or runs past the section's end.
    fn field_part(
        &mut self,
        place: usize,
        end: usize,
        [cut, past_end]: [&'static str; 2],
        sizes: [&'static str; 4],
    ) -> Option<Range<usize>> {
        let (length, start) = match integer_at(&self.message[..end], place) {
            Some(whole) => whole,
            None => {
                self.fault(place, cut, &[]);
                return None;
            }
        };
        if length > (end - start) as u64 {
            self.fault(place, past_end, &length_notes(length, end - start, 1));
            return None;
        }
        self.shape.push(sizes[size_index(place..start)]);
        Some(start..start + length as usize)
    }

    fn name(&mut self, section: usize, name: Range<usize>) {
        let wrong = name.clone().find_map(|place| {
            let case = match self.message[place] {
                b'A'..=b'Z' => NAME_UPPER,
                0..=0x20 | 0x7f => NAME_CONTROL,
                0x80..=0xff => NAME_HIGH,
                b'"' | b'(' | b')' | b',' | b'/' => NAME_SEPARATOR,
                b':'..=b'@' | b'['..=b']' | b'{' | b'}' => NAME_SEPARATOR,
                _ => return None,
            };
            Some((place, case))
        });
        if let Some((place, case)) = wrong {
            self.fault(place, case[section], &[IN_NAME[position(place, &name)]]);
        }
    }

    fn value(&mut self, section: usize, value: Range<usize>) {
        if value.is_empty() {
            self.shape.push(EMPTY_VALUE);
            return;
        }
        let (first, last) = (value.start, value.end - 1);
        let case = |place: usize| match self.message[place] {
            0 => Some(VALUE_NUL),
            b'\r' => Some(VALUE_CR),
            b'\n' => Some(VALUE_LF),
            b' ' | b'\t' if first == last => Some(BLANK_ALONE),
            b' ' | b'\t' if place == first => Some(BLANK_FIRST),
            b' ' | b'\t' if place == last => Some(BLANK_LAST),
            _ => None,
        };
        let wrong = value.clone().find_map(|place| Some((place, case(place)?)));
        let (place, case) = match wrong {
            Some(wrong) => wrong,
            None => return self.good_value(value),
        };
        let note = match self.message[place] {
            b' ' => BLANK[0],
            b'\t' => BLANK[1],
            _ => IN_VALUE[position(place, &value)],
        };
        self.fault(place, case[section], &[note]);
    }

    fn good_value(&mut self, value: Range<usize>) {
        for byte in &self.message[value] {
            match byte {
                b' ' | b'\t' => self.shape.push(INNER_BLANK),
                1..=0x1f | 0x7f => self.shape.push(OTHER_CONTROL),
                0x80..=0xff => self.shape.push(HIGH_VALUE),
                _ => {}
            }
        }
    }
}

/// 0 where the place is the whole part, 1 where it is its first, 3 its last, 2 another one.
fn position(place: usize, part: &Range<usize>) -> usize {
    match (place == part.start, place + 1 == part.end) {
        (true, true) => 0,
        (true, false) => 1,
        (false, false) => 2,
        (false, true) => 3,
    }
}

/// What is to be said of a length that announces more than is left; 0 for a part, 1 in a section.
fn length_notes(length: u64, left: usize, of: usize) -> Vec<&'static str> {
    let mut notes = Vec::new();
    if length == LARGEST_INTEGER {
        notes.push(LARGEST[of]);
    }
    if length & 0xffff_ffff <= left as u64 {
        notes.push(LOW_BITS[of]);
    }
    notes
}

#[cfg(test)]
mod tests {
    use super::*;

    #[test]
    fn cases_have_one_name_each() {
        for groups in [GOOD, BAD] {
            let mut all = groups.concat();
            let count = all.len();
            all.sort_unstable();
            all.dedup();
            assert_eq!(all.len(), count);
        }
    }

    fn check(message: &[u8], cases: &[&str]) {
        let mut found = cases_of(message).cases;
        found.sort_unstable();
        found.dedup();
        let mut cases = cases.to_vec();
        cases.sort_unstable();
        assert_eq!(found, cases, "{message:?}");
    }

    #[test]
    fn shapes() {
        check(
            b"\0\0\x01s\x40\0\x01p",
            &[
                FRAMING_OF[0],
                PART_OF[0],
                PART_OF[1],
                EMPTY_PARTS[0],
                EMPTY_PARTS[2],
                ENDS[0],
            ],
        );
        let front = b"\0\x01m\x01s\x01a\x01p";
        let behind = |rest: &[u8], cases: &[&'static str]| {
            let all = [&[FRAMING_OF[0], PART_OF[0], SECTION_OF[0]], cases].concat();
            check(&[front, rest].concat(), &all);
        };
        behind(b"\0", &[EMPTY_PARTS[4], ENDS[1]]);
        behind(
            b"\0\0",
            &[EMPTY_PARTS[4], EMPTY_PARTS[5], CONTENT_OF[0], ENDS[2]],
        );
        let empty = [EMPTY_PARTS[4], EMPTY_PARTS[5], CONTENT_OF[0]];
        behind(
            b"\0\0\0",
            &[&empty[..], &EMPTY_PARTS[6..], &ENDS[3..4]].concat(),
        );
        behind(
            b"\0\0\0\0",
            &[&empty[..], &EMPTY_PARTS[6..], &ENDS[4..]].concat(),
        );
        let fields = [SOME_FIELDS[0], NAME_OF[0], VALUE_OF[0], ENDS[1]];
        behind(b"\x03\x01a\0", &[&fields[..], &[EMPTY_VALUE]].concat());
        behind(
            b"\x08\x01a\x05b \x01\x80c",
            &[&fields[..], &[INNER_BLANK, OTHER_CONTROL, HIGH_VALUE]].concat(),
        );
    }

    #[test]
    fn faults() {
        check(b"", &[NO_FRAMING]);
        check(b"\x40", &[FRAMING_CUT]);
        check(b"\x41", &[FRAMING_CUT_NOT_0]);
        check(b"\x01\0\0\0\0", &[FRAMING_NOT_0[0]]);
        check(b"\x01", &[FRAMING_NOT_0[0], TWO_FAULTS]);
        check(b"\0\0\0", &[NO_LENGTH[2]]);
        check(b"\0\x40", &[LENGTH_CUT[0]]);
        check(b"\0\0\0\0\0\x40", &[LENGTH_CUT[4]]);
        check(b"\0\0\0\0\0\0\x02a", &[BYTES_MISSING[5]]);
        let largest = b"\0\xff\xff\xff\xff\xff\xff\xff\xff";
        check(largest, &[BYTES_MISSING[0], LARGEST[0]]);
        let low = b"\0\xc0\0\0\x01\0\0\0\x01m";
        check(low, &[BYTES_MISSING[0], LOW_BITS[0]]);
        check(
            b"\0\0\0\0\0\x04\x01A\0",
            &[BYTES_MISSING[4], UNREAD_FAULT[0], TWO_FAULTS],
        );
        check(b"\0\0\0\0\0\0\0\0\x01", &[PADDING[0]]);
        check(b"\0\0\0\0\0\0\0\0\0\x01", &[PADDING[1]]);
    }

    #[test]
    fn faults_of_fields() {
        let headers = |section: &[u8], cases: &[&str]| {
            let front = [0, 0, 0, 0, 0, section.len() as u8];
            check(&[&front[..], section].concat(), cases);
        };
        headers(b"\x40", &[NAME_LENGTH_CUT[0]]);
        headers(b"\x02a", &[NAME_PAST_END[0]]);
        headers(b"\x01a\0\x02a", &[NAME_PAST_END[0], LATER_FIELD]);
        headers(b"\0\0", &[NAME_EMPTY[0]]);
        headers(b"\0", &[NAME_EMPTY[0], TWO_FAULTS]);
        headers(b"\x01A\0", &[NAME_UPPER[0], IN_NAME[0]]);
        headers(b"\x02 a\0", &[NAME_CONTROL[0], IN_NAME[1]]);
        headers(b"\x03a:b\0", &[NAME_SEPARATOR[0], IN_NAME[2]]);
        headers(b"\x02a\x80\0", &[NAME_HIGH[0], IN_NAME[3]]);
        headers(b"\x01a", &[NO_VALUE_LENGTH[0]]);
        headers(b"\x01a\x40", &[VALUE_LENGTH_CUT[0]]);
        headers(b"\x01a\x01", &[VALUE_PAST_END[0]]);
        headers(b"\x01a\x01\0", &[VALUE_NUL[0], IN_VALUE[0]]);
        headers(b"\x01a\x02\rb", &[VALUE_CR[0], IN_VALUE[1]]);
        headers(b"\x01a\x03b\nb", &[VALUE_LF[0], IN_VALUE[2]]);
        headers(b"\x01a\x02b\0", &[VALUE_NUL[0], IN_VALUE[3]]);
        headers(b"\x01a\x01 ", &[BLANK_ALONE[0], BLANK[0]]);
        headers(b"\x01a\x02\tb", &[BLANK_FIRST[0], BLANK[1]]);
        headers(b"\x01a\x02b ", &[BLANK_LAST[0], BLANK[0]]);
        check(
            b"\0\0\0\0\0\0\0\x03\x01A\0\x01",
            &[NAME_UPPER[1], IN_NAME[0], TWO_FAULTS],
        );
    }
}
