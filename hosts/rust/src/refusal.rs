//! Refusals, and what goes out unprotected.

use crate::raw;
use std::error::Error;
use std::fmt;

/// The problem type of a request whose key, KEM or pair cannot be used (RFC 9458, 5.3): the `type`
/// of a body of media type `application/problem+json`.
pub const OHTTP_KEY: &str = "https://iana.org/assignments/http-problem-types#ohttp-key";

/// An unprotected answer: what is sent in the clear where there is nothing to seal with. It comes
/// from a refused admit and from a failed opening, and from nowhere else.
#[derive(Clone, Copy, Debug, PartialEq, Eq)]
pub struct Unprotected {
    status: u16,
    problem: u8,
}

impl Unprotected {
    /// The HTTP status to send.
    pub fn status(self) -> u16 {
        self.status
    }

    /// The problem type to send with it, if any.
    pub fn problem_type(self) -> Option<&'static str> {
        match self.problem {
            raw::OHTTP_KEY => Some(OHTTP_KEY),
            _ => None,
        }
    }

    /// What an answer of the library says is to be sent.
    pub(crate) fn said(outcome: raw::Outcome) -> Unprotected {
        Unprotected {
            status: outcome.status,
            problem: outcome.problem,
        }
    }
}

/// What a refusal points at: a field of a key list, or a byte of a message.
#[derive(Clone, Copy, Debug, PartialEq, Eq)]
pub struct Field {
    place: usize,
    value: Option<u16>,
    /// How many bytes of what was read stand from the place on.
    rest: usize,
}

impl Field {
    /// The offset of its first byte, in the list that was read or that would be written, or in the
    /// message; the message's length where bytes of it are missing.
    pub fn place(self) -> usize {
        self.place
    }

    /// What stands there of a list that was read: a length, a pair length or a key id. None of a
    /// list that would be written, and where the list ends before the field does; and none of a
    /// message, which is not for logs.
    pub fn value(self) -> Option<u16> {
        self.value
    }
}

/// Why a call is refused. A refused call changed neither the gateway nor a buffer.
///
/// Each variant holds what is to be sent unprotected, as the library answered it. Only a refused
/// admit sends anything.
///
/// ```
/// use sealwax::{Gateway, Refusal};
///
/// let mut gateway = Gateway::without_keys();
/// let request = [&[7, 0, 0x20, 0, 1, 0, 1][..], &[0; 48]].concat();
/// let refusal = gateway.admit(&request).unwrap_err();
///
/// assert!(matches!(refusal, Refusal::NoSuchKey(_)));
/// assert_eq!(refusal.number(), 4);
/// assert_eq!(refusal.status(), Some(400));
/// assert_eq!(
///     refusal.to_string(),
///     "no key has this id (refusal 4, status 400, \
///      https://iana.org/assignments/http-problem-types#ohttp-key)"
/// );
/// ```
#[derive(Clone, Copy, Debug, PartialEq, Eq)]
#[non_exhaustive]
pub enum Refusal {
    /// 1: a request or response is too short.
    TooShort(Option<Unprotected>),
    /// 2: a request or response is too long.
    TooLong(Option<Unprotected>),
    /// 3: the KEM is unknown.
    UnknownKem {
        /// Where it would stand in a list that is to be written; other calls name no place.
        field: Option<Field>,
        /// What is to be sent.
        unprotected: Option<Unprotected>,
    },
    /// 4: there is no key with this id.
    NoSuchKey(Option<Unprotected>),
    /// 5: the KEM is not that key's.
    OtherKem(Option<Unprotected>),
    /// 6: the pair is unknown, or not listed for that key.
    PairNotOffered(Option<Unprotected>),
    /// 7: the key is retired.
    KeyRetired(Option<Unprotected>),
    /// 8: the key's use count equals the cap.
    KeyUsedUp(Option<Unprotected>),
    /// 9: 128 exchanges are pending.
    TableFull(Option<Unprotected>),
    /// 11: the ticket is not pending: it was never given, or its exchange is closed.
    NotPending(Option<Unprotected>),
    /// 12: the exchange is in a state that does not allow this step.
    StepNotAllowed(Option<Unprotected>),
    /// 13: the length of what was opened, of enc, nonce or plain response is wrong.
    WrongLength(Option<Unprotected>),
    /// 14: a lent buffer is too small.
    NoRoom(Option<Unprotected>),
    /// 16: no configuration of the list can be used.
    NoUsableConfiguration(Option<Unprotected>),
    /// 17: the cap lies outside 1 to 1,000,000,000.
    CapOutOfRange(Option<Unprotected>),
    /// 18: a configuration's length, or the bytes that it announces, run past the list's end; or
    /// there is no configuration at all.
    ListTruncated {
        /// The length.
        field: Field,
        /// What is to be sent.
        unprotected: Option<Unprotected>,
    },
    /// 19: a configuration's length and contents disagree; of one that is to be written, the public
    /// key is not as long as its KEM's keys.
    LengthMismatch {
        /// The length.
        field: Field,
        /// What is to be sent.
        unprotected: Option<Unprotected>,
    },
    /// 20: the pair bytes are not a multiple of 4, or 0, or above 64.
    BadPairLength {
        /// The pair length.
        field: Field,
        /// What is to be sent.
        unprotected: Option<Unprotected>,
    },
    /// 21: an earlier configuration has the same key id.
    DuplicateKeyId {
        /// The second key id.
        field: Field,
        /// What is to be sent.
        unprotected: Option<Unprotected>,
    },
    /// 22: there are more than sixteen configurations.
    TooManyConfigurations {
        /// The seventeenth's length.
        field: Field,
        /// What is to be sent.
        unprotected: Option<Unprotected>,
    },
    /// 23: the message inside is bad.
    BadMessage {
        /// Its first wrong byte, or its end where bytes are missing.
        field: Field,
        /// What is to be sent.
        unprotected: Option<Unprotected>,
    },
    /// A number that this crate does not know: the library is newer.
    Other {
        /// The number.
        number: u8,
        /// The field at which it points, if it has a place.
        field: Option<Field>,
        /// What is to be sent.
        unprotected: Option<Unprotected>,
    },
}

impl Refusal {
    /// The refusal's number.
    pub fn number(self) -> u8 {
        match self {
            Refusal::TooShort(_) => 1,
            Refusal::TooLong(_) => 2,
            Refusal::UnknownKem { .. } => 3,
            Refusal::NoSuchKey(_) => 4,
            Refusal::OtherKem(_) => 5,
            Refusal::PairNotOffered(_) => 6,
            Refusal::KeyRetired(_) => 7,
            Refusal::KeyUsedUp(_) => 8,
            Refusal::TableFull(_) => 9,
            Refusal::NotPending(_) => 11,
            Refusal::StepNotAllowed(_) => 12,
            Refusal::WrongLength(_) => 13,
            Refusal::NoRoom(_) => 14,
            Refusal::NoUsableConfiguration(_) => 16,
            Refusal::CapOutOfRange(_) => 17,
            Refusal::ListTruncated { .. } => 18,
            Refusal::LengthMismatch { .. } => 19,
            Refusal::BadPairLength { .. } => 20,
            Refusal::DuplicateKeyId { .. } => 21,
            Refusal::TooManyConfigurations { .. } => 22,
            Refusal::BadMessage { .. } => 23,
            Refusal::Other { number, .. } => number,
        }
    }

    /// The unprotected answer to send; none where nothing is sent.
    pub fn unprotected(self) -> Option<Unprotected> {
        match self {
            Refusal::TooShort(unprotected)
            | Refusal::TooLong(unprotected)
            | Refusal::UnknownKem { unprotected, .. }
            | Refusal::NoSuchKey(unprotected)
            | Refusal::OtherKem(unprotected)
            | Refusal::PairNotOffered(unprotected)
            | Refusal::KeyRetired(unprotected)
            | Refusal::KeyUsedUp(unprotected)
            | Refusal::TableFull(unprotected)
            | Refusal::NotPending(unprotected)
            | Refusal::StepNotAllowed(unprotected)
            | Refusal::WrongLength(unprotected)
            | Refusal::NoRoom(unprotected)
            | Refusal::NoUsableConfiguration(unprotected)
            | Refusal::CapOutOfRange(unprotected)
            | Refusal::ListTruncated { unprotected, .. }
            | Refusal::LengthMismatch { unprotected, .. }
            | Refusal::BadPairLength { unprotected, .. }
            | Refusal::DuplicateKeyId { unprotected, .. }
            | Refusal::TooManyConfigurations { unprotected, .. }
            | Refusal::BadMessage { unprotected, .. }
            | Refusal::Other { unprotected, .. } => unprotected,
        }
    }

    /// The field of a key list, or the byte of a message, at which it points; none where the library
    /// answered no place.
    pub fn field(self) -> Option<Field> {
        let mut refusal = self;
        refusal.field_mut().copied()
    }

    fn field_mut(&mut self) -> Option<&mut Field> {
        match self {
            Refusal::ListTruncated { field, .. }
            | Refusal::LengthMismatch { field, .. }
            | Refusal::BadPairLength { field, .. }
            | Refusal::DuplicateKeyId { field, .. }
            | Refusal::TooManyConfigurations { field, .. }
            | Refusal::BadMessage { field, .. } => Some(field),
            Refusal::UnknownKem { field, .. } | Refusal::Other { field, .. } => field.as_mut(),
            _ => None,
        }
    }

    /// The HTTP status to send; none where nothing is sent.
    pub fn status(self) -> Option<u16> {
        self.unprotected().map(Unprotected::status)
    }

    /// The problem type to send with the status, if any.
    pub fn problem_type(self) -> Option<&'static str> {
        self.unprotected().and_then(Unprotected::problem_type)
    }

    /// The value of an accepted call, or the refusal that the library answered.
    pub(crate) fn or<T>(outcome: raw::Outcome, value: T) -> Result<T, Refusal> {
        match outcome.number {
            raw::ACCEPTED => Ok(value),
            _ => Err(Refusal::of(outcome)),
        }
    }

    /// The same of a call that has read this list: a refusal also says what stands in it.
    pub(crate) fn or_in_list<T>(
        outcome: raw::Outcome,
        list: &[u8],
        value: T,
    ) -> Result<T, Refusal> {
        Refusal::or(outcome, value).map_err(|mut refusal| {
            let width = match refusal {
                Refusal::DuplicateKeyId { .. } => 1,
                // What a refusal that this crate does not know points at, it does not know either.
                Refusal::Other { .. } => return refusal,
                _ => 2,
            };
            if let Some(field) = refusal.field_mut() {
                let from_place = list.get(field.place..).unwrap_or_default();
                field.value = from_place.get(..width).map(big_endian);
                field.rest = from_place.len();
            }
            refusal
        })
    }

    /// The same of a call that has read this message, which alone gives 23: a refusal also says whether
    /// the message ends.
    pub(crate) fn or_in_message<T>(
        outcome: raw::Outcome,
        message: &[u8],
        value: T,
    ) -> Result<T, Refusal> {
        Refusal::or(outcome, value).map_err(|refusal| match refusal {
            // A refusal goes into logs, and no byte of what was sealed may: there is no value.
            Refusal::Other {
                number: 23,
                field: Some(Field { place, value, .. }),
                unprotected,
            } => {
                let rest = message.get(place..).unwrap_or_default().len();
                let field = Field { place, value, rest };
                Refusal::BadMessage { field, unprotected }
            }
            refusal => refusal,
        })
    }

    fn of(outcome: raw::Outcome) -> Refusal {
        let number = outcome.number;
        // Whether there is a place is asked of the answer, not of the number.
        let field = outcome.has_place.then_some(Field {
            place: outcome.place,
            value: None,
            rest: 0,
        });
        // Status 0: nothing is sent.
        let unprotected = Some(Unprotected::said(outcome)).filter(|said| said.status != 0);
        match (number, field) {
            (1, _) => Refusal::TooShort(unprotected),
            (2, _) => Refusal::TooLong(unprotected),
            (3, _) => Refusal::UnknownKem { field, unprotected },
            (4, _) => Refusal::NoSuchKey(unprotected),
            (5, _) => Refusal::OtherKem(unprotected),
            (6, _) => Refusal::PairNotOffered(unprotected),
            (7, _) => Refusal::KeyRetired(unprotected),
            (8, _) => Refusal::KeyUsedUp(unprotected),
            (9, _) => Refusal::TableFull(unprotected),
            (11, _) => Refusal::NotPending(unprotected),
            (12, _) => Refusal::StepNotAllowed(unprotected),
            (13, _) => Refusal::WrongLength(unprotected),
            (14, _) => Refusal::NoRoom(unprotected),
            (16, _) => Refusal::NoUsableConfiguration(unprotected),
            (17, _) => Refusal::CapOutOfRange(unprotected),
            (18, Some(field)) => Refusal::ListTruncated { field, unprotected },
            (19, Some(field)) => Refusal::LengthMismatch { field, unprotected },
            (20, Some(field)) => Refusal::BadPairLength { field, unprotected },
            (21, Some(field)) => Refusal::DuplicateKeyId { field, unprotected },
            (22, Some(field)) => Refusal::TooManyConfigurations { field, unprotected },
            _ => Refusal::Other {
                number,
                field,
                unprotected,
            },
        }
    }

    /// What is said in front of the numbers.
    fn write_reason(self, f: &mut fmt::Formatter<'_>) -> fmt::Result {
        f.write_str(match self {
            Refusal::TooShort(_) => "the request or response is too short",
            Refusal::TooLong(_) => "the request or response is too long",
            Refusal::NoSuchKey(_) => "no key has this id",
            Refusal::OtherKem(_) => "the KEM is not that key's",
            Refusal::PairNotOffered(_) => "the pair is unknown or not listed for that key",
            Refusal::KeyRetired(_) => "the key is retired",
            Refusal::KeyUsedUp(_) => "the key has been used as often as the cap allows",
            Refusal::TableFull(_) => "no more exchanges can be pending at once",
            Refusal::NotPending(_) => "the ticket is not pending",
            Refusal::StepNotAllowed(_) => "the exchange's state does not allow this step",
            Refusal::WrongLength(_) => "a length is wrong",
            Refusal::NoRoom(_) => "a lent buffer is too small",
            Refusal::NoUsableConfiguration(_) => "no configuration of the list can be used",
            Refusal::CapOutOfRange(_) => "the cap lies outside 1 to 1,000,000,000",
            Refusal::UnknownKem { field: None, .. } => "the KEM is unknown",
            Refusal::Other { field: None, .. } => "a reason that this crate does not know",
            _ => return self.write_field(f),
        })
    }

    /// What is said of the field at fault: what it is, where, and what is wrong with it.
    fn write_field(self, f: &mut fmt::Formatter<'_>) -> fmt::Result {
        let Field { place, value, rest } = match self.field() {
            Some(field) => field,
            None => return Ok(()),
        };
        match (self, value) {
            (Refusal::ListTruncated { .. }, Some(length)) => write!(
                f,
                "length at byte {place} is {length}, but only {} bytes follow",
                rest.saturating_sub(2)
            ),
            (Refusal::ListTruncated { .. }, None) if rest == 0 => {
                f.write_str("there is no configuration at all")
            }
            (Refusal::ListTruncated { .. }, None) => {
                write!(f, "the list ends within the length at byte {place}")
            }
            (Refusal::LengthMismatch { .. }, Some(length)) => write!(
                f,
                "length at byte {place} is {length}, but its fields need another length"
            ),
            (Refusal::LengthMismatch { .. }, None) => write!(
                f,
                "public key of the configuration at byte {place} is not as long as its KEM's keys"
            ),
            (Refusal::BadPairLength { .. }, Some(length)) => {
                write!(f, "pair length at byte {place} is {length}")?;
                f.write_str(match length {
                    0 => ", and there must be a pair",
                    _ if length % 4 != 0 => ", not a multiple of 4",
                    _ => ", above 64",
                })
            }
            (Refusal::BadPairLength { .. }, None) => write!(
                f,
                "pair length at byte {place} would not be 4 to 64: there must be 1 to 16 pairs"
            ),
            (Refusal::DuplicateKeyId { .. }, Some(id)) => write!(
                f,
                "key id at byte {place} is {id}, as that of an earlier configuration"
            ),
            (Refusal::DuplicateKeyId { .. }, None) => {
                write!(
                    f,
                    "key id at byte {place} is that of an earlier configuration"
                )
            }
            _ => self.write_place(f, place, rest),
        }
    }

    /// What is said where the place is all that there is to say, and whether anything stands there.
    fn write_place(self, f: &mut fmt::Formatter<'_>, place: usize, rest: usize) -> fmt::Result {
        match self {
            Refusal::TooManyConfigurations { .. } => {
                write!(f, "a seventeenth configuration at byte {place}")
            }
            Refusal::UnknownKem { .. } => write!(f, "KEM at byte {place} is unknown"),
            Refusal::BadMessage { .. } if rest == 0 => {
                write!(f, "the message ends at byte {place}, and bytes are missing")
            }
            Refusal::BadMessage { .. } => write!(f, "the message is wrong at byte {place}"),
            _ => write!(f, "a reason that this crate does not know, place {place}"),
        }
    }
}

/// A sentence, then number, status and problem type.
impl fmt::Display for Refusal {
    fn fmt(&self, f: &mut fmt::Formatter<'_>) -> fmt::Result {
        self.write_reason(f)?;
        write!(f, " (refusal {}", self.number())?;
        if let Some(status) = self.status() {
            write!(f, ", status {status}")?;
        }
        if let Some(problem_type) = self.problem_type() {
            write!(f, ", {problem_type}")?;
        }
        f.write_str(")")
    }
}

impl Error for Refusal {}

/// The number that one or two bytes make.
fn big_endian(bytes: &[u8]) -> u16 {
    bytes
        .iter()
        .fold(0, |number, byte| number << 8 | u16::from(*byte))
}

#[cfg(test)]
mod tests {
    use super::*;

    fn outcome(number: u8, status: u16, problem: u8) -> raw::Outcome {
        raw::Outcome {
            number,
            has_place: false,
            place: 0,
            status,
            problem,
        }
    }

    fn placed(number: u8, place: usize) -> raw::Outcome {
        raw::Outcome {
            has_place: true,
            place,
            ..outcome(number, 0, 0)
        }
    }

    fn text(outcome: raw::Outcome) -> String {
        Refusal::or(outcome, ()).unwrap_err().to_string()
    }

    #[test]
    fn every_number_is_kept() {
        for number in 1..=u8::MAX {
            let refusal = Refusal::or(placed(number, 5), ()).unwrap_err();
            assert_eq!(refusal.number(), number);
            let known = matches!(number, 1..=9 | 11..=14 | 16..=22);
            assert_eq!(matches!(refusal, Refusal::Other { .. }), !known);
            assert_eq!((refusal.status(), refusal.problem_type()), (None, None));
        }
        assert_eq!(Refusal::or(outcome(0, 0, 0), 3), Ok(3));
    }

    #[test]
    fn status_and_problem_are_the_librarys() {
        for number in 1..=u8::MAX {
            let refusal = Refusal::or(outcome(number, 418, 1), ()).unwrap_err();
            assert_eq!(refusal.status(), Some(418));
            assert_eq!(refusal.problem_type(), Some(OHTTP_KEY));
        }
        // Problems of a newer library have no name here.
        let refusal = Refusal::or(outcome(4, 400, 2), ()).unwrap_err();
        assert_eq!(refusal.problem_type(), None);
    }

    #[test]
    fn sentences() {
        assert_eq!(
            text(outcome(7, 400, 1)),
            format!("the key is retired (refusal 7, status 400, {OHTTP_KEY})")
        );
        assert_eq!(
            text(outcome(2, 413, 0)),
            "the request or response is too long (refusal 2, status 413)"
        );
        assert_eq!(
            text(outcome(11, 0, 0)),
            "the ticket is not pending (refusal 11)"
        );
        assert_eq!(
            text(outcome(23, 0, 0)),
            "a reason that this crate does not know (refusal 23)"
        );
        assert_eq!(
            text(placed(23, 45)),
            "a reason that this crate does not know, place 45 (refusal 23)"
        );
    }

    #[test]
    fn the_place_is_asked_of_the_answer() {
        let writer = Refusal::or(placed(3, 0), ()).unwrap_err();
        assert_eq!(writer.field().map(Field::place), Some(0));
        assert_eq!(writer.to_string(), "KEM at byte 0 is unknown (refusal 3)");
        let admit = Refusal::or(outcome(3, 0, 0), ()).unwrap_err();
        assert_eq!(admit.field(), None);
        assert_eq!(admit.to_string(), "the KEM is unknown (refusal 3)");
        assert_eq!(Refusal::or(outcome(4, 0, 0), ()).unwrap_err().field(), None);
        // A newer library may have no place where this one has: nothing is made up.
        for number in 18..=22 {
            let refusal = Refusal::or(outcome(number, 0, 0), ()).unwrap_err();
            assert_eq!((refusal.number(), refusal.field()), (number, None));
        }
    }

    #[test]
    fn sentences_about_a_list_name_what_to_look_at() {
        let list = [0x00, 0x29, 0x07, 0x00, 0x06, 0x00, 0x44, 0x00, 0x00];
        let said = |number, place| {
            Refusal::or_in_list(placed(number, place), &list, ())
                .unwrap_err()
                .to_string()
        };
        for (number, place, sentence) in [
            (18, 0, "length at byte 0 is 41, but only 7 bytes follow"),
            (18, 8, "the list ends within the length at byte 8"),
            (18, 9, "there is no configuration at all"),
            (
                19,
                0,
                "length at byte 0 is 41, but its fields need another length",
            ),
            (20, 3, "pair length at byte 3 is 6, not a multiple of 4"),
            (20, 5, "pair length at byte 5 is 68, above 64"),
            (
                20,
                7,
                "pair length at byte 7 is 0, and there must be a pair",
            ),
            (
                21,
                2,
                "key id at byte 2 is 7, as that of an earlier configuration",
            ),
            (22, 0, "a seventeenth configuration at byte 0"),
        ] {
            assert_eq!(
                said(number, place),
                format!("{sentence} (refusal {number})")
            );
        }
        for (number, sentence) in [
            (18, "there is no configuration at all"),
            (
                19,
                "public key of the configuration at byte 43 is not as long as its KEM's keys",
            ),
            (
                20,
                "pair length at byte 43 would not be 4 to 64: there must be 1 to 16 pairs",
            ),
            (21, "key id at byte 43 is that of an earlier configuration"),
            (22, "a seventeenth configuration at byte 43"),
        ] {
            assert_eq!(
                text(placed(number, 43)),
                format!("{sentence} (refusal {number})")
            );
        }
        // A place past the list has no value, whatever the library says; nor has one of a number
        // that is not known here.
        for (number, place) in [18, 19, 20, 21, 22, 23].map(|number| (number, usize::MAX)) {
            let refusal = Refusal::or_in_list(placed(number, place), &list, ()).unwrap_err();
            assert_eq!(refusal.field().and_then(Field::value), None);
        }
        let refusal = Refusal::or_in_list(placed(23, 0), &list, ()).unwrap_err();
        assert_eq!(refusal.field().and_then(Field::value), None);
    }

    /// Of a message it is said where it is wrong, and nothing that stands in it.
    #[test]
    fn sentences_about_a_message() {
        let message = [0x41, 0x42];
        for (place, sentence) in [
            (0, "the message is wrong at byte 0 (refusal 23)"),
            (1, "the message is wrong at byte 1 (refusal 23)"),
            (
                2,
                "the message ends at byte 2, and bytes are missing (refusal 23)",
            ),
        ] {
            let refusal = Refusal::or_in_message(placed(23, place), &message, ()).unwrap_err();
            assert_eq!(refusal.to_string(), sentence);
            let field = refusal.field().unwrap();
            assert_eq!((field.place(), field.value()), (place, None));
        }
    }

    #[test]
    fn no_two_numbers_have_the_same_sentence() {
        let sentence = |outcome| {
            let text = text(outcome);
            text.split(" (").next().unwrap_or("").to_string()
        };
        // With a place, and those that have a sentence without one.
        let with = (1..=9).chain(11..=14).chain(16..=23);
        let with = with.map(|number| sentence(placed(number, 0)));
        let mut sentences: Vec<String> = with.collect();
        sentences.extend([3, 23].map(|number| sentence(outcome(number, 0, 0))));
        let all = sentences.len();
        sentences.sort();
        sentences.dedup();
        assert_eq!(sentences.len(), all);
    }
}
