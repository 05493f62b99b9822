//! The request inside: a binary HTTP message (RFC 9292), read where it lies.

use crate::raw;
use crate::refusal::Refusal;
use std::fmt;
use std::iter::FusedIterator;

/// The request inside an encapsulated one: a known-length request of RFC 9292, over the bytes that
/// hold it. Nothing is copied: every part is one of the message.
///
/// A part that is missing at the message's end is empty. A field's name is one or more lower-case
/// token characters, and its value has no NUL, CR or LF and no blank at either end. Method, scheme,
/// authority, path and content may be any bytes: what they mean is yours to judge.
///
/// ```
/// use sealwax::Request;
///
/// // RFC 9458, Appendix A, with a header section: `accept: text/plain`.
/// let message = b"\0\x03GET\x05https\x0bexample.com\x01/\x12\x06accept\x0atext/plain";
/// let request = Request::read(message)?;
/// assert_eq!((request.method(), request.path()), (&b"GET"[..], &b"/"[..]));
/// for (name, value) in request.headers() {
///     assert_eq!((name, value), (&b"accept"[..], &b"text/plain"[..]));
/// }
/// assert_eq!((request.content(), request.trailers().len()), (&b""[..], 0));
///
/// let refusal = Request::read(&message[..30]).unwrap_err();
/// assert_eq!(
///     refusal.to_string(),
///     "the message ends at byte 30, and bytes are missing (refusal 23)"
/// );
/// # Ok::<(), sealwax::Refusal>(())
/// ```
#[derive(Clone, Copy, PartialEq, Eq)]
pub struct Request<'m> {
    message: &'m [u8],
    places: raw::RequestResult,
}

/// The fields of a section in order, each a name and a value, as parts of the message.
#[derive(Clone)]
pub struct Fields<'m> {
    /// The message up to the section's end.
    message: &'m [u8],
    place: usize,
    left: usize,
}

impl<'m> Request<'m> {
    /// Reads a message and judges all of it. Refusal: 23, with the first wrong byte, or the message's
    /// length where bytes are missing. It has no status: what goes out is sealed, and yours.
    pub fn read(message: &'m [u8]) -> Result<Request<'m>, Refusal> {
        let places = raw::request(message);
        Refusal::or_in_message(places.outcome, message, Request { message, places })
    }

    /// The method.
    pub fn method(&self) -> &'m [u8] {
        part(self.message, self.places.method)
    }

    /// The scheme.
    pub fn scheme(&self) -> &'m [u8] {
        part(self.message, self.places.scheme)
    }

    /// The authority.
    pub fn authority(&self) -> &'m [u8] {
        part(self.message, self.places.authority)
    }

    /// The path.
    pub fn path(&self) -> &'m [u8] {
        part(self.message, self.places.path)
    }

    /// The header section's fields.
    pub fn headers(&self) -> Fields<'m> {
        self.fields(self.places.headers)
    }

    /// The content.
    pub fn content(&self) -> &'m [u8] {
        part(self.message, self.places.content)
    }

    /// The trailer section's fields.
    pub fn trailers(&self) -> Fields<'m> {
        self.fields(self.places.trailers)
    }

    /// How many zeros stand behind the message's last part.
    pub fn padding(&self) -> usize {
        part(self.message, self.places.padding).len()
    }

    fn fields(&self, section: raw::Section) -> Fields<'m> {
        Fields {
            message: self.message.get(..section.span.end).unwrap_or_default(),
            place: section.span.start,
            left: section.fields,
        }
    }
}

impl<'m> Iterator for Fields<'m> {
    type Item = (&'m [u8], &'m [u8]);

    #[inline]
    fn next(&mut self) -> Option<Self::Item> {
        self.left = self.left.checked_sub(1)?;
        // The section was judged and has so many fields, so none of them is refused.
        let field = raw::next_field(self.message, self.place);
        self.place = field.next;
        let name = part(self.message, field.name);
        Some((name, part(self.message, field.value)))
    }

    fn size_hint(&self) -> (usize, Option<usize>) {
        (self.left, Some(self.left))
    }
}

impl ExactSizeIterator for Fields<'_> {}

impl FusedIterator for Fields<'_> {}

/// Shows how much there is, and nothing that was sealed.
impl fmt::Debug for Request<'_> {
    fn fmt(&self, f: &mut fmt::Formatter<'_>) -> fmt::Result {
        f.debug_struct("Request")
            .field("bytes", &self.message.len())
            .field("headers", &self.headers())
            .field("content", &self.content().len())
            .field("trailers", &self.trailers())
            .field("padding", &self.padding())
            .finish()
    }
}

impl fmt::Debug for Fields<'_> {
    fn fmt(&self, f: &mut fmt::Formatter<'_>) -> fmt::Result {
        f.debug_tuple("Fields").field(&self.left).finish()
    }
}

/// A part of the message. The library's places all lie in it.
#[inline]
fn part(message: &[u8], span: raw::Span) -> &[u8] {
    message.get(span.start..span.end).unwrap_or_default()
}

#[cfg(test)]
mod tests {
    use super::*;

    /// Each part, and padding of two bytes.
    const WHOLE: &[u8] = b"\0\x01m\x01s\x01a\x01p\x07\x01b\x01c\x01b\0\x02de\x03\x01f\0\0\0";

    /// Parts of the message, not copies.
    #[test]
    fn every_part_lies_in_the_message() {
        let request = Request::read(WHOLE).unwrap();
        let (header, trailer) = (request.headers().next(), request.trailers().next());
        for (given, place) in [
            (request.method(), 2..3),
            (request.scheme(), 4..5),
            (request.authority(), 6..7),
            (request.path(), 8..9),
            (header.unwrap().0, 11..12),
            (header.unwrap().1, 13..14),
            (request.content(), 18..20),
            (trailer.unwrap().0, 22..23),
            (trailer.unwrap().1, 24..24),
        ] {
            assert!(std::ptr::eq(given, &WHOLE[place.clone()]), "{place:?}");
        }
        assert_eq!(request.padding(), 2);
    }

    #[test]
    fn fields_are_counted() {
        let mut fields = Request::read(WHOLE).unwrap().headers();
        for left in [2, 1] {
            assert_eq!(
                (fields.len(), fields.size_hint()),
                (left, (left, Some(left)))
            );
            assert_eq!(fields.clone().count(), left);
            assert!(fields.next().is_some());
        }
        // At the end it stays there.
        for _ in 0..3 {
            assert_eq!((fields.len(), fields.next()), (0, None));
        }
    }

    #[test]
    fn shown_without_what_was_sealed() {
        let request = Request::read(WHOLE).unwrap();
        assert_eq!(
            format!("{request:?}"),
            "Request { bytes: 26, headers: Fields(2), content: 2, trailers: Fields(1), padding: 2 }"
        );
    }

    #[test]
    fn a_refusal_says_where() {
        for (end, wrong) in [(0, 0), (3, 3), (19, 19), (23, 23)] {
            let refusal = Request::read(&WHOLE[..end]).unwrap_err();
            assert!(matches!(refusal, Refusal::BadMessage { .. }));
            let field = refusal.field().unwrap();
            assert_eq!((refusal.number(), field.place()), (23, wrong));
            assert_eq!((refusal.status(), field.value()), (None, None));
        }
    }
}
