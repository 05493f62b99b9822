//! The request inside as the crate reads it, held against the reference.

use reference::message::read_message;
use sealwax::{Field, Request};

/// Each part and field, or the refusal's number and place. Gives the place where it is refused.
pub fn compare_request(message: &[u8]) -> Option<usize> {
    let expected = match read_message(message) {
        Ok(expected) => expected,
        Err(place) => {
            let given = Request::read(message).expect_err("refused");
            let given_place = given.field().map(Field::place);
            assert_eq!((given.number(), given_place), (23, Some(place)));
            assert_eq!((given.status(), given.problem_type()), (None, None));
            let is_missing = given.to_string().contains("bytes are missing");
            assert_eq!(is_missing, place == message.len());
            return Some(place);
        }
    };
    let given = Request::read(message).expect("a good message");
    assert_eq!(given.method(), expected.method);
    assert_eq!(given.scheme(), expected.scheme);
    assert_eq!(given.authority(), expected.authority);
    assert_eq!(given.path(), expected.path);
    assert_eq!(given.content(), expected.content);
    assert_eq!(given.padding(), expected.padding);
    for (given, expected) in [
        (given.headers(), expected.headers),
        (given.trailers(), expected.trailers),
    ] {
        assert_eq!(given.len(), expected.fields().count());
        assert!(given.eq(expected.fields()));
    }
    None
}
