//! Refusals: 01, "Refusal numbers"; 02, A2.

/// A refusal's number and, where there is one, its place. The answer says whether there is one,
/// and not the number: the list writer's 3 has a place, admit's and head's have none.
#[derive(Clone, Copy, Debug, PartialEq, Eq)]
pub struct Refusal {
    pub number: u8,
    pub place: Option<usize>,
}

/// A refusal without a place.
pub fn refusal(number: u8) -> Refusal {
    Refusal {
        number,
        place: None,
    }
}

/// A refusal with "the offset of the first byte of the field at fault".
pub fn refusal_at(number: u8, place: usize) -> Refusal {
    Refusal {
        number,
        place: Some(place),
    }
}

/// The unprotected HTTP status that admit sends: the table's last column.
pub fn status(number: u8) -> u16 {
    match number {
        2 => 413,
        9 => 503,
        14 => 500,
        _ => 400,
    }
}

/// "Key problems carry the `ohttp-key` problem type": 4 to 8 in the table.
pub fn is_key_problem(number: u8) -> bool {
    (4..=8).contains(&number)
}
