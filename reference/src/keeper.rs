//! What gateway and book both do, call by call: 01, "An exchange, step by step".

use crate::algorithms::Pair;
use crate::refusal::Refusal;
use std::ops::Range;

/// "1 to 1,000,000,000"
pub const LARGEST_CAP: u64 = 1_000_000_000;
/// "a table of 128 pending exchanges"
pub const TABLE_SIZE: usize = 128;
/// "The plain response has 0 to 65,536 bytes."
pub const LONGEST_PLAIN: u64 = 65_536;

/// "The answer holds ticket, key id, the pair, and where enc and ciphertext start and end."
#[derive(Clone, Debug, PartialEq, Eq)]
pub struct Admitted {
    pub ticket: u64,
    pub key_id: u8,
    pub pair: Pair,
    pub enc: Range<usize>,
    pub ciphertext: Range<usize>,
}

/// What an accepted open result answers.
#[derive(Clone, Copy, Debug, PartialEq, Eq)]
pub enum Opening {
    Opened,
    Failed,
}

/// "per key in list order, used count and retirement"
#[derive(Clone, Copy, Debug, PartialEq, Eq)]
pub struct KeyReport {
    pub id: u8,
    pub count: u64,
    pub retired: bool,
}

/// "... last ticket, number pending"
#[derive(Clone, Debug, PartialEq, Eq)]
pub struct Report {
    pub last_ticket: u64,
    pub pending: usize,
    pub keys: Vec<KeyReport>,
}

/// Setup and the six calls of demand 3.
pub trait Keeper: Sized {
    /// The keeper that setup hands back and the number of its keys. Order: the list's, 17.
    fn setup(cap: u64, list: &[u8]) -> (Self, Result<usize, Refusal>);
    /// Order: 2, 1 (below 7), 3, 1 (shortest), 4, 5, 6, 7, 8, 9, 14.
    fn admit(&mut self, request: &[u8], buffer: &mut [u8]) -> Result<Admitted, Refusal>;
    /// Order: 11, 12, 13.
    fn open(&mut self, ticket: u64, success: bool, n: u64) -> Result<Opening, Refusal>;
    /// The encapsulated length. Order: 11, 12, 13, 14.
    fn respond(
        &mut self,
        ticket: u64,
        enc: &[u8],
        nonce: &[u8],
        plain: u64,
        buffer: &mut [u8],
    ) -> Result<u64, Refusal>;
    /// Only 11 can refuse it: it is allowed from asked and from opened.
    fn abandon(&mut self, ticket: u64) -> Result<(), Refusal>;
    /// Order: 4, 7.
    fn retire(&mut self, key_id: u8) -> Result<(), Refusal>;
    fn report(&self) -> Report;
}
