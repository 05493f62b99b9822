//! An independent implementation of the gateway's bookkeeping (document 01), as a library: the
//! program `reference` runs it, and the hosts' tests hold their answers against it.

// Modules are public for that program and those tests, not as an interface for others.
#![allow(clippy::new_without_default, clippy::should_implement_trait)]

pub mod algorithms;
pub mod answer;
pub mod book;
pub mod call;
pub mod client;
pub mod compare;
pub mod day;
pub mod gateway;
pub mod generate;
pub mod integer;
pub mod keeper;
pub mod key_list;
pub mod lines;
pub mod list_writer;
pub mod message;
pub mod moved;
pub mod pending;
pub mod perform;
pub mod random;
pub mod refusal;
pub mod replay;
pub mod request;
pub mod request_cases;
pub mod section;
pub mod skipped;
#[cfg(test)]
mod skipping;
pub mod table;
#[cfg(test)]
mod wrong_lists;
