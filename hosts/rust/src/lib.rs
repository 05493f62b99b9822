//! The bookkeeping of an Oblivious HTTP gateway (RFC 9458), and the client's side of it: a Rust face
//! of the proved library `libsealwax.a`.
//!
//! The library reads key lists and requests, admits exchanges, counts key uses, keeps pending
//! exchanges, and says what goes out and in which form; and it reads the request inside
//! ([`Request`], RFC 9292). HPKE, ciphers, sockets and random bytes are yours. No rule of the library
//! is in this crate: every refusal, status and length is the library's answer.
//!
//! # A whole exchange
//!
//! ```
//! use sealwax::{exporter, split, Configuration, Gateway, KeyList, Pair};
//! # // Stand-ins for a host's HPKE, which keep every length as it would be.
//! # mod hpke {
//! #     pub fn seal(_: &[u8], _: &[u8], plain: &[u8]) -> ([u8; 32], Vec<u8>) {
//! #         ([0x44; 32], [plain, &[0; 16]].concat())
//! #     }
//! #     pub fn open(_: &[u8], _: &[u8], sealed: &[u8]) -> Option<Vec<u8>> {
//! #         Some(sealed[..sealed.len() - 16].to_vec())
//! #     }
//! #     pub fn export(_: &[u8], length: usize) -> Vec<u8> {
//! #         vec![0x66; length]
//! #     }
//! # }
//! # fn random(length: usize) -> Vec<u8> {
//! #     vec![0x55; length]
//! # }
//! # fn seal_response(_: &[u8], _: &[u8], plain: &[u8]) -> Vec<u8> {
//! #     [plain, &[0; 16]].concat()
//! # }
//!
//! // The gateway publishes its keys. Each may be used a million times.
//! let pair = Pair { kdf: 0x0001, aead: 0x0001 };
//! let list = KeyList::write(&[Configuration {
//!     key_id: 7,
//!     kem: 0x0020,
//!     public_key: &[0x11; 32],
//!     pairs: &[pair],
//! }])?;
//! let mut gateway = Gateway::setup(&list, 1_000_000)?;
//!
//! // A client chooses of the list, seals its request and puts the head in front.
//! let choice = KeyList::new(&list).choose(&[0x0020], &[pair])?;
//! let (enc, ciphertext) = hpke::seal(choice.public_key, &choice.info()?, b"a request");
//! let request = [&choice.head(&enc)?.bytes[..], &ciphertext].concat();
//!
//! // The gateway admits it. A refusal says the status and problem type to send.
//! let asked = gateway.admit(&request)?;
//!
//! // The host opens it, and says how that went.
//! let opened = match hpke::open(asked.info(), asked.enc(), asked.ciphertext()) {
//!     Some(plain) => asked
//!         .opened(&mut gateway, plain.len())
//!         .map_err(|refused| refused.abandon(&mut gateway))?,
//!     None => {
//!         // What goes out now is not sealed: the status alone.
//!         let unprotected = asked.failed(&mut gateway).map_err(|refused| refused.refusal)?;
//!         assert_eq!(unprotected.status(), 422);
//!         return Ok(());
//!     }
//! };
//!
//! // The host asks the target, and seals what comes back with a nonce and a secret of one length.
//! let plain = b"a response";
//! let exporter = exporter(opened.aead())?;
//! let secret = hpke::export(&exporter.context, exporter.secret_length);
//! let nonce = random(exporter.secret_length);
//! let sealed = opened
//!     .respond(&mut gateway, &nonce, plain.len())
//!     .map_err(|refused| refused.abandon(&mut gateway))?;
//! let response = [&nonce[..], &seal_response(&secret, &sealed.salt, plain)].concat();
//! assert_eq!((sealed.status, sealed.length), (200, response.len()));
//!
//! // The client takes the response apart.
//! let (nonce, ciphertext) = split(choice.pair.aead, &response)?;
//! assert_eq!((nonce.len(), ciphertext.len()), (16, plain.len() + 16));
//! # Ok::<(), sealwax::Refusal>(())
//! ```
//!
//! # Two ways to carry an exchange
//!
//! **As a value.** [`Gateway::admit`] gives an [`Asked`]; [`Asked::opened`] makes it an [`Opened`];
//! [`Opened::respond`] closes it. Each step takes the value, so a step out of turn does not compile,
//! nor does a second response. A refused step hands the value back in [`Refused`], so nothing is
//! lost. This is the way to choose where one task has the exchange from beginning to end. A value
//! does not hold the gateway, so it may go to another thread.
//!
//! **By ticket.** [`Gateway::open_ticket`], [`Gateway::fail_ticket`], [`Gateway::respond_ticket`]
//! and [`Gateway::abandon_ticket`] take the number that [`Asked::into_ticket`] gives. This is for a
//! host that keeps exchanges in a table of its own, where a value cannot be moved out: a job queue, a
//! sweep of those that wait too long. The library refuses a step out of turn with 11 or 12.
//!
//! Both are the same calls, and may be mixed: a value whose exchange was closed by ticket gets 11.
//!
//! # What to know
//!
//! - An exchange that is dropped stays pending until its ticket is abandoned: dropping cannot reach
//!   the gateway. 128 may be pending at once, so keep the ticket, or abandon.
//! - Only the ticket ties an exchange to its gateway. Another gateway answers 11 where it has no such
//!   ticket pending, 12 or 13 where that one is in another state or has other lengths, and otherwise
//!   takes the step on its own exchange of that ticket. Nothing breaks, but a host with two
//!   gateways must keep their exchanges apart.
//! - A use is counted at admission and never given back, not even where opening fails.
//! - A [`Gateway`] needs one lock: `Mutex<Gateway>`. HPKE can be done outside of it.

#![deny(missing_docs)]
#![deny(unsafe_code)]
#![deny(clippy::undocumented_unsafe_blocks)]
// A refused step is as large as the exchange that it hands back.
#![allow(clippy::result_large_err)]

mod bytes;
mod client;
mod exchange;
mod gateway;
mod key_list;
mod message;
#[allow(unsafe_code)]
mod raw;
mod refusal;

pub use bytes::Bytes;
pub use client::{exporter, head, split, Exporter, Head};
pub use exchange::{Asked, Opened, Refused, Sealed};
pub use gateway::{Gateway, KeyReport, Report, Ticket};
pub use key_list::{Checked, Choice, Configuration, KeyList, Pair};
pub use message::{Fields, Request};
pub use raw::{
    EXPORTER_CONTEXT_LENGTH, INFO_LENGTH, LONGEST_HEAD, LONGEST_LIST, LONGEST_LIST_READ,
    LONGEST_SALT,
};
pub use refusal::{Field, Refusal, Unprotected, OHTTP_KEY};
