//! An exchange as a value that moves from asked to opened to closed.

use crate::bytes::Bytes;
use crate::gateway::{Gateway, Ticket};
use crate::raw;
use crate::refusal::{Refusal, Unprotected};
use std::error::Error;
use std::fmt;

/// A request's head is 7 bytes and enc.
const LONGEST_ENC: usize = raw::LONGEST_HEAD - 7;

/// What stays the same from step to step.
#[derive(Clone, Copy, Debug)]
pub(crate) struct Admission {
    pub(crate) ticket: Ticket,
    pub(crate) key_id: u8,
    pub(crate) kdf: u16,
    pub(crate) aead: u16,
}

/// An admitted exchange, whose request the host is to open.
///
/// Each step takes the value, so that none can be made twice:
///
/// ```compile_fail,E0382
/// # fn twice(gateway: &mut sealwax::Gateway, asked: sealwax::Asked) {
/// let unprotected = asked.failed(gateway);
/// let abandoned = asked.abandon(gateway);
/// # }
/// ```
///
/// and a response cannot come before the opening:
///
/// ```compile_fail,E0599
/// # fn too_early(gateway: &mut sealwax::Gateway, asked: sealwax::Asked, nonce: &[u8]) {
/// let sealed = asked.respond(gateway, nonce, 3);
/// # }
/// ```
///
/// An exchange that is dropped stays pending and keeps one of the gateway's 128 places, until its
/// ticket is abandoned by [`Gateway::abandon_ticket`].
#[must_use = "an exchange that is dropped stays pending in the gateway"]
pub struct Asked<'r> {
    admission: Admission,
    enc: &'r [u8],
    ciphertext: &'r [u8],
    info: [u8; raw::INFO_LENGTH],
}

impl<'r> Asked<'r> {
    pub(crate) fn new(
        admission: Admission,
        enc: &'r [u8],
        ciphertext: &'r [u8],
        info: [u8; raw::INFO_LENGTH],
    ) -> Asked<'r> {
        Asked {
            admission,
            enc,
            ciphertext,
            info,
        }
    }

    /// The exchange's ticket.
    pub fn ticket(&self) -> Ticket {
        self.admission.ticket
    }

    /// The id of the key that the request is sealed to.
    pub fn key_id(&self) -> u8 {
        self.admission.key_id
    }

    /// The KDF that the request names.
    pub fn kdf(&self) -> u16 {
        self.admission.kdf
    }

    /// The AEAD that the request names.
    pub fn aead(&self) -> u16 {
        self.admission.aead
    }

    /// The request's enc, HPKE's encapsulated key.
    pub fn enc(&self) -> &'r [u8] {
        self.enc
    }

    /// The request's ciphertext.
    pub fn ciphertext(&self) -> &'r [u8] {
        self.ciphertext
    }

    /// HPKE's info for this request.
    pub fn info(&self) -> &[u8; raw::INFO_LENGTH] {
        &self.info
    }

    /// Says that the request was opened to `n` bytes, the ciphertext's length less 16. Refusal: 13.
    pub fn opened(self, gateway: &mut Gateway, n: usize) -> Result<Opened, Refused<Asked<'r>>> {
        match gateway.open_ticket(self.ticket(), n) {
            Ok(()) => Ok(Opened {
                admission: self.admission,
                enc: Bytes::copy(self.enc),
            }),
            Err(refusal) => Err(Refused::new(refusal, self)),
        }
    }

    /// Says that the request could not be opened: closes the exchange and answers what is to be
    /// sent, status 422.
    pub fn failed(self, gateway: &mut Gateway) -> Result<Unprotected, Refused<Asked<'r>>> {
        let answer = gateway.fail_ticket(self.ticket());
        answer.map_err(|refusal| Refused::new(refusal, self))
    }

    /// Closes the exchange with no reply.
    pub fn abandon(self, gateway: &mut Gateway) -> Result<(), Refused<Asked<'r>>> {
        let answer = gateway.abandon_ticket(self.ticket());
        answer.map_err(|refusal| Refused::new(refusal, self))
    }

    /// Gives the value up for its ticket. The exchange stays pending: go on with the gateway's calls
    /// by ticket.
    pub fn into_ticket(self) -> Ticket {
        self.ticket()
    }
}

/// An opened exchange, which the host is to answer. Errors of the target or of what was opened are
/// answered too, as sealed responses (RFC 9458, 5.2).
///
/// It holds its enc, so a response cannot be bound to another one. It is closed at most once:
///
/// ```compile_fail,E0382
/// # fn twice(gateway: &mut sealwax::Gateway, opened: sealwax::Opened, nonce: &[u8]) {
/// let sealed = opened.respond(gateway, nonce, 3);
/// let again = opened.respond(gateway, nonce, 3);
/// # }
/// ```
///
/// and there is no second one of it:
///
/// ```compile_fail,E0599
/// # fn copied(opened: sealwax::Opened) {
/// let second = opened.clone();
/// # }
/// ```
///
/// One that is dropped stays pending, as an [`Asked`] does.
#[must_use = "an exchange that is dropped stays pending in the gateway"]
pub struct Opened {
    admission: Admission,
    enc: Bytes<LONGEST_ENC>,
}

impl Opened {
    /// The exchange's ticket.
    pub fn ticket(&self) -> Ticket {
        self.admission.ticket
    }

    /// The id of the key that the request was sealed to.
    pub fn key_id(&self) -> u8 {
        self.admission.key_id
    }

    /// The KDF that the request named.
    pub fn kdf(&self) -> u16 {
        self.admission.kdf
    }

    /// The AEAD that the request named.
    pub fn aead(&self) -> u16 {
        self.admission.aead
    }

    /// The request's enc.
    pub fn enc(&self) -> &[u8] {
        &self.enc
    }

    /// Closes the exchange with a response of `plain_length` bytes, to be sealed: at most 65,536,
    /// and a nonce as long as the secret of [`exporter`](crate::exporter). Refusal: 13.
    pub fn respond(
        self,
        gateway: &mut Gateway,
        nonce: &[u8],
        plain_length: usize,
    ) -> Result<Sealed, Refused<Opened>> {
        let answer = gateway.respond_ticket(self.ticket(), &self.enc, nonce, plain_length);
        answer.map_err(|refusal| Refused::new(refusal, self))
    }

    /// Closes the exchange with no reply.
    pub fn abandon(self, gateway: &mut Gateway) -> Result<(), Refused<Opened>> {
        let answer = gateway.abandon_ticket(self.ticket());
        answer.map_err(|refusal| Refused::new(refusal, self))
    }

    /// Gives the value up for its ticket, as [`Asked::into_ticket`] does.
    pub fn into_ticket(self) -> Ticket {
        self.ticket()
    }
}

/// What is needed to seal a response and send it.
#[derive(Clone, Copy, Debug, PartialEq, Eq)]
pub struct Sealed {
    /// The outer HTTP status, 200.
    pub status: u16,
    /// The length of the encapsulated response: nonce, plain response and tag.
    pub length: usize,
    /// The salt: enc, then nonce.
    pub salt: Bytes<{ raw::LONGEST_SALT }>,
}

/// A refused step, with the exchange as it was before: step again, keep it or abandon it.
#[derive(Debug)]
pub struct Refused<E> {
    /// Why the step is refused.
    pub refusal: Refusal,
    /// The exchange, unchanged.
    pub exchange: E,
}

impl<E> Refused<E> {
    fn new(refusal: Refusal, exchange: E) -> Refused<E> {
        Refused { refusal, exchange }
    }
}

impl Refused<Asked<'_>> {
    /// Closes the exchange with no reply, and keeps the reason.
    pub fn abandon(self, gateway: &mut Gateway) -> Refusal {
        // Where this is refused too, the exchange is not pending.
        let _ = self.exchange.abandon(gateway);
        self.refusal
    }
}

impl Refused<Opened> {
    /// Closes the exchange with no reply, and keeps the reason.
    pub fn abandon(self, gateway: &mut Gateway) -> Refusal {
        let _ = self.exchange.abandon(gateway);
        self.refusal
    }
}

impl<E> fmt::Display for Refused<E> {
    fn fmt(&self, f: &mut fmt::Formatter<'_>) -> fmt::Result {
        self.refusal.fmt(f)
    }
}

impl<E: fmt::Debug> Error for Refused<E> {}

/// Shows the admission; a request may be long.
impl fmt::Debug for Asked<'_> {
    fn fmt(&self, f: &mut fmt::Formatter<'_>) -> fmt::Result {
        f.debug_tuple("Asked").field(&self.admission).finish()
    }
}

impl fmt::Debug for Opened {
    fn fmt(&self, f: &mut fmt::Formatter<'_>) -> fmt::Result {
        f.debug_tuple("Opened").field(&self.admission).finish()
    }
}

#[cfg(test)]
mod tests {
    use super::*;
    use crate::key_list::tests::edge_list;

    const ENC: [u8; 32] = [0x44; 32];
    const NONCE: [u8; 32] = [0x55; 32];

    fn gateway() -> Gateway {
        Gateway::setup(&edge_list(), 9).unwrap()
    }

    /// 01's edge request with a ciphertext of 20 bytes.
    fn request() -> Vec<u8> {
        let head = [7, 0x00, 0x20, 0x00, 0x01, 0x00, 0x03];
        [&head[..], &ENC, &[0x66; 20]].concat()
    }

    #[test]
    fn parts_of_the_request() {
        let (mut gateway, request) = (gateway(), request());
        let asked = gateway.admit(&request).unwrap();
        assert_eq!(asked.ticket(), Ticket(1));
        assert_eq!((asked.key_id(), asked.kdf(), asked.aead()), (7, 1, 3));
        assert_eq!(asked.enc(), ENC);
        assert_eq!(asked.ciphertext(), [0x66; 20]);
        assert_eq!(asked.info()[..22], *b"message/bhttp request\0");
        assert_eq!(asked.info()[22..], request[..7]);
    }

    #[test]
    fn from_asked_to_sealed() {
        let (mut gateway, request) = (gateway(), request());
        let asked = gateway.admit(&request).unwrap();
        let opened = asked.opened(&mut gateway, 4).unwrap();
        assert_eq!(opened.ticket(), Ticket(1));
        assert_eq!((opened.key_id(), opened.kdf(), opened.aead()), (7, 1, 3));
        assert_eq!(opened.enc(), ENC);
        // What was admitted is not borrowed any more.
        drop(request);
        let sealed = opened.respond(&mut gateway, &NONCE, 65_536).unwrap();
        assert_eq!((sealed.status, sealed.length), (200, 65_584));
        assert_eq!(sealed.salt[..], [ENC, NONCE].concat());
        assert_eq!(gateway.report().pending, 0);
    }

    #[test]
    fn a_refused_step_hands_the_exchange_back() {
        let (mut gateway, request) = (gateway(), request());
        let asked = gateway.admit(&request).unwrap();
        let refused = asked.opened(&mut gateway, 20).unwrap_err();
        assert_eq!(refused.refusal.number(), 13);
        assert_eq!(refused.to_string(), refused.refusal.to_string());
        let opened = refused.exchange.opened(&mut gateway, 4).unwrap();
        // A nonce of Nn bytes, 12, is too short.
        let refused = opened.respond(&mut gateway, &NONCE[..12], 0).unwrap_err();
        assert_eq!(refused.refusal.number(), 13);
        let refused = refused
            .exchange
            .respond(&mut gateway, &NONCE, 65_537)
            .unwrap_err();
        assert_eq!(refused.refusal.number(), 13);
        assert_eq!(gateway.report().pending, 1);
        assert_eq!(refused.abandon(&mut gateway).number(), 13);
        assert_eq!(gateway.report().pending, 0);
    }

    #[test]
    fn a_failed_opening_and_an_abandoned_request() {
        let (mut gateway, request) = (gateway(), request());
        let asked = gateway.admit(&request).unwrap();
        assert_eq!(asked.failed(&mut gateway).unwrap().status(), 422);
        let asked = gateway.admit(&request).unwrap();
        asked.abandon(&mut gateway).unwrap();
        let report = gateway.report();
        assert_eq!((report.pending, report.keys[0].count), (0, 2));
    }

    #[test]
    fn a_dropped_exchange_stays_pending() {
        let (mut gateway, request) = (gateway(), request());
        let ticket = {
            let asked = gateway.admit(&request).unwrap();
            asked.ticket()
        };
        assert_eq!(gateway.report().pending, 1);
        gateway.abandon_ticket(ticket).unwrap();
        assert_eq!(gateway.report().pending, 0);
    }

    #[test]
    fn a_value_whose_exchange_was_closed_by_ticket() {
        let (mut gateway, request) = (gateway(), request());
        let asked = gateway.admit(&request).unwrap();
        gateway.abandon_ticket(asked.ticket()).unwrap();
        let refused = asked.opened(&mut gateway, 4).unwrap_err();
        assert_eq!(refused.abandon(&mut gateway).number(), 11);
    }

    #[test]
    fn another_gateway_knows_only_the_ticket() {
        let (mut gateway, mut other, request) = (gateway(), self::gateway(), request());
        let asked = gateway.admit(&request).unwrap();
        let refused = asked.opened(&mut other, 4).unwrap_err();
        assert_eq!(refused.refusal.number(), 11);
        let elsewhere = other.admit(&request).unwrap();
        let opened = elsewhere.opened(&mut other, 4).unwrap();
        let refused = refused.exchange.failed(&mut other).unwrap_err();
        assert_eq!(refused.refusal.number(), 12);
        // A step that fits the other's exchange of that ticket is taken there.
        refused.exchange.abandon(&mut other).unwrap();
        assert_eq!((gateway.report().pending, other.report().pending), (1, 0));
        let refused = opened.abandon(&mut other).unwrap_err();
        assert_eq!(refused.refusal.number(), 11);
    }

    #[test]
    fn shown_without_the_request() {
        let (mut gateway, request) = (gateway(), request());
        let asked = gateway.admit(&request).unwrap();
        let admission = "Admission { ticket: Ticket(1), key_id: 7, kdf: 1, aead: 3 }";
        assert_eq!(format!("{asked:?}"), format!("Asked({admission})"));
        let opened = asked.opened(&mut gateway, 4).unwrap();
        assert_eq!(format!("{opened:?}"), format!("Opened({admission})"));
        opened.abandon(&mut gateway).unwrap();
    }

    #[test]
    fn exchanges_go_to_other_threads() {
        fn sent<T: Send>() {}
        sent::<Gateway>();
        sent::<Asked>();
        sent::<Opened>();
    }
}
