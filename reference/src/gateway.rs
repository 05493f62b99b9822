//! The gateway: 01, "An exchange, step by step".

use crate::algorithms::{nenc, response_nonce_length, Pair, TAG_LENGTH};
use crate::keeper::{Admitted, Keeper, KeyReport, Opening, Report, LARGEST_CAP, LONGEST_PLAIN};
use crate::key_list::{read_list, Configuration};
use crate::pending::PendingTable;
use crate::refusal::{refusal, Refusal};
use crate::request::{info, read_request, write_front, Request, INFO_LENGTH};

/// A configured key and its use.
#[derive(Clone, Debug)]
pub struct Key {
    pub id: u8,
    pub kem: u16,
    pub pairs: Vec<Pair>,
    pub count: u64,
    pub retired: bool,
}

#[derive(Clone, Copy, Debug, PartialEq, Eq)]
pub enum State {
    Asked,
    Opened,
}

/// A pending exchange.
#[derive(Clone, Debug)]
pub struct Exchange {
    pub key_id: u8,
    pub kem: u16,
    pub pair: Pair,
    pub ciphertext_length: usize,
    pub state: State,
}

#[derive(Clone, Debug)]
pub struct Gateway {
    pub cap: u64,
    pub last_ticket: u64,
    pub keys: Vec<Key>,
    pub pending: PendingTable,
}

impl Gateway {
    /// "A refused setup hands back a gateway without keys, cap 1, last ticket 0."
    pub fn without_keys() -> Gateway {
        Gateway::fresh(1, Vec::new())
    }

    fn fresh(cap: u64, configurations: Vec<Configuration>) -> Gateway {
        Gateway {
            cap,
            last_ticket: 0,
            keys: configurations.into_iter().map(unused_key).collect(),
            pending: PendingTable::new(),
        }
    }

    /// The place of the request's key in the list. Order: 4, 5, 6, 7, 8.
    fn usable_key(&self, request: &Request) -> Result<usize, Refusal> {
        let place = self
            .keys
            .iter()
            .position(|key| key.id == request.key_id)
            .ok_or_else(|| refusal(4))?;
        let key = &self.keys[place];
        if key.kem != request.kem {
            return Err(refusal(5));
        }
        if !request.pair.is_known() || !key.pairs.contains(&request.pair) {
            return Err(refusal(6));
        }
        if key.retired {
            return Err(refusal(7));
        }
        if key.count == self.cap {
            return Err(refusal(8));
        }
        Ok(place)
    }

    /// The place of a pending ticket's exchange, else 11.
    fn place(&self, ticket: u64) -> Result<usize, Refusal> {
        self.pending.place(ticket).ok_or_else(|| refusal(11))
    }
}

fn unused_key(configuration: Configuration) -> Key {
    Key {
        id: configuration.id,
        kem: configuration.kem,
        pairs: configuration.pairs,
        count: 0,
        retired: false,
    }
}

impl Exchange {
    /// "Success needs n = ciphertext length - 16"
    pub fn opened_length(&self) -> u64 {
        (self.ciphertext_length - TAG_LENGTH) as u64
    }

    /// Enc's and nonce's lengths; an admitted exchange has a known KEM and pair.
    pub fn reply_lengths(&self) -> (usize, usize) {
        let enc = nenc(self.kem).expect("a known KEM");
        let nonce = response_nonce_length(self.pair.aead).expect("a known AEAD");
        (enc, nonce)
    }
}

impl Keeper for Gateway {
    fn setup(cap: u64, list: &[u8]) -> (Gateway, Result<usize, Refusal>) {
        let read = match read_list(list) {
            Ok(read) => read,
            Err(refusal) => return (Gateway::without_keys(), Err(refusal)),
        };
        if !(1..=LARGEST_CAP).contains(&cap) {
            return (Gateway::without_keys(), Err(refusal(17)));
        }
        // "A list in which all are skipped sets up a gateway without keys": its cap is as given.
        let gateway = Gateway::fresh(cap, read.configurations);
        let keys = gateway.keys.len();
        (gateway, Ok(keys))
    }

    fn admit(&mut self, request: &[u8], buffer: &mut [u8]) -> Result<Admitted, Refusal> {
        let read = read_request(request)?;
        let key = self.usable_key(&read)?;
        let place = self.pending.free_place().ok_or_else(|| refusal(9))?;
        if buffer.len() < INFO_LENGTH {
            return Err(refusal(14));
        }
        write_front(buffer, &info(request));
        self.keys[key].count += 1;
        self.last_ticket += 1;
        let exchange = Exchange {
            key_id: read.key_id,
            kem: read.kem,
            pair: read.pair,
            ciphertext_length: read.ciphertext.len(),
            state: State::Asked,
        };
        self.pending.put(place, self.last_ticket, exchange);
        Ok(Admitted {
            ticket: self.last_ticket,
            key_id: read.key_id,
            pair: read.pair,
            enc: read.enc,
            ciphertext: read.ciphertext,
        })
    }

    fn open(&mut self, ticket: u64, success: bool, n: u64) -> Result<Opening, Refusal> {
        let place = self.place(ticket)?;
        let exchange = self.pending.at(place);
        if exchange.state != State::Asked {
            return Err(refusal(12));
        }
        // "Failure ignores n"
        if !success {
            self.pending.take_out(place);
            return Ok(Opening::Failed);
        }
        if n != exchange.opened_length() {
            return Err(refusal(13));
        }
        exchange.state = State::Opened;
        Ok(Opening::Opened)
    }

    fn respond(
        &mut self,
        ticket: u64,
        enc: &[u8],
        nonce: &[u8],
        plain: u64,
        buffer: &mut [u8],
    ) -> Result<u64, Refusal> {
        let place = self.place(ticket)?;
        let exchange = self.pending.at(place);
        if exchange.state != State::Opened {
            return Err(refusal(12));
        }
        if (enc.len(), nonce.len()) != exchange.reply_lengths() || plain > LONGEST_PLAIN {
            return Err(refusal(13));
        }
        // "Salt: enc, then response nonce."
        let salt = [enc, nonce].concat();
        if buffer.len() < salt.len() {
            return Err(refusal(14));
        }
        write_front(buffer, &salt);
        self.pending.take_out(place);
        Ok((nonce.len() + TAG_LENGTH) as u64 + plain)
    }

    fn abandon(&mut self, ticket: u64) -> Result<(), Refusal> {
        let place = self.place(ticket)?;
        self.pending.take_out(place);
        Ok(())
    }

    fn retire(&mut self, key_id: u8) -> Result<(), Refusal> {
        let key = self
            .keys
            .iter_mut()
            .find(|key| key.id == key_id)
            .ok_or_else(|| refusal(4))?;
        if key.retired {
            return Err(refusal(7));
        }
        key.retired = true;
        Ok(())
    }

    fn report(&self) -> Report {
        let key_report = |key: &Key| KeyReport {
            id: key.id,
            count: key.count,
            retired: key.retired,
        };
        Report {
            last_ticket: self.last_ticket,
            pending: self.pending.len(),
            keys: self.keys.iter().map(key_report).collect(),
        }
    }
}

#[cfg(test)]
mod tests {
    use super::*;
    use crate::answer::hex;
    use crate::call::read_bytes;
    use crate::key_list::tests::{configuration, edge_list, unknown};
    use crate::refusal::refusal_at;
    use crate::request::tests::request;

    fn edge_gateway(cap: u64) -> Gateway {
        let (gateway, answer) = Gateway::setup(cap, &edge_list());
        assert_eq!(answer, Ok(1));
        gateway
    }

    fn edge_request() -> Vec<u8> {
        request(7, 0x0020, 1, 3, 55)
    }

    fn admit(gateway: &mut Gateway, request: &[u8]) -> Result<Admitted, u8> {
        let mut buffer = [0xa5; 29];
        gateway
            .admit(request, &mut buffer)
            .map_err(|refusal| refusal.number)
    }

    fn respond(gateway: &mut Gateway, ticket: u64) -> Result<u64, Refusal> {
        gateway.respond(ticket, &[1; 32], &[2; 32], 5, &mut [0xa5; 64])
    }

    #[test]
    fn setup_refuses_in_order() {
        for cap in [0, 1_000_000_001, u64::MAX] {
            let (gateway, answer) = Gateway::setup(cap, &edge_list());
            assert_eq!(answer, Err(refusal(17)));
            assert_eq!((gateway.cap, gateway.last_ticket), (1, 0));
            assert!(gateway.keys.is_empty());
            assert_eq!(Gateway::setup(cap, &[]).1, Err(refusal_at(18, 0)));
        }
        assert_eq!(Gateway::setup(1, &edge_list()).1, Ok(1));
        assert_eq!(Gateway::setup(1_000_000_000, &edge_list()).1, Ok(1));
    }

    /// "A list in which all are skipped sets up a gateway without keys": the cap is the one given.
    #[test]
    fn setup_where_all_are_skipped() {
        let list = [unknown(7, 0x22, 41), unknown(7, 0x30, 3)].concat();
        for cap in [1, 2, 1_000_000_000] {
            let (mut gateway, answer) = Gateway::setup(cap, &list);
            assert_eq!(answer, Ok(0));
            assert_eq!((gateway.cap, gateway.last_ticket), (cap, 0));
            assert!(gateway.keys.is_empty());
            // "Requests naming that KEM still get 3."
            assert_eq!(admit(&mut gateway, &request(7, 0x22, 1, 3, 55)), Err(3));
            assert_eq!(admit(&mut gateway, &edge_request()), Err(4));
            assert_eq!(gateway.retire(7), Err(refusal(4)));
            for ticket in [0, 1] {
                assert_eq!(gateway.open(ticket, true, 0), Err(refusal(11)));
                assert_eq!(respond(&mut gateway, ticket), Err(refusal(11)));
                assert_eq!(gateway.abandon(ticket), Err(refusal(11)));
            }
            let report = gateway.report();
            assert_eq!((report.last_ticket, report.pending), (0, 0));
            assert!(report.keys.is_empty());
        }
        // The list before 17, as in any list.
        for cap in [0, 1_000_000_001] {
            let (gateway, answer) = Gateway::setup(cap, &list);
            assert_eq!(answer, Err(refusal(17)));
            assert_eq!(gateway.cap, 1);
            let cut = &list[..list.len() - 1];
            assert_eq!(Gateway::setup(cap, cut).1, Err(refusal_at(18, 43)));
        }
    }

    #[test]
    fn setup_where_one_is_skipped() {
        let other = configuration(9, 0x0020, 32, &[0, 1, 0, 3]);
        // The skipped one has the key id of the last.
        let list = [edge_list(), unknown(9, 0x22, 41), other].concat();
        let (mut gateway, answer) = Gateway::setup(5, &list);
        assert_eq!((answer, gateway.cap), (Ok(2), 5));
        let ids: Vec<u8> = gateway.keys.iter().map(|key| key.id).collect();
        assert_eq!(ids, [7, 9]);
        assert_eq!(admit(&mut gateway, &request(9, 0x22, 1, 3, 55)), Err(3));
        assert_eq!(admit(&mut gateway, &edge_request()).unwrap().ticket, 1);
        let to_other = request(9, 0x20, 1, 3, 55);
        assert_eq!(admit(&mut gateway, &to_other).unwrap().ticket, 2);
    }

    #[test]
    fn an_admission() {
        let mut gateway = edge_gateway(1);
        let mut buffer = [0xa5; 30];
        let answer = gateway.admit(&edge_request(), &mut buffer);
        let admitted = Admitted {
            ticket: 1,
            key_id: 7,
            pair: Pair { kdf: 1, aead: 3 },
            enc: 7..39,
            ciphertext: 39..55,
        };
        assert_eq!(answer, Ok(admitted));
        let info = "6d6573736167652f626874747020726571756573740007002000010003";
        assert_eq!(hex(&buffer), format!("{info}a5"));
    }

    #[test]
    fn sizes_of_requests() {
        let mut gateway = edge_gateway(9);
        assert_eq!(admit(&mut gateway, &[]), Err(1));
        assert_eq!(admit(&mut gateway, &edge_request()[..54]), Err(1));
        assert!(admit(&mut gateway, &edge_request()).is_ok());
        let longest = request(7, 0x0020, 1, 3, 65_536);
        assert!(admit(&mut gateway, &longest).is_ok());
        assert_eq!(gateway.pending.get(&2).unwrap().ciphertext_length, 65_497);
        assert_eq!(admit(&mut gateway, &request(7, 32, 1, 3, 65_537)), Err(2));
        assert_eq!(admit(&mut gateway, &request(7, 34, 1, 3, 65_537)), Err(2));
    }

    #[test]
    fn wrong_pairs_kems_and_ids() {
        let mut gateway = edge_gateway(1);
        assert_eq!(admit(&mut gateway, &request(7, 0x20, 1, 1, 55)), Err(6));
        assert_eq!(admit(&mut gateway, &request(7, 0x10, 1, 3, 88)), Err(5));
        assert_eq!(admit(&mut gateway, &request(7, 0x10, 1, 3, 87)), Err(1));
        assert_eq!(admit(&mut gateway, &request(7, 0x22, 1, 3, 88)), Err(3));
        assert_eq!(admit(&mut gateway, &request(8, 0x10, 1, 1, 88)), Err(4));
    }

    #[test]
    fn halves_of_two_pairs_and_listed_unknown_pairs() {
        let pairs = [0, 1, 0, 3, 0, 2, 0, 1, 0, 4, 0, 1, 0, 1, 0xff, 0xff];
        let list = configuration(7, 0x0020, 32, &pairs);
        let (mut gateway, _) = Gateway::setup(9, &list);
        assert_eq!(admit(&mut gateway, &request(7, 0x20, 1, 1, 55)), Err(6));
        assert_eq!(admit(&mut gateway, &request(7, 0x20, 2, 3, 55)), Err(6));
        assert_eq!(admit(&mut gateway, &request(7, 0x20, 4, 1, 55)), Err(6));
        let exporter_only = request(7, 0x20, 1, 0xffff, 55);
        assert_eq!(admit(&mut gateway, &exporter_only), Err(6));
        assert!(admit(&mut gateway, &request(7, 0x20, 2, 1, 55)).is_ok());
    }

    #[test]
    fn order_of_6_to_14() {
        let mut gateway = edge_gateway(1);
        let small = &mut [0xa5; 28];
        assert_eq!(gateway.admit(&edge_request(), small), Err(refusal(14)));
        assert_eq!(small, &[0xa5; 28]);
        assert!(admit(&mut gateway, &edge_request()).is_ok());
        assert_eq!(gateway.admit(&edge_request(), small), Err(refusal(8)));
        gateway.retire(7).unwrap();
        assert_eq!(gateway.admit(&edge_request(), small), Err(refusal(7)));
        let other_pair = request(7, 0x20, 1, 1, 55);
        assert_eq!(gateway.admit(&other_pair, small), Err(refusal(6)));
    }

    #[test]
    fn cap_2() {
        let mut gateway = edge_gateway(2);
        assert_eq!(admit(&mut gateway, &edge_request()).unwrap().ticket, 1);
        assert_eq!(admit(&mut gateway, &edge_request()).unwrap().ticket, 2);
        assert_eq!(admit(&mut gateway, &edge_request()), Err(8));
        for ticket in [2, 1] {
            assert_eq!(gateway.open(ticket, true, 0), Ok(Opening::Opened));
            assert_eq!(respond(&mut gateway, ticket), Ok(53));
        }
        let report = gateway.report();
        assert_eq!((report.last_ticket, report.pending), (2, 0));
        assert_eq!(report.keys[0].count, 2);
        assert_eq!(admit(&mut gateway, &edge_request()), Err(8));
    }

    #[test]
    fn steps_of_an_exchange() {
        let mut gateway = edge_gateway(9);
        admit(&mut gateway, &edge_request()).unwrap();
        assert_eq!(respond(&mut gateway, 1), Err(refusal(12)));
        assert_eq!(gateway.open(1, true, 1), Err(refusal(13)));
        assert_eq!(gateway.open(1, true, u64::MAX), Err(refusal(13)));
        assert_eq!(gateway.open(1, true, 0), Ok(Opening::Opened));
        assert_eq!(gateway.open(1, true, 9), Err(refusal(12)));
        assert_eq!(gateway.open(1, false, 0), Err(refusal(12)));
        assert_eq!(respond(&mut gateway, 1), Ok(53));
        assert_eq!(respond(&mut gateway, 1), Err(refusal(11)));
        for ticket in [0, 1, 2, u64::MAX] {
            assert_eq!(gateway.open(ticket, true, 0), Err(refusal(11)));
            assert_eq!(gateway.abandon(ticket), Err(refusal(11)));
        }
    }

    #[test]
    fn failure_closes_whatever_n_is() {
        let mut gateway = edge_gateway(9);
        admit(&mut gateway, &edge_request()).unwrap();
        assert_eq!(gateway.open(1, false, u64::MAX), Ok(Opening::Failed));
        assert_eq!(gateway.open(1, false, 0), Err(refusal(11)));
        assert_eq!(gateway.keys[0].count, 1);
    }

    #[test]
    fn lengths_at_respond() {
        let mut gateway = edge_gateway(9);
        admit(&mut gateway, &edge_request()).unwrap();
        gateway.open(1, true, 0).unwrap();
        let wrong = [
            (31, 32, 0),
            (33, 32, 0),
            (32, 31, 0),
            (32, 33, 0),
            (32, 12, 0),
            (32, 16, 0),
            (32, 32, 65_537),
            (32, 32, u64::MAX),
        ];
        for (enc, nonce, plain) in wrong {
            // 13 comes before 14.
            let answer = gateway.respond(1, &vec![1; enc], &vec![2; nonce], plain, &mut []);
            assert_eq!(answer, Err(refusal(13)));
        }
        let small = &mut [0xa5; 63];
        let answer = gateway.respond(1, &[1; 32], &[2; 32], 65_536, small);
        assert_eq!(answer, Err(refusal(14)));
        assert_eq!(small, &[0xa5; 63]);
        let buffer = &mut [0xa5; 66];
        let answer = gateway.respond(1, &[1; 32], &[2; 32], 65_536, buffer);
        assert_eq!(answer, Ok(65_584));
        assert_eq!(buffer[..32], [1; 32]);
        assert_eq!(buffer[32..64], [2; 32]);
        assert_eq!(buffer[64..], [0xa5; 2]);
    }

    #[test]
    fn abandon_from_both_states() {
        let mut gateway = edge_gateway(9);
        admit(&mut gateway, &edge_request()).unwrap();
        admit(&mut gateway, &edge_request()).unwrap();
        gateway.open(2, true, 0).unwrap();
        assert_eq!(gateway.abandon(1), Ok(()));
        assert_eq!(gateway.abandon(2), Ok(()));
        assert_eq!(gateway.abandon(2), Err(refusal(11)));
        assert!(gateway.pending.is_empty());
    }

    #[test]
    fn retired_while_pending() {
        let mut gateway = edge_gateway(9);
        admit(&mut gateway, &edge_request()).unwrap();
        assert_eq!(gateway.retire(8), Err(refusal(4)));
        assert_eq!(gateway.retire(7), Ok(()));
        assert_eq!(gateway.retire(7), Err(refusal(7)));
        assert_eq!(admit(&mut gateway, &edge_request()), Err(7));
        assert_eq!(gateway.open(1, true, 0), Ok(Opening::Opened));
        assert_eq!(respond(&mut gateway, 1), Ok(53));
        assert_eq!(admit(&mut gateway, &edge_request()), Err(7));
    }

    #[test]
    fn a_full_table() {
        let mut gateway = edge_gateway(1_000);
        for ticket in 1..=128 {
            let admitted = admit(&mut gateway, &edge_request()).unwrap();
            assert_eq!(admitted.ticket, ticket);
        }
        assert_eq!(admit(&mut gateway, &edge_request()), Err(9));
        let answer = gateway.admit(&edge_request(), &mut []);
        assert_eq!(answer, Err(refusal(9)));
        gateway.abandon(64).unwrap();
        assert_eq!(admit(&mut gateway, &edge_request()).unwrap().ticket, 129);
        assert_eq!(admit(&mut gateway, &edge_request()), Err(9));
    }

    #[test]
    fn counts_go_past_sixteen_bits() {
        let mut gateway = edge_gateway(65_537);
        for ticket in 1..=65_537 {
            assert_eq!(admit(&mut gateway, &edge_request()).unwrap().ticket, ticket);
            gateway.abandon(ticket).unwrap();
        }
        assert_eq!(admit(&mut gateway, &edge_request()), Err(8));
        assert_eq!(gateway.keys[0].count, 65_537);
    }

    #[test]
    fn rfc_9458_appendix_a_exchange() {
        let bytes = |text: &str| read_bytes(text.as_bytes(), 70_000).unwrap();
        let list = bytes(concat!(
            "002d01002031e1f05a740102115220e9af918f738674aec95f54db6e04eb705aae8e",
            "79815500080001000100010003"
        ));
        let request = bytes(concat!(
            "010020000100014b28f881333e7c164ffc499ad9796f877f4e1051ee6d31bad1",
            "9dec96c208b4726374e469135906992e1268c594d2a10c695d858c40a026e796",
            "5e7d86b83dd440b2c0185204b4d63525"
        ));
        let (mut gateway, _) = Gateway::setup(1, &list);
        let admitted = admit(&mut gateway, &request).unwrap();
        assert_eq!(gateway.open(1, true, 25), Ok(Opening::Opened));
        let nonce = bytes("c789e7151fcba46158ca84b04464910d");
        let mut salt = [0; 48];
        let enc = &request[admitted.enc];
        // The plain response is 01 40 c8; the sealed one has 35 bytes.
        let answer = gateway.respond(1, enc, &nonce, 3, &mut salt);
        assert_eq!(answer, Ok(35));
        let expected = concat!(
            "4b28f881333e7c164ffc499ad9796f877f4e1051ee6d31bad19dec96c208b472",
            "c789e7151fcba46158ca84b04464910d"
        );
        assert_eq!(hex(&salt), expected);
    }
}
