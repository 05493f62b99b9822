//! The gateway in plain Rust, written for speed: the library's table of 128 places and its homes by
//! `&mut`, no map, nothing allocated after setup. `tests/tuned.rs` holds it against the reference.
//!
//! The calls are not inlined, as those into a library are not.

use reference::algorithms::{Pair, HEAD_LENGTH, TAG_LENGTH};
use reference::keeper::{
    Admitted, Keeper, KeyReport, Opening, Report, LARGEST_CAP, LONGEST_PLAIN, TABLE_SIZE,
};
use reference::key_list::{read_list, Configuration, MOST_CONFIGURATIONS};
use reference::refusal::{refusal, Refusal};
use reference::request::{Request, INFO_LENGTH, LONGEST_REQUEST};

const INFO_LABEL: &[u8; INFO_LENGTH - HEAD_LENGTH] = b"message/bhttp request\0";

#[derive(Clone, Copy, Default)]
pub struct Key {
    count: u32,
    kem: u16,
    /// The known ones of its pairs, each as its [`pair_bit`].
    pairs: u16,
    id: u8,
    retired: bool,
}

/// What the calls on a ticket ask of its exchange.
#[derive(Clone, Copy, Default)]
struct Exchange {
    opened_length: u32,
    enc_length: u8,
    nonce_length: u8,
    is_opened: bool,
}

#[derive(Clone)]
pub struct Gateway {
    last_ticket: u64,
    /// A bit for each place of the table.
    taken: u128,
    cap: u32,
    key_count: usize,
    keys: [Key; MOST_CONFIGURATIONS],
    /// The ticket at each place, 0 where it is free.
    tickets: [u64; TABLE_SIZE],
    exchanges: [Exchange; TABLE_SIZE],
}

/// A report without memory of its own.
pub struct Snapshot {
    pub last_ticket: u64,
    pub pending: u32,
    pub key_count: usize,
    pub keys: [Key; MOST_CONFIGURATIONS],
}

impl Gateway {
    fn fresh(cap: u64, configurations: &[Configuration]) -> Gateway {
        let mut keys = [Key::default(); MOST_CONFIGURATIONS];
        for (key, configuration) in keys.iter_mut().zip(configurations) {
            key.id = configuration.id;
            key.kem = configuration.kem;
            key.pairs = configuration
                .pairs
                .iter()
                .fold(0, |bits, pair| bits | pair_bit(*pair));
        }
        Gateway {
            last_ticket: 0,
            taken: 0,
            cap: cap as u32,
            key_count: configurations.len(),
            keys,
            tickets: [0; TABLE_SIZE],
            exchanges: [Exchange::default(); TABLE_SIZE],
        }
    }

    fn key(&mut self, id: u8) -> Result<&mut Key, Refusal> {
        let mut keys = self.keys[..self.key_count].iter_mut();
        keys.find(|key| key.id == id).ok_or_else(|| refusal(4))
    }

    /// The request's key. Order: 4, 5, 6, 7, 8.
    fn usable_key(&mut self, request: &Request) -> Result<&mut Key, Refusal> {
        let cap = self.cap;
        let key = self.key(request.key_id)?;
        if key.kem != request.kem {
            return Err(refusal(5));
        }
        if key.pairs & pair_bit(request.pair) == 0 {
            return Err(refusal(6));
        }
        if key.retired {
            return Err(refusal(7));
        }
        if key.count == cap {
            return Err(refusal(8));
        }
        Ok(key)
    }

    /// The place of a pending ticket, else 11.
    pub fn find(&self, ticket: u64) -> Result<usize, Refusal> {
        if ticket == 0 {
            return Err(refusal(11));
        }
        let home = home(ticket);
        if self.tickets[home] == ticket {
            return Ok(home);
        }
        let walk = || self.tickets.iter().position(|other| *other == ticket);
        walk().ok_or_else(|| refusal(11))
    }

    fn take(&mut self, place: usize, ticket: u64, exchange: Exchange) {
        self.taken |= 1 << place;
        self.tickets[place] = ticket;
        self.exchanges[place] = exchange;
    }

    fn close(&mut self, place: usize) {
        self.taken &= !(1 << place);
        self.tickets[place] = 0;
    }

    #[inline(never)]
    pub fn snapshot(&self) -> Snapshot {
        Snapshot {
            last_ticket: self.last_ticket,
            pending: self.taken.count_ones(),
            key_count: self.key_count,
            keys: self.keys,
        }
    }
}

fn home(ticket: u64) -> usize {
    (ticket % TABLE_SIZE as u64) as usize
}

/// A bit of its own for each known pair, no bit for the others.
fn pair_bit(pair: Pair) -> u16 {
    match (pair.kdf, pair.aead) {
        (1..=3, 1..=3) => 1 << (4 * pair.kdf + pair.aead),
        _ => 0,
    }
}

fn nenc(kem: u16) -> Option<usize> {
    match kem {
        0x0010 => Some(65),
        0x0011 => Some(97),
        0x0012 => Some(133),
        0x0020 => Some(32),
        0x0021 => Some(56),
        _ => None,
    }
}

/// Order: 2, 1 (below 7), 3, 1 (shortest). The reference reads the same, but walks over its table of
/// KEMs, which takes some 3 ns more.
fn read(request: &[u8]) -> Result<Request, Refusal> {
    if request.len() > LONGEST_REQUEST {
        return Err(refusal(2));
    }
    if request.len() < HEAD_LENGTH {
        return Err(refusal(1));
    }
    let number = |place: usize| u16::from_be_bytes([request[place], request[place + 1]]);
    let kem = number(1);
    let enc_end = HEAD_LENGTH + nenc(kem).ok_or_else(|| refusal(3))?;
    if request.len() < enc_end + TAG_LENGTH {
        return Err(refusal(1));
    }
    Ok(Request {
        key_id: request[0],
        kem,
        pair: Pair {
            kdf: number(3),
            aead: number(5),
        },
        enc: HEAD_LENGTH..enc_end,
        ciphertext: enc_end..request.len(),
    })
}

/// The exchange of a request that was read, asked.
fn asked(request: &Request) -> Exchange {
    Exchange {
        opened_length: (request.ciphertext.len() - TAG_LENGTH) as u32,
        enc_length: request.enc.len() as u8,
        nonce_length: if request.pair.aead == 1 { 16 } else { 32 },
        is_opened: false,
    }
}

impl Keeper for Gateway {
    fn setup(cap: u64, list: &[u8]) -> (Gateway, Result<usize, Refusal>) {
        let read = read_list(list).and_then(|read| match cap {
            1..=LARGEST_CAP => Ok(read.configurations),
            _ => Err(refusal(17)),
        });
        match read {
            Ok(read) => (Gateway::fresh(cap, &read), Ok(read.len())),
            Err(refusal) => (Gateway::fresh(1, &[]), Err(refusal)),
        }
    }

    #[inline(never)]
    fn admit(&mut self, request: &[u8], buffer: &mut [u8]) -> Result<Admitted, Refusal> {
        let read = read(request)?;
        let is_full = self.taken == u128::MAX;
        let key = self.usable_key(&read)?;
        if is_full {
            return Err(refusal(9));
        }
        if buffer.len() < INFO_LENGTH {
            return Err(refusal(14));
        }
        let (label, head) = buffer[..INFO_LENGTH].split_at_mut(INFO_LABEL.len());
        label.copy_from_slice(INFO_LABEL);
        head.copy_from_slice(&request[..HEAD_LENGTH]);
        key.count += 1;
        self.last_ticket += 1;
        let ticket = self.last_ticket;
        let place = match home(ticket) {
            home if self.tickets[home] == 0 => home,
            _ => self.taken.trailing_ones() as usize,
        };
        self.take(place, ticket, asked(&read));
        Ok(Admitted {
            ticket,
            key_id: read.key_id,
            pair: read.pair,
            enc: read.enc,
            ciphertext: read.ciphertext,
        })
    }

    #[inline(never)]
    fn open(&mut self, ticket: u64, success: bool, n: u64) -> Result<Opening, Refusal> {
        let place = self.find(ticket)?;
        let exchange = &mut self.exchanges[place];
        if exchange.is_opened {
            return Err(refusal(12));
        }
        if !success {
            self.close(place);
            return Ok(Opening::Failed);
        }
        if n != u64::from(exchange.opened_length) {
            return Err(refusal(13));
        }
        exchange.is_opened = true;
        Ok(Opening::Opened)
    }

    #[inline(never)]
    fn respond(
        &mut self,
        ticket: u64,
        enc: &[u8],
        nonce: &[u8],
        plain: u64,
        buffer: &mut [u8],
    ) -> Result<u64, Refusal> {
        let place = self.find(ticket)?;
        let exchange = self.exchanges[place];
        if !exchange.is_opened {
            return Err(refusal(12));
        }
        let lengths = (exchange.enc_length.into(), exchange.nonce_length.into());
        if (enc.len(), nonce.len()) != lengths || plain > LONGEST_PLAIN {
            return Err(refusal(13));
        }
        if buffer.len() < enc.len() + nonce.len() {
            return Err(refusal(14));
        }
        let (front, rest) = buffer.split_at_mut(enc.len());
        front.copy_from_slice(enc);
        rest[..nonce.len()].copy_from_slice(nonce);
        self.close(place);
        Ok((nonce.len() + TAG_LENGTH) as u64 + plain)
    }

    #[inline(never)]
    fn abandon(&mut self, ticket: u64) -> Result<(), Refusal> {
        let place = self.find(ticket)?;
        self.close(place);
        Ok(())
    }

    #[inline(never)]
    fn retire(&mut self, key_id: u8) -> Result<(), Refusal> {
        let key = self.key(key_id)?;
        if key.retired {
            return Err(refusal(7));
        }
        key.retired = true;
        Ok(())
    }

    fn report(&self) -> Report {
        let snapshot = self.snapshot();
        let key_report = |key: &Key| KeyReport {
            id: key.id,
            count: u64::from(key.count),
            retired: key.retired,
        };
        let keys = &snapshot.keys[..snapshot.key_count];
        Report {
            last_ticket: snapshot.last_ticket,
            pending: snapshot.pending as usize,
            keys: keys.iter().map(key_report).collect(),
        }
    }
}
