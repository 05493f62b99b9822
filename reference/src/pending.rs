//! The table of pending exchanges, and the two engines by which it is searched (02, A10).

use crate::gateway::Exchange;
use crate::keeper::TABLE_SIZE;
use std::collections::BTreeMap;

/// How a ticket and a free place are searched. What is found decides alike by either.
#[derive(Clone, Copy, Debug, PartialEq, Eq)]
pub enum Engine {
    /// A walk over the table from its first place on.
    Plain,
    /// A map from tickets to places, and a bit for each free place.
    Fast,
}

impl Engine {
    pub fn name(self) -> &'static str {
        match self {
            Engine::Plain => "plain",
            Engine::Fast => "fast",
        }
    }

    pub fn read(name: &[u8]) -> Option<Engine> {
        match name {
            b"plain" => Some(Engine::Plain),
            b"fast" => Some(Engine::Fast),
            _ => None,
        }
    }
}

#[derive(Clone, Debug)]
struct Entry {
    ticket: u64,
    exchange: Exchange,
}

/// "a table of 128 pending exchanges, all free at first". Map and bits are kept true whatever
/// the engine is, so that it can be changed at any time.
#[derive(Clone, Debug)]
pub struct PendingTable {
    pub engine: Engine,
    places: Vec<Option<Entry>>,
    place_of: BTreeMap<u64, usize>,
    /// Bit n is set where place n is free.
    free: u128,
}

impl PendingTable {
    pub fn new() -> PendingTable {
        PendingTable {
            engine: Engine::Fast,
            places: vec![None; TABLE_SIZE],
            place_of: BTreeMap::new(),
            free: u128::MAX,
        }
    }

    /// The place of a pending ticket.
    pub fn place(&self, ticket: u64) -> Option<usize> {
        match self.engine {
            Engine::Plain => {
                let holds = |entry: &Entry| entry.ticket == ticket;
                let mut places = self.places.iter();
                places.position(|place| place.as_ref().map_or(false, holds))
            }
            Engine::Fast => self.place_of.get(&ticket).copied(),
        }
    }

    /// A free place. Which one is left open: the engines take the first and the last.
    pub fn free_place(&self) -> Option<usize> {
        match self.engine {
            Engine::Plain => self.places.iter().position(Option::is_none),
            Engine::Fast if self.free == 0 => None,
            Engine::Fast => Some(TABLE_SIZE - 1 - self.free.leading_zeros() as usize),
        }
    }

    /// Puts an exchange in at a free place.
    pub fn put(&mut self, place: usize, ticket: u64, exchange: Exchange) {
        self.places[place] = Some(Entry { ticket, exchange });
        self.place_of.insert(ticket, place);
        self.free &= !(1 << place);
    }

    /// The exchange at a place that was found.
    pub fn at(&mut self, place: usize) -> &mut Exchange {
        let entry = self.places[place].as_mut();
        &mut entry.expect("a place that was found").exchange
    }

    /// Takes out the exchange at a place that was found; the place is free then.
    pub fn take_out(&mut self, place: usize) {
        let entry = self.places[place].take();
        let ticket = entry.expect("a place that was found").ticket;
        self.place_of.remove(&ticket);
        self.free |= 1 << place;
    }

    /// The number pending.
    pub fn len(&self) -> usize {
        self.place_of.len()
    }

    pub fn is_empty(&self) -> bool {
        self.place_of.is_empty()
    }

    pub fn get(&self, ticket: &u64) -> Option<&Exchange> {
        let entry = self.places[self.place(*ticket)?].as_ref();
        entry.map(|entry| &entry.exchange)
    }

    /// Tickets and exchanges, by ticket.
    pub fn iter(&self) -> impl Iterator<Item = (&u64, &Exchange)> {
        let entries = self.place_of.values().map(|place| &self.places[*place]);
        entries
            .flatten()
            .map(|entry| (&entry.ticket, &entry.exchange))
    }

    pub fn keys(&self) -> impl Iterator<Item = &u64> {
        self.place_of.keys()
    }
}

#[cfg(test)]
mod tests {
    use super::*;
    use crate::algorithms::Pair;
    use crate::gateway::State;
    use crate::random::Random;

    const ENGINES: [Engine; 2] = [Engine::Plain, Engine::Fast];

    /// An exchange that is told from others by its ciphertext's length.
    fn exchange(ciphertext_length: usize) -> Exchange {
        Exchange {
            key_id: 7,
            kem: 0x0020,
            pair: Pair { kdf: 1, aead: 3 },
            ciphertext_length,
            state: State::Asked,
        }
    }

    fn admit(table: &mut PendingTable, ticket: u64) -> usize {
        let place = table.free_place().unwrap();
        table.put(place, ticket, exchange(16 + ticket as usize));
        place
    }

    /// Both engines find the same tickets, and each finds a free place where there is one.
    fn check_engines(table: &PendingTable, highest_ticket: u64) {
        let by = ENGINES.map(|engine| PendingTable {
            engine,
            ..table.clone()
        });
        let mut pending = 0;
        for ticket in 0..=highest_ticket {
            assert_eq!(by[0].place(ticket), by[1].place(ticket), "{ticket}");
            pending += usize::from(by[0].place(ticket).is_some());
            for table in &by {
                let found = table.get(&ticket);
                assert!(found.map_or(true, |e| e.ciphertext_length == 16 + ticket as usize));
            }
        }
        assert_eq!(table.len(), pending);
        for table in &by {
            let free = table.free_place();
            assert_eq!(free.is_none(), pending == TABLE_SIZE);
            assert!(free.map_or(true, |place| table.places[place].is_none()));
        }
    }

    #[test]
    fn names() {
        for engine in ENGINES {
            assert_eq!(Engine::read(engine.name().as_bytes()), Some(engine));
        }
        assert_eq!(Engine::read(b"Plain"), None);
        assert_eq!(Engine::read(b""), None);
    }

    #[test]
    fn an_engine_walks_up_and_the_other_goes_down() {
        let mut table = PendingTable::new();
        assert_eq!(admit(&mut table, 1), 127);
        table.engine = Engine::Plain;
        assert_eq!(admit(&mut table, 2), 0);
        assert_eq!(admit(&mut table, 3), 1);
        table.engine = Engine::Fast;
        assert_eq!(admit(&mut table, 4), 126);
        check_engines(&table, 5);
        let tickets: Vec<u64> = table.keys().copied().collect();
        assert_eq!(tickets, [1, 2, 3, 4]);
    }

    #[test]
    fn a_full_table_by_each_engine() {
        for engine in ENGINES {
            let mut table = PendingTable::new();
            table.engine = engine;
            for ticket in 1..=128 {
                admit(&mut table, ticket);
            }
            assert_eq!(table.free_place(), None);
            check_engines(&table, 300);
            // A closed place is used again, whatever engine closed it.
            for (ticket, other) in [(1, Engine::Fast), (64, Engine::Plain), (128, engine)] {
                table.engine = other;
                let place = table.place(ticket).unwrap();
                table.take_out(place);
                table.engine = engine;
                assert_eq!(table.place(ticket), None);
                assert_eq!(admit(&mut table, ticket + 128), place);
                assert_eq!(table.free_place(), None);
                check_engines(&table, 300);
            }
        }
    }

    #[test]
    fn any_order_with_either_engine() {
        let mut random = Random::new(1);
        let mut table = PendingTable::new();
        let mut last_ticket = 0;
        for _ in 0..1_500 {
            table.engine = random.pick(&ENGINES);
            let pending: Vec<u64> = table.keys().copied().collect();
            if table.free_place().is_some() && !random.one_in(3) {
                last_ticket += 1;
                admit(&mut table, last_ticket);
            } else if !pending.is_empty() {
                let place = table.place(random.pick(&pending)).unwrap();
                table.take_out(place);
            }
            check_engines(&table, last_ticket + 1);
        }
        assert!(last_ticket > 500);
    }
}
