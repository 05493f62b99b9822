//! Call lists from a seed. The gateway runs along, so that most calls stand in lists that go deep.

mod bad_lines;
mod client_calls;
mod key_lists;
mod messages;
mod requests;
mod ticket_calls;

pub use key_lists::encode_all;
pub use messages::message;

use crate::call::{read_line, Call, Line};
use crate::gateway::Gateway;
use crate::keeper::{LARGEST_CAP, TABLE_SIZE};
use crate::moved::is_gateway_call;
use crate::pending::Engine;
use crate::perform::perform;
use crate::random::Random;
use crate::skipped::skipped;
use key_lists::Skip;
use std::io::{self, Write};

/// What a list is out for.
#[derive(Clone, Copy, PartialEq, Eq)]
enum Aim {
    /// The setup is refused.
    Refused,
    /// A gateway without keys and with any cap: all configurations are skipped.
    Skipped,
    /// A small cap, so that keys are worn out.
    Worn,
    Mixed,
    /// 128 pending.
    Full,
    /// Pending tickets that lie 128 apart: of every 128 tickets so many stay pending, and the
    /// others are closed at once.
    Apart(u64),
}

fn aim(random: &mut Random) -> Aim {
    match random.below(38) {
        0..=21 => Aim::Refused,
        22..=25 => Aim::Skipped,
        26..=30 => Aim::Worn,
        31 | 32 => Aim::Full,
        33 => Aim::Apart(random.pick(&[1, 4, 20, 43, 64, 64, 90])),
        _ => Aim::Mixed,
    }
}

struct Generator<'a, W: Write> {
    random: Random,
    gateway: Gateway,
    /// The last setup's key list.
    key_list: Vec<u8>,
    /// Calls still to be written.
    left: u64,
    /// Whether the last line goes without its newline.
    open_end: bool,
    output: &'a mut W,
}

/// Writes exactly so many calls, an engine's line first; comments and empty lines come on top.
pub fn generate(seed: u64, calls: u64, output: &mut impl Write) -> io::Result<()> {
    let mut generator = Generator {
        random: Random::new(seed),
        gateway: Gateway::without_keys(),
        key_list: Vec::new(),
        left: calls,
        open_end: seed % 2 == 1,
        output,
    };
    // With it in front, all calls can go by one engine and keep their line numbers.
    let engine = engine(&mut generator.random);
    generator.write(engine.as_bytes())?;
    while generator.left > 0 {
        generator.list()?;
    }
    generator.output.flush()
}

impl<W: Write> Generator<'_, W> {
    /// A setup and the calls that follow.
    fn list(&mut self) -> io::Result<()> {
        let aim = aim(&mut self.random);
        let calls = match aim {
            Aim::Refused => self.random.between(1, 20),
            Aim::Skipped => self.random.between(10, 60),
            Aim::Worn => self.random.between(20, 150),
            Aim::Mixed => self.random.between(100, 800),
            Aim::Full => self.random.between(200, 800),
            Aim::Apart(_) => self.random.between(400, 1_600),
        };
        let setup = setup(&mut self.random, aim);
        self.write(setup.as_bytes())?;
        for _ in 1..calls {
            if self.left == 0 {
                break;
            }
            if self.random.one_in(40) {
                let comment = bad_lines::comment(&mut self.random);
                self.write(&comment)?;
            }
            let line = if self.random.one_in(60) {
                engine(&mut self.random).into_bytes()
            } else {
                self.line(aim)
            };
            self.write(&line)?;
        }
        Ok(())
    }

    /// Writes a line and does its call, if the gateway's state hangs on it.
    fn write(&mut self, line: &[u8]) -> io::Result<()> {
        let read = read_line(line);
        if read != Line::PassedOver {
            self.left -= 1;
        }
        self.output.write_all(line)?;
        if self.left > 0 || !self.open_end {
            self.output.write_all(b"\n")?;
        }
        match read {
            Line::Call(Call::Setup { cap, list }) => {
                self.key_list = list.clone();
                perform(&mut self.gateway, &Call::Setup { cap, list });
            }
            Line::Call(call) if is_gateway_call(&call) => {
                perform(&mut self.gateway, &call);
            }
            _ => {}
        }
        Ok(())
    }

    fn line(&mut self, aim: Aim) -> Vec<u8> {
        if let Some(call) = self.aimed_call(aim) {
            return call.into_bytes();
        }
        if self.random.one_in(40) {
            let call = if self.random.one_in(15) {
                engine(&mut self.random)
            } else {
                self.call()
            };
            return bad_lines::bad_line(&mut self.random, call.as_bytes());
        }
        self.call().into_bytes()
    }

    /// What brings the list where it is to go, most of the time, until it is there.
    fn aimed_call(&mut self, aim: Aim) -> Option<String> {
        let stays = match aim {
            Aim::Full => 128,
            Aim::Apart(stays) => stays,
            _ => return None,
        };
        if self.random.one_in(5) {
            return None;
        }
        let (random, gateway) = (&mut self.random, &self.gateway);
        let last = gateway.last_ticket;
        if gateway.pending.get(&last).is_some() && last % 128 >= stays {
            return Some(ticket_calls::close(random, last));
        }
        if gateway.pending.len() == TABLE_SIZE {
            return None;
        }
        Some(requests::right_admit(random, gateway))
    }

    /// A call of any kind.
    fn call(&mut self) -> String {
        let random = &mut self.random;
        let gateway = &self.gateway;
        let key_list = self.key_list.as_slice();
        match random.below(100) {
            0..=26 => requests::admit(random, gateway, &skipped(key_list)),
            27..=40 => ticket_calls::open(random, gateway),
            41..=53 => ticket_calls::respond(random, gateway),
            54..=57 => ticket_calls::abandon(random, gateway),
            58..=59 => ticket_calls::retire(random, gateway, &skipped(key_list)),
            60..=62 => "report".to_string(),
            63..=70 => messages::request(random),
            71..=74 => client_calls::check(random, key_list),
            75..=78 => client_calls::key(random, key_list),
            79..=84 => client_calls::choose(random, key_list),
            85..=88 => client_calls::head(random),
            89 => client_calls::exporter(random),
            90..=94 => client_calls::split(random),
            _ => client_calls::write(random, key_list),
        }
    }
}

fn engine(random: &mut Random) -> String {
    crate::answer::engine(random.pick(&[Engine::Plain, Engine::Fast]))
}

fn setup(random: &mut Random, aim: Aim) -> String {
    let refused = aim == Aim::Refused;
    let bad_cap = refused && random.one_in(3);
    let cap = if bad_cap {
        random.pick(&[0, 0, LARGEST_CAP + 1, 1 + (1 << 32), u64::MAX])
    } else {
        random.pick(caps(aim))
    };
    // A bad cap and a bad list together are refused for the list.
    let list = if refused && random.one_in(35) {
        key_lists::long(random)
    } else if refused && (!bad_cap || random.one_in(8)) {
        key_lists::nearly_right(random)
    } else {
        let skip = match aim {
            Aim::Refused => random.pick(&[Skip::None, Skip::Some, Skip::All]),
            Aim::Skipped => Skip::All,
            _ => random.pick(&[Skip::None, Skip::None, Skip::Some]),
        };
        key_lists::good(random, skip)
    };
    format!("setup {cap} {}", crate::answer::hex(&list))
}

fn caps(aim: Aim) -> &'static [u64] {
    match aim {
        Aim::Refused => &[1, 2, LARGEST_CAP],
        Aim::Skipped => &[1, 2, 3, 1_000, LARGEST_CAP - 1, LARGEST_CAP],
        Aim::Worn => &[1, 1, 2, 2, 3, 3, 5],
        Aim::Mixed => &[3, 10, 30, 100, 1_000, LARGEST_CAP - 1, LARGEST_CAP],
        Aim::Full => &[128, 129, 140, 255, 256, 1_000, 65_536, LARGEST_CAP],
        Aim::Apart(_) => &[1_000, 65_536, LARGEST_CAP],
    }
}

#[cfg(test)]
mod tests {
    use super::*;
    use crate::algorithms::npk;
    use crate::key_list::{inside_at, kem_of, number_at, read_list, LENGTH_SIZE};
    use crate::replay::Replay;
    use crate::table::{first_bad, name};
    use std::collections::{HashMap, HashSet};

    fn lists(seed: u64, calls: u64) -> Vec<u8> {
        let mut output = Vec::new();
        generate(seed, calls, &mut output).unwrap();
        output
    }

    #[test]
    fn exactly_so_many_calls() {
        for (seed, calls) in [(1, 1), (2, 777), (3, 3_000)] {
            let output = lists(seed, calls);
            let lines = output.split(|byte| *byte == b'\n');
            let counted = lines.filter(|line| read_line(line) != Line::PassedOver);
            assert_eq!(counted.count() as u64, calls);
        }
    }

    /// The lines of the lists, each with the gateway before it.
    fn run(seed: u64, calls: u64, mut see: impl FnMut(&Gateway, &Line)) {
        let mut replay = Replay::new();
        for line in lists(seed, calls).split(|byte| *byte == b'\n') {
            let line = read_line(line);
            see(&replay.gateway, &line);
            replay.answer(&line);
        }
    }

    #[test]
    fn engines_are_mixed_within_lists() {
        let (mut lines, mut switches, mut with_pending) = (0, 0, 0);
        run(1, 50_000, |gateway, line| {
            if let Line::Engine(engine) = line {
                let switch = *engine != gateway.pending.engine;
                lines += 1;
                switches += usize::from(switch);
                with_pending += usize::from(switch && gateway.pending.len() > 20);
            }
        });
        assert!(lines > 500, "{lines}");
        assert!(switches > 250, "{switches}");
        assert!(with_pending > 50, "{with_pending}");
    }

    #[test]
    fn bad_lines_of_engine_are_reached() {
        let output = lists(1, 100_000);
        let lines = output.split(|byte| *byte == b'\n');
        let bad = lines.filter(|line| line.starts_with(b"engine") && read_line(line) == Line::Bad);
        let mut bad: Vec<&[u8]> = bad.collect();
        assert!(bad.len() > 50, "{}", bad.len());
        bad.sort_unstable();
        bad.dedup();
        for line in ["engine", "engine slow", "engine plain fast"] {
            assert!(bad.contains(&line.as_bytes()), "{line}");
        }
    }

    #[test]
    fn requests_inside_are_few_and_short() {
        let (mut count, mut bytes) = (0, 0);
        run(1, 50_000, |_, line| {
            if let Line::Call(Call::Request { message }) = line {
                count += 1;
                bytes += message.len();
            }
        });
        assert!((2_500..4_000).contains(&count), "{count}");
        assert!(bytes / count < 400, "{bytes} {count}");
    }

    /// Where the ticket's place is taken, by another ticket with the same remainder by 128.
    fn place_is_taken(gateway: &Gateway, ticket: u64) -> bool {
        let mut pending = gateway.pending.keys();
        pending.any(|other| *other != ticket && *other % 128 == ticket % 128)
    }

    #[test]
    fn tickets_128_apart_and_full_tables_are_reached() {
        let (mut admitted, mut found, mut not_found) = (0, 0, 0);
        let (mut full, mut full_apart) = (0, 0);
        let mut last_ticket = 0;
        run(1, 200_000, |gateway, line| {
            let fresh = gateway.last_ticket > last_ticket;
            last_ticket = gateway.last_ticket;
            admitted += usize::from(fresh && place_is_taken(gateway, last_ticket));
            match line {
                Line::Call(
                    Call::Open { ticket, .. }
                    | Call::Respond { ticket, .. }
                    | Call::Abandon { ticket },
                ) if place_is_taken(gateway, *ticket) => {
                    let pending = gateway.pending.get(ticket).is_some();
                    found += usize::from(pending);
                    not_found += usize::from(!pending);
                }
                _ => {}
            }
            if gateway.pending.len() == TABLE_SIZE {
                full += 1;
                let mut tickets = gateway.pending.keys();
                full_apart += usize::from(tickets.any(|ticket| place_is_taken(gateway, *ticket)));
            }
        });
        let reached = [admitted, found, not_found, full, full_apart];
        assert!(reached.iter().all(|times| *times > 1_000), "{reached:?}");
    }

    const WHOLE: [&str; 8] = [
        "first",
        "between",
        "last",
        "of 3 bytes",
        "same id as one before",
        "same id as one behind",
        "in sixteen",
        "all",
    ];
    const SELDOM: [&str; 6] = [
        "of 65,535 bytes",
        "of 2 bytes",
        "of 1 byte",
        "of 0 bytes",
        "cut",
        "seventeenth",
    ];

    /// What there is of unknown KEMs in a list.
    fn unknown_kems(list: &[u8]) -> Vec<&'static str> {
        let is_unknown = |kem: Option<u16>| kem.map_or(false, |kem| npk(kem).is_none());
        let mut insides = Vec::new();
        let mut start = 0;
        while let Some(inside) = inside_at(list, start) {
            insides.push(inside);
            start += LENGTH_SIZE + inside.len();
        }
        let mut found = Vec::new();
        let mut find = |what: &'static str, is_there: bool| {
            if is_there {
                found.push(what);
            }
        };
        if read_list(list).is_err() {
            let place = first_bad(list);
            let length = inside_at(list, place).map(<[u8]>::len);
            find("of 2 bytes", length == Some(2));
            find("of 1 byte", length == Some(1));
            find("of 0 bytes", length == Some(0));
            let unknown = is_unknown(number_at(list, place + LENGTH_SIZE + 1));
            find("cut", unknown && length.is_none());
            let before = read_list(&list[..place]).unwrap_or_default();
            find("seventeenth", unknown && before.count() == 16);
            return found;
        }
        let last = insides.len() - 1;
        for (place, inside) in insides.iter().enumerate() {
            if !is_unknown(kem_of(inside)) {
                continue;
            }
            let is_twin = |other: &&[u8]| !is_unknown(kem_of(other)) && other[0] == inside[0];
            find("first", place == 0 && last > 0);
            find("between", place > 0 && place < last);
            find("last", place == last && last > 0);
            find("of 3 bytes", inside.len() == 3);
            find("of 65,535 bytes", inside.len() == 65_535);
            find(
                "same id as one before",
                insides[..place].iter().any(is_twin),
            );
            find(
                "same id as one behind",
                insides[place..].iter().any(is_twin),
            );
            find("in sixteen", last == 15);
            find(
                "all",
                insides.iter().all(|inside| is_unknown(kem_of(inside))),
            );
        }
        found
    }

    #[test]
    fn unknown_kems_are_reached_by_every_call_with_a_list() {
        let mut reached: HashMap<(&str, &str), usize> = HashMap::new();
        run(1, 200_000, |_, line| {
            let (call, list) = match line {
                Line::Call(Call::Setup { list, .. }) => ("setup", list),
                Line::Call(Call::Check { list }) => ("check", list),
                Line::Call(Call::Key { list, .. }) => ("key", list),
                Line::Call(Call::Choose { list, .. }) => ("choose", list),
                _ => return,
            };
            let mut found = unknown_kems(list);
            found.sort_unstable();
            found.dedup();
            for what in found {
                *reached.entry((call, what)).or_default() += 1;
            }
        });
        for call in ["setup", "check", "key", "choose"] {
            let times = |what: &'static str| reached.get(&(call, what)).copied().unwrap_or(0);
            let whole = WHOLE.map(times);
            assert!(whole.iter().all(|times| *times > 50), "{call} {whole:?}");
            let seldom = SELDOM.map(times);
            assert!(seldom.iter().all(|times| *times > 3), "{call} {seldom:?}");
        }
    }

    /// Each number of a bad list comes at many places, in each call that gives it.
    #[test]
    fn places_are_varied() {
        let mut places: HashMap<(&str, u8), HashSet<usize>> = HashMap::new();
        let mut replay = Replay::new();
        for line in lists(1, 100_000).split(|byte| *byte == b'\n') {
            let line = read_line(line);
            let answer = replay.answer(&line).unwrap_or_default();
            let words: Vec<&str> = answer.split(' ').collect();
            if let (Line::Call(call), ["refused", number, "at", place, ..]) = (&line, &words[..]) {
                let found = places.entry((name(call), number.parse().unwrap()));
                found.or_default().insert(place.parse().unwrap());
            }
        }
        for call in ["setup", "check", "key", "choose", "write"] {
            let different = [18, 19, 20, 21, 22].map(|number| places[&(call, number)].len());
            let least = match call {
                // None given has one place.
                "write" => [1, 50, 50, 50, 50],
                "setup" => [15, 15, 15, 15, 15],
                _ => [50, 50, 50, 50, 50],
            };
            let enough = different.iter().zip(least).all(|(is, least)| *is >= least);
            assert!(enough, "{call} {different:?}");
        }
        assert!(places[&("request", 23)].len() > 100);
        // The other number with a place is the list writer's alone.
        let others = places.keys().filter(|(_, number)| *number < 18);
        assert_eq!(others.collect::<Vec<_>>(), [&("write", 3)]);
        assert!(places[&("write", 3)].len() > 50);
    }

    #[test]
    fn the_same_seed_gives_the_same_bytes() {
        assert_eq!(lists(5, 2_000), lists(5, 2_000));
        assert_ne!(lists(5, 2_000), lists(6, 2_000));
    }
}
