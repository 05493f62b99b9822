//! Demand 3 on one list: strike out, move up, run on the book, compare.

use crate::book::Book;
use crate::call::Call;
use crate::gateway::Gateway;
use crate::keeper::Keeper;
use crate::perform::perform;
use std::collections::HashMap;

/// A call of the list and the answer line that it got.
pub struct Answered {
    pub call: Call,
    pub answer: String,
}

/// Demand 3 is about these six calls; client calls are not in it.
pub fn is_gateway_call(call: &Call) -> bool {
    matches!(
        call,
        Call::Admit { .. }
            | Call::Open { .. }
            | Call::Respond { .. }
            | Call::Abandon { .. }
            | Call::Retire { .. }
            | Call::Report
    )
}

/// "accepted means answered without a refusal number"
fn is_accepted(answer: &str) -> bool {
    !answer.starts_with("refused ")
}

/// The ticket that an accepted admit answered.
fn answered_ticket(answer: &str) -> Option<u64> {
    let rest = answer.strip_prefix("admitted ticket=")?;
    rest.split(' ').next()?.parse().ok()
}

/// The places of the calls in the moved list's order; a wrong list in words.
///
/// "Strike out reports and refused calls. Keep admissions and key retirements in order, and move
/// each other call up behind its own exchange's admission, that exchange's calls in their order."
pub fn moved_order(list: &[Answered]) -> Result<Vec<usize>, String> {
    // Each group starts with an admission or a retirement, which keep their order.
    let mut groups: Vec<Vec<usize>> = Vec::new();
    let mut group_of_ticket: HashMap<u64, usize> = HashMap::new();
    for (place, answered) in list.iter().enumerate() {
        if !is_accepted(&answered.answer) {
            continue;
        }
        match &answered.call {
            Call::Admit { .. } => {
                let ticket = answered_ticket(&answered.answer).ok_or("an admit without ticket")?;
                group_of_ticket.insert(ticket, groups.len());
                groups.push(vec![place]);
            }
            Call::Retire { .. } => groups.push(vec![place]),
            Call::Open { ticket, .. } | Call::Respond { ticket, .. } | Call::Abandon { ticket } => {
                let group = group_of_ticket
                    .get(ticket)
                    .ok_or_else(|| format!("no admission of ticket {ticket}"))?;
                groups[*group].push(place);
            }
            _ => {}
        }
    }
    Ok(groups.concat())
}

/// Checks demand 3 on a list. `setup` holds cap and key list; without one the gateway at the
/// start is the one of a refused setup. `gateway` is the one that the last call returned.
pub fn check(
    setup: Option<(u64, &[u8])>,
    list: &[Answered],
    gateway: &Gateway,
) -> Result<(), String> {
    let mut book = match setup {
        Some((cap, key_list)) => Book::setup(cap, key_list).0,
        None => Book::after_refused_setup(),
    };
    for place in moved_order(list)? {
        let answered = &list[place];
        let answer = perform(&mut book, &answered.call);
        if answer != answered.answer {
            return Err(format!(
                "its gateway call {}\nhad:  {}\nbook: {}",
                place + 1,
                answered.answer,
                answer
            ));
        }
    }
    match book.difference(gateway) {
        Some(difference) => Err(format!("at the end, {difference}")),
        None => Ok(()),
    }
}

#[cfg(test)]
mod tests {
    use super::*;
    use crate::call::{read_line, Line};
    use crate::key_list::tests::{edge_list, unknown};
    use crate::pending::PendingTable;

    /// The list of the test: replies come in another order, some calls are refused.
    fn calls() -> Vec<String> {
        let admit = format!("admit 07002000010003{} 29", "00".repeat(48));
        let (enc, nonce) = ("00".repeat(32), "11".repeat(32));
        vec![
            admit.clone(),                           // 0: ticket 1
            admit.clone(),                           // 1: ticket 2
            "report".to_string(),                    // 2: struck out
            "open 2 ok 0".to_string(),               // 3
            "open 1 ok 1".to_string(),               // 4: refused
            admit.clone(),                           // 5: ticket 3
            "open 1 ok 0".to_string(),               // 6
            format!("respond 2 {enc} {nonce} 0 64"), // 7
            "retire 7".to_string(),                  // 8
            admit,                                   // 9: refused, retired
            "open 3 failed 0".to_string(),           // 10: accepted
            "open 3 failed 0".to_string(),           // 11: refused
            "abandon 1".to_string(),                 // 12
        ]
    }

    const MOVED: [usize; 9] = [0, 6, 12, 1, 3, 7, 5, 10, 8];

    fn run(calls: &[String]) -> (Vec<Answered>, Gateway) {
        run_from(&edge_list(), calls)
    }

    fn run_from(key_list: &[u8], calls: &[String]) -> (Vec<Answered>, Gateway) {
        let mut gateway = Gateway::setup(9, key_list).0;
        let mut list = Vec::new();
        for line in calls {
            let call = match read_line(line.as_bytes()) {
                Line::Call(call) => call,
                _ => panic!("no call: {line}"),
            };
            let answer = perform(&mut gateway, &call);
            list.push(Answered { call, answer });
        }
        (list, gateway)
    }

    fn check_edge(list: &[Answered], gateway: &Gateway) -> Result<(), String> {
        check(Some((9, &edge_list())), list, gateway)
    }

    #[test]
    fn the_moved_order() {
        let (list, gateway) = run(&calls());
        assert_eq!(moved_order(&list).unwrap(), MOVED);
        assert_eq!(check_edge(&list, &gateway), Ok(()));
    }

    /// From a gateway without keys all is refused but the reports, which are struck out too.
    #[test]
    fn where_all_are_skipped() {
        let key_list = unknown(7, 0x0022, 41);
        let (list, mut gateway) = run_from(&key_list, &calls());
        assert_eq!(moved_order(&list), Ok(vec![]));
        let setup = Some((9, &key_list[..]));
        assert_eq!(check(setup, &list, &gateway), Ok(()));
        // Calls that are accepted there are caught, and so is a key.
        let (accepted, of_edge_list) = run(&calls());
        assert!(check(setup, &accepted, &of_edge_list).is_err());
        gateway.keys = Gateway::setup(9, &edge_list()).0.keys;
        assert!(check(setup, &list, &gateway).is_err());
    }

    #[test]
    fn wrong_answers_are_caught() {
        for place in MOVED {
            let (mut list, gateway) = run(&calls());
            list[place].answer.push('0');
            assert!(check_edge(&list, &gateway).is_err());
        }
        // An accepted call passed off as refused, and a refused one as accepted.
        let (mut list, gateway) = run(&calls());
        list[12].answer = "refused 11".to_string();
        assert!(check_edge(&list, &gateway).is_err());
        let (mut list, gateway) = run(&calls());
        list[11].answer = "failed status=422".to_string();
        assert!(check_edge(&list, &gateway).is_err());
    }

    #[test]
    fn a_wrong_state_at_the_end_is_caught() {
        let faults: [fn(&mut Gateway); 4] = [
            |gateway| gateway.last_ticket += 1,
            |gateway| gateway.keys[0].count -= 1,
            |gateway| gateway.keys[0].retired = false,
            |gateway| gateway.pending = PendingTable::new(),
        ];
        for fault in faults {
            let (list, mut gateway) = run(&calls()[..12]);
            assert_eq!(check_edge(&list, &gateway), Ok(()));
            fault(&mut gateway);
            assert!(check_edge(&list, &gateway).is_err());
        }
    }

    #[test]
    fn an_accepted_call_needs_its_admission() {
        let (mut list, gateway) = run(&["abandon 5".to_string()]);
        list[0].answer = "abandoned".to_string();
        assert!(check_edge(&list, &gateway).is_err());
        assert!(check(None, &[], &Gateway::without_keys()).is_ok());
    }
}
