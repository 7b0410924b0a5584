//! CHECK. The Rust has no check: this is the greedy definition of 01, run over the Rust's own search
//! in a table whose occupied slots are the placed part. Sentences in quotes are 01's.

use crate::exact::reference::ScalarFunnelSearch;
use crate::funnel::{self, Table};
use crate::image::{buffers, clean};
use crate::line::Entry;
use crate::rules::{self, Bounds, Refused};

/// "STATE, then DIRTY, come first", after 1 to 6.
pub fn check(table: &Table, count: u64, entries: &[Entry], bounds: Bounds) -> Result<String, Refused> {
    funnel::gate(table, &[], bounds)?;
    rules::count_state(table.n, count)?;
    let (words, flags) = buffers(table, entries);
    clean(&words, &flags)?;
    let occupied: Vec<(usize, u64)> = (0..flags.len())
        .filter(|&slot| flags[slot] == 1)
        .map(|slot| (slot, words[slot]))
        .collect();
    let (order, unplaced) = greedy(table, &occupied);
    let list: Vec<String> = order.iter().map(usize::to_string).collect();
    let list = if list.is_empty() {
        String::from("-")
    } else {
        list.join(",")
    };
    match unplaced {
        // "23 DISORDER: check stuck: number placed, smallest occupied slot unplaced".
        Some(slot) => Err(format!("R 23 {} {slot} {list}", order.len())),
        None => Ok(format!("OK {} {list}", order.len())),
    }
}

/// "From empty marks it takes, again and again, the smallest unplaced occupied slot whose identity's
/// insertion into the placed part is answered as inserted at that very slot." The slots in the order
/// taken, and the smallest that never was.
pub fn greedy(table: &Table, occupied: &[(usize, u64)]) -> (Vec<usize>, Option<usize>) {
    // "16 EXHAUSTED: count at least n minus floor(n/2^e)"; the counts "are those of its own slots".
    let maximum = rules::config(table.n, table.e)
        .expect("past the gate")
        .max_insertions();
    let mut placed = funnel::fresh(table);
    let mut order = Vec::new();
    // A linked list of the unplaced members, in rising order: `next[k]` follows member k - 1.
    let end = occupied.len();
    let mut next: Vec<usize> = (0..=end).collect();
    loop {
        let mut before = 0;
        let taken = loop {
            let member = next[before];
            if member == end {
                break None;
            }
            let (slot, identity) = occupied[member];
            let lands = match placed.search(identity) {
                Ok((ScalarFunnelSearch::Vacant(at), _)) => order.len() < maximum && at.global_slot() == slot,
                Ok((ScalarFunnelSearch::Hit(_) | ScalarFunnelSearch::Full, _)) | Err(_) => false,
            };
            if lands {
                break Some(member);
            }
            before = member + 1;
        };
        let Some(member) = taken else {
            let stuck = next[0];
            return (order, (stuck != end).then(|| occupied[stuck].0));
        };
        let (slot, identity) = occupied[member];
        placed.occupy(slot, identity);
        order.push(slot);
        next[before] = next[member + 1];
    }
}
