//! SN and MS: the smallest funnel table for a count, which the Rust does not have, and the Rust's own lower bound on layouts.
//!
//! Up to 20,000 slots the Rust's plans are asked n by n. No machine does that to 2^32, so above it a model goes through special
//! lengths instead: for each length it says which n can have it, and the smallest of these is the answer. The model is held
//! against the Rust wherever that can be done: on every question up to 20,000 slots, and above it by the Rust's own plan at the
//! answer and at every n of the range before it, if these are not more than 20,000, else at 300 of them; where there is none, at the last
//! n of the range. Where they disagree the answer is `PANIC`.

use std::cell::RefCell;
use std::collections::BTreeMap;

use crate::answer::funnel_layout;
use crate::exact::geometry::{PaperConfig, funnel_minimum_slots};
use crate::rules::{Refused, refusal};

/// Up to here every n is asked.
const ASKED: u64 = 20_000;

/// So many n before an answer are asked, where there are too many to ask all.
const BEFORE: u64 = 300;

/// "first below 2 is N, last above 2^32 is SIZE, e as in document 01": by number, and then 27.
pub fn smallest(count: u64, e: u32, first: u64, last: u64) -> Result<String, Refused> {
    if first < 2 {
        return Err(refusal(1));
    }
    if e == 0 {
        return Err(refusal(2));
    }
    if last > 1 << 32 {
        return Err(refusal(3));
    }
    if e < 3 {
        return Err(refusal(4));
    }
    match found(count, e, first, last)? {
        Some(n) => Ok(format!("{n} {}", funnel_layout(n, e)?)),
        None => Err(refusal(27)),
    }
}

/// The Rust's own, `None` as 27.
pub fn minimum(e: u32, from: u64) -> Result<String, Refused> {
    funnel_minimum_slots(e, from as usize)
        .map(|n| n.to_string())
        .ok_or_else(|| refusal(27))
}

fn found(count: u64, e: u32, first: u64, last: u64) -> Result<Option<u64>, Refused> {
    let asked = asked(count, e, first, last);
    let by_lengths = enough(count, e, first, last).and_then(|start| by_lengths(e, start, last));
    let agreed = if last <= ASKED || asked.is_some() {
        asked == by_lengths
    } else {
        let to = by_lengths.unwrap_or(last + 1);
        let start = enough(count, e, first, last).unwrap_or(to);
        let near = if to - start <= ASKED { start } else { to - BEFORE };
        by_lengths.is_none_or(|n| takes(count, e, n) && rust_layout(n, e)) && !(near..to).any(|n| rust_layout(n, e))
    };
    if agreed {
        Ok(by_lengths)
    } else {
        Err(format!("PANIC asked {asked:?}, by lengths {by_lengths:?}"))
    }
}

fn takes(count: u64, e: u32, n: u64) -> bool {
    PaperConfig::new(n as usize, e).is_ok_and(|config| config.max_insertions() as u64 >= count)
}

fn rust_layout(n: u64, e: u32) -> bool {
    PaperConfig::new(n as usize, e).is_ok_and(|config| config.funnel_plan().is_ok())
}

/// The answer up to 20,000 slots, by what the Rust says of each n; of an exponent that comes up often it is asked once.
fn asked(count: u64, e: u32, first: u64, last: u64) -> Option<u64> {
    thread_local! {
        static SAID: RefCell<BTreeMap<u32, Vec<bool>>> = const { RefCell::new(BTreeMap::new()) };
    }
    let mut range = first..=last.min(ASKED);
    if e > 64 {
        return range.find(|&n| takes(count, e, n) && rust_layout(n, e));
    }
    SAID.with_borrow_mut(|said| {
        let said = said
            .entry(e)
            .or_insert_with(|| (0..=ASKED).map(|n| rust_layout(n, e)).collect());
        range.find(|&n| said[n as usize] && takes(count, e, n))
    })
}

/// The first n of the range whose maximum is at least the count: by halves, since the maximum never falls.
fn enough(count: u64, e: u32, first: u64, last: u64) -> Option<u64> {
    if first > last || !takes(count, e, last) {
        return None;
    }
    let (mut from, mut to) = (first, last);
    while from < to {
        let middle = from + (to - from) / 2;
        if takes(count, e, middle) {
            to = middle;
        } else {
            from = middle + 1;
        }
    }
    Some(from)
}

/// The smallest n of a range with a special length, by going through the lengths in turn: for each g, from the smallest length
/// that an n from `start` on may have.
fn by_lengths(e: u32, start: u64, last: u64) -> Option<u64> {
    let mut best = None;
    for (g, from, to) in [(1, 2, 4), (2, 5, 16), (3, 17, 256), (4, 257, 65_536), (5, 65_537, 1 << 32)] {
        let (from, to) = (start.max(from), last.min(to));
        if best.is_none() && from <= to {
            best = of_one_g(e, g, from, to);
        }
    }
    best
}

fn of_one_g(e: u32, g: u64, from: u64, to: u64) -> Option<u64> {
    let (beta, alpha) = (2 * u128::from(e), 4 * u128::from(e) + 10);
    let (from, to, g) = (u128::from(from), u128::from(to), u128::from(g));
    // 3 * 2^32 / 2^(e+2) is below 1 here.
    if e > 40 {
        return None;
    }
    let (half, quarter) = (1_u128 << (e + 1), 1_u128 << (e + 2));
    let mut best: Option<u128> = None;
    // A length is 4g times k, or one more.
    let mut k = (from.div_ceil(half) / (4 * g)).max(1);
    loop {
        // It ends where a length asks for a larger n than the best so far. A longer length asks for no smaller n with the same remainder by
        // beta, so it ends too where beta lengths in turn have been tried that are long enough for the best.
        let bound = best.unwrap_or(to);
        if (4 * g * k * quarter).div_ceil(3) > bound || 4 * g * k > bound.div_ceil(half) + 4 * g * (beta + 1) {
            return best.map(|n| n as u64);
        }
        for s in [4 * g * k, 4 * g * k + 1] {
            // The upper bound reaches s, alpha * beta slots are left, and n - s is a multiple of beta.
            let least = from.max((s * quarter).div_ceil(3)).max(s + alpha * beta);
            let n = least + (s + beta - least % beta) % beta;
            // The lower bound is at most s.
            if n <= to && n.div_ceil(half) <= s && best.is_none_or(|b| n < b) {
                best = Some(n);
            }
        }
        k += 1;
    }
}
