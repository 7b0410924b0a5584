//! Elastic tables: insertion, the query of members, and the query of an absent identity.

use core::num::{NonZeroU32, NonZeroU64, NonZeroU128, NonZeroUsize};
use std::hint::black_box;

use crate::calls::Elastic;
use crate::exact::geometry::PaperConfig;
use crate::exact::probe::CounterPrf;
use crate::exact::reference::{ScalarElastic, ScalarElasticLimits};
use crate::funnels::{SEED, identity};
use crate::measure::Table;
use crate::panics;

const C: u64 = 1;
const WORD_CAP: u64 = 8;
const SEARCH_CAP: u64 = 8192;
const POSITION_CAP: u64 = 984_263_340;
/// The cap of the queries for absent identities: the Rust visits every position up to it.
const ABSENT_CAP: u64 = 1_000_000;

fn ours(n: u64, e: u32, position_cap: u64) -> Elastic {
    Elastic::open([n, u64::from(e), SEED, C, WORD_CAP, SEARCH_CAP, position_cap])
}

fn theirs(n: u64, e: u32, position_cap: u64) -> ScalarElastic<CounterPrf> {
    let limits = ScalarElasticLimits::new(
        NonZeroUsize::new(C as usize).unwrap(),
        NonZeroU32::new(WORD_CAP as u32).unwrap(),
        NonZeroU64::new(SEARCH_CAP).unwrap(),
        NonZeroU128::new(u128::from(position_cap)).unwrap(),
    );
    ScalarElastic::new(PaperConfig::new(n as usize, e).unwrap(), CounterPrf::new(SEED), limits)
}

/// Both tables with the first so many identities in, each at the same place.
fn filled(n: u64, e: u32, position_cap: u64, members: u64) -> (Elastic, ScalarElastic<CounterPrf>) {
    let (mut mine, mut other) = (ours(n, e, position_cap), theirs(n, e, position_cap));
    for id in (0..members).map(identity) {
        let phi = mine.insert(id);
        assert_eq!(u128::from(phi), other.insert(id).phi);
    }
    (mine, other)
}

pub fn rows(table: &mut Table) {
    if table.wants("elastic: insertion") {
        insertions(table);
    }
    if table.wants("elastic: query") {
        queries(table);
    }
}

/// The second half of the members, into tables that hold the first half: making those ready is not timed.
fn insertions(table: &mut Table) {
    for n in [1 << 10, 1 << 12, 1 << 14, 1 << 16] {
        let half = ours(n, 3, POSITION_CAP).maximum() / 2;
        let later: Vec<u64> = (half..2 * half).map(identity).collect();
        let (start, _) = filled(n, 3, POSITION_CAP, half);
        let name = format!("elastic: insertion, n {n}, e 3");
        let mut mine = start.clone();
        let (_, mut other) = filled(n, 3, POSITION_CAP, 0);
        table.row_after(&name, later.len(), &mut mine, &mut other, |mine| *mine = start.clone(), |other| {
            *other = filled(n, 3, POSITION_CAP, half).1;
        }, |mine| {
            for &id in &later {
                assert!(mine.insert(id) != 0);
            }
        }, |other| {
            for &id in &later {
                black_box(other.insert(id));
            }
        });
    }
}

fn queries(table: &mut Table) {
    let n = 1 << 12;
    for e in [3, 6] {
        let members = ours(n, e, POSITION_CAP).maximum();
        let (mine, other) = filled(n, e, POSITION_CAP, members);
        let sample: Vec<u64> = (0..members).step_by(8).map(identity).collect();
        table.row(&format!("elastic: query of members, n {n}, e {e}"), sample.len(), || {
            for &id in &sample {
                assert!(mine.query(id) != 0);
            }
        }, || {
            for &id in &sample {
                black_box(other.query(id));
            }
        });
    }
    panics::silence_caught();
    let (mine, other) = filled(n, 3, ABSENT_CAP, n / 4);
    let absent: Vec<u64> = (n..n + 16).map(identity).collect();
    table.row(&format!("elastic: query, absent, cap {ABSENT_CAP}, n {n}"), absent.len(), || {
        for &id in &absent {
            assert_eq!(mine.query(id), 0);
        }
    }, || {
        for &id in &absent {
            assert!(panics::caught(|| other.query(id)).is_err());
        }
    });
}
