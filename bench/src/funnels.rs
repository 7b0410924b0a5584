//! Funnel tables: filling to the maximum, hits and misses at the maximum, and one public insertion with its gate. Filling and
//! hits go through `place_all`, the call for many identities. It refuses a miss at the maximum, so misses go through the
//! search; and so do the same hits once more.

use core::num::NonZeroU32;
use std::hint::black_box;

use crate::calls::{self, Funnel};
use crate::exact::geometry::PaperConfig;
use crate::exact::probe::FunnelPrf;
use crate::exact::reference::{ScalarFunnel, ScalarFunnelInsert, ScalarFunnelSearch};
use crate::measure::Table;

pub const SEED: u64 = 0x5EED;
pub const CAP: u64 = 8;

/// The k-th identity of a run: splitmix64's outputs, all different.
pub fn identity(k: u64) -> u64 {
    let mut x = k.wrapping_add(1).wrapping_mul(0x9e37_79b9_7f4a_7c15);
    x = (x ^ (x >> 30)).wrapping_mul(0xbf58_476d_1ce4_e5b9);
    x = (x ^ (x >> 27)).wrapping_mul(0x94d0_49bb_1331_11eb);
    x ^ (x >> 31)
}

/// Orders of some identities, some 2^18 in all: one order again and again is soon known to a processor's branch prediction by heart.
pub fn orders(identities: &[u64]) -> Vec<Vec<u64>> {
    let many = ((1 << 18) / identities.len()).max(1) as u64;
    (0..many).map(|k| {
        let mut order = identities.to_vec();
        for i in (1..order.len()).rev() {
            order.swap(i, (identity(k << 32 | i as u64) % (i as u64 + 1)) as usize);
        }
        order
    }).collect()
}

fn rust_table(n: u64, e: u32) -> ScalarFunnel<FunnelPrf> {
    let config = PaperConfig::new(n as usize, e).unwrap();
    ScalarFunnel::new(config, FunnelPrf::new(SEED), NonZeroU32::new(CAP as u32).unwrap())
}

/// The Rust's searches for identities that are there.
fn search_members(table: &ScalarFunnel<FunnelPrf>, members: &[u64]) {
    let mut sum = 0_u128;
    for &id in members {
        let (found, probes) = table.search(id).unwrap();
        assert!(matches!(found, ScalarFunnelSearch::Hit(_)));
        sum += probes;
    }
    black_box(sum);
}

pub fn rows(table: &mut Table) {
    for (n, e) in [(1 << 12, 3), (1 << 16, 3), (1 << 20, 3), (1 << 22, 3), (1 << 20, 6)] {
        let name = |what: &str| format!("funnel: {what}, n {n}, e {e}");
        if !table.wants(&name("")[..6]) {
            continue;
        }
        let n = (n..).find(|&n| calls::funnel_plan(n, e).is_some()).unwrap();
        let (plan, _) = calls::funnel_plan(n, e).unwrap();
        let maximum = plan[0];
        let members: Vec<u64> = (0..maximum).map(identity).collect();
        let absent: Vec<u64> = (maximum..2 * maximum).map(identity).collect();
        let mut slots = vec![0; members.len()];
        let mut ours = Funnel::open(n, e, SEED, CAP);
        let mut theirs = rust_table(n, e);
        // Emptying the tables is not timed on either side.
        table.row_after(&name("filling"), members.len(), &mut ours, &mut theirs, |ours| ours.clear(), |theirs| {
            *theirs = rust_table(n, e);
        }, |ours| {
            assert!(ours.place_all(&members, &mut slots));
        }, |theirs| {
            for &id in &members {
                let (answer, _) = theirs.insert(id).unwrap();
                assert!(matches!(answer, ScalarFunnelInsert::Inserted(_)));
            }
        });
        for (slot, &id) in slots.iter().zip(&members) {
            assert_eq!(theirs.slots()[*slot as usize], Some(id));
        }
        let mut again = vec![0; members.len()];
        table.row(&name("hits at the maximum"), members.len(), || {
            assert!(ours.place_all(&members, &mut again));
        }, || search_members(&theirs, &members));
        assert_eq!(again, slots);
        table.row(&name("the same hits by search"), members.len(), || {
            black_box(ours.search_all(&members));
        }, || search_members(&theirs, &members));
        table.row(&name("misses at the maximum"), absent.len(), || {
            black_box(ours.search_all(&absent));
        }, || {
            let mut sum = 0_u128;
            for &id in &absent {
                let (_, probes) = theirs.search(id).unwrap();
                sum += probes;
            }
            black_box(sum);
        });
        table.row_after(&name("one insertion with its gate"), members.len(), &mut ours, &mut theirs, |ours| ours.clear(), |theirs| {
            *theirs = rust_table(n, e);
        }, |ours| {
            for &id in &members {
                ours.insert(id);
            }
        }, |theirs| {
            for &id in &members {
                black_box(theirs.insert(id).unwrap());
            }
        });
    }
}
