//! Range reductions: the buckets of one identity in the first ten levels of a funnel table.

use std::hint::black_box;

use crate::calls;
use crate::exact::probe::{FunnelPrf, ProbeDomain, unbiased_probe_index};
use crate::measure::Table;

const IDENTITIES: u64 = 20_000;

pub fn rows(table: &mut Table) {
    let (_, counts) = layout_near(1 << 20, 3).unwrap();
    let levels = &counts[..10];
    let seed = 0x5EED;
    table.row("probe: ten levels of an identity, e 3", IDENTITIES as usize, || {
        let mut sum = 0_u64;
        for identity in 0..IDENTITIES {
            sum = sum.wrapping_add(calls::draws(seed, black_box(identity), 8, levels));
        }
        black_box(sum);
    }, || {
        let prf = FunnelPrf::new(seed);
        let mut sum = 0_u64;
        for identity in 0..IDENTITIES {
            let identity = black_box(identity);
            for (level, &count) in levels.iter().enumerate() {
                let domain = ProbeDomain::FunnelOrdinary { level: level as u64 };
                let drawn =
                    unbiased_probe_index(&prf, identity, domain, 0, count as usize, 8).unwrap();
                sum = sum.wrapping_add(drawn.index as u64);
            }
        }
        black_box(sum);
    });
}

fn layout_near(n: u64, e: u32) -> Option<(calls::Plan, calls::Counts)> {
    (n..n + 1000).find_map(|n| calls::funnel_plan(n, e))
}
