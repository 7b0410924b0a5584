//! A funnel plan, and the test whether given numbers are one, beside the Rust's plan with all its counts.

use std::hint::black_box;

use crate::calls;
use crate::exact::geometry::PaperConfig;
use crate::measure::Table;

/// Sizes with a layout: at each of some steps from the smallest special part that can be to the largest table, the first.
fn sizes(e: u32) -> Vec<u64> {
    let largest = 1_u64 << 32;
    let mut from = (1_u64 << (e + 2)) * 4;
    let mut found = Vec::new();
    while from <= largest {
        found.extend((from..largest.min(from + 200)).find(|&n| calls::funnel_plan(n, e).is_some()));
        from += from / 16 + 1;
    }
    found
}

fn rust_plan(n: u64, e: u32) -> usize {
    let plan = PaperConfig::new(n as usize, e).unwrap().funnel_plan().unwrap();
    plan.ordinary_bucket_counts().sum()
}

pub fn rows(table: &mut Table) {
    for e in [3, 6, 12, 27] {
        let sizes = sizes(e);
        assert!(!sizes.is_empty(), "no layout at exponent {e}");
        let plans: Vec<_> = sizes.iter().map(|&n| calls::funnel_plan(n, e).unwrap()).collect();
        let turns = 2000_usize.div_ceil(sizes.len());
        let operations = turns * sizes.len();
        let theirs = || {
            for _ in 0..turns {
                for &n in &sizes {
                    black_box(rust_plan(black_box(n), e));
                }
            }
        };
        table.row(&format!("plan: funnel plan, e {e}"), operations, || {
            for _ in 0..turns {
                for &n in &sizes {
                    black_box(calls::funnel_plan(black_box(n), e));
                }
            }
        }, theirs);
        table.row(&format!("plan: plan test, e {e}"), operations, || {
            for _ in 0..turns {
                for (&n, (plan, counts)) in sizes.iter().zip(&plans) {
                    assert!(calls::is_funnel_plan(black_box(n), e, plan, counts));
                }
            }
        }, theirs);
    }
}
