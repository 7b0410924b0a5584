//! SN and MS.

use super::numbers::powers;
use super::{Group, spoilt};
use crate::exact::geometry::PaperConfig;

/// The last n of the domain.
const LAST: u64 = 1 << 32;

pub fn lines(group: &mut Group) {
    refusals(group);
    every_maximum(group);
    every_length(group);
    ranges(group);
    lower_bounds(group);
    spoilt::lines(group, &["SN 126 3 2 200", "MS 3 100"]);
}

/// Refusals 1 to 4 in the order of their numbers, and the ranges that hold nothing.
fn refusals(group: &mut Group) {
    group.section();
    for first in [0, 1, 2, 143, 144, 145, 200, LAST, LAST + 1, u64::MAX] {
        for last in [0, 1, 2, 143, 144, 145, 200, LAST, LAST + 1, u64::MAX] {
            for e in [0, 1, 2, 3, 27, 28, 64, 65, u32::MAX] {
                for count in [0, 126, 127, LAST, u64::MAX] {
                    if (e == 3 && count != LAST) || group.thin() {
                        group.line(format!("SN {count} {e} {first} {last}"));
                    }
                }
            }
        }
    }
}

/// Every maximum of a table of up to 20,000 slots, and one more: in the whole range, and in the range that ends at this n; and
/// every n as the first.
fn every_maximum(group: &mut Group) {
    group.section();
    for n in 2..=20_000_u64 {
        for e in 3..=12 {
            let maximum = PaperConfig::new(n as usize, e).expect("within the domain").max_insertions();
            if group.thin() {
                group.line(format!("SN {maximum} {e} 2 20000"));
                group.line(format!("SN {} {e} 2 20000", maximum + 1));
            }
            if group.thin() {
                group.line(format!("SN {maximum} {e} 2 {n}"));
                group.line(format!("SN {} {e} 2 {n}", maximum + 1));
            }
            if group.thin() {
                group.line(format!("SN 0 {e} {n} 20000"));
            }
        }
    }
}

/// Where the set of lengths changes: the first n that a length can have, the last, and where g changes, for each exponent; from there
/// on, to there, and by the count that asks for just this n.
fn every_length(group: &mut Group) {
    group.section();
    for e in 3..=28_u32 {
        let (half, quarter) = (1_u64 << (e + 1), 1_u64 << (e + 2));
        let mut ends = vec![2, 16, 17, 256, 257, 65_536, 65_537, LAST];
        for g in 3..=5 {
            for k in [1, 2, 3, 4, 5, 7, 10, 100, 10_000, 1_000_000] {
                for s in [4 * g * k, 4 * g * k + 1] {
                    ends.push((s * quarter).div_ceil(3));
                    ends.push(s * half);
                    ends.push(s + (4 * u64::from(e) + 10) * 2 * u64::from(e));
                }
            }
        }
        ends.sort_unstable();
        ends.dedup();
        for end in ends {
            for n in [end - 1, end, end + 1, end + 2 * u64::from(e) - 1, end + 2 * u64::from(e)] {
                if n > LAST || !group.thin() {
                    continue;
                }
                let count = n - (n >> e);
                group.line(format!("SN 0 {e} {n} {LAST}"));
                group.line(format!("SN {count} {e} 2 {LAST}"));
                group.line(format!("SN {} {e} 2 {LAST}", count + 1));
                group.line(format!("SN 0 {e} {} {n}", n - n / 7));
                group.line(format!("SN 0 {e} {n} {}", n + n / 5));
            }
        }
    }
}

/// Any range of the domain, with counts that it can and cannot take.
fn ranges(group: &mut Group) {
    group.section();
    for _ in 0..group.times(100_000) {
        let first = group.random.below(LAST) >> group.random.below(32);
        let reach = group.random.below(LAST) >> group.random.below(32);
        let last = (first + reach).min(LAST);
        let e = group.random.between(3, 28);
        let count = match group.random.below(4) {
            0 => 0,
            1 => last - (last >> e),
            2 => group.random.below(last + 1),
            _ => group.random.any_length() >> 31,
        };
        let (count, first) = (group.random.text(count), group.random.text(first));
        group.line(format!("SN {count} {e} {first} {last}"));
    }
    for _ in 0..group.times(2_000) {
        let e = (group.random.word() as u32).checked_shr(group.random.below(33) as u32).unwrap_or(0);
        let (count, first, last) = (group.random.limit(), group.random.limit(), group.random.limit());
        group.line(format!("SN {count} {e} {first} {last}"));
    }
}

/// The lower bound: where a bound is enough for each g, where g changes, and any number, for all exponents to 70 and those at which a
/// narrower type would wrap.
fn lower_bounds(group: &mut Group) {
    group.section();
    let exponents = (0..=70).chain([124, 125, 126, 127, 128, 1_024, 1 << 30, u32::MAX - 2, u32::MAX - 1, u32::MAX]);
    for e in exponents {
        for g in 1..=6_u128 {
            let Some(power) = 1_u128.checked_shl(e.saturating_add(2)).filter(|_| e < 64) else {
                continue;
            };
            let need = (4 * g * power).div_ceil(3);
            for from in need.saturating_sub(6)..=need + 6 {
                if let Ok(from) = u64::try_from(from)
                    && group.thin()
                {
                    group.line(format!("MS {e} {from}"));
                }
            }
        }
        for from in powers(3) {
            if group.thin() {
                group.line(format!("MS {e} {from}"));
            }
        }
        for _ in 0..group.times(1_000) {
            let (e, from) = (group.random.text(e), group.random.limit());
            let from = group.random.text(from);
            group.line(format!("MS {e} {from}"));
        }
    }
}
