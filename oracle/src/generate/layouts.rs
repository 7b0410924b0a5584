//! EL and FL.

use super::numbers::powers;
use super::{Group, spoilt};
use crate::exact::geometry::{PaperConfig, funnel_minimum_slots};

/// Exponents at which something changes: the refusals of 0 to 2, the last with a funnel layout in the
/// domain (27), the widths of words, and those at which 4e + 10 or e + 1 leave a narrow type.
const EXPONENTS: [u32; 43] = [
    0,
    1,
    2,
    3,
    4,
    5,
    6,
    7,
    8,
    9,
    10,
    11,
    12,
    13,
    14,
    16,
    20,
    24,
    25,
    26,
    27,
    28,
    29,
    30,
    31,
    32,
    33,
    61,
    62,
    63,
    64,
    65,
    125,
    126,
    127,
    128,
    1_024,
    65_535,
    1 << 30,
    (1 << 30) + 1,
    1 << 31,
    u32::MAX - 1,
    u32::MAX,
];

/// Whether n and e have a funnel layout.
pub fn has_funnel(n: u64, e: u32) -> bool {
    PaperConfig::new(n as usize, e).is_ok_and(|config| config.funnel_plan().is_ok())
}

/// The smallest n with a funnel layout for e: below alpha*beta, and where the special part cannot hold
/// two fallback buckets, there is none.
pub fn smallest_funnel(e: u32) -> u64 {
    let ordinary = (4 * e as usize + 10) * 2 * e as usize;
    let from = funnel_minimum_slots(e, ordinary).expect("a small exponent");
    (from as u64..).find(|&n| has_funnel(n, e)).expect("some layout")
}

pub fn lines(group: &mut Group) {
    group.section();
    for n in 0..=20_000_u64 {
        for e in 1..=12 {
            if n <= 150 || group.thin() {
                group.line(format!("EL {n} {e}"));
            }
            if (130..=350).contains(&n) || group.thin() {
                group.line(format!("FL {n} {e}"));
            }
        }
    }

    group.section();
    for n in powers(3) {
        for e in EXPONENTS {
            if !group.is_full() && !n.is_power_of_two() && group.random.below(4) != 0 {
                continue;
            }
            let (n, e) = (group.random.text(n), group.random.text(e));
            group.line(format!("EL {n} {e}"));
            group.line(format!("FL {n} {e}"));
        }
    }

    // The end of the domain, with the exponents that have a layout there and the next ones.
    group.section();
    for n in (1_u64 << 32) - 300..=(1 << 32) + 20 {
        for e in [1, 2, 3, 12, 25, 26, 27, 28, 30, 31, 32] {
            if group.thin() {
                group.line(format!("FL {n} {e}"));
                group.line(format!("EL {n} {e}"));
            }
        }
    }

    // The smallest layouts of each exponent, where the interval of s and n - alpha*beta are tight.
    group.section();
    for e in 3..=27 {
        let smallest = smallest_funnel(e);
        for n in smallest - 60..smallest + 240 {
            if n <= smallest + 2 || group.thin() {
                group.line(format!("FL {n} {e}"));
            }
        }
    }

    // Any n and e, of any length in bits.
    group.section();
    for _ in 0..group.times(100_000) {
        let n = group.random.limit();
        let shift = group.random.below(33) as u32;
        let e = (group.random.word() as u32).checked_shr(shift).unwrap_or(0);
        let (n, e) = (group.random.text(n), group.random.text(e));
        group.line(format!("EL {n} {e}"));
        group.line(format!("FL {n} {e}"));
    }

    // Within the domain, with exponents that can have a layout.
    group.section();
    for _ in 0..group.times(100_000) {
        let n = group.random.below(1 << 33) >> group.random.below(26);
        let e = group.random.between(3, 28);
        group.line(format!("FL {n} {e}"));
        let e = group.random.between(1, 34);
        group.line(format!("EL {n} {e}"));
    }

    // The longest line that replay takes, and one byte more.
    group.section();
    for length in [4_095, 4_096, 65_536, 524_287, 524_288, 524_289, 600_000] {
        group.line(format!("EL {}8 1", "0".repeat(length - 6)));
    }
    group.line("EL 8 1");

    spoilt::lines(group, &["EL 8 1", "FL 144 3"]);
}
