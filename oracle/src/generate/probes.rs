//! MIX, EP, FP, EW, FW, ER, FR, PHI, PHB, PHINV and BUD.

use super::numbers::powers;
use super::{Group, spoilt};
use crate::exact::probe::elastic_phi;

const ELASTIC_LEVELS: [u64; 12] = [
    0,
    1,
    15,
    16,
    30,
    31,
    32,
    33,
    1 << 32,
    (1 << 32) + 1,
    1 << 63,
    u64::MAX,
];
const ELASTIC_PROBES: [u64; 13] = [
    0,
    1,
    2,
    4_095,
    4_096,
    8_190,
    8_191,
    8_192,
    8_193,
    65_536,
    1 << 32,
    1 << 61,
    u64::MAX,
];
const ELASTIC_RETRIES: [u64; 10] = [0, 1, 6, 7, 8, 9, 1 << 16, (1 << 32) - 1, 1 << 32, u64::MAX];
const FUNNEL_LEVELS: [u64; 13] = [
    0,
    1,
    117,
    118,
    1 << 32,
    (1 << 45) - 1,
    1 << 45,
    (1 << 46) - 2,
    (1 << 46) - 1,
    1 << 46,
    (1 << 46) + 1,
    1 << 48,
    u64::MAX,
];
const FUNNEL_PROBES: [u64; 11] = [0, 1, 2, 127, 254, 255, 256, 257, 1 << 32, 1 << 56, u64::MAX];
const FUNNEL_RETRIES: [u64; 11] = [0, 1, 2, 127, 254, 255, 256, 257, (1 << 32) - 1, 1 << 32, u64::MAX];
const CAPS: [u64; 16] = [
    0,
    1,
    2,
    3,
    7,
    8,
    9,
    10,
    255,
    256,
    257,
    258,
    (1 << 32) - 1,
    1 << 32,
    (1 << 32) + 1,
    u64::MAX,
];
/// The identity that makes the elastic key 0 for seed 0; mix64(0) is 0, so its first word is 0.
const KEYLESS: u64 = 0x61c8_8646_80b5_83eb;

pub fn lines(group: &mut Group) {
    mixing(group);
    counters(group);
    words(group);
    reductions(group);
    positions(group);
    budgets(group);
    spoilt::lines(
        group,
        &[
            "MIX 1",
            "EP 31 8191 7",
            "FP 2 0 1 0",
            "EW 0 7 1 2 0",
            "FW 0 7 0 3 0 0",
            "ER 0 7 0 0 5 8",
            "FR 0 7 1 0 3 6 8",
            "PHI 3 5",
            "PHB 3 5",
            "PHINV 57",
            "BUD 1 4 3 2",
        ],
    );
}

fn mixing(group: &mut Group) {
    group.section();
    for x in powers(2) {
        let x = group.random.text(x);
        group.line(format!("MIX {x}"));
    }
    // The published outputs of splitmix64 for seed 0 are mix64 of the multiples of its increment.
    for k in 1..=20_u64 {
        group.line(format!("MIX {}", k.wrapping_mul(0x9e37_79b9_7f4a_7c15)));
    }
    for _ in 0..group.times(10_000) {
        let x = group.random.limit();
        group.line(format!("MIX {x}"));
    }
}

fn counters(group: &mut Group) {
    group.section();
    for level in ELASTIC_LEVELS {
        for probe in ELASTIC_PROBES {
            for retry in ELASTIC_RETRIES {
                group.line(format!("EP {level} {probe} {retry}"));
            }
        }
    }
    group.section();
    for tag in 0..=4 {
        for level in FUNNEL_LEVELS {
            for probe in FUNNEL_PROBES {
                for retry in FUNNEL_RETRIES {
                    if tag == 0 || level == 0 || group.random.once_in(20) {
                        group.line(format!("FP {tag} {level} {probe} {retry}"));
                    }
                }
            }
        }
    }
    group.section();
    for _ in 0..group.times(10_000) {
        let (level, probe, retry) = elastic_place(group);
        group.line(format!("EP {level} {probe} {retry}"));
        let (tag, level, probe, retry) = funnel_place(group);
        group.line(format!("FP {tag} {level} {probe} {retry}"));
    }
}

/// A place in the elastic packing, at times beyond it.
fn elastic_place(group: &mut Group) -> (u64, u64, u64) {
    let random = &mut group.random;
    let level = if random.once_in(20) {
        random.pick(&ELASTIC_LEVELS)
    } else {
        random.below(32)
    };
    let probe = if random.once_in(20) {
        random.pick(&ELASTIC_PROBES)
    } else {
        random.below(8_192)
    };
    let retry = if random.once_in(20) {
        random.pick(&ELASTIC_RETRIES)
    } else {
        random.below(8)
    };
    (level, probe, retry)
}

/// A place in the funnel packing, at times beyond it.
fn funnel_place(group: &mut Group) -> (u64, u64, u64, u64) {
    let random = &mut group.random;
    let tag = random.below(4);
    let level = match random.below(20) {
        _ if tag != 0 => 0,
        0 => random.pick(&FUNNEL_LEVELS),
        1..=4 => random.below(1 << 46),
        _ => random.below(118),
    };
    let probe = if random.once_in(20) {
        random.pick(&FUNNEL_PROBES)
    } else {
        random.below(256)
    };
    let retry = if random.once_in(20) {
        random.pick(&FUNNEL_RETRIES)
    } else {
        random.below(256)
    };
    (tag, level, probe, retry)
}

fn words(group: &mut Group) {
    group.section();
    for _ in 0..group.times(30_000) {
        let (seed, id) = (group.random.limit(), group.random.limit());
        let (level, probe, retry) = elastic_place(group);
        let id = group.random.text(id);
        group.line(format!("EW {seed} {id} {level} {probe} {retry}"));
    }
    // A key that equals the counter: mix64(0) is 0, so the word is the key.
    for _ in 0..group.times(2_000) {
        let seed = group.random.limit();
        let (level, probe, retry) = (
            group.random.below(32),
            group.random.below(8_192),
            group.random.below(8),
        );
        let id = (level << 16 | probe << 3 | retry)
            .wrapping_add(KEYLESS)
            .wrapping_sub(seed);
        group.line(format!("EW {seed} {id} {level} {probe} {retry}"));
    }
    group.section();
    for _ in 0..group.times(30_000) {
        let (seed, id) = (group.random.limit(), group.random.limit());
        let (tag, level, probe, retry) = funnel_place(group);
        let seed = group.random.text(seed);
        group.line(format!("FW {seed} {id} {tag} {level} {probe} {retry}"));
    }
}

/// 0, 1, every power of two and what lies around it, and small odd multiples of powers of two: for
/// these a low half often equals 2^64 mod u.
fn uppers() -> Vec<u64> {
    let mut list = powers(2);
    for odd in [3_u64, 5, 7, 9, 11, 13, 15, 17, 31] {
        for k in 0..64 {
            if let Some(upper) = odd.checked_mul(1 << k) {
                list.push(upper);
            }
        }
    }
    // Two thirds and three quarters of the range: many words are rejected.
    list.extend([u64::MAX / 3, u64::MAX / 3 * 2, u64::MAX / 4 * 3, u64::MAX / 5 * 3]);
    list.sort_unstable();
    list.dedup();
    list
}

fn any_upper(group: &mut Group, uppers: &[u64]) -> u64 {
    match group.random.below(8) {
        0 | 1 => group.random.pick(uppers),
        // Above 2^63 up to half of all words are rejected.
        2 | 3 => (1 << 63) + group.random.below(1 << 62) + group.random.below(1 << 62),
        4 => (1 << 63) + group.random.below(1_000),
        5 => group.random.pick(&[9_u64, 11, 13, 15]) << 60,
        6 => group.random.any_length(),
        _ => group.random.between(1, 1 << 33),
    }
}

fn reductions(group: &mut Group) {
    let uppers = uppers();
    group.section();
    for &upper in &uppers {
        for cap in CAPS {
            let (seed, id) = (group.random.limit(), group.random.limit());
            let (level, probe, _) = elastic_place(group);
            group.line(format!("ER {seed} {id} {level} {probe} {upper} {cap}"));
            let (seed, id) = (group.random.limit(), group.random.limit());
            let (tag, level, probe, _) = funnel_place(group);
            group.line(format!("FR {seed} {id} {tag} {level} {probe} {upper} {cap}"));
            group.line(format!("ER 0 {KEYLESS} 0 0 {upper} {cap}"));
        }
    }
    // The order 8, 9, 10.
    group.section();
    for upper in [0, 1, 3, 1 << 63, u64::MAX] {
        for cap in CAPS {
            for level in ELASTIC_LEVELS {
                for probe in [0, 8_191, 8_192, u64::MAX] {
                    group.line(format!("ER 1 2 {level} {probe} {upper} {cap}"));
                }
            }
            for level in FUNNEL_LEVELS {
                for probe in [0, 255, 256, u64::MAX] {
                    group.line(format!("FR 1 2 0 {level} {probe} {upper} {cap}"));
                }
            }
            for tag in 1..=3 {
                for probe in [0, 255, 256, u64::MAX] {
                    group.line(format!("FR 1 2 {tag} 0 {probe} {upper} {cap}"));
                }
            }
        }
    }
    group.section();
    for _ in 0..group.times(80_000) {
        let upper = any_upper(group, &uppers);
        let (seed, id) = (group.random.limit(), group.random.limit());
        let (level, probe, _) = elastic_place(group);
        let cap = if group.random.once_in(10) {
            group.random.pick(&CAPS)
        } else {
            group.random.between(1, 8)
        };
        let upper = group.random.text(upper);
        group.line(format!("ER {seed} {id} {level} {probe} {upper} {cap}"));
    }
    group.section();
    for _ in 0..group.times(80_000) {
        let upper = any_upper(group, &uppers);
        let (seed, id) = (group.random.limit(), group.random.limit());
        let (tag, level, probe, _) = funnel_place(group);
        let cap = match group.random.below(10) {
            0 => group.random.pick(&CAPS),
            1..=4 => group.random.between(1, 5),
            _ => group.random.between(1, 256),
        };
        group.line(format!("FR {seed} {id} {tag} {level} {probe} {upper} {cap}"));
    }
}

/// A number of exactly so many bits.
fn of_length(group: &mut Group, bits: u32) -> u128 {
    let top = 1_u128 << (bits - 1);
    match group.random.below(4) {
        0 => top,
        1 => top | (top - 1),
        _ => top | group.random.two_words() & (top - 1),
    }
}

fn positions(group: &mut Group) {
    // Every pair of lengths, so also each that just fits 128 bits and each that just does not.
    group.section();
    for i_bits in 1..=128 {
        for j_bits in 1..=64 {
            let is_tight = (127..=130).contains(&(2 * j_bits + 1 + i_bits));
            if is_tight || group.random.below(100) < group.percent.max(20) {
                for _ in 0..if group.is_full() { 6 } else { 2 } {
                    let (i, j) = (of_length(group, i_bits), of_length(group, j_bits));
                    let i = group.random.text(i);
                    group.line(format!("PHI {i} {j}"));
                }
            }
        }
    }
    for i in [0_u128, 1, 2, 3, u128::MAX] {
        for j in [0_u64, 1, 2, 3, u64::MAX] {
            group.line(format!("PHI {i} {j}"));
        }
    }
    for i in 1..=40 {
        for j in 1..=40 {
            if group.thin() || i <= 4 && j <= 4 {
                group.line(format!("PHI {i} {j}"));
                group.line(format!("PHB {i} {j}"));
            }
        }
    }

    group.section();
    for i_bits in 1..=32 {
        for j_bits in 1..=17 {
            for _ in 0..if group.is_full() { 8 } else { 2 } {
                let (i, j) = (of_length(group, i_bits), of_length(group, j_bits));
                group.line(format!("PHB {i} {j}"));
            }
        }
    }
    for i in [0_u64, 1, 2, (1 << 31) - 1, 1 << 31, (1 << 31) + 1, (1 << 32) - 1] {
        for j in [
            0,
            1,
            2,
            32_767,
            32_768,
            65_534,
            65_535,
            65_536,
            65_537,
            1 << 32,
            u64::MAX,
        ] {
            group.line(format!("PHB {i} {j}"));
        }
    }

    group.section();
    for p in 0..=100_000 {
        if p <= 3_000 || group.thin() {
            group.line(format!("PHINV {p}"));
        }
    }
    group.section();
    for k in 0..128 {
        let power = 1_u128 << k;
        for p in [
            power - 1,
            power,
            power + 1,
            power | (power >> 1),
            power | (power >> 2),
        ] {
            let p = group.random.text(p);
            group.line(format!("PHINV {p}"));
        }
        // Markers with no delimiter, and one delimiter at each place.
        group.line(format!("PHINV {}", u128::MAX >> k));
        group.line(format!("PHINV {}", u128::MAX - power));
        group.line(format!(
            "PHINV {}",
            (0xaaaa_aaaa_aaaa_aaaa_aaaa_aaaa_aaaa_aaaa_u128) >> k
        ));
    }
    for p in 984_263_330..=984_263_350 {
        group.line(format!("PHINV {p}"));
    }
    for _ in 0..group.times(30_000) {
        let i_bits = group.random.between(1, 64) as u32;
        let most = (127 - i_bits) / 2;
        let j_bits = group.random.between(1, u64::from(most)) as u32;
        let (i, j) = (of_length(group, i_bits), of_length(group, j_bits));
        if let Ok(position) = elastic_phi(i, j) {
            let off = group.random.pick(&[0, 0, 1, u128::MAX]);
            group.line(format!("PHINV {}", position.wrapping_add(off)));
        }
        let shift = group.random.below(128);
        let p = group.random.two_words() >> shift;
        let p = group.random.text(p);
        group.line(format!("PHINV {p}"));
    }
}

fn budgets(group: &mut Group) {
    const EXPONENTS: [u64; 16] = [
        0,
        1,
        2,
        3,
        4,
        8,
        9,
        10,
        63,
        64,
        65,
        1_024,
        4_095,
        4_096,
        4_097,
        u32::MAX as u64,
    ];
    group.section();
    for level in 0..=20 {
        for free in 0..=level + 1 {
            for e in [0, 1, 2, 3, 4, 9, 100] {
                for c in [0, 1, 2, 8_192, u64::MAX] {
                    if group.thin() || c == 0 && e == 0 || free == 0 || free > level {
                        group.line(format!("BUD {free} {level} {e} {c}"));
                    }
                }
            }
        }
    }
    // The product at the end of a word.
    group.section();
    for log in 0..=64_u32 {
        for e in EXPONENTS {
            let level = 1_u64.checked_shl(log).unwrap_or(u64::MAX);
            let capped = u64::from(log * log).min(e);
            if capped == 0 {
                group.line(format!("BUD 1 {level} {e} {}", u64::MAX));
                continue;
            }
            let most = u64::MAX / capped;
            for c in [most - 1, most, most.saturating_add(1), u64::MAX] {
                group.line(format!("BUD 1 {level} {e} {c}"));
            }
        }
    }
    group.section();
    for _ in 0..group.times(60_000) {
        let level = group.random.limit();
        let free = match group.random.below(8) {
            0 => group.random.limit(),
            1 => level,
            2 => level.wrapping_add(1),
            3 => 0,
            // Around a quotient that is a power of two.
            4 | 5 => (level >> group.random.below(64)).wrapping_add(group.random.pick(&[u64::MAX, 0, 1])),
            _ => group.random.below(level.max(1)),
        };
        let e = if group.random.once_in(2) {
            group.random.pick(&EXPONENTS)
        } else {
            group.random.below(40)
        };
        let c = match group.random.below(4) {
            0 => group.random.limit(),
            1 => 0,
            _ => group.random.between(1, 8_192),
        };
        let free = group.random.text(free);
        group.line(format!("BUD {free} {level} {e} {c}"));
    }
}
