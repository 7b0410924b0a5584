//! ERUN and EBULK.

use super::{Group, spoilt};
use crate::elastic::{Opened, Table};
use crate::exact::geometry::PaperConfig;
use crate::rules::Bounds;

/// The identity that makes the key 0 for seed 0: the first word of level 0 is then 0, which is
/// rejected where the level's length is no power of two. It is the only way to RANGE.
const KEYLESS: u64 = 0x61c8_8646_80b5_83eb;

/// The largest position cap of 01.
const POSITIONS: u64 = 984_263_340;

pub fn lines(group: &mut Group) {
    openings(group);
    honest_runs(group);
    simulated_runs(group);
    keyless_runs(group);
    bad_states(group);
    made_up_states(group);
    bulk_runs(group);
    long_queries(group);
    spoilt::lines(
        group,
        &[
            "ERUN 2 1 0 1 8 8192 200 i7",
            "ERUN 4 1 0 1 8 8192 200 q7",
            "ERUN 4 1 0 1 8 8192 200",
            "EBULK 16 3 7 1 8 8192 984263340 3 20",
        ],
    );
    for operation in [
        "s7",
        "x7",
        "i",
        "q",
        "o",
        "c",
        "l",
        "i=7",
        "o4=7",
        "o3=7",
        "o3",
        "o=7",
        "o3=",
        "o3=7=8",
        "o3=7:1",
        "c0",
        "c31=0",
        "c32=0",
        "c0=18446744073709551616",
        "l18446744073709551616",
        "l18446744073709551615",
        "I7",
        "i0x7",
        "i0X7",
        "i-7",
        "i07",
        "o0x3=0x7",
        "c0=1",
        "i18446744073709551616",
    ] {
        group.line(format!("ERUN 4 1 0 1 8 8192 200 {operation} i5"));
        group.line(format!("ERUN 1 1 0 1 8 8192 200 {operation} i5"));
    }
}

fn head(table: &Table) -> String {
    format!(
        "{} {} {} {} {} {} {}",
        table.n, table.e, table.seed, table.c, table.word_cap, table.search_cap, table.position_cap
    )
}

/// Refusals 1 to 6 in their order, and `L`.
fn openings(group: &mut Group) {
    const WORDS: [u64; 8] = [0, 1, 2, 8, 9, 1 << 32, (1 << 32) + 1, u64::MAX];
    const SEARCHES: [u64; 6] = [0, 1, 8_192, 8_193, 1 << 32, u64::MAX];
    const POSITION_CAPS: [u64; 6] = [0, 1, POSITIONS, POSITIONS + 1, 1 << 32, u64::MAX];
    group.section();
    for e in [
        0_u64,
        1,
        2,
        3,
        8,
        100,
        1_023,
        1_024,
        1_025,
        8_191,
        8_192,
        8_193,
        1 << 31,
        u32::MAX.into(),
    ] {
        let most = 8_192 / e.clamp(1, 1_024);
        for c in [0, 1, 2, most, most + 1, 8_192, 8_193, 1 << 32, 1 << 61, u64::MAX] {
            group.line(format!("ERUN 20 {e} 5 {c} 8 8192 100 i7"));
            group.line(format!("EBULK 20 {e} 5 {c} 8 8192 100 1 3"));
        }
    }
    for n in [
        0_u64,
        1,
        2,
        20,
        65_536,
        65_537,
        1 << 32,
        (1 << 32) + 1,
        1 << 63,
        u64::MAX,
    ] {
        for e in [0, 1, 3] {
            for words in WORDS {
                group.line(format!("ERUN {n} {e} 5 1 {words} 8192 100 i7"));
            }
            for search in SEARCHES {
                group.line(format!("ERUN {n} {e} 5 1 8 {search} 100 i7"));
            }
            for positions in POSITION_CAPS {
                group.line(format!("ERUN {n} {e} 5 1 8 8192 {positions} i7"));
            }
            for c in [0, 1, 8_192, 8_193] {
                group.line(format!("EBULK {n} {e} 5 {c} 8 8192 100 1 3"));
            }
        }
    }
}

/// A table that can be opened; its position cap is small enough for the Rust to walk.
fn any_table(group: &mut Group, most: u64) -> Table {
    let random = &mut group.random;
    let n = match random.below(10) {
        0..=2 => random.between(2, 20),
        3..=7 => random.between(2, 200),
        _ => random.between(2, 1_500),
    }
    .min(most);
    let e = match random.below(20) {
        0 => random.pick(&[
            20_u32,
            31,
            32,
            63,
            64,
            1_023,
            1_024,
            1_025,
            4_096,
            1 << 31,
            u32::MAX,
        ]),
        1..=4 => random.between(7, 12) as u32,
        _ => random.between(1, 6) as u32,
    };
    let most_c = 8_192 / u64::from(e.min(1_024));
    let c = match random.below(4) {
        0 => random.between(1, most_c),
        1 => most_c,
        _ => random.between(1, 3).min(most_c),
    };
    Table {
        n,
        e,
        seed: random.limit(),
        c,
        word_cap: if random.once_in(2) {
            8
        } else {
            random.between(1, 8)
        },
        search_cap: match random.below(6) {
            0 => random.between(1, 6),
            1 => random.between(1, 100),
            _ => 8_192,
        },
        position_cap: match random.below(12) {
            0 => random.between(1, 60),
            1 => random.pick(&[12, 13, 14, 25, 26, 27, 56, 57, 58]),
            2 => 20_000,
            _ => random.between(60, 3_000),
        },
    }
}

/// An identity: new, small, with a key near 0, or one of those at hand.
fn identity(group: &mut Group, seed: u64, known: &[u64]) -> u64 {
    let random = &mut group.random;
    match random.below(36) {
        0 => KEYLESS.wrapping_sub(seed),
        1 => KEYLESS.wrapping_sub(seed).wrapping_add(random.below(64)),
        2 => random.below(10),
        3 => random.limit(),
        4..=8 if !known.is_empty() => random.pick(known),
        _ => random.word(),
    }
}

/// From fresh to the maximum and beyond, with questions on the way.
fn honest_runs(group: &mut Group) {
    group.section();
    for _ in 0..group.times(2_500) {
        let table = any_table(group, 1_500);
        let insertions = match group.random.below(3) {
            0 => table.n + 3,
            1 => group.random.between(1, table.n),
            _ => group.random.between(1, 20),
        };
        let mut line = format!("ERUN {}", head(&table));
        let mut known = Vec::new();
        let mut questions = 30_000 / table.position_cap.max(100);
        for _ in 0..insertions {
            let id = identity(group, table.seed, &known);
            known.push(id);
            let text = group.random.text(id);
            line.push_str(&format!(" i{text}"));
            if questions > 0 && group.random.once_in(4) {
                questions -= 1;
                let id = identity(group, table.seed, &known);
                line.push_str(&format!(" q{id}"));
            }
        }
        group.line(line);
    }
}

/// Runs at the largest position cap; only members near the start are asked for, since the Rust walks
/// every position.
fn simulated_runs(group: &mut Group) {
    group.section();
    for _ in 0..group.times(600) {
        let mut table = any_table(group, 1_500);
        table.position_cap = POSITIONS;
        table.search_cap = 8_192;
        let mut line = format!("ERUN {}", head(&table));
        let mut opened = Opened::new(&table, Bounds::REPLAY).expect("within the domain");
        let mut known = Vec::new();
        for _ in 0..table.n + 1 {
            let id = identity(group, table.seed, &[]);
            line.push_str(&format!(" i{id}"));
            if let Ok(insertion) = opened.insert(id)
                && insertion.phi <= 20_000
            {
                known.push(id);
            }
            if group.random.once_in(3) && !known.is_empty() {
                let id = group.random.pick(&known);
                line.push_str(&format!(" q{id}"));
            }
        }
        group.line(line);
    }
}

/// RANGE in batch 0, in the budget probes of a later batch, and in a question; and a first word that is
/// rejected and then spent.
fn keyless_runs(group: &mut Group) {
    group.section();
    for _ in 0..group.times(300) {
        let mut table = any_table(group, 80);
        table.n = group.random.between(2, 40);
        table.word_cap = group.random.pick(&[1, 1, 1, 2, 8]);
        let id = KEYLESS.wrapping_sub(table.seed);
        let mut line = format!("ERUN {}", head(&table));
        for _ in 0..group.random.below(table.n) {
            line.push_str(&format!(" i{}", group.random.word()));
        }
        line.push_str(&format!(" i{id} q{id} i{} q{id}", group.random.word()));
        if group.random.once_in(2) {
            let slot = group.random.below(table.n);
            line.push_str(&format!(" o{slot}={id} q{id} i{id}"));
        }
        group.line(line);
    }
}

struct Plan {
    lengths: Vec<u64>,
    quotas: Vec<u64>,
    maximum: u64,
}

fn plan(table: &Table) -> Plan {
    let config = PaperConfig::new(table.n as usize, table.e).expect("within the domain");
    let plan = config.elastic_plan();
    Plan {
        lengths: plan.level_lengths().map(|length| length as u64).collect(),
        quotas: plan.batch_quotas().map(|quota| quota as u64).collect(),
        maximum: config.max_insertions() as u64,
    }
}

/// Each cause of STATE, alone and just not met, before an insertion and before a question.
fn bad_states(group: &mut Group) {
    group.section();
    for _ in 0..group.times(400) {
        let table = any_table(group, 60);
        let plan = plan(&table);
        let levels = plan.lengths.len();
        let head = head(&table);
        let level = group.random.below(levels as u64) as usize;
        let length = plan.lengths[level];
        let mut states = vec![
            format!("l{}", table.n),
            format!("l{}", table.n + 1),
            String::from("l1"),
            String::from("l18446744073709551615"),
            format!("c{level}=1"),
            format!("c{level}=1 l1"),
            format!("c{level}=1 l2"),
            format!("c{level}={length} l{length}"),
            format!("c{level}={} l{}", length + 1, length + 1),
            format!("c{level}=18446744073709551615 l18446744073709551615"),
            // Level counts whose sum wraps to the count.
            format!("c0=18446744073709551615 c{}=2 l1", levels.min(2) - 1),
            format!(
                "c0=9223372036854775808 c{}=9223372036854775808 l0",
                levels.min(2) - 1
            ),
            format!("c31={}", u64::from(levels < 32)),
            format!("c31=1 l1"),
            format!("c{}=1 l1", levels.min(31)),
            format!("c{}=0 l0", levels.min(31)),
        ];
        let full: Vec<String> = (0..levels).map(|k| format!("c{k}={}", plan.lengths[k])).collect();
        states.push(format!("{} l{}", full.join(" "), table.n));
        states.push(format!("{} l{}", full.join(" "), table.n - 1));
        let state = group
            .random
            .pick(&states.iter().map(String::as_str).collect::<Vec<_>>());
        group.line(format!("ERUN {head} {state} i7 q7"));
        group.line(format!("ERUN {head} i5 {state} q5 i7"));
    }
}

/// Counts of each level, with their sum as the count.
fn counts(group: &mut Group, table: &Table, plan: &Plan) -> (Vec<u64>, u64) {
    let levels = plan.lengths.len();
    let random = &mut group.random;
    let prefix = |batch: usize| plan.quotas[..batch].iter().sum::<u64>();
    match random.below(8) {
        0 => (vec![0; levels], 0),
        1 | 2 => {
            let counts: Vec<u64> = plan
                .lengths
                .iter()
                .map(|&length| random.between(0, length))
                .collect();
            let count = counts.iter().sum();
            (counts, count)
        }
        // Levels filled one after the other, up to a count at a limit.
        3 => {
            let batch = random.between(0, levels as u64) as usize;
            let limit = random.pick(&[plan.maximum, table.n, prefix(batch)]);
            let count = limit.saturating_sub(random.below(3)).min(table.n);
            let mut left = count;
            let counts = plan
                .lengths
                .iter()
                .map(|&length| {
                    let taken = left.min(length);
                    left -= taken;
                    taken
                })
                .collect();
            (counts, count)
        }
        // A batch after the first, with free counts at the thresholds of its two levels.
        _ => {
            for _ in 0..40 {
                if levels < 2 {
                    break;
                }
                let batch = random.between(1, levels as u64 - 1) as usize;
                if plan.quotas[batch] == 0 {
                    continue;
                }
                let mut counts = vec![0; levels];
                let low = plan.lengths[batch - 1]
                    .checked_shr(table.e.saturating_add(1))
                    .unwrap_or(0);
                let lows = [low, plan.lengths[batch] / 4];
                for (level, low) in [batch - 1, batch].into_iter().zip(lows) {
                    let length = plan.lengths[level];
                    let free = match random.below(8) {
                        0 => random.between(0, length),
                        1 => length,
                        2 => low.saturating_sub(1),
                        3 | 4 => low,
                        5 | 6 => low + 1,
                        _ => low + 2,
                    };
                    counts[level] = length - free.min(length);
                }
                let count = random.between(prefix(batch), prefix(batch + 1) - 1);
                let Some(mut left) = count.checked_sub(counts[batch - 1] + counts[batch]) else {
                    continue;
                };
                for level in (0..levels).filter(|&level| level + 1 != batch && level != batch) {
                    counts[level] = left.min(plan.lengths[level]);
                    left -= counts[level];
                }
                if left == 0 {
                    return (counts, count);
                }
            }
            (vec![0; levels], 0)
        }
    }
}

fn made_up_states(group: &mut Group) {
    group.section();
    for _ in 0..group.times(22_000) {
        let most = group.random.pick(&[8, 30, 80]);
        let mut table = any_table(group, most);
        if group.random.once_in(2) {
            table.search_cap = group.random.between(1, 40);
        }
        let plan = plan(&table);
        let (counts, count) = counts(group, &table, &plan);
        let mut line = format!("ERUN {}", head(&table));
        let mut known = Vec::new();
        let mut offset = 0;
        let style = group.random.below(6);
        for (level, &length) in plan.lengths.iter().enumerate() {
            let mut slots: Vec<u64> = (offset..offset + length).collect();
            offset += length;
            let style = if style == 5 { group.random.below(5) } else { style };
            let taken = match style {
                // As the counts say; full; all but one; any number.
                0 | 1 => counts[level],
                2 => length,
                3 => length - 1,
                _ => group.random.between(0, length),
            };
            group.random.shuffle(&mut slots);
            for &slot in &slots[..taken as usize] {
                let id = match group.random.below(6) {
                    0 => identity(group, table.seed, &known),
                    _ => 1_000 + slot,
                };
                known.push(id);
                line.push_str(&format!(" o{slot}={id}"));
            }
        }
        for (level, &level_count) in counts.iter().enumerate() {
            if level_count != 0 {
                line.push_str(&format!(" c{level}={level_count}"));
            }
        }
        line.push_str(&format!(" l{count}"));
        for _ in 0..group.random.between(1, 4) {
            let id = identity(group, table.seed, &known);
            let letter = if group.random.once_in(3) { 'q' } else { 'i' };
            line.push_str(&format!(" {letter}{id}"));
            if group.random.once_in(2) {
                line.push_str(&format!(" q{id}"));
            }
        }
        group.line(line);
    }
}

fn bulk_runs(group: &mut Group) {
    group.section();
    for _ in 0..group.times(1_500) {
        let mut table = any_table(group, 600);
        if group.random.once_in(2) {
            table.position_cap = POSITIONS;
        }
        let (start, more) = (group.random.limit(), group.random.below(6));
        let count = if group.random.once_in(4) {
            group.random.below(20)
        } else {
            table.n + more
        };
        group.line(format!("EBULK {} {start} {count}", head(&table)));
    }
    group.section();
    let sizes: &[u64] = if group.is_full() {
        &[
            1_000, 1_023, 1_024, 1_025, 2_048, 4_095, 4_096, 4_097, 8_192, 10_000, 16_384, 32_768, 65_535,
            65_536,
        ]
    } else {
        &[1_024, 1_025, 4_096, 5_000]
    };
    for &n in sizes {
        for (e, c) in [(1, 1), (3, 2), (6, 1)] {
            if n > 20_000 && e != 3 {
                continue;
            }
            let (seed, start) = (group.random.word(), group.random.word());
            group.line(format!(
                "EBULK {n} {e} {seed} {c} 8 8192 {POSITIONS} {start} {}",
                n + 2
            ));
        }
    }
}

/// Questions for absent identities at large position caps: few, since the Rust walks every position.
fn long_queries(group: &mut Group) {
    group.section();
    for _ in 0..group.times(60) {
        let (n, e) = (group.random.between(2, 65_536), group.random.between(1, 8));
        let (seed, positions) = (group.random.word(), group.random.between(50_000, 1_000_000));
        group.line(format!("ERUN {n} {e} {seed} 1 8 8192 {positions} i1 i2 q3 q2"));
    }
    if group.is_full() {
        group.line(format!("ERUN 65536 3 9 1 8 8192 {POSITIONS} i1 q3"));
        group.line(format!("ERUN 3 3 9 1 8 8192 {POSITIONS} i1 q3"));
    }
}
