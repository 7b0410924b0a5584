//! FRUN and FBULK, and the identities that reach the special part of a table.

use super::layouts::{has_funnel, smallest_funnel};
use super::{Group, spoilt};
use crate::exact::geometry::PaperConfig;
use crate::exact::probe::{FunnelPrf, ProbeDomain, unbiased_probe_index};
use crate::funnel::Table;

/// Tables of up to 65,536 slots have layouts for the exponents 3 to 11.
const EXPONENTS: std::ops::RangeInclusive<u32> = 3..=11;

pub fn lines(group: &mut Group) {
    openings(group);
    honest_runs(group);
    special_runs(group);
    made_up_states(group);
    bulk_runs(group);
    spoilt::lines(
        group,
        &[
            "FRUN 144 3 0 8 i7",
            "FRUN 144 3 0 8 s7",
            "FRUN 144 3 0 8",
            "FBULK 144 3 0 8 5 20",
        ],
    );
    for operation in [
        "q7",
        "x7",
        "i",
        "s",
        "o",
        "l",
        "c0=1",
        "i=7",
        "o144=7",
        "o143=7",
        "o3",
        "o=7",
        "o3=",
        "o3=7=8",
        "o3=7:1",
        "l18446744073709551616",
        "l18446744073709551615",
        "I7",
        "i0x7",
        "i0X7",
        "i-7",
        "i07",
        "o0x3=0x7",
        "i18446744073709551616",
    ] {
        group.line(format!("FRUN 144 3 0 8 {operation} i5"));
        group.line(format!("FRUN 1 3 0 8 {operation} i5"));
    }
}

/// Refusals 1 to 6 in their order, and `L`.
fn openings(group: &mut Group) {
    group.section();
    let large: Vec<u64> = (65_537..).filter(|&n| has_funnel(n, 3)).take(2).collect();
    let sizes = [
        0,
        1,
        2,
        143,
        144,
        145,
        large[0],
        large[1],
        1 << 32,
        (1 << 32) + 1,
        1 << 63,
        u64::MAX,
    ];
    for n in sizes {
        for e in [0, 1, 2, 3, 4, 28, 1 << 31, u32::MAX] {
            for cap in [0, 1, 8, 256, 257, 1 << 32, (1 << 32) + 1, u64::MAX] {
                group.line(format!("FRUN {n} {e} 5 {cap} i7"));
                group.line(format!("FBULK {n} {e} 5 {cap} 1 3"));
            }
        }
    }
    let last = (65_000..=65_536)
        .rev()
        .find(|&n| has_funnel(n, 3))
        .expect("some layout");
    group.line(format!("FRUN {last} 3 5 8 i7 s7"));
}

/// A table of at most `most` slots that can be opened.
pub fn any_table(group: &mut Group, most: u64) -> Table {
    loop {
        let e = match group.random.below(20) {
            0..=8 => 3,
            9..=12 => 4,
            13..=15 => 5,
            16 | 17 => 6,
            _ => group.random.between(3, 11) as u32,
        };
        let smallest = smallest_funnel(e);
        if smallest > most {
            continue;
        }
        let high = match group.random.below(4) {
            0 => smallest + 10,
            1 => smallest * 3 / 2,
            _ => smallest * 4,
        };
        let n = group.random.between(smallest, high.min(most));
        if !has_funnel(n, e) {
            continue;
        }
        let cap = match group.random.below(4) {
            0 => 8,
            1 => group.random.between(1, 3),
            2 => 256,
            _ => group.random.between(1, 256),
        };
        return Table {
            n,
            e,
            seed: group.random.limit(),
            cap,
        };
    }
}

pub fn head(table: &Table) -> String {
    format!("{} {} {} {}", table.n, table.e, table.seed, table.cap)
}

/// What the generator has to know of a plan.
pub struct Plan {
    pub maximum: u64,
    pub counts: Vec<usize>,
    pub beta: u64,
    /// Where the primary and the fallback part start.
    pub primary: u64,
    pub fallback: u64,
}

impl Plan {
    /// How many ordinary slots are on a path.
    pub fn path(&self) -> u64 {
        self.counts.len() as u64 * self.beta
    }
}

pub fn plan(table: &Table) -> Plan {
    let config = PaperConfig::new(table.n as usize, table.e).expect("within the domain");
    let plan = config.funnel_plan().expect("a layout");
    let primary = (table.n as usize - plan.special_len()) as u64;
    Plan {
        maximum: config.max_insertions() as u64,
        counts: plan.ordinary_bucket_counts().collect(),
        beta: plan.beta() as u64,
        primary,
        fallback: primary + plan.special_primary_len() as u64,
    }
}

/// The bucket that an identity has in a level.
pub fn bucket(table: &Table, level: usize, buckets: usize, identity: u64) -> usize {
    unbiased_probe_index(
        &FunnelPrf::new(table.seed),
        identity,
        ProbeDomain::FunnelOrdinary { level: level as u64 },
        0,
        buckets,
        256,
    )
    .expect("256 words")
    .index
}

/// Identities that all have the same bucket in every level: beta * alpha of them fill these buckets,
/// and the next ones reach the special part. The search starts below `start`. `None` where such
/// identities are too rare to search for.
fn followers(group: &mut Group, table: &Table, plan: &Plan, many: usize, start: u64) -> Option<Vec<u64>> {
    let wide: Vec<(usize, usize)> = plan
        .counts
        .iter()
        .copied()
        .enumerate()
        .filter(|&(_, buckets)| buckets > 1)
        .collect();
    let rarity: f64 = wide.iter().map(|&(_, buckets)| buckets as f64).product();
    if rarity > 5_000.0 {
        return None;
    }
    let chosen: Vec<usize> = wide
        .iter()
        .map(|&(_, buckets)| group.random.below(buckets as u64) as usize)
        .collect();
    let mut list = Vec::new();
    let mut identity = group.random.below(start);
    while list.len() < many {
        identity += 1;
        let follows = wide
            .iter()
            .zip(&chosen)
            .all(|(&(level, buckets), &chosen)| bucket(table, level, buckets, identity) == chosen);
        if follows {
            list.push(identity);
        }
    }
    Some(list)
}

/// A table with few wide levels, so that followers can be found, and a list of them that is long
/// enough to fill the special part.
pub fn special_table(group: &mut Group) -> (Table, Plan, Vec<u64>) {
    special_table_from(group, 1 << 40)
}

/// The same with identities that are searched for from below `start` on.
pub fn special_table_from(group: &mut Group, start: u64) -> (Table, Plan, Vec<u64>) {
    loop {
        let e = group.random.pick(&[3, 3, 3, 3, 4, 5]);
        let smallest = smallest_funnel(e);
        let n = group.random.between(smallest, smallest * 3 / 2);
        if !has_funnel(n, e) {
            continue;
        }
        let table = Table {
            n,
            e,
            seed: group.random.limit(),
            cap: group.random.pick(&[1, 8, 256]),
        };
        let plan = plan(&table);
        let many = (plan.path() + table.n - plan.primary + 12) as usize;
        if let Some(list) = followers(group, &table, &plan, many, start) {
            return (table, plan, list);
        }
    }
}

/// From fresh to the maximum and beyond, with searches on the way.
fn honest_runs(group: &mut Group) {
    group.section();
    for _ in 0..group.times(2_200) {
        let table = any_table(group, 2_500);
        let maximum = plan(&table).maximum;
        let insertions = match group.random.below(4) {
            0 => maximum + 3,
            1 => group.random.between(1, maximum),
            _ => group.random.between(1, 60),
        };
        let mut line = format!("FRUN {}", head(&table));
        let mut known = Vec::new();
        for _ in 0..insertions {
            let id = match group.random.below(20) {
                0 if !known.is_empty() => group.random.pick(&known),
                1 => group.random.limit(),
                2 => group.random.below(100),
                _ => group.random.word(),
            };
            known.push(id);
            let text = group.random.text(id);
            line.push_str(&format!(" i{text}"));
            if group.random.once_in(6) {
                let id = if group.random.once_in(3) {
                    group.random.word()
                } else {
                    group.random.pick(&known)
                };
                line.push_str(&format!(" s{id}"));
            }
        }
        group.line(line);
    }
    // Every level one bucket: any identities fill it in turn, whatever they are (case J).
    group.section();
    for n in [144, 145] {
        for cap in [1, 8, 256] {
            let ids: Vec<String> = (0..130_u64).map(|k| format!("i{}", k * 7)).collect();
            group.line(format!("FRUN {n} 3 0 {cap} {} i0 i1 s0 s1", ids.join(" ")));
        }
    }
}

/// Honest tables whose members reach the primary and the fallback part, to their end.
fn special_runs(group: &mut Group) {
    group.section();
    for _ in 0..group.times(40) {
        let (table, _, list) = special_table(group);
        for _ in 0..5 {
            let mut order = list.clone();
            group.random.shuffle(&mut order);
            let mut line = format!("FRUN {}", head(&table));
            for (place, id) in order.iter().enumerate() {
                line.push_str(&format!(" i{id}"));
                if place > order.len() - 30 || group.random.once_in(20) {
                    let id = if group.random.once_in(2) {
                        order[group.random.below(place as u64 + 1) as usize]
                    } else {
                        order[order.len() - 1]
                    };
                    line.push_str(&format!(" s{id}"));
                }
                if group.random.once_in(40) {
                    line.push_str(&format!(" i{id}"));
                }
            }
            group.line(line);
        }
    }
}

/// Any slots occupied under any count: primary, fallback, FULL, and a count that is not that of the slots.
fn made_up_states(group: &mut Group) {
    group.section();
    for _ in 0..group.times(3_000) {
        let table = any_table(group, 420);
        let plan = plan(&table);
        let mut line = format!("FRUN {}", head(&table));
        let mut known = Vec::new();
        // The ordinary part full, nearly full or anything; then the primary and the fallback part.
        let ordinary = group.random.pick(&[100, 100, 100, 99, 90, 50]);
        let primary = group.random.pick(&[0, 50, 100, 100]);
        let fallback = group.random.pick(&[0, 50, 90, 100, 100]);
        for slot in 0..table.n {
            let share = match slot {
                _ if slot < plan.primary => ordinary,
                _ if slot < plan.fallback => primary,
                _ => fallback,
            };
            if group.random.below(100) < share {
                let id = if group.random.once_in(10) {
                    group.random.below(1_000)
                } else {
                    1_000 + slot
                };
                known.push(id);
                line.push_str(&format!(" o{slot}={id}"));
            }
        }
        let count = match group.random.below(12) {
            0 => plan.maximum,
            1 => plan.maximum - 1,
            2 => table.n,
            3 => table.n + 1,
            4 => u64::MAX,
            5 => known.len() as u64,
            _ => group.random.below(plan.maximum),
        };
        if count != 0 {
            line.push_str(&format!(" l{count}"));
        }
        for _ in 0..group.random.between(1, 12) {
            let id = match group.random.below(4) {
                0 if !known.is_empty() => group.random.pick(&known),
                1 => group.random.limit(),
                _ => group.random.word(),
            };
            let letter = if group.random.once_in(3) { 's' } else { 'i' };
            line.push_str(&format!(" {letter}{id}"));
            if group.random.once_in(3) {
                line.push_str(&format!(" {}{id}", group.random.pick(&['s', 'i'])));
            }
        }
        group.line(line);
    }
    // STATE after every operation that can meet it, and gone again.
    group.section();
    for count in [0_u64, 1, 125, 126, 127, 143, 144, 145, 1 << 32, u64::MAX] {
        group.line(format!("FRUN 144 3 0 8 l{count} i7 s7 l0 i7 s7"));
        group.line(format!("FRUN 144 3 0 8 i7 l{count} s7 i7 i8 l1 i8"));
    }
}

fn bulk_runs(group: &mut Group) {
    group.section();
    for _ in 0..group.times(1_500) {
        let table = any_table(group, 6_000);
        let maximum = plan(&table).maximum;
        let count = match group.random.below(3) {
            0 => group.random.below(200),
            1 => maximum + group.random.below(30),
            _ => group.random.below(maximum),
        };
        let start = group.random.limit();
        group.line(format!("FBULK {} {start} {count}", head(&table)));
    }
    // Large tables, filled past their maximum, for every exponent that has one.
    group.section();
    for e in EXPONENTS {
        let sizes: Vec<u64> = (1..=65_536).rev().filter(|&n| has_funnel(n, e)).take(3).collect();
        for (place, n) in sizes.into_iter().enumerate() {
            if place > 0 && !group.is_full() {
                continue;
            }
            let (seed, start) = (group.random.word(), group.random.word());
            for cap in [1, 256] {
                group.line(format!("FBULK {n} {e} {seed} {cap} {start} {}", n + 5));
            }
        }
    }
    for _ in 0..group.times(60) {
        let table = any_table(group, 65_536);
        let start = group.random.word();
        let count = plan(&table).maximum + 2;
        group.line(format!("FBULK {} {start} {count}", head(&table)));
    }
}
