//! CHECK.

use std::collections::BTreeMap;

use super::funnel::{any_table, head, plan, special_table, special_table_from};
use super::layouts::has_funnel;
use super::{Group, spoilt};
use crate::exact::reference::{ScalarFunnelInsert, ScalarFunnelSearch};
use crate::funnel::{Table, fresh};

/// The members of an image by their slots.
pub type Members = BTreeMap<u64, u64>;

pub fn lines(group: &mut Group) {
    cases(group);
    crossed_members(group);
    random_tables(group);
    special_tables(group);
    made_up(group);
    large_tables(group);
    gates(group);
    spoilt::lines(
        group,
        &[
            "CHECK 144 3 0 8 0 0=5 1=5",
            "CHECK 144 3 0 8 0",
            "CHECK 144 3 0 8 1 0=5:1",
        ],
    );
    let heads = ["CHECK 144 3 0 8 0", "CHECK 1 3 0 8 0"];
    spoilt::entries(group, heads);
    for head in heads {
        group.line(format!("{head} -"));
    }
}

pub fn check(group: &mut Group, table: &Table, count: u64, members: &Members) {
    let mut shown: Vec<String> = members.iter().map(|(slot, id)| format!("{slot}={id}")).collect();
    if group.random.once_in(4) {
        group.random.shuffle(&mut shown);
    }
    group.line(format!("CHECK {} {count} {}", head(table), shown.join(" ")).trim_end());
}

/// Cases K, L and M of 01, and their neighbours: every level has one bucket there.
fn cases(group: &mut Group) {
    group.section();
    for n in [144, 145] {
        let table = Table {
            n,
            e: 3,
            seed: 0,
            cap: 8,
        };
        let maximum = plan(&table).maximum;
        check(group, &table, 0, &Members::new());
        for slot in 0..n {
            check(group, &table, 0, &Members::from([(slot, 5)]));
        }
        check(group, &table, 0, &Members::from([(0, 5), (1, 5)]));
        check(group, &table, 0, &Members::from([(0, 5), (1, 6), (2, 5), (3, 7)]));
        // Filled in turn, to the maximum, past it, and to the end of the table.
        for many in [1, 2, maximum - 1, maximum, maximum + 1, 131, 132, 133, n] {
            let members: Members = (0..many.min(n)).map(|slot| (slot, slot * 11)).collect();
            check(group, &table, 0, &members);
            // One hole: what lies past it is stuck.
            for hole in [0, 1, many / 2, many.saturating_sub(2)] {
                let mut members = members.clone();
                members.remove(&hole);
                check(group, &table, 0, &members);
            }
        }
    }
}

/// The slip that looks right: two members, each in the other's slot, and a search finds both. The image with each in
/// its own slot, the crossed one, and the searches. The first of them is in every sample.
fn crossed_members(group: &mut Group) {
    group.section();
    let mut left = group.times(100).max(3);
    let mut is_first = true;
    while left > 0 {
        let (table, plan, list) = special_table_from(group, 1_000);
        let (ordinary, rest) = list.split_at(plan.path() as usize);
        if plan.path() + 2 > plan.maximum {
            continue;
        }
        let Some((honest, crossed)) = search_crossed(&table, ordinary, rest) else {
            continue;
        };
        let shown = |members: &Members, letter: &str| -> String {
            members
                .iter()
                .map(|(slot, id)| format!(" {letter}{slot}={id}"))
                .collect()
        };
        let asked: String = crossed.range(plan.primary..).map(|(_, id)| format!(" s{id}")).collect();
        for line in [
            format!("CHECK {} 0{}", head(&table), shown(&honest, "")),
            format!("CHECK {} 0{}", head(&table), shown(&crossed, "")),
            format!("FRUN {}{}{asked}", head(&table), shown(&crossed, "o")),
        ] {
            if is_first {
                group.stored(line);
            } else {
                group.line(line);
            }
        }
        is_first = false;
        left -= 1;
    }
}

/// A table with all ordinary slots of a path taken and two special members more, where the Rust puts
/// them; and the same with these two in each other's slots, if its search finds both there.
fn search_crossed(table: &Table, ordinary: &[u64], rest: &[u64]) -> Option<(Members, Members)> {
    let full = filled(table, ordinary, false);
    for (place, &a) in rest.iter().enumerate() {
        for &b in &rest[place + 1..] {
            let order: Vec<u64> = ordinary.iter().copied().chain([a, b]).collect();
            let honest = filled(table, &order, false);
            let special: Vec<(u64, u64)> = honest
                .iter()
                .filter(|(slot, _)| !full.contains_key(slot))
                .map(|(&slot, &id)| (slot, id))
                .collect();
            let &[(p, at_p), (q, at_q)] = special.as_slice() else {
                continue;
            };
            let mut crossed = full.clone();
            crossed.extend([(p, at_q), (q, at_p)]);
            let mut rust = fresh(table);
            for (&slot, &id) in &crossed {
                rust.occupy(slot as usize, id);
            }
            let finds = |id: u64, slot: u64| {
                matches!(rust.search(id), Ok((ScalarFunnelSearch::Hit(at), _)) if at.global_slot() as u64 == slot)
            };
            if finds(at_q, p) && finds(at_p, q) {
                return Some((honest, crossed));
            }
        }
    }
    None
}

/// A table filled by the Rust in this order; `past` lets it go on past the maximum.
fn filled(table: &Table, order: &[u64], past: bool) -> Members {
    let mut rust = fresh(table);
    for &identity in order {
        if past {
            rust.set_count(0);
        }
        if let Ok((ScalarFunnelInsert::TargetExhausted, _)) = rust.insert(identity) {
            break;
        }
    }
    crate::answer::occupied(rust.slots()).collect()
}

/// Some damage to an image, near a slot if one is named.
pub fn damaged(group: &mut Group, table: &Table, members: &Members, from: u64) -> Members {
    let mut members = members.clone();
    for _ in 0..if group.random.once_in(3) {
        group.random.between(2, 4)
    } else {
        1
    } {
        let slots: Vec<u64> = members.keys().copied().filter(|&slot| slot >= from).collect();
        if slots.is_empty() {
            return members;
        }
        let vacant: Vec<u64> = (from..table.n)
            .filter(|slot| !members.contains_key(slot))
            .collect();
        let slot = group.random.pick(&slots);
        let identity = members[&slot];
        match group.random.below(7) {
            // Moved.
            0 | 1 if !vacant.is_empty() => {
                members.remove(&slot);
                members.insert(group.random.pick(&vacant), identity);
            }
            // Swapped.
            2 | 3 => {
                let other = group.random.pick(&slots);
                let swapped = members[&other];
                members.insert(slot, swapped);
                members.insert(other, identity);
            }
            // Twice.
            4 if !vacant.is_empty() => {
                members.insert(group.random.pick(&vacant), identity);
            }
            // Another identity in its place.
            5 => {
                members.insert(slot, group.random.word());
            }
            // Gone.
            _ => {
                members.remove(&slot);
            }
        }
    }
    members
}

/// Random identities: nearly all members are in ordinary levels.
fn random_tables(group: &mut Group) {
    group.section();
    for _ in 0..group.times(500) {
        let table = any_table(group, 1_000);
        let maximum = plan(&table).maximum;
        let many = if group.random.once_in(2) {
            maximum
        } else {
            group.random.between(1, maximum)
        };
        let order: Vec<u64> = (0..many).map(|_| group.random.below(1 << 34)).collect();
        let members = filled(&table, &order, false);
        let count = group.random.between(0, table.n);
        check(group, &table, count, &members);
        for _ in 0..3 {
            let damaged = damaged(group, &table, &members, 0);
            check(group, &table, 0, &damaged);
        }
    }
}

/// Identities that all take the same buckets fill the primary and the fallback part as well: there a
/// placement can free a smaller slot.
fn special_tables(group: &mut Group) {
    group.section();
    for _ in 0..group.times(60).max(4) {
        let (table, plan, list) = special_table(group);
        for _ in 0..12 {
            let mut order = list.clone();
            group.random.shuffle(&mut order);
            if group.random.once_in(3) {
                let many = group.random.between(1, order.len() as u64);
                order.truncate(many as usize);
            }
            let members = filled(&table, &order, false);
            check(group, &table, 0, &members);
            for _ in 0..2 {
                let damaged = damaged(group, &table, &members, plan.primary);
                check(group, &table, 0, &damaged);
            }
            let from = group.random.pick(&[0, plan.primary, plan.fallback]);
            let twice = damaged(group, &table, &members, from);
            check(group, &table, 0, &twice);
            // More members than the maximum: the maximum is placed, and the rest stuck.
            let past = filled(&table, &order, true);
            if past.len() as u64 > plan.maximum {
                check(group, &table, 0, &past);
                let damaged = damaged(group, &table, &past, plan.primary);
                check(group, &table, 0, &damaged);
            }
            // Each of two special members in the other's slot.
            let special: Vec<u64> = members
                .keys()
                .copied()
                .filter(|&slot| slot >= plan.primary)
                .collect();
            if special.len() >= 2 {
                let (a, b) = (group.random.pick(&special), group.random.pick(&special));
                let mut swapped = members.clone();
                swapped.insert(a, members[&b]);
                swapped.insert(b, members[&a]);
                check(group, &table, 0, &swapped);
            }
            // The special members dealt out anew.
            let mut ids: Vec<u64> = special.iter().map(|slot| members[slot]).collect();
            group.random.shuffle(&mut ids);
            let mut dealt = members.clone();
            dealt.extend(special.iter().copied().zip(ids));
            check(group, &table, 0, &dealt);
        }
    }
}

/// Any identities in any slots, few of them equal, none or all in reach.
fn made_up(group: &mut Group) {
    group.section();
    for _ in 0..group.times(1_500) {
        let table = any_table(group, 400);
        let many = match group.random.below(4) {
            0 => table.n,
            1 => group.random.between(0, 10),
            _ => group.random.between(0, table.n),
        };
        let mut members = Members::new();
        for _ in 0..many {
            let slot = match group.random.below(3) {
                0 => group.random.below(table.n),
                _ => group.random.below(many.max(1)),
            };
            members.insert(slot, group.random.below(500));
        }
        check(group, &table, 0, &members);
    }
}

fn large_tables(group: &mut Group) {
    group.section();
    for _ in 0..group.times(12).max(2) {
        let from = group.random.between(2_000, 12_000);
        let e = group.random.pick(&[3, 4, 5]);
        let n = (from..).find(|&n| has_funnel(n, e)).expect("some layout");
        let table = Table {
            n,
            e,
            seed: group.random.word(),
            cap: 8,
        };
        let order: Vec<u64> = (0..n).map(|_| group.random.below(1 << 30)).collect();
        let members = filled(&table, &order, false);
        check(group, &table, 0, &members);
        let damaged = damaged(group, &table, &members, 0);
        check(group, &table, 0, &damaged);
    }
}

/// 1 to 7 in their order, `L`, then DIRTY.
fn gates(group: &mut Group) {
    let large = (65_537..).find(|&n| has_funnel(n, 3)).expect("some layout");
    group.section();
    for n in [0, 1, 2, 143, 144, large, 1 << 32, (1 << 32) + 1, u64::MAX] {
        for e in [0, 1, 2, 3, 28, u32::MAX] {
            for cap in [0, 1, 256, 257, (1 << 32) + 8, u64::MAX] {
                for count in [0, 144, 145, u64::MAX] {
                    group.line(format!("CHECK {n} {e} 0 {cap} {count}"));
                }
            }
        }
    }
    group.section();
    for count in [0, 1, 126, 127, 143, 144, 145, 1 << 32, u64::MAX] {
        group.line(format!("CHECK 144 3 0 8 {count} 0=5 1=6"));
        group.line(format!("CHECK 144 3 0 8 {count} 0=5 1=6:2"));
        group.line(format!("CHECK 144 3 0 8 {count} 1=5"));
    }
    for flag in 0..=255 {
        if flag < 4 || group.thin() {
            group.line(format!("CHECK 144 3 0 8 0 0=5 7=6:{flag} 9=0:{flag}"));
            group.line(format!("CHECK 144 3 0 8 0 0=5 1=0:{flag}"));
        }
    }
    group.section();
    for _ in 0..group.times(1_000) {
        let table = any_table(group, 400);
        let mut text = String::new();
        for _ in 0..group.random.between(1, 20) {
            let slot = if group.random.once_in(2) {
                group.random.below(table.n)
            } else {
                group.random.below(20)
            };
            let word = if group.random.once_in(3) {
                0
            } else {
                group.random.limit()
            };
            let flag = match group.random.below(12) {
                0 => group.random.between(2, 255),
                1 | 2 => 0,
                _ => 1,
            };
            text.push_str(&format!(" {slot}={word}:{flag}"));
        }
        let count = if group.random.once_in(10) {
            table.n + 1
        } else {
            group.random.between(0, table.n)
        };
        group.line(format!("CHECK {} {count}{text}", head(&table)));
    }
}
