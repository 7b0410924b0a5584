//! CHECK of small images whose special part is full of members that wait for each other (`crate::hostile`), and of the same images with
//! special members in each other's slots, twice, moved or gone.

use super::Group;
use super::check::{Members, check, damaged};
use super::funnel::plan;
use super::layouts::{has_funnel, smallest_funnel};
use crate::funnel::Table;
use crate::hostile::{Base, Kind};

pub fn lines(group: &mut Group) {
    small_images(group);
    larger_images(group);
    largest_images(group);
}

/// From the smallest layouts to about 600 slots: up to 50 special slots.
fn small_images(group: &mut Group) {
    group.section();
    for _ in 0..group.times(350).max(10) {
        images(group, 600);
    }
}

/// Some hundred special slots.
fn larger_images(group: &mut Group) {
    group.section();
    for _ in 0..group.times(15) {
        images(group, 3_000);
    }
}

/// More than 4,096 special slots, near the longest line that is taken.
fn largest_images(group: &mut Group) {
    if !group.is_full() {
        return;
    }
    let n = (44_000..).find(|&n| has_funnel(n, 3)).expect("some layout");
    let table = Table {
        n,
        e: 3,
        seed: group.random.word(),
        cap: 8,
    };
    let most = plan(&table).maximum as usize;
    let base = Base::new(n, 3, table.seed, most, 0, |k| k).expect("room for special members");
    for kind in [Kind::Pairs, Kind::Chain, Kind::Stuck] {
        let members = members(&base, &base.special(kind));
        check(group, &table, 0, &members);
    }
}

/// Every kind in one table, and images near each.
fn images(group: &mut Group, most_slots: u64) {
    let (table, base) = loop {
        let table = any_table(group, most_slots);
        let plan = plan(&table);
        let special = table.n - plan.primary;
        // Once in a while some members more than the maximum: so many are stuck then.
        let past = if group.random.once_in(6) {
            group.random.between(1, special / 2)
        } else {
            0
        };
        let (most, first) = (plan.maximum + past, group.random.below(1_000));
        match Base::new(table.n, table.e, table.seed, most as usize, first, |k| k) {
            Some(base) if base.ordinary.len() as u64 + special / 2 <= plan.maximum => break (table, base),
            _ => (),
        }
    };
    for kind in Kind::ALL {
        let special = base.special(kind);
        let members = members(&base, &special);
        check(group, &table, 0, &members);
        let slots: Vec<u64> = special.iter().map(|&(slot, _)| slot as u64).collect();
        near_images(group, &table, &base, &members, &slots);
    }
}

/// A table of up to so many slots, or a few more than the smallest for its exponent has.
fn any_table(group: &mut Group, most_slots: u64) -> Table {
    loop {
        let e = group.random.pick(&[3, 3, 3, 3, 4, 4, 5]);
        let smallest = smallest_funnel(e);
        let high = group.random.pick(&[0, most_slots, most_slots]).max(smallest + 20);
        let n = group.random.between(smallest, high);
        if has_funnel(n, e) {
            return Table {
                n,
                e,
                seed: group.random.limit(),
                cap: group.random.pick(&[1, 8, 256]),
            };
        }
    }
}

fn members(base: &Base, special: &[(usize, u64)]) -> Members {
    let all = base.ordinary.iter().chain(special);
    all.map(|&(slot, id)| (slot as u64, id)).collect()
}

/// Images that are near this one; `slots` are those of its special members.
fn near_images(group: &mut Group, table: &Table, base: &Base, members: &Members, slots: &[u64]) {
    let from = base.start as u64;
    for _ in 0..2 {
        let near = damaged(group, table, members, from);
        check(group, table, 0, &near);
    }
    if slots.len() < 2 {
        return;
    }
    // Two special members, each in the other's slot.
    let (a, b) = (group.random.pick(slots), group.random.pick(slots));
    let mut crossed = members.clone();
    crossed.extend([(a, members[&b]), (b, members[&a])]);
    check(group, table, 0, &crossed);
    // One of them in both.
    let mut twice = members.clone();
    twice.insert(a, members[&b]);
    check(group, table, 0, &twice);
    // All dealt out anew, to their own slots or to any special ones.
    let mut ids: Vec<u64> = slots.iter().map(|slot| members[slot]).collect();
    let mut anywhere: Vec<u64> = (from..table.n).collect();
    group.random.shuffle(&mut ids);
    group.random.shuffle(&mut anywhere);
    for places in [slots, &anywhere] {
        let mut dealt: Members = members.range(..from).map(|(&slot, &id)| (slot, id)).collect();
        dealt.extend(places.iter().copied().zip(ids.iter().copied()));
        check(group, table, 0, &dealt);
    }
    // An ordinary member gone: the special ones whose path led past it stop there.
    let ordinary: Vec<u64> = members.range(..from).map(|(&slot, _)| slot).collect();
    let mut open = members.clone();
    open.remove(&group.random.pick(&ordinary));
    check(group, table, 0, &open);
}
