//! LOAD and WRITE.

use super::funnel::{any_table, head, plan};
use super::layouts::has_funnel;
use super::{Group, spoilt};
use crate::funnel::{Table, fresh};
use crate::image::{build, hex};

pub fn lines(group: &mut Group) {
    broken_bytes(group);
    broken_fields(group);
    soups(group);
    labels(group);
    many_entries(group);
    contents(group);
    foreign(group);
    gates(group);
    honest_images(group);
    writings(group);
    spoilt::lines(
        group,
        &[
            "LOAD 144 3 0 8 0108009000000000000000",
            "LOAD 144 3 0 8 -",
            "WRITE 144 3 0 8 - 75 0=7",
            "WRITE 144 3 0 8 6162 100 0=7 1=9",
            "WRITE 144 3 0 8 - 0",
        ],
    );
    for hex in ["0", "012", "01080", "0g", "0x01", "01 08", "AbCd", "--", "01-"] {
        group.line(format!("LOAD 144 3 0 8 {hex}"));
        group.line(format!("WRITE 144 3 0 8 {hex} 100 0=7"));
    }
    spoilt::entries(group, ["WRITE 144 3 0 8 - 75", "WRITE 1 3 0 8 - 75"]);
}

fn load(group: &mut Group, table: &Table, image: &[u8]) {
    let image = if image.is_empty() {
        String::from("-")
    } else {
        hex(image)
    };
    group.line(format!("LOAD {} {image}", head(table)));
}

/// Some entries of a table, slots rising, with the first and the last slot among them at times.
fn entries(group: &mut Group, n: u64, many: usize) -> Vec<(u64, u64)> {
    let mut slots: Vec<u64> = (0..n).collect();
    group.random.shuffle(&mut slots);
    slots.truncate(many.min(n as usize));
    if group.random.once_in(3) && !slots.is_empty() {
        slots[0] = n - 1;
    }
    slots.sort_unstable();
    slots.dedup();
    slots.iter().map(|&slot| (slot, group.random.limit())).collect()
}

fn label(group: &mut Group, length: usize) -> Vec<u8> {
    (0..length).map(|_| group.random.word() as u8).collect()
}

/// Every truncation and every change of a byte of several small images, and the telling changes of larger ones.
fn broken_bytes(group: &mut Group) {
    let small = Table {
        n: 144,
        e: 3,
        seed: 0,
        cap: 8,
    };
    let other = Table {
        n: 344,
        e: 4,
        seed: 0x0102_0304_0506_0708,
        cap: 256,
    };
    for (table, label_length, many) in [
        (small, 0, 0),
        (small, 0, 2),
        (small, 1, 1),
        (small, 64, 3),
        (small, 3, 0),
        (other, 5, 7),
        (other, 0, 12),
    ] {
        group.section();
        let label = label(group, label_length);
        let entries = entries(group, table.n, many);
        let image = build(table.n, table.e, table.seed, &label, &entries);
        for length in 0..=image.len() {
            load(group, &table, &image[..length]);
        }
        for place in 0..image.len() {
            let byte = image[place];
            let telling = [
                byte ^ 1,
                byte ^ 0x80,
                byte.wrapping_add(1),
                byte.wrapping_sub(1),
                0,
                0xff,
                4,
                5,
                6,
            ];
            for changed in (0..=255).filter(|&changed| changed != byte) {
                if image.len() < 80 || telling.contains(&changed) && group.random.below(100) < group.percent.max(25) {
                    let mut image = image.clone();
                    image[place] = changed;
                    load(group, &table, &image);
                }
            }
        }
        // A byte more, a byte less, at every place.
        for place in 0..=image.len() {
            if group.random.below(100) < group.percent.max(25) {
                let mut longer = image.clone();
                longer.insert(place, group.random.pick(&[0, 1, 4, 5, 6, 255]));
                load(group, &table, &longer);
                if place < image.len() {
                    let mut shorter = image.clone();
                    shorter.remove(place);
                    load(group, &table, &shorter);
                }
            }
        }
    }
}

fn put(image: &mut Vec<u8>, tag: u8, length: usize, body: &[u8]) {
    image.push(tag);
    image.extend_from_slice(&(length as u16).to_le_bytes());
    image.extend_from_slice(body);
}

/// The three fields that every image starts with.
fn start(n: u64, e: u32, seed: u64) -> Vec<u8> {
    let mut image = Vec::new();
    put(&mut image, 1, 8, &n.to_le_bytes());
    put(&mut image, 2, 4, &e.to_le_bytes());
    put(&mut image, 3, 8, &seed.to_le_bytes());
    image
}

fn body(entries: &[(u64, u64)]) -> Vec<u8> {
    entries
        .iter()
        .flat_map(|(slot, identity)| slot.to_le_bytes().into_iter().chain(identity.to_le_bytes()))
        .collect()
}

/// Each field with another tag, another length, left out, twice, or swapped with the next.
fn broken_fields(group: &mut Group) {
    let table = Table {
        n: 145,
        e: 3,
        seed: 77,
        cap: 8,
    };
    let entries = [(0, 5), (3, 6), (144, 7)];
    let whole: Vec<(u8, Vec<u8>)> = vec![
        (1, table.n.to_le_bytes().to_vec()),
        (2, table.e.to_le_bytes().to_vec()),
        (3, table.seed.to_le_bytes().to_vec()),
        (4, b"label".to_vec()),
        (5, body(&entries)),
        (6, 3_u64.to_le_bytes().to_vec()),
    ];
    let joined = |fields: &[(u8, Vec<u8>)]| {
        let mut image = Vec::new();
        for (tag, body) in fields {
            put(&mut image, *tag, body.len(), body);
        }
        image
    };
    group.section();
    for place in 0..whole.len() {
        for tag in 0..=255 {
            if tag < 10 || group.thin() {
                let mut fields = whole.clone();
                fields[place].0 = tag;
                load(group, &table, &joined(&fields));
            }
        }
        let mut fields = whole.clone();
        fields.remove(place);
        load(group, &table, &joined(&fields));
        let mut fields = whole.clone();
        fields.insert(place, whole[place].clone());
        load(group, &table, &joined(&fields));
        for other in 0..whole.len() {
            let mut fields = whole.clone();
            fields.swap(place, other);
            load(group, &table, &joined(&fields));
        }
        // A body that is shorter or longer, with its length told truly or not.
        for length in (0..=80).chain([255, 256, 65_519, 65_520, 65_521, 65_535]) {
            let mut image = joined(&whole[..place]);
            put(&mut image, whole[place].0, length, &vec![0; length]);
            image.extend(joined(&whole[place + 1..]));
            load(group, &table, &image);
            let mut image = joined(&whole[..place]);
            put(&mut image, whole[place].0, length, &whole[place].1);
            image.extend(joined(&whole[place + 1..]));
            load(group, &table, &image);
            // And the image ends there.
            let mut image = joined(&whole[..place]);
            put(&mut image, whole[place].0, length, &vec![0; length / 2]);
            load(group, &table, &image);
        }
    }
    // Nothing but a tag, and one length byte.
    group.section();
    for place in 0..whole.len() {
        for tag in 0..=8 {
            let mut image = joined(&whole[..place]);
            image.push(tag);
            load(group, &table, &image);
            image.push(if tag == 5 { 48 } else { 8 });
            load(group, &table, &image);
            image.push(0);
            load(group, &table, &image);
            image.push(1);
            load(group, &table, &image);
        }
    }
}

/// Random rows of fields, most of them right, and random bytes.
fn soups(group: &mut Group) {
    group.section();
    for _ in 0..group.times(12_000) {
        let table = Table {
            n: group.random.pick(&[144, 145]),
            e: 3,
            seed: group.random.below(2),
            cap: 8,
        };
        let image_n = if group.random.once_in(10) {
            group.random.limit()
        } else {
            table.n
        };
        let mut image = start(image_n, 3, 0);
        let mut slot = 0;
        let mut members = 0_u64;
        for tag in [4_u8, 5, 5, 6] {
            if tag < 6 && group.random.once_in(2) {
                continue;
            }
            let tag = if group.random.once_in(15) {
                group.random.below(8) as u8
            } else {
                tag
            };
            let body = match tag {
                4 => {
                    let length = group.random.pick(&[1, 2, 63, 64, 64, 65]);
                    label(group, length)
                }
                5 => {
                    let mut list = Vec::new();
                    for _ in 0..group.random.between(0, 5) {
                        slot += if group.random.once_in(25) {
                            0
                        } else {
                            group.random.between(1, 20)
                        };
                        list.push((slot, group.random.word()));
                        members += 1;
                    }
                    body(&list)
                }
                _ => {
                    let off = if group.random.once_in(10) {
                        group.random.pick(&[1, u64::MAX, 1 << 40])
                    } else {
                        0
                    };
                    members.wrapping_add(off).to_le_bytes().to_vec()
                }
            };
            let length = if group.random.once_in(25) {
                body.len() + 1
            } else {
                body.len()
            };
            put(&mut image, tag, length, &body);
        }
        if group.random.once_in(10) {
            let keep = group.random.below(image.len() as u64 + 1) as usize;
            image.truncate(keep);
        }
        if group.random.once_in(15) {
            image.push(group.random.below(8) as u8);
        }
        load(group, &table, &image);
    }
    group.section();
    for _ in 0..group.times(1_000) {
        let length = group.random.below(120) as usize;
        let mut image = label(group, length);
        if group.random.once_in(2) && length > 12 {
            image[..11].copy_from_slice(&start(144, 3, 0)[..11]);
        }
        load(
            group,
            &Table {
                n: 144,
                e: 3,
                seed: 0,
                cap: 8,
            },
            &image,
        );
    }
}

/// Labels of every length, and of those that are wrong.
fn labels(group: &mut Group) {
    let table = Table {
        n: 144,
        e: 3,
        seed: 5,
        cap: 8,
    };
    group.section();
    for length in (0..=70).chain([127, 128, 255, 256, 257, 320, 65_535]) {
        let label = label(group, length);
        let mut image = start(table.n, table.e, table.seed);
        put(&mut image, 4, length, &label);
        load(group, &table, &image);
        put(&mut image, 5, 32, &body(&[(1, 2), (3, 4)]));
        put(&mut image, 6, 8, &2_u64.to_le_bytes());
        load(group, &table, &image);
        if length <= 400 {
            let text = if length == 0 {
                String::from("-")
            } else {
                hex(&label)
            };
            let need = 29 + if length == 0 { 0 } else { 3 + length } + 35 + 11;
            for room in [need - 1, need, need + 1] {
                group.line(format!("WRITE {} {text} {room} 1=2 3=4", head(&table)));
            }
        }
    }
    // Two labels, a label after entries, a label after the count.
    let mut image = start(table.n, table.e, table.seed);
    put(&mut image, 4, 1, b"a");
    let one = image.len();
    put(&mut image, 4, 1, b"b");
    load(group, &table, &image);
    image.truncate(one);
    put(&mut image, 5, 16, &body(&[(1, 2)]));
    put(&mut image, 4, 1, b"b");
    load(group, &table, &image);
    image.truncate(one);
    put(&mut image, 6, 8, &0_u64.to_le_bytes());
    put(&mut image, 4, 1, b"b");
    load(group, &table, &image);
}

/// Around 4,095 entries a field, over several fields.
fn many_entries(group: &mut Group) {
    let n = (9_000..).find(|&n| has_funnel(n, 3)).expect("some layout");
    let table = Table {
        n,
        e: 3,
        seed: 3,
        cap: 8,
    };
    let list: Vec<(u64, u64)> = (0..n).map(|slot| (slot, slot * 3)).collect();
    let counted = |image: &mut Vec<u8>, many: usize| put(image, 6, 8, &(many as u64).to_le_bytes());
    group.section();
    // How many entries each field 5 has.
    for fields in [
        vec![4_094],
        vec![4_095],
        vec![4_095, 1],
        vec![4_094, 1],
        vec![4_095, 4_094],
        vec![4_095, 4_095],
        vec![4_095, 4_095, 1],
        vec![1, 4_095],
        vec![4_095, 1, 1],
        vec![4_095, 0],
        vec![2_000, 2_000],
        vec![1, 1],
    ] {
        let mut image = start(n, 3, 3);
        let mut next = 0;
        let mut last = image.len();
        for &many in &fields {
            last = image.len();
            put(&mut image, 5, many * 16, &body(&list[next..next + many]));
            next += many;
        }
        let ended = image.len();
        counted(&mut image, next);
        load(group, &table, &image);
        image.push(0);
        load(group, &table, &image);
        image.truncate(ended);
        load(group, &table, &image);
        counted(&mut image, next + 1);
        load(group, &table, &image);
        // The last field's first slot does not rise over the field before.
        if fields.len() > 1 && next > 1 {
            image.truncate(ended);
            counted(&mut image, next);
            for slot in [0, list[next - fields[fields.len() - 1]].0.saturating_sub(1)] {
                let mut image = image.clone();
                if last + 11 <= image.len() {
                    image[last + 3..last + 11].copy_from_slice(&slot.to_le_bytes());
                }
                load(group, &table, &image);
            }
        }
    }
    for many in [0, 1, 4_094, 4_095, 4_096, 4_097, 8_189, 8_190, 8_191] {
        let entries: Vec<String> = list[..many]
            .iter()
            .map(|(slot, id)| format!("{slot}={id}"))
            .collect();
        let need = 29 + 16 * many + 3 * many.div_ceil(4_095) + 11;
        for room in [need - 1, need, need + 3] {
            group.line(format!("WRITE {} - {room} {}", head(&table), entries.join(" ")).trim_end());
        }
    }
    if group.is_full() {
        let n = (13_000..).find(|&n| has_funnel(n, 3)).expect("some layout");
        let table = Table {
            n,
            e: 3,
            seed: 3,
            cap: 8,
        };
        let list: Vec<(u64, u64)> = (0..n).map(|slot| (slot, slot % 7)).collect();
        for many in [12_284, 12_285, 12_286] {
            load(
                group,
                &table,
                &build(n, 3, 3, b"three full fields", &list[..many]),
            );
        }
    }
}

/// Slots and the count, the only contents that can be wrong.
fn contents(group: &mut Group) {
    let table = Table {
        n: 144,
        e: 3,
        seed: 0,
        cap: 8,
    };
    let with = |n: u64, list: &[(u64, u64)], count: u64| {
        let mut image = start(n, 3, 0);
        if !list.is_empty() {
            put(&mut image, 5, 16 * list.len(), &body(list));
        }
        put(&mut image, 6, 8, &count.to_le_bytes());
        image
    };
    group.section();
    let slots = [0, 1, 2, 142, 143, 144, 145, 255, 256, 1 << 32, 1 << 63, u64::MAX];
    for a in slots {
        load(group, &table, &with(144, &[(a, 9)], 1));
        for b in slots {
            load(group, &table, &with(144, &[(a, 9), (b, 9)], 2));
            load(group, &table, &with(144, &[(0, 1), (a, 9), (b, 9)], 3));
        }
        // Held against field 1 of the image, whatever it is, and only then FOREIGN.
        for n in [0, 1, 2, 143, 145, 146, 256, 1 << 32, (1 << 32) + 1, u64::MAX] {
            load(group, &table, &with(n, &[(a, 9)], 1));
            load(group, &table, &with(n, &[(a, 9)], 2));
        }
    }
    for count in [0, 1, 2, 3, 4, 256, 1 << 32, (1 << 32) + 3, u64::MAX] {
        load(group, &table, &with(144, &[(1, 1), (2, 2), (3, 3)], count));
        load(group, &table, &with(144, &[], count));
    }
    // The same identity in many slots is no matter of the image.
    load(group, &table, &with(144, &[(1, 5), (2, 5), (3, 5)], 3));
    let all: Vec<(u64, u64)> = (0..144).map(|slot| (slot, 0)).collect();
    load(group, &table, &with(144, &all, 144));
}

fn foreign(group: &mut Group) {
    let table = Table {
        n: 144,
        e: 3,
        seed: 9,
        cap: 8,
    };
    group.section();
    for n in [0, 1, 143, 144, 145, 144 + (1 << 32), u64::MAX] {
        for e in [0, 2, 3, 4, 3 + (1 << 31), u32::MAX] {
            for seed in [9_u64, 8, 0, 9 + (1 << 32), u64::MAX] {
                load(group, &table, &build(n, e, seed, b"", &[]));
                let mut image = build(n, e, seed, b"x", &[]);
                image.push(6);
                load(group, &table, &image);
            }
        }
    }
}

/// 1 to 6 come before everything in an image, and then what replay cannot hold.
fn gates(group: &mut Group) {
    let large = (65_537..).find(|&n| has_funnel(n, 3)).expect("some layout");
    group.section();
    for n in [0, 1, 2, 143, 144, large, 1 << 32, (1 << 32) + 1, u64::MAX] {
        for e in [0, 1, 2, 3, 28, u32::MAX] {
            for cap in [0, 1, 256, 257, (1 << 32) + 8, u64::MAX] {
                let table = Table { n, e, seed: 0, cap };
                load(group, &table, &build(n, e, 0, b"", &[]));
                load(group, &table, &[]);
                group.line(format!("WRITE {n} {e} 0 {cap} - 75"));
                group.line(format!("WRITE {n} {e} 0 {cap} {} 75", hex(&[65; 65])));
                group.line(format!("WRITE {n} {e} 0 {cap} - 18446744073709551615"));
            }
        }
    }
    for room in [
        0_u64,
        39,
        40,
        41,
        1_048_575,
        1_048_576,
        1_048_577,
        1 << 32,
        u64::MAX,
    ] {
        group.line(format!("WRITE 144 3 0 8 - {room}"));
        group.line(format!("WRITE 144 3 0 8 - {room} 3=5:2"));
        group.line(format!("WRITE 144 3 0 257 - {room}"));
        group.line(format!("WRITE 144 3 0 8 {} {room}", hex(&[65; 65])));
    }
}

/// A table filled by the Rust, written and loaded.
fn honest_images(group: &mut Group) {
    group.section();
    for _ in 0..group.times(400) {
        let table = any_table(group, 1_200);
        let maximum = plan(&table).maximum;
        let many = group.random.between(0, maximum + 1);
        let mut rust = fresh(&table);
        for _ in 0..many {
            let _ = rust.insert(group.random.word());
        }
        let entries: Vec<(u64, u64)> = crate::answer::occupied(rust.slots()).collect();
        let length = group.random.pick(&[0, 0, 1, 5, 63, 64]);
        let label = label(group, length);
        let image = build(table.n, table.e, table.seed, &label, &entries);
        load(group, &table, &image);
        let text = if label.is_empty() {
            String::from("-")
        } else {
            hex(&label)
        };
        let mut shown: Vec<String> = entries.iter().map(|(slot, id)| format!("{slot}={id}")).collect();
        if group.random.once_in(2) {
            group.random.shuffle(&mut shown);
        }
        let room = image.len() as u64 + group.random.pick(&[0, 1, 100]) - u64::from(group.random.once_in(4));
        group.line(format!("WRITE {} {text} {room} {}", head(&table), shown.join(" ")).trim_end());
    }
}

/// DIRTY in every form, before ROOM, at the smallest such slot.
fn writings(group: &mut Group) {
    group.section();
    for flag in 0..=255 {
        group.line(format!("WRITE 144 3 0 8 - 100 7=5:{flag}"));
        if flag < 4 || group.thin() {
            group.line(format!("WRITE 144 3 0 8 - 0 7=0:{flag} 9=1"));
        }
    }
    group.section();
    for _ in 0..group.times(2_000) {
        let table = Table {
            n: group.random.pick(&[144, 145, 344]),
            e: 3,
            seed: group.random.limit(),
            cap: 8,
        };
        let table = if table.n == 344 {
            Table { e: 4, ..table }
        } else {
            table
        };
        let many = group.random.below(20);
        let clean = group.random.once_in(2);
        let mut text = String::new();
        for _ in 0..many {
            let slot = if group.random.once_in(6) {
                group.random.pick(&[0, table.n - 1])
            } else {
                group.random.below(table.n)
            };
            let word = if group.random.once_in(4) {
                0
            } else {
                group.random.limit()
            };
            let flag = match group.random.below(20) {
                _ if clean => 1,
                0 => group.random.between(2, 255),
                1 | 2 => 0,
                _ => 1,
            };
            text.push_str(&match flag {
                1 => format!(" {slot}={word}"),
                _ => format!(" {slot}={word}:{flag}"),
            });
        }
        let length = group.random.pick(&[0, 0, 1, 2, 64, 65]);
        let label = label(group, length);
        let label = if label.is_empty() {
            String::from("-")
        } else {
            hex(&label)
        };
        let room = group.random.pick(&[10_000, 10_000, 200, 0]);
        group.line(format!("WRITE {} {label} {room}{text}", head(&table)));
    }
}
