//! The check of an honest full table beside filling it with this library's own `place_all`, and writing and loading an image
//! beside a copy of its bytes. The second column is that other work, not the Rust's: it has no images.

use std::hint::black_box;

use crate::calls::{self, Funnel, Verdict};
use crate::funnels::{CAP, SEED, identity};
use crate::measure::Table;

pub fn rows(table: &mut Table) {
    if !table.wants("image") && !table.wants("check") {
        return;
    }
    for n in [1 << 16, 1 << 20, 1 << 22] {
        let n = (n..).find(|&n| calls::funnel_plan(n, 3).is_some()).unwrap();
        let maximum = calls::funnel_plan(n, 3).unwrap().0[0];
        let members: Vec<u64> = (0..maximum).map(identity).collect();
        let mut slots = vec![0; members.len()];
        let mut filled = Funnel::open(n, 3, SEED, CAP);
        assert!(filled.place_all(&members, &mut slots));
        check(table, n, &members, &mut slots, &mut filled);
        copies(table, n, &mut filled);
    }
}

fn check(table: &mut Table, n: u64, members: &[u64], slots: &mut [u64], filled: &mut Funnel) {
    let mut marks = vec![0; n as usize];
    let mut order = vec![0; n as usize];
    let mut fresh = Funnel::open(n, 3, SEED, CAP);
    table.row_after(&format!("check beside place_all, n {n}, e 3"), members.len(), filled, &mut fresh, |_| (), |fresh| {
        fresh.clear();
    }, |filled| {
        assert_eq!(filled.check(&mut marks, &mut order), Verdict::Accepted { placed: members.len() as u64 });
    }, |fresh| {
        assert!(fresh.place_all(members, slots));
    });
}

fn copies(table: &mut Table, n: u64, filled: &mut Funnel) {
    let mut out = vec![0; 64 * n as usize];
    let length = filled.write_image(b"bench", &mut out) as usize;
    assert!(length > 0);
    let image = out[..length].to_vec();
    let mut copy = vec![0; length];
    table.row(&format!("image: writing beside a copy, n {n}"), length, || {
        assert_eq!(filled.write_image(b"bench", &mut out) as usize, length);
    }, || {
        copy.copy_from_slice(&image);
        black_box(&mut copy);
    });
    table.row(&format!("image: loading beside a copy, n {n}"), length, || {
        assert!(filled.load_image(&image));
    }, || {
        copy.copy_from_slice(&image);
        black_box(&mut copy);
    });
}
