//! The check of images that were made to keep it busy (`oracle/src/hostile.rs` says how), beside the check of an honest full table of
//! the same size. The verdict on each image is asserted, and a row says how many special members it has.

use crate::calls::{self, Funnel};
use crate::funnels::{CAP, SEED, identity};
use crate::images_made::{Base, Kind, Members};
use crate::measure::Table;

const SIZES: [u64; 3] = [1 << 16, 1 << 20, 1 << 22];

/// Where an image cost so many times the honest table, larger images of its kind are not tried: they would take minutes.
const TOO_MUCH: f64 = 4.0;

pub fn rows(table: &mut Table) {
    for e in [3, 6] {
        let mut too_much = Vec::new();
        for n in SIZES {
            let n = (n..).find(|&n| calls::funnel_plan(n, e).is_some()).unwrap();
            let family = format!("hostile, n {n}, e {e}: ");
            let mut kinds = Kind::ALL.to_vec();
            kinds.retain(|&kind| !too_much.contains(&kind) && table.may_want(&format!("{family}{}", name_of(kind))));
            if kinds.is_empty() {
                continue;
            }
            let maximum = calls::funnel_plan(n, e).unwrap().0[0];
            let mut honest = Funnel::open(n, e, SEED, CAP);
            let members: Vec<u64> = (0..maximum).map(identity).collect();
            assert!(honest.place_all(&members, &mut vec![0; members.len()]));
            let base = Base::new(n, e, SEED, maximum as usize, 1 << 40, identity).unwrap();
            for kind in kinds {
                let special = base.special(kind);
                let name = format!("{family}{}, {} special", name_of(kind), special.len());
                let ratio = row(table, &name, &honest, maximum, &image(n, e, &base, &special), &told(&base, kind, &special));
                if ratio > TOO_MUCH {
                    println!("(more than {TOO_MUCH} times the honest table: no larger image of that kind)");
                    too_much.push(kind);
                }
            }
        }
    }
}

fn name_of(kind: Kind) -> &'static str {
    match kind {
        Kind::Half => "half",
        Kind::Nearly => "nearly full",
        Kind::Pairs => "pairs",
        Kind::Chain => "chain",
        Kind::Fan => "fan",
        Kind::Stuck => "stuck",
    }
}

/// The table with these members in it.
fn image(n: u64, e: u32, base: &Base, special: &Members) -> Funnel {
    let mut table = Funnel::open(n, e, SEED, CAP);
    for &(slot, id) in base.ordinary.iter().chain(special) {
        table.put(slot, id);
    }
    table
}

/// What the check has to say: that the image is accepted with all its members; or that its ordinary members were placed, and the first
/// special one was not.
fn told(base: &Base, kind: Kind, special: &Members) -> calls::Verdict {
    let least = match kind {
        Kind::Half | Kind::Chain => base.special / 4,
        Kind::Nearly | Kind::Pairs | Kind::Stuck => base.special * 8 / 10,
        Kind::Fan => base.primary / 4,
    };
    assert!(special.len() >= least, "{kind:?}: {} special members", special.len());
    assert!(special.iter().all(|&(_, id)| base.passes(id)));
    if kind == Kind::Chain {
        let falls = special.windows(2).filter(|pair| pair[1].0 < pair[0].0).count();
        assert!(falls * 10 >= special.len() * 8, "a chain that falls {falls} times");
    }
    let placed = base.ordinary.len() as u64;
    match kind {
        Kind::Stuck => calls::Verdict::Disorder {
            placed,
            slot: special.iter().map(|&(slot, _)| slot as u64).min().unwrap(),
        },
        _ => calls::Verdict::Accepted {
            placed: placed + special.len() as u64,
        },
    }
}

fn row(table: &mut Table, name: &str, honest: &Funnel, maximum: u64, image: &Funnel, told: &calls::Verdict) -> f64 {
    let n = image.slots();
    let (mut marks, mut order) = (vec![0; n], vec![0; n]);
    let (mut marks2, mut order2) = (vec![0; n], vec![0; n]);
    let full = calls::Verdict::Accepted { placed: maximum };
    table.row(name, maximum as usize, || {
        assert_eq!(image.check(&mut marks, &mut order), *told);
    }, || {
        assert_eq!(honest.check(&mut marks2, &mut order2), full);
    })
}
