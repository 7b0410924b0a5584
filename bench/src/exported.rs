//! The calls for C beside the core that they carry out: `place_all`, the check, a single insertion and search, and what the test of the
//! state block costs. The second column is the core's time on the same inputs, over words that are numbers and not bytes.

use std::hint::black_box;

use crate::calls::{self, Funnel};
use crate::funnels::{CAP, SEED, identity, orders};
use crate::measure::Table;

/// Declares calls for C: numbers, then the state block, words and flags, then what else is lent, and the answer block.
macro_rules! declare {
    ($(fn $name:ident([$($number:ident: $kind:ty),*] $($given:ident: $type:ty),*);)*) => {
        unsafe extern "C" {
            $(fn $name(
                $($number: $kind,)*
                state: *mut u8,
                state_len: usize,
                words: *mut u8,
                words_len: usize,
                flags: *mut u8,
                flags_len: usize,
                $($given: $type,)*
                answer: *mut u8,
                answer_len: usize,
            ) -> u64;)*
        }
    };
}

declare! {
    fn landovireph_funnel_open([n: u64, e: u32, seed: u64, word_cap: u64]);
    fn landovireph_funnel_search([] identity: u64);
    fn landovireph_funnel_insert([] identity: u64);
    fn landovireph_funnel_place_all([] identities: *const u8, identities_len: usize, slots: *mut u8, slots_len: usize);
    fn landovireph_funnel_check([] marks: *mut u8, marks_len: usize, order: *mut u8, order_len: usize);
}

/// Calls one of them with all of a table.
macro_rules! on {
    ($table:expr, $name:ident([$($number:expr),*] $($given:expr),*)) => {
        // Every pointer is to memory of the length behind it, which lives as long as the call and overlaps no other.
        unsafe {
            $name(
                $($number,)*
                $table.state.as_mut_ptr(),
                STATE,
                $table.words.as_mut_ptr().cast(),
                8 * $table.words.len(),
                $table.flags.as_mut_ptr(),
                $table.flags.len(),
                $($given,)*
                $table.answer.as_mut_ptr(),
                ANSWER,
            )
        }
    };
}

const STATE: usize = 2048;
const ANSWER: usize = 128;
const COUNT: usize = 40;

/// A funnel table in its blocks and buffers. Words are held as numbers, whose bytes are lent, so that both sides' buffers have
/// the same alignment.
struct Lent {
    state: [u8; STATE],
    answer: [u8; ANSWER],
    words: Vec<u64>,
    flags: Vec<u8>,
}

impl Lent {
    fn open(n: u64, e: u32) -> Self {
        let mut table = Self {
            state: [0; STATE],
            answer: [0; ANSWER],
            words: vec![0; n as usize],
            flags: vec![0; n as usize],
        };
        let refused = on!(table, landovireph_funnel_open([n, e, SEED, CAP]));
        assert_eq!(refused, 0, "no table of {n} slots at exponent {e}");
        table
    }

    fn clear(&mut self) {
        self.words.fill(0);
        self.flags.fill(0);
        self.state[COUNT..COUNT + 8].fill(0);
    }

    fn search(&mut self, identity: u64) -> u64 {
        on!(self, landovireph_funnel_search([] identity))
    }

    fn insert(&mut self, identity: u64) -> u64 {
        on!(self, landovireph_funnel_insert([] identity))
    }

    fn place_all(&mut self, identities: &[u64], slots: &mut [u64]) -> u64 {
        let (count, room) = (8 * identities.len(), 8 * slots.len());
        on!(self, landovireph_funnel_place_all([] identities.as_ptr().cast(), count, slots.as_mut_ptr().cast(), room))
    }

    fn check(&mut self, marks: &mut [u8], order: &mut [u64]) -> u64 {
        let (count, room) = (marks.len(), 8 * order.len());
        on!(self, landovireph_funnel_check([] marks.as_mut_ptr(), count, order.as_mut_ptr().cast(), room))
    }
}

pub fn rows(table: &mut Table) {
    if !table.wants("exported") {
        return;
    }
    for (n, e) in [(1 << 12, 3), (1 << 16, 3), (1 << 20, 3), (1 << 22, 3), (1 << 20, 6)] {
        let n = (n..).find(|&n| calls::funnel_plan(n, e).is_some()).unwrap();
        let maximum = calls::funnel_plan(n, e).unwrap().0[0];
        let members: Vec<u64> = (0..maximum).map(identity).collect();
        let mut ours = Lent::open(n, e);
        let mut core = Funnel::open(n, e, SEED, CAP);
        placing(table, &format!("n {n}, e {e}"), &members, &mut ours, &mut core);
        checking(table, &format!("n {n}, e {e}"), &members, &mut ours, &mut core);
        single(table, &format!("n {n}, e {e}"), &members, &mut ours, &mut core);
        state_test(table, n, e);
    }
}

fn placing(table: &mut Table, size: &str, members: &[u64], ours: &mut Lent, core: &mut Funnel) {
    let orders = orders(members);
    let mut slots = [vec![0; members.len()], vec![0; members.len()]];
    let [mine, other] = &mut slots;
    let (mut first, mut second) = (orders.iter().cycle(), orders.iter().cycle());
    table.row_after(&format!("exported: place_all filling, {size}"), members.len(), ours, core, Lent::clear, Funnel::clear, |ours| {
        assert_eq!(ours.place_all(first.next().unwrap(), mine), 0);
    }, |core| {
        assert!(core.place_all(second.next().unwrap(), other));
    });
    assert_eq!(mine, other);
    table.row(&format!("exported: place_all hits, {size}"), members.len(), || {
        assert_eq!(ours.place_all(members, mine), 0);
    }, || {
        assert!(core.place_all(members, other));
    });
    table.row(&format!("exported: place_all hits in other orders, {size}"), orders.len() * members.len(), || {
        for order in &orders {
            assert_eq!(ours.place_all(order, mine), 0);
        }
    }, || {
        for order in &orders {
            assert!(core.place_all(order, other));
        }
    });
}

/// Both tables are full.
fn checking(table: &mut Table, size: &str, members: &[u64], ours: &mut Lent, core: &mut Funnel) {
    let n = ours.flags.len();
    let (mut marks, mut order) = (vec![0; n], vec![0; n]);
    let (mut other_marks, mut other_order) = (vec![0; n], vec![0; n]);
    table.row(&format!("exported: check, {size}"), members.len(), || {
        assert_eq!(ours.check(&mut marks, &mut order), 0);
    }, || {
        assert_eq!(core.check(&mut other_marks, &mut other_order), calls::Verdict::Accepted { placed: members.len() as u64 });
    });
    assert_eq!((marks, order), (other_marks, other_order));
}

/// One call for each identity, on both sides with the test of the table.
fn single(table: &mut Table, size: &str, members: &[u64], ours: &mut Lent, core: &mut Funnel) {
    let some = &members[..members.len().min(200_000)];
    table.row(&format!("exported: one search, {size}"), some.len(), || {
        for &id in some {
            assert_eq!(ours.search(id), 0);
        }
    }, || {
        for &id in some {
            black_box(core.search_all(&[id]));
        }
    });
    table.row_after(&format!("exported: one insertion, {size}"), some.len(), ours, core, Lent::clear, Funnel::clear, |ours| {
        for &id in some {
            assert_eq!(ours.insert(id), 0);
        }
    }, |core| {
        for &id in some {
            assert!(core.insert(id));
        }
    });
}

/// A search of an empty table reads one slot: nearly all of its time is the test of the state block. Beside it the plan test alone.
fn state_test(table: &mut Table, n: u64, e: u32) {
    const TIMES: usize = 100_000;
    let mut ours = Lent::open(n, e);
    let (plan, counts) = calls::funnel_plan(n, e).unwrap();
    table.row(&format!("exported: state test, n {n}, e {e}"), TIMES, || {
        for _ in 0..TIMES {
            black_box(ours.search(black_box(7)));
        }
    }, || {
        for _ in 0..TIMES {
            black_box(calls::is_funnel_plan(black_box(n), e, &plan, &counts));
        }
    });
}
