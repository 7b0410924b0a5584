//! The smallest table of a range, called as C calls it, beside one plan of the same exponent (that of the answer), from the starts that take
//! the search the most turns.

use std::hint::black_box;

use crate::calls;
use crate::measure::Table;

unsafe extern "C" {
    fn landovireph_funnel_smallest(count: u64, e: u32, first: u64, last: u64, answer: *mut u8, answer_len: usize) -> u64;
}

const LAST: u64 = 1 << 32;
const NONE: u64 = 27;

/// For each exponent from 3 on, the first n from which the search takes the most turns, and the n that it finds: the most over the n around
/// both ends of every special length and of every g, and over 20,000,000 others.
const WORST: [(u64, u64); 25] = [
    (270, 344),
    (538, 688),
    (687, 696),
    (2_166, 2_732),
    (2_733, 2_746),
    (8_690, 10_928),
    (10_925, 10_942),
    (34_798, 43_692),
    (85_998, 109_248),
    (109_245, 109_268),
    (218_473, 218_498),
    (688_122, 873_836),
    (873_831, 873_860),
    (1_747_637, 1_747_668),
    (3_495_255, 3_495_288),
    (6_990_537, 6_990_572),
    (13_981_019, 13_981_056),
    (27_962_061, 27_962_100),
    (88_080_364, 111_848_140),
    (111_848_109, 111_848_152),
    (223_696_227, 223_696_272),
    (704_643_046, 894_784_888),
    (1_409_286_122, 1_789_569_740),
    (2_818_572_246, 3_579_139_448),
    (3_579_139_461, 3_579_139_514),
];

/// The number that the call answers, and the n of its answer block.
fn smallest(count: u64, e: u32, first: u64, last: u64) -> (u64, u64) {
    let mut answer = [0_u64; 16];
    // The block has the length behind it.
    let number = unsafe { landovireph_funnel_smallest(count, e, first, last, answer.as_mut_ptr().cast(), 128) };
    (number, u64::from_le(answer[0]))
}

pub fn rows(table: &mut Table) {
    const TURNS: usize = 2000;
    for (e, (first, n)) in (3..).zip(WORST) {
        let plan = || {
            for _ in 0..TURNS {
                black_box(calls::funnel_plan(black_box(n), e));
            }
        };
        table.row(&format!("smallest: the longest search, e {e}"), TURNS, || {
            for _ in 0..TURNS {
                assert_eq!(smallest(0, e, black_box(first), LAST), (0, n));
            }
        }, plan);
        table.row(&format!("smallest: the same, and none, e {e}"), TURNS, || {
            for _ in 0..TURNS {
                assert_eq!(smallest(0, e, black_box(first), n - 1).0, NONE);
            }
        }, plan);
    }
}
