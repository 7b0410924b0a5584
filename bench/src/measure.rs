//! Medians of times taken in turn, as a table.

use std::time::{Duration, Instant};

/// How often each side of a row is timed: 15 times, or 5 where these take long already.
const MOST_ROUNDS: usize = 15;
const LEAST_ROUNDS: usize = 5;
const LONG: Duration = Duration::from_secs(4);

fn enough(rounds: usize, start: Instant) -> bool {
    rounds >= MOST_ROUNDS || (rounds >= LEAST_ROUNDS && start.elapsed() > LONG)
}

pub struct Table {
    wanted: Vec<String>,
}

impl Table {
    pub fn new(wanted: Vec<String>) -> Self {
        println!("{:<56} {:>12} {:>12} {:>7}", "", "ours, ns", "other, ns", "ratio");
        println!("(other: the Rust, or what the row names)");
        Self { wanted }
    }

    pub fn wants(&self, name: &str) -> bool {
        self.wanted.is_empty() || self.wanted.iter().any(|start| name.starts_with(start.as_str()))
    }

    /// Whether rows are wanted whose names begin so.
    pub fn may_want(&self, start: &str) -> bool {
        self.wants(start) || self.wanted.iter().any(|name| name.starts_with(start))
    }

    /// One row: each side does the same `operations`; its time for one of them is the median over the rounds. Gives the ratio.
    pub fn row(
        &mut self,
        name: &str,
        operations: usize,
        mut ours: impl FnMut(),
        mut theirs: impl FnMut(),
    ) -> f64 {
        if !self.wants(name) {
            return 0.0;
        }
        ours();
        theirs();
        let mut times = [Vec::new(), Vec::new()];
        let start = Instant::now();
        while !enough(times[0].len(), start) {
            times[0].push(time(&mut ours));
            times[1].push(time(&mut theirs));
        }
        self.print(name, operations, times)
    }

    /// One row whose sides are made ready before each round, untimed.
    #[allow(clippy::too_many_arguments)]
    pub fn row_after<A, B>(
        &mut self,
        name: &str,
        operations: usize,
        our_state: &mut A,
        their_state: &mut B,
        mut ready_ours: impl FnMut(&mut A),
        mut ready_theirs: impl FnMut(&mut B),
        mut ours: impl FnMut(&mut A),
        mut theirs: impl FnMut(&mut B),
    ) {
        let mut times = [Vec::new(), Vec::new()];
        let start = Instant::now();
        let mut warm = false;
        while !enough(times[0].len(), start) {
            ready_ours(our_state);
            ready_theirs(their_state);
            let mine = time(&mut || ours(our_state));
            let other = time(&mut || theirs(their_state));
            if warm {
                times[0].push(mine);
                times[1].push(other);
            }
            // The first round only warms up.
            warm = true;
        }
        self.print(name, operations, times);
    }

    fn print(&self, name: &str, operations: usize, times: [Vec<f64>; 2]) -> f64 {
        let [ours, theirs] = times.map(|mut side| {
            side.sort_by(f64::total_cmp);
            side[side.len() / 2] / operations as f64
        });
        println!("{name:<56} {ours:>12.1} {theirs:>12.1} {:>7.3}", ours / theirs);
        ours / theirs
    }
}

fn time(work: &mut impl FnMut()) -> f64 {
    let start = Instant::now();
    work();
    start.elapsed().as_nanos() as f64
}
