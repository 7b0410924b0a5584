//! The exported calls, and the numbers of a plan as they take them.

/// The numbers of a funnel plan, in the order of the library's struct.
pub type Plan = [u64; 11];
pub type Counts = [u64; 118];
/// A funnel table's numbers: n, e, seed, word cap, count, then the plan.
pub type State = [u64; 16];
/// An elastic table's numbers: n, e, seed, c, word cap, search cap, position cap, levels, maximum, count.
pub type ElasticState = [u64; 10];

unsafe extern "C" {
    fn bench_funnel_plan(n: u64, e: u32, plan: *mut Plan, counts: *mut Counts) -> bool;
    fn bench_is_funnel_plan(n: u64, e: u32, plan: *const Plan, counts: *const Counts) -> bool;
    fn bench_open(
        n: u64,
        e: u32,
        seed: u64,
        cap: u64,
        plan: *mut Plan,
        counts: *mut Counts,
        words: *mut u64,
        words_len: usize,
        flags: *mut u8,
        flags_len: usize,
    ) -> bool;
    fn bench_place_all(
        state: *mut State,
        counts: *const Counts,
        words: *mut u64,
        words_len: usize,
        flags: *mut u8,
        flags_len: usize,
        identities: *const u64,
        identities_len: usize,
        slots: *mut u64,
        slots_len: usize,
    ) -> bool;
    fn bench_insert(
        state: *mut State,
        counts: *const Counts,
        words: *mut u64,
        words_len: usize,
        flags: *mut u8,
        flags_len: usize,
        identity: u64,
    ) -> bool;
    fn bench_search_all(
        state: *const State,
        counts: *const Counts,
        words: *const u64,
        words_len: usize,
        flags: *const u8,
        flags_len: usize,
        identities: *const u64,
        identities_len: usize,
    ) -> u64;
    fn bench_check(
        state: *const State,
        counts: *const Counts,
        words: *const u64,
        words_len: usize,
        flags: *const u8,
        flags_len: usize,
        marks: *mut u8,
        marks_len: usize,
        order: *mut u64,
        order_len: usize,
        told: *mut [u64; 2],
    ) -> u64;
    fn bench_write_image(
        state: *const State,
        counts: *const Counts,
        words: *const u64,
        words_len: usize,
        flags: *const u8,
        flags_len: usize,
        label: *const u8,
        label_len: usize,
        out: *mut u8,
        out_len: usize,
    ) -> u64;
    fn bench_load_image(
        state: *const State,
        counts: *const Counts,
        words: *mut u64,
        words_len: usize,
        flags: *mut u8,
        flags_len: usize,
        image: *const u8,
        image_len: usize,
    ) -> bool;
    fn bench_elastic_open(
        state: *mut ElasticState,
        counts: *mut [u64; 32],
        words: *mut u64,
        words_len: usize,
        flags: *mut u8,
        flags_len: usize,
    ) -> bool;
    fn bench_elastic_insert(
        state: *mut ElasticState,
        counts: *mut [u64; 32],
        words: *mut u64,
        words_len: usize,
        flags: *mut u8,
        flags_len: usize,
        identity: u64,
    ) -> u64;
    fn bench_elastic_query(
        state: *const ElasticState,
        counts: *const [u64; 32],
        words: *const u64,
        words_len: usize,
        flags: *const u8,
        flags_len: usize,
        identity: u64,
    ) -> u64;
    fn bench_draws(seed: u64, identity: u64, cap: u64, counts: *const u64, levels: usize) -> u64;
}

/// Calls one on a table with its state, level counts, words and flags: those that it may write, or all only to be read.
macro_rules! call {
    ($name:ident(mut $table:expr $(, $given:expr)*)) => {
        // Every pointer is to memory that lives as long as the call; the length of a slice goes with it.
        unsafe {
            $name(
                &mut $table.state,
                &mut $table.counts,
                $table.words.as_mut_ptr(),
                $table.words.len(),
                $table.flags.as_mut_ptr(),
                $table.flags.len(),
                $($given,)*
            )
        }
    };
    ($name:ident($table:expr $(, $given:expr)*)) => {
        unsafe {
            $name(
                &$table.state,
                &$table.counts,
                $table.words.as_ptr(),
                $table.words.len(),
                $table.flags.as_ptr(),
                $table.flags.len(),
                $($given,)*
            )
        }
    };
}

/// The plan of n and e, if there is one.
pub fn funnel_plan(n: u64, e: u32) -> Option<(Plan, Counts)> {
    let mut plan = [0; 11];
    let mut counts = [0; 118];
    // Both arrays are live and of the length that the call takes.
    let found = unsafe { bench_funnel_plan(n, e, &mut plan, &mut counts) };
    found.then_some((plan, counts))
}

pub fn is_funnel_plan(n: u64, e: u32, plan: &Plan, counts: &Counts) -> bool {
    unsafe { bench_is_funnel_plan(n, e, plan, counts) }
}

/// The sum of the buckets of an identity in the levels.
pub fn draws(seed: u64, identity: u64, cap: u64, counts: &[u64]) -> u64 {
    unsafe { bench_draws(seed, identity, cap, counts.as_ptr(), counts.len()) }
}

/// What the check says of a table.
#[derive(Debug, PartialEq, Eq)]
pub enum Verdict {
    Accepted { placed: u64 },
    Disorder { placed: u64, slot: u64 },
    Other,
}

/// A funnel table with its buffers.
pub struct Funnel {
    state: State,
    counts: Counts,
    words: Vec<u64>,
    flags: Vec<u8>,
}

impl Funnel {
    /// A fresh table of numbers that have a layout.
    pub fn open(n: u64, e: u32, seed: u64, cap: u64) -> Self {
        let mut plan = [0; 11];
        let mut table = Self {
            state: [0; 16],
            counts: [0; 118],
            words: vec![0; n as usize],
            flags: vec![0; n as usize],
        };
        let opened = unsafe {
            bench_open(
                n,
                e,
                seed,
                cap,
                &mut plan,
                &mut table.counts,
                table.words.as_mut_ptr(),
                table.words.len(),
                table.flags.as_mut_ptr(),
                table.flags.len(),
            )
        };
        assert!(opened, "no table of {n} slots at exponent {e}");
        table.state[..5].copy_from_slice(&[n, u64::from(e), seed, cap, 0]);
        table.state[5..].copy_from_slice(&plan);
        table
    }

    pub fn clear(&mut self) {
        self.words.fill(0);
        self.flags.fill(0);
        self.state[4] = 0;
    }

    /// Places identities; whether all were.
    pub fn place_all(&mut self, identities: &[u64], slots: &mut [u64]) -> bool {
        call!(bench_place_all(mut self, identities.as_ptr(), identities.len(), slots.as_mut_ptr(), slots.len()))
    }

    pub fn insert(&mut self, identity: u64) -> bool {
        call!(bench_insert(mut self, identity))
    }

    /// The sum of the probe counts of searches for identities.
    pub fn search_all(&self, identities: &[u64]) -> u64 {
        call!(bench_search_all(self, identities.as_ptr(), identities.len()))
    }

    /// Puts an identity into a slot, whatever its path is.
    pub fn put(&mut self, slot: usize, identity: u64) {
        self.words[slot] = identity;
        self.flags[slot] = 1;
    }

    pub fn slots(&self) -> usize {
        self.words.len()
    }

    pub fn check(&self, marks: &mut [u8], order: &mut [u64]) -> Verdict {
        let mut told = [0; 2];
        let ending = call!(bench_check(self, marks.as_mut_ptr(), marks.len(), order.as_mut_ptr(), order.len(), &mut told));
        let [placed, slot] = told;
        match ending {
            0 => Verdict::Accepted { placed },
            1 => Verdict::Disorder { placed, slot },
            _ => Verdict::Other,
        }
    }

    /// The length of the table's image with a label, 0 where it was not written.
    pub fn write_image(&self, label: &[u8], out: &mut [u8]) -> u64 {
        call!(bench_write_image(self, label.as_ptr(), label.len(), out.as_mut_ptr(), out.len()))
    }

    /// The table from an image of it; whether it was one.
    pub fn load_image(&mut self, image: &[u8]) -> bool {
        call!(bench_load_image(mut self, image.as_ptr(), image.len()))
    }
}

/// An elastic table with its buffers.
#[derive(Clone)]
pub struct Elastic {
    state: ElasticState,
    counts: [u64; 32],
    words: Vec<u64>,
    flags: Vec<u8>,
}

impl Elastic {
    /// A fresh table: n, e, seed, c, word cap, search cap, position cap.
    pub fn open(numbers: [u64; 7]) -> Self {
        let n = numbers[0] as usize;
        let mut table = Self {
            state: [0; 10],
            counts: [0; 32],
            words: vec![0; n],
            flags: vec![0; n],
        };
        table.state[..7].copy_from_slice(&numbers);
        let opened = call!(bench_elastic_open(mut table));
        assert!(opened, "no elastic table of {numbers:?}");
        table
    }

    pub fn maximum(&self) -> u64 {
        self.state[8]
    }

    /// The phi of the identity's slot, 0 where it was refused.
    pub fn insert(&mut self, identity: u64) -> u64 {
        call!(bench_elastic_insert(mut self, identity))
    }

    /// The identity's position, 0 where it was not found.
    pub fn query(&self, identity: u64) -> u64 {
        call!(bench_elastic_query(self, identity))
    }
}
