//! ERUN and EBULK over the Rust's `ScalarElastic` with `CounterPrf`.

use core::num::{NonZeroU32, NonZeroU64, NonZeroU128, NonZeroUsize};

use crate::answer::{Tally, bulk_identities, digest, occupied};
use crate::exact::probe::CounterPrf;
use crate::exact::reference::{ElasticCase, ScalarElastic, ScalarElasticInsertion, ScalarElasticLimits};
use crate::line::{pair, word};
use crate::panics::caught;
use crate::rules::{self, Bounds, Refused, refusal};

/// The numbers that a table is opened with.
pub struct Table {
    pub n: u64,
    pub e: u32,
    pub seed: u64,
    pub c: u64,
    pub word_cap: u64,
    pub search_cap: u64,
    pub position_cap: u64,
}

pub enum Operation {
    Insert(u64),
    Query(u64),
    Occupy(u64, u64),
    SetLevel(usize, u64),
    SetCount(u64),
}

/// A state has room for the counts of 32 levels, and for no more.
const LEVELS: u64 = 32;

/// `iID`, `qID`, `oSLOT=ID` with the slot below n, `cLEVEL=COUNT` with the level below 32, `lCOUNT`.
pub fn operation(field: &[u8], n: u64) -> Option<Operation> {
    let (&letter, rest) = field.split_first()?;
    match letter {
        b'i' => Some(Operation::Insert(word(rest)?)),
        b'q' => Some(Operation::Query(word(rest)?)),
        b'o' => {
            let (slot, identity) = pair(rest)?;
            (slot < n).then_some(Operation::Occupy(slot, identity))
        }
        b'c' => {
            let (level, count) = pair(rest)?;
            (level < LEVELS).then_some(Operation::SetLevel(level as usize, count))
        }
        b'l' => Some(Operation::SetCount(word(rest)?)),
        _ => None,
    }
}

/// A table of the Rust, with the counts that came in from outside kept apart: they may be ones that
/// the Rust could not hold.
pub struct Opened {
    n: u64,
    rust: ScalarElastic<CounterPrf>,
    count: u64,
    level_counts: [u64; LEVELS as usize],
}

impl Opened {
    pub fn new(table: &Table, bounds: Bounds) -> Result<Self, Refused> {
        let config = rules::config(table.n, table.e)?;
        rules::elastic_limits(
            table.e,
            table.c,
            table.word_cap,
            table.search_cap,
            table.position_cap,
        )?;
        if table.n > bounds.slots {
            return Err(String::from("L"));
        }
        let limits = ScalarElasticLimits::new(
            NonZeroUsize::new(table.c as usize).expect("within the limits"),
            NonZeroU32::new(table.word_cap as u32).expect("within the limits"),
            NonZeroU64::new(table.search_cap).expect("within the limits"),
            NonZeroU128::new(u128::from(table.position_cap)).expect("within the limits"),
        );
        Ok(Self {
            n: table.n,
            rust: ScalarElastic::new(config, CounterPrf::new(table.seed), limits),
            count: 0,
            level_counts: [0; LEVELS as usize],
        })
    }

    /// STATE, then the counts are handed to the Rust.
    fn enter(&mut self) -> Result<(), Refused> {
        let lengths = self.rust.level_lengths();
        rules::elastic_state(self.n, self.count, lengths, &self.level_counts)?;
        let levels = self.level_counts[..lengths.len()]
            .iter()
            .map(|&level| level as usize)
            .collect();
        self.rust.set_counts(self.count as usize, levels);
        Ok(())
    }

    pub fn insert(&mut self, identity: u64) -> Result<ScalarElasticInsertion, Refused> {
        self.enter()?;
        let rust = &mut self.rust;
        match caught(|| rust.insert(identity)) {
            Ok(insertion) => {
                self.count = self.rust.count() as u64;
                for (level, &count) in self.rust.level_occupancy().iter().enumerate() {
                    self.level_counts[level] = count as u64;
                }
                Ok(insertion)
            }
            // "DUPLICATE names the smallest such slot."
            Err(message) if message == "scalar Elastic insertion identities must be distinct" => {
                let slot = self.rust.slots().iter().position(|&slot| slot == Some(identity));
                Err(format!("R 15 {}", slot.expect("the slot that the Rust found")))
            }
            Err(message) => Err(panic_refusal(&message)),
        }
    }

    fn query(&mut self, identity: u64) -> Result<String, Refused> {
        self.enter()?;
        caught(|| self.rust.query(identity))
            .map(|found| {
                format!(
                    "Q {} {} {} {} {}",
                    found.found_position,
                    found.global_slot,
                    found.mapped_positions,
                    found.gap_positions,
                    found.random_words,
                )
            })
            .map_err(|message| panic_refusal(&message))
    }

    fn level_counts(&self) -> String {
        let counts: Vec<String> = self.level_counts[..self.rust.level_lengths().len()]
            .iter()
            .map(u64::to_string)
            .collect();
        counts.join(",")
    }

    fn digest(&self) -> String {
        digest(occupied(self.rust.slots()))
    }
}

/// The number of 01 for a message that the Rust panics with.
fn panic_refusal(message: &str) -> Refused {
    const RANGE: &str =
        "scalar Elastic range reduction must succeed: RejectionLimitExceeded { random_word_count: ";
    if let Some(words) = message
        .strip_prefix(RANGE)
        .and_then(|rest| rest.strip_suffix(" }"))
    {
        return format!("R 10 {words}");
    }
    match message {
        "scalar Elastic insertion exceeded the exact target" => refusal(16),
        "scalar Elastic schedule exhausted both active levels" => refusal(17),
        "scalar Elastic exhausted its finite uniform-search cap" => refusal(18),
        "assertion failed: phi <= self.limits.hit_query_position_cap.get()" => refusal(19),
        "scalar Elastic query failed to find its promised identity" => refusal(21),
        other => format!("PANIC {other}"),
    }
}

/// `case batch free_current free_next budget level slot_in_level global_slot paper_probe phi`.
fn inserted(insertion: &ScalarElasticInsertion) -> String {
    let (case, batch, free_current, free_next, budget) = match insertion.case {
        ElasticCase::Batch0 { .. } => (0, 0, 0, 0, 0),
        ElasticCase::Case1 {
            batch,
            free_current,
            free_next,
            budget,
            ..
        } => (1, batch, free_current, free_next, budget),
        ElasticCase::Case2 {
            batch,
            free_current,
            free_next,
            ..
        } => (2, batch, free_current, free_next, 0),
        ElasticCase::Case3 {
            batch,
            free_current,
            free_next,
            ..
        } => (3, batch, free_current, free_next, 0),
    };
    format!(
        "I {case} {batch} {free_current} {free_next} {budget} {} {} {} {} {}",
        insertion.location.level,
        insertion.location.slot_in_level,
        insertion.location.global_slot,
        insertion.paper_probe,
        insertion.phi,
    )
}

pub fn run(table: &Table, operations: &[Operation], bounds: Bounds) -> Result<String, Refused> {
    let mut opened = Opened::new(table, bounds)?;
    let mut answer = String::new();
    for operation in operations {
        let outcome = match *operation {
            Operation::Insert(identity) => opened.insert(identity).map(|done| inserted(&done)),
            Operation::Query(identity) => opened.query(identity),
            Operation::Occupy(slot, identity) => {
                opened.rust.occupy(slot as usize, identity);
                continue;
            }
            Operation::SetLevel(level, count) => {
                opened.level_counts[level] = count;
                continue;
            }
            Operation::SetCount(count) => {
                opened.count = count;
                continue;
            }
        };
        let (Ok(text) | Err(text)) = outcome;
        answer.push_str(&text);
        answer.push_str("; ");
    }
    Ok(format!(
        "{answer}END {} {} {}",
        opened.count,
        opened.level_counts(),
        opened.digest()
    ))
}

pub fn bulk(table: &Table, start: u64, count: u64, bounds: Bounds) -> Result<String, Refused> {
    let mut opened = Opened::new(table, bounds)?;
    let mut refusals = Tally::default();
    let mut paper_probes = 0_u128;
    let mut phis = 0_u128;
    for identity in bulk_identities(start, count) {
        match opened.insert(identity) {
            Ok(insertion) => {
                paper_probes += u128::from(insertion.paper_probe);
                phis += insertion.phi;
            }
            Err(refused) => refusals.add(&refused),
        }
    }
    Ok(format!(
        "{} {refusals} {paper_probes} {phis} {} {}",
        opened.count,
        opened.level_counts(),
        opened.digest()
    ))
}
