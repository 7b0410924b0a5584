//! FRUN and FBULK over the Rust's `ScalarFunnel` with `FunnelPrf`.

use core::num::NonZeroU32;

use crate::answer::{Tally, bulk_identities, digest, occupied, range_refusal};
use crate::exact::probe::FunnelPrf;
use crate::exact::reference::{ScalarFunnel, ScalarFunnelInsert, ScalarFunnelLocation, ScalarFunnelSearch};
use crate::line::{pair, word};
use crate::rules::{self, Bounds, Refused};

/// The numbers that a table is opened with.
#[derive(Clone, Copy)]
pub struct Table {
    pub n: u64,
    pub e: u32,
    pub seed: u64,
    pub cap: u64,
}

pub enum Operation {
    Insert(u64),
    Search(u64),
    Occupy(u64, u64),
    SetCount(u64),
}

/// `iID`, `sID`, `oSLOT=ID` with the slot below n, `lCOUNT`.
pub fn operation(field: &[u8], n: u64) -> Option<Operation> {
    let (&letter, rest) = field.split_first()?;
    match letter {
        b'i' => Some(Operation::Insert(word(rest)?)),
        b's' => Some(Operation::Search(word(rest)?)),
        b'o' => {
            let (slot, identity) = pair(rest)?;
            (slot < n).then_some(Operation::Occupy(slot, identity))
        }
        b'l' => Some(Operation::SetCount(word(rest)?)),
        _ => None,
    }
}

/// Refusals 1 to 6 in their order, with a label's length among the limits; then `L`.
pub fn gate(table: &Table, label: &[u8], bounds: Bounds) -> Result<(), Refused> {
    let config = rules::config(table.n, table.e)?;
    rules::funnel_plan(config)?;
    rules::funnel_limits(table.cap)?;
    rules::label_limit(label)?;
    if table.n > bounds.slots {
        return Err(String::from("L"));
    }
    Ok(())
}

/// An empty table of the Rust, for numbers that passed the gate.
pub fn fresh(table: &Table) -> ScalarFunnel<FunnelPrf> {
    let config = rules::config(table.n, table.e).expect("past the gate");
    let cap = NonZeroU32::new(table.cap as u32).expect("past the gate");
    ScalarFunnel::new(config, FunnelPrf::new(table.seed), cap)
}

/// A table of the Rust, with the count that came in from outside kept apart.
struct Opened {
    n: u64,
    rust: ScalarFunnel<FunnelPrf>,
    count: u64,
}

impl Opened {
    fn new(table: &Table, bounds: Bounds) -> Result<Self, Refused> {
        gate(table, &[], bounds)?;
        Ok(Self {
            n: table.n,
            rust: fresh(table),
            count: 0,
        })
    }

    /// STATE, then the count is handed to the Rust.
    fn enter(&mut self) -> Result<(), Refused> {
        rules::count_state(self.n, self.count)?;
        self.rust.set_count(self.count as usize);
        Ok(())
    }

    /// The answer, a refusal too, with the probe count where there is one.
    fn insert(&mut self, identity: u64) -> (Result<String, Refused>, u128) {
        if let Err(refused) = self.enter() {
            return (Err(refused), 0);
        }
        match self.rust.insert(identity) {
            Err(error) => (Err(range_refusal(error)), 0),
            Ok((outcome, probes)) => {
                self.count = self.rust.len() as u64;
                let answer = match outcome {
                    ScalarFunnelInsert::Inserted(at) => Ok(format!("I {probes} {}", place(at))),
                    ScalarFunnelInsert::Duplicate(at) => Err(format!("R 15 {probes} {}", place(at))),
                    ScalarFunnelInsert::TargetExhausted => Err(format!("R 16 {probes}")),
                    ScalarFunnelInsert::FallbackFull => Err(format!("R 20 {probes}")),
                };
                (answer, probes)
            }
        }
    }

    fn search(&mut self, identity: u64) -> Result<String, Refused> {
        self.enter()?;
        let (outcome, probes) = self.rust.search(identity).map_err(range_refusal)?;
        match outcome {
            ScalarFunnelSearch::Hit(at) => Ok(format!("H {probes} {}", place(at))),
            ScalarFunnelSearch::Vacant(at) => Ok(format!("V {probes} {}", place(at))),
            ScalarFunnelSearch::Full => Err(format!("R 20 {probes}")),
        }
    }

    fn digest(&self) -> String {
        digest(occupied(self.rust.slots()))
    }
}

fn place(at: ScalarFunnelLocation) -> String {
    match at {
        ScalarFunnelLocation::Ordinary {
            level,
            bucket,
            slot_in_bucket,
            global_slot,
        } => format!("O {level} {bucket} {slot_in_bucket} {global_slot}"),
        ScalarFunnelLocation::SpecialPrimary { slot, global_slot } => {
            format!("P {slot} {global_slot}")
        }
        ScalarFunnelLocation::SpecialFallback {
            bucket,
            slot_in_bucket,
            global_slot,
        } => format!("B {bucket} {slot_in_bucket} {global_slot}"),
    }
}

pub fn run(table: &Table, operations: &[Operation], bounds: Bounds) -> Result<String, Refused> {
    let mut opened = Opened::new(table, bounds)?;
    let mut answer = String::new();
    for operation in operations {
        let outcome = match *operation {
            Operation::Insert(identity) => opened.insert(identity).0,
            Operation::Search(identity) => opened.search(identity),
            Operation::Occupy(slot, identity) => {
                opened.rust.occupy(slot as usize, identity);
                continue;
            }
            Operation::SetCount(count) => {
                opened.count = count;
                continue;
            }
        };
        let (Ok(text) | Err(text)) = outcome;
        answer.push_str(&text);
        answer.push_str("; ");
    }
    Ok(format!("{answer}END {} {}", opened.count, opened.digest()))
}

pub fn bulk(table: &Table, start: u64, count: u64, bounds: Bounds) -> Result<String, Refused> {
    let mut opened = Opened::new(table, bounds)?;
    let mut refusals = Tally::default();
    let mut all_probes = 0_u128;
    for identity in bulk_identities(start, count) {
        let (outcome, probes) = opened.insert(identity);
        all_probes += probes;
        if let Err(refused) = outcome {
            refusals.add(&refused);
        }
    }
    Ok(format!(
        "{} {refusals} {all_probes} {}",
        opened.count,
        opened.digest()
    ))
}
