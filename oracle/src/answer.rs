//! From a line to its answer: which fields a command takes, and of which types.

use crate::exact::geometry::PaperConfig;
use crate::exact::probe::{
    self, CounterPrf, ElasticProbeBudgetError, FunnelPrf, PhiCoordinate, PhiError, ProbeDomain, ProbeIndex,
    ProbeOracle, RangeReductionError,
};
use crate::line::{bytes, entry, fields, half_word, two_words, word};
use crate::rules::{self, Bounds, Refused, refusal};
use crate::{check, elastic, funnel, image, smallest};

/// The answer to a line: `?` where it is no command, `L` where it is longer than `replay` can hold.
pub fn answer(line: &[u8], bounds: Bounds) -> String {
    if line.len() > bounds.line {
        return String::from("L");
    }
    match command(line, bounds) {
        Some(Ok(answer) | Err(answer)) => answer,
        None => String::from("?"),
    }
}

/// `None` for a line that is no command; a refusal is an `Err`.
fn command(line: &[u8], bounds: Bounds) -> Option<Result<String, Refused>> {
    let fields = fields(line)?;
    let (&name, rest) = fields.split_first()?;
    match (name, rest) {
        (b"EL", &[n, e]) => Some(elastic_layout(word(n)?, half_word(e)?)),
        (b"FL", &[n, e]) => Some(funnel_layout(word(n)?, half_word(e)?)),
        (b"SN", &[count, e, first, last]) => Some(smallest::smallest(
            word(count)?,
            half_word(e)?,
            word(first)?,
            word(last)?,
        )),
        (b"MS", &[e, from]) => Some(smallest::minimum(half_word(e)?, word(from)?)),
        (b"MIX", &[x]) => Some(Ok(CounterPrf::bare_mix64(word(x)?).to_string())),
        (b"EP", &[level, probe, retry]) => {
            Some(elastic_counter(word(level)?, word(probe)?, word(retry)?).map(|c| c.to_string()))
        }
        (b"FP", &[tag, level, probe, retry]) => {
            let domain = domain(tag, level)?;
            Some(funnel_counter(domain, word(probe)?, word(retry)?).map(|c| c.to_string()))
        }
        (b"EW", &[seed, id, level, probe, retry]) => Some(elastic_word(
            word(seed)?,
            word(id)?,
            word(level)?,
            word(probe)?,
            word(retry)?,
        )),
        (b"FW", &[seed, id, tag, level, probe, retry]) => Some(funnel_word(
            word(seed)?,
            word(id)?,
            domain(tag, level)?,
            word(probe)?,
            word(retry)?,
        )),
        (b"ER", &[seed, id, level, probe, upper, cap]) => Some(elastic_reduction(
            word(seed)?,
            word(id)?,
            word(level)?,
            word(probe)?,
            word(upper)?,
            word(cap)?,
        )),
        (b"FR", &[seed, id, tag, level, probe, upper, cap]) => Some(funnel_reduction(
            word(seed)?,
            word(id)?,
            domain(tag, level)?,
            word(probe)?,
            word(upper)?,
            word(cap)?,
        )),
        (b"PHI", &[i, j]) => Some(phi(two_words(i)?, word(j)?)),
        (b"PHB", &[i, j]) => Some(phi_bounded(half_word(i)?, word(j)?)),
        (b"PHINV", &[p]) => Some(phi_inverse(two_words(p)?)),
        (b"BUD", &[free, level, e, c]) => Some(budget(word(free)?, word(level)?, half_word(e)?, word(c)?)),
        (b"ERUN", &[n, e, seed, c, words, search, positions, ref operations @ ..]) => {
            let table = elastic_table(n, e, seed, c, words, search, positions)?;
            let operations = operations
                .iter()
                .map(|field| elastic::operation(field, table.n))
                .collect::<Option<Vec<_>>>()?;
            Some(elastic::run(&table, &operations, bounds))
        }
        (b"EBULK", &[n, e, seed, c, words, search, positions, start, count]) => {
            let table = elastic_table(n, e, seed, c, words, search, positions)?;
            Some(elastic::bulk(&table, word(start)?, word(count)?, bounds))
        }
        (b"FRUN", &[n, e, seed, cap, ref operations @ ..]) => {
            let table = funnel_table(n, e, seed, cap)?;
            let operations = operations
                .iter()
                .map(|field| funnel::operation(field, table.n))
                .collect::<Option<Vec<_>>>()?;
            Some(funnel::run(&table, &operations, bounds))
        }
        (b"FBULK", &[n, e, seed, cap, start, count]) => {
            let table = funnel_table(n, e, seed, cap)?;
            Some(funnel::bulk(&table, word(start)?, word(count)?, bounds))
        }
        (b"LOAD", &[n, e, seed, cap, hex]) => {
            let table = funnel_table(n, e, seed, cap)?;
            Some(image::load(&table, &bytes(hex)?, bounds))
        }
        (b"WRITE", &[n, e, seed, cap, label, room, ref entries @ ..]) => {
            let table = funnel_table(n, e, seed, cap)?;
            let label = bytes(label)?;
            let room = word(room)?;
            let entries = entries
                .iter()
                .map(|field| entry(field, table.n))
                .collect::<Option<Vec<_>>>()?;
            Some(image::write(&table, &label, room, &entries, bounds))
        }
        (b"CHECK", &[n, e, seed, cap, count, ref entries @ ..]) => {
            let table = funnel_table(n, e, seed, cap)?;
            let count = word(count)?;
            let entries = entries
                .iter()
                .map(|field| entry(field, table.n))
                .collect::<Option<Vec<_>>>()?;
            Some(check::check(&table, count, &entries, bounds))
        }
        _ => None,
    }
}

/// Tag 0 has a level; "a level other than 0 with tag 1, 2 or 3" is something no type can say.
fn domain(tag: &[u8], level: &[u8]) -> Option<ProbeDomain> {
    match (word(tag)?, word(level)?) {
        (0, level) => Some(ProbeDomain::FunnelOrdinary { level }),
        (1, 0) => Some(ProbeDomain::FunnelSpecialPrimary),
        (2, 0) => Some(ProbeDomain::FunnelSpecialFallbackChoiceA),
        (3, 0) => Some(ProbeDomain::FunnelSpecialFallbackChoiceB),
        _ => None,
    }
}

fn elastic_table(
    n: &[u8],
    e: &[u8],
    seed: &[u8],
    c: &[u8],
    words: &[u8],
    search: &[u8],
    positions: &[u8],
) -> Option<elastic::Table> {
    Some(elastic::Table {
        n: word(n)?,
        e: half_word(e)?,
        seed: word(seed)?,
        c: word(c)?,
        word_cap: word(words)?,
        search_cap: word(search)?,
        position_cap: word(positions)?,
    })
}

fn funnel_table(n: &[u8], e: &[u8], seed: &[u8], cap: &[u8]) -> Option<funnel::Table> {
    Some(funnel::Table {
        n: word(n)?,
        e: half_word(e)?,
        seed: word(seed)?,
        cap: word(cap)?,
    })
}

fn elastic_layout(n: u64, e: u32) -> Result<String, Refused> {
    let config: PaperConfig = rules::config(n, e)?;
    let plan = config.elastic_plan();
    let levels = plan
        .level_lengths()
        .zip(plan.batch_quotas())
        .map(|(length, quota)| format!(" {length}:{quota}"))
        .collect::<String>();
    Ok(format!(
        "{} {}{levels}",
        config.max_insertions(),
        plan.level_count()
    ))
}

pub fn funnel_layout(n: u64, e: u32) -> Result<String, Refused> {
    let config = rules::config(n, e)?;
    let plan = rules::funnel_plan(config)?;
    let counts = plan
        .ordinary_bucket_counts()
        .map(|count| format!(" {count}"))
        .collect::<String>();
    Ok(format!(
        "{} {} {} {} {} {}{counts}",
        config.max_insertions(),
        plan.alpha(),
        plan.beta(),
        plan.loglog_ceiling(),
        plan.fallback_bucket_width(),
        plan.special_len(),
    ))
}

/// A retry too large for the Rust's type is beyond the packing too.
fn elastic_counter(level: u64, probe: u64, retry: u64) -> Result<u32, Refused> {
    let retry = u32::try_from(retry).map_err(|_| refusal(9))?;
    probe::try_pack_elastic_counter(level, probe, retry).ok_or_else(|| refusal(9))
}

fn funnel_counter(domain: ProbeDomain, probe: u64, retry: u64) -> Result<u64, Refused> {
    let retry = u32::try_from(retry).map_err(|_| refusal(9))?;
    FunnelPrf::pack(domain, probe, retry).ok_or_else(|| refusal(9))
}

fn elastic_word(seed: u64, id: u64, level: u64, probe: u64, retry: u64) -> Result<String, Refused> {
    elastic_counter(level, probe, retry)?;
    let domain = ProbeDomain::ElasticOrdinary { level };
    Ok(CounterPrf::new(seed)
        .word(id, domain, probe, retry as u32)
        .to_string())
}

fn funnel_word(seed: u64, id: u64, domain: ProbeDomain, probe: u64, retry: u64) -> Result<String, Refused> {
    funnel_counter(domain, probe, retry)?;
    Ok(FunnelPrf::new(seed)
        .word(id, domain, probe, retry as u32)
        .to_string())
}

fn elastic_reduction(
    seed: u64,
    id: u64,
    level: u64,
    probe: u64,
    upper: u64,
    cap: u64,
) -> Result<String, Refused> {
    rules::elastic_reduction(level, probe, upper, cap)?;
    let domain = ProbeDomain::ElasticOrdinary { level };
    reduced(probe::unbiased_probe_index(
        &CounterPrf::new(seed),
        id,
        domain,
        probe,
        upper as usize,
        cap as u32,
    ))
}

fn funnel_reduction(
    seed: u64,
    id: u64,
    domain: ProbeDomain,
    probe: u64,
    upper: u64,
    cap: u64,
) -> Result<String, Refused> {
    let level = match domain {
        ProbeDomain::FunnelOrdinary { level } => level,
        _ => 0,
    };
    rules::funnel_reduction(level, probe, upper, cap)?;
    reduced(probe::unbiased_probe_index(
        &FunnelPrf::new(seed),
        id,
        domain,
        probe,
        upper as usize,
        cap as u32,
    ))
}

fn reduced(outcome: Result<ProbeIndex, RangeReductionError>) -> Result<String, Refused> {
    outcome
        .map(|found| format!("{} {}", found.index, found.random_word_count))
        .map_err(range_refusal)
}

/// "8 UPPER: range reduction to 0 values", "10 RANGE: all allowed words rejected, with the number of words".
pub fn range_refusal(error: RangeReductionError) -> Refused {
    match error {
        RangeReductionError::ZeroUpperBound => refusal(8),
        RangeReductionError::RejectionLimitExceeded { random_word_count } => {
            format!("R 10 {random_word_count}")
        }
    }
}

fn phi(i: u128, j: u64) -> Result<String, Refused> {
    probe::elastic_phi(i, u128::from(j))
        .map(|position| position.to_string())
        .map_err(|error| match error {
            PhiError::ZeroCoordinate {
                coordinate: PhiCoordinate::I,
            } => String::from("R 11 i"),
            PhiError::ZeroCoordinate {
                coordinate: PhiCoordinate::J,
            } => String::from("R 11 j"),
            PhiError::Overflow => refusal(12),
        })
}

/// The Rust's bounded form has one `None` for both refusals: "Phi: 11, 12", "i tested before j".
fn phi_bounded(i: u32, j: u64) -> Result<String, Refused> {
    match (i, j) {
        (0, _) => Err(String::from("R 11 i")),
        (_, 0) => Err(String::from("R 11 j")),
        _ => probe::elastic_phi_bounded(i, j)
            .map(|position| position.to_string())
            .ok_or_else(|| refusal(12)),
    }
}

fn phi_inverse(position: u128) -> Result<String, Refused> {
    probe::elastic_phi_inverse(position)
        .map(|(i, j)| format!("{i} {j}"))
        .ok_or_else(|| refusal(13))
}

fn budget(free: u64, level: u64, e: u32, c: u64) -> Result<String, Refused> {
    probe::elastic_dyadic_probe_budget(free as usize, level as usize, e, c as usize)
        .map(|budget| budget.to_string())
        .map_err(|error| match error {
            ElasticProbeBudgetError::InvalidFreeSlots { .. } => String::from("R 14 1"),
            ElasticProbeBudgetError::ZeroConstant => String::from("R 14 2"),
            ElasticProbeBudgetError::Overflow => String::from("R 14 3"),
        })
}

/// FNV-1a, 64 bits, over slot and identity of the occupied slots in rising order.
pub fn digest(occupied: impl Iterator<Item = (u64, u64)>) -> String {
    let mut hash = 0xcbf2_9ce4_8422_2325_u64;
    for (slot, identity) in occupied {
        for byte in slot.to_le_bytes().into_iter().chain(identity.to_le_bytes()) {
            hash = (hash ^ u64::from(byte)).wrapping_mul(0x0100_0000_01b3);
        }
    }
    format!("{hash:016x}")
}

/// The occupied slots of a table of the Rust.
pub fn occupied(slots: &[Option<u64>]) -> impl Iterator<Item = (u64, u64)> {
    slots
        .iter()
        .enumerate()
        .filter_map(|(slot, identity)| Some((slot as u64, (*identity)?)))
}

/// The identities of a bulk run: mix64(start + k * 9E3779B97F4A7C15), k = 1 .. count.
pub fn bulk_identities(start: u64, count: u64) -> impl Iterator<Item = u64> {
    (1..=count)
        .map(move |k| CounterPrf::bare_mix64(start.wrapping_add(k.wrapping_mul(0x9e37_79b9_7f4a_7c15))))
}

/// Refusals counted by number, as `number:times` joined by commas, or `-`.
#[derive(Default)]
pub struct Tally(std::collections::BTreeMap<u32, u64>);

impl Tally {
    pub fn add(&mut self, refused: &str) {
        let number = refused
            .split(' ')
            .nth(1)
            .and_then(|number| number.parse().ok())
            .unwrap_or_else(|| panic!("a refusal without a number: {refused}"));
        *self.0.entry(number).or_default() += 1;
    }
}

impl std::fmt::Display for Tally {
    fn fmt(&self, out: &mut std::fmt::Formatter<'_>) -> std::fmt::Result {
        if self.0.is_empty() {
            return out.write_str("-");
        }
        let parts: Vec<String> = self
            .0
            .iter()
            .map(|(number, times)| format!("{number}:{times}"))
            .collect();
        out.write_str(&parts.join(","))
    }
}
