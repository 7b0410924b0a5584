//! The refusals that 01 has and the Rust lacks, or has in another order. Everything else that the
//! driver answers is the Rust's own answer. Sentences in quotes are 01's.

use crate::exact::geometry::{ConfigError, FunnelPlan, FunnelPlanError, PaperConfig};

/// A refusal as it is printed: `R`, the number, its values.
pub type Refused = String;

pub fn refusal(number: u32) -> Refused {
    format!("R {number}")
}

/// What `replay` can hold: "lines of up to 524,288 bytes and tables of up to 65,536 slots".
#[derive(Clone, Copy)]
pub struct Bounds {
    pub line: usize,
    pub slots: u64,
    /// The largest ROOM of WRITE.
    pub room: u64,
}

impl Bounds {
    pub const REPLAY: Self = Self {
        line: 524_288,
        slots: 65_536,
        room: 1_048_576,
    };
    pub const NONE: Self = Self {
        line: usize::MAX,
        slots: u64::MAX,
        room: u64::MAX,
    };
}

/// "1 N: n below 2", "2 ZEROEXP: e is 0" (both the Rust's), "3 SIZE: n above 2^32".
pub fn config(n: u64, e: u32) -> Result<PaperConfig, Refused> {
    let config = PaperConfig::new(n as usize, e).map_err(|error| match error {
        ConfigError::NTooSmall { .. } => refusal(1),
        ConfigError::ExponentZero => refusal(2),
    })?;
    if n > 1 << 32 {
        return Err(refusal(3));
    }
    Ok(config)
}

/// "4 EXPONENT: funnel, e below 3", "5 LAYOUT: no funnel layout by the rule below": both the Rust's.
pub fn funnel_plan(config: PaperConfig) -> Result<FunnelPlan, Refused> {
    config.funnel_plan().map_err(|error| match error {
        FunnelPlanError::ExponentBelowMinimum { .. } => refusal(4),
        FunnelPlanError::NoCompatibleSpecialLayout { .. } => refusal(5),
        // "Left out: DerivedParameterOverflow": 4e + 10 and 2e fit usize for every u32.
        FunnelPlanError::DerivedParameterOverflow { .. } => String::from("PANIC derived parameter"),
    })
}

/// "6 LIMITS: a cap or c outside the domain": "Funnel word cap 1 to 256".
pub fn funnel_limits(cap: u64) -> Result<(), Refused> {
    if (1..=256).contains(&cap) {
        Ok(())
    } else {
        Err(refusal(6))
    }
}

/// "Elastic: word cap 1 to 8; uniform-search cap 1 to 8,192; c at least 1 with c times min(e, 1024)
/// at most 8,192; query position cap 1 to 984,263,340."
pub fn elastic_limits(
    e: u32,
    c: u64,
    word_cap: u64,
    search_cap: u64,
    position_cap: u64,
) -> Result<(), Refused> {
    let within = (1..=8).contains(&word_cap)
        && (1..=8_192).contains(&search_cap)
        && c >= 1
        && u128::from(c) * u128::from(e.min(1_024)) <= 8_192
        && (1..=984_263_340).contains(&position_cap);
    if within { Ok(()) } else { Err(refusal(6)) }
}

/// "6 LIMITS: .. or label over 64 bytes".
pub fn label_limit(label: &[u8]) -> Result<(), Refused> {
    if label.len() <= 64 {
        Ok(())
    } else {
        Err(refusal(6))
    }
}

/// "7 STATE: .. count above n".
pub fn count_state(n: u64, count: u64) -> Result<(), Refused> {
    if count <= n { Ok(()) } else { Err(refusal(7)) }
}

/// "7 STATE: .. elastic level count above its length, set beyond the last level, or not summing to
/// the count".
pub fn elastic_state(n: u64, count: u64, lengths: &[usize], level_counts: &[u64]) -> Result<(), Refused> {
    count_state(n, count)?;
    let above = lengths
        .iter()
        .zip(level_counts)
        .any(|(&length, &level)| level > length as u64);
    let beyond = level_counts[lengths.len()..].iter().any(|&level| level != 0);
    let sum: u128 = level_counts.iter().map(|&level| u128::from(level)).sum();
    if above || beyond || sum != u128::from(count) {
        return Err(refusal(7));
    }
    Ok(())
}

/// "Reduction: 8, 9, 10; a cap of 0 is RANGE with 0 words." "9 COUNTER: level, probe, retry or word
/// cap beyond the packing": the elastic limits are "32, 8192, 8".
pub fn elastic_reduction(level: u64, probe: u64, upper: u64, cap: u64) -> Result<(), Refused> {
    reduction(level, 32, probe, 8_192, upper, cap, 8)
}

/// The same with the funnel's limits, "2^46, 256, 256".
pub fn funnel_reduction(level: u64, probe: u64, upper: u64, cap: u64) -> Result<(), Refused> {
    reduction(level, 1 << 46, probe, 256, upper, cap, 256)
}

fn reduction(
    level: u64,
    levels: u64,
    probe: u64,
    probes: u64,
    upper: u64,
    cap: u64,
    retries: u64,
) -> Result<(), Refused> {
    if upper == 0 {
        return Err(refusal(8));
    }
    if level >= levels || probe >= probes || cap > retries {
        return Err(refusal(9));
    }
    Ok(())
}
