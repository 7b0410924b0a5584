// The Rust declares this submodule, and a submodule sees its parent's private items: here are the
// two that the driver asks for by name, the mixer and the funnel's packing.
use super::{CounterPrf, FunnelPrf, ProbeDomain};

impl CounterPrf {
    pub(crate) const fn bare_mix64(value: u64) -> u64 {
        super::mix64(value)
    }
}

impl FunnelPrf {
    pub(crate) const fn pack(domain: ProbeDomain, probe: u64, retry: u32) -> Option<u64> {
        super::try_pack_funnel_counter(domain, probe, retry)
    }
}
