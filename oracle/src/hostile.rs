//! Images of funnel tables that are made to keep a check busy: their special part is full of members that wait for each other.
//!
//! The ordinary part is filled first, but for some buckets of the widest levels, so that all of the special part can be filled and
//! the whole stays within the maximum. An identity none of whose buckets is one of the empty ones passes every ordinary slot: these
//! are searched for, and go where the kind of image wants them. `bench/` makes large images of these, the generator small ones.

use crate::exact::geometry::PaperConfig;
use crate::exact::probe::{FunnelPrf, ProbeDomain, unbiased_probe_index};

/// A fan's members are looked for among so many identities.
const FAN_SEARCH: u64 = 1 << 26;
/// So many identities for each primary slot are offered to a chain.
const CHAIN_OFFERS: usize = 20;

#[derive(Clone, Copy, Debug, PartialEq, Eq)]
pub enum Kind {
    /// The special part 50 % full, each member where an insertion puts it.
    Half,
    /// The same, 90 % full.
    Nearly,
    /// Members of the lower half that each wait for one of the upper half.
    Pairs,
    /// Primary members that each wait for the one before, mostly downwards.
    Chain,
    /// Many primary members that wait for the same slot, one of the last.
    Fan,
    /// The special part 90 % full, and no member can ever be placed: none is where its path begins.
    Stuck,
}

impl Kind {
    pub const ALL: [Self; 6] = [
        Self::Half,
        Self::Nearly,
        Self::Pairs,
        Self::Chain,
        Self::Fan,
        Self::Stuck,
    ];
}

/// The members of an image: slot and identity.
pub type Members = Vec<(usize, u64)>;

/// A table whose ordinary part is filled as said above.
pub struct Base {
    seed: u64,
    /// How many buckets each level has, and how many of them are filled: the first ones.
    counts: Vec<usize>,
    allowed: Vec<usize>,
    beta: usize,
    probes: usize,
    width: usize,
    buckets: usize,
    /// Where the special part starts, and how long its primary part and the whole are.
    pub start: usize,
    pub primary: usize,
    pub special: usize,
    /// So many special members keep the image within its bound.
    room: usize,
    pub ordinary: Members,
    /// The identities that are tried: `name` of these numbers.
    next: u64,
    name: fn(u64) -> u64,
}

impl Base {
    /// A base for images of at most `most` members, with identities `name(first + 1)` and on. `None` where the ordinary slots of a path
    /// are more than that already.
    pub fn new(n: u64, e: u32, seed: u64, most: usize, first: u64, name: fn(u64) -> u64) -> Option<Self> {
        let config = PaperConfig::new(n as usize, e).expect("within the domain");
        let plan = config.funnel_plan().expect("a layout");
        let counts: Vec<usize> = plan.ordinary_bucket_counts().collect();
        let (beta, special) = (plan.beta(), plan.special_len());
        let start = n as usize - special;
        // So many buckets stay empty, each level's last ones, and one of each level is filled at least.
        let mut empty = n.saturating_sub(most as u64).div_ceil(beta as u64) as usize;
        let mut allowed = counts.clone();
        for count in &mut allowed {
            let less = empty.min(*count - 1);
            *count -= less;
            empty -= less;
        }
        let filled = allowed.iter().sum::<usize>() * beta;
        let mut base = Self {
            seed,
            counts,
            allowed,
            beta,
            probes: plan.loglog_ceiling(),
            width: plan.fallback_bucket_width(),
            buckets: plan.fallback_bucket_count(),
            start,
            primary: plan.special_primary_len(),
            special,
            room: most.checked_sub(filled)?,
            ordinary: Vec::with_capacity(filled),
            next: first,
            name,
        };
        base.fill(filled);
        Some(base)
    }

    /// Fills the buckets that do not stay empty.
    fn fill(&mut self, wanted: usize) {
        let starts: Vec<usize> = self
            .counts
            .iter()
            .scan(0, |at, &count| Some(std::mem::replace(at, *at + count * self.beta)))
            .collect();
        let mut filled: Vec<Vec<usize>> = self.allowed.iter().map(|&count| vec![0; count]).collect();
        while self.ordinary.len() < wanted {
            self.next += 1;
            let id = (self.name)(self.next);
            for level in 0..self.counts.len() {
                let bucket = self.bucket(id, level);
                if bucket >= self.allowed[level] {
                    break;
                }
                let at = &mut filled[level][bucket];
                if *at < self.beta {
                    self.ordinary.push((starts[level] + bucket * self.beta + *at, id));
                    *at += 1;
                    break;
                }
            }
        }
    }

    /// The special members of an image of some kind, in an order that makes it if there is one.
    pub fn special(&self, kind: Kind) -> Members {
        let mut making = Making {
            base: self,
            next: self.next,
            taken: vec![false; self.special],
            members: Vec::new(),
        };
        match kind {
            Kind::Half => making.honest(self.special / 2),
            Kind::Nearly => making.honest(self.special * 9 / 10),
            Kind::Pairs => making.pairs(),
            Kind::Chain => making.chain(),
            Kind::Fan => making.fan(),
            Kind::Stuck => making.stuck(self.special * 9 / 10),
        }
        making.members.truncate(self.room);
        making.members
    }

    fn draw(&self, id: u64, domain: ProbeDomain, probe: u64, upper: usize) -> usize {
        unbiased_probe_index(&FunnelPrf::new(self.seed), id, domain, probe, upper, 256)
            .expect("256 words")
            .index
    }

    fn bucket(&self, id: u64, level: usize) -> usize {
        self.draw(id, ProbeDomain::FunnelOrdinary { level: level as u64 }, 0, self.counts[level])
    }

    /// Whether an identity passes every ordinary slot: a level that is filled wholly lets each pass.
    pub fn passes(&self, id: u64) -> bool {
        (0..self.counts.len()).all(|level| self.allowed[level] == self.counts[level] || self.bucket(id, level) < self.allowed[level])
    }

    /// The special slots of an identity are numbered from 0: the primary ones first.
    fn primary_slot(&self, id: u64, probe: usize) -> usize {
        self.draw(id, ProbeDomain::FunnelSpecialPrimary, probe as u64, self.primary)
    }

    fn fallback_buckets(&self, id: u64) -> (usize, usize) {
        (
            self.draw(id, ProbeDomain::FunnelSpecialFallbackChoiceA, 0, self.buckets),
            self.draw(id, ProbeDomain::FunnelSpecialFallbackChoiceB, 0, self.buckets),
        )
    }
}

/// An image whose special part is being filled.
struct Making<'a> {
    base: &'a Base,
    next: u64,
    taken: Vec<bool>,
    members: Members,
}

impl Making<'_> {
    /// The next identity that passes every ordinary slot.
    fn candidate(&mut self) -> u64 {
        loop {
            self.next += 1;
            let id = (self.base.name)(self.next);
            if self.base.passes(id) {
                return id;
            }
        }
    }

    fn take(&mut self, at: usize, id: u64) {
        assert!(!std::mem::replace(&mut self.taken[at], true), "slot {at} is taken");
        self.members.push((self.base.start + at, id));
    }

    /// The first vacancy on the special part of an identity's path.
    fn vacancy(&self, id: u64) -> Option<usize> {
        (0..self.base.probes)
            .map(|probe| self.base.primary_slot(id, probe))
            .find(|&at| !self.taken[at])
            .or_else(|| self.fallback_vacancy(self.base.fallback_buckets(id)))
    }

    fn fallback_vacancy(&self, (a, b): (usize, usize)) -> Option<usize> {
        let start = |bucket| self.base.primary + bucket * self.base.width;
        (0..self.base.width)
            .flat_map(|i| [start(a) + i, start(b) + i])
            .find(|&at| !self.taken[at])
    }

    /// Takes members where `place` puts an identity, until there are so many more or none was put for long.
    fn some(&mut self, wanted: usize, place: impl Fn(&Self, u64) -> Option<usize>) {
        let most = self.members.len() + wanted;
        let mut idle = 0;
        while self.members.len() < most && idle < 10_000 {
            let id = self.candidate();
            idle += 1;
            if let Some(at) = place(self, id) {
                self.take(at, id);
                idle = 0;
            }
        }
    }

    fn honest(&mut self, wanted: usize) {
        self.some(wanted, Self::vacancy);
    }

    /// First the upper half of the primary part, each member at its first slot; then the lower half, each member's first slot one of
    /// those. Then the fallback part likewise, by buckets.
    fn pairs(&mut self) {
        let half = self.base.primary / 2;
        self.some(half * 9 / 10, |making, id| {
            let at = making.base.primary_slot(id, 0);
            (at >= half && !making.taken[at]).then_some(at)
        });
        self.some(half * 9 / 10, |making, id| {
            let (first, at) = (making.base.primary_slot(id, 0), making.base.primary_slot(id, 1));
            (first >= half && making.taken[first] && at < half && !making.taken[at]).then_some(at)
        });
        let half = self.base.buckets / 2;
        let slots = half * self.base.width * 9 / 10;
        let lower = self.base.primary + half * self.base.width;
        for is_lower in [false, true] {
            self.some(slots, |making, id| {
                if !(0..making.base.probes).all(|probe| making.taken[making.base.primary_slot(id, probe)]) {
                    return None;
                }
                let (a, b) = making.base.fallback_buckets(id);
                let at = making.fallback_vacancy((a, b))?;
                (a >= half && (b < half) == is_lower && (at < lower) == is_lower).then_some(at)
            });
        }
    }

    /// A walk over the primary slots: from each slot to one below, if there is an identity with these two as its first slots, else up.
    fn chain(&mut self) {
        let primary = self.base.primary;
        // An identity's first slot, its second, and the identity.
        let mut offers: Vec<(usize, usize, u64)> = (0..CHAIN_OFFERS * primary)
            .map(|_| {
                let id = self.candidate();
                (self.base.primary_slot(id, 0), self.base.primary_slot(id, 1), id)
            })
            .collect();
        offers.sort_unstable();
        let Some((mut at, _, id)) = offers.pop() else {
            return;
        };
        self.take(at, id);
        // Slots below come first, the highest of them before all.
        while let Some(&(_, next, id)) = offers[offers.partition_point(|offer| offer.0 < at)..]
            .iter()
            .take_while(|offer| offer.0 == at)
            .filter(|offer| !self.taken[offer.1])
            .max_by_key(|offer| (offer.1 < at, offer.1))
        {
            self.take(next, id);
            at = next;
        }
    }

    /// The last slots of the primary part, each with a member that wants it first, and then members below that find it taken. There are
    /// as few of those slots as the search for a quarter of a primary part of such members allows.
    fn fan(&mut self) {
        let primary = self.base.primary;
        let mut left = FAN_SEARCH.min(64 * (primary * primary) as u64);
        let wanted = primary / 4;
        let hubs = (wanted * primary).div_ceil(FAN_SEARCH as usize / 4).max(1);
        while self.members.len() < wanted + hubs && left > 0 {
            left -= 1;
            self.next += 1;
            let id = (self.base.name)(self.next);
            let hub = self.base.primary_slot(id, 0);
            if hub < primary - hubs || !self.base.passes(id) {
                continue;
            }
            let at = if self.taken[hub] {
                self.base.primary_slot(id, 1)
            } else {
                hub
            };
            if !self.taken[at] && (at == hub || at < primary - hubs) {
                self.take(at, id);
            }
        }
    }

    /// Members that wait for each other, or for a slot that stays vacant: while none is placed, each would be put at its first slot, and
    /// that is not where it is.
    fn stuck(&mut self, wanted: usize) {
        for at in 0..wanted {
            let id = loop {
                let id = self.candidate();
                if self.base.primary_slot(id, 0) != at {
                    break id;
                }
            };
            self.take(at, id);
        }
    }
}
