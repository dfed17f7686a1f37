//! The two kinds of unit. A load and a claim are numbers of 64 bits: of a crew the mechanics, of stock the count.

#[derive(Clone, Copy, Debug, PartialEq, Eq)]
pub enum Kind {
    Crew,
    Stock,
}

/// The load of an idle minute, in both kinds.
pub const NOTHING: u64 = 0;

/// All mechanics up to the capacity: mechanic k is worth 2^(k-1).
fn everyone(capacity: u32) -> u64 {
    let mut all = 0;
    for k in 1..=capacity.min(64) {
        all |= 1 << (k - 1);
    }
    all
}

impl Kind {
    /// The largest capacity.
    pub fn most(self) -> u32 {
        match self {
            Kind::Crew => 64,
            Kind::Stock => 4095,
        }
    }

    /// One load that covers two.
    pub fn joined(self, a: u64, b: u64) -> u64 {
        match self {
            Kind::Crew => a | b,
            Kind::Stock => a.max(b),
        }
    }

    /// Whether a claim may be put on a load.
    pub fn clear(self, capacity: u32, load: u64, claim: u64) -> bool {
        match self {
            Kind::Crew => claim & load == 0 && claim & !everyone(capacity) == 0,
            Kind::Stock => u128::from(load) + u128::from(claim) <= u128::from(capacity),
        }
    }

    /// The load with the claim on it, or the load itself where the claim isn't clear of it.
    pub fn put(self, capacity: u32, load: u64, claim: u64) -> u64 {
        if !self.clear(capacity, load, claim) {
            return load;
        }
        match self {
            Kind::Crew => load | claim,
            Kind::Stock => load + claim,
        }
    }

    /// How many units a claim takes.
    pub fn size(self, claim: u64) -> u64 {
        match self {
            Kind::Crew => u64::from(claim.count_ones()),
            Kind::Stock => claim,
        }
    }

    /// How many units a load leaves.
    pub fn free(self, capacity: u32, load: u64) -> u64 {
        match self {
            Kind::Crew => u64::from((everyone(capacity) & !load).count_ones()),
            Kind::Stock => u64::from(capacity).saturating_sub(load),
        }
    }

    /// A claim of the wanted size for a load, or none where fewer units are free.
    pub fn pick(self, capacity: u32, load: u64, wanted: u32) -> Option<u64> {
        if u64::from(wanted) > self.free(capacity, load) {
            return None;
        }
        match self {
            Kind::Crew => Some(lowest(everyone(capacity) & !load, wanted)),
            Kind::Stock => Some(u64::from(wanted)),
        }
    }

    /// The kind's number in a board file.
    pub fn in_file(self) -> u32 {
        match self {
            Kind::Crew => 1,
            Kind::Stock => 2,
        }
    }
}

/// The lowest-numbered mechanics of those who are free.
fn lowest(free: u64, wanted: u32) -> u64 {
    let mut claim = 0;
    let mut taken = 0;
    for k in 1..=64 {
        let mechanic = 1u64 << (k - 1);
        if taken < wanted && free & mechanic != 0 {
            claim |= mechanic;
            taken += 1;
        }
    }
    claim
}
