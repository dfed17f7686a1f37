//! The seven policies, each a direct comparison of two rectangles.

/// The room around a feasible start.
#[derive(Clone, Copy, Debug, PartialEq, Eq)]
pub struct Rectangle {
    pub start: u32,
    pub units: u64,
    pub opening: u32,
    pub closing: u32,
}

#[derive(Clone, Copy, Debug, PartialEq, Eq)]
pub enum Policy {
    EarliestStart,
    FewestFree,
    MostFree,
    ShortestStretch,
    LongestStretch,
    SmallestProduct,
    LargestProduct,
}

pub const ALL: [Policy; 7] = [
    Policy::EarliestStart,
    Policy::FewestFree,
    Policy::MostFree,
    Policy::ShortestStretch,
    Policy::LongestStretch,
    Policy::SmallestProduct,
    Policy::LargestProduct,
];

impl Rectangle {
    pub fn length(&self) -> u64 {
        u64::from(self.closing - self.opening)
    }

    pub fn product(&self) -> u64 {
        self.units * self.length()
    }
}

impl Policy {
    /// Whether the first rectangle is preferred to the second.
    pub fn preferred(self, a: &Rectangle, b: &Rectangle) -> bool {
        match self {
            Policy::EarliestStart => a.start < b.start,
            Policy::FewestFree => a.units < b.units,
            Policy::MostFree => a.units > b.units,
            Policy::ShortestStretch => a.length() < b.length(),
            Policy::LongestStretch => a.length() > b.length(),
            Policy::SmallestProduct => a.product() < b.product(),
            Policy::LargestProduct => a.product() > b.product(),
        }
    }
}
