//! What logs reached, so that a generator that goes shallow is noticed.

use std::collections::BTreeMap;

/// Defines an enum whose cases have names for tables, and the list of them all.
macro_rules! named {
    ($(#[$about:meta])* pub enum $type:ident { $($case:ident => $name:literal,)+ }) => {
        $(#[$about])*
        #[derive(Clone, Copy, PartialEq, Eq, Debug)]
        pub enum $type {
            $(#[doc = $name] $case,)+
        }

        impl $type {
            /// Every case.
            pub const ALL: &'static [$type] = &[$($type::$case,)+];

            /// The case in words.
            pub fn name(self) -> &'static str {
                match self {
                    $($type::$case => $name,)+
                }
            }
        }
    };
}
pub(crate) use named;

/// Something worth reaching: its group and its name.
pub type Spot = (&'static str, &'static str);

/// How often each spot was reached, and how full the desk became.
#[derive(Clone, Default, Debug)]
pub struct Reach {
    counts: BTreeMap<Spot, u64>,
    pub most_live: usize,
    pub most_active: usize,
}

impl Reach {
    /// Counts one more visit.
    pub fn note(&mut self, group: &'static str, name: &'static str) {
        *self.counts.entry((group, name)).or_default() += 1;
    }

    /// Remembers how full the desk was.
    pub fn note_desk(&mut self, live: usize, active: usize) {
        self.most_live = self.most_live.max(live);
        self.most_active = self.most_active.max(active);
    }

    /// Adds what another log reached.
    pub fn add(&mut self, other: &Reach) {
        for (&spot, count) in &other.counts {
            *self.counts.entry(spot).or_default() += count;
        }
        self.note_desk(other.most_live, other.most_active);
    }

    /// How often a spot was reached.
    pub fn count(&self, spot: Spot) -> u64 {
        self.counts.get(&spot).copied().unwrap_or(0)
    }
}
