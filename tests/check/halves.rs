//! The two halves of the random runs, each on a processor of its own: which run is whose.

use std::collections::BTreeSet;

pub const HALVES: u64 = 2;

/// The seeds of a half's runs. The halves take turns from the first seed on, so that no run is in both.
pub fn seeds(first: u64, half: u64) -> impl Iterator<Item = u64> {
    (0..).map(move |turn: u64| first.wrapping_add(half).wrapping_add(turn.wrapping_mul(HALVES)))
}

/// The seeds that two lists share.
pub fn shared(one: &[u64], other: &[u64]) -> Vec<u64> {
    let one: BTreeSet<u64> = one.iter().copied().collect();
    other.iter().copied().filter(|seed| one.contains(seed)).collect()
}
