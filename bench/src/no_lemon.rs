//! What stands in for `lemon` where LEMON is not installed.

use crate::measure::Call;
use crate::network::Network;

/// Whether LEMON is there.
pub const PRESENT: bool = false;

/// Nothing to compare with.
pub fn compare(_network: &Network, _cost: i32, _flow: &[i32]) {}

/// Nothing to measure.
pub fn calls(_network: &Network) -> Vec<Call<'_>> {
    Vec::new()
}
