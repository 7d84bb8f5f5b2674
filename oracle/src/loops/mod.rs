//! The Rust with a stable sort, with sums that start at +0.0 and with the departures.

use crate::departures;
use crate::float::Loops as F;
use sparseglm_loops as glm;

/// Stands for this variant where a call is generic over the two.
pub struct Rust;

/// Whether the extrapolation panics where a working set has fewer than K places.
fn wants_places() -> bool {
    !departures::holds(departures::STEPS_PAIRED)
}

#[path = "../calls/designs.rs"]
mod designs;
#[path = "../calls/leaves.rs"]
mod leaves;
#[path = "../calls/numbers.rs"]
mod numbers;
#[path = "../calls/runs.rs"]
mod runs;
#[path = "../calls/skipping.rs"]
mod skipping;
