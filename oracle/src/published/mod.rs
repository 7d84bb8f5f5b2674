//! The Rust as it is published, on plain doubles.

// The shared files convert numbers because the other variant must.
#![allow(clippy::useless_conversion)]

use sparseglm_published as glm;
use std::primitive::f64 as F;

/// Stands for this variant where a call is generic over the two.
pub struct Rust;

/// Whether the extrapolation panics where a working set has fewer than K places.
fn wants_places() -> bool {
    true
}

#[path = "../calls/designs.rs"]
mod designs;
#[path = "../calls/leaves.rs"]
mod leaves;
#[path = "../calls/numbers.rs"]
mod numbers;
#[path = "../calls/runs.rs"]
mod runs;
#[path = "../calls/skipping.rs"]
mod skipping;
