//! Glue: the extrapolation's matrix of loops, whose one line `build` changes so
//! that it asks here. Published has its own, U'U.

use crate::Float;
use ndarray::Array2;
use std::sync::atomic::{AtomicBool, Ordering};

static AS_PUBLISHED: AtomicBool = AtomicBool::new(false);

/// Whether loops has the published matrix. Until it is told, it has the amended one.
pub fn as_published(yes: bool) {
    AS_PUBLISHED.store(yes, Ordering::Relaxed);
}

/// "The matrix should pair the K steps with each other": UU', where a row of U is a step.
pub fn of<F: 'static + Float>(U: &Array2<F>) -> Array2<F> {
    if AS_PUBLISHED.load(Ordering::Relaxed) {
        return U.t().dot(U);
    }
    U.dot(&U.t())
}
