//! What the Rust is asked, layer by layer. Each trait is implemented in one
//! file beside this one, which both variants compile with their own `glm`
//! (the Rust) and `F` (its numbers).

use crate::designs::Design;
use crate::leaves::Penalty;
use crate::runs::{FitCase, Numbers, Outcome};

/// Soft threshold, elimination and penalties.
pub trait Leaves {
    fn soft(x: f64, threshold: f64) -> f64;
    fn prox(penalty: &Penalty, value: f64, step: f64) -> f64;
    fn violation(penalty: &Penalty, weight: f64, gradient: f64) -> f64;
    fn value(penalty: &Penalty, weights: &[f64]) -> f64;

    /// `rows` holds size + 1 numbers for each row, the right-hand side last.
    /// None where the Rust calls the system singular.
    fn solve(size: usize, rows: &[f64]) -> Option<Vec<f64>>;
}

/// Designs and the quadratic datafit. Nothing that is asked here is refused, and
/// lent buffers are cut to their room.
pub trait Designs {
    /// The Lipschitz constants and X'y.
    fn initialize(design: &Design, targets: &[f64]) -> (Vec<f64>, Vec<f64>);

    /// `products` is X'y, here and in the full gradient.
    fn gradient(design: &Design, products: &[f64], fit: &[f64], feature: usize) -> f64;
    fn full_gradient(design: &Design, products: &[f64], fit: &[f64]) -> Vec<f64>;
    fn value(targets: &[f64], fit: &[f64]) -> f64;
    fn updated_fit(design: &Design, fit: &[f64], difference: f64, feature: usize) -> Vec<f64>;
    fn extrapolated_fit(design: &Design, set: &[u32], weights: &[f64]) -> Vec<f64>;

    /// The Rust's, which drops a NaN.
    fn alpha_max(design: &Design, targets: &[f64]) -> f64;
}

/// Whole runs and the working set. What is asked here is refused with 7 at most.
pub trait Runs {
    fn run(case: &FitCase, numbers: Numbers) -> Outcome;

    /// As `run` with the datafit's own numbers, but a run of more than so much work
    /// is given up. Without request 3 the step is skipped where the Rust panics.
    fn run_within(case: &FitCase, work: u64) -> Outcome;

    /// In the loops that skip, whether the Rust would panic or not.
    fn run_in_our_loops(case: &FitCase, numbers: Numbers) -> Outcome;

    /// The features in the set, in its order.
    fn working_set(weights: &[f64], violations: &[f64], start: usize) -> Vec<u32>;
}
