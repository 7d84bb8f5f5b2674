//! The calls of the leaves; compiled once in each variant.

use super::glm::penalties::separable::{L1PlusL2, Penalty as PenaltyCalls, L1, MCP};
use super::glm::utils::{helpers::solve_lin_sys, prox_funcs::soft_thresholding};
use super::numbers::array;
use super::{Rust, F};
use crate::calls::Leaves;
use crate::leaves::{Kind, Penalty};
use ndarray::{Array1, Array2};

pub fn build(penalty: &Penalty) -> Box<dyn PenaltyCalls<F>> {
    let (alpha, second) = (F::from(penalty.alpha), F::from(penalty.second));
    match penalty.kind {
        Kind::L1 => Box::new(L1::new(alpha)),
        Kind::L1PlusL2 => Box::new(L1PlusL2::new(alpha, second)),
        Kind::Mcp => Box::new(MCP::new(alpha, second)),
    }
}

impl Leaves for Rust {
    fn soft(x: f64, threshold: f64) -> f64 {
        soft_thresholding(F::from(x), F::from(threshold)).into()
    }

    fn prox(penalty: &Penalty, value: f64, step: f64) -> f64 {
        build(penalty).prox(F::from(value), F::from(step)).into()
    }

    fn violation(penalty: &Penalty, weight: f64, gradient: f64) -> f64 {
        let (weight, gradient) = (array(&[weight]), array(&[gradient]));
        let set = Array1::from_vec(vec![0]);
        // The distance, not the largest: the fold would drop a NaN.
        let (distances, _) =
            build(penalty).subdiff_distance(weight.view(), gradient.view(), set.view());
        distances[0].into()
    }

    fn value(penalty: &Penalty, weights: &[f64]) -> f64 {
        build(penalty).value(array(weights).view()).into()
    }

    fn solve(size: usize, rows: &[f64]) -> Option<Vec<f64>> {
        let mut matrix = Array2::<F>::zeros((size, size));
        let mut right = Array1::<F>::zeros(size);
        for (i, row) in rows.chunks(size + 1).enumerate() {
            for j in 0..size {
                matrix[[i, j]] = F::from(row[j]);
            }
            right[i] = F::from(row[size]);
        }
        let solution = solve_lin_sys(matrix.view(), right.view()).ok()?;
        Some(solution.into_iter().map(f64::from).collect())
    }
}
