//! Doubles as the Rust's numbers and back; compiled once in each variant.

use super::F;
use ndarray::{Array1, ArrayView1};

pub fn numbers(doubles: &[f64]) -> Vec<F> {
    doubles.iter().map(|&x| F::from(x)).collect()
}

pub fn array(doubles: &[f64]) -> Array1<F> {
    Array1::from_vec(numbers(doubles))
}

pub fn doubles(array: ArrayView1<F>) -> Vec<f64> {
    array.iter().map(|&x| f64::from(x)).collect()
}
