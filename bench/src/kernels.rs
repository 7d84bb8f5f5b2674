//! Kernels through the libraries `exports` and `kernels`, each against safe Rust of the same steps.

use crate::timing::{best_of_pair, Row};
use std::hint::black_box;

#[link(name = "exports", kind = "static")]
extern "C" {
    fn koyramutey_full_grad_dense(
        n: usize, p: usize, values: *const f64, values_len: usize, prepared: *const f64, prepared_len: usize,
        fit: *const f64, fit_len: usize, grad: *mut f64, grad_len: usize, place: *mut usize,
    ) -> u32;
}

#[link(name = "kernels", kind = "static")]
extern "C" {
    fn kernel_column_product_dense(
        n: usize, p: usize, values: *const f64, values_len: usize, column: usize, v: *const f64, v_len: usize, product: *mut f64, place: *mut usize,
    ) -> u32;
    fn kernel_column_update_dense(
        n: usize, p: usize, values: *const f64, values_len: usize, column: usize, difference: f64, fit: *mut f64, fit_len: usize, place: *mut usize,
    ) -> u32;
}

fn full_grad(n: usize, p: usize, x: &[f64], prepared: &[f64], fit: &[f64], grad: &mut [f64]) {
    let mut place = 0;
    let number = unsafe {
        koyramutey_full_grad_dense(
            n, p, x.as_ptr(), x.len(), prepared.as_ptr(), prepared.len(), fit.as_ptr(), fit.len(), grad.as_mut_ptr(), grad.len(), &mut place,
        )
    };
    assert_eq!(number, 0);
}

/// The same steps: all values are tested, then one pass row by row.
fn full_grad_in_rust(n: usize, p: usize, x: &[f64], prepared: &[f64], fit: &[f64], grad: &mut [f64]) {
    assert!(x.len() == n * p && x.iter().all(|x| x.is_finite()));
    grad[..p].fill(0.0);
    for i in 0..n {
        let (row, f) = (&x[i * p..][..p], fit[i]);
        for (g, x) in grad[..p].iter_mut().zip(row) {
            *g += x * f;
        }
    }
    for j in 0..p {
        grad[j] = (grad[j] - prepared[p + j]) / n as f64;
    }
}

fn product(n: usize, p: usize, x: &[f64], j: usize, v: &[f64]) -> f64 {
    let (mut product, mut place) = (0.0, 0);
    let number = unsafe { kernel_column_product_dense(n, p, x.as_ptr(), x.len(), j, v.as_ptr(), v.len(), &mut product, &mut place) };
    assert_eq!(number, 0);
    product
}

fn product_in_rust(n: usize, p: usize, x: &[f64], j: usize, v: &[f64]) -> f64 {
    let mut sum = 0.0;
    for k in 0..n {
        sum += x[k * p + j] * v[k];
    }
    sum
}

fn update(n: usize, p: usize, x: &[f64], j: usize, d: f64, fit: &mut [f64]) {
    let mut place = 0;
    let number = unsafe { kernel_column_update_dense(n, p, x.as_ptr(), x.len(), j, d, fit.as_mut_ptr(), fit.len(), &mut place) };
    assert_eq!(number, 0);
}

fn update_in_rust(n: usize, p: usize, x: &[f64], j: usize, d: f64, fit: &mut [f64]) {
    for k in 0..n {
        fit[k] += d * x[k * p + j];
    }
}

fn same(a: &[f64], b: &[f64]) -> bool {
    a.iter().zip(b).all(|(a, b)| a.to_bits() == b.to_bits())
}

pub fn rows(n: usize, p: usize, x: &[f64]) -> Vec<Row> {
    let prepared: Vec<f64> = (0..2 * p).map(|j| 1.0 / (j + 1) as f64).collect();
    let fit: Vec<f64> = (0..n).map(|i| (i % 17) as f64 / 8.0 - 1.0).collect();
    let (mut a, mut b) = (vec![0.0; p], vec![0.0; p]);
    let pass = best_of_pair(15, || full_grad(n, p, x, &prepared, &fit, &mut a), || full_grad_in_rust(n, p, x, &prepared, &fit, &mut b));
    assert!(same(&a, &b), "the gradients differ");

    // Every 7th column, so that each call finds its column as a solver would: not in the cache.
    let columns: Vec<usize> = (0..p).step_by(7).collect();
    let (mut c, mut d) = (vec![0.0; p], vec![0.0; p]);
    let products = best_of_pair(
        15,
        || columns.iter().for_each(|&j| c[j] = black_box(product(n, p, x, j, &fit))),
        || columns.iter().for_each(|&j| d[j] = black_box(product_in_rust(n, p, x, j, &fit))),
    );
    assert!(same(&c, &d), "the products differ");

    let (mut e, mut f) = (fit.clone(), fit.clone());
    let updates = best_of_pair(
        15,
        || columns.iter().for_each(|&j| update(n, p, x, j, 1e-3, &mut e)),
        || columns.iter().for_each(|&j| update_in_rust(n, p, x, j, 1e-3, &mut f)),
    );
    assert!(same(&e, &f), "the fits differ");
    let name = |what: &str| format!("{what}, {n} x {p}");
    vec![
        Row { name: name("gradients of all columns"), ours: pass.0, others: vec![Some(pass.1)] },
        Row { name: name("products of single columns"), ours: products.0, others: vec![Some(products.1)] },
        Row { name: name("updates by single columns"), ours: updates.0, others: vec![Some(updates.1)] },
    ]
}
