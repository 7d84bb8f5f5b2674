//! The selection of a working set alone, through the export, where every weight is zero: against what Rust's library has for it, and against
//! insertion into the places ranked so far, which a heap replaces in ours. Our time includes the test of every violation.

use crate::calls;
use crate::set_cases::Order;
use crate::timing::{best_of, Row};

const FEATURES: usize = 8_192;
const SIZES: [usize; 6] = [10, 16, 40, 400, 4_096, 8_192];
const ORDERS: [Order; 5] = [Order::Random, Order::Rising, Order::Falling, Order::Equal, Order::Turned];

fn ours(violations: &[f64], weights: &[f64], size: usize, indices: &mut [u32]) {
    assert_eq!(calls::working_set(violations, weights, size, indices), Ok(size));
}

/// The first `size` of all features by falling violation, equal ones by lower index; then a sort of these.
fn by_selection(violations: &[f64], size: usize, indices: &mut [u32]) {
    let violation = |j: u32| violations[j as usize];
    let before = |a: &u32, b: &u32| violation(*b).partial_cmp(&violation(*a)).expect("no NaN").then(a.cmp(b));
    for (j, index) in indices.iter_mut().enumerate() {
        *index = j as u32;
    }
    if size < indices.len() {
        indices.select_nth_unstable_by(size, before);
    }
    indices[..size].sort_unstable_by(before);
    indices[size..].fill(0);
}

/// Carries feature j past the ranked ones; once placed, it is the one that it pushed out that goes on. What is left over of them.
fn carry_through(violations: &[f64], ranked: &mut [u32], j: u32) -> u32 {
    let (mut feature, mut placed) = (j, false);
    for here in ranked {
        placed = placed || violations[*here as usize] < violations[feature as usize];
        if placed {
            std::mem::swap(here, &mut feature);
        }
    }
    feature
}

fn by_insertion(violations: &[f64], weights: &[f64], size: usize, indices: &mut [u32]) {
    indices.fill(0);
    let mut ranked = 0;
    for j in (0..weights.len()).filter(|&j| weights[j] == 0.0) {
        let left = carry_through(violations, &mut indices[..ranked], j as u32);
        if ranked < size {
            indices[ranked] = left;
            ranked += 1;
        }
    }
}

fn row(order: Order, size: usize) -> Row {
    let (violations, weights) = (order.violations(FEATURES, size), vec![0.0; FEATURES]);
    let [mut a, mut b, mut c] = [(); 3].map(|()| vec![0; FEATURES]);
    // An insertion into thousands of places takes many milliseconds.
    let turns = if size < 1_000 { 100 } else { 10 };
    let [ours, selection, insertion] = best_of(
        turns,
        [
            &mut || ours(&violations, &weights, size, &mut a),
            &mut || by_selection(&violations, size, &mut b),
            &mut || by_insertion(&violations, &weights, size, &mut c),
        ],
    );
    assert!(a == b && a == c, "the index places differ");
    Row { name: format!("{size} of {FEATURES}, {}", order.name()), ours, others: vec![Some(selection), Some(insertion)] }
}

pub fn rows() -> impl Iterator<Item = Row> {
    SIZES.into_iter().flat_map(|size| ORDERS.into_iter().map(move |order| row(order, size)))
}
