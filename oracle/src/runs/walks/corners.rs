//! Walks that are built by hand. Each knows where it must end.

use super::WalkCase;
use crate::designs::Layout;
use crate::leaves::Kind;
use crate::runs::corners::{diagonal, faded, Corner, LAYOUTS};
use crate::runs::{FitCase, Given};

/// A walk with the position that must be found; None where no alpha is usable.
pub type ByHand = (WalkCase, Option<usize>);

fn walk(mut fit: FitCase, alphas: &[f64], most: u64, found: Option<usize>) -> ByHand {
    // Not looked at.
    fit.settings.penalty.alpha = f64::NAN;
    let prepared = vec![f64::NAN; 2 * fit.design.features as usize];
    let case = WalkCase {
        given: Given { fit, prepared },
        alphas: alphas.to_vec(),
        most,
    };
    (case, found)
}

/// Document 01's case. With alpha 3 and above all weights are zero; from 1 on the first
/// isn't, below 1 neither is.
fn diagonals(extrapolate: bool, layout: Layout) -> Vec<ByHand> {
    let of = |alphas: &[f64], most, found| {
        let corner = diagonal([3.0, 1.0], 0.0, extrapolate);
        walk(corner.case(layout), alphas, most, found)
    };
    let lower_half_zero = 1 << 32;
    vec![
        of(&[3.0, 1.0, 0.5], 0, Some(0)),
        of(&[1.0, 0.5], 0, None),
        of(&[1.0, 0.5], 1, Some(0)),
        of(&[0.5, 0.25], 1, None),
        of(&[0.5, 0.25], 2, Some(0)),
        of(&[0.5], lower_half_zero, Some(0)),
        of(&[f64::MAX, 1.0], u64::MAX, Some(0)),
        of(&[0.0], 2, Some(0)),
        of(&[-0.0], 2, Some(0)),
        of(&[-0.0], 1, None),
    ]
}

/// Alphas between 0.75 and 1 whose last digit counts: the first weight, about 1, has no
/// room for half of it, so that its violation isn't 0.
fn odd_alphas(count: usize) -> Vec<f64> {
    let alphas = (0..count).map(|k| (1.0 - k as f64 / 256.0).next_down());
    alphas.collect()
}

/// Status 2 with an odd alpha, tolerance 0. With 0.5, 0.25 and 0 the weights are exact.
fn rounded(layout: Layout) -> Vec<ByHand> {
    let of = |odd: usize, further: &[f64], found| {
        let corner = diagonal([3.0, 1.0], 0.0, false);
        let alphas = [&odd_alphas(odd), further].concat();
        walk(corner.case(layout), &alphas, u64::MAX, found)
    };
    vec![
        of(1, &[], None),
        of(1, &[0.5], Some(1)),
        of(1, &[0.0], Some(1)),
        of(1, &[-0.0], Some(1)),
        of(3, &[0.5, 0.25], Some(3)),
        of(63, &[0.5], Some(63)),
        of(64, &[], None),
    ]
}

/// The piece between the two borders of MCP's prox is as wide as two units of the last
/// digit. By rounding it is twice as steep as it should be, and its end overflows: the
/// fit with that alpha gives 7. With a smaller one the weight is the target.
fn overflowing(layout: Layout) -> Vec<ByHand> {
    let alpha = 1.5 * 2f64.powi(1023);
    let target = alpha.next_up().next_up();
    let of = |alphas: &[f64], most, found| {
        let corner = Corner {
            columns: vec![vec![1.0]],
            targets: vec![target],
            kind: Kind::Mcp,
            alpha: 0.0,
            second: 1.0f64.next_up(),
            start: 1,
            iterations: 2,
            epochs: 11,
            depth: 0,
        };
        walk(corner.case(layout), alphas, most, found)
    };
    vec![
        of(&[alpha], u64::MAX, None),
        of(&[alpha, 1.0], 1, Some(1)),
        of(&[alpha, 1.0], 0, None),
        of(&[alpha, 2.0, 1.0, 0.0], 1, Some(1)),
        of(&[target, alpha, 1.0], 0, Some(0)),
        of(&[1.0, 0.5], 1, Some(0)),
    ]
}

/// The preparation gives 7: a constant overflows, has no inverse, or X'y overflows.
fn unprepared(layout: Layout) -> Vec<ByHand> {
    let of = |entry: f64, target: f64| {
        let corner = Corner {
            columns: vec![vec![entry], vec![1.0]],
            targets: vec![target],
            ..diagonal([0.0, 0.0], 0.0, false)
        };
        let alphas = [f64::MAX, 1.0, 0.0];
        walk(corner.case(layout), &alphas, u64::MAX, None)
    };
    vec![of(1e200, 0.0), of(1e-155, 1.0), of(1e150, 1e160)]
}

/// A weight of -0.0 is a zero: one weight isn't.
fn negative_zero(layout: Layout) -> Vec<ByHand> {
    let of = |most, found| {
        let corner = Corner {
            columns: vec![faded(), vec![8.0, 0.0]],
            targets: vec![-64.0, 0.0],
            kind: Kind::L1PlusL2,
            start: 2,
            ..diagonal([0.0, 0.0], 0.0, false)
        };
        let mut fit = corner.case(layout);
        fit.settings.tolerance = 0.1;
        walk(fit, &[64.0, 32.0], most, found)
    };
    vec![of(1, Some(0)), of(0, None)]
}

/// All of them, in both layouts.
pub fn by_hand() -> Vec<ByHand> {
    let of = |layout| {
        [
            diagonals(false, layout),
            diagonals(true, layout),
            rounded(layout),
            overflowing(layout),
            unprepared(layout),
            negative_zero(layout),
        ]
        .concat()
    };
    LAYOUTS.map(of).concat()
}
