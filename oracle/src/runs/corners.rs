//! Runs that are built by hand: those that document 01 names, and corners that a
//! draw hardly ever meets.

use super::problems::of_columns;
use super::{FitCase, Given, Lent, Settings, SolveCase};
use crate::designs::Layout;
use crate::leaves::{Kind, Penalty};

pub const LAYOUTS: [Layout; 2] = [Layout::Dense, Layout::Csc];

/// A run of tolerance 0; a depth of 0 is no extrapolation.
pub struct Corner {
    pub columns: Vec<Vec<f64>>,
    pub targets: Vec<f64>,
    pub kind: Kind,
    pub alpha: f64,
    pub second: f64,
    pub start: u32,
    pub iterations: u32,
    pub epochs: u32,
    pub depth: u32,
}

impl Corner {
    pub fn case(&self, layout: Layout) -> FitCase {
        let penalty = Penalty {
            kind: self.kind,
            alpha: self.alpha,
            second: self.second,
        };
        let mut case = FitCase {
            design: of_columns(&self.columns, layout, || false),
            targets: self.targets.clone(),
            settings: Settings {
                penalty,
                tolerance: 0.0,
                start: self.start,
                iterations: self.iterations,
                epochs: self.epochs,
                extrapolate: self.depth > 0,
                depth: self.depth,
            },
            lent: Lent::default(),
        };
        case.lent = case.room();
        case
    }

    /// A solve with these constants and this X'y.
    fn handed(&self, constants: &[f64], products: &[f64], layout: Layout) -> SolveCase {
        SolveCase(Given {
            fit: self.case(layout),
            prepared: [constants, products].concat(),
        })
    }
}

/// Document 01's case: 2 on the diagonal, L1, start 1, 5 iterations, 20 epochs.
pub fn diagonal(targets: [f64; 2], alpha: f64, extrapolate: bool) -> Corner {
    Corner {
        columns: vec![vec![2.0, 0.0], vec![0.0, 2.0]],
        targets: targets.to_vec(),
        kind: Kind::L1,
        alpha,
        second: 0.0,
        start: 1,
        iterations: 5,
        epochs: 20,
        depth: extrapolate.into(),
    }
}

/// P8, P9 and P10.
pub fn named(layout: Layout, extrapolate: bool) -> [FitCase; 3] {
    let corners = [
        diagonal([3.0, 1.0], 1.0, extrapolate),
        diagonal([-3.0, -1.0], 1.0, extrapolate),
        diagonal([3.0, 1.0], 3.0, extrapolate),
    ];
    corners.map(|corner| corner.case(layout))
}

/// The outer violation is the smallest double, 0.3 of it is 0, and so is the
/// violation of the working set: the epochs go on.
fn not_below_three_tenths() -> Corner {
    Corner {
        columns: vec![vec![1.0], vec![0.5]],
        targets: vec![f64::from_bits(1)],
        kind: Kind::L1,
        alpha: 0.0,
        second: 0.0,
        start: 1,
        iterations: 1,
        epochs: 20,
        depth: 0,
    }
}

/// The first column's fit makes the second one's products infinite with both
/// signs: its gradient is NaN, which the soft threshold turns into a weight of 0.
/// The third column brings the fit back, so that no check sees it.
fn hidden_gradient(kind: Kind) -> Corner {
    Corner {
        columns: vec![
            vec![1.0, 1.0, 1.0],
            vec![4.0, -4.0, 0.0],
            vec![1.0, 1.0, -1.0],
        ],
        targets: [0.22, 0.18, 0.5].map(|part| part * f64::MAX).to_vec(),
        kind,
        alpha: 0.0,
        second: 0.0,
        start: 3,
        iterations: 1,
        epochs: 1,
        depth: 0,
    }
}

/// A column whose weight L1PlusL2 divides by infinity.
pub fn faded() -> Vec<f64> {
    vec![1.5 * 2f64.powi(-511), 0.0]
}

/// The first column's weight is -0.0 and leaves the working set; a candidate that
/// is accepted with the published matrix then writes +0.0 over it.
fn erased_sign() -> Corner {
    Corner {
        columns: vec![faded(), vec![8.0, 0.0], vec![-24.0, 8.0]],
        targets: vec![-64.0, -192.0],
        kind: Kind::L1PlusL2,
        alpha: 64.0,
        second: 0.0,
        start: 2,
        iterations: 2,
        epochs: 3,
        depth: 2,
    }
}

/// The same with a candidate that is accepted with request 3's matrix.
pub fn erased_by_steps(layout: Layout) -> FitCase {
    let corner = Corner {
        columns: vec![faded(), vec![8.0, -16.0], vec![0.0, 8.0]],
        targets: vec![-64.0, 0.0],
        alpha: 32.0,
        ..erased_sign()
    };
    corner.case(layout)
}

/// The candidate's fit is the sum of one -0.0: +0.0 where the sum starts at +0.0.
fn sum_of_negative_zero() -> Corner {
    Corner {
        columns: vec![vec![3.0, 0.0]],
        targets: vec![-59.0, 0.0],
        kind: Kind::L1,
        alpha: 1.0,
        second: 0.0,
        start: 1,
        iterations: 1,
        epochs: 2,
        depth: 1,
    }
}

/// The same with the first column alone in the working set: the second one's NaN is
/// found by the check of all features, where its violation would be +0.
fn hidden_in_check(kind: Kind) -> Corner {
    Corner {
        // MCP's gamma is above 0.
        second: 1.0,
        start: 1,
        ..hidden_gradient(kind)
    }
}

/// Further ones, from which no file is drawn: the lists of files stay as they are.
pub fn further_by_hand() -> Vec<FitCase> {
    let kinds = [Kind::L1, Kind::L1PlusL2, Kind::Mcp];
    let case = |layout| kinds.map(|kind| hidden_in_check(kind).case(layout));
    LAYOUTS.map(case).concat()
}

/// All of them, in both layouts.
pub fn by_hand() -> Vec<FitCase> {
    let corners = [
        not_below_three_tenths(),
        hidden_gradient(Kind::L1),
        hidden_gradient(Kind::L1PlusL2),
        erased_sign(),
        sum_of_negative_zero(),
    ];
    let mut cases = Vec::new();
    for layout in LAYOUTS {
        cases.extend(named(layout, false));
        cases.extend(named(layout, true));
        cases.extend(corners.iter().map(|corner| corner.case(layout)));
    }
    cases
}

/// Two columns with K = 2: the step ends at the solution, (1.5, -0.5). The published
/// matrix, which pairs the columns, has a worse point. With the second column turned
/// the weight turns and all else is the same; by the published matrix it isn't.
pub fn two_columns(turned: bool, layout: Layout) -> FitCase {
    let sign = if turned { -1.0 } else { 1.0 };
    let corner = Corner {
        columns: vec![vec![1.0, 0.0], vec![sign, 2.0 * sign]],
        targets: vec![1.0, -1.0],
        kind: Kind::L1,
        alpha: 0.0,
        second: 0.0,
        start: 2,
        iterations: 1,
        epochs: 3,
        depth: 2,
    };
    corner.case(layout)
}

/// Equal columns of one sample, as many as there are places. Two of them accept the
/// step with K = 2 and with K = 3; one is at its end before.
pub fn equal_columns(places: usize, depth: u32, layout: Layout) -> FitCase {
    let corner = Corner {
        columns: vec![vec![1.0]; places],
        targets: vec![2.0],
        kind: Kind::L1PlusL2,
        alpha: 1.0,
        second: 0.5,
        start: places as u32,
        iterations: 1,
        epochs: depth + 1,
        depth,
    };
    corner.case(layout)
}

/// One place with K = 2. The constant is too large, so that the weight crawls to
/// 1.375 by equal parts of what is left; the step is there at once.
pub fn one_column(layout: Layout) -> SolveCase {
    let corner = Corner {
        columns: vec![vec![2.0]],
        targets: vec![3.0],
        kind: Kind::L1,
        alpha: 0.5,
        second: 0.0,
        start: 1,
        iterations: 1,
        epochs: 3,
        depth: 2,
    };
    corner.handed(&[5.0], &[6.0], layout)
}

/// Runs with which the list of extrapolated pairs begins, in both layouts.
pub fn extrapolated_by_hand() -> Vec<FitCase> {
    let cases = |layout| {
        let equal = [(1, 2), (2, 2), (2, 3)];
        let mut cases = equal
            .map(|(p, depth)| equal_columns(p, depth, layout))
            .to_vec();
        cases.extend([false, true].map(|turned| two_columns(turned, layout)));
        cases.push(erased_by_steps(layout));
        cases
    };
    LAYOUTS.map(cases).concat()
}

/// Constants that are too small let the second column swing past its end. The first
/// one, whose constant is large, was pushed one way before that and finds its
/// gradient near the largest double on the other: its violation is infinite, and no
/// number before it.
fn infinite_violation(layout: Layout) -> SolveCase {
    let corner = Corner {
        columns: vec![vec![4.85], vec![1.0]],
        targets: vec![0.0],
        kind: Kind::L1,
        alpha: 0.05 * f64::MAX,
        second: 0.0,
        start: 2,
        iterations: 2,
        epochs: 1,
        depth: 0,
    };
    corner.handed(&[1e10, 0.1], &[0.0, -0.065 * f64::MAX], layout)
}

/// A column of zeros with a constant that isn't: the system's one entry is the
/// smallest double, so its solution is infinite and the candidate NaN. MCP has the
/// flat piece there, and the value of the weight, which lies before it, is larger by
/// rounding. No stored entry brings the NaN into the fit, so the Rust takes it.
fn smaller_but_not_finite(layout: Layout) -> SolveCase {
    let alpha = 2f64.powi(-538);
    let corner = Corner {
        columns: vec![vec![0.0]],
        targets: vec![0.0],
        kind: Kind::Mcp,
        alpha,
        second: 4.0,
        start: 1,
        iterations: 1,
        epochs: 2,
        depth: 1,
    };
    corner.handed(&[1.0], &[2.0 * alpha], layout)
}

/// Document 01's case with its own numbers, with constants that let no column move,
/// that let it swing for ever and that let it crawl, and with X'y of other targets.
fn diagonals(layout: Layout) -> [SolveCase; 5] {
    let corner = diagonal([3.0, 1.0], 1.0, false);
    [
        ([2.0, 2.0], [6.0, 2.0]),
        ([0.0, -0.0], [6.0, 2.0]),
        ([1.0, 1.0], [6.0, 2.0]),
        ([32.0, 32.0], [6.0, 2.0]),
        ([2.0, 2.0], [-0.0, 10.0]),
    ]
    .map(|(constants, products)| corner.handed(&constants, &products, layout))
}

/// Solves with handed numbers, in both layouts.
pub fn handed_by_hand() -> Vec<SolveCase> {
    let mut cases = Vec::new();
    for layout in LAYOUTS {
        cases.extend(diagonals(layout));
        cases.extend([infinite_violation(layout), smaller_but_not_finite(layout)]);
    }
    cases
}
