//! What the published engine does with a problem file, with nothing refused before: what it prints of its own, then its weights, or that it panics.

use crate::designs::Layout;
use crate::files::problem;
use crate::leaves::Kind;
use crate::runs::FitCase;
use ndarray::{Array1, Array2, ArrayView1};
use sparseglm_published::datafits::single_task::{Datafit, Quadratic};
use sparseglm_published::datasets::{csc_array::CSCArray, DatasetBase, DesignMatrix};
use sparseglm_published::penalties::separable::{L1PlusL2, Penalty, L1, MCP};
use sparseglm_published::solvers::anderson_cd::coordinate_descent;
use std::panic::{catch_unwind, AssertUnwindSafe};

fn descend<DM, P>(design: DM, penalty: &P, case: &FitCase) -> Vec<f64>
where
    DM: DesignMatrix<Elem = f64>,
    P: Penalty<f64>,
    Quadratic<f64>: Datafit<f64, DM, Array1<f64>>,
{
    let settings = &case.settings;
    let weights = coordinate_descent(
        &DatasetBase::new(design, Array1::from_vec(case.targets.clone())),
        &mut Quadratic::new(),
        penalty,
        settings.start as usize,
        settings.iterations as usize,
        settings.epochs as usize,
        settings.tolerance,
        settings.depth as usize,
        settings.extrapolate,
        true,
    );
    weights.iter().copied().collect()
}

fn by_penalty<DM>(design: DM, case: &FitCase) -> Vec<f64>
where
    DM: DesignMatrix<Elem = f64>,
    Quadratic<f64>: Datafit<f64, DM, Array1<f64>>,
{
    let penalty = &case.settings.penalty;
    match penalty.kind {
        Kind::L1 => descend(design, &L1::new(penalty.alpha), case),
        Kind::L1PlusL2 => descend(design, &L1PlusL2::new(penalty.alpha, penalty.second), case),
        Kind::Mcp => descend(design, &MCP::new(penalty.alpha, penalty.second), case),
    }
}

fn fit(case: &FitCase) -> Vec<f64> {
    let design = &case.design;
    let signed = |indices: &[u32]| indices.iter().map(|&index| index as i32).collect::<Vec<_>>();
    match design.layout {
        Layout::Dense => {
            let shape = (design.samples as usize, design.features as usize);
            let values = Array2::from_shape_vec(shape, design.values.clone());
            by_penalty(values.expect("n·p values"), case)
        }
        Layout::Csc => {
            let (rows, starts) = (signed(&design.rows), signed(&design.starts));
            let [rows, starts] = [&rows[..], &starts[..]].map(ArrayView1::from);
            by_penalty(CSCArray::new(ArrayView1::from(&design.values[..]), rows, starts), case)
        }
    }
}

/// Answers the file on standard input. A panic prints its own line on standard error.
pub fn tile() -> Result<(), String> {
    let case = problem()?;
    match catch_unwind(AssertUnwindSafe(|| fit(&case))) {
        Ok(weights) => {
            for (j, w) in weights.iter().enumerate() {
                println!("w {j} {:016x}", w.to_bits());
            }
        }
        Err(_) => println!("panicked"),
    }
    Ok(())
}
