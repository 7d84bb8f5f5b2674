//! The loops of the Rust's `coordinate_descent` once more, around its own parts;
//! compiled once in each variant. They are wanted without request 3 only, for the
//! runs in which the Rust panics: document 01 skips the extrapolation from a
//! working set of fewer than K places. On all other runs they do the same, which
//! `oracle check` looks at.

use super::glm::datafits::single_task::Datafit;
use super::glm::datasets::{DatasetBase, DesignMatrix};
use super::glm::penalties::separable::Penalty;
use super::glm::solvers::anderson_cd::{anderson_accel, construct_ws_from_kkt, opt_cond_violation};
use super::F;
use crate::runs::Settings;
use ndarray::{Array1, Array2};

/// The depth is K, or None where nothing is to be extrapolated.
pub fn descend<DM, DF, P>(
    dataset: &DatasetBase<DM, Array1<F>>,
    datafit: &mut DF,
    penalty: &P,
    settings: &Settings,
    depth: Option<usize>,
) -> Array1<F>
where
    DM: DesignMatrix<Elem = F>,
    DF: Datafit<F, DM, Array1<F>>,
    P: Penalty<F>,
{
    let zero = F::from(0.0);
    let tolerance = F::from(settings.tolerance);
    let features = dataset.design_matrix().n_features();
    let all = Array1::from_vec((0..features).collect::<Vec<usize>>());
    let start = features.min(settings.start as usize);
    let mut weights = Array1::<F>::zeros(features);
    let mut fit = Array1::<F>::zeros(dataset.targets().len());

    datafit.initialize(dataset);
    // One iteration more than there may be: it makes the last check.
    for _ in 0..=settings.iterations {
        let (mut violations, outer) = opt_cond_violation(
            dataset,
            weights.view(),
            fit.view(),
            all.view(),
            datafit,
            penalty,
        );
        if outer <= tolerance {
            break;
        }
        let (set, size) = construct_ws_from_kkt(&mut violations, weights.view(), start);
        let depth = depth.filter(|&depth| depth <= size);
        let places = depth.unwrap_or(1);
        let mut rows = Array2::<F>::zeros((places + 1, size));
        let mut differences = Array2::<F>::zeros((places, size));

        for epoch in 0..settings.epochs as usize {
            let constants = datafit.step_size();
            for &feature in set.iter().filter(|&&feature| constants[feature] != zero) {
                let (old, constant) = (weights[feature], constants[feature]);
                let gradient = datafit.gradient_j(dataset, fit.view(), feature);
                let new = penalty.prox(old - gradient / constant, F::from(1.0) / constant);
                weights[feature] = new;
                if new - old != zero {
                    let design = dataset.design_matrix();
                    design.update_model_fit(&mut fit, new - old, feature);
                }
            }
            if let Some(depth) = depth {
                anderson_accel(
                    dataset,
                    datafit,
                    penalty,
                    &mut rows,
                    &mut differences,
                    &mut weights,
                    &mut fit,
                    set.view(),
                    epoch,
                    depth,
                    false,
                );
            }
            if epoch == 0 || epoch % 10 != 0 {
                continue;
            }
            let (_, inner) = opt_cond_violation(
                dataset,
                weights.view(),
                fit.view(),
                set.view(),
                datafit,
                penalty,
            );
            let enough = if size == features {
                inner <= tolerance
            } else {
                inner < F::from(0.3) * outer
            };
            if enough {
                break;
            }
        }
    }
    weights
}
