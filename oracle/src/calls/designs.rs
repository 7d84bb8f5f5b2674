//! The calls of designs and datafit; compiled once in each variant.

use super::glm::datafits::single_task::{Datafit, Quadratic};
use super::glm::datasets::{csc_array::CSCArray, DatasetBase, DesignMatrix};
use super::glm::utils::helpers::{compute_alpha_max, compute_alpha_max_sparse};
use super::numbers::{array, doubles, numbers};
use super::{Rust, F};
use crate::calls::Designs;
use crate::designs::{Design, Layout};
use crate::words::Word;
use ndarray::{Array1, Array2, ArrayView1};

pub fn dense(design: &Design) -> Array2<F> {
    let shape = (design.samples as usize, design.features as usize);
    Array2::from_shape_vec(shape, numbers(&design.values)).expect("n·p values")
}

/// The three arrays that a CSC design of the Rust looks into.
pub struct Arrays {
    values: Vec<F>,
    rows: Vec<i32>,
    starts: Vec<i32>,
}

impl Arrays {
    pub fn of(design: &Design) -> Arrays {
        // Rows and starts that are not refused are far below 2^31.
        let signed = |indices: &[u32]| indices.iter().map(|&index| index as i32).collect();
        Arrays {
            values: numbers(&design.values),
            rows: signed(&design.rows),
            starts: signed(&design.starts),
        }
    }

    pub fn view(&self) -> CSCArray<'_, F> {
        CSCArray::new(
            ArrayView1::from(&self.values[..]),
            ArrayView1::from(&self.rows[..]),
            ArrayView1::from(&self.starts[..]),
        )
    }
}

/// An answer that is written once and asked of the design in its layout.
macro_rules! by_layout {
    ($design:expr, $x:ident => $answer:expr) => {
        match $design.layout {
            crate::designs::Layout::Dense => {
                let $x = super::designs::dense($design);
                $answer
            }
            crate::designs::Layout::Csc => {
                let arrays = super::designs::Arrays::of($design);
                let $x = arrays.view();
                $answer
            }
        }
    };
}
pub(super) use by_layout;

/// X'y is private, but the datafit can be printed for debugging, and a double
/// that Rust prints so reads back as the same double (only NaN payloads are
/// lost).
pub fn products(datafit: &Quadratic<F>) -> Vec<f64> {
    let text = format!("{datafit:?}");
    let (_, shown) = text.split_once("Xty: ").expect("the datafit holds X'y");
    let (_, list) = shown.rsplit_once('[').expect("X'y is a list");
    let (list, _) = list.split_once(']').expect("the list ends");
    let numbers = list.split(", ").map(|number| number.parse());
    numbers.map(|number| number.expect("a double")).collect()
}

fn initialized<DM>(design: DM, targets: &[f64]) -> (Vec<f64>, Vec<f64>)
where
    DM: DesignMatrix<Elem = F>,
    Quadratic<F>: Datafit<F, DM, Array1<F>>,
{
    let mut datafit = Quadratic::<F>::new();
    datafit.initialize(&DatasetBase::new(design, array(targets)));
    let constants = Datafit::<F, DM, Array1<F>>::step_size(&datafit);
    (doubles(constants), products(&datafit))
}

/// A datafit that holds the given X'y: it is initialized on a design of ones on
/// the diagonal, with X'y as its targets, and 0 + 1·x is x. Only -0.0 becomes
/// +0.0, which no gradient shows: there X'y is taken from a sum that starts at
/// +0.0 and so never is -0.0. Gradients don't look at the constants.
pub fn datafit_with(products: &[f64]) -> Quadratic<F> {
    let features = products.len() as u32;
    let starts = (0..=features).collect();
    let rows = (0..features).collect();
    let ones = vec![1.0; products.len()];
    let arrays = Arrays::of(&Design::csc(features, starts, rows, ones));
    let mut datafit = Quadratic::new();
    datafit.initialize(&DatasetBase::new(arrays.view(), array(products)));
    datafit
}

/// Gradients and fits look at no target; they only count them.
fn without_targets<DM: DesignMatrix>(x: DM, design: &Design) -> DatasetBase<DM, Array1<F>> {
    DatasetBase::new(x, Array1::zeros(design.samples as usize))
}

impl Designs for Rust {
    fn initialize(design: &Design, targets: &[f64]) -> (Vec<f64>, Vec<f64>) {
        by_layout!(design, x => initialized(x, targets))
    }

    fn gradient(design: &Design, products: &[f64], fit: &[f64], feature: usize) -> f64 {
        let (datafit, fit) = (datafit_with(products), array(fit));
        by_layout!(design, x => {
            let dataset = without_targets(x, design);
            datafit.gradient_j(&dataset, fit.view(), feature).into()
        })
    }

    fn full_gradient(design: &Design, products: &[f64], fit: &[f64]) -> Vec<f64> {
        let (datafit, fit) = (datafit_with(products), array(fit));
        by_layout!(design, x => {
            let dataset = without_targets(x, design);
            doubles(datafit.full_grad(&dataset, fit.view()).view())
        })
    }

    /// The design is not looked at, but the Rust has the value once for each
    /// layout.
    fn value(targets: &[f64], fit: &[f64]) -> f64 {
        let samples = targets.len() as u32;
        let zeros = Design::dense(samples, 1, vec![0.0; targets.len()]);
        let nothing = Design::csc(samples, vec![0, 0], Vec::new(), Vec::new());
        let (datafit, fit) = (Quadratic::<F>::new(), array(fit));
        let [value, same] = [zeros, nothing].map(|design| {
            by_layout!(&design, x => {
                let dataset = DatasetBase::new(x, array(targets));
                f64::from(datafit.value(&dataset, fit.view()))
            })
        });
        assert!(Word::Double(value) == Word::Double(same), "layouts differ");
        value
    }

    fn updated_fit(design: &Design, fit: &[f64], difference: f64, feature: usize) -> Vec<f64> {
        let mut fit = array(fit);
        by_layout!(design, x => x.update_model_fit(&mut fit, F::from(difference), feature));
        doubles(fit.view())
    }

    fn extrapolated_fit(design: &Design, set: &[u32], weights: &[f64]) -> Vec<f64> {
        let set = Array1::from_iter(set.iter().map(|&feature| feature as usize));
        let (weights, samples) = (array(weights), design.samples as usize);
        let fit =
            by_layout!(design, x => x.compute_extrapolated_fit(set.view(), &weights, samples));
        doubles(fit.view())
    }

    fn alpha_max(design: &Design, targets: &[f64]) -> f64 {
        let targets = array(targets);
        match design.layout {
            Layout::Dense => compute_alpha_max(dense(design).view(), targets.view()).into(),
            Layout::Csc => {
                compute_alpha_max_sparse(&Arrays::of(design).view(), targets.view()).into()
            }
        }
    }
}
