//! The oracle's Rust: the published text with a stable sort, sums from +0.0 and the extrapolation's matrix of document 02, asked for a whole fit, with
//! nothing watched but that epochs are counted.

use crate::cases::{Case, Penalty};
use crate::float::Loops as F;
use ndarray::{Array1, Array2, ArrayView1};
use sparseglm_loops::datafits::single_task::{Datafit, Quadratic};
use sparseglm_loops::datasets::{csc_array::CSCArray, DatasetBase, DesignMatrix};
use sparseglm_loops::estimators::matrix::as_published;
use sparseglm_loops::penalties::separable::{L1PlusL2, Penalty as Calls, L1, MCP};
use sparseglm_loops::solvers::anderson_cd::coordinate_descent;
use std::cell::Cell;
use std::time::{Duration, Instant};

/// The inputs in the Rust's own types; making them is not timed.
pub struct Inputs {
    values: Vec<F>,
    rows: Vec<i32>,
    starts: Vec<i32>,
    dense: Option<Array2<F>>,
    targets: Array1<F>,
}

fn numbers(doubles: &[f64]) -> Vec<F> {
    doubles.iter().map(|&x| F::from(x)).collect()
}

impl Inputs {
    pub fn of(case: &Case) -> Inputs {
        let signed = |indices: &[u32]| indices.iter().map(|&index| index as i32).collect();
        let shape = (case.n as usize, case.p as usize);
        let dense = (!case.csc).then(|| Array2::from_shape_vec(shape, numbers(&case.values)).expect("n·p values"));
        Inputs {
            values: if case.csc { numbers(&case.values) } else { vec![] },
            rows: signed(&case.rows),
            starts: signed(&case.starts),
            dense,
            targets: Array1::from_vec(numbers(&case.targets)),
        }
    }
}

/// The Rust's datafit. The Rust gives no report, but it asks for the step sizes once in each epoch, at its beginning.
struct Counted {
    datafit: Quadratic<F>,
    epochs: Cell<u64>,
}

impl<DM> Datafit<F, DM, Array1<F>> for Counted
where
    DM: DesignMatrix<Elem = F>,
    Quadratic<F>: Datafit<F, DM, Array1<F>>,
{
    fn initialize(&mut self, dataset: &DatasetBase<DM, Array1<F>>) {
        self.datafit.initialize(dataset);
    }

    fn value(&self, dataset: &DatasetBase<DM, Array1<F>>, fit: ArrayView1<F>) -> F {
        self.datafit.value(dataset, fit)
    }

    fn gradient_j(&self, dataset: &DatasetBase<DM, Array1<F>>, fit: ArrayView1<F>, j: usize) -> F {
        self.datafit.gradient_j(dataset, fit, j)
    }

    fn full_grad(&self, dataset: &DatasetBase<DM, Array1<F>>, fit: ArrayView1<F>) -> Array1<F> {
        self.datafit.full_grad(dataset, fit)
    }

    fn step_size(&self) -> ArrayView1<'_, F> {
        self.epochs.set(self.epochs.get() + 1);
        self.datafit.step_size()
    }
}

/// What the Rust gives back, and how many epochs it took.
pub struct Found {
    pub weights: Vec<f64>,
    pub epochs: u64,
}

fn descend<DM, P>(design: DM, penalty: &P, case: &Case, targets: Array1<F>) -> Found
where
    DM: DesignMatrix<Elem = F>,
    P: Calls<F>,
    Quadratic<F>: Datafit<F, DM, Array1<F>>,
{
    let s = &case.settings;
    let dataset = DatasetBase::new(design, targets);
    let mut counted = Counted { datafit: Quadratic::new(), epochs: Cell::new(0) };
    let weights = coordinate_descent(
        &dataset,
        &mut counted,
        penalty,
        s.start as usize,
        // The last check is the first step of one iteration more.
        s.iterations as usize + 1,
        s.epochs as usize,
        F::from(s.tolerance),
        s.depth as usize,
        s.extrapolate,
        false,
    );
    Found { weights: weights.iter().map(|&w| w.into()).collect(), epochs: counted.epochs.get() }
}

fn by_penalty<DM>(design: DM, case: &Case, targets: Array1<F>) -> Found
where
    DM: DesignMatrix<Elem = F>,
    Quadratic<F>: Datafit<F, DM, Array1<F>>,
{
    let (alpha, second) = (F::from(case.settings.alpha), F::from(case.settings.second));
    match case.settings.penalty {
        Penalty::L1 => descend(design, &L1::new(alpha), case, targets),
        Penalty::L1PlusL2 => descend(design, &L1PlusL2::new(alpha, second), case, targets),
        Penalty::Mcp => descend(design, &MCP::new(alpha, second), case, targets),
    }
}

/// The targets are copied, since the Rust takes them.
pub fn fit(case: &Case, inputs: &mut Inputs) -> (Found, Duration) {
    let targets = inputs.targets.clone();
    match inputs.dense.take() {
        Some(design) => {
            // It is taken too, and made anew afterwards.
            let start = Instant::now();
            let found = by_penalty(design, case, targets);
            let took = start.elapsed();
            *inputs = Inputs::of(case);
            (found, took)
        }
        None => {
            let view = CSCArray::new(
                ArrayView1::from(&inputs.values[..]),
                ArrayView1::from(&inputs.rows[..]),
                ArrayView1::from(&inputs.starts[..]),
            );
            let start = Instant::now();
            let found = by_penalty(view, case, targets);
            (found, start.elapsed())
        }
    }
}

/// The same with the extrapolation's matrix as published, which needs working sets of K places at least.
pub fn fit_as_published(case: &Case, inputs: &mut Inputs) -> Found {
    as_published(true);
    let (found, _) = fit(case, inputs);
    as_published(false);
    found
}
