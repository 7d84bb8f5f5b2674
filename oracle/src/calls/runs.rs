//! Whole runs and the working set; compiled once in each variant. The Rust's
//! design, datafit and penalty are wrapped: what is asked of a wrapper is asked
//! of the Rust's own, and the watch is told.

use super::designs::{by_layout, datafit_with, products};
use super::glm::datafits::single_task::{Datafit, Quadratic};
use super::glm::datasets::{DatasetBase, DesignMatrix, DesignMatrixType};
use super::glm::penalties::separable::Penalty;
use super::glm::solvers::anderson_cd::{construct_ws_from_kkt, coordinate_descent};
use super::leaves::build;
use super::numbers::{array, doubles};
use super::skipping::descend;
use super::{wants_places, Rust, F};
use crate::calls::Runs;
use crate::departures::{self, STEPS_PAIRED};
use crate::runs::{outcome, FitCase, Numbers, Outcome, Settings, Watch};
use ndarray::{Array1, Array2, ArrayView1};

const ONE_TASK: &str = "a run of one task asks nothing about several";

struct WatchedDesign<'a, DM> {
    design: &'a DM,
    watch: &'a Watch,
}

impl<DM: DesignMatrix<Elem = F>> DesignMatrix for WatchedDesign<'_, DM> {
    type Elem = F;

    fn n_features(&self) -> usize {
        self.design.n_features()
    }

    fn matrix_type(&self) -> DesignMatrixType {
        self.design.matrix_type()
    }

    fn compute_extrapolated_fit(
        &self,
        set: ArrayView1<usize>,
        weights: &Array1<F>,
        samples: usize,
    ) -> Array1<F> {
        let fit = self.design.compute_extrapolated_fit(set, weights, samples);
        let (weights, entries) = (doubles(weights.view()), doubles(fit.view()));
        self.watch.candidate(weights, entries);
        fit
    }

    fn compute_extrapolated_fit_multi_task(
        &self,
        _: ArrayView1<usize>,
        _: &Array2<F>,
        _: usize,
        _: usize,
    ) -> Array2<F> {
        unreachable!("{ONE_TASK}")
    }

    fn update_model_fit(&self, fit: &mut Array1<F>, difference: F, feature: usize) {
        self.design.update_model_fit(fit, difference, feature);
        self.watch.changed_fit(doubles(fit.view()));
    }

    fn update_model_fit_multi_task(&self, _: &mut Array2<F>, _: ArrayView1<F>, _: usize) {
        unreachable!("{ONE_TASK}")
    }
}

/// The Rust's datafit, with its own numbers or with handed ones. It keeps its
/// constants to itself, so handed ones stand beside it.
struct NumberedDatafit {
    datafit: Quadratic<F>,
    handed: Option<Array1<F>>,
}

impl NumberedDatafit {
    /// A datafit that is handed X'y holds it from the beginning.
    fn with(numbers: Numbers) -> NumberedDatafit {
        match numbers {
            Numbers::Own => NumberedDatafit {
                datafit: Quadratic::new(),
                handed: None,
            },
            Numbers::Handed(prepared) => NumberedDatafit {
                datafit: datafit_with(&prepared.products),
                handed: Some(array(&prepared.constants)),
            },
        }
    }

    /// Handed numbers take the place of those that the datafit would compute.
    fn initialize<DM>(&mut self, dataset: &DatasetBase<DM, Array1<F>>)
    where
        DM: DesignMatrix<Elem = F>,
        Quadratic<F>: Datafit<F, DM, Array1<F>>,
    {
        if self.handed.is_none() {
            self.datafit.initialize(dataset);
        }
    }

    fn step_size<DM>(&self) -> ArrayView1<'_, F>
    where
        DM: DesignMatrix<Elem = F>,
        Quadratic<F>: Datafit<F, DM, Array1<F>>,
    {
        match &self.handed {
            Some(constants) => constants.view(),
            None => self.datafit.step_size(),
        }
    }
}

/// Asks the Rust's datafit about the design that is not wrapped.
struct WatchedDatafit<'a, DM: DesignMatrix> {
    numbered: NumberedDatafit,
    dataset: &'a DatasetBase<DM, Array1<F>>,
    watch: &'a Watch,
}

type WatchedDataset<'a, DM> = DatasetBase<WatchedDesign<'a, DM>, Array1<F>>;

impl<'a, DM> Datafit<F, WatchedDesign<'a, DM>, Array1<F>> for WatchedDatafit<'a, DM>
where
    DM: DesignMatrix<Elem = F>,
    Quadratic<F>: Datafit<F, DM, Array1<F>>,
{
    fn initialize(&mut self, _: &WatchedDataset<'a, DM>) {
        self.numbered.initialize(self.dataset);
        let constants = doubles(self.numbered.step_size::<DM>());
        let products = products(&self.numbered.datafit);
        self.watch.initialized(constants, products);
    }

    fn value(&self, _: &WatchedDataset<'a, DM>, fit: ArrayView1<F>) -> F {
        let value = self.numbered.datafit.value(self.dataset, fit);
        let told = self.watch.datafit(&doubles(fit), value.into());
        F::from(told)
    }

    fn gradient_j(&self, _: &WatchedDataset<'a, DM>, fit: ArrayView1<F>, feature: usize) -> F {
        let datafit = &self.numbered.datafit;
        let gradient = datafit.gradient_j(self.dataset, fit, feature);
        self.watch.gradient(feature, &doubles(fit), gradient.into());
        gradient
    }

    fn full_grad(&self, _: &WatchedDataset<'a, DM>, _: ArrayView1<F>) -> Array1<F> {
        unreachable!("a run asks for gradients one by one")
    }

    fn step_size(&self) -> ArrayView1<'_, F> {
        self.watch.epoch();
        self.numbered.step_size::<DM>()
    }
}

struct WatchedPenalty<'a> {
    penalty: Box<dyn Penalty<F>>,
    watch: &'a Watch,
}

impl Penalty<F> for WatchedPenalty<'_> {
    fn value(&self, weights: ArrayView1<F>) -> F {
        let value = self.penalty.value(weights);
        self.watch.penalty(&doubles(weights), value.into());
        value
    }

    fn prox(&self, value: F, step: F) -> F {
        let weight = self.penalty.prox(value, step);
        self.watch.weight(weight.into());
        weight
    }

    fn subdiff_distance(
        &self,
        weights: ArrayView1<F>,
        gradients: ArrayView1<F>,
        set: ArrayView1<usize>,
    ) -> (Array1<F>, F) {
        let (violations, largest) = self.penalty.subdiff_distance(weights, gradients, set);
        let (weights, numbers) = (doubles(weights), doubles(violations.view()));
        let told = self.watch.check(&weights, &numbers, largest.into());
        (violations, F::from(told))
    }
}

/// Whose loops are run.
#[derive(Clone, Copy)]
enum Loops {
    TheRusts,
    Ours,
}

/// The Rust's, with what our own are given.
fn coordinate_descent_of<DM, DF, P>(
    dataset: &DatasetBase<DM, Array1<F>>,
    datafit: &mut DF,
    penalty: &P,
    settings: &Settings,
    depth: Option<usize>,
) -> Array1<F>
where
    DM: DesignMatrix<Elem = F>,
    DF: Datafit<F, DM, Array1<F>>,
    P: Penalty<F>,
{
    coordinate_descent(
        dataset,
        datafit,
        penalty,
        settings.start as usize,
        // The last check is the first step of one iteration more.
        settings.iterations as usize + 1,
        settings.epochs as usize,
        F::from(settings.tolerance),
        // The Rust sizes its history by the depth even where it isn't used.
        depth.unwrap_or(1),
        depth.is_some(),
        false,
    )
}

/// The weights that the Rust gives back, or those of its parts in our loops.
fn watched_run<DM>(
    design: DM,
    case: &FitCase,
    numbers: Numbers,
    watch: &Watch,
    loops: Loops,
) -> Vec<f64>
where
    DM: DesignMatrix<Elem = F>,
    Quadratic<F>: Datafit<F, DM, Array1<F>>,
{
    let dataset = DatasetBase::new(design, array(&case.targets));
    let design = WatchedDesign {
        design: dataset.design_matrix(),
        watch,
    };
    let mut datafit = WatchedDatafit {
        numbered: NumberedDatafit::with(numbers),
        dataset: &dataset,
        watch,
    };
    let penalty = WatchedPenalty {
        penalty: build(&case.settings.penalty),
        watch,
    };
    let watched = DatasetBase::new(design, array(&case.targets));
    let run = match loops {
        Loops::TheRusts => coordinate_descent_of,
        Loops::Ours => descend,
    };
    let (settings, depth) = (&case.settings, case.depth_in_use());
    doubles(run(&watched, &mut datafit, &penalty, settings, depth).view())
}

fn watched_outcome(case: &FitCase, numbers: Numbers, work: u64, loops: Loops) -> Outcome {
    outcome(
        case,
        work,
        wants_places(),
        |watch| by_layout!(&case.design, x => watched_run(x, case, numbers, watch, loops)),
    )
}

impl Runs for Rust {
    fn run(case: &FitCase, numbers: Numbers) -> Outcome {
        watched_outcome(case, numbers, u64::MAX, Loops::TheRusts)
    }

    fn run_within(case: &FitCase, work: u64) -> Outcome {
        let run = |loops| watched_outcome(case, Numbers::Own, work, loops);
        match run(Loops::TheRusts) {
            Outcome::Panicked if !departures::holds(STEPS_PAIRED) => run(Loops::Ours),
            other => other,
        }
    }

    fn run_in_our_loops(case: &FitCase, numbers: Numbers) -> Outcome {
        watched_outcome(case, numbers, u64::MAX, Loops::Ours)
    }

    fn working_set(weights: &[f64], violations: &[f64], start: usize) -> Vec<u32> {
        // The Rust writes to the violations, so it gets a copy.
        let mut violations = array(violations);
        let (set, size) = construct_ws_from_kkt(&mut violations, array(weights).view(), start);
        assert_eq!(set.len(), size);
        set.iter().map(|&feature| feature as u32).collect()
    }
}
