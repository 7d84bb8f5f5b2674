//! What is seen of a run. The Rust gives back nothing but the weights, so its
//! design, datafit and penalty are wrapped (`calls/runs.rs`), and the wrappers
//! tell the watch what the Rust asked and what it was answered. The watch counts,
//! keeps the point (weights and fit) as it must be by now, and ends the run by
//! unwinding where a number is not finite. Whatever it takes for true is compared
//! with what the Rust shows next, so that a wrong count can't pass unseen.

use super::Prepared;
use std::cell::RefCell;
use std::panic::resume_unwind;

/// Refusal 7, by the number that is not finite. Unwinding carries it.
#[derive(Clone, Copy, Debug, PartialEq)]
pub enum NotFinite {
    Constant,
    Inverse,
    Product,
    Gradient,
    Violation,
    Weight,
    FitEntry,
}

/// Unwinding carries this where a run is given up.
pub struct TooLong;

/// What document 01 has a run report, but for the status.
#[derive(Debug)]
pub struct Report {
    pub violation: f64,
    pub iterations: u32,
    pub epochs: u32,
    pub extrapolations: u32,
    /// Candidates in all: a step whose system is singular has none.
    pub candidates: u32,
    /// Those of a smaller objective that were not taken, since one of their entries
    /// isn't finite.
    pub not_taken: u32,
    /// One for each iteration.
    pub turns: Vec<Turn>,
    pub weights: Vec<f64>,
    pub fit: Vec<f64>,
}

/// An iteration: what its working set is built of, and how many epochs it has.
#[derive(Debug)]
pub struct Turn {
    pub weights: Vec<f64>,
    pub violations: Vec<f64>,
    pub epochs: u32,
}

#[derive(Clone)]
struct Point {
    weights: Vec<f64>,
    fit: Vec<f64>,
}

/// A point that the extrapolation tries. Four values decide on it: datafit and
/// penalty at the point where the run is, then both at the candidate.
struct Candidate {
    point: Point,
    /// As the Rust has them.
    values: Vec<f64>,
}

struct Seen {
    /// So many working sets are built at most.
    iterations: u32,
    /// The work that is left: a gradient costs as much as there are samples.
    work: u64,
    /// Begun by the checks of all features, of which each but the last has built a
    /// working set.
    turns: Vec<Turn>,
    /// The largest violation of the last of them.
    violation: f64,
    /// Epochs begun.
    epochs: u32,
    /// Whether the working set was checked since this epoch began.
    set_checked: bool,
    extrapolations: u32,
    candidates: u32,
    not_taken: u32,
    /// Where the run is.
    point: Point,
    candidate: Option<Candidate>,
    /// The feature of the last gradient: a new weight is that feature's.
    feature: usize,
}

pub struct Watch(RefCell<Seen>);

fn require(finite: bool, what: NotFinite) {
    if !finite {
        // Not a panic: nothing is printed.
        resume_unwind(Box::new(what));
    }
}

pub fn all_finite(numbers: &[f64]) -> bool {
    numbers.iter().all(|x| x.is_finite())
}

/// Bit by bit: a zero of the other sign would be another point.
fn same(expected: &[f64], shown: &[f64]) -> bool {
    let bits = |numbers: &[f64]| numbers.iter().map(|x| x.to_bits()).collect::<Vec<_>>();
    bits(expected) == bits(shown)
}

impl Point {
    fn zero(samples: usize, features: usize) -> Point {
        Point {
            weights: vec![0.0; features],
            fit: vec![0.0; samples],
        }
    }

    fn is_finite(&self) -> bool {
        all_finite(&self.weights) && all_finite(&self.fit)
    }
}

impl Seen {
    /// The point whose value is asked for: of the four values that decide on a
    /// candidate the last two are the candidate's.
    fn valued(&self) -> &Point {
        match &self.candidate {
            Some(candidate) if candidate.values.len() >= 2 => &candidate.point,
            _ => &self.point,
        }
    }

    /// The values between a candidate and the decision on it are these four and
    /// no others: the Rust asks for them at once, in this order, and the value
    /// that it takes at every tenth epoch comes after the decision. So adding
    /// and comparing them as document 01 does tells how the Rust decides; the
    /// points that it shows from then on are compared with that.
    fn value(&mut self, value: f64) {
        let Some(candidate) = &mut self.candidate else {
            return;
        };
        candidate.values.push(value);
        if let [datafit, penalty, its_datafit, its_penalty] = candidate.values[..] {
            let candidate = self.candidate.take().expect("there is one");
            if its_datafit + its_penalty < datafit + penalty {
                self.decide_for(candidate.point);
            }
        }
    }

    /// Document 01 wants every entry to be finite too.
    fn decide_for(&mut self, point: Point) {
        if point.is_finite() {
            self.extrapolations += 1;
            self.point = point;
        } else {
            self.not_taken += 1;
        }
    }

    /// Whether this value is a candidate's whose entries aren't all finite.
    fn values_not_finite(&self) -> bool {
        let candidate = self.candidate.as_ref();
        candidate
            .is_some_and(|candidate| candidate.values.len() >= 2 && !candidate.point.is_finite())
    }

    /// Whether this check is that of the working set. It comes in each epoch
    /// whose number (from 0) is a positive multiple of 10, once and always, and
    /// before any check of all features; the features themselves don't tell,
    /// since the working set may be all of them.
    fn checks_set(&self) -> bool {
        let epochs = self.turns.last().map_or(0, |turn| turn.epochs);
        let epoch = epochs.saturating_sub(1);
        epoch > 0 && epoch.is_multiple_of(10) && !self.set_checked
    }
}

impl Watch {
    pub fn new(iterations: u32, samples: usize, features: usize, work: u64) -> Watch {
        Watch(RefCell::new(Seen {
            iterations,
            work,
            turns: Vec::new(),
            violation: f64::NAN,
            epochs: 0,
            set_checked: false,
            extrapolations: 0,
            candidates: 0,
            not_taken: 0,
            point: Point::zero(samples, features),
            candidate: None,
            feature: 0,
        }))
    }

    /// All columns first, whether there are iterations or not.
    pub fn initialized(&self, constants: Vec<f64>, products: Vec<f64>) {
        let prepared = Prepared {
            constants,
            products,
        };
        if let Some(number) = prepared.not_finite() {
            require(false, number);
        }
    }

    /// The Rust asks for the constants once in each epoch, at its beginning.
    pub fn epoch(&self) {
        let mut seen = self.0.borrow_mut();
        seen.epochs += 1;
        let turn = seen.turns.last_mut();
        turn.expect("a check comes first").epochs += 1;
        seen.set_checked = false;
    }

    pub fn gradient(&self, feature: usize, fit: &[f64], gradient: f64) {
        let mut seen = self.0.borrow_mut();
        assert!(same(&seen.point.fit, fit), "the gradient's fit is another");
        require(gradient.is_finite(), NotFinite::Gradient);
        seen.feature = feature;
        let cost = fit.len() as u64;
        if seen.work < cost {
            resume_unwind(Box::new(TooLong));
        }
        seen.work -= cost;
    }

    /// A visit asks for the gradient and then, at once, for the new weight.
    pub fn weight(&self, weight: f64) {
        require(weight.is_finite(), NotFinite::Weight);
        let mut seen = self.0.borrow_mut();
        let feature = seen.feature;
        seen.point.weights[feature] = weight;
    }

    /// Entries that were not changed are finite already.
    pub fn changed_fit(&self, fit: Vec<f64>) {
        require(all_finite(&fit), NotFinite::FitEntry);
        self.0.borrow_mut().point.fit = fit;
    }

    pub fn candidate(&self, weights: Vec<f64>, fit: Vec<f64>) {
        let mut seen = self.0.borrow_mut();
        seen.candidates += 1;
        seen.candidate = Some(Candidate {
            point: Point { weights, fit },
            values: Vec::new(),
        });
    }

    /// Says which value the Rust is told: of a candidate whose entries aren't all
    /// finite it is NaN, so that no objective of it is smaller. That condition is
    /// document 01's; the Rust has none.
    pub fn datafit(&self, fit: &[f64], value: f64) -> f64 {
        let mut seen = self.0.borrow_mut();
        assert!(same(&seen.valued().fit, fit), "the value's fit is another");
        let told = if seen.values_not_finite() {
            f64::NAN
        } else {
            value
        };
        seen.value(value);
        told
    }

    pub fn penalty(&self, weights: &[f64], value: f64) {
        let mut seen = self.0.borrow_mut();
        let expected = &seen.valued().weights;
        assert!(same(expected, weights), "the value's weights are others");
        seen.value(value);
    }

    /// Takes a check with its largest violation and says which largest the Rust
    /// is told. It runs with one iteration more than it may make: the check that
    /// begins it is document 01's last one, and minus infinity, which no
    /// tolerance exceeds, ends the run there.
    pub fn check(&self, weights: &[f64], violations: &[f64], largest: f64) -> f64 {
        let mut seen = self.0.borrow_mut();
        let expected = &seen.point.weights;
        assert!(same(expected, weights), "the check's weights are others");
        require(all_finite(violations), NotFinite::Violation);
        if seen.checks_set() {
            seen.set_checked = true;
            return largest;
        }
        seen.turns.push(Turn {
            weights: weights.to_vec(),
            violations: violations.to_vec(),
            epochs: 0,
        });
        seen.violation = largest;
        if seen.turns.len() > seen.iterations as usize {
            return f64::NEG_INFINITY;
        }
        largest
    }

    /// After the run, with the weights that the Rust gives back.
    pub fn report(self, weights: &[f64]) -> Report {
        let mut seen = self.0.into_inner();
        let expected = &seen.point.weights;
        assert!(same(expected, weights), "the run's weights are others");
        // The last check has built no working set.
        seen.turns.pop();
        Report {
            violation: seen.violation,
            iterations: seen.turns.len() as u32,
            epochs: seen.epochs,
            extrapolations: seen.extrapolations,
            candidates: seen.candidates,
            not_taken: seen.not_taken,
            turns: seen.turns,
            weights: seen.point.weights,
            fit: seen.point.fit,
        }
    }
}
