//! How a run ends: with a report, with refusal 7, in the Rust's own panic, or
//! given up.

use super::watch::{NotFinite, Report, TooLong, Watch};
use super::{FitCase, Numbers, PairCase, SolveCase};
use crate::calls::Runs;
use crate::departures::{self, STEPS_PAIRED};
use crate::{loops, published};
use std::any::Any;
use std::panic::{catch_unwind, set_hook, take_hook, AssertUnwindSafe};

#[derive(Debug)]
pub enum Outcome {
    Finished(Report),
    /// Refusal 7.
    NotFinite(NotFinite),
    /// The published text extrapolates from a working set of fewer than K places.
    /// Without request 3 loops does too; document 01 has the step skipped there,
    /// which the Rust can't be made to do, so such a case has no answer.
    Panicked,
    /// It took more work than it was given.
    TooLong,
}

impl Outcome {
    /// Whether the run accepted an extrapolation.
    pub fn accepts(&self) -> bool {
        matches!(self, Outcome::Finished(report) if report.extrapolations > 0)
    }

    pub fn is_refused_for(&self, number: NotFinite) -> bool {
        matches!(self, Outcome::NotFinite(found) if *found == number)
    }
}

/// What the stand-in says where the Rust reads outside an array.
const OUTSIDE: &str = "index outside the array";

fn text(payload: &(dyn Any + Send)) -> &str {
    let text = payload.downcast_ref::<String>().map(String::as_str);
    let text = text.or(payload.downcast_ref::<&str>().copied());
    text.unwrap_or("a panic without a text")
}

/// Does what may panic without printing so.
fn silently<T>(action: impl FnOnce() -> T) -> T {
    let hook = take_hook();
    set_hook(Box::new(|_| {}));
    let result = action();
    set_hook(hook);
    result
}

/// Runs the case with so much work at most (see the watch); `run` asks the Rust,
/// with everything watched, and gives back its weights. It may panic only if it
/// wants K places and a working set may have fewer.
pub fn outcome(
    case: &FitCase,
    work: u64,
    wants_places: bool,
    run: impl FnOnce(&Watch) -> Vec<f64>,
) -> Outcome {
    let may_panic = wants_places && case.may_be_short();
    let (samples, features) = (case.targets.len(), case.design.features as usize);
    let watch = Watch::new(case.settings.iterations, samples, features, work);
    // A run that is cut short leaves nothing that is looked at afterwards.
    let caught = || catch_unwind(AssertUnwindSafe(|| run(&watch)));
    let ended = if may_panic {
        silently(caught)
    } else {
        caught()
    };
    match ended {
        Ok(weights) => Outcome::Finished(watch.report(&weights)),
        Err(payload) if payload.is::<TooLong>() => Outcome::TooLong,
        Err(payload) => match payload.downcast_ref::<NotFinite>() {
            Some(&number) => Outcome::NotFinite(number),
            None if may_panic && text(&*payload) == OUTSIDE => Outcome::Panicked,
            None => panic!("{} in {case:?}", text(&*payload)),
        },
    }
}

impl FitCase {
    /// K, where the extrapolation has an effect. Without request 3 it has none with
    /// fewer than K features, since every working set is too small for it: document
    /// 01 skips each step, and the run is that without extrapolation.
    pub fn depth_in_use(&self) -> Option<usize> {
        let skipped = !departures::holds(STEPS_PAIRED) && !self.has_places();
        let used = self.settings.extrapolate && !skipped;
        used.then_some(self.settings.depth as usize)
    }

    /// Whether p is at least K.
    pub fn has_places(&self) -> bool {
        self.settings.depth <= self.design.features
    }

    /// Whether a working set may have fewer than K places: none is smaller than the
    /// start size, but for one of all features.
    pub fn may_be_short(&self) -> bool {
        let least = self.settings.start.min(self.design.features) as usize;
        self.depth_in_use().is_some_and(|depth| least < depth)
    }

    /// Whether a step comes to a working set of fewer than K places, where the
    /// published matrix panics.
    fn panics_with(&self, numbers: Numbers) -> bool {
        let panics = |outcome| matches!(outcome, Outcome::Panicked);
        self.may_be_short()
            && (panics(published::Rust::run(self, numbers))
                || panics(loops::Rust::run(self, numbers)))
    }

    pub fn panics(&self) -> bool {
        self.refusal().is_none() && self.panics_with(Numbers::Own)
    }

    /// Whether there is an answer: always, but for a panic without request 3.
    pub fn comparable(&self) -> bool {
        departures::holds(STEPS_PAIRED) || !self.panics()
    }
}

impl PairCase {
    pub fn comparable(&self) -> bool {
        self.refusal().is_some() || self.0.fit.comparable()
    }
}

impl SolveCase {
    pub fn comparable(&self) -> bool {
        let panics = || self.0.fit.panics_with(Numbers::Handed(&self.handed()));
        departures::holds(STEPS_PAIRED) || self.refusal().is_some() || !panics()
    }
}
