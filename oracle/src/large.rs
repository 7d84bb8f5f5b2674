//! Problems and working sets of full size (the repository's large/cases.rs and large/set_cases.rs, which `build` puts beside this file): a line for
//! each, as the test program over the exports prints it.

#[path = "cases.rs"]
#[allow(dead_code)] // What the test program asks besides.
mod cases;
#[path = "set_cases.rs"]
mod set_cases;

use crate::calls::Runs;
use crate::designs::{Design, Layout, Refusal};
use crate::leaves::{Kind, Penalty};
use crate::loops;
use crate::runs::{FitCase, Given, Lent, Numbers, Outcome, PairCase, SetCase, Settings, SolveCase};
use cases::{cases, line, Case, Ending};

impl From<cases::Settings> for Settings {
    fn from(settings: cases::Settings) -> Settings {
        let kind = match settings.penalty {
            cases::Penalty::L1 => Kind::L1,
            cases::Penalty::L1PlusL2 => Kind::L1PlusL2,
            cases::Penalty::Mcp => Kind::Mcp,
        };
        Settings {
            penalty: Penalty {
                kind,
                alpha: settings.alpha,
                second: settings.second,
            },
            tolerance: settings.tolerance,
            start: settings.start,
            iterations: settings.iterations,
            epochs: settings.epochs,
            extrapolate: settings.extrapolate,
            depth: settings.depth,
        }
    }
}

impl From<Case> for Given {
    fn from(case: Case) -> Given {
        let [weights, fit, indices, scratch, prepared] = case.lent;
        let fit = FitCase {
            design: Design {
                layout: if case.csc { Layout::Csc } else { Layout::Dense },
                samples: case.n,
                features: case.p,
                starts: case.starts,
                rows: case.rows,
                values: case.values,
            },
            targets: case.targets,
            settings: case.settings.into(),
            lent: Lent {
                weights,
                fit,
                indices,
                scratch,
            },
        };
        Given { fit, prepared: vec![0.0; prepared as usize] }
    }
}

fn refused((number, place): Refusal) -> Ending {
    let place = u64::from(place);
    Ending::Refused { number, place }
}

/// The preparation, then the solve with its numbers or with what they are changed to.
fn ending(case: Case) -> Ending {
    let change = case.change;
    let pair = PairCase(case.into());
    let (refusal, mut left) = pair.prepared_by::<loops::Rust>();
    if let Some(refusal) = refusal {
        return refused(refusal);
    }
    if let Some(change) = change {
        change(&mut left[..pair.0.twice_features()]);
    }
    solved(&pair.solve(left))
}

fn solved(case: &SolveCase) -> Ending {
    if let Some(refusal) = case.refusal() {
        return refused(refusal);
    }
    let fit = &case.0.fit;
    match loops::Rust::run(fit, Numbers::Handed(&case.handed())) {
        Outcome::Finished(report) => Ending::Fitted {
            status: if report.violation <= fit.settings.tolerance { 1 } else { 2 },
            violation: report.violation,
            counts: [report.iterations, report.epochs, report.extrapolations].map(u64::from),
            weights: report.weights,
            fit: report.fit,
        },
        Outcome::NotFinite(_) => Ending::Refused { number: 7, place: 0 },
        Outcome::Panicked => unreachable!("without request 3: the cases have sets of K places at least"),
        Outcome::TooLong => unreachable!("the work is not limited"),
    }
}

impl From<set_cases::Case> for SetCase {
    fn from(case: set_cases::Case) -> SetCase {
        SetCase {
            weights: case.weights,
            violations: case.violations,
            start: case.start,
            indices: vec![0; case.lent],
        }
    }
}

fn set_ending(case: &SetCase) -> set_cases::Ending {
    if let Some((number, place)) = case.refusal() {
        let place = u64::from(place);
        return set_cases::Ending::Refused { number, place };
    }
    let (size, mut indices) = case.left_by::<loops::Rust>();
    indices.truncate(case.weights.len());
    let size = size as u64;
    set_cases::Ending::Built { size, indices }
}

/// The quick ones, or all; every working set is quick.
pub fn write(quick: bool) -> Result<(), String> {
    for named in cases().into_iter().filter(|named| named.quick || !quick) {
        println!("{}", line(&named.name, &ending((named.make)())));
    }
    for (name, case) in set_cases::cases() {
        println!("{}", set_cases::line(&name, &set_ending(&case.into())));
    }
    Ok(())
}
