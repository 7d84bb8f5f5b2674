//! The self check: values that document 01 names, asked of both variants.

use crate::calls::{Designs, Leaves, Runs};
use crate::departures::{self, STEPS_PAIRED};
use crate::designs::{Design, Layout};
use crate::files::{bytes, fields, printed};
use crate::leaves::{Kind, Penalty};
use crate::random::Random;
use crate::record::Variant;
use crate::runs::{any, any_handed, by_hand, handed_by_hand, named, FitCase, Numbers, Outcome};
use crate::runs::{check_walks, NotFinite, Prepared, SolveCase, Theme, LAYOUTS};
use crate::runs::{equal_columns, erased_by_steps, one_column, two_columns, Report};
use crate::{loops, published};

fn same(what: &str, found: &[f64], expected: &[f64]) -> Result<(), String> {
    if found == expected {
        return Ok(());
    }
    Err(format!("check: {what} is {found:?}, not {expected:?}"))
}

fn check_leaves<V: Leaves>() -> Result<(), String> {
    let soft = [V::soft(1.0, 1.0), V::soft(-1.0, 1.0), V::soft(1.5, 0.5)];
    same("soft", &soft, &[0.0, 0.0, 1.0])?;

    let penalty = |kind, second| Penalty {
        kind,
        alpha: 1.0,
        second,
    };
    let mcp = penalty(Kind::Mcp, 2.0);
    let proxes = [1.0, 1.5, 2.0, 2.5, -1.5].map(|value| V::prox(&mcp, value, 1.0));
    same("MCP prox", &proxes, &[0.0, 1.0, 2.0, 2.5, -1.0])?;

    let both = V::prox(&penalty(Kind::L1PlusL2, 0.5), 2.0, 1.0);
    same("L1PlusL2 prox", &[both], &[1.0])?;

    let diagonal = V::solve(2, &[2.0, 0.0, 1.0, 0.0, 4.0, 1.0]);
    same("solution", &diagonal.unwrap_or_default(), &[0.5, 0.25])?;
    match V::solve(2, &[0.0, 1.0, 1.0, 1.0, 0.0, 1.0]) {
        None => Ok(()),
        Some(z) => Err(format!("check: rows (0,1),(1,0) give {z:?}")),
    }
}

/// The numbers of the 2 by 2 case, worked out by hand.
fn check_designs<V: Designs>() -> Result<(), String> {
    same("datafit", &[V::value(&[3.0, 1.0], &[2.0, 0.0])], &[0.5])?;

    let dense = Design::dense(2, 2, vec![2.0, 0.0, 0.0, 2.0]);
    let csc = Design::csc(2, vec![0, 1, 2], vec![0, 1], vec![2.0, 2.0]);
    for design in [dense, csc] {
        let (constants, products) = V::initialize(&design, &[3.0, 1.0]);
        same("constants", &constants, &[2.0, 2.0])?;
        same("X'y", &products, &[6.0, 2.0])?;
        let gradient = V::full_gradient(&design, &products, &[2.0, 0.0]);
        same("gradient", &gradient, &[-1.0, -1.0])?;
        let fit = V::updated_fit(&design, &[0.0, 0.0], 1.0, 0);
        same("fit", &fit, &[2.0, 0.0])?;
        let alpha_max = V::alpha_max(&design, &[3.0, 1.0]);
        same("alpha_max", &[alpha_max], &[3.0])?;
    }
    Ok(())
}

fn check_run<V: Runs>(case: &FitCase, counts: [u32; 3], point: [f64; 4]) -> Result<(), String> {
    let Outcome::Finished(report) = V::run(case, Numbers::Own) else {
        return Err("check: a run is refused".into());
    };
    let found = [report.iterations, report.epochs, report.extrapolations];
    same(
        "a run's counts",
        &found.map(f64::from),
        &counts.map(f64::from),
    )?;
    same("a run's violation", &[report.violation], &[0.0])?;
    let found = [report.weights, report.fit].concat();
    same("a run's weights and fit", &found, &point)
}

/// P8 to P10, and P4 of the working set.
fn check_runs<V: Runs>() -> Result<(), String> {
    for layout in LAYOUTS {
        for extrapolate in [false, true] {
            let [p8, p9, p10] = named(layout, extrapolate);
            check_run::<V>(&p8, [1, 11, 0], [1.0, 0.0, 2.0, 0.0])?;
            check_run::<V>(&p9, [1, 11, 0], [-1.0, 0.0, -2.0, 0.0])?;
            check_run::<V>(&p10, [0, 0, 0], [0.0; 4])?;
        }
    }
    let set = |start| {
        let set = V::working_set(&[0.0, 0.0, 5.0, 0.0], &[1.0, 3.0, 0.5, 3.0], start);
        set.into_iter().map(f64::from).collect::<Vec<_>>()
    };
    same("a working set", &set(1), &[2.0, 1.0])?;
    same("a working set", &set(3), &[2.0, 1.0, 3.0])
}

/// The listing of document 01's file.
const LISTING: &str = "status 1
violation 0000000000000000
iterations 1
epochs 11
extrapolations 0
w 0 3ff0000000000000
w 1 0000000000000000
fit 0 4000000000000000
fit 1 0000000000000000
";

fn check_file(variant: Variant) -> Result<(), String> {
    let [case, _, _] = named(LAYOUTS[0], false);
    let file = bytes(&fields(&case));
    if file.len() != 105 {
        return Err(format!("check: the file has {} bytes", file.len()));
    }
    match printed(&file, variant, u64::MAX) {
        Some(text) if text == LISTING => Ok(()),
        other => Err(format!("check: the listing is {other:?}")),
    }
}

fn same_end(one: &Outcome, other: &Outcome, whose: &str) -> Result<(), String> {
    if format!("{one:?}") == format!("{other:?}") {
        return Ok(());
    }
    Err(format!("check: {one:?} but {other:?} {whose}"))
}

/// To a run which the Rust has an answer to, our loops around its parts have the
/// same. They skip where a working set has fewer than K places: without request 3
/// the Rust panics there, and has no answer.
fn check_loops<V: Runs>(case: &FitCase, numbers: Numbers) -> Result<(), String> {
    if departures::holds(STEPS_PAIRED) && case.may_be_short() {
        return Ok(());
    }
    match V::run(case, numbers) {
        Outcome::Panicked => Ok(()),
        rust => same_end(&rust, &V::run_in_our_loops(case, numbers), "in our loops"),
    }
}

/// Where a datafit is handed its own numbers, the run ends as that in which it
/// computes them.
fn check_handing<V: Designs + Runs>(case: &FitCase) -> Result<(), String> {
    let own = Prepared::from(V::initialize(&case.design, &case.targets));
    let (single, handed) = (
        V::run(case, Numbers::Own),
        V::run(case, Numbers::Handed(&own)),
    );
    same_end(&single, &handed, "with its own numbers handed to it")
}

/// Runs built by hand, and drawn ones.
fn check_drawn<V: Designs + Runs>() -> Result<(), String> {
    let mut random = Random::new(1);
    let mut drawn = by_hand();
    drawn.extend((0..500).map(|_| {
        let (theme, layout) = (Theme::drawn(&mut random), random.pick(&LAYOUTS));
        any(theme, layout, &mut random)
    }));
    for case in &drawn {
        check_loops::<V>(case, Numbers::Own)?;
        check_handing::<V>(case)?;
    }
    let mut solves = handed_by_hand();
    solves.extend((0..500).map(|_| any_handed(random.pick(&LAYOUTS), &mut random)));
    for case in &solves {
        check_loops::<V>(&case.0.fit, Numbers::Handed(&case.handed()))?;
    }
    Ok(())
}

/// The solves built by hand are what they are meant to be: a violation that is the
/// first number which isn't finite, and a candidate of a smaller objective with an
/// entry that isn't.
fn check_by_hand<V: Runs>() -> Result<(), String> {
    let run = |case: &SolveCase| V::run(&case.0.fit, Numbers::Handed(&case.handed()));
    let runs: Vec<Outcome> = handed_by_hand().iter().map(run).collect();
    let violations = |run: &&Outcome| run.is_refused_for(NotFinite::Violation);
    let not_taken =
        |run: &&Outcome| matches!(run, Outcome::Finished(report) if report.not_taken > 0);
    // With a dense column of zeros the fit isn't finite either, nor the objective.
    let counts = [
        runs.iter().filter(violations).count(),
        runs.iter().filter(not_taken).count(),
    ];
    if counts != [2, 1] {
        return Err(format!(
            "check: of the solves by hand {counts:?} are so, not [2, 1]"
        ));
    }
    Ok(())
}

fn report_of<V: Runs>(case: &FitCase) -> Result<Report, String> {
    match V::run(case, Numbers::Own) {
        Outcome::Finished(report) => Ok(report),
        other => Err(format!("check: {case:?} ends with {other:?}")),
    }
}

/// Whether turning the second of two columns turns its weight and changes nothing
/// else. With a matrix of paired steps it is so.
fn turns<V: Runs>(layout: Layout) -> Result<bool, String> {
    let [one, mut other] = [
        report_of::<V>(&two_columns(false, layout))?,
        report_of::<V>(&two_columns(true, layout))?,
    ];
    other.weights[1] = -other.weights[1];
    Ok(format!("{one:?}") == format!("{other:?}"))
}

fn check_that(what: &str, holds: bool) -> Result<(), String> {
    let problem = || format!("check: not so: {what}");
    holds.then_some(()).ok_or_else(problem)
}

/// The matrix of loops is request 3's, and one place is enough for it; without the
/// request it is the published one, and the step is skipped.
fn check_matrix() -> Result<(), String> {
    let amended = departures::holds(STEPS_PAIRED);
    for layout in LAYOUTS {
        let loops_turns = turns::<loops::Rust>(layout)?;
        check_that("loops turns with its column", loops_turns == amended)?;
        check_that("published does not", !turns::<published::Rust>(layout)?)?;

        let three = report_of::<loops::Rust>(&equal_columns(2, 3, layout))?;
        let accepts = three.extrapolations > 0;
        check_that("two columns extrapolate with K = 3", accepts == amended)?;

        let SolveCase(given) = one_column(layout);
        let handed = one_column(layout).handed();
        let accepts = loops::Rust::run(&given.fit, Numbers::Handed(&handed)).accepts();
        check_that("one column extrapolates with K = 2", accepts == amended)?;
        let published = published::Rust::run(&given.fit, Numbers::Handed(&handed));
        let panics = matches!(published, Outcome::Panicked);
        check_that("published panics there", panics == amended)?;

        let report = report_of::<loops::Rust>(&erased_by_steps(layout))?;
        let erased = report.extrapolations > 0 && report.weights[0].is_sign_positive();
        check_that("an accepted candidate erases a sign", erased == amended)?;
    }
    Ok(())
}

pub fn check() -> Result<(), String> {
    check_leaves::<loops::Rust>()?;
    check_leaves::<published::Rust>()?;
    check_designs::<loops::Rust>()?;
    check_designs::<published::Rust>()?;
    check_runs::<loops::Rust>()?;
    check_runs::<published::Rust>()?;
    check_drawn::<loops::Rust>()?;
    check_drawn::<published::Rust>()?;
    check_by_hand::<loops::Rust>()?;
    check_by_hand::<published::Rust>()?;
    check_matrix()?;
    check_walks()?;
    check_file(Variant::Loops)?;
    check_file(Variant::Published)?;
    println!("ok");
    Ok(())
}
