//! How the list of the extrapolated pairs is made, and what its header says of them.

use super::made::{self, Made};
use super::problems::{of_columns, targets, varied, Theme};
use super::rules::DEPTHS;
use super::{cases, corners, FitCase, Numbers, Outcome, PairCase, Report, Settings};
use crate::calls::{Designs, Runs};
use crate::list::Part;
use crate::loops;
use crate::random::Random;

pub const HOW: [&str; 18] = [
    "Code 20, a preparation and then a solve with the numbers that it left. None is",
    "refused, extrapolation is on in all of them, and a step is due in each: the list",
    "is about request 3's matrix. It begins with runs built by hand, in both layouts:",
    "one column with K = 2, two equal ones with K = 2 and with K = 3, two columns and",
    "the same with the second one turned, and a weight of -0.0 that an accepted",
    "candidate makes +0.0. Then every K comes as often as the others, 1 to 10. n is 1",
    "to 10; p is 1 to K in a third of the cases, else K to K + 7. Numbers are mostly",
    "columns that all but agree, else moderate ones, small integers, columns of very",
    "different size or columns with one power of two; in 30 of 100 one or two columns",
    "are made zero or get squares that vanish, so that their constants are 0. The",
    "start size is 1 to K, p, K to K + 3 or 8,192; there are 1 to 5 iterations and so",
    "many epochs that a step would be due 1 to 8 times in each; half of the tolerances",
    "are 0. Penalties, other tolerances and lent buffers are as in a list of pairs. A",
    "case is drawn until its run ends with a report and a step was due in it, about",
    "every second one until it also accepts an extrapolation. A step whose system is",
    "singular tries nothing. The published text, whose matrix is another, panics where",
    "a step is due in a working set of fewer than K places, and is counted by itself",
    "there.",
];

/// By how often they come.
const THEMES: [Theme; 10] = [
    Theme::Correlated,
    Theme::Correlated,
    Theme::Correlated,
    Theme::Correlated,
    Theme::Correlated,
    Theme::Moderate,
    Theme::Moderate,
    Theme::Integers,
    Theme::Spread,
    Theme::Exact,
];

/// One or two columns get the constant 0.
fn still(columns: &mut [Vec<f64>], random: &mut Random) {
    for _ in 0..=random.below(2) {
        let (to, zero) = (random.below(columns.len()), random.chance(50));
        columns[to].fill_with(|| match zero {
            true => random.signed(0.0),
            // Its squares vanish, but its gradient needn't.
            false => random.scaled(-560, -539),
        });
    }
}

fn set_steps(settings: &mut Settings, depth: usize, features: usize, random: &mut Random) {
    settings.extrapolate = true;
    settings.depth = depth as u32;
    let start = match random.below(4) {
        0 => 1 + random.below(depth),
        1 => features,
        2 => depth + random.below(4),
        _ => 8_192,
    };
    settings.start = start as u32;
    settings.iterations = random.pick(&[1, 1, 2, 3, 5]);
    let steps = 1 + random.below(8);
    settings.epochs = ((depth + 1) * steps + random.below(depth + 1)) as u32;
    if random.chance(50) {
        settings.tolerance = 0.0;
    }
}

fn any(depth: usize, random: &mut Random) -> FitCase {
    let (samples, theme) = (1 + random.below(10), random.pick(&THEMES));
    let features = match random.below(3) {
        0 => 1 + random.below(depth),
        _ => depth + random.below(8),
    };
    let mut columns = varied(theme, samples, features, random);
    if random.chance(30) {
        still(&mut columns, random);
    }
    let targets = targets(theme, &columns, random);
    let layout = random.pick(&corners::LAYOUTS);
    let design = of_columns(&columns, layout, || random.chance(15));
    let mut case = cases::with_settings(theme, design, targets, random);
    set_steps(&mut case.settings, depth, features, random);
    case.lent = cases::lent(case.room(), random);
    case
}

/// What a run's steps come to.
#[derive(Default)]
struct Steps {
    due: u32,
    candidates: u32,
    accepted: u32,
    /// Whether one was due in a working set of fewer than K places, in one of at
    /// least K, and in one with a column whose constant is 0.
    short: bool,
    full: bool,
    still: bool,
}

impl Steps {
    fn of(case: &FitCase, report: &Report) -> Steps {
        let (constants, _) = loops::Rust::initialize(&case.design, &case.targets);
        let start = case.settings.start.min(case.design.features) as usize;
        let mut steps = Steps {
            candidates: report.candidates,
            accepted: report.extrapolations,
            ..Steps::default()
        };
        let Some(depth) = case.depth_in_use() else {
            return steps;
        };
        for turn in &report.turns {
            let due = turn.epochs / (depth as u32 + 1);
            if due == 0 {
                continue;
            }
            let set = loops::Rust::working_set(&turn.weights, &turn.violations, start);
            steps.due += due;
            steps.short |= set.len() < depth;
            steps.full |= set.len() >= depth;
            steps.still |= set
                .iter()
                .any(|&feature| constants[feature as usize] == 0.0);
        }
        steps
    }
}

/// A run of this depth in which a step is due, and accepted where that is wanted.
fn drawn(depth: usize, accepts: bool, random: &mut Random) -> FitCase {
    loop {
        let case = any(depth, random);
        let Outcome::Finished(report) = loops::Rust::run(&case, Numbers::Own) else {
            continue;
        };
        let steps = Steps::of(&case, &report);
        if steps.due > 0 && (steps.accepted > 0 || !accepts) && case.comparable() {
            return case;
        }
    }
}

fn details(made: &[Made]) -> Vec<String> {
    let steps: Vec<Steps> = made
        .iter()
        .filter_map(|made| made.report())
        .map(|(case, report)| Steps::of(case, report))
        .collect();
    let runs = |wanted: fn(&Steps) -> bool| steps.iter().filter(|steps| wanted(steps)).count();
    let sum = |of: fn(&Steps) -> u32| steps.iter().map(of).sum::<u32>();
    let depths = DEPTHS.map(|depth| {
        let of_depth = |made: &&Made| made.settings().depth == depth;
        format!("{} of {depth}", made.iter().filter(of_depth).count())
    });
    vec![
        format!("K: {}", depths.collect::<Vec<_>>().join(", ")),
        format!(
            "a step was due in a working set of fewer than K places in {} runs, of at least K in {}",
            runs(|steps| steps.short),
            runs(|steps| steps.full),
        ),
        format!(
            "and in one that has a column of constant 0 in {} runs",
            runs(|steps| steps.still)
        ),
        format!(
            "{} runs accepted an extrapolation, {} extrapolations in all",
            runs(|steps| steps.accepted > 0),
            sum(|steps| steps.accepted),
        ),
        format!(
            "{} steps were due, {} of them with a singular system",
            sum(|steps| steps.due),
            sum(|steps| steps.due - steps.candidates),
        ),
    ]
}

pub fn part(code: u32, cases: usize, random: &mut Random) -> Part {
    let by_hand = corners::extrapolated_by_hand();
    let made = |index: usize| {
        let case = by_hand.get(index).cloned().unwrap_or_else(|| {
            let depth = 1 + index % *DEPTHS.end() as usize;
            drawn(depth, random.chance(50), random)
        });
        Made::pair(PairCase(cases::with_buffer(case, random)))
    };
    let made: Vec<Made> = (0..cases).map(made).collect();
    let details = details(&made);
    let mut part = made::part(code, made, 0);
    part.details.extend(details);
    part
}
