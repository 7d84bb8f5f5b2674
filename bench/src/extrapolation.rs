//! What extrapolation gains: the epochs of a fit with it off and with it on, those with the matrix as published, and our time with it on over our time
//! with it off.

use crate::cases::{dense, Case, Ending};
use crate::timing::best_of;
use crate::{assert_same, extrapolated, fast, longer, steps, Zeros};

const DEPTHS: [u32; 2] = [5, 10];
const SHARES: [f64; 3] = [0.1, 0.01, 0.001];
/// With few epochs nothing is extrapolated from; a tighter tolerance asks for more.
const TOLERANCES: [f64; 2] = [1e-6, 1e-10];
const TURNS: usize = 5;

/// Name, n, p, and how much columns resemble their left neighbours.
const TILES: [(&str, u32, u32, f64); 4] = [
    ("correlated 1,000 x 2,000", 1_000, 2_000, 0.9),
    ("correlated (0.99) 1,000 x 2,000", 1_000, 2_000, 0.99),
    ("wide 200 x 8,192", 200, 8_192, 0.0),
    ("wide correlated 200 x 8,192", 200, 8_192, 0.9),
];

struct Run {
    case: Case,
    zeros: Zeros,
    ending: Option<Ending>,
}

impl Run {
    fn of(case: Case) -> Run {
        Run { zeros: Zeros::of(&case), case, ending: None }
    }

    /// Epochs and accepted extrapolations. All programs must end so, and within the tolerance: epochs up to a limit would say nothing.
    fn counts(&self, name: &str, inputs: &mut steps::Inputs) -> (u64, u64) {
        let ending = self.ending.as_ref().expect("one turn at least");
        assert_same(name, ending, &fast::fit(&self.case), &steps::fit(&self.case, inputs).0);
        match ending {
            Ending::Fitted { status: 1, counts: [_, epochs, accepted], .. } => (*epochs, *accepted),
            _ => panic!("{name} does not come within its tolerance"),
        }
    }
}

/// The epochs with extrapolation off, then for each depth the four numbers with it on.
fn row(name: &str, off: Case) {
    let mut inputs = steps::Inputs::of(&off);
    let [shallow, deep] = DEPTHS.map(|depth| extrapolated(&off, depth));
    let mut runs = [off, shallow, deep].map(Run::of);
    let mut calls = runs.each_mut().map(|run| move || run.ending = Some(run.zeros.pair(&run.case)));
    let times = best_of(TURNS, calls.each_mut().map(|call| call as &mut dyn FnMut()));
    let (epochs, _) = runs[0].counts(name, &mut inputs);
    let mut cells = format!("| {name} | {epochs} |");
    for (run, time) in runs.iter().zip(times).skip(1) {
        let (epochs, accepted) = run.counts(name, &mut inputs);
        let published = steps::fit_as_published(&run.case, &mut inputs);
        let violation = fast::largest_violation(&run.case, published.weights);
        assert!(violation <= 1.001 * run.case.settings.tolerance, "{name}: the published matrix does not come within the tolerance");
        cells += &format!(" {epochs} | {accepted} | {} | {:.2} |", published.epochs, time / times[0]);
    }
    println!("{cells}");
}

pub fn print() {
    let heads = DEPTHS.map(|depth| format!(" K = {depth} | accepted | published matrix | time |"));
    println!("\n| extrapolation | epochs off |{}", heads.concat());
    println!("|---|---|{}", "---|".repeat(4 * DEPTHS.len()));
    for (name, n, p, like) in TILES {
        for share in SHARES {
            let case = longer(dense(n, p, like, share));
            for tolerance in TOLERANCES {
                let case = case.clone().with(|s| s.tolerance = tolerance);
                row(&format!("{name}, alpha {share}, tolerance {tolerance:e}"), case);
            }
        }
    }
}
