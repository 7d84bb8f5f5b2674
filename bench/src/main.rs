//! Times the library's exports against other programs on the same inputs, in one run, and prints tables of ratios: our time over theirs. One table has
//! epochs, and our time with extrapolation over that without. That all give the same bits is asserted, but for sklearn and glmnet (others.rs), of which
//! the same tolerance is asked, and for the matrix as published.

mod alphas;
#[path = "../../large/calls.rs"]
mod calls;
#[allow(dead_code)] // What the test program asks besides.
#[path = "../../large/cases.rs"]
mod cases;
mod extrapolation;
mod fast;
#[path = "../../oracle/src/float.rs"]
mod float;
mod kernels;
mod others;
#[allow(dead_code)] // The test program's cases; their orders are timed here.
#[path = "../../large/set_cases.rs"]
mod set_cases;
mod sets;
mod steps;
mod timing;
mod walks;

use calls::Buffers;
use cases::{csc, dense, line, Case, Ending, Penalty};
use timing::{time, Row, MICROSECONDS, MILLISECONDS};

/// The buffers of a preparation and of its solves, or of a walk. Every one holds zeros before the first call, of whichever program.
pub struct Zeros {
    w: Vec<f64>,
    fit: Vec<f64>,
    indices: Vec<u32>,
    scratch: Vec<f64>,
    prepared: Vec<f64>,
}

impl Zeros {
    pub fn of(case: &Case) -> Zeros {
        let [w, fit, indices, scratch, prepared] = case.room().map(|length| length as usize);
        let zeros = |length| vec![0.0; length];
        Zeros { w: zeros(w), fit: zeros(fit), indices: vec![0; indices], scratch: zeros(scratch), prepared: zeros(prepared) }
    }

    pub fn prepare(&mut self, case: &Case) {
        assert_eq!(calls::prepare(case, &mut self.prepared), None);
    }

    pub fn solve(&mut self, case: &Case) -> Ending {
        let Zeros { w, fit, indices, scratch, prepared } = self;
        calls::solve(case, prepared, Buffers { w, fit, indices, scratch })
    }

    pub fn walk(&mut self, case: &Case, alphas: &[f64], most: usize) -> (Option<usize>, Ending) {
        let Zeros { w, fit, indices, scratch, prepared } = self;
        calls::walk(case, alphas, most, prepared, Buffers { w, fit, indices, scratch })
    }

    /// A whole fit by itself: both calls.
    pub fn pair(&mut self, case: &Case) -> Ending {
        self.prepare(case);
        self.solve(case)
    }
}

pub fn longer(case: Case) -> Case {
    case.with(|s| (s.iterations, s.epochs, s.tolerance) = (50, 1_000, 1e-6))
}

/// A dense case with its matrix handed over as CSC, every entry stored.
fn as_csc(case: &Case) -> Case {
    let (n, p) = (case.n as usize, case.p as usize);
    let values = (0..p).flat_map(|j| (0..n).map(move |i| case.values[i * p + j])).collect();
    let rows = (0..p).flat_map(|_| 0..case.n).collect();
    let starts = (0..=case.p).map(|j| j * case.n).collect();
    Case { csc: true, starts, rows, values, ..case.clone() }
}

/// That the fast Rust and the oracle's Rust end as ours does, after as many epochs.
pub fn assert_same(name: &str, ours: &Ending, quick: &Ending, stepped: &steps::Found) {
    assert_eq!(line(name, ours), line(name, quick), "the fast Rust differs");
    let Ending::Fitted { weights, counts: [_, epochs, _], .. } = ours else { panic!("{name} is refused") };
    assert!(weights.iter().zip(&stepped.weights).all(|(a, b)| a.to_bits() == b.to_bits()), "{name}: the oracle's Rust differs");
    assert_eq!(*epochs, stepped.epochs, "{name}: the oracle's Rust takes other epochs");
}

/// Ours, the oracle's Rust, the fast one: the best of three, in turn.
fn fits(name: &str, case: &Case, turns: usize, with_others: bool) {
    let (mut ours, mut stepwise, mut quick) = (f64::INFINITY, f64::INFINITY, f64::INFINITY);
    let mut inputs = steps::Inputs::of(case);
    let mut found = None;
    for _ in 0..turns {
        let mut zeros = Zeros::of(case);
        let mut ending = None;
        ours = ours.min(time(|| ending = Some(zeros.pair(case))));
        let (stepped, took) = steps::fit(case, &mut inputs);
        stepwise = stepwise.min(took.as_secs_f64());
        let mut other = None;
        quick = quick.min(time(|| other = Some(fast::fit(case))));
        let (ending, other) = (ending.expect("an ending"), other.expect("an ending"));
        assert_same(name, &ending, &other, &stepped);
        found = Some(ending);
    }
    eprintln!("{}", line(name, &found.expect("one turn at least")));
    let (sklearn, glmnet) = if with_others { others::times(case) } else { (None, None) };
    MILLISECONDS.print_row(&Row { name: name.into(), ours, others: vec![Some(stepwise), Some(quick), sklearn, glmnet] });
}

pub fn extrapolated(case: &Case, depth: u32) -> Case {
    case.clone().with(|s| (s.extrapolate, s.depth) = (true, depth))
}

/// L1 at two alphas, with extrapolation off and on.
fn family(name: &str, make: impl Fn(f64) -> Case, turns: usize) {
    for share in [0.1, 0.01] {
        let case = longer(make(share));
        fits(&format!("{name}, alpha {share}"), &case, turns, true);
        fits(&format!("{name}, alpha {share}, extrapolated"), &extrapolated(&case, 5), turns, false);
    }
}

fn main() {
    let (square, tall) = (dense(1_000, 2_000, 0.0, 0.1), dense(65_536, 256, 0.0, 0.1));
    MILLISECONDS.print_head("kernel", &["Rust of the same steps"]);
    kernels::rows(1_000, 2_000, &square.values).iter().for_each(|row| MILLISECONDS.print_row(row));
    kernels::rows(65_536, 256, &tall.values).iter().for_each(|row| MILLISECONDS.print_row(row));

    MICROSECONDS.print_head("working set", &["Rust's selection", "insertion"]);
    sets::rows().for_each(|row| MICROSECONDS.print_row(&row));

    MILLISECONDS.print_head("whole fit", &["the oracle's Rust", "fast Rust", "sklearn", "glmnet"]);
    family("dense 1,000 x 2,000", |share| dense(1_000, 2_000, 0.0, share), 5);
    let mcp = longer(square).with(|s| (s.penalty, s.second) = (Penalty::Mcp, 8.0));
    fits("dense 1,000 x 2,000, alpha 0.1, MCP", &mcp, 5, false);
    family("correlated 1,000 x 2,000", |share| dense(1_000, 2_000, 0.9, share), 3);
    family("wide 200 x 8,192", |share| dense(200, 8_192, 0.0, share), 3);
    family("tall 65,536 x 256", |share| dense(65_536, 256, 0.0, share), 3);
    fits("tall 65,536 x 256 as CSC, alpha 0.1", &as_csc(&longer(tall)), 3, false);
    family("CSC 20,000 x 5,000, 1 %", |share| csc(20_000, 5_000, 200, 0.5, share), 3);

    extrapolation::print();

    MILLISECONDS.print_head("ten alphas, prepared once", &["ten fits of fast Rust", "fast Rust prepared once", "ten pairs of ours"]);
    alphas::rows().for_each(|row| MILLISECONDS.print_row(&row));

    MILLISECONDS.print_head("a walk of 20 alphas", &["twenty pairs of ours", "twenty solves, prepared once", "fast Rust prepared once"]);
    walks::rows().for_each(|row| MILLISECONDS.print_row(&row));
}
