//! Times taken in turn, and the table of their ratios.

use std::time::Instant;

/// Seconds.
pub fn time(run: impl FnOnce()) -> f64 {
    let start = Instant::now();
    run();
    start.elapsed().as_secs_f64()
}

/// The best of each, taken in turn, so that what else the machine does falls on all.
pub fn best_of<const N: usize>(turns: usize, mut runs: [&mut dyn FnMut(); N]) -> [f64; N] {
    let mut best = [f64::INFINITY; N];
    for _ in 0..turns {
        for (best, run) in best.iter_mut().zip(&mut runs) {
            *best = best.min(time(run));
        }
    }
    best
}

/// Of two.
pub fn best_of_pair(turns: usize, mut a: impl FnMut(), mut b: impl FnMut()) -> (f64, f64) {
    best_of(turns, [&mut a, &mut b]).into()
}

pub struct Row {
    pub name: String,
    pub ours: f64,
    /// What it is compared with; none where there is no such run.
    pub others: Vec<Option<f64>>,
}

/// What our times are printed in.
pub struct Unit {
    name: &'static str,
    per_second: f64,
}

pub const MILLISECONDS: Unit = Unit { name: "ms", per_second: 1e3 };
pub const MICROSECONDS: Unit = Unit { name: "µs", per_second: 1e6 };

impl Unit {
    /// A Markdown table: our time, then our time over that of each other.
    pub fn print_head(&self, title: &str, heads: &[&str]) {
        println!("\n| {title} | {} | {} |", self.name, heads.join(" | "));
        println!("|---|---|{}", "---|".repeat(heads.len()));
    }

    /// A row is printed as soon as it is known.
    pub fn print_row(&self, row: &Row) {
        let ratio = |other: &Option<f64>| other.map_or("-".into(), |other| format!("{:.2}", row.ours / other));
        let ratios: Vec<String> = row.others.iter().map(ratio).collect();
        println!("| {} | {:.2} | {} |", row.name, row.ours * self.per_second, ratios.join(" | "));
    }
}
