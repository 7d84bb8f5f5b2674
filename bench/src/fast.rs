//! The definition's steps in plain Rust written for speed, with the same bits: passes over all columns go row by row, a dense working set's columns
//! are copied side by side before its epochs, and the ranking is a sort of the standard library. Sound problems only; a number that is not finite
//! ends in a panic.

use crate::cases::{Case, Ending, Penalty, Settings};

/// Columns as stored, or copied.
enum Columns<'a> {
    Dense { p: usize, values: &'a [f64] },
    Csc { starts: &'a [u32], rows: &'a [u32], values: &'a [f64] },
    /// The columns of a working set, one after the other.
    Copied { n: usize, values: Vec<f64> },
}

impl Columns<'_> {
    fn of(case: &Case) -> Columns<'_> {
        if case.csc {
            Columns::Csc { starts: &case.starts, rows: &case.rows, values: &case.values }
        } else {
            Columns::Dense { p: case.p as usize, values: &case.values }
        }
    }

    fn column<'b>(starts: &[u32], rows: &'b [u32], values: &'b [f64], j: usize) -> (&'b [u32], &'b [f64]) {
        let stored = starts[j] as usize..starts[j + 1] as usize;
        (&rows[stored.clone()], &values[stored])
    }

    /// All products with v; for the squares, `v` is none.
    fn all(&self, p: usize, v: Option<&[f64]>) -> Vec<f64> {
        match self {
            Columns::Dense { values, .. } => {
                let mut sums = vec![0.0; p];
                for (i, row) in values.chunks_exact(p).enumerate() {
                    match v {
                        Some(v) => sums.iter_mut().zip(row).for_each(|(s, x)| *s += x * v[i]),
                        None => sums.iter_mut().zip(row).for_each(|(s, x)| *s += x * x),
                    }
                }
                sums
            }
            Columns::Csc { starts, rows, values } => (0..p)
                .map(|j| {
                    let (rows, values) = Columns::column(starts, rows, values, j);
                    let mut sum = 0.0;
                    match v {
                        Some(v) => rows.iter().zip(values).for_each(|(&i, x)| sum += x * v[i as usize]),
                        None => values.iter().for_each(|x| sum += x * x),
                    }
                    sum
                })
                .collect(),
            Columns::Copied { .. } => unreachable!("only working sets are copied"),
        }
    }

    fn copied(&self, n: usize, set: &[usize]) -> Option<Columns<'static>> {
        let Columns::Dense { p, values } = self else { return None };
        let mut copy = vec![0.0; n * set.len()];
        for (i, row) in values.chunks_exact(*p).enumerate() {
            for (k, &j) in set.iter().enumerate() {
                copy[k * n + i] = row[j];
            }
        }
        Some(Columns::Copied { n, values: copy })
    }

    fn dot(&self, j: usize, v: &[f64]) -> f64 {
        let mut sum = 0.0;
        match self {
            Columns::Dense { .. } => unreachable!("dense columns are copied first"),
            Columns::Copied { n, values } => values[j * n..][..*n].iter().zip(v).for_each(|(x, f)| sum += x * f),
            Columns::Csc { starts, rows, values } => {
                let (rows, values) = Columns::column(starts, rows, values, j);
                rows.iter().zip(values).for_each(|(&i, x)| sum += x * v[i as usize]);
            }
        }
        sum
    }

    fn gain(&self, j: usize, d: f64, fit: &mut [f64]) {
        match self {
            Columns::Dense { .. } => unreachable!("dense columns are copied first"),
            Columns::Copied { n, values } => fit.iter_mut().zip(&values[j * n..][..*n]).for_each(|(f, x)| *f += d * x),
            Columns::Csc { starts, rows, values } => {
                let (rows, values) = Columns::column(starts, rows, values, j);
                rows.iter().zip(values).for_each(|(&i, x)| fit[i as usize] += d * x);
            }
        }
    }
}

fn soft(x: f64, t: f64) -> f64 {
    if x > t {
        x - t
    } else if x < -t {
        x + t
    } else {
        0.0
    }
}

impl Settings {
    fn prox(&self, v: f64, step: f64) -> f64 {
        let (alpha, r) = (self.alpha, self.second);
        match self.penalty {
            Penalty::L1 => soft(v, alpha * step),
            Penalty::L1PlusL2 => soft(v, r * alpha * step) / (1.0 + step * (1.0 - r) * alpha),
            Penalty::Mcp => {
                let (tau, g) = (alpha * step, r / step);
                if v.abs() <= tau {
                    0.0
                } else if v.abs() > g * tau {
                    v
                } else {
                    v.signum() * (v.abs() - tau) / (1.0 - 1.0 / g)
                }
            }
        }
    }

    fn violation(&self, w: f64, g: f64) -> f64 {
        let (alpha, r) = (self.alpha, self.second);
        let excess = |bound: f64| if g.abs() - bound > 0.0 { g.abs() - bound } else { 0.0 };
        match self.penalty {
            Penalty::L1 if w == 0.0 => excess(alpha),
            Penalty::L1 => (-g - w.signum() * alpha).abs(),
            Penalty::L1PlusL2 if w == 0.0 => excess(alpha * r),
            Penalty::L1PlusL2 => (-g - alpha * (w.signum() * r + (1.0 - r) * w)).abs(),
            Penalty::Mcp if w == 0.0 => excess(alpha),
            Penalty::Mcp if w.abs() < alpha * r => (g + alpha * w.signum() - w / r).abs(),
            Penalty::Mcp => g.abs(),
        }
    }

    fn value(&self, w: &[f64]) -> f64 {
        let sum = |term: &dyn Fn(f64) -> f64| w.iter().fold(0.0, |s, &x| s + term(x));
        let (alpha, r) = (self.alpha, self.second);
        match self.penalty {
            Penalty::L1 => alpha * sum(&f64::abs),
            Penalty::L1PlusL2 => alpha * (r * sum(&f64::abs) + 0.5 * (1.0 - r) * sum(&|x| x * x)),
            Penalty::Mcp => sum(&|x| {
                if x.abs() < r * alpha {
                    alpha * x.abs() - x * x / (2.0 * r)
                } else {
                    r * (alpha * alpha) / 2.0
                }
            }),
        }
    }
}

/// No pivoting: zero pivots are passed over, and a zero on the final diagonal is singular.
fn eliminate(mut a: Vec<Vec<f64>>) -> Option<Vec<f64>> {
    let k = a.len();
    // Row `row` loses its place `i`; the pass upward takes the whole row, the one downward what lies from the pivot on.
    let clear = |a: &mut Vec<Vec<f64>>, i: usize, row: usize, first: usize| {
        if a[i][i] == 0.0 {
            return;
        }
        let factor = a[row][i] / a[i][i];
        for c in first..=k {
            a[row][c] -= factor * a[i][c];
        }
    };
    for i in 0..k {
        for row in i + 1..k {
            clear(&mut a, i, row, i);
        }
    }
    for i in (1..k).rev() {
        for row in (0..i).rev() {
            clear(&mut a, i, row, 0);
        }
    }
    (0..k).map(|i| if a[i][i] == 0.0 { None } else { Some(a[i][k] / a[i][i]) }).collect()
}

/// The extrapolation's system: each step with each other, summed over the places in their order, and a one behind every row. A pair is summed once.
fn paired_steps(kept: &[Vec<f64>]) -> Vec<Vec<f64>> {
    let step = |(before, after): (&Vec<f64>, &Vec<f64>)| after.iter().zip(before).map(|(a, b)| a - b).collect();
    let steps: Vec<Vec<f64>> = kept.iter().zip(&kept[1..]).map(step).collect();
    let mut system = vec![vec![1.0; steps.len() + 1]; steps.len()];
    for (a, row) in steps.iter().enumerate() {
        for (b, other) in steps[..=a].iter().enumerate() {
            let sum = row.iter().zip(other).fold(0.0, |s, (x, y)| s + x * y);
            (system[a][b], system[b][a]) = (sum, sum);
        }
    }
    system
}

/// The constants and X'y, which serve every solve of a design and its targets.
pub struct Prepared {
    constants: Vec<f64>,
    products: Vec<f64>,
}

struct Run<'a> {
    case: &'a Case,
    design: Columns<'a>,
    constants: &'a [f64],
    products: &'a [f64],
    w: Vec<f64>,
    fit: Vec<f64>,
    epochs: u64,
    accepted: u64,
}

impl Run<'_> {
    fn n(&self) -> f64 {
        f64::from(self.case.n)
    }

    fn violations(&self) -> (Vec<f64>, f64) {
        let dots = self.design.all(self.case.p as usize, Some(&self.fit));
        let of = |(j, dot): (usize, f64)| self.case.settings.violation(self.w[j], (dot - self.products[j]) / self.n());
        let violations: Vec<f64> = dots.into_iter().enumerate().map(of).collect();
        let largest = violations.iter().copied().fold(f64::NEG_INFINITY, f64::max);
        (violations, largest)
    }

    fn working_set(&self, violations: &[f64], start: usize) -> Vec<usize> {
        let p = self.w.len();
        let support = self.w.iter().filter(|&&w| w != 0.0).count();
        let size = start.max((2 * support).min(p));
        let mut others: Vec<usize> = (0..p).filter(|&j| self.w[j] == 0.0).collect();
        others.sort_by(|&a, &b| violations[b].total_cmp(&violations[a]));
        let mut set: Vec<usize> = (0..p).filter(|&j| self.w[j] != 0.0).chain(others).collect();
        set.truncate(size);
        set
    }

    /// `place(k)` is where `columns` has the set's k-th column.
    fn epoch(&mut self, set: &[usize], columns: &Columns, place: &dyn Fn(usize) -> usize) {
        for (k, &j) in set.iter().enumerate() {
            let l = self.constants[j];
            if l == 0.0 {
                continue;
            }
            let old = self.w[j];
            let g = (columns.dot(place(k), &self.fit) - self.products[j]) / self.n();
            self.w[j] = self.case.settings.prox(old - g / l, 1.0 / l);
            let d = self.w[j] - old;
            if d != 0.0 {
                columns.gain(place(k), d, &mut self.fit);
            }
        }
    }

    fn objective(&self, w: &[f64], fit: &[f64]) -> f64 {
        let errors = self.case.targets.iter().zip(fit).fold(0.0, |s, (y, f)| s + (y - f) * (y - f));
        errors / (2.0 * self.n()) + self.case.settings.value(w)
    }

    fn extrapolate(&mut self, set: &[usize], kept: &[Vec<f64>], columns: &Columns, place: &dyn Fn(usize) -> usize) {
        let k = self.case.settings.depth as usize;
        let system = paired_steps(kept);
        let Some(z) = eliminate(system) else { return };
        let total = z.iter().fold(0.0, |s, x| s + x);
        let mut w = vec![0.0; self.w.len()];
        for (place, &j) in set.iter().enumerate() {
            w[j] = (0..k).fold(0.0, |s, r| s + kept[r][place] * (z[r] / total));
        }
        let mut fit = vec![0.0; self.fit.len()];
        set.iter().enumerate().for_each(|(k, &j)| columns.gain(place(k), w[j], &mut fit));
        let finite = w.iter().chain(&fit).all(|x| x.is_finite());
        if finite && self.objective(&w, &fit) < self.objective(&self.w, &self.fit) {
            (self.w, self.fit) = (w, fit);
            self.accepted += 1;
        }
    }

    fn worst_in(&self, set: &[usize], columns: &Columns, place: &dyn Fn(usize) -> usize) -> f64 {
        let of = |(k, &j): (usize, &usize)| {
            let g = (columns.dot(place(k), &self.fit) - self.products[j]) / self.n();
            self.case.settings.violation(self.w[j], g)
        };
        set.iter().enumerate().map(of).fold(f64::NEG_INFINITY, f64::max)
    }

    fn epochs(&mut self, set: &[usize], outer: f64, columns: &Columns, place: &dyn Fn(usize) -> usize) {
        let s = self.case.settings.clone();
        let rows = s.depth as usize + 1;
        let mut kept = vec![vec![0.0; set.len()]; rows];
        for epoch in 0..s.epochs as usize {
            self.epochs += 1;
            self.epoch(set, columns, place);
            if s.extrapolate {
                kept[epoch % rows].iter_mut().zip(set).for_each(|(x, &j)| *x = self.w[j]);
                if epoch % rows == rows - 1 {
                    self.extrapolate(set, &kept, columns, place);
                }
            }
            if epoch > 0 && epoch % 10 == 0 {
                let v = self.worst_in(set, columns, place);
                if (set.len() == self.w.len() && v <= s.tolerance) || (set.len() != self.w.len() && v < 0.3 * outer) {
                    return;
                }
            }
        }
    }
}

pub fn prepare(case: &Case) -> Prepared {
    let (n, p) = (case.n as usize, case.p as usize);
    let design = Columns::of(case);
    Prepared { constants: design.all(p, None).into_iter().map(|s| s / n as f64).collect(), products: design.all(p, Some(&case.targets)) }
}

/// The largest violation at weights of whichever program. Their fit is summed anew, so its last digits may be others.
pub fn largest_violation(case: &Case, w: Vec<f64>) -> f64 {
    let (n, design, Prepared { constants, products }) = (case.n as usize, Columns::of(case), prepare(case));
    let support: Vec<usize> = (0..w.len()).filter(|&j| w[j] != 0.0).collect();
    let mut fit = vec![0.0; n];
    match design.copied(n, &support) {
        Some(columns) => support.iter().enumerate().for_each(|(k, &j)| columns.gain(k, w[j], &mut fit)),
        None => support.iter().for_each(|&j| design.gain(j, w[j], &mut fit)),
    }
    Run { case, design, constants: &constants, products: &products, w, fit, epochs: 0, accepted: 0 }.violations().1
}

/// A whole fit by itself.
pub fn fit(case: &Case) -> Ending {
    solve(case, &prepare(case))
}

pub fn solve(case: &Case, Prepared { constants, products }: &Prepared) -> Ending {
    let (n, p) = (case.n as usize, case.p as usize);
    let design = Columns::of(case);
    let mut run = Run { case, design, constants, products, w: vec![0.0; p], fit: vec![0.0; n], epochs: 0, accepted: 0 };
    let s = &case.settings;
    let start = (s.start as usize).min(p);
    let mut iterations = 0;
    let violation = loop {
        let (violations, largest) = run.violations();
        assert!(largest.is_finite(), "a number is not finite");
        if largest <= s.tolerance || iterations == u64::from(s.iterations) {
            break largest;
        }
        iterations += 1;
        let set = run.working_set(&violations, start);
        match run.design.copied(n, &set) {
            Some(columns) => run.epochs(&set, largest, &columns, &|k| k),
            None => run.epochs(&set, largest, &Columns::of(case), &|k| set[k]),
        }
    };
    let status = if violation <= s.tolerance { 1 } else { 2 };
    Ending::Fitted { status, violation, counts: [iterations, run.epochs, run.accepted], weights: run.w, fit: run.fit }
}
