//! Made designs with their targets.

use crate::designs::{Design, Layout};
use crate::random::Random;

/// What the numbers of a design and of its targets are like.
#[derive(Clone, Copy, Debug, PartialEq)]
pub enum Theme {
    /// Exponent -2 to 2.
    Moderate,
    /// Small integers: ties, and sums that cancel exactly.
    Integers,
    /// Columns that all but agree: slow runs, which extrapolation helps.
    Correlated,
    /// One power of two in each column: exact solutions.
    Exact,
    /// A power of two of its own for each column.
    Spread,
    /// Subnormal targets.
    SmallTargets,
    /// The same in the smallest units, over exact columns: 0.3 of a violation may
    /// be another violation, or none.
    Faint,
    /// Integers with a column so small that L1PlusL2 gives it a weight of -0.0.
    Faded,
    /// Squares vanish or are subnormal.
    Tiny,
    /// Squares and products overflow, or nearly.
    Large,
    /// Targets so large that fits, gradients and weights overflow, or nearly.
    Brim,
    /// Small columns with large targets: steps overflow, or nearly.
    Far,
}

/// Those in which refusal 7 comes up.
pub const STRAINED: [Theme; 4] = [Theme::Tiny, Theme::Large, Theme::Brim, Theme::Far];

/// Themes by how often they come.
const THEMES: [Theme; 31] = [
    Theme::Moderate,
    Theme::Moderate,
    Theme::Moderate,
    Theme::Moderate,
    Theme::Moderate,
    Theme::Moderate,
    Theme::Integers,
    Theme::Integers,
    Theme::Integers,
    Theme::Integers,
    Theme::Integers,
    Theme::Correlated,
    Theme::Correlated,
    Theme::Correlated,
    Theme::Correlated,
    Theme::Correlated,
    Theme::Correlated,
    Theme::Exact,
    Theme::Exact,
    Theme::Spread,
    Theme::Spread,
    Theme::SmallTargets,
    Theme::SmallTargets,
    Theme::Faint,
    Theme::Faint,
    Theme::Faded,
    Theme::Tiny,
    Theme::Large,
    Theme::Brim,
    Theme::Far,
    Theme::Far,
];

impl Theme {
    pub fn drawn(random: &mut Random) -> Theme {
        random.pick(&THEMES)
    }

    fn entry(self, random: &mut Random) -> f64 {
        match self {
            Theme::Integers => integer(3, random),
            Theme::Faded => 8.0 * integer(3, random),
            Theme::Tiny => random.scaled(-560, -480),
            Theme::Large => random.scaled(480, 512),
            Theme::Brim => mostly_positive(random.scaled(-4, -1), random),
            Theme::Far => random.scaled(-511, -490),
            _ => random.scaled(-2, 2),
        }
    }

    fn target(self, random: &mut Random) -> f64 {
        match self {
            Theme::Integers | Theme::Exact => integer(9, random),
            Theme::Faint => integer(9, random) * f64::from_bits(1),
            Theme::Faded if random.chance(50) => 0.0,
            Theme::Faded => 64.0 * integer(9, random),
            Theme::SmallTargets => {
                // The exponent's bits stay 0.
                let subnormal = f64::from_bits(random.next() >> (12 + random.below(52)));
                random.signed(subnormal)
            }
            Theme::Tiny => random.scaled(-560, 10),
            Theme::Large => random.scaled(480, 520),
            Theme::Brim => mostly_positive(random.scaled(1021, 1023), random),
            Theme::Far => random.scaled(480, 620),
            _ => random.scaled(-2, 3),
        }
    }

    /// Whether targets may be sums of columns.
    fn plantable(self) -> bool {
        let special = [Theme::SmallTargets, Theme::Faint, Theme::Faded];
        !STRAINED.contains(&self) && !special.contains(&self)
    }
}

fn integer(most: usize, random: &mut Random) -> f64 {
    random.below(2 * most + 1) as f64 - most as f64
}

/// Numbers of one sign add up.
fn mostly_positive(x: f64, random: &mut Random) -> f64 {
    if random.chance(60) {
        x.abs()
    } else {
        x
    }
}

/// n and p: 1 to 8, now and then up to 20, or many features that often agree.
fn sizes(random: &mut Random) -> (usize, usize) {
    let (small, large) = (1 + random.below(8), 9 + random.below(12));
    match random.below(100) {
        0..=7 => (small, large),
        8..=9 => (large, small),
        10 => (9 + random.below(12), large),
        11 => (1 + random.below(3), MANY + random.below(10)),
        12..=14 => (1, small),
        15..=17 => (small, 1),
        _ => (1 + random.below(8), small),
    }
}

/// From so many features on, `sort_unstable_by` no longer keeps the order of
/// equal ones.
const MANY: usize = 21;

fn column(theme: Theme, index: usize, n: usize, random: &mut Random) -> Vec<f64> {
    let mut column: Vec<f64> = (0..n).map(|_| theme.entry(random)).collect();
    match theme {
        Theme::Exact | Theme::Faint => {
            column.fill(0.0);
            column[index % n] = random.pick(&[1.0, -1.0, 2.0, 2.0, 0.5, 4.0]);
        }
        Theme::Spread => {
            let scale = 2f64.powi(random.below(41) as i32 - 20);
            column.iter_mut().for_each(|entry| *entry *= scale);
        }
        _ => {}
    }
    column
}

/// Every column is the first one with a little added.
fn correlated(n: usize, p: usize, random: &mut Random) -> Vec<Vec<f64>> {
    let shared = column(Theme::Moderate, 0, n, random);
    let little = 2f64.powi(-1 - random.below(5) as i32);
    let near = |random: &mut Random| {
        let with = |&entry: &f64| entry + little * random.scaled(-2, 0);
        shared.iter().map(with).collect()
    };
    (0..p).map(|_| near(random)).collect()
}

/// Copies of three columns, with either sign.
pub fn repeated(n: usize, p: usize, random: &mut Random) -> Vec<Vec<f64>> {
    let few: Vec<_> = (0..3)
        .map(|index| column(Theme::Integers, index, n, random))
        .collect();
    let copy = |random: &mut Random| {
        let (from, sign) = (random.below(3), random.signed(1.0));
        few[from].iter().map(|entry| entry * sign).collect()
    };
    (0..p).map(|_| copy(random)).collect()
}

/// Makes one column a copy of another, with a factor, or a column of no account.
fn bend(columns: &mut [Vec<f64>], random: &mut Random) {
    let (from, to) = (random.below(columns.len()), random.below(columns.len()));
    let factor = random.pick(&[1.0, 1.0, 1.0, -1.0, 2.0, -0.5]);
    let kind = random.below(6);
    for i in 0..columns[to].len() {
        columns[to][i] = match kind {
            0..=3 => columns[from][i] * factor,
            4 => random.signed(0.0),
            // Its squares vanish, but its gradient needn't.
            _ => random.scaled(-560, -539),
        };
    }
}

/// No column reaches the row: its fit stays +0.0.
fn empty_row(columns: &mut [Vec<f64>], random: &mut Random) {
    let row = random.below(columns[0].len());
    for column in columns {
        column[row] = random.signed(0.0);
    }
}

fn strew_zeros(columns: &mut [Vec<f64>], random: &mut Random) {
    for entry in columns.iter_mut().flatten() {
        if random.chance(40) {
            *entry = random.signed(0.0);
        }
    }
}

fn columns(theme: Theme, n: usize, p: usize, random: &mut Random) -> Vec<Vec<f64>> {
    if p >= MANY {
        return repeated(n, p, random);
    }
    varied(theme, n, p, random)
}

pub fn varied(theme: Theme, n: usize, p: usize, random: &mut Random) -> Vec<Vec<f64>> {
    let mut columns = match theme {
        Theme::Correlated => correlated(n, p, random),
        _ => (0..p).map(|j| column(theme, j, n, random)).collect(),
    };
    if theme == Theme::Faded {
        let faded = random.below(p);
        columns[faded].fill_with(|| random.scaled(-511, -511));
    }
    if random.chance(25) {
        strew_zeros(&mut columns, random);
    }
    if random.chance(15) {
        empty_row(&mut columns, random);
    }
    if random.chance(35) {
        (0..=random.below(2)).for_each(|_| bend(&mut columns, random));
    }
    columns
}

/// Integer multiples of a few columns, mostly with something added.
fn planted(theme: Theme, columns: &[Vec<f64>], random: &mut Random) -> Vec<f64> {
    let mut targets = vec![0.0; columns[0].len()];
    for column in columns {
        let weight = if random.chance(50) {
            integer(3, random)
        } else {
            0.0
        };
        let pairs = targets.iter_mut().zip(column);
        pairs.for_each(|(target, entry)| *target += weight * entry);
    }
    if random.chance(60) {
        let scale = random.pick(&[1.0, 0.25, 0.0625]);
        let noise = |target: &mut f64| *target += scale * theme.target(random);
        targets.iter_mut().for_each(noise);
    }
    targets
}

pub fn targets(theme: Theme, columns: &[Vec<f64>], random: &mut Random) -> Vec<f64> {
    if theme.plantable() && random.chance(50) {
        return planted(theme, columns, random);
    }
    let count = columns[0].len();
    (0..count).map(|_| theme.target(random)).collect()
}

fn dense(columns: &[Vec<f64>]) -> Design {
    let (n, p) = (columns[0].len(), columns.len());
    let row = |i: usize| columns.iter().map(move |column| column[i]);
    Design::dense(n as u32, p as u32, (0..n).flat_map(row).collect())
}

/// Zeros are stored where `keeps` says so.
fn csc(columns: &[Vec<f64>], mut keeps: impl FnMut() -> bool) -> Design {
    let (mut starts, mut rows, mut values) = (vec![0], Vec::new(), Vec::new());
    for column in columns {
        for (row, &entry) in column.iter().enumerate() {
            if entry != 0.0 || keeps() {
                rows.push(row as u32);
                values.push(entry);
            }
        }
        starts.push(values.len() as u32);
    }
    Design::csc(columns[0].len() as u32, starts, rows, values)
}

pub fn of_columns(columns: &[Vec<f64>], layout: Layout, keeps: impl FnMut() -> bool) -> Design {
    match layout {
        Layout::Dense => dense(columns),
        Layout::Csc => csc(columns, keeps),
    }
}

pub fn problem(theme: Theme, layout: Layout, random: &mut Random) -> (Design, Vec<f64>) {
    changed(theme, layout, |_, _| {}, random)
}

/// A problem whose columns are changed before it is made of them.
pub fn changed(
    theme: Theme,
    layout: Layout,
    change: impl Fn(&mut [Vec<f64>], &mut Random),
    random: &mut Random,
) -> (Design, Vec<f64>) {
    let sizes = sizes(random);
    sized(theme, sizes, layout, change, random)
}

/// A problem of n samples and p features.
pub fn sized(
    theme: Theme,
    (n, p): (usize, usize),
    layout: Layout,
    change: impl Fn(&mut [Vec<f64>], &mut Random),
    random: &mut Random,
) -> (Design, Vec<f64>) {
    let mut columns = columns(theme, n, p, random);
    change(&mut columns, random);
    let mut targets = targets(theme, &columns, random);
    if theme == Theme::Brim {
        // Products stay as they are.
        let scale = 2f64.powi(random.pick(&[0, 1, 3, 40, 300, 500]));
        let entries = columns.iter_mut().flatten();
        entries.for_each(|entry| *entry *= scale);
        targets.iter_mut().for_each(|target| *target /= scale);
    }
    let design = of_columns(&columns, layout, || random.chance(15));
    (design, targets)
}
