//! Problems of full size, each made from its name and a few numbers alone: the test program (main.rs) and the oracle make the same ones.

#[derive(Clone, Copy, PartialEq)]
pub enum Penalty {
    L1,
    L1PlusL2,
    Mcp,
}

#[derive(Clone)]
pub struct Settings {
    pub penalty: Penalty,
    pub alpha: f64,
    pub second: f64,
    pub tolerance: f64,
    pub start: u32,
    pub iterations: u32,
    pub epochs: u32,
    pub extrapolate: bool,
    pub depth: u32,
}

/// The lengths of weights, fit, indices and scratch, then that of the prepared numbers.
pub type Lent = [u32; 5];

/// What is done to the prepared numbers before a solve is handed them.
pub type Change = fn(&mut [f64]);

#[derive(Clone)]
pub struct Case {
    pub csc: bool,
    pub n: u32,
    pub p: u32,
    pub starts: Vec<u32>,
    pub rows: Vec<u32>,
    pub values: Vec<f64>,
    pub targets: Vec<f64>,
    pub settings: Settings,
    pub lent: Lent,
    pub change: Option<Change>,
}

/// A case is made when its turn comes: the largest take gigabytes together. The quick ones are a part of the tests.
pub struct Named {
    pub name: String,
    pub quick: bool,
    /// Cases that share this have the same design and targets, which are prepared once.
    pub design: Option<String>,
    pub make: Box<dyn Fn() -> Case>,
}

/// splitmix64.
pub struct Random(pub u64);

impl Random {
    fn next(&mut self) -> u64 {
        self.0 = self.0.wrapping_add(0x9e37_79b9_7f4a_7c15);
        let mut z = self.0;
        z = (z ^ (z >> 30)).wrapping_mul(0xbf58_476d_1ce4_e5b9);
        z = (z ^ (z >> 27)).wrapping_mul(0x94d0_49bb_1331_11eb);
        z ^ (z >> 31)
    }

    /// From -1 to 1.
    pub fn unit(&mut self) -> f64 {
        (self.next() >> 11) as f64 / (1u64 << 52) as f64 - 1.0
    }

    pub fn below(&mut self, bound: u64) -> u64 {
        self.next() % bound
    }
}

/// The room that document 01 asks for, of which request 5 takes the prepared numbers out of the scratch.
fn room(n: u32, p: u32, s: &Settings) -> Lent {
    let scratch = if s.extrapolate { (2 * s.depth + 3) * p + n } else { p };
    [p, n, p, scratch, 2 * p]
}

impl Case {
    pub fn room(&self) -> Lent {
        room(self.n, self.p, &self.settings)
    }

    fn entries(&self, j: usize) -> Vec<(usize, f64)> {
        let (n, p) = (self.n as usize, self.p as usize);
        if self.csc {
            let stored = self.starts[j] as usize..self.starts[j + 1] as usize;
            stored.map(|k| (self.rows[k] as usize, self.values[k])).collect()
        } else {
            (0..n).map(|i| (i, self.values[i * p + j])).collect()
        }
    }

    /// Targets that twelve columns explain, but for some noise; then alpha, a share of the least one with an all-zero answer.
    fn aimed(mut self, random: &mut Random, share: f64) -> Case {
        let (n, p) = (self.n as usize, self.p as usize);
        self.targets = (0..n).map(|_| 0.1 * random.unit()).collect();
        for turn in 0..12 {
            let weight = random.unit() + 2.0;
            for (i, x) in self.entries(turn * p / 12) {
                self.targets[i] += weight * x;
            }
        }
        let product = |j| self.entries(j).iter().map(|&(i, x)| x * self.targets[i]).sum::<f64>().abs();
        let largest = (0..p).map(product).fold(0.0, f64::max);
        self.settings.alpha = share * largest / n as f64;
        self
    }

    pub fn with(mut self, change: impl Fn(&mut Settings)) -> Case {
        change(&mut self.settings);
        self.lent = room(self.n, self.p, &self.settings);
        self
    }

    fn handed(self, change: Change) -> Case {
        Case { change: Some(change), ..self }
    }
}

fn plain() -> Settings {
    Settings {
        penalty: Penalty::L1,
        alpha: 1.0,
        second: 0.5,
        tolerance: 1e-6,
        start: 10,
        iterations: 8,
        epochs: 60,
        extrapolate: false,
        depth: 5,
    }
}

/// Columns that resemble their left neighbours as much as `like` says.
pub fn dense(n: u32, p: u32, like: f64, share: f64) -> Case {
    let mut random = Random(u64::from(n) << 32 | u64::from(p));
    let mut values = Vec::with_capacity(n as usize * p as usize);
    for _ in 0..n {
        let mut x = random.unit();
        for _ in 0..p {
            x = like * x + (1.0 - like) * random.unit();
            values.push(x);
        }
    }
    let (csc, starts, rows) = (false, vec![], vec![]);
    let settings = plain();
    let lent = room(n, p, &settings);
    Case { csc, n, p, starts, rows, values, targets: vec![], settings, lent, change: None }.aimed(&mut random, share)
}

/// `many` entries a column, one in each of as many stretches of rows. Sixty-four neighbours share their rows, and resemble each other as much as `like`
/// says.
pub fn csc(n: u32, p: u32, many: u32, like: f64, share: f64) -> Case {
    let mut random = Random(u64::from(n) << 32 | u64::from(p) | 1 << 63);
    let stretch = n / many;
    let (mut starts, mut rows, mut values) = (vec![0], vec![], vec![]);
    for j in 0..p {
        for k in 0..many {
            let left = rows.len().wrapping_sub(many as usize);
            let row = k * stretch + random.below(u64::from(stretch)) as u32;
            let x = random.unit();
            let first = j % 64 == 0;
            rows.push(if first { row } else { rows[left] });
            values.push(if first { x } else { like * values[left] + (1.0 - like) * x });
        }
        starts.push(rows.len() as u32);
    }
    let settings = plain();
    let lent = room(n, p, &settings);
    Case { csc: true, n, p, starts, rows, values, targets: vec![], settings, lent, change: None }.aimed(&mut random, share)
}

/// One column, or one row, of ones: sizes at their limits cost little.
fn ones(csc: bool, n: u32, p: u32, stored: u32) -> Case {
    let settings = Settings { alpha: 0.25, iterations: 2, epochs: 3, start: 1, ..plain() };
    let values = vec![1.0; stored as usize];
    let mut starts = vec![0; p as usize];
    starts.push(stored);
    let rows: Vec<u32> = (0..stored).collect();
    let (starts, rows) = if csc { (starts, rows) } else { (vec![], vec![]) };
    let lent = room(n, p, &settings);
    Case { csc, n, p, starts, rows, values, targets: vec![1.0; n as usize], lent, settings, change: None }
}

struct Cases(Vec<Named>);

impl Cases {
    fn add(&mut self, name: &str, quick: bool, make: impl Fn() -> Case + 'static) {
        self.0.push(Named { name: name.replace(' ', "-"), quick, design: None, make: Box::new(make) });
    }

    /// A case whose design is prepared once, for all that name it so.
    fn add_of(&mut self, design: String, name: &str, quick: bool, make: impl Fn() -> Case + 'static) {
        self.add(name, quick, make);
        self.0.last_mut().expect("one was added").design = Some(design);
    }

    /// A small sound problem with one thing changed.
    fn changed(&mut self, name: &str, csc_too: bool, change: impl Fn(&mut Case) + Copy + 'static) {
        self.add(&format!("dense {name}"), true, move || {
            let mut case = dense(40, 30, 0.0, 0.1);
            change(&mut case);
            case
        });
        if csc_too {
            self.add(&format!("csc {name}"), true, move || {
                let mut case = csc(40, 30, 4, 0.5, 0.1);
                change(&mut case);
                case
            });
        }
    }

    fn whole_fits(&mut self) {
        for (quick, n, p) in [(true, 300, 500), (false, 1_000, 2_000), (false, 200, 8_192), (false, 65_536, 256)] {
            let size = format!("dense {n} x {p}");
            self.add_of(size.clone(), &format!("{size} l1"), quick, move || dense(n, p, 0.0, 0.1));
            self.add_of(size.clone(), &format!("{size} l1 far"), quick, move || dense(n, p, 0.0, 0.01).with(|s| s.epochs = 12));
            self.add(&format!("{size} alike extrapolated"), quick, move || {
                dense(n, p, 0.99, 0.001).with(|s| (s.extrapolate, s.depth, s.iterations, s.epochs) = (true, 4, 5, 30))
            });
            self.add(&format!("{size} net"), quick, move || {
                dense(n, p, 0.5, 0.1).with(|s| (s.penalty, s.second) = (Penalty::L1PlusL2, 0.75))
            });
            self.add_of(size.clone(), &format!("{size} mcp deepest"), quick, move || {
                dense(n, p, 0.0, 0.1).with(|s| (s.penalty, s.second, s.extrapolate, s.depth) = (Penalty::Mcp, 8.0, true, 10))
            });
        }
        for (quick, n, p, many) in [(true, 2_000, 700, 20), (false, 20_000, 5_000, 200), (false, 65_536, 8_192, 2_048)] {
            let size = format!("csc {n} x {p} of {}", many * p);
            self.add_of(size.clone(), &format!("{size} l1"), quick, move || csc(n, p, many, 0.5, 0.1));
            self.add(&format!("{size} extrapolated"), quick, move || {
                csc(n, p, many, 0.99, 0.01).with(|s| (s.extrapolate, s.depth) = (true, 4))
            });
            self.add_of(size.clone(), &format!("{size} mcp"), quick, move || {
                csc(n, p, many, 0.5, 0.1).with(|s| (s.penalty, s.second) = (Penalty::Mcp, 8.0))
            });
        }
    }

    /// 1, one below the limit, at it and above it.
    fn sizes(&mut self) {
        for n in [65_535, 65_536, 65_537] {
            self.add(&format!("dense {n} samples"), true, move || ones(false, n, 1, n));
            self.add(&format!("csc {n} samples"), true, move || ones(true, n, 1, n));
        }
        for p in [8_191, 8_192, 8_193] {
            self.add(&format!("dense {p} features"), true, move || ones(false, 1, p, p));
            self.add(&format!("csc {p} features"), true, move || ones(true, 1, p, 1));
        }
        // n · p of dense designs jumps past 16,777,216; CSC designs come to each count around it.
        for (n, p) in [(65_535, 256), (65_536, 256), (65_281, 257)] {
            self.add(&format!("dense {n} x {p} stored"), false, move || {
                dense(n, p, 0.0, 0.5).with(|s| (s.iterations, s.epochs) = (1, 1))
            });
        }
        for more in [-1, 0, 1] {
            self.add(&format!("csc stored {}", 16_777_216 + more), false, move || {
                let mut case = csc(65_536, 8_192, 2_048, 0.5, 0.5).with(|s| (s.iterations, s.epochs) = (1, 1));
                if more < 0 {
                    case.rows.pop();
                    case.values.pop();
                }
                if more > 0 {
                    case.rows.push(65_535);
                    case.values.push(1.0);
                }
                *case.starts.last_mut().unwrap() = case.values.len() as u32;
                case
            });
        }
        self.changed("no targets", true, |c| c.targets.clear());
        self.changed("a target short", true, |c| c.targets.truncate(39));
        self.changed("a value short", true, |c| c.values.truncate(c.values.len() - 1));
        self.changed("no samples", true, |c| c.n = 0);
        self.changed("no features", true, |c| c.p = 0);
    }

    /// 2, one below, at and above each limit.
    fn settings(&mut self) {
        for count in [999, 1_000, 1_001] {
            self.changed(&format!("iterations {count}"), false, move |c| c.settings.iterations = count);
        }
        for count in [99_999, 100_000, 100_001] {
            self.changed(&format!("epochs {count}"), false, move |c| (c.settings.epochs, c.settings.tolerance) = (count, 1e-9));
        }
        for start in [0, 1, 8_192, 8_193] {
            self.changed(&format!("start {start}"), false, move |c| c.settings.start = start);
        }
        for depth in [0, 1, 10, 11] {
            self.changed(&format!("depth {depth}"), false, move |c| {
                (c.settings.extrapolate, c.settings.depth) = (true, depth);
                c.lent = room(c.n, c.p, &c.settings);
            });
        }
        self.changed("depth 11 off", false, |c| c.settings.depth = 11);
        let below = -f64::from_bits(1);
        for (name, x) in [("below zero", below), ("minus zero", -0.0), ("zero", 0.0), ("not a number", f64::NAN), ("infinite", f64::INFINITY)] {
            self.changed(&format!("tolerance {name}"), false, move |c| (c.settings.tolerance, c.settings.iterations) = (x, 2));
            self.changed(&format!("alpha {name}"), false, move |c| (c.settings.alpha, c.settings.iterations) = (x, 2));
            self.changed(&format!("ratio {name}"), false, move |c| (c.settings.penalty, c.settings.second) = (Penalty::L1PlusL2, x));
            self.changed(&format!("gamma {name}"), false, move |c| (c.settings.penalty, c.settings.second) = (Penalty::Mcp, x));
        }
        self.changed("ratio one", false, |c| (c.settings.penalty, c.settings.second) = (Penalty::L1PlusL2, 1.0));
        self.changed("ratio above one", false, |c| (c.settings.penalty, c.settings.second) = (Penalty::L1PlusL2, 1.0 + f64::EPSILON));
        self.changed("gamma least", false, |c| (c.settings.penalty, c.settings.second) = (Penalty::Mcp, f64::from_bits(1)));
    }

    /// 3, one below each room; what is longer is in every other case.
    fn rooms(&mut self) {
        for (which, name) in ["weights", "fit", "indices", "scratch", "prepared"].into_iter().enumerate() {
            self.changed(&format!("{name} short"), true, move |c| c.lent[which] -= 1);
        }
        self.changed("scratch short extrapolated", true, |c| {
            c.settings.extrapolate = true;
            c.lent = room(c.n, c.p, &c.settings);
            c.lent[3] -= 1;
        });
    }

    /// 4 to 7, at the far ends.
    fn contents(&mut self) {
        self.changed("target not a number", true, |c| *c.targets.last_mut().unwrap() = f64::NAN);
        self.changed("value infinite", true, |c| *c.values.last_mut().unwrap() = f64::INFINITY);
        self.changed("overflow", true, |c| c.values.iter_mut().for_each(|x| *x *= 1e200));
        let csc_only = |cases: &mut Cases, name: &str, change: fn(&mut Case)| {
            cases.add(&format!("csc {name}"), true, move || {
                let mut case = csc(65_536, 100, 8, 0.5, 0.1);
                change(&mut case);
                case
            });
        };
        csc_only(self, "first start", |c| c.starts[0] = 1);
        csc_only(self, "falling start", |c| c.starts[50] = c.starts[49] - 1);
        csc_only(self, "last start below", |c| *c.starts.last_mut().unwrap() -= 1);
        csc_only(self, "last start above", |c| *c.starts.last_mut().unwrap() += 1);
        csc_only(self, "row at the end", |c| *c.rows.last_mut().unwrap() = 65_535);
        csc_only(self, "row beyond", |c| *c.rows.last_mut().unwrap() = 65_536);
        csc_only(self, "row repeated", |c| c.rows[799] = c.rows[798]);
        csc_only(self, "value not a number", |c| *c.values.last_mut().unwrap() = f64::NAN);
    }

    /// 10, at the far end and before it, and numbers that are no design's own.
    fn handed(&mut self) {
        let changes: [(&str, Change); 8] = [
            ("last constant infinite", |numbers| numbers[8_191] = f64::INFINITY),
            ("last constant negative", |numbers| numbers[8_191] = -f64::from_bits(1)),
            ("last constant without inverse", |numbers| numbers[8_191] = f64::from_bits(1 << 50)),
            ("last product not a number", |numbers| numbers[16_383] = f64::NAN),
            ("two numbers bad", |numbers| (numbers[8_000], numbers[8_192 + 7_000]) = (f64::NAN, f64::INFINITY)),
            ("constants minus zero", |numbers| numbers[..8_192].fill(-0.0)),
            ("constants four times", |numbers| numbers[..8_192].iter_mut().for_each(|x| *x *= 4.0)),
            ("products turned", |numbers| numbers[8_192..].iter_mut().for_each(|x| *x = -*x)),
        ];
        for (name, change) in changes {
            self.add(&format!("dense 8192 features {name}"), true, move || ones(false, 1, 8_192, 8_192).handed(change));
            self.add(&format!("csc 8192 features {name}"), true, move || csc(300, 8_192, 3, 0.5, 0.1).handed(change));
        }
    }
}

/// All cases, in their order.
pub fn cases() -> Vec<Named> {
    let mut cases = Cases(vec![]);
    cases.whole_fits();
    cases.sizes();
    cases.settings();
    cases.rooms();
    cases.contents();
    cases.handed();
    cases.0
}

/// What is compared: a refusal, or the report with a digest of the weights and of the fit.
pub enum Ending {
    Refused { number: u32, place: u64 },
    Fitted { status: u32, violation: f64, counts: [u64; 3], weights: Vec<f64>, fit: Vec<f64> },
}

/// FNV-1a.
pub fn digest_of(bytes: impl Iterator<Item = u8>) -> u64 {
    bytes.fold(0xcbf2_9ce4_8422_2325, |hash, byte| (hash ^ u64::from(byte)).wrapping_mul(0x0100_0000_01b3))
}

/// Of the bits of the numbers.
fn digest(numbers: &[f64]) -> u64 {
    digest_of(numbers.iter().flat_map(|x| x.to_bits().to_le_bytes()))
}

pub fn refused_line(name: &str, number: u32, place: u64) -> String {
    format!("{name} refused {number} at {place}")
}

pub fn line(name: &str, ending: &Ending) -> String {
    match ending {
        Ending::Refused { number, place } => refused_line(name, *number, *place),
        Ending::Fitted { status, violation, counts: [iterations, epochs, extrapolations], weights, fit } => format!(
            "{name} status {status} violation {:016x} iterations {iterations} epochs {epochs} extrapolations {extrapolations} \
             nonzero {} weights {:016x} fit {:016x}",
            violation.to_bits(),
            weights.iter().filter(|&&x| x != 0.0).count(),
            digest(weights),
            digest(fit)
        ),
    }
}
