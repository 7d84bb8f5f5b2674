//! Working sets of full size, each made from its name and a few numbers alone, as the problems of cases.rs are: the test program (sets.rs) and the
//! oracle make the same ones.

use super::cases::{digest_of, refused_line, Random};

pub struct Case {
    pub weights: Vec<f64>,
    pub violations: Vec<f64>,
    pub start: u32,
    /// How many index places are lent.
    pub lent: usize,
}

/// How the violations lie, which is what the work of a selection depends on.
#[derive(Clone, Copy)]
pub enum Order {
    Random,
    Rising,
    Falling,
    Equal,
    /// Both zeros, the least double, 1 and the largest, so that most are tied.
    Levels,
    /// Both zeros, which are equal as doubles compare.
    Zeros,
    /// Falling, but with its end put first: so many features as the start size are the lowest.
    Turned,
}

impl Order {
    pub fn name(self) -> &'static str {
        match self {
            Order::Random => "random",
            Order::Rising => "rising",
            Order::Falling => "falling",
            Order::Equal => "equal",
            Order::Levels => "levels",
            Order::Zeros => "zeros",
            Order::Turned => "turned",
        }
    }

    pub fn violations(self, p: usize, start: usize) -> Vec<f64> {
        let mut random = Random(p as u64);
        let violation = |j: usize| match self {
            Order::Random => random.unit().abs(),
            Order::Rising => (j + 1) as f64,
            Order::Falling => (p - j) as f64,
            Order::Equal => 1.0,
            Order::Levels => [0.0, -0.0, f64::from_bits(1), 1.0, f64::MAX][random.below(5) as usize],
            Order::Zeros => [0.0, -0.0][random.below(2) as usize],
            Order::Turned if j < start => (start - j) as f64,
            Order::Turned => (p + start - j) as f64,
        };
        (0..p).map(violation).collect()
    }
}

/// Which weights are zero.
#[derive(Clone, Copy)]
enum Weights {
    Zero,
    /// All, of both signs.
    BothZeros,
    /// All but one in twenty.
    SomeNonzero,
    /// All but every fiftieth, which is NaN; 2·nonzero is 328.
    SomeNaN,
    /// All but every second, and the last of those: 2·nonzero is two below p.
    BelowHalf,
    /// All but every second: 2·nonzero is p.
    Half,
    /// None.
    Nonzero,
}

impl Weights {
    fn name(self) -> &'static str {
        match self {
            Weights::Zero => "zero weights",
            Weights::BothZeros => "weights of both zeros",
            Weights::SomeNonzero => "some weights",
            Weights::SomeNaN => "some weights NaN",
            Weights::BelowHalf => "weights below half",
            Weights::Half => "half the weights",
            Weights::Nonzero => "all weights",
        }
    }

    fn weight(self, j: usize, p: usize, random: &mut Random) -> f64 {
        let least = f64::from_bits(1);
        let nonzero = [1.0, -2.5, least, -least, f64::INFINITY, f64::NAN][random.below(6) as usize];
        let weigh = |weighs: bool| if weighs { nonzero } else { 0.0 };
        match self {
            Weights::Zero => 0.0,
            Weights::BothZeros => [0.0, -0.0][random.below(2) as usize],
            Weights::SomeNonzero => weigh(random.below(20) == 0),
            Weights::SomeNaN => if j % 50 == 7 { f64::NAN } else { 0.0 },
            Weights::BelowHalf => weigh(j % 2 == 1 && j + 1 < p),
            Weights::Half => weigh(j % 2 == 1),
            Weights::Nonzero => nonzero,
        }
    }
}

/// A sound case. A violation at a nonzero weight is not looked at, so nearly all of them are ones that would be refused elsewhere.
fn sound(p: usize, start: usize, order: Order, weights: Weights) -> Case {
    let mut random = Random(start as u64);
    let weights: Vec<f64> = (0..p).map(|j| weights.weight(j, p, &mut random)).collect();
    let mut violations = order.violations(p, start);
    for j in (0..p).filter(|&j| weights[j] != 0.0) {
        violations[j] = [f64::NAN, f64::INFINITY, f64::NEG_INFINITY, -1.0, 0.5][random.below(5) as usize];
    }
    Case { weights, violations, start: start as u32, lent: p }
}

struct Cases(Vec<(String, Case)>);

impl Cases {
    fn add(&mut self, name: &str, case: Case) {
        self.0.push((format!("set {name}").replace(' ', "-"), case));
    }

    fn sound(&mut self, p: usize, start: usize, order: Order, weights: Weights) {
        let name = format!("{p} from {start} {} {}", order.name(), weights.name());
        self.add(&name, sound(p, start, order, weights));
    }

    /// Every weight zero, at full size.
    fn orders(&mut self) {
        for order in [Order::Random, Order::Rising, Order::Falling, Order::Equal, Order::Levels, Order::Zeros, Order::Turned] {
            for start in [1, 10, 40, 400, 4_096, 8_192] {
                self.sound(8_192, start, order, Weights::Zero);
            }
        }
    }

    /// The set grows with the nonzero weights, which come first in it.
    fn weights(&mut self) {
        for weights in [Weights::BothZeros, Weights::SomeNonzero, Weights::SomeNaN, Weights::BelowHalf, Weights::Half, Weights::Nonzero] {
            self.sound(8_192, 10, Order::Random, weights);
            self.sound(8_192, 4_096, Order::Levels, weights);
        }
        self.sound(8_192, 8_192, Order::Turned, Weights::SomeNonzero);
        self.sound(8_192, 8_191, Order::Zeros, Weights::BelowHalf);
    }

    fn small(&mut self) {
        self.sound(1, 1, Order::Zeros, Weights::Zero);
        self.sound(1, 1, Order::Random, Weights::Nonzero);
        for order in [Order::Rising, Order::Equal] {
            self.sound(2, 1, order, Weights::Zero);
            self.sound(2, 2, order, Weights::Zero);
        }
        self.sound(2, 1, Order::Random, Weights::Half);
        for start in [1, 40, 100] {
            self.sound(100, start, Order::Random, Weights::BothZeros);
            self.sound(100, start, Order::Levels, Weights::SomeNonzero);
        }
    }

    /// A sound case of full size with something changed.
    fn changed(&mut self, name: &str, change: impl Fn(&mut Case)) {
        let mut case = sound(8_192, 400, Order::Random, Weights::Zero);
        change(&mut case);
        self.add(name, case);
    }

    /// 1 to 3.
    fn sizes(&mut self) {
        self.add("8191 features", sound(8_191, 400, Order::Random, Weights::Zero));
        self.add("8193 features", sound(8_193, 400, Order::Random, Weights::Zero));
        self.changed("no features", |c| (c.weights, c.violations, c.lent) = (vec![], vec![], 0));
        self.changed("a violation short", |c| c.violations.truncate(8_191));
        self.changed("a violation more", |c| c.violations.push(1.0));
        self.changed("no violations", |c| c.violations.clear());
        self.changed("start 0", |c| c.start = 0);
        self.changed("start 8193", |c| c.start = 8_193);
        self.changed("start largest", |c| c.start = u32::MAX);
        self.changed("an index short", |c| c.lent = 8_191);
        self.changed("no indices", |c| c.lent = 0);
    }

    /// 8: at a zero weight, of either sign, and at the first of several.
    fn contents(&mut self) {
        let below = -f64::from_bits(1);
        for (name, x) in [("NaN", f64::NAN), ("infinite", f64::INFINITY), ("minus infinite", f64::NEG_INFINITY), ("just below zero", below)] {
            self.changed(&format!("first violation {name}"), |c| c.violations[0] = x);
            self.changed(&format!("last violation {name}"), |c| *c.violations.last_mut().unwrap() = x);
        }
        self.changed("several violations", |c| (c.violations[8_191], c.violations[300], c.violations[4_000]) = (-1.0, below, f64::NAN));
        self.changed("a violation at minus zero", |c| (c.violations[5], c.weights[5]) = (-1.0, -0.0));
        self.changed("a violation at a weight", |c| (c.violations[5], c.weights[5]) = (f64::NAN, 1.0));
        self.changed("a violation behind a weight", |c| (c.violations[5], c.weights[5], c.violations[6]) = (f64::NAN, 1.0, f64::NAN));
    }

    /// The lowest number counts.
    fn several(&mut self) {
        let bad = |c: &mut Case| (c.violations[0], c.lent) = (f64::NAN, 0);
        self.changed("3 and 8", bad);
        self.changed("2 and 3 and 8", |c| {
            bad(c);
            c.start = 0;
        });
        self.changed("1 and 2 and 3 and 8", |c| {
            bad(c);
            c.start = 0;
            c.weights.push(0.0);
        });
    }
}

/// All cases, in their order.
pub fn cases() -> Vec<(String, Case)> {
    let mut cases = Cases(vec![]);
    cases.orders();
    cases.weights();
    cases.small();
    cases.sizes();
    cases.contents();
    cases.several();
    cases.0
}

/// What is compared: a refusal, or the size and a digest of the index places of all features.
pub enum Ending {
    Refused { number: u32, place: u64 },
    Built { size: u64, indices: Vec<u32> },
}

pub fn line(name: &str, ending: &Ending) -> String {
    match ending {
        Ending::Refused { number, place } => refused_line(name, *number, *place),
        Ending::Built { size, indices } => {
            let digest = digest_of(indices.iter().flat_map(|j| j.to_le_bytes()));
            format!("{name} size {size} indices {digest:016x}")
        }
    }
}
