//! Made solves with handed numbers in which nothing is refused with 1 to 6 or with
//! 10: numbers of the design itself, of another one, or odd ones.

use super::cases::{any_depth, beyond, lent, Scale};
use super::corners::LAYOUTS;
use super::prepared::Half;
use super::problems::{changed, of_columns, targets, varied, Theme};
use super::watch::NotFinite;
use super::{FitCase, Given, Lent, Numbers, Outcome, Prepared, Settings, SolveCase};
use crate::calls::{Designs, Runs};
use crate::designs::{Design, Layout};
use crate::loops;
use crate::random::Random;

/// How the numbers are made of the design's own.
#[derive(Clone, Copy)]
enum Make {
    Own,
    /// Constants too small: steps are too long, and the run swings or diverges.
    Small,
    /// Constants too large: the run crawls.
    Large,
    /// A factor of its own for each constant.
    Uneven,
    /// Those of another design with as many features.
    Another,
    /// X'y of turned targets.
    Turned,
    /// No column is visited.
    Still,
    Odd(Odd),
    /// Odd numbers strewn in.
    Strewn,
    Moderate,
}

/// Makes by how often they come; odd numbers take the rest.
const MAKES: [Make; 17] = [
    Make::Own,
    Make::Own,
    Make::Small,
    Make::Small,
    Make::Small,
    Make::Large,
    Make::Large,
    Make::Large,
    Make::Uneven,
    Make::Uneven,
    Make::Another,
    Make::Another,
    Make::Another,
    Make::Turned,
    Make::Still,
    Make::Strewn,
    Make::Moderate,
];
const ALL_MAKES: usize = 20;

/// An odd number in one column, or in all.
#[derive(Clone, Copy)]
pub struct Odd {
    half: Half,
    number: f64,
    everywhere: bool,
}

/// The smallest double with a finite inverse, one ulp above 2^-1024.
const LEAST: f64 = f64::from_bits((1 << 50) + 1);
const LARGEST_SUBNORMAL: f64 = f64::from_bits(0x000f_ffff_ffff_ffff);

/// Constants that a solve takes, though hardly any design has them.
const CONSTANTS: [f64; 12] = [
    0.0,
    -0.0,
    LEAST,
    f64::from_bits(1 << 51), // 2^-1023, whose inverse is 2^1023
    LARGEST_SUBNORMAL,
    f64::MIN_POSITIVE,
    1e-300,
    1e-150,
    1e150,
    1e300,
    1.0 / f64::MIN_POSITIVE, // the largest power of two with a normal inverse
    f64::MAX,                // its inverse is subnormal
];

const PRODUCTS: [f64; 14] = [
    0.0,
    -0.0,
    5e-324,
    -5e-324,
    LARGEST_SUBNORMAL,
    f64::MIN_POSITIVE,
    -f64::MIN_POSITIVE,
    1e-160,
    -1e150,
    1e300,
    8.9e307,
    -8.9e307,
    f64::MAX,
    f64::MIN,
];

/// Each of them in one column and in all.
pub fn odds() -> Vec<Odd> {
    let constants = CONSTANTS.map(|number| (Half::Constants, number));
    let products = PRODUCTS.map(|number| (Half::Products, number));
    let numbers = constants.into_iter().chain(products);
    numbers
        .flat_map(|(half, number)| {
            [false, true].map(|everywhere| Odd {
                half,
                number,
                everywhere,
            })
        })
        .collect()
}

impl Odd {
    fn put(self, prepared: &mut Prepared, random: &mut Random) {
        let half = prepared.half(self.half);
        if self.everywhere {
            half.fill(self.number);
        } else {
            half[random.below(half.len())] = self.number;
        }
    }
}

impl Prepared {
    /// Every number that a solve would refuse becomes 1.
    fn mended(mut self) -> Prepared {
        let refuses = |constant, product| {
            let alone = Prepared::from((vec![constant], vec![product]));
            alone.refused_column().is_some()
        };
        for constant in &mut self.constants {
            if refuses(*constant, 1.0) {
                *constant = 1.0;
            }
        }
        for product in &mut self.products {
            if refuses(1.0, *product) {
                *product = 1.0;
            }
        }
        self
    }

    /// Odd numbers in some places, or in every one.
    fn strewn(mut self, random: &mut Random) -> Prepared {
        let share = random.pick(&[20, 50, 100]);
        for constant in &mut self.constants {
            if random.chance(share) {
                *constant = random.pick(&CONSTANTS);
            }
        }
        for product in &mut self.products {
            if random.chance(share) {
                *product = random.pick(&PRODUCTS);
            }
        }
        self
    }

    fn with_constants(mut self, make: impl FnMut(f64) -> f64) -> Prepared {
        self.constants = self.constants.into_iter().map(make).collect();
        self
    }

    fn with_products(mut self, make: impl FnMut(f64) -> f64) -> Prepared {
        self.products = self.products.into_iter().map(make).collect();
        self
    }
}

fn own(design: &Design, targets: &[f64]) -> Prepared {
    Prepared::from(loops::Rust::initialize(design, targets)).mended()
}

/// The numbers of a design with as many features, whatever its samples.
fn of_another(features: usize, random: &mut Random) -> Prepared {
    let (theme, samples) = (Theme::drawn(random), 1 + random.below(8));
    let columns = varied(theme, samples, features, random);
    let targets = targets(theme, &columns, random);
    own(&of_columns(&columns, Layout::Dense, || false), &targets)
}

fn made(make: Make, own: Prepared, random: &mut Random) -> Prepared {
    let small = random.pick(&[0.9, 0.5, 0.49, 0.25, 0.1, 0.01, 1e-9, 1e-150]);
    let large = random.pick(&[1.1, 2.0, 3.0, 10.0, 100.0, 1e9, 1e150]);
    let prepared = match make {
        Make::Own => own,
        Make::Small => own.with_constants(|x| x * small),
        Make::Large => own.with_constants(|x| x * large),
        Make::Uneven => own.with_constants(|x| x * 2f64.powi(random.below(13) as i32 - 6)),
        Make::Another => of_another(own.constants.len(), random),
        Make::Turned => own.with_products(|x| -x),
        Make::Still => own.with_constants(|_| random.signed(0.0)),
        Make::Odd(odd) => {
            let mut prepared = own;
            odd.put(&mut prepared, random);
            prepared
        }
        Make::Strewn => own.strewn(random),
        Make::Moderate => own
            .with_constants(|_| random.moderate().abs())
            .with_products(|_| random.moderate()),
    };
    prepared.mended()
}

/// With such numbers a run needn't come closer to its end: it is kept short.
const MOST_ITERATIONS: u32 = 8;
const MOST_EPOCHS: u32 = 40;

/// Settings at the ends of their ranges stay: there a run ends at once.
fn shortened(mut settings: Settings) -> Settings {
    if settings.epochs <= 100 {
        settings.iterations = settings.iterations.min(MOST_ITERATIONS);
        settings.epochs = settings.epochs.min(MOST_EPOCHS);
    }
    settings
}

/// Now and then some columns are cleared: their constants needn't be zero here.
fn problem(theme: Theme, layout: Layout, random: &mut Random) -> (Design, Vec<f64>) {
    let clears = random.chance(20);
    let clear = |columns: &mut [Vec<f64>], random: &mut Random| {
        for column in columns {
            if clears && random.chance(50) {
                column.fill_with(|| random.signed(0.0));
            }
        }
    };
    changed(theme, layout, clear, random)
}

fn with(make: Make, layout: Layout, random: &mut Random) -> SolveCase {
    let theme = Theme::drawn(random);
    let (design, targets) = problem(theme, layout, random);
    let handed = made(make, own(&design, &targets), random);
    let scale = Scale::of_handed(theme, design.samples, &handed, random);
    let mut fit = FitCase {
        design,
        targets,
        settings: shortened(scale.any_settings(random)),
        lent: Lent::default(),
    };
    fit.lent = lent(fit.room(), random);
    let prepared = [handed.numbers(), beyond(random)].concat();
    let case = SolveCase(Given { fit, prepared });
    assert_eq!(case.refusal(), None, "{case:?}");
    case
}

/// A solve to which, without request 3, the Rust may have no answer.
pub fn any(layout: Layout, random: &mut Random) -> SolveCase {
    let make = match MAKES.get(random.below(ALL_MAKES)) {
        Some(&make) => make,
        None => Make::Odd(random.pick(&odds())),
    };
    with(make, layout, random)
}

fn run(case: &SolveCase) -> Outcome {
    loops::Rust::run(&case.0.fit, Numbers::Handed(&case.handed()))
}

/// A solve that has an answer; `redrawn` counts those that, without request 3, have
/// none.
pub fn sound(redrawn: &mut usize, random: &mut Random) -> SolveCase {
    loop {
        let case = any(random.pick(&LAYOUTS), random);
        if case.comparable() {
            return case;
        }
        *redrawn += 1;
    }
}

/// A solve with this odd number.
pub fn with_odd(odd: Odd, random: &mut Random) -> SolveCase {
    loop {
        let case = with(Make::Odd(odd), random.pick(&LAYOUTS), random);
        if case.comparable() {
            return case;
        }
    }
}

/// A solve that accepts an extrapolation, each depth being as likely as the others.
pub fn extrapolated(random: &mut Random) -> SolveCase {
    let wanted = any_depth(random);
    loop {
        let case = any(random.pick(&LAYOUTS), random);
        let used = case.0.fit.depth_in_use() == Some(wanted);
        if used && run(&case).accepts() && case.comparable() {
            return case;
        }
    }
}

/// A solve that is refused with 7 for this number.
pub fn not_finite(number: NotFinite, random: &mut Random) -> SolveCase {
    loop {
        let case = any(random.pick(&LAYOUTS), random);
        if run(&case).is_refused_for(number) && case.comparable() {
            return case;
        }
    }
}
