//! Made problems with settings, and pairs of calls on them, in which nothing is
//! refused with 1 to 6; `faults` spoils some. Solves with numbers of another kind are
//! made in `handed`.

use super::corners::LAYOUTS;
use super::problems::{problem, Theme, STRAINED};
use super::rules::DEPTHS;
use super::watch::NotFinite;
use super::{FitCase, Given, Lent, Numbers, PairCase, Prepared, Settings};
use crate::calls::{Designs, Runs};
use crate::designs::{Design, Layout};
use crate::leaves::{Kind, Penalty};
use crate::loops;
use crate::random::Random;

/// What the settings are measured by.
pub struct Scale {
    theme: Theme,
    features: u32,
    /// alpha_max, or 1 where it is no use.
    pub most: f64,
    /// One of the nonzero Lipschitz constants, or 1.
    constant: f64,
}

impl Scale {
    pub fn of(theme: Theme, design: &Design, targets: &[f64], random: &mut Random) -> Scale {
        let most = loops::Rust::alpha_max(design, targets);
        let (constants, _) = loops::Rust::initialize(design, targets);
        Scale::by(theme, most, &constants, random)
    }

    /// Of numbers that are handed to a solve of so many samples.
    pub fn of_handed(
        theme: Theme,
        samples: u32,
        prepared: &Prepared,
        random: &mut Random,
    ) -> Scale {
        let sizes = prepared.products.iter().map(|product| product.abs());
        let most = sizes.fold(0.0, f64::max) / f64::from(samples);
        Scale::by(theme, most, &prepared.constants, random)
    }

    fn by(theme: Theme, most: f64, constants: &[f64], random: &mut Random) -> Scale {
        let useful = |x: &f64| x.is_finite() && *x > 0.0;
        let nonzero: Vec<f64> = constants.iter().copied().filter(useful).collect();
        Scale {
            theme,
            features: constants.len() as u32,
            most: Some(most).filter(useful).unwrap_or(1.0),
            constant: match nonzero.len() {
                0 => 1.0,
                count => nonzero[random.below(count)],
            },
        }
    }

    /// Mostly a part of alpha_max.
    pub fn alpha(&self, random: &mut Random) -> f64 {
        let parts = [0.001, 0.01, 0.03, 0.1, 0.1, 0.2, 0.3, 0.5, 0.7, 0.9];
        let alpha = match random.below(24) {
            0 => 0.0,
            1 => -0.0,
            2 => random.near(self.most),
            3 => self.most * random.pick(&[1.0, 1.5, 10.0]),
            4 => random.moderate().abs(),
            5..=8 => random.pick(&[0.125, 0.25, 0.5, 0.5, 1.0, 1.0, 2.0, 3.0]),
            9..=12 if STRAINED.contains(&self.theme) => random.scaled(990, 1023).abs(),
            _ => self.most * random.pick(&parts),
        };
        alpha.min(f64::MAX)
    }

    /// The inverse of a constant is where the prox changes its ways.
    fn gamma(&self, random: &mut Random) -> f64 {
        let gamma = match random.below(10) {
            0..=5 => random.pick(&[3.0, 3.0, 3.0, 2.0, 1.5, 1.1, 0.5, 10.0, 0.001]),
            6..=7 => random.pick(&[1.0, 1.0001, 0.5, 2.0, 4.0]) / self.constant,
            8 => random.moderate().abs(),
            _ => random.pick(&[1e-300, 5e-324, 1e300, f64::MAX]),
        };
        gamma.clamp(5e-324, f64::MAX)
    }

    /// Without a threshold and with a large divisor, negative weights vanish:
    /// they become -0.0.
    fn fading(&self, kind: Kind, random: &mut Random) -> Option<Penalty> {
        let small = self.theme == Theme::SmallTargets && kind == Kind::L1PlusL2;
        let alpha = match self.theme {
            Theme::Faded => random.pick(&[16.0, 32.0, 64.0]),
            _ if small && random.chance(60) => random.pick(&[1.0, 3.0, 1e3, 1e20]),
            _ => return None,
        };
        Some(Penalty {
            kind: Kind::L1PlusL2,
            alpha,
            second: random.signed(0.0),
        })
    }

    fn penalty(&self, random: &mut Random) -> Penalty {
        let kind = random.pick(&[Kind::L1, Kind::L1PlusL2, Kind::Mcp]);
        if let Some(penalty) = self.fading(kind, random) {
            return penalty;
        }
        Penalty {
            kind,
            alpha: self.alpha(random),
            second: match kind {
                Kind::L1 if random.chance(50) => random.special(),
                Kind::L1 => random.any_bits(),
                Kind::L1PlusL2 if random.chance(50) => random.fraction(),
                Kind::L1PlusL2 => random.pick(&[0.0, 0.0, -0.0, 1.0, 0.5, 0.9, 5e-324]),
                Kind::Mcp => self.gamma(random),
            },
        }
    }

    fn tolerance(&self, random: &mut Random) -> f64 {
        let parts = [1e-15, 1e-13, 1e-10, 1e-8, 1e-6, 1e-4, 1e-2, 0.3];
        match random.below(20) {
            0..=7 => 0.0,
            8 => -0.0,
            9 => random.pick(&[5e-324, 1e-300]),
            10 => random.moderate().abs(),
            _ => self.most * random.pick(&parts),
        }
    }

    fn start(&self, random: &mut Random) -> u32 {
        let beyond = 1 + random.below(3) as u32;
        match random.below(10) {
            0..=2 => 1,
            3 => self.features,
            4 => self.features + beyond,
            5 => random.pick(&[64, 8_192]),
            _ => 1 + random.below(self.features as usize) as u32,
        }
    }

    /// Most depths are such that the extrapolation comes to try something.
    fn depth(&self, random: &mut Random) -> u32 {
        let deepest = *DEPTHS.end();
        let most = deepest.min(self.features);
        match random.below(10) {
            0..=1 => 1 + random.below(deepest as usize) as u32,
            2..=4 => most,
            _ => 1 + random.below(most as usize) as u32,
        }
    }

    /// Slow runs get more of them.
    fn epochs(&self, random: &mut Random) -> u32 {
        if self.theme == Theme::Correlated && random.chance(60) {
            return random.pick(&[12, 21, 25, 31, 40, 64, 100]);
        }
        random.pick(&[
            0, 1, 2, 3, 5, 9, 10, 11, 11, 12, 12, 21, 25, 25, 31, 40, 100,
        ])
    }

    fn settings(&self, random: &mut Random) -> Settings {
        let extrapolate = random.chance(60);
        let depth = if extrapolate {
            self.depth(random)
        } else {
            random.pick(&[0, 1, 5, 10, 11, 255, u32::MAX])
        };
        let mut start = self.start(random);
        if extrapolate && random.chance(90) {
            start = start.max(depth);
        }
        Settings {
            penalty: self.penalty(random),
            tolerance: self.tolerance(random),
            start,
            iterations: random.pick(&[0, 1, 1, 1, 2, 2, 3, 3, 4, 5, 5, 8, 10, 20, 50]),
            epochs: self.epochs(random),
            extrapolate,
            depth,
        }
    }

    /// Now and then at the ends of their ranges.
    pub fn any_settings(&self, random: &mut Random) -> Settings {
        if random.chance(3) {
            self.limits(random)
        } else {
            self.settings(random)
        }
    }

    /// Settings at the ends of their ranges, in runs that end at once: no
    /// violation exceeds the largest tolerance or, but for L1PlusL2, the largest
    /// alpha.
    fn limits(&self, random: &mut Random) -> Settings {
        let mut settings = self.settings(random);
        settings.start = 8_192;
        settings.iterations = 1_000;
        settings.epochs = 100_000;
        settings.tolerance = f64::MAX;
        if settings.extrapolate {
            settings.depth = *DEPTHS.end();
        }
        if random.chance(50) && settings.penalty.kind != Kind::L1PlusL2 {
            settings.tolerance = random.pick(&[0.0, -0.0, 5e-324]);
            settings.penalty.alpha = f64::MAX;
        }
        settings
    }
}

/// So many places a lent buffer has beyond its room: half of them none.
fn longer(random: &mut Random) -> u32 {
    random.pick(&[0, 0, 0, 1, 2, 3])
}

pub fn lent(room: Lent, random: &mut Random) -> Lent {
    let mut length = |room: u32| room + longer(random);
    Lent {
        weights: length(room.weights),
        fit: length(room.fit),
        indices: length(room.indices),
        scratch: length(room.scratch),
    }
}

/// A run to which, without request 3, the Rust may have no answer.
pub fn any(theme: Theme, layout: Layout, random: &mut Random) -> FitCase {
    let (design, targets) = problem(theme, layout, random);
    with_settings(theme, design, targets, random)
}

pub fn with_settings(
    theme: Theme,
    design: Design,
    targets: Vec<f64>,
    random: &mut Random,
) -> FitCase {
    let mut settings = Scale::of(theme, &design, &targets, random).any_settings(random);
    if random.chance(1) {
        // As many iterations as there may be, of hardly anything.
        (settings.iterations, settings.epochs) = (1_000, random.below(3) as u32);
    }
    let mut case = FitCase {
        design,
        targets,
        settings,
        lent: Lent::default(),
    };
    case.lent = lent(case.room(), random);
    assert_eq!(case.refusal(), None, "{case:?}");
    case
}

/// What a lent buffer holds that is overwritten, or that lies beyond its room: any
/// double.
fn anything(random: &mut Random) -> f64 {
    match random.below(3) {
        0 => random.special(),
        1 => random.any_bits(),
        _ => random.moderate(),
    }
}

/// Places behind the room of the prepared numbers.
pub fn beyond(random: &mut Random) -> Vec<f64> {
    (0..longer(random)).map(|_| anything(random)).collect()
}

/// A problem with the buffer that a preparation gets, which holds anything.
pub fn with_buffer(fit: FitCase, random: &mut Random) -> Given {
    let room = 2 * fit.design.features;
    let mut prepared: Vec<f64> = (0..room).map(|_| anything(random)).collect();
    prepared.extend(beyond(random));
    Given { fit, prepared }
}

/// To be spoiled: now and then there is something to refuse already, with 7.
pub fn to_be_spoiled(layout: Layout, random: &mut Random) -> FitCase {
    let theme = if random.chance(20) {
        random.pick(&STRAINED)
    } else {
        Theme::drawn(random)
    };
    any(theme, layout, random)
}

/// A pair that has an answer; `redrawn` counts those that, without request 3, have
/// none.
pub fn sound(redrawn: &mut usize, random: &mut Random) -> PairCase {
    loop {
        let (theme, layout) = (Theme::drawn(random), random.pick(&LAYOUTS));
        let case = any(theme, layout, random);
        if case.comparable() {
            return PairCase(with_buffer(case, random));
        }
        *redrawn += 1;
    }
}

/// Each depth is as likely as the others.
pub fn any_depth(random: &mut Random) -> usize {
    1 + random.below(*DEPTHS.end() as usize)
}

/// A run that accepts an extrapolation. Without request 3 few runs do, since the
/// Rust takes its system from the wrong side.
pub fn extrapolated_from(wanted: usize, random: &mut Random) -> FitCase {
    loop {
        let (theme, layout) = (Theme::drawn(random), random.pick(&LAYOUTS));
        let case = any(theme, layout, random);
        if case.depth_in_use() != Some(wanted) {
            continue;
        }
        let run = loops::Rust::run(&case, Numbers::Own);
        if run.accepts() && case.comparable() {
            return case;
        }
    }
}

/// Where refusal 7 for this number is to be looked for; None where it wasn't
/// found. A finite gradient is at most the largest double over n, and alpha is
/// below that where a weight isn't zero: so a violation that isn't finite wants
/// n = 1, or an accepted extrapolation, and of those too we have found none.
fn theme_of(number: NotFinite) -> Option<Theme> {
    match number {
        NotFinite::Constant | NotFinite::Product => Some(Theme::Large),
        NotFinite::Inverse => Some(Theme::Tiny),
        NotFinite::Gradient | NotFinite::FitEntry => Some(Theme::Brim),
        NotFinite::Violation => None,
        NotFinite::Weight => Some(Theme::Far),
    }
}

/// A run that is refused with 7 for this number, if we have found any.
pub fn not_finite(number: NotFinite, random: &mut Random) -> Option<FitCase> {
    let theme = theme_of(number)?;
    loop {
        let layout = random.pick(&LAYOUTS);
        let case = any(theme, layout, random);
        let run = loops::Rust::run(&case, Numbers::Own);
        if run.is_refused_for(number) && case.comparable() {
            return Some(case);
        }
    }
}
