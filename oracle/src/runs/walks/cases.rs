//! Drawn walks in which nothing is refused with 1 to 6; `faults` spoils some.

use super::answers::{has_negative_zero, nonzero};
use super::WalkCase;
use crate::calls::Runs;
use crate::designs::Layout;
use crate::loops;
use crate::random::Random;
use crate::runs::cases::{any_depth, lent, with_buffer, Scale};
use crate::runs::corners::LAYOUTS;
use crate::runs::problems::{sized, Theme};
use crate::runs::{FitCase, Lent, Numbers, Outcome, Settings};

/// What a walk is drawn to come to.
#[derive(Clone, Copy, Debug, PartialEq)]
pub enum Aim {
    First,
    Middle,
    Last,
    Nowhere,
    /// Before the usable alpha a fit gives 7, has status 2, or has too many weights.
    BehindSeven,
    BehindSpent,
    BehindMany,
    /// The usable fit has a weight of -0.0.
    NegativeZero,
    Anything,
}

pub const AIMS: [Aim; 9] = [
    Aim::First,
    Aim::Middle,
    Aim::Last,
    Aim::Nowhere,
    Aim::BehindSeven,
    Aim::BehindSpent,
    Aim::BehindMany,
    Aim::NegativeZero,
    Aim::Anything,
];

/// So often a walk is drawn before one is taken as it comes.
const TRIES: usize = 120;

/// Far more than there can be weights. The lower halves of some say few or none.
pub const HUGE: [u64; 6] = [
    u64::MAX,
    u64::MAX,
    1 << 63,
    1 << 32,
    (1 << 32) + 1,
    u64::MAX << 32,
];

/// How the fit with one alpha ends.
#[derive(Clone, Copy, PartialEq)]
enum Fit {
    /// With status 1 and so many nonzero weights; whether one is -0.0.
    Met(u64, bool),
    Spent,
    Seven,
}

/// A position that is the first usable one for these m: at least the first, and below
/// the second if there is one.
struct Reach {
    position: usize,
    least: u64,
    below: Option<u64>,
}

fn fits(case: &WalkCase) -> Vec<Fit> {
    let fit = |&alpha: &f64| {
        let fit = case.pair(alpha).0.fit;
        match loops::Rust::run(&fit, Numbers::Own) {
            Outcome::Finished(report) if fit.is_met(&report) => {
                Fit::Met(nonzero(&report) as u64, has_negative_zero(&report))
            }
            Outcome::Finished(_) | Outcome::Panicked => Fit::Spent,
            _ => Fit::Seven,
        }
    };
    case.alphas.iter().map(fit).collect()
}

/// All positions to which some m leads, and the fewest weights of a fit with status 1.
fn reaches(fits: &[Fit]) -> (Vec<Reach>, Option<u64>) {
    let (mut reaches, mut fewest) = (Vec::new(), None);
    for (position, fit) in fits.iter().enumerate() {
        let Fit::Met(least, _) = *fit else { continue };
        if fewest.is_none_or(|fewest| least < fewest) {
            reaches.push(Reach {
                position,
                least,
                below: fewest,
            });
            fewest = Some(least);
        }
    }
    (reaches, fewest)
}

/// An m from the least one on, below the other if there is one.
fn any_most(least: u64, below: Option<u64>, random: &mut Random) -> u64 {
    match (random.below(4), below) {
        (0..=1, _) => least,
        (2, Some(below)) => below - 1,
        (2, None) => random.pick(&HUGE),
        (_, below) => {
            let count = below.map_or(4, |below| below - least);
            least + random.below(count as usize) as u64
        }
    }
}

impl Aim {
    fn meets(self, reach: &Reach, fits: &[Fit]) -> bool {
        let (at, last) = (reach.position, fits.len() - 1);
        let before = |wanted: fn(&Fit) -> bool| fits[..at].iter().any(wanted);
        match self {
            Aim::First => at == 0 && last > 0,
            Aim::Middle => 0 < at && at < last,
            Aim::Last => 0 < at && at == last,
            Aim::BehindSeven => before(|fit| *fit == Fit::Seven),
            Aim::BehindSpent => before(|fit| *fit == Fit::Spent),
            Aim::BehindMany => before(|fit| matches!(fit, Fit::Met(..))),
            Aim::NegativeZero => matches!(fits[at], Fit::Met(_, true)),
            Aim::Nowhere | Aim::Anything => false,
        }
    }

    /// An m with which the walk comes to this, if there is one.
    fn most(self, fits: &[Fit], random: &mut Random) -> Option<u64> {
        let (reaches, fewest) = reaches(fits);
        if self == Aim::Nowhere {
            return match fewest {
                None => Some(any_most(0, None, random)),
                Some(0) => None,
                Some(fewest) if random.chance(50) => Some(fewest - 1),
                fewest => Some(any_most(0, fewest, random)),
            };
        }
        let meeting: Vec<Reach> = reaches
            .into_iter()
            .filter(|reach| self.meets(reach, fits))
            .collect();
        match meeting.len() {
            0 => None,
            count => {
                let Reach { least, below, .. } = meeting[random.below(count)];
                Some(any_most(least, below, random))
            }
        }
    }
}

/// n and p: small, since every fit of a walk is run.
fn sizes(random: &mut Random) -> (usize, usize) {
    let features = match random.below(10) {
        0 => 7 + random.below(6),
        _ => 1 + random.below(6),
    };
    (1 + random.below(6), features)
}

/// Those in which 7 comes up most often before an alpha of 0, which has no part in it:
/// few samples and large targets.
fn sizes_of_brim(random: &mut Random) -> (usize, usize) {
    (1 + random.below(2), 3 + random.below(4))
}

fn length(random: &mut Random) -> usize {
    match random.below(40) {
        0 => 64,
        1 => 9 + random.below(55),
        2..=5 => 1,
        6..=9 => 2,
        _ => 3 + random.below(6),
    }
}

/// So many alphas that fall, or fewer: a drawn one that doesn't fall is dropped. Of a
/// hundred so many end in a zero.
fn falling(length: usize, own: f64, zeros: usize, scale: &Scale, random: &mut Random) -> Vec<f64> {
    let first = scale.most * random.pick(&[2.0, 1.5, 1.0, 1.0, 0.9, 0.7, 0.5, 0.3, 0.1]);
    let ratio = random.pick(&[0.99, 0.9, 0.8, 0.7, 0.5, 0.5, 0.3, 0.1]);
    let part = random.pick(&[0.0625, 0.125, 0.25, 0.5, 1.0]);
    let mut drawn: Vec<f64> = match random.below(6) {
        0..=1 => (0..length)
            .map(|k| first * f64::powi(ratio, k as i32))
            .collect(),
        2 => (0..length).map(|k| part * (length - k) as f64).collect(),
        3 => std::iter::successors(Some(scale.alpha(random)), |alpha| Some(alpha.next_down()))
            .take(length)
            .collect(),
        _ => (0..length).map(|_| scale.alpha(random)).collect(),
    };
    if random.chance(50) {
        drawn[random.below(length)] = own;
    }
    drawn
        .iter_mut()
        .for_each(|alpha| *alpha = alpha.min(f64::MAX));
    drawn.sort_by(|one, other| other.total_cmp(one));
    if random.chance(zeros) {
        *drawn.last_mut().expect("there is one") = random.signed(0.0);
    }
    let mut falling = Vec::new();
    for alpha in drawn.into_iter().filter(|&alpha| alpha >= 0.0) {
        if falling.last().is_none_or(|&last| alpha < last) {
            falling.push(alpha);
        }
    }
    falling
}

/// Runs are kept short, and many of them come to their end.
fn shortened(settings: &mut Settings, alphas: usize, scale: &Scale, random: &mut Random) {
    if settings.epochs > 100 {
        // As large as they may be; the run must end at once then.
        settings.tolerance = f64::MAX;
        return;
    }
    let (iterations, epochs) = if alphas > 8 { (3, 12) } else { (8, 40) };
    settings.iterations = settings.iterations.min(iterations);
    settings.epochs = settings.epochs.min(epochs);
    if settings.extrapolate && random.chance(25) {
        settings.depth = any_depth(random) as u32;
    }
    if random.chance(50) {
        let parts = [1e-14, 1e-12, 1e-9, 1e-6, 1e-4, 1e-3, 1e-2, 0.1];
        settings.tolerance = scale.most * random.pick(&parts);
    }
}

/// It isn't looked at.
fn any_alpha(alphas: &[f64], random: &mut Random) -> f64 {
    match random.below(6) {
        0 => f64::NAN,
        1 => random.signed(f64::INFINITY),
        2 => -random.moderate().abs(),
        3 => random.special(),
        4 => random.pick(alphas),
        _ => random.any_bits(),
    }
}

/// What a walk is drawn of.
struct Frame {
    theme: Theme,
    layout: Layout,
    sizes: (usize, usize),
    /// Of a hundred lists so many end in a zero.
    zeros: usize,
}

impl Frame {
    fn of(aim: Aim, random: &mut Random) -> Frame {
        let layout = random.pick(&LAYOUTS);
        if aim == Aim::BehindSeven {
            return Frame {
                theme: Theme::Brim,
                layout,
                sizes: sizes_of_brim(random),
                zeros: 80,
            };
        }
        let theme = match random.below(10) {
            _ if aim == Aim::NegativeZero => Theme::Faded,
            0 => Theme::Correlated,
            _ => Theme::drawn(random),
        };
        Frame {
            theme,
            layout,
            sizes: sizes(random),
            zeros: 10,
        }
    }

    /// With any m.
    fn drawn(self, random: &mut Random) -> WalkCase {
        let Frame {
            theme,
            layout,
            sizes,
            zeros,
        } = self;
        let (design, targets) = sized(theme, sizes, layout, |_, _| {}, random);
        let scale = Scale::of(theme, &design, &targets, random);
        let mut settings = scale.any_settings(random);
        let own = settings.penalty.alpha;
        let alphas = falling(length(random), own, zeros, &scale, random);
        shortened(&mut settings, alphas.len(), &scale, random);
        settings.penalty.alpha = any_alpha(&alphas, random);
        let mut fit = FitCase {
            design,
            targets,
            settings,
            lent: Lent::default(),
        };
        fit.lent = lent(fit.room(), random);
        let features = u64::from(fit.design.features);
        let most = [0, 0, 1, 1, 2, 3, features - 1, features, u64::MAX];
        let case = WalkCase {
            given: with_buffer(fit, random),
            alphas,
            most: random.pick(&most),
        };
        assert_eq!(case.refusal(), None, "{case:?}");
        case
    }
}

/// A walk to be spoiled, with any m.
pub fn any(layout: Layout, random: &mut Random) -> WalkCase {
    let frame = Frame {
        layout,
        ..Frame::of(Aim::Anything, random)
    };
    frame.drawn(random)
}

/// A walk that has an answer.
fn comparable(random: &mut Random) -> WalkCase {
    loop {
        let case = Frame::of(Aim::Anything, random).drawn(random);
        if case.comparable() {
            return case;
        }
    }
}

/// A walk that comes to this; after so many tries it is taken as it comes.
pub fn drawn(aim: Aim, random: &mut Random) -> WalkCase {
    if aim == Aim::Anything {
        return comparable(random);
    }
    for _ in 0..TRIES {
        let mut case = Frame::of(aim, random).drawn(random);
        if let Some(most) = aim.most(&fits(&case), random) {
            case.most = most;
            if case.comparable() {
                return case;
            }
        }
    }
    comparable(random)
}
