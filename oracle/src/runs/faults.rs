//! Faults that are put into sound cases. Each knows what the documents must find,
//! so that what `rules` finds is seen to be right.

use super::cases::{not_finite, to_be_spoiled, with_buffer};
use super::corners::LAYOUTS;
use super::prepared::Half;
use super::watch::NotFinite;
use super::{handed, FitCase, Given, PairCase, SolveCase};
use crate::designs::{input_plans, spoil_inputs, Layout, Place, Plan, Refusal, ANYWHERE};
use crate::leaves::Kind;
use crate::loops;
use crate::random::Random;

/// A setting outside its range.
#[derive(Clone, Copy)]
pub enum Setting {
    Iterations(u32),
    Epochs(u32),
    Start(u32),
    Depth(u32),
    Tolerance(f64),
    Alpha(f64),
    Ratio(f64),
    Gamma(f64),
}

impl Setting {
    /// Its index, which is the place of its refusal.
    fn index(&self) -> u32 {
        match self {
            Setting::Iterations(_) => 0,
            Setting::Epochs(_) => 1,
            Setting::Start(_) => 2,
            Setting::Depth(_) => 3,
            Setting::Tolerance(_) => 4,
            Setting::Alpha(_) => 5,
            Setting::Ratio(_) | Setting::Gamma(_) => 6,
        }
    }
}

const SETTINGS: std::ops::RangeInclusive<u32> = 0..=6;

#[derive(Clone, Copy)]
pub enum Buffer {
    Weights,
    Fit,
    Indices,
    Scratch,
}

pub const BUFFERS: [Buffer; 4] = [
    Buffer::Weights,
    Buffer::Fit,
    Buffer::Indices,
    Buffer::Scratch,
];

#[derive(Clone, Copy)]
pub enum Fault {
    Input(Plan),
    Setting(Setting),
    /// To nothing, to half of the room, or to one less than the room.
    Cut(Buffer, Place),
    /// The scratch that would do without extrapolation.
    PlainScratch,
    /// The scratch lacks its n places.
    ScratchForFeatures,
    /// The buffer of the prepared numbers is cut, to the constants or otherwise.
    CutPrepared(Place),
    /// A number that no solve takes, in one column or in all.
    Number(Half, f64, Place),
    Numbers(Half, f64),
}

fn settings() -> Vec<Setting> {
    let negative = [f64::NAN, f64::INFINITY, f64::NEG_INFINITY, -5e-324, -1.0];
    let ratios = [
        f64::NAN,
        f64::INFINITY,
        -5e-324,
        -1.0,
        1.0f64.next_up(),
        2.0,
    ];
    let gammas = [f64::NAN, f64::INFINITY, 0.0, -0.0, -5e-324, -2.0];
    let mut all = Vec::new();
    all.extend([1_001, u32::MAX].map(Setting::Iterations));
    all.extend([100_001, u32::MAX].map(Setting::Epochs));
    all.extend([0, 8_193, u32::MAX].map(Setting::Start));
    all.extend([0, 11, u32::MAX].map(Setting::Depth));
    all.extend(negative.map(Setting::Tolerance));
    all.extend(negative.map(Setting::Alpha));
    all.extend(ratios.map(Setting::Ratio));
    all.extend(gammas.map(Setting::Gamma));
    all
}

/// All ways in which a problem by itself can be refused with 1 to 6, room for its
/// answer among them.
pub fn problem_faults() -> Vec<Fault> {
    let mut faults: Vec<Fault> = input_plans().into_iter().map(Fault::Input).collect();
    faults.extend(settings().into_iter().map(Fault::Setting));
    for buffer in BUFFERS {
        faults.extend(ANYWHERE.map(|place| Fault::Cut(buffer, place)));
    }
    faults.extend([Fault::PlainScratch, Fault::ScratchForFeatures]);
    faults
}

/// 2^-1024, the largest double whose inverse overflows.
const NO_INVERSE: f64 = f64::from_bits(1 << 50);

const INFINITE: [f64; 3] = [f64::NAN, f64::INFINITY, f64::NEG_INFINITY];

/// Numbers that are refused as constants.
fn bad_constants() -> Vec<f64> {
    let others = [-5e-324, -1.0, f64::MIN, 5e-324, NO_INVERSE];
    [&INFINITE[..], &others].concat()
}

/// All ways in which a prepared number can be refused with 10.
fn bad_numbers() -> Vec<Fault> {
    let constants = bad_constants().into_iter().map(|x| (Half::Constants, x));
    let products = INFINITE.map(|x| (Half::Products, x));
    let mut faults = Vec::new();
    for (half, number) in constants.chain(products) {
        faults.extend(ANYWHERE.map(|place| Fault::Number(half, number, place)));
        faults.push(Fault::Numbers(half, number));
    }
    faults
}

/// A bad constant and a bad entry of X'y, in two columns: the lower column counts,
/// whichever it has.
pub fn bad_columns() -> Vec<[Fault; 2]> {
    let mut pairs = Vec::new();
    for (constant, product) in bad_constants()
        .into_iter()
        .zip(INFINITE.into_iter().cycle())
    {
        for (one, other) in [(Place::First, Place::Last), (Place::Last, Place::First)] {
            let constant = Fault::Number(Half::Constants, constant, one);
            pairs.push([constant, Fault::Number(Half::Products, product, other)]);
        }
    }
    pairs
}

fn misset(case: &mut FitCase, setting: Setting) {
    let settings = &mut case.settings;
    match setting {
        Setting::Iterations(count) => settings.iterations = count,
        Setting::Epochs(count) => settings.epochs = count,
        Setting::Start(size) => settings.start = size,
        Setting::Depth(depth) => (settings.extrapolate, settings.depth) = (true, depth),
        Setting::Tolerance(x) => settings.tolerance = x,
        Setting::Alpha(x) => settings.penalty.alpha = x,
        Setting::Ratio(x) => {
            (settings.penalty.kind, settings.penalty.second) = (Kind::L1PlusL2, x);
        }
        Setting::Gamma(x) => (settings.penalty.kind, settings.penalty.second) = (Kind::Mcp, x),
    }
}

fn cut(case: &mut FitCase, buffer: Buffer, place: Place) -> Option<Refusal> {
    let room = case.room();
    let (room, length) = match buffer {
        Buffer::Weights => (room.weights, &mut case.lent.weights),
        Buffer::Fit => (room.fit, &mut case.lent.fit),
        Buffer::Indices => (room.indices, &mut case.lent.indices),
        Buffer::Scratch => (room.scratch, &mut case.lent.scratch),
    };
    let cut = place.of(room as usize);
    // A scratch of one place has no half. It is cut to nothing then, since the files
    // are drawn with these faults too, and stay what they were.
    let nothing = matches!(buffer, Buffer::Scratch).then_some(0);
    *length = cut.or(nothing)? as u32;
    Some((3, 0))
}

fn with_less_scratch(case: &mut FitCase, lacking: Fault, random: &mut Random) -> Refusal {
    case.settings.extrapolate = true;
    case.settings.depth = 1 + random.below(10) as u32;
    let features = case.design.features;
    case.lent.scratch = match lacking {
        Fault::PlainScratch => features,
        _ => (2 * case.settings.depth + 3) * features,
    };
    (3, 0)
}

fn cut_prepared(given: &mut Given, place: Place) -> Option<Refusal> {
    let length = place.of(given.twice_features())?;
    given.prepared.truncate(length);
    Some((3, 0))
}

fn put_number(given: &mut Given, half: Half, number: f64, column: usize) {
    let features = given.fit.design.features as usize;
    let at = match half {
        Half::Constants => column,
        Half::Products => features + column,
    };
    given.prepared[at] = number;
}

impl Fault {
    pub fn number(&self) -> u32 {
        match self {
            Fault::Input(plan) => plan.number(),
            Fault::Setting(_) => 2,
            Fault::Number(..) | Fault::Numbers(..) => 10,
            _ => 3,
        }
    }

    /// The layout that it takes, where it takes one.
    pub fn layout(&self) -> Option<Layout> {
        match self {
            Fault::Input(plan) => Some(plan.layout),
            _ => None,
        }
    }

    /// Whether the preparation is given what is spoiled.
    fn meets_preparation(&self) -> bool {
        matches!(self, Fault::Input(_) | Fault::CutPrepared(_))
    }

    /// Puts the fault in and says what must be found; None where this case has
    /// no place for it.
    pub fn spoil(&self, given: &mut Given, random: &mut Random) -> Option<Refusal> {
        let case = &mut given.fit;
        match *self {
            Fault::Input(plan) => spoil_inputs(plan, &mut case.design, &mut case.targets, random),
            Fault::Setting(setting) => {
                misset(case, setting);
                Some((2, setting.index()))
            }
            Fault::Cut(buffer, place) => cut(case, buffer, place),
            Fault::PlainScratch | Fault::ScratchForFeatures => {
                Some(with_less_scratch(case, *self, random))
            }
            Fault::CutPrepared(place) => cut_prepared(given, place),
            Fault::Number(half, number, place) => {
                let column = place.of(case.design.features as usize)?;
                put_number(given, half, number, column);
                Some((10, column as u32))
            }
            Fault::Numbers(half, number) => {
                let columns = 0..case.design.features as usize;
                columns.for_each(|column| put_number(given, half, number, column));
                Some((10, 0))
            }
        }
    }
}

/// What is asked with a case.
#[derive(Clone, Copy, Debug, PartialEq)]
pub enum Asked {
    /// The program, or any whole fit in document 01's order; it is lent no buffer
    /// for prepared numbers.
    Program,
    Pair,
    Solve,
}

/// Who refuses, and with what.
type Found = (Asked, Refusal);

impl Asked {
    /// Now and then there is something to refuse already, with 7.
    fn to_be_spoiled(self, layout: Layout, random: &mut Random) -> Given {
        match self {
            Asked::Program => Given {
                fit: to_be_spoiled(layout, random),
                prepared: Vec::new(),
            },
            Asked::Pair => with_buffer(to_be_spoiled(layout, random), random),
            Asked::Solve => handed::any(layout, random).0,
        }
    }

    /// All ways in which it can be refused with 1 to 6, or with 10.
    pub fn faults(self) -> Vec<Fault> {
        let mut faults = problem_faults();
        if self != Asked::Program {
            faults.extend(ANYWHERE.map(Fault::CutPrepared));
        }
        if self == Asked::Solve {
            faults.extend(bad_numbers());
        }
        faults
    }

    /// What the rules find. In a pair the preparation's 7 comes before whatever the
    /// solve refuses.
    fn found(self, given: &Given) -> Option<Found> {
        match self {
            Asked::Program => given.fit.refusal().map(|refusal| (self, refusal)),
            Asked::Pair => {
                let pair = PairCase(given.clone());
                let (refusal, left) = pair.prepared_by::<loops::Rust>();
                let solve = || Asked::Solve.found(&pair.solve(left).0);
                refusal.map(|refusal| (self, refusal)).or_else(solve)
            }
            Asked::Solve => {
                let refusal = SolveCase(given.clone()).refusal();
                refusal.map(|refusal| (self, refusal))
            }
        }
    }

    /// What must be found of these faults, each with its refusal: the lowest number
    /// and of several the one at the lowest place, by the call that meets it. `seven`
    /// says whether the preparation of the case gives 7.
    fn expected(self, faults: &[(Fault, Refusal)], seven: bool) -> Option<Found> {
        let lowest = |wanted: &dyn Fn(&Fault) -> bool| {
            let meeting = faults.iter().filter(|(fault, _)| wanted(fault));
            meeting.map(|&(_, refusal)| refusal).min()
        };
        if self != Asked::Pair {
            return lowest(&|_| true).map(|refusal| (self, refusal));
        }
        let met = lowest(&Fault::meets_preparation).or(seven.then_some((7, 0)));
        let solve = || lowest(&|_| true).map(|refusal| (Asked::Solve, refusal));
        met.map(|refusal| (self, refusal)).or_else(solve)
    }

    /// A case with these faults of falling or equal number, or None where the case
    /// drawn for them has no place for one.
    fn try_spoiled(self, faults: &[Fault], random: &mut Random) -> Option<Given> {
        let layout = faults.iter().find_map(Fault::layout);
        let layout = layout.unwrap_or_else(|| random.pick(&LAYOUTS));
        let mut given = self.to_be_spoiled(layout, random);
        let seven = self == Asked::Pair && self.found(&given).is_some();
        let mut put = Vec::new();
        for &fault in faults {
            put.push((fault, fault.spoil(&mut given, random)?));
        }
        assert_eq!(self.found(&given), self.expected(&put, seven), "{given:?}");
        Some(given)
    }

    pub fn spoiled(self, fault: Fault, random: &mut Random) -> Given {
        loop {
            if let Some(given) = self.try_spoiled(&[fault], random) {
                return given;
            }
        }
    }

    /// A fault of any number, each number being as likely as the others.
    fn any_number(self, faults: &[Fault], random: &mut Random) -> Fault {
        let numbers = [1, 2, 3, 4, 5, 6, 10];
        let known = if self == Asked::Solve { 7 } else { 6 };
        let number = random.pick(&numbers[..known]);
        let of_number = faults.iter().filter(|fault| fault.number() == number);
        random.pick(&of_number.copied().collect::<Vec<_>>())
    }

    /// Two faults at once: of different numbers, or of one whose place tells which
    /// was found.
    pub fn twice_spoiled(self, faults: &[Fault], random: &mut Random) -> Given {
        let draw = |random: &mut Random| [(); 2].map(|()| self.any_number(faults, random));
        self.spoiled_by(draw, random)
    }

    /// Two settings are put in in the order in which they are wanted.
    pub fn spoiled_as(self, wanted: [Wanted; 2], faults: &[Fault], random: &mut Random) -> Given {
        let draw = |random: &mut Random| wanted.map(|wanted| wanted.drawn(faults, random));
        self.spoiled_by(draw, random)
    }

    pub fn spoiled_with(self, pair: [Fault; 2], random: &mut Random) -> Given {
        self.spoiled_by(|_| pair, random)
    }

    fn spoiled_by(self, draw: impl Fn(&mut Random) -> [Fault; 2], random: &mut Random) -> Given {
        loop {
            let mut pair = draw(random);
            pair.sort_by_key(|fault| std::cmp::Reverse(fault.number()));
            if !go_together(pair[0], pair[1]) {
                continue;
            }
            if let Some(given) = self.try_spoiled(&pair, random) {
                return given;
            }
        }
    }
}

/// Whether two faults can be in one case, and which of them is found shows.
pub fn go_together(one: Fault, other: Fault) -> bool {
    let layouts = one.layout().zip(other.layout());
    let apart = match (one, other) {
        (Fault::Setting(one), Fault::Setting(other)) => one.index() != other.index(),
        _ => one.number() != other.number() || one.number() >= 4,
    };
    apart && layouts.is_none_or(|(one, other)| one == other)
}

/// What a fault is to be: a setting with this index, or of this number.
#[derive(Clone, Copy)]
pub enum Wanted {
    Setting(u32),
    Number(u32),
}

impl Wanted {
    fn meets(self, fault: &Fault) -> bool {
        match (self, fault) {
            (Wanted::Setting(index), Fault::Setting(setting)) => setting.index() == index,
            (Wanted::Setting(_), _) => false,
            (Wanted::Number(number), fault) => fault.number() == number,
        }
    }

    pub fn drawn(self, faults: &[Fault], random: &mut Random) -> Fault {
        let meeting = faults.iter().filter(|fault| self.meets(fault));
        random.pick(&meeting.copied().collect::<Vec<_>>())
    }
}

/// Every two settings, each pair in both orders.
pub fn setting_pairs() -> Vec<[Wanted; 2]> {
    let pairs = SETTINGS.flat_map(|one| SETTINGS.map(move |other| (one, other)));
    pairs
        .filter(|(one, other)| one != other)
        .map(|(one, other)| [Wanted::Setting(one), Wanted::Setting(other)])
        .collect()
}

/// Every setting beside every other refusal that comes before a run.
pub fn settings_beside() -> Vec<[Wanted; 2]> {
    let beside = |index| {
        let numbers = [1, 3, 4, 5, 6];
        numbers.map(|number| [Wanted::Setting(index), Wanted::Number(number)])
    };
    SETTINGS.flat_map(beside).collect()
}

/// A prepared number that is refused, beside everything that comes before it.
pub fn numbers_beside() -> Vec<[Wanted; 2]> {
    let settings = SETTINGS.map(Wanted::Setting);
    let before = settings.chain([1, 3, 4, 5, 6].map(Wanted::Number));
    before.map(|wanted| [wanted, Wanted::Number(10)]).collect()
}

/// A buffer that is too short for a preparation, beside a wrong setting of each
/// kind, of which only the solve knows.
pub fn misset_and_cut(index: u32, faults: &[Fault], random: &mut Random) -> Given {
    let draw = |random: &mut Random| {
        let cut = Fault::CutPrepared(random.pick(&ANYWHERE));
        [cut, Wanted::Setting(index).drawn(faults, random)]
    };
    Asked::Pair.spoiled_by(draw, random)
}

/// A pair with a wrong setting whose preparation gives 7, for one number or the
/// other: the setting comes too late.
pub fn misset_behind_seven(index: u32, faults: &[Fault], random: &mut Random) -> Given {
    let numbers = [NotFinite::Constant, NotFinite::Inverse, NotFinite::Product];
    let number = random.pick(&numbers);
    let case = not_finite(number, random).expect("such runs are known");
    let mut given = with_buffer(case, random);
    let fault = Wanted::Setting(index).drawn(faults, random);
    fault
        .spoil(&mut given, random)
        .expect("every case has settings");
    let expected = Some((Asked::Pair, (7, 0)));
    assert_eq!(Asked::Pair.found(&given), expected, "{given:?}");
    given
}
