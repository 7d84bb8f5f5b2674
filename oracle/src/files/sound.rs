//! Files of runs that keep to the layout, and that are refused with 7 at most.

use super::fields::{bytes, fields, split, strewn, Field};
use super::layout;
use crate::designs::Layout;
use crate::leaves::Kind;
use crate::random::Random;
use crate::runs::{self, FitCase, NotFinite, Theme, LAYOUTS};

pub type File = Vec<u8>;

/// Writes the fields of a case and reads them back: the file says what the case
/// says.
pub fn written(case: &FitCase, fields: &[Field]) -> File {
    let file = bytes(fields);
    let read = layout::read(&file).expect("the layout is kept");
    let mut case = case.clone();
    case.lent = read.lent;
    case.settings.depth = case.settings.depth.min(255);
    assert!(case.words() == read.words(), "{case:?} became {read:?}");
    file
}

pub fn file(case: &FitCase) -> File {
    written(case, &fields(case))
}

pub fn any(random: &mut Random) -> FitCase {
    let (theme, layout) = (Theme::drawn(random), random.pick(&LAYOUTS));
    runs::any(theme, layout, random)
}

/// Fields of a sound file, to be spoiled or damaged.
pub fn sound_fields(layout: Layout, random: &mut Random) -> Vec<Field> {
    fields(&runs::any(Theme::drawn(random), layout, random))
}

pub fn run(kind: Kind, layout: Layout, random: &mut Random) -> File {
    loop {
        let case = runs::any(Theme::drawn(random), layout, random);
        if case.settings.penalty.kind == kind {
            return file(&case);
        }
    }
}

/// Runs that were built by hand, document 01's among them.
pub fn by_hand(random: &mut Random) -> File {
    let cases = runs::by_hand();
    file(&cases[random.below(cases.len())])
}

/// A run that accepts an extrapolation of this depth.
pub fn accepting<const K: usize>(random: &mut Random) -> File {
    file(&runs::extrapolated_from(K, random))
}

/// A step comes to a working set of fewer than K places: the published text panics
/// there, and without request 3 the step is skipped.
pub fn short_set(random: &mut Random) -> File {
    loop {
        let mut case = any(random);
        let most = case.design.features.min(10) as usize;
        if most < 2 {
            continue;
        }
        let settings = &mut case.settings;
        settings.extrapolate = true;
        settings.depth = 2 + random.below(most - 1) as u32;
        settings.start = 1 + random.below(settings.depth as usize - 1) as u32;
        settings.iterations = 1 + random.below(5) as u32;
        settings.epochs = settings.depth + 1 + random.below(20) as u32;
        // The lent buffers were made for other settings.
        case.lent = case.room();
        if case.panics() {
            return file(&case);
        }
    }
}

/// A run with these columns.
pub fn with_columns(
    theme: Theme,
    columns: &[Vec<f64>],
    layout: Layout,
    random: &mut Random,
) -> FitCase {
    let targets = runs::targets(theme, columns, random);
    let design = runs::of_columns(columns, layout, || random.chance(5));
    runs::with_settings(theme, design, targets, random)
}

pub fn ordinary(random: &mut Random) -> Theme {
    random.pick(&[
        Theme::Moderate,
        Theme::Integers,
        Theme::Exact,
        Theme::Correlated,
    ])
}

/// So many equal violations that an unstable sort changes their order.
pub fn ties(random: &mut Random) -> File {
    let (n, p) = (1 + random.below(4), 21 + random.below(12));
    let columns = runs::repeated(n, p, random);
    let layout = random.pick(&LAYOUTS);
    file(&with_columns(Theme::Integers, &columns, layout, random))
}

/// Some columns are changed before the run is made of them.
fn with_some(change: impl Fn(&mut [Vec<f64>], usize, &mut Random), random: &mut Random) -> File {
    let (n, p) = (1 + random.below(12), 2 + random.below(12));
    let theme = ordinary(random);
    let mut columns = runs::varied(theme, n, p, random);
    for _ in 0..=random.below(p) {
        let to = random.below(p);
        change(&mut columns, to, random);
    }
    let layout = random.pick(&LAYOUTS);
    file(&with_columns(theme, &columns, layout, random))
}

pub fn copied_columns(random: &mut Random) -> File {
    let copy = |columns: &mut [Vec<f64>], to: usize, random: &mut Random| {
        columns[to] = columns[random.below(columns.len())].clone();
    };
    with_some(copy, random)
}

pub fn zero_columns(random: &mut Random) -> File {
    let clear = |columns: &mut [Vec<f64>], to: usize, random: &mut Random| {
        columns[to].fill_with(|| random.signed(0.0));
    };
    with_some(clear, random)
}

pub fn subnormal(random: &mut Random) -> File {
    let theme = random.pick(&[Theme::SmallTargets, Theme::Faint, Theme::Tiny]);
    let layout = random.pick(&LAYOUTS);
    file(&runs::any(theme, layout, random))
}

/// Refused with 7, for each number alike.
pub fn not_finite(random: &mut Random) -> File {
    let number = random.pick(&[
        NotFinite::Constant,
        NotFinite::Inverse,
        NotFinite::Product,
        NotFinite::Gradient,
        NotFinite::Weight,
        NotFinite::FitEntry,
    ]);
    let case = runs::not_finite(number, random).expect("such runs are known");
    file(&case)
}

/// Nothing is stored; the fields without a body may be missing.
pub fn none_stored(random: &mut Random) -> File {
    let mut case = runs::any(Theme::drawn(random), Layout::Csc, random);
    case.design.starts.fill(0);
    case.design.rows.clear();
    case.design.values.clear();
    let mut fields = fields(&case);
    fields.retain(|field| !field.body.is_empty() || random.chance(50));
    written(&case, &fields)
}

pub fn in_pieces(random: &mut Random) -> File {
    let case = any(random);
    written(&case, &split(&fields(&case), random))
}

pub fn with_empty_fields(random: &mut Random) -> File {
    let case = any(random);
    written(&case, &strewn(fields(&case), 8, random))
}
