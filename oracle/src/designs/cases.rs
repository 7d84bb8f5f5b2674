//! Made cases in which nothing is refused; `faults` spoils some of them.

use super::{Call, Design, DesignCase, Input, Layout};
use crate::calls::Designs;
use crate::loops;
use crate::random::Random;

/// How large the numbers of an array are.
#[derive(Clone, Copy)]
enum Make {
    Moderate,
    /// From -3 to 3: sums cancel exactly.
    Integers,
    /// Subnormals, and numbers whose products all but vanish.
    Tiny,
    /// Products overflow, or nearly.
    Large,
    /// Sums overflow, or nearly.
    Huge,
    /// Mostly zeros, of both signs.
    Zeros,
    /// A make of its own for each number.
    Mixed,
}

/// Makes by how often they come; a mixture is made of the first 13.
const MAKES: [Make; 15] = [
    Make::Moderate,
    Make::Moderate,
    Make::Moderate,
    Make::Moderate,
    Make::Integers,
    Make::Integers,
    Make::Integers,
    Make::Integers,
    Make::Tiny,
    Make::Large,
    Make::Large,
    Make::Huge,
    Make::Zeros,
    Make::Mixed,
    Make::Mixed,
];
const UNMIXED: usize = 13;

impl Make {
    fn number(self, random: &mut Random) -> f64 {
        match self {
            Make::Moderate => random.moderate(),
            Make::Integers => {
                let size = random.below(4) as f64;
                random.signed(size)
            }
            Make::Tiny if random.chance(50) => {
                // The exponent's bits stay 0.
                let subnormal = f64::from_bits(random.next() >> (12 + random.below(52)));
                random.signed(subnormal)
            }
            Make::Tiny => random.scaled(-560, -500),
            Make::Large => random.scaled(505, 517),
            Make::Huge => random.scaled(1015, 1023),
            Make::Zeros if random.chance(70) => random.signed(0.0),
            Make::Zeros => Make::Integers.number(random),
            Make::Mixed => random.pick(&MAKES[..UNMIXED]).number(random),
        }
    }
}

/// Where the numbers of an array come from.
#[derive(Clone, Copy)]
struct Source {
    make: Make,
    /// NaN, infinities and any bit pattern come up too.
    wild: bool,
}

/// For what is overwritten or lies beyond the room.
const ANYTHING: Source = Source {
    make: Make::Mixed,
    wild: true,
};

impl Source {
    fn drawn(random: &mut Random) -> Source {
        let make = random.pick(&MAKES);
        Source { make, wild: false }
    }

    /// For another array of the same case: mostly numbers of the same make.
    fn beside(self, random: &mut Random) -> Source {
        if random.chance(60) {
            self
        } else {
            Source::drawn(random)
        }
    }

    /// For an array that may hold any double.
    fn free(self, random: &mut Random) -> Source {
        let wild = random.chance(35);
        Source {
            wild,
            ..self.beside(random)
        }
    }

    fn number(self, random: &mut Random) -> f64 {
        match random.below(100) {
            0..=17 if self.wild => random.special(),
            18..=24 if self.wild => random.any_bits(),
            _ => self.make.number(random),
        }
    }

    fn numbers(self, count: usize, random: &mut Random) -> Vec<f64> {
        (0..count).map(|_| self.number(random)).collect()
    }
}

/// n and p: about a third of the cases have a 1.
fn sizes(random: &mut Random) -> (usize, usize) {
    let most = if random.chance(6) { 9 } else { 6 };
    let (n, p) = (1 + random.below(most), 1 + random.below(most));
    match random.below(24) {
        0 => (1, p),
        1 => (n, 1),
        _ => (n, p),
    }
}

/// Starts and rows of a CSC design, with empty and full columns.
fn pattern(n: usize, p: usize, random: &mut Random) -> (Vec<u32>, Vec<u32>) {
    let (mut starts, mut rows) = (vec![0], Vec::new());
    let filling = random.below(10);
    for _ in 0..p {
        let share = match filling {
            0 => 0,
            1 => 100,
            _ => random.pick(&[0, 50, 50, 50, 100]),
        };
        rows.extend((0..n as u32).filter(|_| random.chance(share)));
        starts.push(rows.len() as u32);
    }
    (starts, rows)
}

/// The values of a design, now and then with zeros among them.
fn values(count: usize, source: Source, random: &mut Random) -> Vec<f64> {
    let mut values = source.numbers(count, random);
    if random.chance(25) {
        for value in &mut values {
            if random.chance(40) {
                *value = random.signed(0.0);
            }
        }
    }
    values
}

fn design(layout: Layout, source: Source, random: &mut Random) -> Design {
    let (n, p) = sizes(random);
    match layout {
        Layout::Dense => Design::dense(n as u32, p as u32, values(n * p, source, random)),
        Layout::Csc => {
            let (starts, rows) = pattern(n, p, random);
            let values = values(rows.len(), source, random);
            Design::csc(n as u32, starts, rows, values)
        }
    }
}

/// Different features in any order, or any features, which may come twice; now
/// and then none.
fn set(features: usize, random: &mut Random) -> Vec<u32> {
    if random.chance(12) {
        return Vec::new();
    }
    let count = 1 + random.below(features);
    if random.chance(40) {
        return (0..count).map(|_| random.below(features) as u32).collect();
    }
    let mut set: Vec<u32> = (0..features as u32).collect();
    for last in (1..features).rev() {
        set.swap(last, random.below(last + 1));
    }
    set.truncate(count);
    set
}

/// The prepared numbers are the Rust's own, from targets that may hold any
/// double; a call takes any doubles in their place, so now and then it gets
/// them.
fn prepared(design: &Design, source: Source, random: &mut Random) -> Vec<f64> {
    let targets = source.numbers(design.samples as usize, random);
    let (constants, products) = loops::Rust::initialize(design, &targets);
    if random.chance(12) {
        return source.numbers(constants.len() + products.len(), random);
    }
    [constants, products].concat()
}

/// A lent buffer as long as its room or a little longer.
fn lent(case: &DesignCase, index: usize, source: Source, random: &mut Random) -> Vec<f64> {
    let length = case.length(case.call.rooms()[index]);
    let mut buffer = match case.call {
        Call::Gradient | Call::FullGradient if index == 0 => prepared(&case.design, source, random),
        Call::Initialize | Call::AlphaMax => ANYTHING.numbers(length, random),
        Call::FullGradient if index == 2 => ANYTHING.numbers(length, random),
        Call::ExtrapolatedFit if index == 1 => ANYTHING.numbers(length, random),
        _ => source.numbers(length, random),
    };
    if random.chance(50) {
        let beyond = 1 + random.below(3);
        buffer.extend(ANYTHING.numbers(beyond, random));
    }
    buffer
}

pub fn sound(call: Call, layout: Layout, random: &mut Random) -> DesignCase {
    let source = Source::drawn(random);
    let mut case = DesignCase::empty(call);
    if call.takes(Input::Design) {
        case.design = design(layout, source, random);
    }
    if call.takes(Input::Targets) {
        let count = match call {
            Call::Value => sizes(random).0,
            _ => case.samples(),
        };
        case.targets = source.beside(random).numbers(count, random);
    }
    let features = case.design.features as usize;
    case.features = match call {
        Call::Gradient | Call::UpdateFit => vec![random.below(features) as u32],
        Call::ExtrapolatedFit => set(features, random),
        _ => Vec::new(),
    };
    case.difference = source.free(random).number(random);
    for index in 0..call.rooms().len() {
        let buffer = lent(&case, index, source.free(random), random);
        case.lent.push(buffer);
    }
    case
}
