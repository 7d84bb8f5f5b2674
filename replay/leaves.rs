//! Records of the leaves that the exports reach: soft threshold (code 1), prox (2), and a penalty's violation (3) and value (4); oracle/README.md has
//! their form.

use crate::records::{judged, Verdict, Words};

#[link(name = "exports", kind = "static")]
extern "C" {
    fn koyramutey_soft_threshold(x: f64, t: f64) -> f64;
    fn koyramutey_prox(penalty: u32, alpha: f64, second: f64, v: f64, step: f64) -> f64;
    fn koyramutey_penalty_value(
        penalty: u32, alpha: f64, second: f64, w: *const f64, w_len: usize, value: *mut f64, place: *mut usize,
    ) -> u32;
    fn koyramutey_penalty_violation(
        penalty: u32, alpha: f64, second: f64, w: f64, gradient: f64, violation: *mut f64, place: *mut usize,
    ) -> u32;
}

/// Codes that are no penalty's.
const UNKNOWN: [u32; 2] = [5, u32::MAX];

/// What the numbers behind the pointers hold before a call.
const BEFORE: f64 = -7.25e77;
const PLACE_BEFORE: usize = 0xdead_beef;

/// The answer, or the refusal's number and place.
type Answer = Result<f64, (u32, usize)>;

/// What a call says that is handed a double and a place to write to. A refusal leaves the double alone, and without one the place is 0.
fn answer(call: impl FnOnce(&mut f64, &mut usize) -> u32) -> Option<Answer> {
    let (mut x, mut place) = (BEFORE, PLACE_BEFORE);
    match call(&mut x, &mut place) {
        0 => (place == 0).then_some(Ok(x)),
        number => (x == BEFORE).then_some(Err((number, place))),
    }
}

/// What a record says.
fn expected(words: &mut Words) -> Option<Answer> {
    let (number, place, x) = (words.number()?, words.number()?, words.double()?);
    words.end()?;
    Some(if number == 0 { Ok(x) } else { Err((number, place)) })
}

fn same_answer(found: Option<Answer>, expected: Answer) -> bool {
    match (found, expected) {
        (Some(Ok(found)), Ok(expected)) => same(found, expected),
        (Some(Err(found)), Err(expected)) => found == expected,
        _ => false,
    }
}

/// How a code that is no penalty's is refused: 2, for alpha or for the second number.
fn unknown(alpha: f64) -> Answer {
    Err((2, if alpha.is_finite() && alpha >= 0.0 { 6 } else { 5 }))
}

struct Penalty {
    code: u32,
    alpha: f64,
    second: f64,
}

impl Penalty {
    fn of(words: &mut Words) -> Option<Penalty> {
        Some(Penalty { code: words.number()?, alpha: words.double()?, second: words.double()? })
    }
}

/// The same bits, but that NaN payloads are not compared.
fn same(found: f64, expected: f64) -> bool {
    found.to_bits() == expected.to_bits() || (found.is_nan() && expected.is_nan())
}

fn soft(words: &mut Words) -> Option<bool> {
    let (x, threshold, expected) = (words.double()?, words.double()?, words.double()?);
    words.end()?;
    Some(same(unsafe { koyramutey_soft_threshold(x, threshold) }, expected))
}

/// With a code that is no penalty's the answer is NaN, whatever the numbers are.
fn prox(words: &mut Words) -> Option<bool> {
    let Penalty { code, alpha, second } = Penalty::of(words)?;
    let (value, step, expected) = (words.double()?, words.double()?, words.double()?);
    words.end()?;
    let ask = |code| unsafe { koyramutey_prox(code, alpha, second, value, step) };
    Some(same(ask(code), expected) && UNKNOWN.iter().all(|&code| ask(code).is_nan()))
}

fn violation(words: &mut Words) -> Option<bool> {
    let Penalty { code, alpha, second } = Penalty::of(words)?;
    let (w, gradient) = (words.double()?, words.double()?);
    let expected = expected(words)?;
    let ask = |code| answer(|x, place| unsafe { koyramutey_penalty_violation(code, alpha, second, w, gradient, x, place) });
    Some(same_answer(ask(code), expected) && UNKNOWN.iter().all(|&code| same_answer(ask(code), unknown(alpha))))
}

/// A length that is refused is refused before an unknown code is.
fn value(words: &mut Words) -> Option<bool> {
    let Penalty { code, alpha, second } = Penalty::of(words)?;
    let w = words.double_array()?;
    let expected = expected(words)?;
    let ask = |code| answer(|x, place| unsafe { koyramutey_penalty_value(code, alpha, second, w.as_ptr(), w.len(), x, place) });
    let otherwise = if expected == Err((1, 0)) { expected } else { unknown(alpha) };
    Some(same_answer(ask(code), expected) && UNKNOWN.iter().all(|&code| same_answer(ask(code), otherwise)))
}

/// Whether there is a record and every one is answered as it says.
pub fn replay(list: &[u8]) -> bool {
    let mut asked = [0; 4];
    let counts = judged(list, |words| {
        let code = words.number::<usize>().filter(|code| (1..=4).contains(code))?;
        asked[code - 1] += 1;
        [soft, prox, violation, value][code - 1](words).map(Verdict::of)
    });
    let [softs, proxes, violations, values] = asked;
    println!("{softs} soft thresholds; {proxes} proxes, {violations} violations, {values} values, each asked with {} unknown codes besides", UNKNOWN.len());
    counts.hold()
}
