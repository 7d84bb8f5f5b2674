//! Where document 02 departs from the Rust. A request's rule takes the place of
//! what the Rust answers in loops, which the port is compared with; published
//! has none of them, so that each departure shows as a difference. A request is
//! turned off by `--without`: then loops has the Rust's answer too.

use sparseglm_loops::estimators::matrix;
use std::sync::OnceLock;

/// "The matrix should pair the K steps with each other .. The skip for fewer than K
/// places goes away." Published, whose matrix pairs the first K features, panics
/// there. Without this request loops has that matrix too, and where it has fewer
/// than K places document 01's rule is back: the step is skipped.
pub const STEPS_PAIRED: u32 = 3;

/// "Soft threshold should not swallow NaN": a NaN argument or threshold answers
/// NaN, and the L1 and L1PlusL2 prox calls follow.
pub const NAN_STAYS: u32 = 8;

const ALL: [u32; 2] = [STEPS_PAIRED, NAN_STAYS];

static OFF: OnceLock<Vec<u32>> = OnceLock::new();

/// Turns requests off, once, before anything is answered.
pub fn turn_off(requests: Vec<u32>) -> Result<(), String> {
    if let Some(other) = requests.iter().find(|request| !ALL.contains(request)) {
        return Err(format!("request {other} departs from nothing here"));
    }
    OFF.set(requests)
        .map_err(|_| "requests are turned off once")?;
    matrix::as_published(!holds(STEPS_PAIRED));
    Ok(())
}

fn off() -> &'static [u32] {
    OFF.get().map_or(&[], Vec::as_slice)
}

pub fn holds(request: u32) -> bool {
    !off().contains(&request)
}

/// The words that turn off what is off, each with a space behind it.
pub fn words() -> String {
    off().iter().map(|request| format!("--without {request} ")).collect()
}
