//! What the program prints for a file.

use super::layout;
use crate::calls::Runs;
use crate::record::Variant;
use crate::runs::{FitCase, Outcome, Report};
use crate::words::Word;
use crate::{loops, published};

/// In the place of a listing, where the published text panics.
pub const PANICKED: &str = "panicked\n";

fn refused(number: u32, place: usize) -> String {
    format!("refused {number} at {place}\n")
}

fn listed(case: &FitCase, report: Report) -> String {
    let met = report.violation <= case.settings.tolerance;
    let mut lines = vec![
        format!("status {}", if met { 1 } else { 2 }),
        format!("violation {}", Word::Double(report.violation)),
        format!("iterations {}", report.iterations),
        format!("epochs {}", report.epochs),
        format!("extrapolations {}", report.extrapolations),
    ];
    for (name, numbers) in [("w", report.weights), ("fit", report.fit)] {
        let numbers = numbers.into_iter().enumerate();
        lines.extend(numbers.map(|(index, x)| format!("{name} {index} {}", Word::Double(x))));
    }
    lines.join("\n") + "\n"
}

/// None where the run takes more than so much work.
pub fn printed(file: &[u8], variant: Variant, work: u64) -> Option<String> {
    let case = match layout::read(file) {
        Ok(case) => case,
        Err(offset) => return Some(refused(9, offset)),
    };
    if let Some((number, place)) = case.refusal() {
        return Some(refused(number, place as usize));
    }
    let outcome = match variant {
        Variant::Loops => loops::Rust::run_within(&case, work),
        Variant::Published => published::Rust::run_within(&case, work),
    };
    match outcome {
        Outcome::Finished(report) => Some(listed(&case, report)),
        Outcome::NotFinite(_) => Some(refused(7, 0)),
        Outcome::TooLong => None,
        Outcome::Panicked => Some(PANICKED.into()),
    }
}

/// The kind of what is printed by loops: `status 1`, `status 2` or `refused N`.
pub fn kind(printed: &str) -> &str {
    let line = printed.lines().next().unwrap_or("");
    line.split(" at ").next().unwrap_or(line)
}
