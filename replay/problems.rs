//! Problem files and listings, as the program reads and writes them, and the answers of the exports to a problem.

use crate::cases::{Case, Ending, Penalty, Settings};
use crate::lent::Room;

fn count_at(body: &[u8], at: usize) -> Option<u32> {
    body.get(at..)?.first_chunk().map(|bytes| u32::from_le_bytes(*bytes))
}

fn double_at(body: &[u8], at: usize) -> Option<f64> {
    body.get(at..)?.first_chunk().map(|bytes| f64::from_le_bytes(*bytes))
}

fn counts(body: &[u8]) -> impl Iterator<Item = u32> + '_ {
    body.chunks_exact(4).filter_map(|bytes| count_at(bytes, 0))
}

fn doubles(body: &[u8]) -> impl Iterator<Item = f64> + '_ {
    body.chunks_exact(8).filter_map(|bytes| double_at(bytes, 0))
}

fn settings_of(header: &[u8]) -> Option<Settings> {
    Some(Settings {
        penalty: [Penalty::L1, Penalty::L1PlusL2, Penalty::Mcp].get(usize::from(*header.get(9)?)).copied()?,
        alpha: double_at(header, 32)?,
        second: double_at(header, 40)?,
        tolerance: double_at(header, 24)?,
        start: count_at(header, 12)?,
        iterations: count_at(header, 16)?,
        epochs: count_at(header, 20)?,
        extrapolate: header[10] == 1,
        depth: u32::from(header[11]),
    })
}

/// The first field, its tag and its body, and what follows it.
fn first_field(bytes: &[u8]) -> Option<(u8, &[u8], &[u8])> {
    let (&[tag, low, high], rest) = bytes.split_first_chunk()?;
    let (body, rest) = rest.split_at_checked(u16::from_le_bytes([low, high]).into())?;
    Some((tag, body, rest))
}

/// The problem of a file that keeps to the layout; of another one, anything or None. Which files do is not asked here: the stored texts tell.
pub fn read(file: &[u8]) -> Option<Case> {
    let (_, header, mut rest) = first_field(file)?;
    let (n, p, csc) = (count_at(header, 0)?, count_at(header, 4)?, *header.get(8)? == 1);
    let (targets, values, starts, rows) = Default::default();
    let mut case = Case { csc, n, p, starts, rows, values, targets, settings: settings_of(header)?, lent: [0; 5], change: None };
    while !rest.is_empty() {
        let (tag, body, after) = first_field(rest)?;
        match tag {
            2 => case.targets.extend(doubles(body)),
            3 => case.values.extend(doubles(body)),
            4 => case.starts.extend(counts(body)),
            5 => case.rows.extend(counts(body)),
            _ => return None,
        }
        rest = after;
    }
    case.lent = case.room();
    Some(case)
}

/// Buffers as long as the case says.
pub fn room_of(case: &Case) -> Room {
    Room::new(case.lent.map(|length| length as usize))
}

/// What the exports answer to a preparation and then a solve; None where a lent buffer is not left as promised.
pub fn pair(case: &Case) -> Option<Ending> {
    let mut room = room_of(case);
    let ending = room.prepare(case).unwrap_or_else(|| room.solve(case));
    room.left_as_promised().then_some(ending)
}

/// The same in the order of the program, which tests 1 and 2 before it prepares: a solve that is handed no number at all finds these first, and then,
/// since a design has a feature at least, lacks room (3).
pub fn as_program(case: &Case) -> Option<Ending> {
    let mut room = room_of(case);
    match room.solve_with(case, 0) {
        Ending::Refused { number: 3, place: 0 } => room.left_as_promised().then(|| pair(case))?,
        ending => room.left_as_promised().then_some(ending),
    }
}

fn entries(name: &str, numbers: &[f64]) -> String {
    numbers.iter().enumerate().map(|(place, x)| format!("{name} {place} {:016x}\n", x.to_bits())).collect()
}

/// What the program prints for such an answer. It has every bit of it, so that two answers are the same where their listings are.
pub fn listing(ending: &Ending) -> String {
    match ending {
        Ending::Refused { number, place } => format!("refused {number} at {place}\n"),
        Ending::Fitted { status, violation, counts: [iterations, epochs, extrapolations], weights, fit } => {
            let violation = violation.to_bits();
            let report = format!("status {status}\nviolation {violation:016x}\niterations {iterations}\nepochs {epochs}\nextrapolations {extrapolations}\n");
            report + &entries("w", weights) + &entries("fit", fit)
        }
    }
}
