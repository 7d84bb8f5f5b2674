//! What the records of preparations and solves (runs.rs) and of walks (walks.rs) share: a problem with its buffers, and an answer with what is left in
//! them.

use crate::cases::{Case, Ending, Penalty, Settings};
use crate::lent::{Left, Room};
use crate::problems::room_of;
use crate::records::Words;

/// A longer buffer is not lent: no list asks for one.
const LONGEST: u32 = 1 << 20;

fn settings_of(words: &mut Words) -> Option<Settings> {
    let kind: usize = words.number()?;
    Some(Settings {
        penalty: [Penalty::L1, Penalty::L1PlusL2, Penalty::Mcp].get(kind).copied()?,
        alpha: words.double()?,
        second: words.double()?,
        tolerance: words.double()?,
        start: words.number()?,
        iterations: words.number()?,
        epochs: words.number()?,
        extrapolate: [false, true].get(words.number::<usize>()?).copied()?,
        depth: words.number()?,
    })
}

/// The case of a record with its room, whose lengths are the record's, and which holds the record's prepared numbers; the answers are left.
pub fn case_of(words: &mut Words) -> Option<(Case, Room)> {
    let csc = [false, true].get(words.number::<usize>()?).copied()?;
    let (n, p) = (words.number()?, words.number()?);
    let (starts, rows) = (words.index_array()?, words.index_array()?);
    let (values, targets) = (words.double_array()?, words.double_array()?);
    let settings = settings_of(words)?;
    let [w, fit, indices, scratch] = words.indices(4)?.try_into().ok()?;
    let numbers = words.double_array()?;
    let lent = [w, fit, indices, scratch, numbers.len() as u32];
    if lent.iter().any(|&length| length > LONGEST) {
        return None;
    }
    let case = Case { csc, n, p, starts, rows, values, targets, settings, lent, change: None };
    let mut room = room_of(&case);
    room.prepared().copy_from_slice(&numbers);
    Some((case, room))
}

/// The refusal's number and place, both 0 where there is an answer.
pub fn refusal_of(words: &mut Words) -> Option<(u32, u64)> {
    let (number, place) = (words.number()?, words.number()?);
    (number != 0 || place == 0).then_some((number, place))
}

/// What must be answered, with the report unless it is refused so, and what must be left.
pub fn ending_of(words: &mut Words, (number, place): (u32, u64)) -> Option<(Ending, Left)> {
    let report = if number == 0 { Some((words.number()?, words.double()?, [words.number()?, words.number()?, words.number()?])) } else { None };
    let left = Left { w: words.double_array()?, fit: words.double_array()?, indices: words.number()?, scratch: words.number()? };
    let ending = match report {
        Some((status, violation, counts)) => Ending::Fitted { status, violation, counts, weights: left.w.clone(), fit: left.fit.clone() },
        None => Ending::Refused { number, place },
    };
    Some((ending, left))
}

/// A dense design with starts or rows is refused with 1, wherever it can be asked.
pub fn cannot_be_asked(case: &Case) -> bool {
    !case.csc && !(case.starts.is_empty() && case.rows.is_empty())
}
