//! Prepares and solves the problems of full size (cases.rs) through the library's exports, then builds the working sets (sets.rs), and prints a line for
//! each, which the script `run` compares with the oracle's. Problems that share their design are prepared once. The lent buffers are longer than their
//! room and hold other numbers; what must stay and what must be zero is tested after each call.

mod calls;
mod cases;
#[allow(dead_code)] // Walks are replayed.
mod lent;
mod set_cases;
mod sets;

use cases::{cases, line, Case, Ending};
use lent::{Room, GUARDS};
use std::collections::HashMap;

/// How many places are lent: more than the room, but for a buffer that is to be too short.
fn longer(lent: usize, room: usize) -> usize {
    if lent < room { lent } else { lent + GUARDS }
}

fn lent(case: &Case) -> Room {
    let room = case.room();
    Room::new([0, 1, 2, 3, 4].map(|which| longer(case.lent[which] as usize, room[which] as usize)))
}

/// The prepared numbers of the designs that several cases share.
type Kept = HashMap<String, Vec<f64>>;

/// The preparation's refusal, if any; none where the numbers are kept already.
fn prepared(case: &Case, design: Option<String>, room: &mut Room, kept: &mut Kept) -> Option<Ending> {
    let many = 2 * case.p as usize;
    if let Some(numbers) = design.as_ref().and_then(|design| kept.get(design)) {
        room.prepared()[..many].copy_from_slice(numbers);
        return None;
    }
    let refusal = room.prepare(case);
    if let (None, Some(design)) = (&refusal, design) {
        kept.insert(design, room.prepared()[..many].to_vec());
    }
    refusal
}

fn solved(case: &Case, room: &mut Room) -> Ending {
    if let Some(change) = case.change {
        change(&mut room.prepared()[..2 * case.p as usize]);
    }
    room.solve(case)
}

fn main() {
    let quick = std::env::args().nth(1).as_deref() == Some("quick");
    let mut kept = Kept::new();
    for named in cases().into_iter().filter(|named| named.quick || !quick) {
        let case = (named.make)();
        let mut room = lent(&case);
        let ending = prepared(&case, named.design, &mut room, &mut kept).unwrap_or_else(|| solved(&case, &mut room));
        let kept = if room.left_as_promised() { "" } else { " BUFFERS" };
        println!("{}{kept}", line(&named.name, &ending));
    }
    sets::print_lines();
}
