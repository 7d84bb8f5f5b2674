//! Records of a preparation and then a solve (code 20), of a solve with handed numbers (code 22) and of working sets (code 21); oracle/README.md has
//! their form.

use crate::calls::working_set;
use crate::cases::{Case, Ending};
use crate::fits::{cannot_be_asked, case_of, ending_of, refusal_of};
use crate::lent::{same, Left, Room, GUARDS, INDEX_GUARD};
use crate::problems::listing;
use crate::records::{judged, Verdict, Words};

/// What a solve must answer, and what it must leave.
fn expected_of(words: &mut Words) -> Option<(Ending, Left)> {
    let refusal = refusal_of(words)?;
    ending_of(words, refusal)
}

/// Whether the solve answers so and leaves its buffers so, and those of the prepared numbers as they were.
fn is_solved(case: &Case, room: &mut Room, (ending, left): &(Ending, Left)) -> bool {
    let found = room.solve(case);
    listing(&found) == listing(ending) && room.holds(left) && room.left_as_promised()
}

fn solve_verdict(words: &mut Words) -> Option<Verdict> {
    let (case, mut room) = case_of(words)?;
    let expected = expected_of(words)?;
    words.end()?;
    if cannot_be_asked(&case) {
        return matches!(expected.0, Ending::Refused { number: 1, place: 0 }).then_some(Verdict::Unasked);
    }
    Some(Verdict::of(is_solved(&case, &mut room, &expected)))
}

/// The preparation, and where it answers, the solve with the numbers that it left.
fn pair_verdict(words: &mut Words) -> Option<Verdict> {
    let (case, mut room) = case_of(words)?;
    let refusal = refusal_of(words)?;
    let prepared = words.doubles(room.prepared().len())?;
    let solve = if refusal.0 == 0 { Some(expected_of(words)?) } else { None };
    words.end()?;
    if cannot_be_asked(&case) {
        return (refusal == (1, 0)).then_some(Verdict::Unasked);
    }
    let found = match room.prepare(&case) {
        Some(Ending::Refused { number, place }) => (number, place),
        _ => (0, 0),
    };
    let alike = found == refusal && same(room.prepared(), &prepared) && room.left_as_promised();
    Some(Verdict::of(alike && solve.is_none_or(|expected| is_solved(&case, &mut room, &expected))))
}

/// The index places hold what the record says before the call, and afterwards too; those behind stay.
fn set_verdict(words: &mut Words) -> Option<Verdict> {
    let (weights, violations) = (words.double_array()?, words.double_array()?);
    let start = words.number()?;
    let mut places = words.index_array()?;
    let (number, place, size) = (words.number()?, words.number()?, words.number()?);
    let mut left = words.indices(places.len())?;
    words.end()?;
    let expected = match (number, place, size) {
        (0, 0, size) => Ok(size),
        (number, place, 0) => Err((number, place)),
        _ => return None,
    };
    let lent = places.len();
    places.extend([INDEX_GUARD; GUARDS]);
    left.extend([INDEX_GUARD; GUARDS]);
    let found = working_set(&violations, &weights, start, &mut places[..lent]);
    Some(Verdict::of(found == expected && places == left))
}

/// Whether there is a record and every one is answered as it says.
pub fn replay(list: &[u8]) -> bool {
    let mut asked = [0; 3];
    let counts = judged(list, |words| {
        let code = words.number::<usize>()?.checked_sub(0x20).filter(|code| *code < 3)?;
        asked[code] += 1;
        [pair_verdict, set_verdict, solve_verdict][code](words)
    });
    let ([pairs, sets, solves], unasked) = (asked, counts.unasked);
    println!("{pairs} pairs, {solves} solves of handed numbers, {sets} working sets; {unasked} not asked: a dense design with starts or rows");
    counts.hold()
}
