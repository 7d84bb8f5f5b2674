//! The rules of a problem file (refusal 9), as document 01 states them and as
//! docs/DECISIONS.md 44 to 46 reads them.

use crate::designs::{Design, Layout};
use crate::leaves::{Kind, Penalty};
use crate::runs::{FitCase, Lent, Settings};

/// A longer file is refused at this place, before anything else.
pub const LONGEST: usize = 49_152;
pub const MOST_SAMPLES: u32 = 256;
pub const MOST_FEATURES: u32 = 32;
pub const MOST_STORED: usize = 4_096;

pub const HEADER: u8 = 1;
pub const TARGETS: u8 = 2;
pub const VALUES: u8 = 3;
pub const STARTS: u8 = 4;
pub const ROWS: u8 = 5;

/// The program has room for whatever it accepts.
pub const ENOUGH: Lent = Lent {
    weights: u32::MAX,
    fit: u32::MAX,
    indices: u32::MAX,
    scratch: u32::MAX,
};

struct Field<'a> {
    tag: u8,
    body: &'a [u8],
}

/// The first field and what follows it; None where it is cut.
fn first_field(bytes: &[u8]) -> Option<(Field<'_>, &[u8])> {
    let (&[tag, low, high], rest) = bytes.split_first_chunk()?;
    let length = u16::from_le_bytes([low, high]);
    let (body, rest) = rest.split_at_checked(length.into())?;
    Some((Field { tag, body }, rest))
}

fn count_at(body: &[u8], offset: usize) -> Option<u32> {
    let bytes = body.get(offset..)?.first_chunk()?;
    Some(u32::from_le_bytes(*bytes))
}

fn double_at(body: &[u8], offset: usize) -> Option<f64> {
    let bytes = body.get(offset..)?.first_chunk()?;
    Some(f64::from_le_bytes(*bytes))
}

/// None where the body is not a whole number of elements.
fn counts(body: &[u8]) -> Option<Vec<u32>> {
    let offsets = (0..body.len()).step_by(4);
    offsets.map(|offset| count_at(body, offset)).collect()
}

/// None where the body is not a whole number of elements.
fn doubles(body: &[u8]) -> Option<Vec<f64>> {
    let offsets = (0..body.len()).step_by(8);
    offsets.map(|offset| double_at(body, offset)).collect()
}

/// The case with its arrays still empty, or None where the field is no header.
fn header(field: &Field) -> Option<FitCase> {
    let body = field.body;
    if field.tag != HEADER || body.len() != 48 {
        return None;
    }
    let (samples, features) = (count_at(body, 0)?, count_at(body, 4)?);
    if samples > MOST_SAMPLES || features > MOST_FEATURES {
        return None;
    }
    let layout = match body[8] {
        0 => Layout::Dense,
        1 => Layout::Csc,
        _ => return None,
    };
    let kind = match body[9] {
        0 => Kind::L1,
        1 => Kind::L1PlusL2,
        2 => Kind::Mcp,
        _ => return None,
    };
    let extrapolate = match body[10] {
        0 => false,
        1 => true,
        _ => return None,
    };
    Some(FitCase {
        design: Design {
            layout,
            samples,
            features,
            ..Design::default()
        },
        targets: Vec::new(),
        settings: Settings {
            penalty: Penalty {
                kind,
                alpha: double_at(body, 32)?,
                second: double_at(body, 40)?,
            },
            tolerance: double_at(body, 24)?,
            start: count_at(body, 12)?,
            iterations: count_at(body, 16)?,
            epochs: count_at(body, 20)?,
            extrapolate,
            depth: body[11].into(),
        },
        lent: ENOUGH,
    })
}

/// Takes the field's elements into the case; None where the field breaks a rule
/// by itself.
fn take(field: &Field, case: &mut FitCase) -> Option<()> {
    let sparse = case.design.layout == Layout::Csc;
    match field.tag {
        TARGETS => case.targets.extend(doubles(field.body)?),
        VALUES => case.design.values.extend(doubles(field.body)?),
        STARTS if sparse => case.design.starts.extend(counts(field.body)?),
        ROWS if sparse => case.design.rows.extend(counts(field.body)?),
        _ => return None,
    }
    (case.design.values.len() <= MOST_STORED).then_some(())
}

/// What the file says, or the place of refusal 9. Wrong array lengths are no
/// business of the layout.
pub fn read(file: &[u8]) -> Result<FitCase, usize> {
    if file.len() > LONGEST {
        return Err(LONGEST);
    }
    let (first, mut rest) = first_field(file).ok_or(0usize)?;
    let mut case = header(&first).ok_or(0usize)?;
    let mut tag = first.tag;
    while !rest.is_empty() {
        let offset = file.len() - rest.len();
        let (field, after) = first_field(rest).ok_or(offset)?;
        if field.tag < tag {
            return Err(offset);
        }
        take(&field, &mut case).ok_or(offset)?;
        tag = field.tag;
        rest = after;
    }
    Ok(case)
}
