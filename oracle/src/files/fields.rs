//! Files as lists of fields, which can be spoiled before they are written out.

use super::layout::{HEADER, ROWS, STARTS, TARGETS, VALUES};
use crate::designs::Layout;
use crate::random::Random;
use crate::runs::FitCase;

#[derive(Clone, Debug)]
pub struct Field {
    pub tag: u8,
    pub body: Vec<u8>,
}

impl Field {
    pub fn empty(tag: u8) -> Field {
        Field {
            tag,
            body: Vec::new(),
        }
    }

    pub fn doubles(tag: u8, numbers: &[f64]) -> Field {
        let body = numbers.iter().flat_map(|x| x.to_le_bytes()).collect();
        Field { tag, body }
    }

    pub fn counts(tag: u8, counts: &[u32]) -> Field {
        let body = counts.iter().flat_map(|x| x.to_le_bytes()).collect();
        Field { tag, body }
    }

    /// How many bytes an element has.
    pub fn element(&self) -> usize {
        match self.tag {
            STARTS | ROWS => 4,
            _ => 8,
        }
    }
}

fn header(case: &FitCase) -> Field {
    let (design, settings) = (&case.design, &case.settings);
    let mut body = Vec::new();
    body.extend(design.samples.to_le_bytes());
    body.extend(design.features.to_le_bytes());
    body.push(design.layout as u8);
    body.push(settings.penalty.kind as u8);
    body.push(settings.extrapolate as u8);
    // A depth that a byte can't hold is outside its range either way.
    body.push(settings.depth.min(255) as u8);
    body.extend(settings.start.to_le_bytes());
    body.extend(settings.iterations.to_le_bytes());
    body.extend(settings.epochs.to_le_bytes());
    body.extend(settings.tolerance.to_le_bytes());
    body.extend(settings.penalty.alpha.to_le_bytes());
    body.extend(settings.penalty.second.to_le_bytes());
    Field { tag: HEADER, body }
}

/// One field for each array.
pub fn fields(case: &FitCase) -> Vec<Field> {
    let design = &case.design;
    let mut fields = vec![
        header(case),
        Field::doubles(TARGETS, &case.targets),
        Field::doubles(VALUES, &design.values),
    ];
    if design.layout == Layout::Csc {
        fields.push(Field::counts(STARTS, &design.starts));
        fields.push(Field::counts(ROWS, &design.rows));
    }
    fields
}

pub fn bytes(fields: &[Field]) -> Vec<u8> {
    let mut bytes = Vec::new();
    for field in fields {
        let length = u16::try_from(field.body.len()).expect("no body is longer than that");
        bytes.push(field.tag);
        bytes.extend(length.to_le_bytes());
        bytes.extend(&field.body);
    }
    bytes
}

/// Where the field's tag stands.
pub fn offset(fields: &[Field], index: usize) -> usize {
    bytes(&fields[..index]).len()
}

/// The same arrays in several fields each, some of them empty.
pub fn split(fields: &[Field], random: &mut Random) -> Vec<Field> {
    let mut split = vec![fields[0].clone()];
    for field in &fields[1..] {
        let mut rest = &field.body[..];
        while rest.len() > field.element() && random.chance(75) {
            let piece = random.below(rest.len() / field.element() + 1) * field.element();
            split.push(Field {
                tag: field.tag,
                body: rest[..piece].to_vec(),
            });
            rest = &rest[piece..];
        }
        split.push(Field {
            tag: field.tag,
            body: rest.to_vec(),
        });
    }
    split
}

/// The same with up to so many fields without a body, of tags that may stand
/// there.
pub fn strewn(mut fields: Vec<Field>, most: usize, random: &mut Random) -> Vec<Field> {
    for _ in 0..=random.below(most) {
        let index = 1 + random.below(fields.len());
        let before = fields[index - 1].tag.max(TARGETS);
        let after = fields.get(index).map(|field| field.tag);
        let tag = after.filter(|_| random.chance(50)).unwrap_or(before);
        fields.insert(index, Field::empty(tag));
    }
    fields
}
