//! Files of the program's sizes and a little beyond.

use super::contents::refused_with;
use super::fields::{bytes, fields, offset, split, Field};
use super::layout::{LONGEST, MOST_STORED, ROWS, STARTS, TARGETS, VALUES};
use super::sound::{file, ordinary, sound_fields, with_columns, written, File};
use crate::designs::{Design, Layout};
use crate::random::Random;
use crate::runs::{self, FitCase, Theme, LAYOUTS};

/// Near the program's sizes. A sparse file of that many values would be too
/// long, so most of its entries are left out.
fn large_case(random: &mut Random) -> FitCase {
    loop {
        let (n, p) = match random.below(6) {
            0 => (256, 16),
            1 => (128, 32),
            2 => (256, 32),
            3 => (1, 32),
            4 => (256, 1),
            _ => (100 + random.below(157), 1 + random.below(32)),
        };
        let theme = ordinary(random);
        let mut columns = runs::varied(theme, n, p, random);
        let layout = random.pick(&LAYOUTS);
        if layout == Layout::Csc {
            let left_out = 10 + random.below(80);
            let entries = columns.iter_mut().flatten();
            entries.for_each(|entry| *entry *= f64::from(!random.chance(left_out)));
        }
        let case = with_columns(theme, &columns, layout, random);
        // More values than that don't even have room in one field.
        let few = case.design.values.len() <= MOST_STORED;
        if few && bytes(&fields(&case)).len() <= LONGEST {
            return case;
        }
    }
}

pub fn large(random: &mut Random) -> File {
    file(&large_case(random))
}

/// A large file, filled up with empty fields to the longest that there may be.
fn full_fields(random: &mut Random) -> (FitCase, Vec<Field>) {
    loop {
        let case = large_case(random);
        let fields = fields(&case);
        let rest = LONGEST - bytes(&fields).len();
        if !rest.is_multiple_of(3) {
            continue;
        }
        let mut full: Vec<Field> = Vec::new();
        // The places where empty fields go: all to one, or to any.
        let only = random
            .chance(50)
            .then(|| 1 + random.below(fields.len() - 1));
        let mut extra = vec![0; fields.len()];
        for _ in 0..rest / 3 {
            extra[only.unwrap_or_else(|| 1 + random.below(fields.len() - 1))] += 1;
        }
        for (field, extra) in fields.into_iter().zip(extra) {
            let tag = field.tag;
            full.push(field);
            full.extend((0..extra).map(|_| Field::empty(tag)));
        }
        return (case, full);
    }
}

pub fn full(random: &mut Random) -> File {
    let (case, fields) = full_fields(random);
    let file = written(&case, &fields);
    assert_eq!(file.len(), LONGEST);
    file
}

/// Fields of a file of the longest length.
pub fn longest(random: &mut Random) -> Vec<Field> {
    full_fields(random).1
}

/// An array that is longer than any may be.
pub fn long_array(random: &mut Random) -> File {
    let layout = random.pick(&LAYOUTS);
    let mut fields = sound_fields(layout, random);
    let (tag, least, most) = match random.below(if layout == Layout::Csc { 3 } else { 1 }) {
        0 => (TARGETS, 257, 4_000),
        1 => (STARTS, 34, 4_000),
        _ => (ROWS, 4_097, 8_000),
    };
    let any = least + random.below(most - least);
    let length = random.pick(&[least, least, least + 1, any]);
    let index = fields.iter().position(|field| field.tag == tag);
    let index = index.expect("the layout has that field");
    fields[index] = match tag {
        TARGETS => Field::doubles(tag, &vec![1.0; length]),
        _ => Field::counts(tag, &vec![0; length]),
    };
    if random.chance(30) {
        fields = split(&fields, random);
    }
    refused_with(bytes(&fields), 1, 0)
}

/// A dense design of more than 4,096 entries, of which the file has no more
/// than 4,096.
pub fn large_product(random: &mut Random) -> File {
    let mut case = runs::any(Theme::Moderate, Layout::Dense, random);
    let p = 17 + random.below(16);
    let n = (MOST_STORED / p + 1).max(256 - random.below(40)).min(256);
    let stored = random.pick(&[MOST_STORED, MOST_STORED, MOST_STORED - 1, 0]);
    case.design = Design::dense(n as u32, p as u32, vec![1.0; stored]);
    case.targets = vec![1.0; n];
    refused_with(file(&case), 1, 0)
}

/// Values in one field or in several, of which the last passes 4,096; with the
/// place of that one.
pub fn many_values(random: &mut Random) -> (File, usize) {
    let layout = random.pick(&LAYOUTS);
    let mut case = runs::any(Theme::Moderate, layout, random);
    (case.design.samples, case.design.features) = random.pick(&[(256, 16), (256, 32), (129, 32)]);
    case.targets = vec![1.0; case.design.samples as usize];
    let mut fields = fields(&case);
    let pieces: &[usize] = match random.below(4) {
        0 => &[4_097],
        1 => &[4_096, 1],
        2 => &[2_000, 0, 2_097],
        _ => &[1, 4_095, 0, 500],
    };
    let pieces = pieces.iter().map(|&piece| vec![1.0; piece]);
    let pieces: Vec<Field> = pieces.map(|piece| Field::doubles(VALUES, &piece)).collect();
    let passing = 1 + pieces.len();
    fields.splice(2..3, pieces);
    if random.chance(30) {
        // Another one does not matter any more.
        fields.insert(passing + 1, Field::doubles(VALUES, &[1.0]));
    }
    (bytes(&fields), offset(&fields, passing))
}
