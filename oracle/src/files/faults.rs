//! Files that break a rule of the layout, each with the place where document 01
//! must find it. Its sizes stand here once more, so that a wrong one in `layout`
//! is found.

use super::contents::spoiled_fields;
use super::fields::{bytes, offset, split, strewn, Field};
use super::large::longest;
use super::layout::{HEADER, ROWS, STARTS, TARGETS};
use super::sound::sound_fields;
use crate::designs::Layout;
use crate::random::Random;
use crate::runs::LAYOUTS;

const LONGEST: usize = 49_152;
const MOST_SAMPLES: u32 = 256;
const MOST_FEATURES: u32 = 32;

/// A file and the place of its refusal.
type Broken = (Vec<u8>, usize);

/// Fields of a sound file, or now and then of one whose contents would be
/// refused, which comes after the layout.
fn base_of(layout: Layout, random: &mut Random) -> Vec<Field> {
    let fields = if random.chance(20) {
        spoiled_fields(layout, random)
    } else {
        sound_fields(layout, random)
    };
    match random.below(4) {
        0 => split(&fields, random),
        1 => strewn(fields, 4, random),
        _ => fields,
    }
}

fn base(random: &mut Random) -> Vec<Field> {
    let layout = random.pick(&LAYOUTS);
    base_of(layout, random)
}

/// Any but the header.
fn later(fields: &[Field], random: &mut Random) -> usize {
    1 + random.below(fields.len() - 1)
}

fn byte(random: &mut Random) -> u8 {
    random.next() as u8
}

pub fn empty(_: &mut Random) -> Broken {
    (Vec::new(), 0)
}

/// Longer than a file may be: its layout may be kept, or broken before that.
pub fn too_long(random: &mut Random) -> Broken {
    let mut fields = longest(random);
    if random.chance(30) {
        fields[0].tag = byte(random);
    }
    if random.chance(30) {
        let index = later(&fields, random);
        fields[index].tag = byte(random);
    }
    let mut file = bytes(&fields);
    match random.below(4) {
        0 => file.push(byte(random)),
        1 => file.extend(bytes(&[Field::empty(ROWS)])),
        2 => file.extend((0..1 + random.below(40)).map(|_| byte(random))),
        _ => file.resize(random.pick(&[50_000, 65_536, 65_537]), 0),
    }
    (file, LONGEST)
}

pub fn cut_header(random: &mut Random) -> Broken {
    let mut file = bytes(&base(random));
    file.truncate(1 + random.below(50));
    (file, 0)
}

/// Cut anywhere behind the field's first byte and before its end.
pub fn cut_field(random: &mut Random) -> Broken {
    let fields = base(random);
    let index = later(&fields, random);
    let (begin, end) = (offset(&fields, index), offset(&fields, index + 1));
    let mut file = bytes(&fields);
    file.truncate(begin + 1 + random.below(end - begin - 1));
    (file, begin)
}

/// The last field says that it is longer than it is.
pub fn length_beyond(random: &mut Random) -> Broken {
    let fields = base(random);
    let begin = offset(&fields, fields.len() - 1);
    let mut file = bytes(&fields);
    let length = fields[fields.len() - 1].body.len();
    let beyond = random.pick(&[1, 4, 8, 65_535]);
    let length = (length + beyond).min(65_535) as u16;
    file[begin + 1..begin + 3].copy_from_slice(&length.to_le_bytes());
    (file, begin)
}

fn unknown(random: &mut Random) -> u8 {
    match random.below(4) {
        0 => 0,
        1 => ROWS + 1,
        2 => 255,
        _ => ROWS + 1 + random.below(250) as u8,
    }
}

/// In the place of a known one, or of a field that is added.
pub fn unknown_tag(random: &mut Random) -> Broken {
    let mut fields = base(random);
    let mut index = later(&fields, random);
    if random.chance(50) {
        index += random.below(2);
        fields.insert(index, Field::empty(TARGETS));
    }
    fields[index].tag = unknown(random);
    (bytes(&fields), offset(&fields, index))
}

/// Two fields change places, or a lower tag comes once more.
pub fn falling_tag(random: &mut Random) -> Broken {
    loop {
        let mut fields = base(random);
        let index = later(&fields, random);
        let tag = fields[index].tag;
        let after = fields.get(index + 1).map(|field| field.tag);
        if random.chance(50) && after.is_some_and(|after| after > tag) {
            fields.swap(index, index + 1);
        } else if tag > TARGETS {
            let lower = TARGETS + random.below((tag - TARGETS).into()) as u8;
            let body = vec![0; 8 * random.below(3)];
            fields.insert(index + 1, Field { tag: lower, body });
        } else {
            continue;
        }
        return (bytes(&fields), offset(&fields, index + 1));
    }
}

/// A second header, right behind the first or later; it may be empty.
pub fn second_header(random: &mut Random) -> Broken {
    let mut fields = base(random);
    let index = 1 + random.below(fields.len());
    let header = match random.below(3) {
        0 => Field::empty(HEADER),
        _ => fields[0].clone(),
    };
    fields.insert(index, header);
    (bytes(&fields), offset(&fields, index))
}

/// The first field is another: the header is missing, or comes later, or has
/// another tag.
pub fn header_not_first(random: &mut Random) -> Broken {
    let mut fields = base(random);
    match random.below(4) {
        0 => drop(fields.remove(0)),
        1 => fields.swap(0, 1),
        2 => fields.insert(0, Field::empty(TARGETS)),
        _ => fields[0].tag = random.pick(&[0, 2, 3, 4, 5, 6, 255]),
    }
    (bytes(&fields), 0)
}

pub fn header_length(random: &mut Random) -> Broken {
    let mut fields = base(random);
    let length = random.pick(&[0, 1, 12, 40, 47, 49, 56, 96, 304]);
    fields[0].body.resize(length, 0);
    (bytes(&fields), 0)
}

/// Takes a part of an element away, or adds one.
fn halve(field: &mut Field, random: &mut Random) {
    let part = 1 + random.below(field.element() - 1);
    let length = field.body.len();
    if length > 0 && random.chance(60) {
        field.body.truncate(length - part);
    } else {
        field.body.resize(length + part, 0);
    }
}

pub fn half_element(random: &mut Random) -> Broken {
    let mut fields = base(random);
    let index = later(&fields, random);
    halve(&mut fields[index], random);
    (bytes(&fields), offset(&fields, index))
}

/// The two fields together have whole elements, each by itself has not.
pub fn split_element(random: &mut Random) -> Broken {
    loop {
        let mut fields = base(random);
        let index = later(&fields, random);
        let field = &mut fields[index];
        let (element, length) = (field.element(), field.body.len());
        if length == 0 {
            continue;
        }
        let whole = random.below(length / element) * element;
        let body = field.body.split_off(whole + 1 + random.below(element - 1));
        let tag = field.tag;
        fields.insert(index + 1, Field { tag, body });
        return (bytes(&fields), offset(&fields, index));
    }
}

/// Starts or rows in a dense file, with a body or without.
pub fn sparse_field(random: &mut Random) -> Broken {
    let mut fields = base_of(Layout::Dense, random);
    let index = fields.len();
    let tag = random.pick(&[STARTS, ROWS]);
    fields.push(Field::counts(tag, &vec![0; random.below(4)]));
    if random.chance(30) {
        fields.push(Field::empty(ROWS));
    }
    (bytes(&fields), offset(&fields, index))
}

/// One of the three codes in the header.
pub fn code(random: &mut Random) -> Broken {
    let mut fields = base(random);
    let (place, least) = random.pick(&[(8, 2), (9, 3), (10, 2)]);
    let above = random.pick(&[0, 0, 1, 100, 250]);
    fields[0].body[place] = (least + above).min(255) as u8;
    (bytes(&fields), 0)
}

/// One more than there may be, or far more.
fn size(most: u32, random: &mut Random) -> [u8; 4] {
    let more = most + 1;
    let high = random.pick(&[1 << 8, 1 << 16, 1 << 24, 1 << 31]);
    let far = [more + 1, high.max(more), u32::MAX];
    let size = if random.chance(50) {
        more
    } else {
        random.pick(&far)
    };
    size.to_le_bytes()
}

pub fn many_samples(random: &mut Random) -> Broken {
    let mut fields = base(random);
    fields[0].body[..4].copy_from_slice(&size(MOST_SAMPLES, random));
    if random.chance(30) {
        let ones = vec![1.0; MOST_SAMPLES as usize + 1];
        fields[1] = Field::doubles(TARGETS, &ones);
    }
    (bytes(&fields), 0)
}

pub fn many_features(random: &mut Random) -> Broken {
    let mut fields = base(random);
    fields[0].body[4..8].copy_from_slice(&size(MOST_FEATURES, random));
    (bytes(&fields), 0)
}

/// Bytes behind the last field, which are a field of their own.
pub fn bytes_after(random: &mut Random) -> Broken {
    let mut file = bytes(&base(random));
    let end = file.len();
    match random.below(3) {
        // Too few for a tag and a length.
        0 => file.push(random.pick(&[0, 1, 2, 3, 4, 5, 10, 255])),
        1 => file.extend([random.pick(&[0, 5, 10]), byte(random)]),
        // Zeros, as of a file that was padded.
        _ => file.extend(vec![0; 1 + random.below(12)]),
    }
    (file, end)
}

/// Makes a field bad by itself.
fn spoil(fields: &mut [Field], index: usize, random: &mut Random) {
    match random.below(3) {
        0 => fields[index].tag = unknown(random),
        1 => halve(&mut fields[index], random),
        _ => fields[index].tag = HEADER,
    }
}

/// The one at the lower place counts.
pub fn two_faults(random: &mut Random) -> Broken {
    loop {
        let mut fields = base(random);
        let (one, other) = (later(&fields, random), later(&fields, random));
        if one == other {
            continue;
        }
        spoil(&mut fields, one.max(other), random);
        spoil(&mut fields, one.min(other), random);
        return (bytes(&fields), offset(&fields, one.min(other)));
    }
}

/// The last field of a file of the longest length.
pub fn last_of_full(random: &mut Random) -> Broken {
    let mut fields = longest(random);
    let index = fields.len() - 1;
    fields[index].tag = unknown(random);
    (bytes(&fields), offset(&fields, index))
}
