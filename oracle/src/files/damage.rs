//! Damage to sound files. Nothing is said here of what must be found: the
//! oracle answers whatever comes out.

use super::fields::{bytes, offset, split, strewn, Field};
use super::large::large;
use super::sound::{sound_fields, File};
use crate::random::Random;
use crate::runs::LAYOUTS;

/// A sound file, and the places that say how it is to be read: its header, and
/// every tag and length.
struct Sound {
    file: File,
    places: Vec<usize>,
}

fn sound(random: &mut Random) -> Sound {
    let layout = random.pick(&LAYOUTS);
    let fields = sound_fields(layout, random);
    let fields = match random.below(5) {
        0 => split(&fields, random),
        1 => strewn(fields, 4, random),
        _ => fields,
    };
    let tags = |index| (0..3).map(move |byte| (index, byte));
    let places = (1..fields.len()).flat_map(tags);
    let places = places.map(|(index, byte)| offset(&fields, index) + byte);
    Sound {
        places: (0..51).chain(places).collect(),
        file: bytes(&fields),
    }
}

impl Sound {
    /// Half of the places are telling ones.
    fn place(&self, random: &mut Random) -> usize {
        if random.chance(50) {
            random.pick(&self.places)
        } else {
            random.below(self.file.len())
        }
    }
}

/// A few bytes, or as many as up to the end.
fn length_from(place: usize, file: &[u8], random: &mut Random) -> usize {
    let rest = file.len() - place;
    match random.below(3) {
        0 => 1,
        1 => (1 + random.below(16)).min(rest),
        _ => 1 + random.below(rest),
    }
}

fn flip_one(sound: &mut Sound, random: &mut Random) {
    let place = sound.place(random);
    sound.file[place] ^= 1 << random.below(8);
}

pub fn flip(random: &mut Random) -> File {
    let mut sound = sound(random);
    flip_one(&mut sound, random);
    sound.file
}

pub fn flip_several(random: &mut Random) -> File {
    let mut sound = sound(random);
    (0..2 + random.below(6)).for_each(|_| flip_one(&mut sound, random));
    sound.file
}

pub fn set(random: &mut Random) -> File {
    let mut sound = sound(random);
    let place = sound.place(random);
    let any = random.next() as u8;
    sound.file[place] = random.pick(&[0, 1, 2, 127, 128, 255, any, any]);
    sound.file
}

/// A few bytes become ones or zeros: a double may become NaN, infinite or 0.
pub fn fill(random: &mut Random) -> File {
    let mut sound = sound(random);
    let place = sound.place(random);
    let end = (place + 2 + random.below(15)).min(sound.file.len());
    let byte = random.pick(&[0, 0x7f, 0xff, 0xff]);
    sound.file[place..end].fill(byte);
    sound.file
}

pub fn cut(random: &mut Random) -> File {
    let mut sound = sound(random);
    let place = sound.place(random);
    sound.file.truncate(place);
    sound.file
}

pub fn remove(random: &mut Random) -> File {
    let mut sound = sound(random);
    let place = sound.place(random);
    let length = length_from(place, &sound.file, random);
    sound.file.drain(place..place + length);
    sound.file
}

pub fn insert(random: &mut Random) -> File {
    let mut sound = sound(random);
    let place = sound.place(random);
    let any: Vec<u8> = (0..1 + random.below(8))
        .map(|_| random.next() as u8)
        .collect();
    sound.file.splice(place..place, any);
    sound.file
}

pub fn double(random: &mut Random) -> File {
    let mut sound = sound(random);
    let place = sound.place(random);
    let length = length_from(place, &sound.file, random);
    let piece = sound.file[place..place + length].to_vec();
    sound.file.splice(place..place, piece);
    sound.file
}

pub fn swap(random: &mut Random) -> File {
    let mut sound = sound(random);
    let (one, other) = (sound.place(random), sound.place(random));
    sound.file.swap(one, other);
    sound.file
}

/// Whole fields change places, come twice or go.
pub fn fields(random: &mut Random) -> File {
    let layout = random.pick(&LAYOUTS);
    let mut fields: Vec<Field> = sound_fields(layout, random);
    if random.chance(50) {
        fields = split(&fields, random);
    }
    let (one, other) = (random.below(fields.len()), random.below(fields.len()));
    match random.below(3) {
        0 => fields.swap(one, other),
        1 => fields.insert(other, fields[one].clone()),
        _ => drop(fields.remove(one)),
    }
    bytes(&fields)
}

/// The end of one file behind the beginning of another.
pub fn join(random: &mut Random) -> File {
    let (first, second) = (sound(random), sound(random));
    let (end, begin) = (first.place(random), second.place(random));
    [&first.file[..end], &second.file[begin..]].concat()
}

/// A bit of a large file.
pub fn flip_large(random: &mut Random) -> File {
    let mut file = large(random);
    let place = if random.chance(50) {
        random.below(54)
    } else {
        random.below(file.len())
    };
    file[place] ^= 1 << random.below(8);
    file
}
