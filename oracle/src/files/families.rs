//! The families of made files, with their shares.

use super::list::Family;
use super::{contents, damage, faults, large, layout, sound};
use crate::designs::Layout::{Csc, Dense};
use crate::leaves::Kind::{L1PlusL2, Mcp, L1};
use crate::random::Random;

const fn family(name: &'static str, share: usize, make: fn(&mut Random) -> Vec<u8>) -> Family {
    Family { name, share, make }
}

/// A family of files that break the layout: the fault is found where its maker
/// says.
macro_rules! broken {
    ($name:literal, $share:literal, $make:path) => {
        family($name, $share, |random| {
            let (file, place) = $make(random);
            assert_eq!(layout::read(&file).err(), Some(place), "{}", $name);
            file
        })
    };
}

pub const FILES: [Family; 60] = [
    family("l1-dense", 50, |random| sound::run(L1, Dense, random)),
    family("l1-csc", 50, |random| sound::run(L1, Csc, random)),
    family("l1plusl2-dense", 50, |random| {
        sound::run(L1PlusL2, Dense, random)
    }),
    family("l1plusl2-csc", 50, |random| {
        sound::run(L1PlusL2, Csc, random)
    }),
    family("mcp-dense", 50, |random| sound::run(Mcp, Dense, random)),
    family("mcp-csc", 50, |random| sound::run(Mcp, Csc, random)),
    family("by-hand", 15, sound::by_hand),
    family("depth-1", 8, sound::accepting::<1>),
    family("depth-2", 8, sound::accepting::<2>),
    family("depth-3", 8, sound::accepting::<3>),
    family("depth-4", 8, sound::accepting::<4>),
    family("depth-5", 8, sound::accepting::<5>),
    family("depth-6", 8, sound::accepting::<6>),
    family("depth-7", 8, sound::accepting::<7>),
    family("depth-8", 8, sound::accepting::<8>),
    family("depth-9", 8, sound::accepting::<9>),
    family("depth-10", 8, sound::accepting::<10>),
    family("short-set", 20, sound::short_set),
    family("ties", 15, sound::ties),
    family("copied-columns", 20, sound::copied_columns),
    family("zero-columns", 20, sound::zero_columns),
    family("subnormal", 20, sound::subnormal),
    family("not-finite", 25, sound::not_finite),
    family("large", 10, large::large),
    family("full", 4, large::full),
    family("none-stored", 8, sound::none_stored),
    family("pieces", 25, sound::in_pieces),
    family("empty-fields", 20, sound::with_empty_fields),
    family("missing-field", 10, contents::missing_field),
    family("zero-sizes", 8, contents::zero_sizes),
    family("long-array", 6, large::long_array),
    family("large-product", 3, large::large_product),
    family("lengths", 15, |random| contents::fault(1, random)),
    family("settings", 25, |random| contents::fault(2, random)),
    family("two-settings", 25, contents::two_settings),
    family("setting-beside", 20, contents::setting_beside),
    family("starts", 20, |random| contents::fault(4, random)),
    family("rows", 20, |random| contents::fault(5, random)),
    family("numbers", 20, |random| contents::fault(6, random)),
    family("two-faults", 30, contents::two_faults),
    broken!("empty", 1, faults::empty),
    broken!("too-long", 2, faults::too_long),
    broken!("cut-header", 10, faults::cut_header),
    broken!("cut-field", 20, faults::cut_field),
    broken!("length-beyond", 10, faults::length_beyond),
    broken!("unknown-tag", 15, faults::unknown_tag),
    broken!("falling-tag", 15, faults::falling_tag),
    broken!("second-header", 10, faults::second_header),
    broken!("header-not-first", 10, faults::header_not_first),
    broken!("header-length", 10, faults::header_length),
    broken!("half-element", 15, faults::half_element),
    broken!("split-element", 10, faults::split_element),
    broken!("sparse-field", 10, faults::sparse_field),
    broken!("code", 10, faults::code),
    broken!("many-samples", 8, faults::many_samples),
    broken!("many-features", 8, faults::many_features),
    broken!("many-values", 3, large::many_values),
    broken!("bytes-after", 15, faults::bytes_after),
    broken!("two-layout-faults", 15, faults::two_faults),
    broken!("last-of-full", 2, faults::last_of_full),
];

pub const DAMAGES: [Family; 12] = [
    family("flip", 250, damage::flip),
    family("flip-several", 100, damage::flip_several),
    family("set", 150, damage::set),
    family("fill", 100, damage::fill),
    family("cut", 80, damage::cut),
    family("remove", 80, damage::remove),
    family("insert", 60, damage::insert),
    family("double", 80, damage::double),
    family("swap", 100, damage::swap),
    family("fields", 60, damage::fields),
    family("join", 30, damage::join),
    family("flip-large", 10, damage::flip_large),
];
