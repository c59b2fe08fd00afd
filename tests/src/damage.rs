//! Sound files made unsound: bytes changed, files cut, fields exchanged, doubled,
//! left out, lengthened. A few come out unchanged. And lists with each number.

use crate::files::{list_bytes, with_limits, with_prices};
use crate::plate::{by_number, Plate};
use crate::random::Random;

/// The fields of a sound file, each with its tag and length.
pub fn split_fields(file: &[u8]) -> Vec<Vec<u8>> {
    let mut fields = Vec::new();
    let mut rest = file;
    while !rest.is_empty() {
        let length = 3 + usize::from(u16::from_be_bytes([rest[1], rest[2]]));
        fields.push(rest[..length].to_vec());
        rest = &rest[length..];
    }
    fields
}

/// Calls `visit` with each damaged form of a sound file.
pub fn each_damaged(file: &[u8], random: &mut Random, visit: &mut dyn FnMut(&[u8])) {
    changed_bytes(file, random, visit);
    changed_lengths(file, visit);
    cut_and_mixed(file, visit);
    for more in 1..=4 {
        visit(&[file, &random.bytes(more)].concat());
    }
}

/// The file cut at each length, with two fields exchanged, one field doubled,
/// and one left out.
pub fn cut_and_mixed(file: &[u8], visit: &mut dyn FnMut(&[u8])) {
    (0..file.len()).for_each(|length| visit(&file[..length]));
    let fields = split_fields(file);
    for a in 0..fields.len() {
        let mut without = fields.clone();
        visit(&[&fields.concat()[..], &without.remove(a)].concat());
        visit(&without.concat());
        for b in 0..fields.len() {
            let mut reordered = fields.clone();
            reordered.swap(a, b);
            visit(&reordered.concat());
            reordered.insert(a, fields[b].clone());
            visit(&reordered.concat());
        }
    }
}

/// The file with these bytes at these places.
pub fn with_bytes(file: &[u8], bytes: &[(usize, u8)]) -> Vec<u8> {
    let mut changed = file.to_vec();
    for &(place, byte) in bytes {
        changed[place] = byte;
    }
    changed
}

/// Each byte changed to one other value.
pub fn changed_once(file: &[u8], random: &mut Random, visit: &mut dyn FnMut(&[u8])) {
    let mut damaged = file.to_vec();
    for place in 0..file.len() {
        damaged[place] ^= 1 + random.below(255) as u8;
        visit(&damaged);
        damaged[place] = file[place];
    }
}

/// Each byte changed, to several other values.
fn changed_bytes(file: &[u8], random: &mut Random, visit: &mut dyn FnMut(&[u8])) {
    for place in 0..file.len() {
        let old = file[place];
        let near = [old.wrapping_add(1), old.wrapping_sub(1), old ^ 0x80];
        for new in [near[0], near[1], near[2], 0, 0xff, random.draw() as u8] {
            let mut damaged = file.to_vec();
            damaged[place] = new;
            visit(&damaged);
        }
    }
}

/// Lengths near the longest of some field.
const LENGTHS: [usize; 17] = [
    0, 1, 2, 3, 4, 79, 80, 81, 82, 127, 128, 129, 254, 255, 256, 257, 258,
];

/// Each field with its content cut or longer, its length told truly.
fn changed_lengths(file: &[u8], visit: &mut dyn FnMut(&[u8])) {
    let fields = split_fields(file);
    for place in 0..fields.len() {
        for length in LENGTHS {
            let mut damaged = fields.clone();
            damaged[place].resize(3 + length, 0);
            damaged[place][1..3].copy_from_slice(&(length as u16).to_be_bytes());
            visit(&damaged.concat());
        }
    }
}

/// Refused plate lists, by number: one or more for each number of a list.
pub fn refused_lists() -> Vec<(u8, Vec<u8>)> {
    let list = |plate: &Plate| list_bytes(plate, 7, None);
    let strip = by_number(2, &[[0, 1]], 0);
    let sound = list(&strip);
    let star: Vec<[usize; 2]> = (1..6).map(|post| [0, post]).collect();
    let mut twice = strip.clone();
    twice.order = vec![vec![0], vec![0]];
    let mut crossed = by_number(2, &[[0, 1]; 3], 1);
    crossed.order = vec![vec![0, 2, 4], vec![1, 3, 5]];
    vec![
        (1, sound[..2].to_vec()),
        (2, [&sound[..], &[9, 0, 0]].concat()),
        (3, [&sound[..5], &sound[..]].concat()),
        (29, [&sound[5..9], &sound[..5], &sound[9..]].concat()),
        (4, [&sound[..], &[6, 0, 81], &[0; 81]].concat()),
        (5, sound[..sound.len() - 1].to_vec()),
        (6, sound[5..].to_vec()),
        (7, list(&by_number(0, &[[0, 1]], 0))),
        (7, list(&by_number(65, &[[0, 1]], 0))),
        (8, list(&by_number(2, &[], 0))),
        (9, list(&by_number(2, &[[0, 2]], 0))),
        (11, list(&by_number(6, &star, 0))),
        (12, list(&twice)),
        (13, list(&by_number(2, &[[0, 1]], 2))),
        (14, list(&by_number(3, &[[0, 1]], 0))),
        (15, list(&crossed)),
        (23, with_limits(&sound, &[])),
        (23, with_limits(&sound, &[1, 1])),
        (38, with_prices(&sound, &[])),
        (38, with_prices(&sound, &[1, 1])),
        (38, with_prices(&sound, &[0])),
        (38, with_prices(&sound, &[101])),
        (38, with_prices(&with_limits(&sound, &[255]), &[255])),
    ]
}
