//! Texts of faces (request E8): a text is split into lines, a line into items,
//! and words are held against each other digit by digit. A refusal is its
//! number.

use crate::files::{read_list, read_shape, shape_bytes};
use crate::plate::{twin, Plate, Shape};

/// A dart, its bend word, empty where it has no bend, and its angle.
struct Triple<'a> {
    dart: &'a str,
    word: &'a str,
    angle: u32,
}

/// The faces in the sequence of a text: the outer one first, the others by
/// smallest dart; each starts at its smallest dart.
pub fn faces_in_turn(plate: &Plate) -> Vec<Vec<usize>> {
    let mut faces = plate.faces();
    for face in &mut faces {
        let smallest = (0..face.len()).min_by_key(|&place| face[place]);
        face.rotate_left(smallest.expect("a face has a dart"));
    }
    faces.sort_by_key(|face| (!face.contains(&plate.outer), face[0]));
    faces
}

/// The word of a dart: its right bends, then its left ones.
fn word_of(shape: &Shape, dart: usize) -> String {
    let digits = |digit: &str, count: u32| digit.repeat(count as usize);
    let word = digits("0", shape.rights[dart]) + &digits("1", shape.rights[twin(dart)]);
    if word.is_empty() {
        "-".to_string()
    } else {
        word
    }
}

/// The text of a shape, whether it meets the conditions or not.
pub fn text_of(plate: &Plate, shape: &Shape) -> String {
    let triple = |&d: &usize| format!("{d} {} {}", word_of(shape, d), shape.angles[d]);
    let line = |face: &Vec<usize>| {
        let triples: Vec<String> = face.iter().map(triple).collect();
        triples.join(" ") + "\n"
    };
    faces_in_turn(plate).iter().map(line).collect()
}

/// The text of a shape file: the check's numbers, then 31.
pub fn file_to_text(list: &[u8], file: &[u8]) -> Result<String, u8> {
    let (list, shape) = read_shape(list, file)?;
    let mixed = |d: usize| is_mixed(&word_of(&shape, d));
    if (0..list.plate.darts()).any(mixed) {
        return Err(31);
    }
    Ok(text_of(&list.plate, &shape))
}

fn is_mixed(word: &str) -> bool {
    word.contains('0') && word.contains('1')
}

fn is_number(item: &str) -> bool {
    let digits = !item.is_empty() && item.chars().all(|c| c.is_ascii_digit());
    digits && (item == "0" || !item.starts_with('0'))
}

fn is_word(item: &str) -> bool {
    let digits = item.chars().all(|c| c == '0' || c == '1');
    item == "-" || digits && (1..=255).contains(&item.len())
}

/// A triple of these three items, if they are of the form.
fn triple<'a>(items: &[&'a str]) -> Option<Triple<'a>> {
    let &[dart, word, angle] = items else {
        return None;
    };
    let angles = ["1", "2", "3", "4"];
    let angle = 1 + angles.iter().position(|&a| a == angle)? as u32;
    let word_digits = word.trim_matches('-');
    (is_number(dart) && is_word(word)).then_some(Triple {
        dart,
        word: word_digits,
        angle,
    })
}

/// The lines of a text, or none for 30.
fn lines_of(text: &[u8]) -> Option<Vec<Vec<Triple<'_>>>> {
    let text = std::str::from_utf8(text).ok()?;
    let mut lines = Vec::new();
    for line in text.split_inclusive('\n') {
        let items: Vec<&str> = line.strip_suffix('\n')?.split(' ').collect();
        let triples: Option<Vec<Triple>> = items.chunks(3).map(triple).collect();
        lines.push(triples?);
    }
    Some(lines)
}

/// The word of the twin: reversed, with right and left exchanged.
fn from_the_other_end(word: &str) -> String {
    let exchanged = |digit| if digit == '0' { '1' } else { '0' };
    word.chars().rev().map(exchanged).collect()
}

/// The shape that lines give, or none for 32.
fn shape_of_lines(plate: &Plate, lines: &[Vec<Triple>]) -> Option<Shape> {
    let names = |face: &Vec<usize>| face.iter().map(usize::to_string).collect::<Vec<_>>();
    let wanted: Vec<Vec<String>> = faces_in_turn(plate).iter().map(names).collect();
    let darts = |line: &Vec<Triple>| line.iter().map(|t| t.dart.to_string()).collect();
    let given: Vec<Vec<String>> = lines.iter().map(darts).collect();
    if given != wanted {
        return None;
    }
    let mut triples: Vec<&Triple> = lines.iter().flatten().collect();
    triples.sort_by_key(|triple| triple.dart.parse::<usize>().expect("a dart of the plate"));
    let strips = triples.chunks(2);
    let mut agree = strips.map(|both| both[1].word == from_the_other_end(both[0].word));
    if !agree.all(|agrees| agrees) {
        return None;
    }
    let rights = |triple: &&Triple| triple.word.matches('0').count() as u32;
    Some(Shape {
        rights: triples.iter().map(rights).collect(),
        angles: triples.iter().map(|triple| triple.angle).collect(),
    })
}

/// The shape file that a text gives, with its total bends: the list's numbers,
/// then 30, 31, 32, 20, 21 and 25.
pub fn text_to_file(list: &[u8], text: &[u8]) -> Result<(Vec<u8>, u32), u8> {
    let list = read_list(list)?;
    let plate = &list.plate;
    let lines = lines_of(text).ok_or(30)?;
    if lines.iter().flatten().any(|triple| is_mixed(triple.word)) {
        return Err(31);
    }
    let shape = shape_of_lines(plate, &lines).ok_or(32)?;
    if !plate.angles_close(&shape.angles) {
        return Err(20);
    }
    if !plate.turns_close(&plate.faces(), &shape) {
        return Err(21);
    }
    if !plate.keeps_limits(&shape.rights) {
        return Err(25);
    }
    Ok((shape_bytes(&list, &shape), shape.bends()))
}
