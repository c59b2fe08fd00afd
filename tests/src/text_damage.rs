//! Texts of faces made unsound: bytes, items, triples, lines and whole texts. A
//! few come out unchanged or sound in another way.

use crate::random::Random;

/// A text as lines of items.
pub type Items = Vec<Vec<String>>;

/// The items of a text whose lines are ended.
pub fn items_of(text: &str) -> Items {
    let line = |line: &str| line.split(' ').map(String::from).collect();
    text.lines().map(line).collect()
}

/// The text of these items.
pub fn joined(lines: &Items) -> String {
    lines.iter().map(|line| line.join(" ") + "\n").collect()
}

/// One of these.
fn one_of<'a, T: ?Sized>(choices: &[&'a T], random: &mut Random) -> &'a T {
    choices[random.below(choices.len())]
}

/// A damaged form of a text, at random; `other` is the text of another shape.
pub fn damaged_text(text: &str, other: &str, random: &mut Random) -> Vec<u8> {
    match random.below(6) {
        0 => bytes_changed(text, random),
        1 => spaces_changed(text, random),
        2 => item_changed(text, random).into_bytes(),
        3 => triples_changed(text, other, random).into_bytes(),
        4 => lines_changed(text, other, random).into_bytes(),
        _ => whole_changed(text, other, random).into_bytes(),
    }
}

/// Bytes that a text has, and some that it has not.
const BYTES: &[u8] = b"0123456789- \n\t\r\x0b\0/:+.aO\x7f\x80\xa0\xff";

/// A byte changed, inserted, removed, doubled, exchanged with the next one, or
/// the text cut there.
fn bytes_changed(text: &str, random: &mut Random) -> Vec<u8> {
    let mut bytes = text.as_bytes().to_vec();
    let place = random.below(bytes.len());
    let any = match random.below(4) {
        0 => random.draw() as u8,
        _ => BYTES[random.below(BYTES.len())],
    };
    match random.below(6) {
        0 => bytes[place] = any,
        1 => bytes.insert(place, any),
        2 => drop(bytes.remove(place)),
        3 => bytes.insert(place, bytes[place]),
        4 => bytes[place..].rotate_left(1),
        _ => bytes.truncate(place),
    }
    bytes
}

/// A space or a line feed with something else in its place.
fn spaces_changed(text: &str, random: &mut Random) -> Vec<u8> {
    let mut bytes = text.as_bytes().to_vec();
    let is_space = |place: &usize| bytes[*place] == b' ' || bytes[*place] == b'\n';
    let places: Vec<usize> = (0..bytes.len()).filter(is_space).collect();
    let place = places[random.below(places.len())];
    let instead: [&[u8]; 12] = [
        b"\t",
        b"\r\n",
        b"\n\r",
        b"\r",
        b"  ",
        b" \n",
        b"\n ",
        b"\n\n",
        b"",
        b" \t ",
        b"\xc2\xa0",
        b"\xa0",
    ];
    let instead = one_of(&instead, random);
    bytes.splice(place..=place, instead.iter().copied());
    bytes
}

/// Something else for an item.
fn other_item(item: &str, random: &mut Random) -> String {
    let number = item.parse::<u128>().unwrap_or(0);
    let more = [10, 100, 255, 256, 1000, 1 << 16, 1 << 31, 1 << 32, 1 << 63];
    let digit = one_of(&["0", "1", "7"], random);
    match random.below(8) {
        0 => one_of(&["0", "1", "2", "3", "4", "5", "9", "-", "", "--"], random).to_string(),
        1 => (number + more[random.below(more.len())]).to_string(),
        2 => (number + (1 << 64)).to_string(),
        3 => one_of(
            &["256", "1000", "4294967296", "18446744073709551616", "-1"],
            random,
        )
        .to_string(),
        4 => digit.repeat(253 + random.below(5)),
        5 => digit.repeat(20 + random.below(2_000)),
        6 => item.replace(['0', '1'], one_of(&["01", "10", "0", "1", "00"], random)),
        _ => one_of(&["0", "-", "+", "1"], random).to_string() + item,
    }
}

/// An item replaced: by something else, or by another one of the text.
fn item_changed(text: &str, random: &mut Random) -> String {
    let mut lines = items_of(text);
    let (line, item) = place_in(&lines, random);
    lines[line][item] = match random.below(3) {
        0 => {
            let (line, other) = place_in(&lines, random);
            let column = other - other % 3 + item % 3;
            lines[line][column].clone()
        }
        _ => other_item(&lines[line][item], random),
    };
    joined(&lines)
}

/// A line, and an item of it.
fn place_in(lines: &Items, random: &mut Random) -> (usize, usize) {
    let line = random.below(lines.len());
    (line, random.below(lines[line].len()))
}

/// A triple left out, doubled, moved to another line, exchanged with another or
/// taken from another text; the words of a strip changed so that they agree; or
/// one angle more and one less.
fn triples_changed(text: &str, other: &str, random: &mut Random) -> String {
    let mut lines = items_of(text);
    let (from, item) = place_in(&lines, random);
    let first = item - item % 3;
    let triple = lines[from][first..first + 3].to_vec();
    let (to, place) = place_in(&lines, random);
    let place = place - place % 3;
    match random.below(7) {
        0 => drop(lines[from].drain(first..first + 3)),
        1 => drop(lines[to].splice(place..place, triple)),
        2 => {
            lines[to].splice(place..place + 3, triple);
        }
        3 => {
            let others = items_of(other);
            let (line, item) = place_in(&others, random);
            let item = item - item % 3;
            let triple = others[line][item..item + 3].to_vec();
            lines[to].splice(place..place + 3, triple);
        }
        4 | 5 => strip_changed(&mut lines, &triple[0], random),
        _ => angles_changed(&mut lines, (from, first + 2), (to, place + 2)),
    }
    joined(&lines)
}

/// Another word for a dart, and for its twin the one that agrees with it.
fn strip_changed(lines: &mut Items, dart: &str, random: &mut Random) {
    let dart: usize = dart.parse().expect("a dart of a sound text");
    let count = [0, 1, 2, 3, 4, 254, 255, 256][random.below(8)];
    let digits = [["0", "1"], ["1", "0"]][random.below(2)];
    for (dart, digit) in [dart, dart ^ 1].into_iter().zip(digits) {
        let name = dart.to_string();
        let places = lines.iter_mut().flat_map(|line| line.chunks_mut(3));
        for triple in places.filter(|triple| triple[0] == name) {
            triple[1] = if count == 0 {
                "-".to_string()
            } else {
                digit.repeat(count)
            };
        }
    }
}

/// One angle more by one and another less.
fn angles_changed(lines: &mut Items, more: (usize, usize), less: (usize, usize)) {
    let angle = |item: &str| item.parse::<i32>().unwrap_or(0);
    let raised = angle(&lines[more.0][more.1]) + 1;
    lines[more.0][more.1] = raised.to_string();
    let lowered = angle(&lines[less.0][less.1]) - 1;
    lines[less.0][less.1] = lowered.to_string();
}

/// A line left out, doubled, exchanged with another, turned to another start,
/// turned round, joined with the next one, cut in two, or taken from another
/// text; or all lines from another one on.
fn lines_changed(text: &str, other: &str, random: &mut Random) -> String {
    let mut lines = items_of(text);
    let line = random.below(lines.len());
    let to = random.below(lines.len());
    let triples = lines[line].len() / 3;
    match random.below(9) {
        0 => drop(lines.remove(line)),
        1 => lines.insert(to, lines[line].clone()),
        2 => lines.swap(line, to),
        3 => lines[line].rotate_left(3 * random.below(triples)),
        4 => {
            let reversed = lines[line].rchunks(3).map(<[String]>::to_vec);
            lines[line] = reversed.collect::<Vec<_>>().concat();
        }
        5 => {
            let joined = lines.remove(line);
            let next = line.min(lines.len().saturating_sub(1));
            match lines.get_mut(next) {
                Some(before) => before.extend(joined),
                None => lines.push(joined),
            }
        }
        6 => {
            let rest = lines[line].split_off(3 * random.below(triples));
            lines.insert(line + 1, rest);
        }
        7 => {
            let others = items_of(other);
            lines[line] = others[random.below(others.len())].clone();
        }
        _ => lines.rotate_left(line),
    }
    joined(&lines)
}

/// Something before or behind a text, another text behind it or in its place, or
/// another form of line ends.
fn whole_changed(text: &str, other: &str, random: &mut Random) -> String {
    let ends = [
        "\n", " ", "\n\n", "0 - 1\n", "0 01 1\n", "0 - 5\n", "\0", "é",
    ];
    let end = one_of(&ends, random);
    match random.below(9) {
        0 => text.to_string() + end,
        1 => end.to_string() + text,
        2 => text.to_string() + text,
        3 => text.to_string() + other,
        4 => other.to_string(),
        5 => text.replace('\n', "\r\n"),
        6 => text.trim_end().to_string(),
        7 => text.replace('\n', " \n"),
        _ => text.replace('\n', "\n\n"),
    }
}
