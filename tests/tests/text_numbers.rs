//! Texts of faces (request E8): every number of both conversions on purpose, and
//! their order.

use plates_tests::compare;
use plates_tests::damage::{refused_lists, with_bytes};
use plates_tests::files::{file_of, list_bytes, with_limits, with_sum};
use plates_tests::long_mode;
use plates_tests::near::Near;
use plates_tests::plate::{p1, twin, Plate, Shape};
use plates_tests::random::{any_plate, random_prices, Random};
use plates_tests::remembered::cancel_once;
use plates_tests::round_trip::Met;
use plates_tests::text_damage::{items_of, joined, Items};
use plates_tests::texts::text_of;

/// The numbers of a plate list.
const OF_LISTS: [u8; 17] = [1, 2, 3, 4, 5, 6, 7, 8, 9, 11, 12, 13, 14, 15, 23, 29, 38];

/// The numbers of a shape file in the check.
const OF_FILES: [u8; 15] = [1, 2, 3, 29, 4, 5, 6, 17, 18, 19, 20, 21, 22, 25, 39];

/// The numbers of the check that a shape's counts give, then 31, in their order.
const OF_COUNTS: [u8; 6] = [20, 21, 22, 25, 39, 31];

/// The numbers of a text, in their order.
const OF_TEXTS: [u8; 6] = [30, 31, 32, 20, 21, 25];

/// The list and the file of P1 of the tests below: strip 1 may have two bends.
fn p1_files() -> (Vec<u8>, Vec<u8>) {
    let list = list_bytes(&p1().within(&[255, 2]), 7, None);
    let file = file_of(&list, &Shape::new(&[0, 0, 0, 2], &[1, 3, 3, 1]));
    (list, file)
}

/// Refused shape files of P1, by number: one for each number of the check, one
/// or more with 31, and the sound one.
fn p1_refused() -> Vec<(u8, Vec<u8>)> {
    let (list, file) = p1_files();
    let changed = |bytes: &[(usize, u8)]| with_bytes(&file, bytes);
    let shaped = |rights| file_of(&list, &Shape::new(rights, &[1, 3, 3, 1]));
    vec![
        (0, file.clone()),
        (1, [&file[..], &[0x15]].concat()),
        (2, [&file[..], &[0x17, 0, 0]].concat()),
        (3, [&file[..5], &file[..]].concat()),
        (29, [&file[5..10], &file[..5], &file[10..]].concat()),
        (4, [&file[..], &[0x15, 0, 81], &[0; 81]].concat()),
        (4, with_sum(&file, &[0, 0, 2])),
        (39, with_sum(&file, &[0, 0, 0, 2])),
        (5, file[..23].to_vec()),
        (6, file[..17].to_vec()),
        (17, [&file[..17], &[0x14, 0, 3, 0, 0, 0]].concat()),
        (18, changed(&[(4, 8)])),
        (19, changed(&[(13, 0)])),
        (19, changed(&[(13, 5)])),
        (20, changed(&[(13, 2)])),
        (21, changed(&[(22, 2), (23, 0)])),
        (22, changed(&[(9, 3)])),
        (22, changed(&[(8, 1)])),
        (25, shaped(&[0, 1, 0, 3])),
        (31, shaped(&[1, 1, 0, 2])),
        (31, shaped(&[255, 255, 0, 2])),
    ]
}

/// Texts of P1 within the limits of `p1_files`, by number.
const P1_TEXTS: [(u8, &str); 9] = [
    (0, "1 - 3 2 11 3\n0 - 1 3 00 1\n"),
    (30, "1 - 3 2 11 3\n0 - 1 3 00 1"),
    (31, "1 - 3 2 10 3\n0 - 1 3 10 1\n"),
    (32, "0 - 1 3 00 1\n1 - 3 2 11 3\n"),
    (32, "1 - 3 2 11 3\n0 - 1 3 0 1\n"),
    (32, ""),
    (20, "1 - 3 2 11 3\n0 - 2 3 00 1\n"),
    (21, "1 - 3 2 00 3\n0 - 1 3 11 1\n"),
    (25, "1 0 3 2 111 3\n0 1 1 3 000 1\n"),
];

/// Every number of both conversions, each on purpose. The list's come before
/// those of file and text.
#[test]
fn every_number() {
    let (list, file) = p1_files();
    let mut met = Met::default();
    for (number, file) in p1_refused() {
        assert_eq!(met.file(&list, &file), number);
        if number != 31 {
            assert_eq!(compare::checking(&list, &file, cancel_once), number);
        }
    }
    for (number, text) in P1_TEXTS {
        assert_eq!(met.text(&list, text.as_bytes()), number, "{text}");
    }
    let texts_alone = [OF_TEXTS.to_vec(), vec![0, 16]].concat();
    met.assert_met(&[&OF_FILES[..], &[0, 16, 31]].concat(), &texts_alone);
    let mut met = Met::default();
    for (number, refused) in refused_lists() {
        for (_, file) in p1_refused() {
            assert_eq!(met.file(&refused, &file), number);
        }
        for (_, text) in P1_TEXTS {
            assert_eq!(met.text(&refused, text.as_bytes()), number);
        }
    }
    met.assert_met(&OF_LISTS, &OF_LISTS);
    assert_eq!(met.file(&list, &file), 0);
}

/// 31 comes after each number of the check, 22 and 25 among them.
#[test]
fn both_ways_after_the_check() {
    let (list, _) = p1_files();
    let mut mixed = file_of(&list, &Shape::new(&[1, 1, 0, 2], &[1, 3, 3, 1]));
    let mut met = Met::default();
    assert_eq!(met.file(&list, &mixed), 31);
    assert_eq!(met.file(&list, &mixed[..mixed.len() - 1]), 5);
    let passing = with_limits(&list_bytes(&p1(), 7, None), &[1, 255]);
    assert_eq!(met.file(&passing, &mixed), 25);
    mixed[9] += 1;
    assert_eq!(met.file(&list, &mixed), 22);
    assert_eq!(met.file(&passing, &mixed), 22);
    mixed[23] += 1;
    assert_eq!(met.file(&list, &mixed), 21);
    mixed[13] = 2;
    assert_eq!(met.file(&list, &mixed), 20);
    mixed[14] = 5;
    assert_eq!(met.file(&list, &mixed), 19);
    mixed[3] = 1;
    assert_eq!(met.file(&list, &mixed), 18);
}

/// Memory of every length from none to a few bytes more than enough: 16 where
/// it is too short.
#[test]
fn memory_of_every_length() {
    let (list, file) = p1_files();
    let text = P1_TEXTS[0].1;
    for lent in 0..40 {
        let mut out = vec![0xee; lent];
        let to = plates::write_text(&list, &file, &mut out);
        let short = Err(plates::Refusal::MemoryShort);
        assert_eq!(to, if lent < 26 { short } else { Ok(26) });
        let left = lent.min(if lent < 26 { 0 } else { 26 });
        assert_eq!(out[..left], text.as_bytes()[..left]);
        assert!(out[left..].iter().all(|&byte| byte == 0xee));
        let mut out = vec![0xee; lent];
        let back = plates::read_text(&list, text.as_bytes(), &mut out);
        assert_eq!(
            back.map(|shape| shape.length).ok(),
            (lent >= 24).then_some(24)
        );
        assert_eq!(
            back.err(),
            (lent < 24).then_some(plates::Refusal::MemoryShort)
        );
        let left = if lent < 24 { 0 } else { 24 };
        assert_eq!(out[..left], file[..left]);
        assert!(out[left..].iter().all(|&byte| byte == 0xee));
    }
}

/// A sound shape with some bend, of a random plate with two faces or more.
fn bent_plate(random: &mut Random) -> (Plate, Shape) {
    loop {
        let plate = any_plate(8, random);
        let best = cancel_once(&plate).expect("the plate has no limits");
        let mut near = Near::new(&plate, &best);
        near.wander(random);
        let shape = near.shape;
        let fits = shape.bends() > 0 && shape.rights.iter().all(|&right| right < 255);
        if fits && plate.faces().len() > 1 {
            return (plate, shape);
        }
    }
}

/// A dart with its twin on another face.
fn between_faces(plate: &Plate, random: &mut Random) -> usize {
    let same = |d: usize| {
        plate
            .faces()
            .iter()
            .any(|f| f.contains(&d) && f.contains(&twin(d)))
    };
    let mut darts: Vec<usize> = (0..plate.darts()).filter(|&d| !same(d)).collect();
    random.shuffle(&mut darts);
    darts[0]
}

/// The faults 20, 21 and 25 of a shape that `wanted` asks for, and the limits.
fn with_faults(plate: &Plate, shape: &mut Shape, wanted: &[u8], random: &mut Random) -> Vec<u8> {
    if wanted.contains(&21) {
        // A bend more where the strip bends already, or where it is straight.
        let dart = between_faces(plate, random);
        let back = shape.rights[twin(dart)] > 0;
        shape.rights[if back { twin(dart) } else { dart }] += 1;
    }
    if wanted.contains(&20) {
        let dart = random.below(plate.darts());
        shape.angles[dart] = shape.angles[dart] % 4 + 1;
    }
    let mut limits: Vec<u8> = shape.by_strip().iter().map(|&bends| bends as u8).collect();
    let bent: Vec<usize> = (0..limits.len()).filter(|&s| limits[s] > 0).collect();
    if wanted.contains(&25) {
        limits[bent[random.below(bent.len())]] -= 1;
    }
    limits
}

/// A fault of the sequence of faces or of words across a strip.
fn fault_32(lines: &mut Items, random: &mut Random) {
    let line = random.below(lines.len());
    let other = (line + 1) % lines.len();
    let triples = lines[line].len() / 3;
    let item = 3 * random.below(triples);
    match random.below(6) {
        0 => lines.swap(line, other),
        1 if triples > 1 => lines[line].rotate_left(3 * (1 + random.below(triples - 1))),
        2 => lines[line][item] = "256".to_string(),
        3 => drop(lines.remove(line)),
        4 => lines.push(lines[line].clone()),
        _ if lines[line][item + 1] == "-" => lines[line][item + 1] = "0".to_string(),
        _ => lines[line][item + 1] = "-".to_string(),
    }
}

/// A word with both digits.
fn fault_31(lines: &mut Items, random: &mut Random) {
    let line = random.below(lines.len());
    let item = 3 * random.below(lines[line].len() / 3);
    lines[line][item + 1] = ["01", "10", "0001", "1011"][random.below(4)].to_string();
}

/// A line that is not of the form.
fn fault_30(lines: &Items, random: &mut Random) -> String {
    let mut lines = lines.clone();
    let line = random.below(lines.len());
    let item = 3 * random.below(lines[line].len() / 3);
    match random.below(6) {
        0 => lines[line][item].insert(0, '0'),
        1 => lines[line][item + 1] = "1".repeat(256),
        2 => lines[line][item + 2] = ["0", "5", "-"][random.below(3)].to_string(),
        3 => lines[line].insert(item, String::new()),
        4 => drop(lines[line].pop()),
        _ => return joined(&lines).trim_end().to_string(),
    }
    joined(&lines)
}

/// A text with each of these faults, and the list that it is held against.
fn text_with(wanted: &[u8], random: &mut Random) -> (Vec<u8>, String) {
    let (mut plate, mut shape) = bent_plate(random);
    plate.limits = with_faults(&plate, &mut shape, wanted, random);
    if random.below(2) == 0 {
        plate.prices = random_prices(&plate, random);
    }
    let list = list_bytes(&plate, 7, None);
    let mut lines = items_of(&text_of(&plate, &shape));
    if wanted.contains(&32) {
        fault_32(&mut lines, random);
    }
    if wanted.contains(&31) {
        fault_31(&mut lines, random);
    }
    match wanted.contains(&30) {
        true => (list, fault_30(&lines, random)),
        false => (list, joined(&lines)),
    }
}

/// Every choice of these faults, with the first of them, or 0.
fn choices(faults: &[u8]) -> impl Iterator<Item = (Vec<u8>, u8)> + '_ {
    (0..1 << faults.len()).map(|choice| {
        let chosen = (0..faults.len()).filter(|place| choice >> place & 1 == 1);
        let wanted: Vec<u8> = chosen.map(|place| faults[place]).collect();
        let first = wanted.first().copied().unwrap_or(0);
        (wanted, first)
    })
}

/// Texts with every choice of faults at random places: the number is that of
/// the first fault in the order of the numbers, wherever it stands.
#[test]
fn order_of_the_numbers() {
    let mut random = Random::new(32);
    let mut met = Met::default();
    for _ in 0..if long_mode() { 2_000 } else { 100 } {
        for (wanted, first) in choices(&OF_TEXTS) {
            let (list, text) = text_with(&wanted, &mut random);
            let number = met.text(&list, text.as_bytes());
            assert_eq!(number, first, "{wanted:?}: {}\n{text}", compare::hex(&list));
        }
    }
    println!("order of the numbers: {:?}", met.back);
    met.assert_met(&[0, 16], &[&OF_TEXTS[..], &[0, 16]].concat());
}

/// A right and a left bend more on the strip with the fewest.
fn bend_both_ways(shape: &mut Shape) {
    let strips = 0..shape.rights.len() / 2;
    let fewest = strips.min_by_key(|strip| shape.by_strip()[*strip]);
    let dart = 2 * fewest.expect("a plate has a strip");
    shape.rights[dart] += 1;
    shape.rights[twin(dart)] += 1;
}

/// A file without its sum, or with one that is false.
fn false_sum(file: &[u8], random: &mut Random) -> Vec<u8> {
    let mut file = file.to_vec();
    let place = file.len() - 1 - random.below(4);
    match random.below(3) {
        0 => file.truncate(file.len() - 7),
        1 => file[place] ^= 1 << random.below(8),
        _ => file[place] = file[place].wrapping_add(1),
    }
    file
}

/// A shape file with each of these faults, and its list, with prices or, where the
/// sum is there though the list has none, without them.
fn file_with(wanted: &[u8], random: &mut Random) -> (Vec<u8>, Vec<u8>) {
    let (mut plate, mut shape) = bent_plate(random);
    if wanted.contains(&31) {
        bend_both_ways(&mut shape);
    }
    plate.limits = with_faults(&plate, &mut shape, wanted, random);
    let priced = plate.priced(&random_prices(&plate, random));
    let mut list = list_bytes(&priced, 7, None);
    let mut file = file_of(&list, &shape);
    if wanted.contains(&22) {
        file[8 + random.below(2)] ^= 1 << random.below(8);
    }
    if wanted.contains(&39) {
        match random.below(4) {
            0 => list = list_bytes(&plate, 7, None),
            _ => file = false_sum(&file, random),
        }
    }
    (list, file)
}

/// Shape files with every choice of faults, to text and in the check: the number
/// is that of the first fault in the order of the numbers.
#[test]
fn order_of_the_counts() {
    let mut random = Random::new(39);
    let mut met = Met::default();
    for _ in 0..if long_mode() { 2_000 } else { 100 } {
        for (wanted, first) in choices(&OF_COUNTS) {
            let (list, file) = file_with(&wanted, &mut random);
            let hex = compare::hex(&file);
            assert_eq!(met.file(&list, &file), first, "{wanted:?}: {hex}");
            let of_check = if first == 31 { 0 } else { first };
            assert_eq!(compare::checking(&list, &file, cancel_once), of_check);
        }
    }
    println!("order of the counts: {:?}", met.to);
    met.assert_met(&[&OF_COUNTS[..], &[0, 16]].concat(), &[0, 16]);
}
