//! Texts of faces (request E8) of many plates: every text of one strip, every
//! shape of small plates, random plates up to 64 posts and 128 strips, damaged
//! lists, files and texts.

use plates_tests::compare;
use plates_tests::damage::each_damaged;
use plates_tests::files::{
    list_bytes, older_file, read_list, shape_bytes, with_remark, with_sum, List,
};
use plates_tests::long_mode;
use plates_tests::near::Near;
use plates_tests::plate::{by_number, twin, Plate, Shape};
use plates_tests::random::{any_plate, double_ring, list_of, looped_ring, random_prices, Random};
use plates_tests::remembered::cancel_once;
use plates_tests::round_trip::Met;
use plates_tests::search::each_shape;
use plates_tests::small::{each_accepted, each_limits};
use plates_tests::text_damage::damaged_text;
use plates_tests::texts::text_of;

fn how_many(default: usize, long: usize) -> usize {
    if long_mode() {
        long
    } else {
        default
    }
}

/// Calls `visit` with every text of two triples of these items, on one line and
/// on two.
fn each_of_two_triples(visit: &mut dyn FnMut(&str)) {
    let words = ["-", "0", "1", "000", "111", "01"];
    let mut triples = Vec::new();
    for dart in 0..3 {
        for word in words {
            triples.extend((1..=5).map(|angle| format!("{dart} {word} {angle}")));
        }
    }
    for first in &triples {
        for second in &triples {
            visit(&format!("{first} {second}\n"));
            visit(&format!("{first}\n{second}\n"));
        }
    }
}

/// Every plate with one strip, between two posts or from a post to itself,
/// without limits and within some, and with a price.
#[test]
fn every_text_of_one_strip() {
    let mut met = Met::default();
    let mut lists = 0;
    each_accepted(1, 1, &mut |plate| {
        let within = |limits: &[u8]| plate.within(limits);
        let [free, none, one, three] = [&[][..], &[0], &[1], &[3]].map(within);
        for plate in [free, none, one, three.clone(), three.priced(&[7])] {
            let list = list_bytes(&plate, 7, None);
            each_of_two_triples(&mut |text| {
                met.text(&list, text.as_bytes());
            });
            lists += 1;
        }
    });
    println!("every text of one strip: {lists} lists, {:?}", met.back);
    met.assert_met(&[0, 16], &[0, 16, 20, 21, 25, 30, 31, 32]);
}

/// The file of every shape with so few bends, against the plate without limits
/// and, where `within` says so, under every choice of small ones and with prices.
fn every_shape(plate: &Plate, bends: u32, within: bool, met: &mut Met) {
    let list = list_bytes(plate, 7, None);
    let read = read_list(&list).expect("the plate is accepted");
    let mut files = Vec::new();
    for total in 0..=bends {
        each_shape(plate, total, &mut |shape| {
            files.push(shape_bytes(&read, shape))
        });
    }
    for file in &files {
        met.file(&list, file);
    }
    if within {
        each_limits(plate, &mut |plate| {
            let list = list_bytes(plate, 7, None);
            for file in &files {
                met.file(&list, file);
            }
        });
        every_shape_with_prices(plate, bends, met);
    }
}

/// The same with prices 3, 1 and 100: the file has its sum, or none, which is 39.
fn every_shape_with_prices(plate: &Plate, bends: u32, met: &mut Met) {
    let plate = plate.priced(&[3, 1, 100][..plate.strips.len()]);
    let list = list_bytes(&plate, 7, None);
    let read = read_list(&list).expect("the plate is accepted");
    for total in 0..=bends {
        each_shape(&plate, total, &mut |shape| {
            let file = shape_bytes(&read, shape);
            met.file(&list, &file);
            assert_eq!(met.file(&list, &file[..file.len() - 7]), 39);
        });
    }
}

/// Every shape with few bends of every plate with up to three strips: those that
/// bend no strip both ways come back byte for byte, the others are 31.
#[test]
fn every_shape_of_small_plates() {
    for (strips, bends, [share, limited]) in [
        (1, how_many(12, 40), [1, 1]),
        (2, how_many(6, 7), [1, how_many(12, 1)]),
        (3, 4, [how_many(53, 1), how_many(61, 1_009)]),
    ] {
        let mut met = Met::default();
        let mut plates = 0;
        each_accepted(strips, share, &mut |plate| {
            every_shape(plate, bends as u32, plates % limited == 0, &mut met);
            plates += 1;
        });
        println!("{strips} strips, up to {bends} bends: {plates} plates, {met:?}");
        met.assert_met(&[0, 16, 25, 31, 39], &[0, 16]);
    }
}

/// What a random plate is compared on.
struct Case {
    list: Vec<u8>,
    read: List,
    /// A sound shape within the limits that bends no strip both ways.
    shape: Shape,
}

/// Limits that are met by a shape, or not: its bends, some more, one less, any
/// number, or none.
fn limits_near(shape: &Shape, random: &mut Random) -> Vec<u8> {
    let tight = random.below(3) == 0;
    let mut limit = |bends: u32| match random.below(8) {
        0 => bends as u8,
        1 => (bends as u8).saturating_add(random.below(4) as u8),
        2 if tight => (bends as u8).saturating_sub(1),
        3 if tight => random.draw() as u8,
        _ => 255,
    };
    shape.by_strip().into_iter().map(&mut limit).collect()
}

/// A random plate with at most so many posts, or the largest ring at times.
fn some_plate(most: usize, random: &mut Random) -> Plate {
    let mut plate = match random.below(if most == 64 { 20 } else { 1_000 }) {
        0 => double_ring(most),
        1 => looped_ring(most),
        _ => return any_plate(most, random),
    };
    plate.outer = random.below(plate.darts());
    plate
}

/// A random plate with its own best shape, or one near that, and perhaps limits.
fn random_case(most: usize, random: &mut Random) -> Case {
    let mut plate = some_plate(most, random);
    let best = cancel_once(&plate).expect("the plate has no limits");
    let mut near = Near::new(&plate, &best);
    if random.below(3) > 0 {
        near.wander(random);
    }
    let shape = near.shape;
    if random.below(2) == 0 {
        plate.limits = limits_near(&shape, random);
    }
    let list = list_of(&plate, random);
    let read = read_list(&list).expect("the plate is plane");
    Case { list, read, shape }
}

/// The same with random prices.
fn priced_case(most: usize, random: &mut Random) -> Case {
    let case = random_case(most, random);
    let plate = &case.read.plate;
    let list = list_of(&plate.priced(&random_prices(plate, random)), random);
    let read = read_list(&list).expect("the plate is plane");
    Case { list, read, ..case }
}

/// The file that the library writes, if some shape keeps the limits, goes to
/// text and back byte for byte.
fn own_file(list: &[u8], met: &mut Met) -> bool {
    let mut out = [0; plates::LONGEST_SHAPE];
    match plates::write_shape(list, &mut out) {
        Ok(shape) => {
            let file = &out[..shape.length];
            assert_eq!(met.file(list, file), 0);
            let text = compare::to_text(list, file).expect("the file has a text");
            let back = compare::from_text(list, text.as_bytes());
            assert_eq!(back.as_deref(), Ok(file));
            true
        }
        Err(refusal) => {
            assert_eq!(refusal.number(), 24);
            false
        }
    }
}

/// Files of sound shapes near the given one, as long as they keep the limits: how
/// many go to text and back that are not the library's own.
fn near_files(case: &Case, random: &mut Random, met: &mut Met) -> usize {
    let best = cancel_once(&case.read.plate);
    let mut near = Near::new(&case.read.plate, &case.shape);
    let mut others = 0;
    for _ in 0..4 {
        near.wander(random);
        match met.file(&case.list, &shape_bytes(&case.read, &near.shape)) {
            0 => others += usize::from(best.as_ref() != Some(&near.shape)),
            number => assert_eq!(number, 25),
        }
    }
    others
}

/// Files of the shape: as it is, with a remark, with a strip bent both ways, and
/// with a count, an angle, the total or the revision changed; with prices also
/// those with the sum changed or left out, without them one with a sum.
fn files_of(case: &Case, random: &mut Random) -> Vec<Vec<u8>> {
    let darts = case.read.plate.darts();
    let sound = shape_bytes(&case.read, &case.shape);
    let length = random.below(81);
    let mut files = vec![with_remark(&sound, &random.bytes(length))];
    let dart = random.below(darts);
    let mut changed = |change: &dyn Fn(&mut Shape, u32)| {
        let mut shape = case.shape.clone();
        change(&mut shape, 1 + random.below(3) as u32);
        if shape.rights.iter().all(|&right| right < 256) {
            files.push(shape_bytes(&case.read, &shape));
        }
    };
    changed(&|shape, count| {
        shape.rights[dart] += count;
        shape.rights[twin(dart)] += count;
    });
    changed(&|shape, count| shape.rights[dart] += count);
    changed(&|shape, count| shape.angles[dart] += count);
    for place in [3, 4, 8, 9, 13 + dart] {
        let mut file = sound.clone();
        file[place] ^= 1 << random.below(8);
        files.push(file);
    }
    if case.read.plate.prices.is_empty() {
        files.push(with_sum(&sound, &case.shape.bends().to_be_bytes()));
    } else {
        let mut file = sound.clone();
        file[sound.len() - 1 - random.below(4)] ^= 1 << random.below(8);
        files.push(file);
        files.push(sound[..sound.len() - 7].to_vec());
    }
    files.push(sound);
    files
}

/// Compares all that is made of one random plate, with so many damaged texts.
fn compare_case(case: &Case, other: &str, texts: usize, random: &mut Random, met: &mut Met) {
    for file in files_of(case, random) {
        met.file(&case.list, &file);
    }
    let text = text_of(&case.read.plate, &case.shape);
    met.text(&case.list, text.as_bytes());
    for _ in 0..texts {
        let mut damaged = damaged_text(&text, other, random);
        if random.below(4) == 0 {
            if let Ok(again) = std::str::from_utf8(&damaged) {
                damaged = damaged_twice(again, other, random);
            }
        }
        met.text(&case.list, &damaged);
    }
}

/// A damaged text damaged once more, where it still has whole triples.
fn damaged_twice(text: &str, other: &str, random: &mut Random) -> Vec<u8> {
    let is_triple = |items: &[&str]| items.len() == 3 && items[0].parse::<u32>().is_ok();
    let whole = |line: &str| {
        let items: Vec<&str> = line.split(' ').collect();
        items.chunks(3).all(is_triple)
    };
    if !text.is_empty() && text.lines().all(whole) {
        damaged_text(text, other, random)
    } else {
        text.as_bytes().to_vec()
    }
}

/// Compares so many random plates that `made` makes from the seeds after `first`.
fn compare_plates(what: &str, count: usize, first: u64, made: fn(usize, &mut Random) -> Case) {
    let mut met = Met::default();
    let mut other = "0 - 4 1 - 4\n".to_string();
    let (mut most, mut own, mut near) = ([0; 2], 0, 0);
    for seed in 0..count {
        let mut random = Random::new(first + seed as u64);
        let size = [64, 4, 8, 2 + random.below(63)][seed % 4];
        let case = made(size, &mut random);
        let plate = &case.read.plate;
        most = [most[0].max(plate.posts), most[1].max(plate.strips.len())];
        own += usize::from(own_file(&case.list, &mut met));
        near += near_files(&case, &mut random, &mut met);
        compare_case(&case, &other, 40, &mut random, &mut met);
        other = text_of(plate, &case.shape);
    }
    println!("{count} {what}, up to {most:?} posts and strips");
    println!("{own} own files, {near} of other shapes near them: {met:?}");
    assert_eq!(most, [64, 128]);
    assert!(own > count / 2 && near > count);
    met.assert_met(
        &[0, 16, 18, 19, 20, 21, 22, 25, 31, 39],
        &[0, 16, 20, 21, 25, 30, 31, 32],
    );
}

#[test]
fn random_plates() {
    let count = how_many(500, 10_000);
    compare_plates("random plates", count, 11_000_000, random_case);
}

#[test]
fn random_plates_with_prices() {
    let count = how_many(250, 5_000);
    compare_plates("random plates with prices", count, 13_000_000, priced_case);
}

/// Damaged lists with a sound file and a sound text, damaged files, and texts
/// with each byte changed, of so many plates that `made` makes. What was met.
fn compare_damaged(count: usize, first: u64, made: fn(usize, &mut Random) -> Case) -> Met {
    let mut met = Met::default();
    for seed in 0..count {
        let mut random = Random::new(first + seed as u64);
        let case = made(3 + seed % 5, &mut random);
        let file = older_file(&case.list, &shape_bytes(&case.read, &case.shape));
        let text = text_of(&case.read.plate, &case.shape);
        each_damaged(&case.list, &mut random, &mut |list| {
            met.file(list, &file);
            met.text(list, text.as_bytes());
        });
        each_damaged(&file, &mut random, &mut |file| {
            met.file(&case.list, file);
        });
    }
    println!("damaged lists and files: {met:?}");
    let of_lists = [1, 2, 3, 4, 5, 6, 7, 8, 9, 11, 12, 13, 14, 15, 23, 29];
    for number in of_lists.iter().chain(&[17, 18, 19, 20, 21, 22, 25]) {
        assert!(met.to.contains_key(number), "to text {number}");
    }
    for number in of_lists.iter().chain(&[25, 32]) {
        assert!(met.back.contains_key(number), "back {number}");
    }
    assert!(!met.to.contains_key(&10) && !met.back.contains_key(&10));
    met
}

#[test]
fn damaged_lists_and_files() {
    compare_damaged(how_many(60, 1_000), 12_000_000, random_case);
}

#[test]
fn damaged_lists_and_files_with_prices() {
    let met = compare_damaged(how_many(30, 500), 14_000_000, priced_case);
    assert!(met.to.contains_key(&38) && met.to.contains_key(&39));
    assert!(met.back.contains_key(&38) && !met.back.contains_key(&39));
}

/// Words about as long as they can be on the largest plates: no text is longer
/// than `LONGEST_TEXT`.
#[test]
fn longest_texts() {
    let mut random = Random::new(66_962);
    let path: Vec<[usize; 2]> = (0..63).map(|post| [post, post + 1]).collect();
    let mut longest = 0;
    for mut plate in [double_ring(64), looped_ring(64), by_number(64, &path, 0)] {
        for _ in 0..how_many(2, 20) {
            plate.outer = random.below(plate.darts());
            let best = cancel_once(&plate).expect("the plate has no limits");
            let mut near = Near::new(&plate, &best);
            near.fill(&mut random);
            let list = list_bytes(&plate, 0xffff, Some(&[0x5a; 80]));
            let read = read_list(&list).expect("the plate is accepted");
            let mut met = Met::default();
            assert_eq!(met.file(&list, &shape_bytes(&read, &near.shape)), 0);
            let text = text_of(&plate, &near.shape);
            longest = longest.max(text.len());
            assert!(text.contains(&"0".repeat(255)) && text.contains(&"1".repeat(255)));
            let twice = text.clone() + &text;
            assert_eq!(met.text(&list, twice.as_bytes()), 32);
            let longer = text.replacen(&"1".repeat(255), &"1".repeat(256), 1);
            assert_eq!(met.text(&list, longer.as_bytes()), 30);
        }
    }
    println!("longest text: {longest} bytes");
    assert!((66_000..=plates::LONGEST_TEXT).contains(&longest));
}
