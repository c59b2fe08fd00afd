//! Remarks (request E9): fields 06 and 15 are read and their lengths counted, and
//! no call answers otherwise for what they hold. No shape file is written with one.

use plates::Verdict;
use plates_tests::compare;
use plates_tests::damage::{refused_lists, split_fields};
use plates_tests::files::{file_of, list_bytes, older_file, with_remark};
use plates_tests::long_mode;
use plates_tests::plate::{p1, Plate, Shape};
use plates_tests::random::{any_plate, random_prices, Random};
use plates_tests::remembered::cancel_once;
use plates_tests::small::each_accepted;

/// A list with a remark behind its first `place` fields.
fn remarked(list: &[u8], place: usize, content: &[u8]) -> Vec<u8> {
    let mut fields = split_fields(list);
    let length = (content.len() as u16).to_be_bytes();
    fields.insert(place, [&[0x06], &length[..], content].concat());
    fields.concat()
}

/// Remarks of no byte, of one, of 80, and of fields.
fn contents(random: &mut Random) -> Vec<Vec<u8>> {
    let fields = [
        &[0x07, 0, 1, 0, 0x15, 0, 0][..],
        &[0x11, 0, 2, 0, 9, 0x08, 0, 1, 1],
        &[0x16, 0, 4, 0, 0, 0, 0],
    ]
    .concat();
    let length = 1 + random.below(79);
    vec![
        vec![],
        vec![0xff],
        random.bytes(80),
        random.bytes(length),
        fields,
    ]
}

/// What is written to memory that is long enough, or the refusal.
fn written(call: impl Fn(&mut [u8]) -> Result<usize, plates::Refusal>) -> Result<Vec<u8>, u8> {
    let mut out = vec![0xee; plates::LONGEST_TEXT];
    let length = call(&mut out).map_err(plates::Refusal::number)?;
    out.truncate(length);
    Ok(out)
}

fn shape(list: &[u8]) -> Result<Vec<u8>, u8> {
    compare::shaping(list, cancel_once);
    written(|out| plates::write_shape(list, out).map(|shape| shape.length))
}

fn verdict(list: &[u8], file: &[u8]) -> Result<Verdict, u8> {
    compare::checking(list, file, cancel_once);
    plates::check_shape(list, file).map_err(plates::Refusal::number)
}

/// What the library answers to a list alone, and against a file and a text,
/// after each answer was compared.
#[derive(Debug, PartialEq)]
struct Answers {
    shape: Result<Vec<u8>, u8>,
    listing: Result<Vec<u8>, u8>,
    verdict: Result<Verdict, u8>,
    text: Result<String, u8>,
    file: Result<Vec<u8>, u8>,
}

impl Answers {
    fn of(list: &[u8], file: &[u8], text: &[u8]) -> Answers {
        compare::listing(list, cancel_once);
        Answers {
            shape: shape(list),
            listing: written(|out| plates::write_listing(list, out)),
            verdict: verdict(list, file),
            text: compare::to_text(list, file),
            file: compare::from_text(list, text),
        }
    }
}

/// Every call answers the plate's list with a remark, and its shape file with
/// one, as without it. What is written has 16 + 4m bytes and four fields; with
/// prices 7 bytes and a field more.
fn passed_over(plate: &Plate, random: &mut Random) -> usize {
    let list = list_bytes(plate, random.draw() as u16, None);
    let shape = cancel_once(plate).expect("the plate has a shape");
    let file = file_of(&list, &shape);
    let text = compare::to_text(&list, &file).expect("the shape bends no strip both ways");
    let bare = Answers::of(&list, &file, text.as_bytes());
    assert_eq!(bare.shape.as_ref(), Ok(&file));
    assert_eq!(bare.file.as_ref(), Ok(&file));
    let priced = usize::from(!plate.prices.is_empty());
    assert_eq!(file.len(), 16 + 4 * plate.strips.len() + 7 * priced);
    let tags: Vec<u8> = split_fields(&file).iter().map(|field| field[0]).collect();
    assert_eq!(tags, [0x11, 0x12, 0x13, 0x14, 0x16][..4 + priced]);
    let mut compared = 0;
    for content in contents(random) {
        let list = remarked(&list, 5, &content);
        for file in [&file, &older_file(&list, &file), &with_remark(&file, b"Hi")] {
            assert_eq!(Answers::of(&list, file, text.as_bytes()), bare);
            compared += 1;
        }
        let ordered = if priced == 1 {
            Err(2)
        } else {
            Ok(list.clone())
        };
        assert_eq!(compare::ordering(&list), ordered);
    }
    compared
}

#[test]
fn small_plates() {
    let mut random = Random::new(9);
    let mut compared = 0;
    for (strips, share) in [(1, 1), (2, 1), (3, if long_mode() { 1 } else { 97 })] {
        each_accepted(strips, share, &mut |plate| {
            compared += passed_over(plate, &mut random);
        });
    }
    println!("{compared} pairs of a list and a file of small plates");
    assert!(compared > 4_000);
}

/// Pairs of a list and a file of plates of both sorts, each changed as given, half
/// of them within limits that the best shape just keeps.
fn pairs_of_plates(count: u64, seed: u64, changed: fn(Plate, &mut Random) -> Plate) -> usize {
    let mut compared = 0;
    for seed in seed..seed + count {
        let mut random = Random::new(seed);
        let size = 3 + random.below(62);
        let plate = any_plate(size, &mut random);
        let mut plate = changed(plate, &mut random);
        if random.below(2) == 0 {
            let shape = cancel_once(&plate).expect("the plate has no limits");
            plate.limits = shape.by_strip().iter().map(|&bends| bends as u8).collect();
        }
        compared += passed_over(&plate, &mut random);
    }
    compared
}

#[test]
fn random_plates() {
    let count = if long_mode() { 3_000 } else { 100 };
    let compared = pairs_of_plates(count, 15_000_000, |plate, _| plate);
    println!("{compared} pairs of a list and a file of random plates");
    assert_eq!(compared, 15 * count as usize);
}

#[test]
fn random_plates_with_prices() {
    let count = if long_mode() { 1_500 } else { 50 };
    let compared = pairs_of_plates(count, 20_000_000, |plate, random| {
        plate.priced(&random_prices(&plate, random))
    });
    println!("{compared} pairs of a list and a file of plates with prices");
    assert_eq!(compared, 15 * count as usize);
}

/// A remark anywhere between the fields of refused lists: each content of up to
/// 80 bytes gives the same number.
#[test]
fn refused() {
    let mut random = Random::new(916);
    let mut numbers = [0usize; 40];
    for (number, list) in refused_lists() {
        // Of those that end within a field there is no place to try.
        if [1, 5].contains(&number) {
            continue;
        }
        for place in 0..=split_fields(&list).len() {
            let mut met: Vec<u8> = Vec::new();
            for content in contents(&mut random) {
                let list = remarked(&list, place, &content);
                met.extend(shape(&list).err());
                met.extend(verdict(&list, b"").err());
            }
            assert_eq!(met, [met[0]; 10]);
            numbers[usize::from(met[0])] += 1;
        }
    }
    println!("places by number {numbers:?}");
    let met = (0..40).filter(|&number| numbers[number] > 0);
    let wanted = [2, 3, 4, 6, 7, 8, 9, 11, 12, 13, 14, 15, 23, 29, 38];
    assert_eq!(met.collect::<Vec<usize>>(), wanted);
}

/// Up to 80 bytes are read, more are 4. A remark cut is 5, or 1 in its head.
#[test]
fn lengths() {
    let list = list_bytes(&p1(), 7, None);
    let file = file_of(&list, &Shape::new(&[0, 0, 0, 2], &[1, 3, 3, 1]));
    for length in (0..=260).chain([511, 512, 65_535]) {
        let content = vec![0x41; length];
        let longer = remarked(&list, 5, &content);
        let with_it = with_remark(&file, &content);
        if length > 80 {
            assert_eq!(shape(&longer), Err(4));
            assert_eq!(verdict(&list, &with_it), Err(4));
            assert_eq!(compare::ordering(&longer), Err(4));
            continue;
        }
        assert_eq!(shape(&longer).as_ref(), Ok(&file));
        assert_eq!(verdict(&list, &with_it), verdict(&list, &file));
        for cut in 1..length + 3 {
            let wanted = if cut > length { 1 } else { 5 };
            assert_eq!(shape(&longer[..longer.len() - cut]), Err(wanted));
            assert_eq!(verdict(&list, &with_it[..with_it.len() - cut]), Err(wanted));
        }
    }
}

/// A shape file as it was written before the request, its fields shuffled: put
/// in order it has its remark, it is sound and ours, and it comes back from its
/// text as the file of today.
#[test]
fn older_files() {
    for seed in 0..if long_mode() { 2_000 } else { 60 } {
        let mut random = Random::new(16_000_000 + seed);
        let plate = any_plate(8, &mut random);
        let length = random.below(81);
        let list = list_bytes(&plate, 7, Some(&random.bytes(length)));
        let shape = cancel_once(&plate).expect("the plate has no limits");
        let file = file_of(&list, &shape);
        let older = older_file(&list, &file);
        assert_eq!(older.len(), file.len() + 3 + length);
        let mut fields = split_fields(&older);
        random.shuffle(&mut fields);
        assert_eq!(compare::ordering(&fields.concat()).as_ref(), Ok(&older));
        assert_eq!(verdict(&list, &older).map(|v| v.ours), Ok(true));
        let text = compare::to_text(&list, &older).expect("our files have texts");
        assert_eq!(compare::from_text(&list, text.as_bytes()), Ok(file));
    }
}
