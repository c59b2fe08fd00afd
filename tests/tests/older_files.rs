//! Fields in tag order: older files put in order, and both walks, on every order
//! of the fields, on rows of fields, on damaged files and on longer ones.

use plates_tests::compare;
use plates_tests::damage::{changed_once, cut_and_mixed, split_fields};
use plates_tests::files::{list_bytes, older_file, read_list, shape_bytes};
use plates_tests::long_mode;
use plates_tests::plate::{by_number, Plate};
use plates_tests::random::{any_plate, list_of, random_prices, Random};
use plates_tests::remembered::cancel_once;

/// A sound list with its shape file, which has the list's remark.
struct Pair {
    list: Vec<u8>,
    shape: Vec<u8>,
}

impl Pair {
    fn of(list: Vec<u8>) -> Pair {
        let read = read_list(&list).expect("the plate is plane");
        let shape = cancel_once(&read.plate).expect("the plate has a shape within its limits");
        let shape = older_file(&list, &shape_bytes(&read, &shape));
        Pair { list, shape }
    }

    /// Half of the lists have limits.
    fn random(random: &mut Random) -> Pair {
        let mut plate = any_plate(6, random);
        if random.below(2) == 0 {
            plate.limits = vec![255; plate.strips.len()];
        }
        Pair::of(list_of(&plate, random))
    }

    /// With prices and a remark, so that both files have one field more, and with
    /// limits where they are wanted.
    fn with_prices(limited: bool, random: &mut Random) -> Pair {
        let plate = any_plate(6, random);
        let mut plate = plate.priced(&random_prices(&plate, random));
        if limited {
            plate.limits = vec![255; plate.strips.len()];
        }
        Pair::of(list_bytes(&plate, 7, Some(b"Hi")))
    }

    /// The number of checking a shape file against this list.
    fn checking(&self, shape: &[u8]) -> u8 {
        compare::checking(&self.list, shape, cancel_once)
    }
}

fn shaping(list: &[u8]) -> u8 {
    compare::shaping(list, cancel_once)
}

/// Calls `visit` with every order of these fields (Heap's algorithm).
fn each_order(fields: &mut [Vec<u8>], count: usize, visit: &mut dyn FnMut(&[u8])) {
    if count <= 1 {
        return visit(&fields.concat());
    }
    for i in 0..count {
        each_order(fields, count - 1, visit);
        let other = if count % 2 == 1 { 0 } else { i };
        fields.swap(other, count - 1);
    }
}

/// Calls `visit` with every row of at most so many of these fields.
fn each_row(fields: &[Vec<u8>], most: usize, row: &mut Vec<u8>, visit: &mut dyn FnMut(&[u8])) {
    visit(row);
    if most > 0 {
        for field in fields {
            let before = row.len();
            row.extend(field);
            each_row(fields, most - 1, row, visit);
            row.truncate(before);
        }
    }
}

/// In every order the same bytes come out, and the walk takes these and refuses
/// the others with 29.
fn orders_of(file: &[u8], walk: &dyn Fn(&[u8]) -> u8) -> usize {
    let mut orders = 0;
    let mut fields = split_fields(file);
    let count = fields.len();
    each_order(&mut fields, count, &mut |order| {
        assert_eq!(compare::ordering(order), Ok(file.to_vec()));
        assert_eq!(walk(order), if order == file { 0 } else { 29 });
        orders += 1;
    });
    orders
}

#[test]
fn every_order() {
    let count = if long_mode() { 200 } else { 8 };
    let mut random = Random::new(29);
    let (mut orders, mut most) = (0, 0);
    for _ in 0..count {
        let pair = Pair::random(&mut random);
        let of_list = orders_of(&pair.list, &shaping);
        most = most.max(of_list);
        orders += of_list + orders_of(&pair.shape, &|order| pair.checking(order));
    }
    println!("{orders} orders, of one list up to {most}");
    // Some list has remark and limits.
    assert_eq!(most, 5_040);
}

/// In every order the old walk refuses a field that it does not know, and today's
/// takes the bytes of the file and refuses the others with 29.
fn unknown_in_orders(file: &[u8], walk: &dyn Fn(&[u8]) -> u8) -> usize {
    let mut orders = 0;
    let mut fields = split_fields(file);
    let count = fields.len();
    each_order(&mut fields, count, &mut |order| {
        assert_eq!(compare::ordering(order), Err(2));
        assert_eq!(walk(order), if order == file { 0 } else { 29 });
        orders += 1;
    });
    orders
}

/// Lists of seven fields and of eight with their prices, shape files of six with
/// their sum.
#[test]
fn every_order_with_prices() {
    let mut random = Random::new(2_908);
    let (mut orders, mut most) = (0, 0);
    for turn in 0..if long_mode() { 40 } else { 3 } {
        let pair = Pair::with_prices(turn % 4 == 2, &mut random);
        let of_list = unknown_in_orders(&pair.list, &shaping);
        most = most.max(of_list);
        orders += of_list + unknown_in_orders(&pair.shape, &|order| pair.checking(order));
    }
    println!("{orders} orders with prices, of one list up to {most}");
    assert_eq!(most, 40_320);
}

/// How many rows of at most so many fields there are, how many the old walk
/// takes, and how many the walk.
fn rows_of(file: &[u8], most: usize, walk: &dyn Fn(&[u8]) -> u8) -> [usize; 3] {
    let mut counts = [0; 3];
    let fields = split_fields(file);
    each_row(&fields, most, &mut Vec::new(), &mut |row| {
        let older = compare::ordering(row);
        let number = walk(row);
        counts[0] += 1;
        counts[1] += usize::from(older.is_ok());
        counts[2] += usize::from(number == 0);
        // The walk gives 29 or the old number, and takes what is in order.
        assert!(number == 29 || number == older.as_ref().err().copied().unwrap_or(0));
        assert_eq!(number == 0, older.is_ok_and(|ordered| ordered == row));
    });
    counts
}

/// Every row of at most six fields of a list, in the long mode seven, and of at
/// most five of a shape file, with fields left out and doubled: the plate has
/// two posts and a strip with a limit.
#[test]
fn rows_of_fields() {
    let plate = Plate {
        posts: 2,
        strips: vec![[0, 1]],
        order: vec![vec![0], vec![1]],
        outer: 0,
        limits: vec![0],
        prices: Vec::new(),
    };
    let pair = Pair::of(list_bytes(&plate, 7, Some(b"Hi")));
    // All orders of the five needed fields, of these with the remark, with the
    // limits, and with both.
    if long_mode() {
        let lists = rows_of(&pair.list, 7, &shaping);
        assert_eq!(lists, [960_800, 120 + 2 * 720 + 5_040, 4]);
    } else {
        let lists = rows_of(&pair.list, 6, &shaping);
        assert_eq!(lists, [137_257, 120 + 2 * 720, 3]);
    }
    let shapes = rows_of(&pair.shape, 5, &|row| pair.checking(row));
    assert_eq!(shapes, [3_906, 24 + 120, 2]);
}

/// How often each number was met on rows of a file with a field of this tag, one
/// that the old walk gives 2 at, if it comes to it.
fn priced_rows_of(file: &[u8], tag: u8, walk: &dyn Fn(&[u8]) -> u8) -> [usize; 40] {
    let fields = split_fields(file);
    let mut met = [0; 40];
    each_row(&fields, fields.len(), &mut Vec::new(), &mut |row| {
        let older = compare::ordering(row).err();
        let number = walk(row);
        met[usize::from(number)] += 1;
        let tags = split_fields(row).into_iter().map(|field| field[0]);
        match tags.clone().position(|t| t == tag) {
            Some(at) if at < distinct(tags) => assert_eq!(older, Some(2)),
            _ => assert!(number == 29 || number == 39 || older.unwrap_or(0) == number),
        }
    });
    met
}

/// The same rows with prices and their sum instead of limits and remarks. In
/// order, or with 39 for a sum that is not there, or is there though the list has
/// no prices, they are two lists and two shape files.
#[test]
fn rows_with_prices() {
    let plate = by_number(2, &[[0, 1]], 0).priced(&[9]);
    let pair = Pair::of(list_bytes(&plate, 7, None));
    let unpriced = Pair::of(list_bytes(&plate.priced(&[]), 7, None));
    let met = [
        priced_rows_of(&pair.list, 0x08, &shaping),
        priced_rows_of(&pair.shape, 0x16, &|row| pair.checking(row)),
        priced_rows_of(&pair.shape, 0x16, &|row| unpriced.checking(row)),
    ];
    println!("rows with prices by number {met:?}");
    let rows = met.map(|met| met.iter().sum::<usize>());
    assert_eq!(rows, [55_987, 3_906, 3_906]);
    let taken = met.map(|met| [met[0], met[39]]);
    assert_eq!(taken, [[2, 0], [1, 1], [1, 1]]);
}

/// How many tags come before the first that was met before.
fn distinct(tags: impl Iterator<Item = u8>) -> usize {
    let tags: Vec<u8> = tags.collect();
    let again = (0..tags.len()).find(|&at| tags[..at].contains(&tags[at]));
    again.unwrap_or(tags.len())
}

/// Shuffled files with each byte changed, cut at each length, with fields
/// exchanged, doubled and left out: the numbers are the old walk's, never 29.
#[test]
fn damaged_older_files() {
    let count = if long_mode() { 400 } else { 20 };
    let mut random = Random::new(2_900);
    let mut numbers = [0usize; 40];
    for _ in 0..count {
        let pair = Pair::random(&mut random);
        for file in [&pair.list, &pair.shape] {
            let mut fields = split_fields(file);
            random.shuffle(&mut fields);
            let older = fields.concat();
            let mut compared = |damaged: &[u8]| {
                let number = compare::ordering(damaged).err().unwrap_or(0);
                numbers[usize::from(number)] += 1;
            };
            changed_once(&older, &mut random, &mut compared);
            cut_and_mixed(&older, &mut compared);
        }
    }
    println!("{numbers:?}");
    (0..40).for_each(|n| assert_eq!(numbers[n] != 0, n <= 6, "number {n}"));
}

/// The longest fields that a list and a shape file may have: tag and length.
const LONGEST: [&[(u8, usize)]; 2] = [
    &[
        (1, 2),
        (2, 1),
        (3, 256),
        (4, 256),
        (5, 1),
        (6, 80),
        (7, 128),
        (8, 128),
    ],
    &[(17, 2), (18, 2), (19, 256), (20, 256), (21, 80), (22, 4)],
];

/// A list or a shape file of the longest fields, with prices and their sum or
/// without them, in any order, with a field of one of its tags and other bytes
/// behind it: the first 879 bytes tell, and 748 where the old walk goes to the
/// end, as the first 1,024 do, which the programs read. The longest list has 876,
/// and had 745.
#[test]
fn longer_files() {
    let mut random = Random::new(748);
    let pair = Pair::random(&mut random);
    let mut numbers = [[0usize; 40]; 2];
    for turn in 0..400 {
        let mut fields = Vec::new();
        let priced = turn % 8 >= 4;
        let count = LONGEST[turn % 2].len() - usize::from(!priced);
        for &(tag, length) in &LONGEST[turn % 2][..count] {
            let [high, low] = (length as u16).to_be_bytes();
            fields.push([vec![tag, high, low], random.bytes(length)].concat());
        }
        let again = fields[random.below(fields.len())][0];
        if turn % 4 < 2 {
            random.shuffle(&mut fields);
        }
        let end = fields.concat().len();
        let ends = if priced { [876, 618] } else { [745, 611] };
        assert_eq!(end, ends[turn % 2]);
        let older = if priced { 2 } else { 3 };
        let file = [fields.concat(), vec![again], random.bytes(2_000)].concat();
        let calls = [shaping(&file), pair.checking(&file)];
        assert_eq!(compare::ordering(&file), Err(older));
        for read in [end + 3, 879, 1024] {
            let front = &file[..read];
            assert_eq!(compare::ordering(front), Err(older));
            assert_eq!([shaping(front), pair.checking(front)], calls);
        }
        // The last field's tag and no more of its head.
        let cut = if priced { 2 } else { 1 };
        assert_eq!(compare::ordering(&file[..end + 1]), Err(cut));
        (0..2).for_each(|call| numbers[call][usize::from(calls[call])] += 1);
    }
    // A file of the other kind is refused with 2, one in order with 3.
    for met in numbers {
        (0..40).for_each(|n| assert_eq!(met[n] != 0, [2, 3, 29].contains(&n), "number {n}"));
    }
}
