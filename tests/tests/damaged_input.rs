//! Damaged lists and shapes, about half of both with a remark: numbers and memory
//! must agree.

use plates_tests::cancelling;
use plates_tests::compare;
use plates_tests::damage::{changed_once, cut_and_mixed, each_damaged};
use plates_tests::files::{older_file, read_list, shape_bytes, with_limits, with_prices};
use plates_tests::long_mode;
use plates_tests::plate::{Plate, Shape};
use plates_tests::random::{any_plate, list_of, random_prices, Random};
use plates_tests::remembered::cancel_once;

/// The list of a random plate with at most so many posts, perhaps with strips
/// from a post to itself.
fn random_list(most: usize, random: &mut Random) -> Vec<u8> {
    list_of(&any_plate(most, random), random)
}

/// The best shape of a plate that has one within its limits.
fn best_of(plate: &Plate) -> Shape {
    cancel_once(plate).expect("the plate has a shape within its limits")
}

/// Sizes of the plates to be damaged: mostly small.
fn size(seed: u64) -> usize {
    if seed % 8 == 7 {
        40
    } else {
        3 + seed as usize % 8
    }
}

fn how_many() -> u64 {
    if long_mode() {
        600
    } else {
        48
    }
}

/// How often each number was met, up to 39.
type Numbers = [usize; 40];

fn print_numbers(what: &str, numbers: &Numbers) {
    let total: usize = numbers.iter().sum();
    println!("{what}: {total} compared; by number {numbers:?}");
}

#[test]
fn damaged_lists() {
    let mut numbers = [0; 40];
    for seed in 0..how_many() {
        let mut random = Random::new(2_000_000 + seed);
        let list = random_list(size(seed), &mut random);
        let mut other = Random::new(seed);
        each_damaged(&list, &mut random, &mut |damaged| {
            numbers[usize::from(compare::shaping(damaged, cancelling::best))] += 1;
            if other.below(8) == 0 {
                compare::listing(damaged, cancelling::best);
            }
        });
    }
    print_numbers("damaged lists", &numbers);
    let own = (1..=14).chain([29]);
    own.for_each(|number| assert_eq!(numbers[number] == 0, number == 10, "number {number}"));
}

#[test]
fn damaged_shapes() {
    let mut numbers = [0; 40];
    for seed in 0..how_many() {
        let mut random = Random::new(3_000_000 + seed);
        let list = random_list(size(seed), &mut random);
        let read = read_list(&list).expect("the plate is plane");
        let shape = match seed % 2 {
            0 => best_of(&read.plate),
            _ => cancelling::any(&read.plate),
        };
        let file = older_file(&list, &shape_bytes(&read, &shape));
        each_damaged(&file, &mut random, &mut |damaged| {
            let number = compare::checking(&list, damaged, cancelling::best);
            numbers[usize::from(number)] += 1;
        });
    }
    print_numbers("damaged shapes", &numbers);
    let own = (1..=6).chain(17..=22).chain([29]);
    own.for_each(|number| assert_ne!(numbers[number], 0, "number {number}"));
}

/// A damaged list with a sound shape, and a damaged list with a damaged one:
/// the list's refusal comes first.
#[test]
fn damaged_lists_with_shapes() {
    let mut numbers = [0; 40];
    for seed in 0..how_many() / 4 {
        let mut random = Random::new(4_000_000 + seed);
        let list = random_list(size(seed), &mut random);
        let read = read_list(&list).expect("the plate is plane");
        let file = older_file(&list, &shape_bytes(&read, &best_of(&read.plate)));
        let mut other = Random::new(seed);
        each_damaged(&list, &mut random, &mut |damaged| {
            let mut shape = file.clone();
            let number = compare::checking(damaged, &shape, cancelling::best);
            numbers[usize::from(number)] += 1;
            let place = other.below(shape.len());
            shape[place] = other.draw() as u8;
            compare::checking(damaged, &shape, cancelling::best);
        });
    }
    print_numbers("damaged lists with shapes", &numbers);
    (0..=6).for_each(|number| assert_ne!(numbers[number], 0, "number {number}"));
}

/// Random plates as `random_plates.rs` compares them: the list and its best
/// shape with each byte changed, cut at each length, with fields exchanged,
/// doubled and left out.
#[test]
fn every_random_plate_damaged() {
    let mut numbers = [0; 40];
    for seed in 0..if long_mode() { 20_000 } else { 40 } {
        let mut random = Random::new(seed);
        let list = random_list(64, &mut random);
        let read = read_list(&list).expect("the plate is plane");
        let file = older_file(&list, &shape_bytes(&read, &best_of(&read.plate)));
        let mut shaping = |damaged: &[u8]| {
            numbers[usize::from(compare::shaping_longer(damaged, cancel_once))] += 1;
        };
        changed_once(&list, &mut random, &mut shaping);
        cut_and_mixed(&list, &mut shaping);
        let mut checking = |damaged: &[u8]| {
            numbers[usize::from(compare::checking(&list, damaged, cancel_once))] += 1;
        };
        changed_once(&file, &mut random, &mut checking);
        cut_and_mixed(&file, &mut checking);
    }
    print_numbers("random plates damaged", &numbers);
    let met = [0, 1, 2, 3, 4, 5, 6, 9, 11, 12, 18, 19, 20, 21, 22, 29];
    met.iter()
        .for_each(|&number: &usize| assert_ne!(numbers[number], 0, "number {number}"));
}

/// Every byte of P1 changed to every value, in list and in shape, without limits,
/// with one bend at most on each strip, and with prices.
#[test]
fn every_value_of_every_byte() {
    let list = [
        1, 0, 2, 0, 7, 2, 0, 1, 2, 3, 0, 4, 0, 1, 0, 1, 4, 0, 4, 0, 2, 1, 3, 5, 0, 1, 1,
    ];
    let limited = with_limits(&list, &[1, 1]);
    let both = with_prices(&limited, &[2, 3]);
    for list in [list.to_vec(), limited, with_prices(&list, &[100, 99]), both] {
        let read = read_list(&list).expect("P1 is accepted");
        let file = shape_bytes(&read, &best_of(&read.plate));
        for value in 0..=255 {
            for place in 0..list.len() {
                let mut damaged = list.clone();
                damaged[place] = value;
                compare::shaping(&damaged, cancelling::best);
                compare::listing(&damaged, cancelling::best);
            }
            for place in 0..file.len() {
                let mut damaged = file.clone();
                damaged[place] = value;
                compare::checking(&list, &damaged, cancelling::best);
            }
        }
    }
}

/// Short random files: mostly 1 to 6.
#[test]
fn random_bytes() {
    let mut random = Random::new(5_000_000);
    for _ in 0..20_000 {
        let length = random.below(40);
        let mut file = random.bytes(length);
        file.iter_mut().for_each(|b| *b %= 8);
        compare::shaping(&file, cancelling::best);
        compare::checking(&file, &file, cancelling::best);
    }
}

/// Counts the numbers of the damaged list of a plate, and of the damaged file of
/// a shape against it, which has a right and a left bend more on strip 0 where
/// it shall pass a limit.
fn damage_both(
    plate: &Plate,
    mut shape: Shape,
    passes: bool,
    random: &mut Random,
    numbers: &mut [Numbers; 2],
) {
    let list = list_of(plate, random);
    let read = read_list(&list).expect("the plate is plane");
    each_damaged(&list, random, &mut |damaged| {
        numbers[0][usize::from(compare::shaping(damaged, cancel_once))] += 1;
        compare::listing(damaged, cancel_once);
    });
    if passes {
        shape.rights[0] += 1;
        shape.rights[1] += 1;
    }
    let file = older_file(&list, &shape_bytes(&read, &shape));
    each_damaged(&file, random, &mut |damaged| {
        numbers[1][usize::from(compare::checking(&list, damaged, cancel_once))] += 1;
    });
}

/// Lists with limits that their best shapes just keep, damaged, and damaged
/// shapes against them, of which every other one passes a limit.
#[test]
fn damaged_limits() {
    let mut numbers = [[0; 40]; 2];
    for seed in 0..how_many() {
        let mut random = Random::new(9_500_000 + seed);
        let mut plate = any_plate(3 + seed as usize % 6, &mut random);
        let shape = best_of(&plate);
        plate.limits = shape.by_strip().iter().map(|&bends| bends as u8).collect();
        let passes = seed % 2 == 1;
        damage_both(&plate, shape, passes, &mut random, &mut numbers);
    }
    print_numbers("damaged lists with limits", &numbers[0]);
    print_numbers("damaged shapes against limits", &numbers[1]);
    for number in [1, 2, 3, 4, 5, 6, 23, 24, 29] {
        assert_ne!(numbers[0][number], 0, "number {number}");
    }
    for number in (1..=6).chain(17..=22).chain([25, 29]) {
        assert_ne!(numbers[1][number], 0, "number {number}");
    }
    assert_eq!([numbers[0][25], numbers[1][23], numbers[1][24]], [0; 3]);
}

/// Lists with prices, half of them with limits that their best shapes just keep,
/// damaged, and damaged shapes against them, of which some pass a limit.
#[test]
fn damaged_prices() {
    let mut numbers = [[0; 40]; 2];
    for seed in 0..how_many() {
        let mut random = Random::new(19_000_000 + seed);
        let plate = any_plate(3 + seed as usize % 6, &mut random);
        let mut plate = plate.priced(&random_prices(&plate, &mut random));
        let shape = best_of(&plate);
        if seed % 2 == 0 {
            plate.limits = shape.by_strip().iter().map(|&bends| bends as u8).collect();
        }
        let passes = seed % 4 == 2;
        damage_both(&plate, shape, passes, &mut random, &mut numbers);
    }
    print_numbers("damaged lists with prices", &numbers[0]);
    print_numbers("damaged shapes with their sum", &numbers[1]);
    for number in [1, 2, 3, 4, 5, 6, 23, 24, 29, 38] {
        assert_ne!(numbers[0][number], 0, "number {number}");
    }
    for number in (1..=6).chain(17..=22).chain([25, 29, 39]) {
        assert_ne!(numbers[1][number], 0, "number {number}");
    }
    assert_eq!([numbers[0][39], numbers[1][23], numbers[1][38]], [0; 3]);
}
