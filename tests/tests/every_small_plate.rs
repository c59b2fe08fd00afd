//! Every plate with few strips, without limits and within them, without prices
//! and with them, compared with the search over all shapes.

use plates_tests::cancelling;
use plates_tests::certificate::{is_best, none_keeps};
use plates_tests::compare;
use plates_tests::files::Solver;
use plates_tests::files::{list_bytes, read_list, shape_bytes};
use plates_tests::plate::{twin, Plate, Shape};
use plates_tests::random::Random;
use plates_tests::remembered::search_once;
use plates_tests::small::{each_accepted, each_limits, each_plate, each_prices, Orders};
use plates_tests::{long_mode, search};

/// How many plates were compared, and how many of those accepted have a strip
/// from a post to itself.
#[derive(Debug, Default)]
struct Counts {
    accepted: usize,
    with_loop: usize,
    refused: usize,
}

/// Compares one plate; on a few of them also verdict, listing and other
/// lengths of lent memory.
fn compare_plate(plate: &Plate, best: Solver, counts: &mut Counts) {
    let list = list_bytes(plate, 0x1234, None);
    if compare::shaping_longer(&list, best) != 0 {
        counts.refused += 1;
        return;
    }
    counts.accepted += 1;
    counts.with_loop += usize::from(plate.has_loop());
    if counts.accepted % 16 == 15 {
        let read = read_list(&list).expect("the list was accepted");
        for shape in best(plate).into_iter().chain([cancelling::any(plate)]) {
            compare::checking(&list, &shape_bytes(&read, &shape), best);
        }
        compare::shaping(&list, best);
        compare::listing(&list, best);
    }
}

fn compare_all(strips: usize, best: Solver) {
    let mut counts = Counts::default();
    each_plate(strips, Orders::All, &mut |plate| {
        compare_plate(plate, best, &mut counts)
    });
    println!("{strips} strips: {counts:?}");
    assert!(counts.accepted > counts.with_loop && counts.with_loop > 0);
}

#[test]
fn every_plate_with_one_strip() {
    compare_all(1, search::best);
}

#[test]
fn every_plate_with_two_strips() {
    compare_all(2, search::best);
}

#[test]
fn every_plate_with_three_strips() {
    compare_all(3, search::best);
}

/// In the long mode only.
#[test]
fn every_plate_with_four_strips() {
    if long_mode() {
        compare_all(4, search_once);
    }
}

/// The search over mixed words finds the shape that the library writes, so
/// that no shape with mixed words comes before it.
#[test]
fn mixed_words_never_come_first() {
    let mut compared = 0;
    let most = if long_mode() { 4 } else { 3 };
    for strips in 1..=most {
        let mut met = 0;
        each_plate(strips, Orders::Cyclic, &mut |plate| {
            met += 1;
            if strips == 4 && met % 50 != 0 {
                return;
            }
            let list = list_bytes(plate, 1, None);
            if compare::shaping_longer(&list, search::best_with_words) == 0 {
                compared += 1;
            }
        });
    }
    println!("mixed words: {compared} plates");
    assert!(compared > 0);
}

/// Search and cancelling give a plate the same shape, or none, and the
/// certificates say so too.
fn methods_agree(plate: &Plate) {
    let found = cancelling::best_or_cut(plate);
    match &found {
        Ok(shape) => assert!(is_best(plate, shape), "{plate:?}"),
        Err(cut) => assert!(none_keeps(plate, cut), "{plate:?}"),
    }
    assert_eq!(search::best(plate), found.ok(), "{plate:?}");
}

/// The two methods of this package agree with each other, without limits and
/// within them, without prices and with them.
#[test]
fn search_and_cancelling_agree() {
    let (mut compared, mut limited, mut priced) = (0, 0, 0);
    for strips in 1..=3 {
        each_accepted(strips, 1, &mut |plate| {
            assert_eq!(search::best(plate), cancelling::best(plate), "{plate:?}");
            compared += 1;
        });
        each_accepted(strips, share(strips), &mut |plate| {
            each_limits(plate, &mut |plate| {
                methods_agree(plate);
                limited += 1;
            });
            each_prices(plate, &mut |plate| {
                methods_agree(plate);
                priced += 1;
            });
        });
        each_rated(strips, &mut |plate| {
            methods_agree(plate);
            priced += 1;
        });
    }
    println!(
        "search and cancelling: {compared} plates, {limited} with limits, {priced} with prices"
    );
    assert!(compared > 0 && limited > 0 && priced > 0);
}

/// Of the plates with three strips every 97th is compared within limits in the
/// default mode, and of those with fewer every one.
fn share(strips: usize) -> usize {
    if strips < 3 || long_mode() {
        1
    } else {
        97
    }
}

/// Calls `visit` with plates under limits and prices together: with one strip
/// under every choice of them, with two on every seventh plate, in the long mode
/// on each, and with three under a few choices at random.
fn each_rated(strips: usize, visit: &mut dyn FnMut(&Plate)) {
    let share = match strips {
        2 if !long_mode() => 7,
        _ => share(strips),
    };
    let mut random = Random::new(12);
    each_accepted(strips, share, &mut |plate| {
        each_limits(plate, &mut |plate| {
            each_prices(plate, &mut |plate| {
                if strips < 3 || random.below(if long_mode() { 512 } else { 64 }) == 0 {
                    visit(plate);
                }
            });
        });
    });
}

/// The shape file that the library writes for a list.
fn written(list: &[u8]) -> Vec<u8> {
    let mut out = [0; plates::LONGEST_SHAPE];
    let shape = plates::write_shape(list, &mut out).expect("the list has a shape");
    out[..shape.length].to_vec()
}

/// What was met on lists with limits or prices.
#[derive(Debug, Default)]
struct Within {
    /// Lists with a shape, and how many of these have another one than without
    /// limits and prices.
    shaped: usize,
    other: usize,
    /// Lists without a shape, refused with 24.
    without: usize,
    /// Shapes that pass a limit, refused with 25.
    passed: usize,
    /// Sound shapes: ours, others with the same sum of bends times price, which
    /// is the total where there are no prices, others with more.
    sound: [usize; 3],
}

impl Within {
    /// Compares shaping and listing of a plate with limits or prices. `free` is
    /// the best shape without them.
    fn shaping(&mut self, plate: &Plate, free: &Shape) {
        let list = list_bytes(plate, 0x1234, None);
        match compare::shaping(&list, search_once) {
            0 => self.shaped += 1,
            24 => self.without += 1,
            number => panic!("refused {number}: {}", compare::hex(&list)),
        }
        compare::listing(&list, search_once);
        let best = search_once(plate);
        self.other += usize::from(best.as_ref().is_some_and(|best| best != free));
        if plate.limits.iter().all(|&limit| limit == 255) {
            let without = list_bytes(&plate.within(&[]), 0x1234, None);
            assert_eq!(written(&list), written(&without), "{}", compare::hex(&list));
            let same = plate.prices.windows(2).all(|both| both[0] == both[1]);
            assert!(
                !same || best.as_ref() == Some(free),
                "{}",
                compare::hex(&list)
            );
        }
    }

    /// Compares the verdicts on these shapes.
    fn checking(&mut self, plate: &Plate, shapes: &[Shape]) {
        let list = list_bytes(plate, 0x1234, None);
        let read = read_list(&list).expect("limits of an accepted plate");
        let best = search_once(plate);
        for shape in shapes {
            match compare::checking(&list, &shape_bytes(&read, shape), search_once) {
                0 => {
                    let best = best.as_ref().expect("a sound shape keeps the limits");
                    let more = usize::from(plate.sum(&shape.rights) > plate.sum(&best.rights));
                    self.sound[usize::from(shape != best) + more] += 1;
                }
                25 => self.passed += 1,
                number => panic!("refused {number}: {}", compare::hex(&list)),
            }
        }
    }
}

/// Every choice of limits, or of prices, for a plate.
type Choices = fn(&Plate, &mut dyn FnMut(&Plate));

/// Shapes of a plate, each once: the best under each of these choices, the last
/// of them with a right and a left bend more on one strip, and any other.
fn shapes_of(plate: &Plate, each: Choices) -> Vec<Shape> {
    let mut shapes = vec![cancelling::any(plate)];
    each(plate, &mut |plate| shapes.extend(search_once(plate)));
    let free = shapes[shapes.len() - 1].clone();
    for dart in (0..plate.darts()).step_by(2) {
        let mut both_ways = free.clone();
        both_ways.rights[dart] += 1;
        both_ways.rights[twin(dart)] += 1;
        shapes.push(both_ways);
    }
    shapes.sort_by_key(|shape| (shape.rights.clone(), shape.angles.clone()));
    shapes.dedup();
    shapes
}

/// Each of these choices on plates with up to three strips: what is best under
/// each is judged under all the others too.
fn on_small_plates(what: &str, each: Choices) -> Within {
    let mut within = Within::default();
    for strips in 1..=3 {
        each_accepted(strips, share(strips), &mut |plate| {
            let free = search::best(plate).expect("every plate without limits has a shape");
            let shapes = shapes_of(plate, each);
            each(plate, &mut |plate| {
                within.shaping(plate, &free);
                within.checking(plate, &shapes);
            });
        });
        println!("{what} on up to {strips} strips: {within:?}");
    }
    within
}

/// The numbers that the search over mixed words gives with one and two strips
/// under each of these choices, which are the library's.
fn mixed_words_under(what: &str, each: Choices) -> Vec<u8> {
    let mut numbers = Vec::new();
    for strips in 1..=2 {
        each_accepted(strips, 1, &mut |plate| {
            each(plate, &mut |plate| {
                let list = list_bytes(plate, 1, None);
                numbers.push(compare::shaping_longer(&list, search::best_with_words));
            });
        });
    }
    println!("mixed words {what}: {} lists", numbers.len());
    numbers
}

/// Request E2: limits 0, 1, 2 and none on every strip. The shapes that are best
/// within some limits are judged within all the others too.
#[test]
fn every_limit_on_small_plates() {
    let within = on_small_plates("limits", each_limits);
    assert!(within.shaped > within.other && within.other > 0);
    assert!(within.without > 0 && within.passed > 0);
    assert!(within.sound.iter().all(|&count| count > 0));
}

/// With one and two strips the search over mixed words finds no other shape
/// within limits, and none where there is none.
#[test]
fn mixed_words_within_limits() {
    let numbers = mixed_words_under("within limits", each_limits);
    assert!(numbers.contains(&0) && numbers.contains(&24));
}

/// Request E12: prices 1, 2, 3 and 100 on every strip. The shapes that are best
/// with some prices are judged with all the others too.
#[test]
fn every_price_on_small_plates() {
    let within = on_small_plates("prices", each_prices);
    assert!(within.shaped > within.other && within.other > 0);
    assert_eq!([within.without, within.passed], [0; 2]);
    assert!(within.sound.iter().all(|&count| count > 0));
}

/// Limits 0, 1, 2 and none with prices 1, 2, 3 and 100. The shapes that are best
/// within limits or with prices are judged too.
#[test]
fn limits_and_prices_on_small_plates() {
    let mut within = Within::default();
    for strips in 1..=3 {
        each_rated(strips, &mut |plate| {
            let bare = plate.within(&[]).priced(&[]);
            let free = search_once(&bare).expect("every plate without limits has a shape");
            let priced = search_once(&plate.within(&[]));
            let limited = search_once(&plate.priced(&[]));
            let mut shapes: Vec<Shape> = priced.into_iter().chain(limited).collect();
            shapes.extend([free.clone(), cancelling::any(plate)]);
            shapes.extend(search_once(plate));
            shapes.sort_by_key(|shape| (shape.rights.clone(), shape.angles.clone()));
            shapes.dedup();
            within.shaping(plate, &free);
            within.checking(plate, &shapes);
        });
        println!("limits and prices on up to {strips} strips: {within:?}");
    }
    assert!(within.shaped > within.other && within.other > 0);
    assert!(within.without > 0 && within.passed > 0);
    assert!(within.sound.iter().all(|&count| count > 0));
}

/// With one and two strips the search over mixed words finds no other shape with
/// prices.
#[test]
fn mixed_words_with_prices() {
    let numbers = mixed_words_under("with prices", each_prices);
    assert!(!numbers.is_empty() && numbers.iter().all(|&number| number == 0));
}
