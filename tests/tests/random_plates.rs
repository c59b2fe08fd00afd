//! Random plates up to 64 posts and 128 strips, compared with cycle cancelling.

use plates_tests::cancelling;
use plates_tests::certificate::{is_best, none_keeps};
use plates_tests::compare;
use plates_tests::files::{list_bytes, read_list, shape_bytes, List};
use plates_tests::long_mode;
use plates_tests::plate::{twin, Plate, Shape};
use plates_tests::random::{
    any_plate, double_ring, list_of, looped_plate, looped_ring, plane_plate, random_prices,
    shuffled_plate, Random,
};

/// How many random plates of each sort are compared.
fn how_many(default: u64, long: u64) -> u64 {
    if long_mode() {
        long
    } else {
        default
    }
}

/// The best shape without limits.
fn without_limits(plate: &Plate) -> Shape {
    let shape = cancelling::best(&plate.within(&[]));
    shape.expect("every plate without limits has a shape")
}

/// The best shape, any shape, and the best with a right and a left bend more
/// on one strip: all meet the conditions.
fn sound_shapes(list: &List, random: &mut Random) -> Vec<Shape> {
    let best = without_limits(&list.plate);
    let mut mixed = best.clone();
    let dart = random.below(mixed.rights.len());
    mixed.rights[dart] += 1;
    mixed.rights[twin(dart)] += 1;
    let mut shapes = vec![best, mixed];
    let any = cancelling::any(&list.plate);
    if any.rights.iter().all(|&right| right < 256) {
        shapes.push(any);
    }
    shapes
}

fn compare_verdicts(list: &[u8], random: &mut Random) {
    let read = read_list(list).expect("the list was accepted");
    for shape in sound_shapes(&read, random) {
        let mut file = shape_bytes(&read, &shape);
        assert_eq!(compare::checking(list, &file, cancelling::best), 0);
        let place = random.below(file.len());
        file[place] ^= 1 << random.below(8);
        compare::checking(list, &file, cancelling::best);
    }
}

fn compare_list(list: &[u8], random: &mut Random) -> u8 {
    let number = compare::shaping(list, cancelling::best);
    compare::listing(list, cancelling::best);
    if number == 0 {
        compare_verdicts(list, random);
    }
    number
}

/// Compares the plates that `made` makes from the seeds after `first`.
fn compare_plates(what: &str, first: u64, made: fn(usize, &mut Random) -> Plate) {
    let count = how_many(300, 20_000);
    let (mut most_posts, mut most_strips, mut most_bends) = (0, 0, 0);
    for seed in first..first + count {
        let mut random = Random::new(seed);
        let most = if seed % 3 == 0 {
            64
        } else {
            2 + random.below(63)
        };
        let plate = made(most, &mut random);
        let list = list_of(&plate, &mut random);
        assert_eq!(compare_list(&list, &mut random), 0, "seed {seed}");
        most_posts = most_posts.max(plate.posts);
        most_strips = most_strips.max(plate.strips.len());
        most_bends = most_bends.max(without_limits(&plate).bends());
    }
    println!("{count} {what}, up to {most_posts} posts, {most_strips} strips, {most_bends} bends");
}

#[test]
fn plane_plates() {
    compare_plates("plane plates", 0, plane_plate);
}

#[test]
fn looped_plates() {
    compare_plates("plates with strips to itself", 8_000_000, looped_plate);
}

#[test]
fn shuffled_plates() {
    let count = how_many(300, 20_000);
    let mut refused = 0;
    for seed in 0..count {
        let mut random = Random::new(1_000_000 + seed);
        let most = 2 + random.below(63);
        let list = list_of(&shuffled_plate(most, &mut random), &mut random);
        match compare_list(&list, &mut random) {
            0 => {}
            15 => refused += 1,
            number => panic!("seed {seed}: refused {number}"),
        }
    }
    println!("{count} shuffled plates, {refused} not plane");
}

/// No cycle of the residual network improves the shape that the library
/// writes with prices, without limits and within some.
#[test]
fn no_cycle_improves_with_prices() {
    let count = how_many(100, 2_000);
    let mut limited = 0;
    for seed in 0..count {
        let mut random = Random::new(18_000_000 + seed);
        let most = if seed % 10 == 0 { 64 } else { 12 };
        let plate = any_plate(most, &mut random);
        let limits = random_limits(&without_limits(&plate), &mut random);
        let plate = plate.priced(&random_prices(&plate, &mut random));
        improved_by_none(&plate);
        let within = plate.within(&limits);
        if cancelling::best(&within).is_some() {
            improved_by_none(&within);
            limited += 1;
        }
    }
    println!("{count} shapes with prices without an improving cycle, {limited} within limits");
    assert!(limited > 0);
}

/// No cycle of the residual network improves the shape that the library
/// writes, without limits and within some; any other shape is found not to be
/// the best.
#[test]
fn no_cycle_improves() {
    let count = how_many(100, 2_000);
    let mut limited = 0;
    for seed in 0..count {
        let mut random = Random::new(6_000_000 + seed);
        let most = if seed % 10 == 0 { 64 } else { 12 };
        let plate = any_plate(most, &mut random);
        let limits = random_limits(&without_limits(&plate), &mut random);
        improved_by_none(&plate);
        let within = plate.within(&limits);
        if cancelling::best(&within).is_some() {
            improved_by_none(&within);
            limited += 1;
        }
    }
    println!("{count} shapes without an improving cycle, {limited} within limits");
    assert!(limited > 0);
}

fn improved_by_none(plate: &Plate) {
    let list = list_bytes(plate, 1, None);
    let written = written_shape(&list, plate.darts());
    assert!(is_best(plate, &written), "list {}", compare::hex(&list));
    for other in [cancelling::any(plate), without_limits(plate)] {
        assert_eq!(is_best(plate, &other), other == written, "{plate:?}");
    }
}

/// Angles and right bends that the library writes for a list without remark.
fn written_shape(list: &[u8], darts: usize) -> Shape {
    let mut out = [0; plates::LONGEST_SHAPE];
    let shape = plates::write_shape(list, &mut out).expect("the list is accepted");
    let numbers = |content: &[u8]| content.iter().map(|&b| u32::from(b)).collect();
    assert!([16, 23].contains(&(shape.length - 2 * darts)));
    Shape {
        angles: numbers(&out[13..13 + darts]),
        rights: numbers(&out[16 + darts..16 + 2 * darts]),
    }
}

/// Rings of up to 64 posts with four places taken at each, from every outer
/// dart in the long mode.
#[test]
fn largest_plates() {
    let mut random = Random::new(64);
    let mut longest = 0;
    for posts in [1, 2, 3, 32, 63, 64] {
        for mut plate in [double_ring(posts), looped_ring(posts)] {
            let step = if long_mode() { 1 } else { 61 };
            for outer in (0..plate.darts()).step_by(step) {
                plate.outer = outer;
                let limits = vec![255; plate.strips.len()];
                let prices = random_prices(&plate, &mut random);
                for (limits, prices) in [(&[][..], &[][..]), (&limits, &[]), (&limits, &prices)] {
                    let plate = plate.within(limits).priced(prices);
                    let list = list_bytes(&plate, 0xffff, Some(&[0x5a; 80]));
                    longest = longest.max(list.len());
                    assert_eq!(compare_list(&list, &mut random), 0);
                }
            }
        }
    }
    assert_eq!(longest, 876);
}

/// Limits on a plate whose best shape without limits is `free`: the same on all
/// strips, or on a share of them some more or fewer than the bends of that.
fn random_limits(free: &Shape, random: &mut Random) -> Vec<u8> {
    let (spare, tight) = (random.below(4), 1 + random.below(12));
    let limited = 1 + random.below(8);
    let same = (random.below(4) == 0).then(|| 1 + random.below(4));
    let mut limit = |bends: usize| match same {
        Some(limit) => limit,
        None if random.below(8) >= limited => 255,
        None if random.below(tight) == 0 => bends.saturating_sub(1),
        None => bends + spare,
    };
    let bends = free.by_strip().into_iter();
    bends.map(|bends| limit(bends as usize) as u8).collect()
}

/// What was met on random lists with limits or prices.
#[derive(Debug, Default)]
struct Within {
    /// Lists with the best shape without limits and prices, with another, and with
    /// none.
    same: usize,
    other: usize,
    without: usize,
    /// Shapes that pass a limit, and sound ones that are not ours.
    passed: usize,
    not_ours: usize,
    /// The most strips with a shape, and without.
    most_strips: [usize; 2],
}

impl Within {
    fn compare(&mut self, plate: &Plate, free: &Shape, random: &mut Random) {
        let list = list_of(plate, random);
        let number = compare::shaping(&list, cancelling::best);
        compare::listing(&list, cancelling::best);
        let best = cancelling::best_or_cut(plate);
        assert_eq!(number, if best.is_ok() { 0 } else { 24 }, "{plate:?}");
        match &best {
            Ok(best) if best == free => self.same += 1,
            Ok(_) => self.other += 1,
            Err(cut) => {
                assert!(none_keeps(plate, cut), "{plate:?}");
                self.without += 1;
            }
        }
        let most = &mut self.most_strips[usize::from(best.is_err())];
        *most = plate.strips.len().max(*most);
        let read = read_list(&list).expect("limits of an accepted plate");
        for shape in shapes_near(plate, free, best.as_ref().ok(), random) {
            match compare::checking(&list, &shape_bytes(&read, &shape), cancelling::best) {
                0 => self.not_ours += usize::from(Ok(&shape) != best.as_ref()),
                25 => self.passed += 1,
                number => panic!("refused {number}: {}", compare::hex(&list)),
            }
        }
    }
}

/// Shapes that meet H1 to H4: the best without limits, the best within them,
/// the best where a few of its strips may have one bend less, and each of these
/// with a strip that bends both ways.
fn shapes_near(
    plate: &Plate,
    free: &Shape,
    best: Option<&Shape>,
    random: &mut Random,
) -> Vec<Shape> {
    let mut shapes = vec![free.clone()];
    if let Some(best) = best {
        let mut tighter = plate.clone();
        for (limit, bends) in tighter.limits.iter_mut().zip(best.by_strip()) {
            if bends > 0 && random.below(4) == 0 {
                *limit = bends as u8 - 1;
            }
        }
        shapes.push(best.clone());
        shapes.extend(cancelling::best(&tighter));
    }
    for place in 0..shapes.len() {
        let mut both_ways = shapes[place].clone();
        let dart = random.below(plate.darts());
        both_ways.rights[dart] += 1;
        both_ways.rights[twin(dart)] += 1;
        shapes.push(both_ways);
    }
    shapes
}

/// Request E2: random limits near the bends of the best shape without them, and
/// 255 on every strip, which changes nothing.
#[test]
fn plates_within_limits() {
    let count = how_many(300, 10_000);
    let mut within = Within::default();
    for seed in 0..count {
        let mut random = Random::new(9_000_000 + seed);
        let most = if seed % 3 == 0 {
            64
        } else {
            2 + random.below(63)
        };
        let plate = any_plate(most, &mut random);
        let free = without_limits(&plate);
        let limits = random_limits(&free, &mut random);
        within.compare(&plate.within(&limits), &free, &mut random);
        let unlimited = plate.within(&vec![255; plate.strips.len()]);
        let written = written_shape(&list_bytes(&unlimited, 1, None), plate.darts());
        assert_eq!(written, free, "seed {seed}");
    }
    println!("{count} plates within limits: {within:?}");
    let least = count as usize / 10;
    assert!(within.same.min(within.other).min(within.without) > least);
    assert!(within.passed.min(within.not_ours) > least);
}

/// Request E12: random prices, on every other plate with random limits too. How
/// many bends there are more for a smaller sum, and the greatest sum.
#[test]
fn plates_with_prices() {
    let count = how_many(300, 10_000);
    let mut within = Within::default();
    let (mut more_bends, mut greatest) = (0, 0);
    for seed in 0..count {
        let mut random = Random::new(17_000_000 + seed);
        let most = if seed % 3 == 0 {
            64
        } else {
            2 + random.below(63)
        };
        let plate = any_plate(most, &mut random);
        let free = without_limits(&plate);
        let mut priced = plate.priced(&random_prices(&plate, &mut random));
        if seed % 2 == 1 {
            priced.limits = random_limits(&free, &mut random);
        }
        within.compare(&priced, &free, &mut random);
        let best = without_limits(&priced);
        more_bends += usize::from(best.bends() > free.bends());
        greatest = greatest.max(priced.sum(&best.rights));
    }
    println!("{count} plates with prices: {within:?}");
    println!("{more_bends} with more bends for a smaller sum, the greatest {greatest}");
    let least = count as usize / 10;
    assert!(within.same.min(within.other).min(within.without) > least);
    assert!(within.passed.min(within.not_ours).min(more_bends) > least);
}
