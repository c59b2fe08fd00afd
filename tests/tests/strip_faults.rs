//! Strip fields with several faults: 9 wins over 11, wherever in the field they
//! stand, and a strip from a post to itself takes two of its places.

use plates_tests::cancelling;
use plates_tests::compare;
use plates_tests::files::list_bytes;
use plates_tests::long_mode;
use plates_tests::plate::{by_number, Plate};
use plates_tests::random::{plane_plate, Random};

/// The numbers of the strip field, in their sequence.
const NUMBERS: [u8; 2] = [9, 11];

/// At which strip each of 9 and 11 is first met, if it is.
fn first_met(plate: &Plate) -> [Option<usize>; 2] {
    let strips = &plate.strips;
    let fifth = |place: usize| {
        let ends = || strips[..=place].iter().flatten();
        (0..plate.posts).any(|post| ends().filter(|&&end| end == post).count() > 4)
    };
    [
        strips
            .iter()
            .position(|ends| ends.iter().any(|&end| end >= plate.posts)),
        (0..strips.len()).find(|&place| fifth(place)),
    ]
}

/// How many fields gave each of 9 and 11, how many gave 9 where 11 had been met
/// at an earlier strip, and how many gave 11 only because a strip from a post to
/// itself takes two places.
#[derive(Debug, Default)]
struct Met {
    given: [usize; 2],
    behind: usize,
    by_loops: usize,
}

impl Met {
    /// Compares the list of this plate; where its strips have a fault, the
    /// number given is the first in sequence, not the first by place.
    fn compare(&mut self, plate: &Plate) {
        let number = compare::shaping(&list_bytes(plate, 7, None), cancelling::best);
        let places = first_met(plate);
        let first = places.iter().position(Option::is_some);
        assert_eq!(NUMBERS.contains(&number), first.is_some());
        let Some(first) = first else { return };
        assert_eq!(number, NUMBERS[first]);
        self.given[first] += 1;
        self.behind +=
            usize::from(first == 0 && places[1].is_some_and(|place| Some(place) < places[0]));
        let strips = |post| plate.strips.iter().filter(move |ends| ends.contains(&post));
        let few = (0..plate.posts).all(|post| strips(post).count() <= 4);
        self.by_loops += usize::from(first == 1 && few);
    }

    /// Prints the counts, of which none is zero.
    fn told(&self, what: &str) {
        println!("{what}: {self:?}");
        assert!(self.given.iter().all(|&count| count > 0));
        assert!(self.behind > 0 && self.by_loops > 0);
    }
}

/// Every field of up to five strips on two posts, with ends 0, 1, and 2, which
/// is no post: alone, and behind five strips from post 0 to post 1.
#[test]
fn every_field_on_two_posts() {
    let mut met = Met::default();
    for before in [0, 5] {
        for strips in 1..=5 {
            for code in 0..9usize.pow(strips) {
                let digit = |place: u32| code / 3usize.pow(place) % 3;
                let ends = |strip| [digit(2 * strip), digit(2 * strip + 1)];
                let mut field = vec![[0, 1]; before];
                field.extend((0..strips).map(ends));
                met.compare(&by_number(2, &field, 0));
            }
        }
    }
    met.told("every field on two posts");
}

/// Random plane plates with one to six strips changed: to an end that is no
/// post, to a strip from a post to itself, or to one more at a certain post.
#[test]
fn random_fields() {
    let mut met = Met::default();
    for seed in 0..if long_mode() { 100_000 } else { 2_000 } {
        let mut random = Random::new(7_000_000 + seed);
        let most = 2 + random.below(63);
        let mut plate = plane_plate(most, &mut random);
        let crowded = random.below(plate.posts);
        for _ in 0..1 + random.below(6) {
            let strip = random.below(plate.strips.len());
            let end = random.below(2);
            plate.strips[strip][end] = match random.below(4) {
                0 => plate.posts + random.below(256 - plate.posts),
                1 => plate.strips[strip][1 - end],
                _ => crowded,
            };
        }
        met.compare(&plate);
    }
    met.told("random fields");
}
