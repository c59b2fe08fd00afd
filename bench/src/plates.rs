//! The plates that are measured.

use plates_tests::files::list_bytes;
use plates_tests::plate::Plate;
use plates_tests::random::{double_ring, looped_ring, plane_plate, Random};

/// A plate with its name, as a command line gives it.
pub struct Named {
    pub family: &'static str,
    pub name: String,
    pub plate: Plate,
    /// Its plate list.
    pub list: Vec<u8>,
}

/// Families that are measured with 4, 16 and 64 posts.
pub const FAMILIES: [&str; 5] = ["grid", "tree", "path", "double", "looped"];

/// The first three seeds that give 64 posts and 113 to 117 strips.
const SEEDS: [u64; 3] = [207, 800, 1782];

/// The most bends of each strip of the same plates within limits; with one less
/// none of them has a shape.
const LIMIT: u8 = 2;

/// The prices of bends of the strips of the same plates, in turn.
const PRICES: [u8; 5] = [1, 4, 2, 7, 3];

/// Seeds of plates among the slowest of those with 50 posts or more of the seeds
/// below 20,000: before corners were counted, and since.
const SLOW: [u64; 2] = [11552, 19216];

/// All plates, in the order of the table.
pub fn all() -> Vec<Named> {
    let mut all = Vec::new();
    for family in FAMILIES {
        for side in [2, 4, 8] {
            let plate = of_family(family, side);
            all.push(named(family, side * side, plate));
        }
    }
    for (number, seed) in (1..).zip(SEEDS) {
        let plate = plane_plate(64, &mut Random::new(seed));
        assert_eq!(plate.posts, 64);
        assert!((113..=117).contains(&plate.strips.len()));
        all.push(named("random", number, plate));
    }
    for (number, seed) in (1..).zip(SEEDS) {
        let plate = plane_plate(64, &mut Random::new(seed));
        let limits = vec![LIMIT; plate.strips.len()];
        all.push(named("limited", number, plate.within(&limits)));
    }
    for (number, seed) in (1..).zip(SEEDS) {
        let plate = plane_plate(64, &mut Random::new(seed));
        let strips = 0..plate.strips.len();
        let prices: Vec<u8> = strips.map(|strip| PRICES[strip % PRICES.len()]).collect();
        all.push(named("priced", number, plate.priced(&prices)));
    }
    for seed in SLOW {
        let plate = plane_plate(64, &mut Random::new(seed));
        all.push(named("slow", plate.posts, plate));
    }
    all
}

/// The plate with this name.
pub fn by_name(name: &str) -> Option<Named> {
    all().into_iter().find(|named| named.name == name)
}

fn named(family: &'static str, number: usize, plate: Plate) -> Named {
    Named {
        family,
        name: format!("{family}-{number}"),
        list: list_bytes(&plate, 1, None),
        plate,
    }
}

fn of_family(family: &str, side: usize) -> Plate {
    match family {
        "grid" => grid(side),
        "tree" => tree(side * side, 3),
        "path" => tree(side * side, 1),
        "double" => one_side_out(double_ring(side * side)),
        _ => one_side_out(looped_ring(side * side)),
    }
}

/// A square grid of posts, row by row. The outside is round the grid.
fn grid(side: usize) -> Plate {
    let posts = side * side;
    let mut strips = Vec::new();
    // The darts of each post above, right, below and left.
    let mut places = vec![[None; 4]; posts];
    for post in 0..posts {
        let mut lay = |other: usize, place: usize| {
            let dart = 2 * strips.len();
            strips.push([post, other]);
            places[post][place] = Some(dart);
            places[other][(place + 2) % 4] = Some(dart + 1);
        };
        if (post + 1) % side != 0 {
            lay(post + 1, 1);
        }
        if post + side < posts {
            lay(post + side, 2);
        }
    }
    let around = |places: &[Option<usize>; 4]| places.iter().flatten().copied().collect();
    Plate {
        posts,
        order: places.iter().map(around).collect(),
        strips,
        outer: 1,
        limits: Vec::new(),
        prices: Vec::new(),
    }
}

/// A tree in which a post has up to so many posts below it.
fn tree(posts: usize, below: usize) -> Plate {
    let mut strips = Vec::new();
    let mut order = vec![Vec::new(); posts];
    for post in 1..posts {
        let above = (post - 1) / below;
        let dart = 2 * strips.len();
        strips.push([above, post]);
        order[above].push(dart);
        order[post].push(dart + 1);
    }
    Plate {
        posts,
        strips,
        order,
        outer: 0,
        limits: Vec::new(),
        prices: Vec::new(),
    }
}

/// A ring whose outside is one side of it.
fn one_side_out(mut ring: Plate) -> Plate {
    ring.outer = 1;
    ring
}
