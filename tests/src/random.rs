//! Random plates from a seed.

use crate::files::list_bytes;
use crate::plate::{twin, Plate};

/// A small generator of pseudo-random numbers (splitmix64).
pub struct Random(u64);

impl Random {
    pub fn new(seed: u64) -> Random {
        Random(seed)
    }

    pub fn draw(&mut self) -> u64 {
        self.0 = self.0.wrapping_add(0x9e37_79b9_7f4a_7c15);
        let mut z = self.0;
        z = (z ^ (z >> 30)).wrapping_mul(0xbf58_476d_1ce4_e5b9);
        z = (z ^ (z >> 27)).wrapping_mul(0x94d0_49bb_1331_11eb);
        z ^ (z >> 31)
    }

    /// A number below `bound`.
    pub fn below(&mut self, bound: usize) -> usize {
        (self.draw() % bound as u64) as usize
    }

    pub fn shuffle<T>(&mut self, items: &mut [T]) {
        for i in (1..items.len()).rev() {
            let j = self.below(i + 1);
            items.swap(i, j);
        }
    }

    pub fn bytes(&mut self, length: usize) -> Vec<u8> {
        (0..length).map(|_| self.draw() as u8).collect()
    }
}

/// A plate of one strip.
fn one_strip() -> Plate {
    Plate {
        posts: 2,
        strips: vec![[0, 1]],
        order: vec![vec![0], vec![1]],
        outer: 0,
        limits: Vec::new(),
        prices: Vec::new(),
    }
}

/// A plate of two strips between two posts, without a post of degree 1.
fn two_strips() -> Plate {
    Plate {
        posts: 2,
        strips: vec![[0, 1], [0, 1]],
        order: vec![vec![0, 2], vec![3, 1]],
        outer: 0,
        limits: Vec::new(),
        prices: Vec::new(),
    }
}

/// Joins a new post into the corner at the end of a dart.
fn hang(plate: &mut Plate, random: &mut Random) {
    let dart = random.below(plate.darts());
    if plate.degree(plate.head(dart)) < 4 {
        plate.hang(dart);
    }
}

/// Puts a new post on a strip.
fn split(plate: &mut Plate, random: &mut Random) {
    let strip = random.below(plate.strips.len());
    plate.split(strip);
}

/// Joins two corners of one face by a new strip. Where `loops` are wanted they
/// may be at one post, or even the same.
fn join(plate: &mut Plate, loops: bool, random: &mut Random) {
    let faces = plate.faces();
    let face = &faces[random.below(faces.len())];
    let a = face[random.below(face.len())];
    let b = face[random.below(face.len())];
    let (first, second) = (plate.head(a), plate.head(b));
    let most = if first == second { 2 } else { 3 };
    if first == second && !loops || plate.degree(first) > most || plate.degree(second) > most {
        return;
    }
    plate.join(a, b);
}

/// Lets a plane plate grow by random splits, hangs and joins, with their shares
/// of all steps in tenths.
fn grow(
    plate: &mut Plate,
    posts: usize,
    [joins, hangs]: [usize; 2],
    loops: bool,
    random: &mut Random,
) {
    for _ in 0..20 * posts {
        let step = random.below(10);
        if step < joins {
            if plate.strips.len() < 128 {
                join(plate, loops, random);
            }
        } else if plate.posts < posts {
            if step < joins + hangs {
                hang(plate, random);
            } else {
                split(plate, random);
            }
        }
    }
}

/// The medial plate: a post for each strip, a strip for each corner. Every
/// post has four strip ends. A post or a face of one dart gives a strip from a
/// post to itself.
fn medial(plate: &Plate) -> Plate {
    let darts = plate.darts();
    let mut before = vec![0; darts];
    (0..darts).for_each(|d| before[plate.after(d)] = d);
    let around = |strip: usize| {
        let (there, back) = (2 * strip, 2 * strip + 1);
        vec![
            2 * there,
            twin(2 * before[there]),
            2 * back,
            twin(2 * before[back]),
        ]
    };
    Plate {
        posts: plate.strips.len(),
        strips: (0..darts).map(|d| [d / 2, plate.after(d) / 2]).collect(),
        order: (0..plate.strips.len()).map(around).collect(),
        outer: 0,
        limits: Vec::new(),
        prices: Vec::new(),
    }
}

/// The same plate with other numbers for posts and strips, other directions
/// of strips, other starting darts, and another outer dart.
fn renumber(plate: &Plate, random: &mut Random) -> Plate {
    let mut posts: Vec<usize> = (0..plate.posts).collect();
    let mut strips: Vec<usize> = (0..plate.strips.len()).collect();
    random.shuffle(&mut posts);
    random.shuffle(&mut strips);
    let turned: Vec<usize> = strips.iter().map(|_| random.below(2)).collect();
    let dart = |d: usize| 2 * strips[d / 2] + ((d % 2) ^ turned[d / 2]);
    let mut new = plate.clone();
    for d in 0..plate.darts() {
        new.strips[dart(d) / 2][dart(d) % 2] = posts[plate.tail(d)];
    }
    for (post, around) in plate.order.iter().enumerate() {
        let mut around: Vec<usize> = around.iter().map(|&d| dart(d)).collect();
        let start = random.below(around.len());
        around.rotate_left(start);
        new.order[posts[post]] = around;
    }
    new.outer = random.below(plate.darts());
    new
}

/// A random plane plate with at most `most` posts and twice as many strips,
/// each between two posts.
pub fn plane_plate(most: usize, random: &mut Random) -> Plate {
    grown_plate(most, false, random)
}

/// The same with one or more strips from a post to itself.
pub fn looped_plate(most: usize, random: &mut Random) -> Plate {
    loop {
        let plate = grown_plate(most, true, random);
        if plate.has_loop() {
            return plate;
        }
    }
}

/// A random plane plate, with or without strips from a post to itself.
pub fn any_plate(most: usize, random: &mut Random) -> Plate {
    if random.below(2) == 0 {
        looped_plate(most, random)
    } else {
        plane_plate(most, random)
    }
}

fn grown_plate(most: usize, loops: bool, random: &mut Random) -> Plate {
    let posts = 2 + random.below(most - 1);
    let plate = match random.below(4) {
        0 => {
            let mut base = two_strips();
            let joins = 3 + random.below(5);
            grow(&mut base, 2 + posts / 2, [joins, 0], loops, random);
            if base.strips.len() <= most {
                medial(&base)
            } else {
                base
            }
        }
        1 => {
            let mut plate = two_strips();
            grow(&mut plate, posts, [8, 0], loops, random);
            plate
        }
        _ => {
            let mut plate = one_strip();
            let joins = random.below(9);
            let hangs = random.below(10 - joins);
            grow(&mut plate, posts, [joins, hangs], loops, random);
            plate
        }
    };
    renumber(&plate, random)
}

/// A plane plate, with the orders round a few posts shuffled: often not plane.
pub fn shuffled_plate(most: usize, random: &mut Random) -> Plate {
    let mut plate = any_plate(most, random);
    for _ in 0..1 + random.below(3) {
        let post = random.below(plate.posts);
        random.shuffle(&mut plate.order[post]);
    }
    plate
}

/// A ring of posts, each joined to the next by two strips: every post has four.
pub fn double_ring(posts: usize) -> Plate {
    let mut strips = Vec::new();
    let mut order = Vec::new();
    for post in 0..posts {
        let next = (post + 1) % posts;
        strips.extend([[post, next], [post, next]]);
        let last = (post + posts - 1) % posts;
        order.push(vec![4 * post, 4 * post + 2, 4 * last + 3, 4 * last + 1]);
    }
    Plate {
        posts,
        strips,
        order,
        outer: 0,
        limits: Vec::new(),
        prices: Vec::new(),
    }
}

/// A ring of posts, each with a strip to itself, on one side of the ring and on
/// the other in turn: every post has four places taken.
pub fn looped_ring(posts: usize) -> Plate {
    let mut strips = Vec::new();
    let mut order = Vec::new();
    for post in 0..posts {
        strips.extend([[post, (post + 1) % posts], [post, post]]);
        let last = (post + posts - 1) % posts;
        let mut around = vec![4 * post, 4 * post + 2, 4 * post + 3, 4 * last + 1];
        if post % 2 == 1 {
            around[1..].rotate_right(1);
        }
        order.push(around);
    }
    Plate {
        posts,
        strips,
        order,
        outer: 0,
        limits: Vec::new(),
        prices: Vec::new(),
    }
}

/// Random prices for the strips of a plate: the same on all, of a few, the least
/// and the greatest, or any.
pub fn random_prices(plate: &Plate, random: &mut Random) -> Vec<u8> {
    let any = |random: &mut Random| 1 + random.below(100) as u8;
    let same = any(random);
    let kind = random.below(4);
    let mut price = || match kind {
        0 => same,
        1 => [1, 2, 3][random.below(3)],
        2 => [1, 100][random.below(2)],
        _ => any(random),
    };
    plate.strips.iter().map(|_| price()).collect()
}

/// A plate list with a random revision and perhaps a remark.
pub fn list_of(plate: &Plate, random: &mut Random) -> Vec<u8> {
    let revision = random.draw() as u16;
    let length = random.below(81);
    let remark = random.bytes(length);
    let remark = (random.below(2) == 0).then_some(&remark[..]);
    list_bytes(plate, revision, remark)
}
