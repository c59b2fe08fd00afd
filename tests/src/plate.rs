//! Plates (plane graphs), shapes (orthogonal representations) and the
//! conditions on them.

/// A plate: strip i has the darts 2i and 2i + 1.
#[derive(Clone, Debug)]
pub struct Plate {
    pub posts: usize,
    /// First and second post of each strip.
    pub strips: Vec<[usize; 2]>,
    /// The leaving darts of each post in clockwise order (rotation).
    pub order: Vec<Vec<usize>>,
    pub outer: usize,
    /// The most bends that each strip may have, 255 for no limit; empty where
    /// the list has no limits.
    pub limits: Vec<u8>,
    /// The price of a bend of each strip; empty where the list has no prices.
    pub prices: Vec<u8>,
}

/// Angles and right bends of every dart.
#[derive(Clone, Debug, PartialEq, Eq)]
pub struct Shape {
    pub rights: Vec<u32>,
    pub angles: Vec<u32>,
}

impl Shape {
    pub fn new(rights: &[u32], angles: &[u32]) -> Shape {
        Shape {
            rights: rights.to_vec(),
            angles: angles.to_vec(),
        }
    }

    pub fn bends(&self) -> u32 {
        self.rights.iter().sum()
    }

    /// The bends of each strip, right and left together.
    pub fn by_strip(&self) -> Vec<u32> {
        self.rights
            .chunks(2)
            .map(|both| both.iter().sum())
            .collect()
    }
}

pub fn twin(dart: usize) -> usize {
    dart ^ 1
}

/// A plate whose order round each post is that of its darts' numbers.
pub fn by_number(posts: usize, strips: &[[usize; 2]], outer: usize) -> Plate {
    let darts = 2 * strips.len();
    let tail = |d: usize| strips[d / 2][d % 2];
    let leaving = |post| (0..darts).filter(|&d| tail(d) == post).collect();
    Plate {
        posts,
        strips: strips.to_vec(),
        order: (0..posts).map(leaving).collect(),
        outer,
        limits: Vec::new(),
        prices: Vec::new(),
    }
}

/// P1 of document 01: two strips between two posts.
pub fn p1() -> Plate {
    by_number(2, &[[0, 1], [0, 1]], 1)
}

impl Plate {
    pub fn darts(&self) -> usize {
        2 * self.strips.len()
    }

    /// The post that a dart leaves.
    pub fn tail(&self, dart: usize) -> usize {
        self.strips[dart / 2][dart % 2]
    }

    /// The post where a dart ends.
    pub fn head(&self, dart: usize) -> usize {
        self.tail(twin(dart))
    }

    pub fn degree(&self, post: usize) -> usize {
        let ends = self.strips.iter().flatten();
        ends.filter(|&&end| end == post).count()
    }

    /// Whether some strip goes from a post to itself.
    pub fn has_loop(&self) -> bool {
        self.strips.iter().any(|[first, second]| first == second)
    }

    /// The same plate with these limits.
    pub fn within(&self, limits: &[u8]) -> Plate {
        Plate {
            limits: limits.to_vec(),
            ..self.clone()
        }
    }

    /// The same plate with these prices.
    pub fn priced(&self, prices: &[u8]) -> Plate {
        Plate {
            prices: prices.to_vec(),
            ..self.clone()
        }
    }

    /// The price of a bend on the strip of a dart; 1 where there are no prices.
    pub fn price(&self, dart: usize) -> u32 {
        self.prices.get(dart / 2).map_or(1, |&price| price.into())
    }

    /// The sum of bends times price; without prices the total of bends.
    pub fn sum(&self, rights: &[u32]) -> u32 {
        let cost = |(dart, &right): (usize, &u32)| right * self.price(dart);
        rights.iter().enumerate().map(cost).sum()
    }

    /// The most bends that the strip of a dart may have, if it has a limit.
    pub fn limit(&self, dart: usize) -> Option<u32> {
        let limit = self.limits.get(dart / 2).filter(|&&limit| limit != 255);
        limit.map(|&limit| u32::from(limit))
    }

    /// Whether no strip has more bends, right and left together, than its
    /// limit.
    pub fn keeps_limits(&self, rights: &[u32]) -> bool {
        let bends = |dart: usize| rights[dart] + rights[twin(dart)];
        (0..self.darts()).all(|d| self.limit(d).is_none_or(|most| bends(d) <= most))
    }

    /// The dart after `dart` on its face: just before its twin, clockwise,
    /// at the post where it ends.
    pub fn after(&self, dart: usize) -> usize {
        let around = &self.order[self.head(dart)];
        let place = around.iter().position(|&d| d == twin(dart));
        let place = place.expect("every dart stands in the order");
        around[(place + around.len() - 1) % around.len()]
    }

    /// The faces, each as its darts in walking order.
    pub fn faces(&self) -> Vec<Vec<usize>> {
        let mut met = vec![false; self.darts()];
        let mut faces = Vec::new();
        for start in 0..self.darts() {
            if met[start] {
                continue;
            }
            let mut face = Vec::new();
            let mut dart = start;
            while !met[dart] {
                met[dart] = true;
                face.push(dart);
                dart = self.after(dart);
            }
            faces.push(face);
        }
        faces
    }

    pub fn connected(&self) -> bool {
        let mut part: Vec<usize> = (0..self.posts).collect();
        for &[a, b] in &self.strips {
            let (from, to) = (part[a], part[b]);
            part.iter_mut()
                .filter(|p| **p == from)
                .for_each(|p| *p = to);
        }
        part.iter().all(|&p| p == part[0])
    }

    /// Whether a connected plate is plane.
    pub fn plane(&self) -> bool {
        self.posts + self.faces().len() == self.strips.len() + 2
    }

    /// The sum of the turns that a face must have.
    pub fn turns_due(&self, face: &[usize]) -> i64 {
        if face.contains(&self.outer) {
            -4
        } else {
            4
        }
    }

    /// H4: angles of the darts ending at each post add to 4.
    pub fn angles_close(&self, angles: &[u32]) -> bool {
        (0..self.posts).all(|post| {
            let ending = (0..self.darts()).filter(|&d| self.head(d) == post);
            ending.map(|d| angles[d]).sum::<u32>() == 4
        })
    }

    /// Whether a dart ends at a post with exactly two strip ends.
    pub fn at_joint(&self, dart: usize) -> bool {
        self.degree(self.head(dart)) == 2
    }

    /// Posts with exactly two strip ends and no angle of 2.
    pub fn cornered(&self, angles: &[u32]) -> usize {
        let straight = |post| (0..self.darts()).any(|d| self.head(d) == post && angles[d] == 2);
        let cornered = |&post: &usize| self.degree(post) == 2 && !straight(post);
        (0..self.posts).filter(cornered).count()
    }

    /// H3 for the given faces of this plate.
    pub fn turns_close(&self, faces: &[Vec<usize>], shape: &Shape) -> bool {
        faces.iter().all(|face| {
            let turns = face.iter().map(|&d| turn(shape, d));
            turns.sum::<i64>() == self.turns_due(face)
        })
    }
}

/// Right bends − left bends − angle + 2.
pub fn turn(shape: &Shape, dart: usize) -> i64 {
    let rights = i64::from(shape.rights[dart]);
    let lefts = i64::from(shape.rights[twin(dart)]);
    rights - lefts - i64::from(shape.angles[dart]) + 2
}
