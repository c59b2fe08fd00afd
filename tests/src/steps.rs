//! Steps of the editor (request E11) over a plain table of post orders. A refusal
//! is its number.

use crate::files::{list_bytes, read_list, List};
use crate::plate::{twin, Plate};

/// A step of the editor: a strip to split, a dart to hang a strip at, or two
/// darts of one face to join.
#[derive(Clone, Copy, Debug, PartialEq, Eq)]
pub enum Step {
    Split(usize),
    Hang(usize),
    Join(usize, usize),
}

impl Plate {
    /// Puts `new` into the corner where `dart` ends: just before its twin.
    fn put_in_corner(&mut self, dart: usize, new: usize) {
        let post = self.head(dart);
        let place = self.place_of(twin(dart));
        self.order[post].insert(place, new);
    }

    /// Where a dart stands in the order of the post that it leaves.
    fn place_of(&self, dart: usize) -> usize {
        let mut around = self.order[self.tail(dart)].iter();
        let place = around.position(|&d| d == dart);
        place.expect("every dart stands in the order")
    }

    /// A new strip with this limit, where there are limits, and this price, where
    /// there are prices.
    fn push_strip(&mut self, ends: [usize; 2], limit: u8, price: u8) {
        self.strips.push(ends);
        if !self.limits.is_empty() {
            self.limits.push(limit);
        }
        if !self.prices.is_empty() {
            self.prices.push(price);
        }
    }

    /// A new post on a strip, which ends there; a new strip to its old end.
    pub fn split(&mut self, strip: usize) {
        let (back, new) = (2 * strip + 1, self.darts());
        let (post, end) = (self.posts, self.tail(back));
        let place = self.place_of(back);
        self.order[end][place] = twin(new);
        self.order.push(vec![back, new]);
        self.posts += 1;
        self.strips[strip][1] = post;
        let of_strip = |rates: &[u8]| rates.get(strip).copied().unwrap_or(0);
        let (limit, price) = (of_strip(&self.limits), of_strip(&self.prices));
        self.push_strip([post, end], limit, price);
    }

    /// A new strip to a new post, from the corner where `dart` ends.
    pub fn hang(&mut self, dart: usize) {
        let (post, new) = (self.posts, self.darts());
        self.put_in_corner(dart, new);
        self.order.push(vec![twin(new)]);
        self.posts += 1;
        self.push_strip([self.head(dart), post], 255, 1);
    }

    /// A new strip from the corner where `dart` ends to that where `other` ends.
    pub fn join(&mut self, dart: usize, other: usize) {
        let new = self.darts();
        self.put_in_corner(dart, new);
        self.put_in_corner(other, twin(new));
        self.push_strip([self.head(dart), self.head(other)], 255, 1);
    }

    /// Whether the strip or the darts of a step are there, darts to be joined
    /// different and of one face.
    fn has(&self, step: Step) -> bool {
        match step {
            Step::Split(strip) => strip < self.strips.len(),
            Step::Hang(dart) => dart < self.darts(),
            Step::Join(dart, other) => {
                let together = |face: &Vec<usize>| face.contains(&dart) && face.contains(&other);
                dart != other && self.faces().iter().any(together)
            }
        }
    }

    /// The plate after a step: 35, 36 and 37.
    pub fn after_step(&self, step: Step) -> Result<Plate, u8> {
        if !self.has(step) {
            return Err(35);
        }
        let mut plate = self.clone();
        match step {
            Step::Split(strip) => plate.split(strip),
            Step::Hang(dart) => plate.hang(dart),
            Step::Join(dart, other) => plate.join(dart, other),
        }
        if plate.posts > 64 || plate.strips.len() > 128 {
            return Err(36);
        }
        match (0..plate.posts).any(|post| plate.degree(post) > 4) {
            true => Err(37),
            false => Ok(plate),
        }
    }
}

/// The plate list after a step: 1 to 15, 23, 29 and 38, then 35, 36 and 37.
pub fn list_after(file: &[u8], step: Step) -> Result<List, u8> {
    let list = read_list(file)?;
    let plate = list.plate.after_step(step)?;
    Ok(List { plate, ..list })
}

/// The bytes of a list without remark, the order of each post turned to begin
/// with the dart that it begins with in `written`, a list of the same plate.
/// The clockwise order is cyclic, and may begin with any dart.
pub fn begun_as(list: &List, written: &[u8]) -> Vec<u8> {
    let mut plate = list.plate.clone();
    let mut at = 15 + plate.darts();
    for around in &mut plate.order {
        let first = written.get(at).map(|&d| usize::from(d));
        let place = around.iter().position(|&d| Some(d) == first);
        at += around.len();
        around.rotate_left(place.unwrap_or(0));
    }
    let revision = u16::from_be_bytes([list.revision[0], list.revision[1]]);
    list_bytes(&plate, revision, None)
}

/// The faces after a step that is not refused, from the faces before it alone,
/// by walks: `new` is the first dart of the new strip.
pub fn faces_after(faces: &[Vec<usize>], step: Step, new: usize) -> Vec<Vec<usize>> {
    let back = twin(new);
    let walks = |walked: &dyn Fn(usize) -> Vec<usize>| {
        let walk = |face: &Vec<usize>| face.iter().flat_map(|&d| walked(d)).collect();
        faces.iter().map(walk).collect()
    };
    match step {
        Step::Split(strip) => walks(&|d| match d {
            _ if d == 2 * strip => vec![d, new],
            _ if d == 2 * strip + 1 => vec![back, d],
            _ => vec![d],
        }),
        Step::Hang(dart) => walks(&|d| match d {
            _ if d == dart => vec![d, new, back],
            _ => vec![d],
        }),
        Step::Join(dart, other) => cut_face(faces, dart, other, new),
    }
}

/// The faces with the one of `dart` cut in two: from `dart` over the new strip to
/// what comes after `other`, and from `other` back to what comes after `dart`.
fn cut_face(faces: &[Vec<usize>], dart: usize, other: usize, new: usize) -> Vec<Vec<usize>> {
    let mut cut = Vec::new();
    for face in faces {
        let Some(place) = face.iter().position(|&d| d == dart) else {
            cut.push(face.clone());
            continue;
        };
        let mut walk = face.clone();
        walk.rotate_left(place + 1);
        let end = walk.iter().position(|&d| d == other);
        let (near, far) = walk.split_at(end.expect("the darts are of one face") + 1);
        cut.push([near, &[twin(new)]].concat());
        cut.push([far, &[new]].concat());
    }
    cut
}

/// Faces in a form that does not depend on where they begin nor on their
/// sequence.
pub fn turned_faces(mut faces: Vec<Vec<usize>>) -> Vec<Vec<usize>> {
    for face in &mut faces {
        let lowest = (0..face.len()).min_by_key(|&place| face[place]);
        face.rotate_left(lowest.unwrap_or(0));
    }
    faces.sort();
    faces
}
