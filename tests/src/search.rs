//! The best shape of a small plate within its limits by trying every shape in
//! order: by its sum of bends times price, which is the total of bends where the
//! plate has no prices.

use crate::plate::{twin, Plate, Shape};

/// Angles that meet H4, with their sum on each face and how many posts they
/// leave cornered.
struct Angles {
    angles: Vec<u32>,
    sums: Vec<i64>,
    cornered: usize,
}

/// What the search needs of a plate.
struct Search<'a> {
    plate: &'a Plate,
    faces: Vec<Vec<usize>>,
    /// Every choice of angles 1 to 4 that meets H4, the smaller first.
    choices: Vec<Angles>,
}

/// The bends that are tried on the strips of a plate.
struct Bends {
    /// The price of a bend of each strip.
    prices: Vec<u32>,
    /// The most bends of each strip, both ways together.
    most: Vec<u32>,
    /// Whether the strips from each on, or none behind the last, can have each
    /// sum of bends times price.
    can_have: Vec<Vec<bool>>,
}

/// The best shape within the limits: sums are tried from 0 on, and of the shapes
/// with the first sum that some shape has, the one with fewest cornered posts,
/// then the first in the order of document 01, is taken.
pub fn best(plate: &Plate) -> Option<Shape> {
    let search = Search::new(plate);
    let bends = search.bends();
    let mut sums = bends.sums();
    sums.find_map(|sum| search.first_with(&bends, sum))
}

/// Calls `visit` with every shape within the limits that has this total, also
/// where a strip bends both ways.
pub fn each_shape(plate: &Plate, total: u32, visit: &mut dyn FnMut(&Shape)) {
    let search = Search::new(plate);
    let most = |strip| plate.limit(2 * strip).unwrap_or(total);
    let most = (0..plate.strips.len()).map(most).collect();
    let bends = Bends::new(vec![1; plate.strips.len()], most, total);
    bends.each_rights(total, &mut Vec::new(), &mut |rights| {
        for choice in search.choices_meeting(rights) {
            visit(&Shape {
                rights: rights.to_vec(),
                angles: choice.angles.clone(),
            });
        }
        false
    });
}

impl Search<'_> {
    fn new(plate: &Plate) -> Search<'_> {
        let faces = plate.faces();
        let choices = all_angles(plate).into_iter().map(|angles| {
            let sum = |face: &Vec<usize>| face.iter().map(|&d| i64::from(angles[d])).sum();
            let sums = faces.iter().map(sum).collect();
            let cornered = plate.cornered(&angles);
            Angles {
                angles,
                sums,
                cornered,
            }
        });
        Search {
            plate,
            choices: choices.collect(),
            faces,
        }
    }

    /// What no strip of a best shape passes. Bends round a cycle of faces can be
    /// left out. The others lead from faces with turns to give away, each over
    /// a strip once, so that no strip has more than these turns together.
    fn most_turns(&self) -> u32 {
        let straight = vec![0; self.plate.darts()];
        let due = |face: &Vec<usize>| self.angles_due(face, &straight);
        let due: Vec<i64> = self.faces.iter().map(due).collect();
        let given_away = |choice: &Angles| -> i64 {
            let faces = choice.sums.iter().zip(&due);
            faces.map(|(sum, due)| (sum - due).max(0)).sum()
        };
        let most = self.choices.iter().map(given_away).max();
        most.expect("every plate has angles that meet H4") as u32
    }

    /// The bends to be tried, up to a sum that no best shape passes. Without
    /// prices only the limits and this sum hold the bends of a strip.
    fn bends(&self) -> Bends {
        let turns = self.most_turns();
        let strips = 0..self.plate.strips.len();
        let limit = |strip| self.plate.limit(2 * strip);
        let most = |strip| limit(strip).unwrap_or(turns).min(turns);
        let price = |strip| self.plate.price(2 * strip);
        let sum = strips.clone().map(|s| price(s) * most(s)).sum();
        let tried = |strip| match self.plate.prices[..] {
            [] => limit(strip).unwrap_or(sum),
            _ => most(strip),
        };
        let prices = strips.clone().map(price).collect();
        Bends::new(prices, strips.map(tried).collect(), sum)
    }

    /// The best shape with this sum, if there is one. Right bends are tried in
    /// order, so of shapes with as many cornered posts and bends the first
    /// stays; without prices the sum tells the bends.
    fn first_with(&self, bends: &Bends, sum: u32) -> Option<Shape> {
        let mut best: Option<(usize, Shape)> = None;
        bends.each_rights(sum, &mut Vec::new(), &mut |rights| {
            if let Some(found) = self.first_angles(rights) {
                let earlier = |best| rank(&found) < rank(best);
                if best.as_ref().is_none_or(earlier) {
                    best = Some(found);
                }
            }
            let straight = best.as_ref().is_some_and(|(cornered, _)| *cornered == 0);
            straight && self.plate.prices.is_empty()
        });
        best.map(|(_, shape)| shape)
    }

    /// The best shape with these right bends that meets H3, if there is one,
    /// and its cornered posts.
    fn first_angles(&self, rights: &[u32]) -> Option<(usize, Shape)> {
        let meeting = self.choices_meeting(rights);
        let choice = meeting.min_by_key(|choice| choice.cornered)?;
        let shape = Shape {
            rights: rights.to_vec(),
            angles: choice.angles.clone(),
        };
        assert!(self.plate.turns_close(&self.faces, &shape), "H3");
        Some((choice.cornered, shape))
    }

    /// The angles that meet H3 with these right bends.
    fn choices_meeting(&self, rights: &[u32]) -> impl Iterator<Item = &Angles> {
        let due = |face: &Vec<usize>| self.angles_due(face, rights);
        let due: Vec<i64> = self.faces.iter().map(due).collect();
        let choices = self.choices.iter();
        choices.filter(move |choice| choice.sums == due)
    }

    /// The sum of a face's angles that gives it the turns that it must have.
    fn angles_due(&self, face: &[usize], rights: &[u32]) -> i64 {
        let without_angle = |&d: &usize| i64::from(rights[d]) - i64::from(rights[twin(d)]) + 2;
        face.iter().map(without_angle).sum::<i64>() - self.plate.turns_due(face)
    }
}

/// Cornered posts, then the total of bends.
fn rank((cornered, shape): &(usize, Shape)) -> (usize, u32) {
    (*cornered, shape.bends())
}

impl Bends {
    /// The bends of sums up to `most_sum`.
    fn new(prices: Vec<u32>, most: Vec<u32>, most_sum: u32) -> Bends {
        let none = (0..=most_sum).map(|sum| sum == 0).collect();
        let mut can_have: Vec<Vec<bool>> = vec![none];
        for (&price, &most) in prices.iter().zip(&most).rev() {
            let behind = &can_have[0];
            let with = |sum: u32| {
                let left = |bends| sum.checked_sub(price * bends);
                let mut lefts = (0..=most).map_while(left);
                lefts.any(|left| behind[left as usize])
            };
            let from_here = (0..=most_sum).map(with).collect();
            can_have.insert(0, from_here);
        }
        Bends {
            prices,
            most,
            can_have,
        }
    }

    /// The sums that there are, the smaller first.
    fn sums(&self) -> impl Iterator<Item = u32> + '_ {
        let sums = (0..).zip(&self.can_have[0]);
        sums.filter_map(|(sum, &can)| can.then_some(sum))
    }

    /// Calls `stop` with all right bends that have this sum, the smaller first,
    /// until it returns true. Returns whether it did. A strip may bend both ways.
    fn each_rights(
        &self,
        sum: u32,
        start: &mut Vec<u32>,
        stop: &mut dyn FnMut(&[u32]) -> bool,
    ) -> bool {
        let dart = start.len();
        let strip = dart / 2;
        if strip == self.prices.len() {
            return sum == 0 && stop(start);
        }
        let lefts = start.get(twin(dart)).copied().unwrap_or(0);
        let most = (self.most[strip] - lefts).min(sum / self.prices[strip]);
        for number in 0..=most {
            let left = sum - number * self.prices[strip];
            if dart % 2 == 1 && !self.can_have[strip + 1][left as usize] {
                continue;
            }
            start.push(number);
            let stopped = self.each_rights(left, start, stop);
            start.pop();
            if stopped {
                return true;
            }
        }
        false
    }

    /// Calls `visit` with every choice of a word for each strip, the lengths
    /// times price adding to `sum`.
    fn each_words(&self, sum: u32, start: &mut Vec<Word>, visit: &mut dyn FnMut(&[Word])) {
        let strip = start.len();
        if strip == self.prices.len() {
            return visit(start);
        }
        for length in 0..=self.most[strip].min(sum / self.prices[strip]) {
            let left = sum - length * self.prices[strip];
            if !self.can_have[strip + 1][left as usize] {
                continue;
            }
            for code in 0..1_u32 << length {
                start.push((0..length).map(|bend| code >> bend & 1 == 1).collect());
                self.each_words(left, start, visit);
                start.pop();
            }
        }
    }
}

/// Every choice of angles 1 to 4 that meets H4, the smaller first. A start
/// that no longer choice can complete is left out early.
fn all_angles(plate: &Plate) -> Vec<Vec<u32>> {
    let mut all = vec![Vec::new()];
    for dart in 0..plate.darts() {
        let post = plate.head(dart);
        let to_come = (dart + 1..plate.darts()).filter(|&d| plate.head(d) == post);
        let to_come = to_come.count() as u32;
        let longer = |start: &Vec<u32>| (1..=4).map(|a| [&start[..], &[a]].concat()).collect();
        all = all.iter().flat_map::<Vec<_>, _>(longer).collect();
        all.retain(|start| {
            let sum = sum_so_far(plate, post, start);
            sum + to_come <= 4 && sum + 4 * to_come >= 4
        });
    }
    all.retain(|angles| plate.angles_close(angles));
    all
}

/// The sum of the angles chosen so far at a post.
fn sum_so_far(plate: &Plate, post: usize, start: &[u32]) -> u32 {
    let ending = (0..start.len()).filter(|&d| plate.head(d) == post);
    ending.map(|d| start[d]).sum()
}

/// A bend: true right, false left.
type Word = Vec<bool>;

/// The best shape of all those with any words of right and left bends within
/// the limits, mixed ones included, by the counts of their right bends.
pub fn best_with_words(plate: &Plate) -> Option<Shape> {
    let search = Search::new(plate);
    let bends = search.bends();
    let mut sums = bends.sums();
    sums.find_map(|sum| {
        let mut best = None;
        bends.each_words(sum, &mut Vec::new(), &mut |words| {
            let found = search.first_angles(&rights_of(words));
            best = earlier(best.take(), found);
        });
        best.map(|(_, shape)| shape)
    })
}

/// The one of two shapes with the same sum that comes first.
fn earlier(a: Option<(usize, Shape)>, b: Option<(usize, Shape)>) -> Option<(usize, Shape)> {
    let key =
        |found: &(usize, Shape)| (rank(found), found.1.rights.clone(), found.1.angles.clone());
    a.into_iter().chain(b).min_by_key(key)
}

/// Right bends of every dart; the twin's word is reversed and exchanged (H2).
fn rights_of(words: &[Word]) -> Vec<u32> {
    let mut rights = vec![0; 2 * words.len()];
    for (strip, word) in words.iter().enumerate() {
        let back: Word = word.iter().rev().map(|right| !right).collect();
        rights[2 * strip] = count_rights(word);
        rights[twin(2 * strip)] = count_rights(&back);
    }
    rights
}

fn count_rights(word: &Word) -> u32 {
    word.iter().filter(|&&right| right).count() as u32
}
