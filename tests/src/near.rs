//! Sound shapes near a given one: bends that are led from face to face, and
//! angles that are moved from one corner of a post to another. No strip comes
//! to bend both ways.

use crate::plate::{twin, Plate, Shape};
use crate::random::Random;

/// The most bends of a strip one way that a shape file can hold.
const MOST: u32 = 255;

/// A shape of a plate that is changed step by step.
pub struct Near<'a> {
    plate: &'a Plate,
    faces: Vec<Vec<usize>>,
    pub shape: Shape,
}

impl<'a> Near<'a> {
    /// Starts from a sound shape that bends no strip both ways.
    pub fn new(plate: &'a Plate, shape: &Shape) -> Near<'a> {
        Near {
            plate,
            faces: plate.faces(),
            shape: shape.clone(),
        }
    }

    fn face_of(&self, dart: usize) -> usize {
        let holding = self.faces.iter().position(|face| face.contains(&dart));
        holding.expect("every dart is on a face")
    }

    /// How many turns a dart's face can gain by its strip, for the face of the
    /// twin to lose them.
    fn room(&self, dart: usize) -> u32 {
        MOST - self.shape.rights[dart] + self.shape.rights[twin(dart)]
    }

    /// Lets a dart's face gain turns, by fewer left bends and more right ones.
    fn gain(&mut self, dart: usize, turns: u32) {
        let fewer = turns.min(self.shape.rights[twin(dart)]);
        self.shape.rights[twin(dart)] -= fewer;
        self.shape.rights[dart] += turns - fewer;
    }

    /// Darts that lead on a random way from a face to another, each to the face
    /// of its twin; none where a way is not found at once. From a face to
    /// itself the way has one dart or more.
    fn way(&self, from: usize, to: usize, random: &mut Random) -> Option<Vec<usize>> {
        let mut way: Vec<usize> = Vec::new();
        let mut face = from;
        for _ in 0..40 * self.faces.len() {
            let darts = &self.faces[face];
            let dart = darts[random.below(darts.len())];
            if self.room(dart) == 0 {
                continue;
            }
            face = self.face_of(twin(dart));
            way.push(dart);
            if face == to {
                return Some(way);
            }
            // A face that was met before is met once only.
            let first = way.iter().position(|&d| self.face_of(d) == face);
            way.truncate(first.unwrap_or(way.len()));
        }
        None
    }

    /// Leads at most so many turns round through faces back to the first one.
    pub fn lead_round(&mut self, most: u32, random: &mut Random) {
        let from = random.below(self.faces.len());
        let Some(way) = self.way(from, from, random) else {
            return;
        };
        let room = way.iter().map(|&dart| self.room(dart)).min();
        let turns = most.min(room.expect("a way has a dart"));
        way.iter().for_each(|&dart| self.gain(dart, turns));
    }

    /// Moves a quarter turn from one corner of a post to another, with bends
    /// that lead the turn between their faces.
    pub fn move_angle(&mut self, random: &mut Random) {
        let post = random.below(self.plate.posts);
        let ending = (0..self.plate.darts()).filter(|&d| self.plate.head(d) == post);
        let mut ending: Vec<usize> = ending.collect();
        random.shuffle(&mut ending);
        let angle = |&d: &usize| self.shape.angles[d];
        let Some(less) = ending.iter().copied().find(|d| angle(d) > 1) else {
            return;
        };
        let more = ending.iter().copied().find(|&d| d != less && angle(&d) < 4);
        let Some(more) = more else {
            return;
        };
        let (from, to) = (self.face_of(more), self.face_of(less));
        if from != to {
            let Some(way) = self.way(from, to, random) else {
                return;
            };
            way.iter().for_each(|&dart| self.gain(dart, 1));
        }
        self.shape.angles[less] -= 1;
        self.shape.angles[more] += 1;
    }

    /// Some steps of both kinds.
    pub fn wander(&mut self, random: &mut Random) {
        for _ in 0..1 + random.below(6) {
            match random.below(4) {
                0 => self.lead_round(1 + random.below(3) as u32, random),
                1 => self.lead_round(1 + random.below(MOST as usize) as u32, random),
                _ => self.move_angle(random),
            }
        }
    }

    /// Leads turns round where that makes words longer, until they are about as
    /// long as they can be.
    pub fn fill(&mut self, random: &mut Random) {
        for _ in 0..20 * self.plate.darts() {
            let before = self.shape.clone();
            self.lead_round(2 * MOST, random);
            if self.shape.bends() < before.bends() {
                self.shape = before;
            }
        }
    }
}
