//! Whether a given shape is the best one within the limits, by the cost vectors
//! of document 01, and whether no shape keeps the limits, by a cut.
//!
//! The cost of a flow is the vector (bends times price, cornered posts, bends,
//! right bends of darts 0, 1, 2 and so on, angles of darts 0, 1, 2 and so on),
//! compared lexicographically; without prices each price is 1. At a post with two
//! strip ends one more on an angle of 2 or 3 makes a cornered post more. A shape
//! is the best one when no cycle of the residual network costs less than the zero
//! vector. Bellman and Ford's method decides it.

use crate::plate::{twin, Plate, Shape};

/// Bends times price, cornered posts, bends, then one component for each arc.
type Cost = Vec<i32>;

/// One unit more or less on an arc, as an arc of the residual network.
struct Step {
    from: usize,
    to: usize,
    /// Right bends of dart d have number d, its angle has number 2m + d.
    arc: usize,
    /// What one unit more has of the first three components.
    unit: [i32; 3],
    sign: i32,
}

/// Whether a shape meets the conditions within the limits and no other comes
/// before it.
pub fn is_best(plate: &Plate, shape: &Shape) -> bool {
    let faces = plate.faces();
    shape.angles.iter().all(|angle| (1..=4).contains(angle))
        && plate.angles_close(&shape.angles)
        && plate.turns_close(&faces, shape)
        && plate.keeps_limits(&shape.rights)
        && !has_negative_cycle(plate, &faces, &residual(plate, &faces, shape))
}

/// Whether these nodes of the network of document 01 supply more than the arcs
/// can take away from them, so that no shape keeps the limits. Nodes are the
/// posts, then the faces.
pub fn none_keeps(plate: &Plate, nodes: &[bool]) -> bool {
    let faces = plate.faces();
    let of_face = |face: &Vec<usize>| plate.turns_due(face) - 2 * face.len() as i64;
    let of_posts = vec![4; plate.posts];
    let supplies = of_posts.into_iter().chain(faces.iter().map(of_face));
    let among = nodes.iter().zip(supplies).filter(|(&among, _)| among);
    let supply: i64 = among.map(|(_, supply)| supply).sum();
    let mut taken = 0;
    for d in 0..plate.darts() {
        let face = face_of(plate, &faces, d);
        // An angle takes 1 to 4 from its post to its face.
        taken += match (nodes[plate.head(d)], nodes[face]) {
            (true, false) => 4,
            (false, true) => -1,
            _ => 0,
        };
        if nodes[face] && !nodes[face_of(plate, &faces, twin(d))] {
            let Some(limit) = plate.limit(d) else {
                return false;
            };
            taken += i64::from(limit);
        }
    }
    supply > taken
}

/// The node of the face that holds a dart.
fn face_of(plate: &Plate, faces: &[Vec<usize>], dart: usize) -> usize {
    let holding = faces.iter().position(|face| face.contains(&dart));
    plate.posts + holding.expect("every dart is on a face")
}

/// The steps that the bounds allow. A best shape bends no strip both ways, so
/// that the limit of a strip bounds each of its darts.
fn residual(plate: &Plate, faces: &[Vec<usize>], shape: &Shape) -> Vec<Step> {
    let face_of = |d| face_of(plate, faces, d);
    let mut steps = Vec::new();
    for d in 0..plate.darts() {
        let bend = (face_of(d), face_of(twin(d)));
        let unit = [plate.price(d) as i32, 0, 1];
        if plate.limit(d).is_none_or(|most| shape.rights[d] < most) {
            steps.push(step(bend, d, unit, true));
        }
        if shape.rights[d] > 0 {
            steps.push(step(bend, d, unit, false));
        }
        let corner = (plate.head(d), face_of(d));
        let over = |angle| i32::from(plate.at_joint(d) && angle > 2);
        if shape.angles[d] < 4 {
            let unit = [0, over(shape.angles[d] + 1), 0];
            steps.push(step(corner, plate.darts() + d, unit, true));
        }
        if shape.angles[d] > 1 {
            let unit = [0, over(shape.angles[d]), 0];
            steps.push(step(corner, plate.darts() + d, unit, false));
        }
    }
    steps
}

fn step((tail, head): (usize, usize), arc: usize, unit: [i32; 3], more: bool) -> Step {
    let (from, to, sign) = if more {
        (tail, head, 1)
    } else {
        (head, tail, -1)
    };
    Step {
        from,
        to,
        arc,
        unit,
        sign,
    }
}

fn has_negative_cycle(plate: &Plate, faces: &[Vec<usize>], steps: &[Step]) -> bool {
    let nodes = plate.posts + faces.len();
    let mut distance: Vec<Cost> = vec![vec![0; 3 + 2 * plate.darts()]; nodes];
    (0..=nodes).all(|_| relax(&mut distance, steps))
}

/// One pass over all steps: whether some distance became less.
fn relax(distance: &mut [Cost], steps: &[Step]) -> bool {
    let mut changed = false;
    for step in steps {
        let mut cost = distance[step.from].clone();
        (0..3).for_each(|i| cost[i] += step.sign * step.unit[i]);
        cost[3 + step.arc] += step.sign;
        if cost < distance[step.to] {
            distance[step.to] = cost;
            changed = true;
        }
    }
    changed
}
