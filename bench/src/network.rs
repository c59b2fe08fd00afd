//! The flow network of a plate as lists.

use plates_tests::plate::{twin, Plate, Shape};

/// Nodes are the posts, then the faces. Of n darts, arc d carries the right
/// bends of dart d, and arcs n + 2d and n + 2d + 1 the angle at its end: where
/// just two strips end, the first up to 2 and the second what makes the post
/// cornered. So the flow that comes first by its arcs is the shape that comes
/// first.
pub struct Network {
    pub tails: Vec<i32>,
    pub heads: Vec<i32>,
    pub lowers: Vec<i32>,
    /// A number below 0 is no bound.
    pub uppers: Vec<i32>,
    pub costs: Vec<i32>,
    /// By node; a demand is below 0.
    pub supplies: Vec<i32>,
}

pub fn network(plate: &Plate) -> Network {
    let darts = plate.darts();
    let faces = plate.faces();
    let mut face_of = vec![0; darts];
    let mut supplies = vec![4; plate.posts];
    for face in &faces {
        face.iter()
            .for_each(|&d| face_of[d] = supplies.len() as i32);
        supplies.push(plate.turns_due(face) as i32 - 2 * face.len() as i32);
    }
    let costs = Costs::of(plate);
    let most = |d| plate.limit(d).map_or(-1, |limit| limit as i32);
    let bends = (0..darts).map(|d| {
        let cost = plate.price(d) as i32 * costs.price + costs.bend;
        (face_of[d], face_of[twin(d)], 0, most(d), cost)
    });
    let corners = (0..darts).flat_map(|d| {
        let (post, face) = (plate.head(d) as i32, face_of[d]);
        let (most, over) = if plate.at_joint(d) { (2, 1) } else { (4, 0) };
        [
            (post, face, 1, most, 0),
            (post, face, 0, over, costs.corner),
        ]
    });
    let arcs: Vec<(i32, i32, i32, i32, i32)> = bends.chain(corners).collect();
    Network {
        tails: arcs.iter().map(|arc| arc.0).collect(),
        heads: arcs.iter().map(|arc| arc.1).collect(),
        lowers: arcs.iter().map(|arc| arc.2).collect(),
        uppers: arcs.iter().map(|arc| arc.3).collect(),
        costs: arcs.iter().map(|arc| arc.4).collect(),
        supplies,
    }
}

/// What a bend costs for each unit of its price, a cornered post, and each bend
/// once more: each more than all that comes behind it.
struct Costs {
    price: i32,
    corner: i32,
    bend: i32,
}

impl Costs {
    /// Without prices there are at most 64 cornered posts behind the bends; with
    /// them also the number of bends, less than 1,024 here.
    fn of(plate: &Plate) -> Costs {
        let (price, corner, bend) = if plate.prices.is_empty() {
            (65, 1, 0)
        } else {
            (66 * 1024, 1024, 1)
        };
        Costs {
            price,
            corner,
            bend,
        }
    }
}

/// The flow of a shape, and its cost.
pub fn flow_of(plate: &Plate, shape: &Shape) -> (Vec<i32>, i32) {
    let rights = shape.rights.iter().map(|&units| units as i32);
    let angles = shape.angles.iter().enumerate().flat_map(|(d, &angle)| {
        let low = if plate.at_joint(d) {
            angle.min(2)
        } else {
            angle
        };
        [low as i32, (angle - low) as i32]
    });
    let costs = Costs::of(plate);
    let cost = costs.price * plate.sum(&shape.rights) as i32
        + costs.corner * plate.cornered(&shape.angles) as i32
        + costs.bend * shape.bends() as i32;
    (rights.chain(angles).collect(), cost)
}
