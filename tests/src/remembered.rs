//! Best shapes that are found once for many lists of one plate. The orders
//! round the posts are turned to their lowest darts first: a shape does not
//! depend on where they start.

use crate::files::Solver;
use crate::plate::{Plate, Shape};
use crate::{cancelling, search};
use std::cell::RefCell;
use std::collections::HashMap;

thread_local! {
    /// The shapes found of late, by the solver's name and the plate.
    static FOUND: RefCell<HashMap<String, Option<Shape>>> = RefCell::new(HashMap::new());
}

/// The plate with each order turned to its lowest dart.
fn turned(plate: &Plate) -> Plate {
    let mut plate = plate.clone();
    for around in &mut plate.order {
        let lowest = (0..around.len()).min_by_key(|&place| around[place]);
        around.rotate_left(lowest.unwrap_or(0));
    }
    plate
}

fn recall(solver: &str, plate: &Plate, best: Solver) -> Option<Shape> {
    let plate = turned(plate);
    let key = format!("{solver} {plate:?}");
    FOUND.with_borrow_mut(|found| {
        if found.len() > 10_000 {
            found.clear();
        }
        found.entry(key).or_insert_with(|| best(&plate)).clone()
    })
}

/// The best shape by exhaustive search.
pub fn search_once(plate: &Plate) -> Option<Shape> {
    recall("search", plate, search::best)
}

/// The best shape by cycle cancelling.
pub fn cancel_once(plate: &Plate) -> Option<Shape> {
    recall("cancelling", plate, cancelling::best)
}
