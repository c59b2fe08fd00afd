//! The best shape of any plate within its limits by cycle cancelling on the
//! flow network of document 01.
//!
//! The cost of a flow is the vector (bends times price, cornered posts, bends,
//! right bends of darts 0, 1, 2 and so on, angles of darts 0, 1, 2 and so on),
//! compared lexicographically; without prices each price is 1. Negative cycles
//! are cancelled for its first three components, then, among the flows that are
//! least so far, for one component after another. The angle of a dart is on two
//! arcs, the second for what is over 2 where that leaves a post cornered. Right
//! bends that pass a limit are on arcs of their own, which outweigh all prices:
//! where the least cost leaves some, there is no shape.

use crate::plate::{twin, Plate, Shape};
use std::collections::VecDeque;
use std::ops::Range;

struct Arc {
    tail: usize,
    head: usize,
    low: i64,
    high: i64,
    flow: i64,
    cost: i64,
}

/// One unit more on an arc, or one unit less.
#[derive(Clone, Copy)]
struct Step {
    arc: usize,
    more: bool,
}

/// Nodes are the posts, then the faces. Of n darts, arc d carries the right
/// bends of dart d, and arcs n + 2d and n + 2d + 1 the angle at its end. Arcs
/// for right bends over limits are behind these.
struct Network {
    nodes: usize,
    arcs: Vec<Arc>,
}

/// More than any flow that can be needed.
const UNLIMITED: i64 = 1 << 40;

/// A bend. A cycle goes through each of at most 130 nodes once.
const BEND: i64 = 1;

/// A cornered post outweighs the bends of a cycle.
const CORNERED: i64 = 1 << 10;

/// One of a price outweighs the cornered posts of a cycle.
const PRICE: i64 = 1 << 20;

/// A bend over a limit outweighs the prices of a cycle.
const OVER: i64 = 1 << 40;

/// The best shape of an accepted plate within its limits, or none.
pub fn best(plate: &Plate) -> Option<Shape> {
    best_or_cut(plate).ok()
}

/// The best shape, or, where no shape keeps the limits, which nodes of the
/// network supply more than the arcs can take away from them.
pub fn best_or_cut(plate: &Plate) -> Result<Shape, Vec<bool>> {
    let mut network = any_flow(plate);
    network.hold_to_limits(plate);
    let potentials = network.cancel_for_prices();
    let over = 3 * plate.darts()..network.arcs.len();
    if let Some(arc) = over.clone().find(|&arc| network.arcs[arc].flow > 0) {
        return Err(network.shut_in(arc, over));
    }
    network.arcs.truncate(over.start);
    network.cancel_among_ties(&potentials);
    let shape = network.shape(plate.darts());
    assert!(
        plate.keeps_limits(&shape.rights),
        "no strip bends both ways"
    );
    Ok(shape)
}

/// Any shape of an accepted plate that meets the conditions; it may pass
/// limits.
pub fn any(plate: &Plate) -> Shape {
    any_flow(plate).shape(plate.darts())
}

fn any_flow(plate: &Plate) -> Network {
    let faces = plate.faces();
    let mut network = network(plate, &faces);
    spread_angles(plate, &mut network);
    balance_faces(plate, &faces, &mut network);
    network
}

fn network(plate: &Plate, faces: &[Vec<usize>]) -> Network {
    let mut face_of = vec![0; plate.darts()];
    for (face, darts) in faces.iter().enumerate() {
        darts.iter().for_each(|&d| face_of[d] = plate.posts + face);
    }
    let bend = |d| Arc {
        tail: face_of[d],
        head: face_of[twin(d)],
        low: 0,
        high: UNLIMITED,
        flow: 0,
        cost: PRICE * i64::from(plate.price(d)) + BEND,
    };
    let corner = |d| Arc {
        tail: plate.head(d),
        head: face_of[d],
        low: 1,
        high: if plate.at_joint(d) { 2 } else { 4 },
        flow: 1,
        cost: 0,
    };
    let over_two = |d| Arc {
        low: 0,
        high: if plate.at_joint(d) { 2 } else { 0 },
        flow: 0,
        cost: CORNERED,
        ..corner(d)
    };
    let bends = (0..plate.darts()).map(bend);
    let corners = (0..plate.darts()).flat_map(|d| [corner(d), over_two(d)]);
    Network {
        nodes: plate.posts + faces.len(),
        arcs: bends.chain(corners).collect(),
    }
}

/// Each post gives what remains of its 4 to one of its corners.
fn spread_angles(plate: &Plate, network: &mut Network) {
    for post in 0..plate.posts {
        let dart = (0..plate.darts()).find(|&d| plate.head(d) == post);
        let dart = dart.expect("an accepted plate has a strip at each post");
        let [low, high] = corner_arcs(plate, dart);
        let rest = 4 - plate.degree(post) as i64;
        let more = rest.min(network.room(Step {
            arc: low,
            more: true,
        }));
        network.arcs[low].flow += more;
        network.arcs[high].flow += rest - more;
    }
}

/// The two arcs of a dart's angle.
fn corner_arcs(plate: &Plate, dart: usize) -> [usize; 2] {
    [0, 1].map(|i| plate.darts() + 2 * dart + i)
}

/// What they carry together.
fn angle(plate: &Plate, network: &Network, dart: usize) -> i64 {
    let flows = corner_arcs(plate, dart).map(|arc| network.arcs[arc].flow);
    flows.iter().sum()
}

/// Sends what each face has too much of, or lacks, over a tree of the dual
/// graph, with as many bends as that takes.
fn balance_faces(plate: &Plate, faces: &[Vec<usize>], network: &mut Network) {
    let mut excess = vec![0; network.nodes];
    for (face, darts) in faces.iter().enumerate() {
        let corners = darts.iter().map(|&d| angle(plate, network, d));
        let due = 2 * darts.len() as i64 - plate.turns_due(darts);
        excess[plate.posts + face] = corners.sum::<i64>() - due;
    }
    for (face, dart) in dual_tree(plate, faces, network).into_iter().rev() {
        let amount = excess[face];
        let out = if amount > 0 { dart } else { twin(dart) };
        network.arcs[out].flow += amount.abs();
        excess[network.arcs[dart].head] += amount;
        excess[face] = 0;
    }
    assert!(excess.iter().all(|&e| e == 0), "supplies add to zero");
}

/// Faces other than the first, from near to far, each with a dart of it whose
/// twin is on a nearer face.
fn dual_tree(plate: &Plate, faces: &[Vec<usize>], network: &Network) -> Vec<(usize, usize)> {
    let mut met = vec![false; network.nodes];
    let mut queue = VecDeque::from([plate.posts]);
    let mut tree = Vec::new();
    met[plate.posts] = true;
    while let Some(near) = queue.pop_front() {
        for &dart in &faces[near - plate.posts] {
            let far = network.arcs[dart].head;
            if !met[far] {
                met[far] = true;
                tree.push((far, twin(dart)));
                queue.push_back(far);
            }
        }
    }
    tree
}

impl Network {
    /// Holds the right bends of each dart to the limit of its strip and puts
    /// what is over it on an arc of its own. In a flow of least cost no strip
    /// bends both ways, so that this is the limit of the strip.
    fn hold_to_limits(&mut self, plate: &Plate) {
        for dart in 0..plate.darts() {
            let Some(limit) = plate.limit(dart) else {
                continue;
            };
            let bends = &mut self.arcs[dart];
            bends.high = i64::from(limit);
            let over = Arc {
                high: UNLIMITED,
                flow: (bends.flow - bends.high).max(0),
                cost: OVER,
                ..*bends
            };
            bends.flow -= over.flow;
            self.arcs.push(over);
        }
    }

    /// The nodes that steps lead to from the tail of an arc that carries right
    /// bends over a limit, where no more may go over limits.
    fn shut_in(&mut self, arc: usize, over: Range<usize>) -> Vec<bool> {
        for arc in &mut self.arcs[over] {
            arc.high = arc.flow;
        }
        let from = self.arcs[arc].tail;
        let last = self.last_steps(from, &vec![true; self.arcs.len()]);
        let met = |node: usize| node == from || last[node].is_some();
        (0..self.nodes).map(met).collect()
    }

    /// The steps that the bounds allow now (arcs of the residual network).
    fn steps(&self) -> Vec<Step> {
        let mut steps = Vec::new();
        for (arc, a) in self.arcs.iter().enumerate() {
            if a.flow < a.high {
                steps.push(Step { arc, more: true });
            }
            if a.flow > a.low {
                steps.push(Step { arc, more: false });
            }
        }
        steps
    }

    /// Where a step leaves from, where it ends, and its cost.
    fn ends(&self, step: Step) -> (usize, usize, i64) {
        let a = &self.arcs[step.arc];
        if step.more {
            (a.tail, a.head, a.cost)
        } else {
            (a.head, a.tail, -a.cost)
        }
    }

    fn push(&mut self, steps: &[Step], amount: i64) {
        for step in steps {
            let signed = if step.more { amount } else { -amount };
            self.arcs[step.arc].flow += signed;
        }
    }

    fn room(&self, step: Step) -> i64 {
        let a = &self.arcs[step.arc];
        if step.more {
            a.high - a.flow
        } else {
            a.flow - a.low
        }
    }

    /// Cancels negative cycles until there is none, and gives potentials that
    /// show it.
    fn cancel_for_prices(&mut self) -> Vec<i64> {
        loop {
            match self.negative_cycle() {
                Err(potentials) => return potentials,
                Ok(cycle) => {
                    let room = cycle.iter().map(|&step| self.room(step)).min();
                    self.push(&cycle, room.expect("a cycle has a step"));
                }
            }
        }
    }

    /// Bellman and Ford's method from all nodes at once: a negative cycle, or
    /// the distances if there is none.
    fn negative_cycle(&self) -> Result<Vec<Step>, Vec<i64>> {
        let steps = self.steps();
        let mut distance = vec![0; self.nodes];
        let mut last: Vec<Option<Step>> = vec![None; self.nodes];
        loop {
            let mut changed = false;
            for &step in &steps {
                let (from, to, cost) = self.ends(step);
                if distance[from] + cost < distance[to] {
                    distance[to] = distance[from] + cost;
                    last[to] = Some(step);
                    changed = true;
                }
            }
            if !changed {
                return Err(distance);
            }
            if let Some(cycle) = self.cycle_in(&last) {
                return Ok(cycle);
            }
        }
    }

    /// A cycle of last steps, if there is one.
    fn cycle_in(&self, last: &[Option<Step>]) -> Option<Vec<Step>> {
        let mut met_from = vec![usize::MAX; self.nodes];
        for start in 0..self.nodes {
            let mut node = start;
            while met_from[node] == usize::MAX {
                met_from[node] = start;
                match last[node] {
                    None => break,
                    Some(step) => node = self.ends(step).0,
                }
            }
            if met_from[node] == start && last[node].is_some() {
                return Some(self.cycle_through(last, node));
            }
        }
        None
    }

    fn cycle_through(&self, last: &[Option<Step>], node: usize) -> Vec<Step> {
        let mut cycle = Vec::new();
        let mut at = node;
        loop {
            let step = last[at].expect("the node is on a cycle");
            cycle.push(step);
            at = self.ends(step).0;
            if at == node {
                return cycle;
            }
        }
    }

    /// Makes the flow of one arc after another as small as the earlier ones
    /// allow. Only arcs that the potentials make free of cost can change
    /// without a greater one.
    fn cancel_among_ties(&mut self, potentials: &[i64]) {
        let free = |a: &Arc| potentials[a.tail] + a.cost == potentials[a.head];
        let mut open: Vec<bool> = self.arcs.iter().map(free).collect();
        for arc in 0..self.arcs.len() {
            if !open[arc] {
                continue;
            }
            open[arc] = false;
            while self.arcs[arc].flow > self.arcs[arc].low {
                let (tail, head) = (self.arcs[arc].tail, self.arcs[arc].head);
                let Some(path) = self.path(tail, head, &open) else {
                    break;
                };
                self.push(&path, 1);
                self.push(&[Step { arc, more: false }], 1);
            }
        }
    }

    /// A path of steps over open arcs.
    fn path(&self, from: usize, to: usize, open: &[bool]) -> Option<Vec<Step>> {
        self.path_back(from, to, &self.last_steps(from, open))
    }

    /// The last step to each node that steps over open arcs lead to.
    fn last_steps(&self, from: usize, open: &[bool]) -> Vec<Option<Step>> {
        let mut steps_from = vec![Vec::new(); self.nodes];
        for step in self.steps() {
            if open[step.arc] {
                steps_from[self.ends(step).0].push(step);
            }
        }
        let mut last: Vec<Option<Step>> = vec![None; self.nodes];
        let mut stack = vec![from];
        while let Some(node) = stack.pop() {
            for &step in &steps_from[node] {
                let next = self.ends(step).1;
                if next != from && last[next].is_none() {
                    last[next] = Some(step);
                    stack.push(next);
                }
            }
        }
        last
    }

    fn path_back(&self, from: usize, to: usize, last: &[Option<Step>]) -> Option<Vec<Step>> {
        let mut path = Vec::new();
        let mut at = to;
        while at != from {
            let step = last[at]?;
            path.push(step);
            at = self.ends(step).0;
        }
        Some(path)
    }

    fn shape(&self, darts: usize) -> Shape {
        let flow = |arc: &Arc| arc.flow as u32;
        let both = |arcs: &[Arc]| arcs.iter().map(flow).sum();
        Shape {
            rights: self.arcs[..darts].iter().map(flow).collect(),
            angles: self.arcs[darts..].chunks(2).map(both).collect(),
        }
    }
}
