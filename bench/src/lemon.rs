//! Calls of LEMON's network simplex method, compiled from lemon.cc.

use crate::measure::Call;
use crate::network::Network;
use std::hint::black_box;

/// Whether LEMON is there.
pub const PRESENT: bool = true;

/// The lists of lemon.cc.
#[repr(C)]
struct Lists {
    nodes: i32,
    arcs: i32,
    tails: *const i32,
    heads: *const i32,
    lowers: *const i32,
    uppers: *const i32,
    costs: *const i32,
    supplies: *const i32,
}

#[repr(C)]
struct Built {
    private: [u8; 0],
}

extern "C" {
    fn lemon_build(lists: &Lists) -> *mut Built;
    fn lemon_free(built: *mut Built);
    fn lemon_least_cost(built: *const Built) -> i32;
    fn lemon_first_flow(lists: &Lists, skip: bool, flows: *mut i32) -> bool;
}

fn lists(network: &Network) -> Lists {
    Lists {
        nodes: network.supplies.len() as i32,
        arcs: network.tails.len() as i32,
        tails: network.tails.as_ptr(),
        heads: network.heads.as_ptr(),
        lowers: network.lowers.as_ptr(),
        uppers: network.uppers.as_ptr(),
        costs: network.costs.as_ptr(),
        supplies: network.supplies.as_ptr(),
    }
}

/// A network as LEMON holds it.
struct Graph(*mut Built);

impl Graph {
    fn new(network: &Network) -> Graph {
        // SAFETY: the lists are as long as they say and are only read.
        Graph(unsafe { lemon_build(&lists(network)) })
    }

    fn least_cost(&self) -> i32 {
        // SAFETY: the graph was built and is not yet freed.
        unsafe { lemon_least_cost(self.0) }
    }
}

impl Drop for Graph {
    fn drop(&mut self) {
        // SAFETY: the graph was built and is freed once.
        unsafe { lemon_free(self.0) }
    }
}

/// The first of the cheapest flows, with a solve for each arc; with `skip`
/// only for arcs that carry more than their least.
fn first_flow(network: &Network, skip: bool) -> Vec<i32> {
    let mut flows = vec![0; network.tails.len()];
    // SAFETY: the lists are as long as they say, and there is a place in
    // `flows` for each arc.
    let found = unsafe { lemon_first_flow(&lists(network), skip, flows.as_mut_ptr()) };
    assert!(found, "LEMON finds a flow");
    flows
}

/// Holds LEMON's least cost and first flow against those of the library.
pub fn compare(network: &Network, cost: i32, flow: &[i32]) {
    assert_eq!(Graph::new(network).least_cost(), cost, "least cost");
    assert_eq!(first_flow(network, false), flow, "a solve for each arc");
    assert_eq!(first_flow(network, true), flow, "a solve for each open arc");
}

/// Solve, build and solve, a solve for each arc, a solve for each open arc.
pub fn calls(network: &Network) -> Vec<Call<'_>> {
    let graph = Graph::new(network);
    vec![
        Box::new(move || ignore(graph.least_cost())),
        Box::new(|| ignore(Graph::new(black_box(network)).least_cost())),
        Box::new(|| ignore(first_flow(black_box(network), false))),
        Box::new(|| ignore(first_flow(black_box(network), true))),
    ]
}

fn ignore<T>(result: T) {
    let _ = black_box(result);
}
