//! Every plate with few strips, each once or with every starting dart, and every
//! choice of small limits, or of a few prices, on one.

use crate::files::{list_bytes, read_list};
use crate::plate::Plate;

/// Which orders round a post are tried.
#[derive(Clone, Copy)]
pub enum Orders {
    /// Every order with every starting dart.
    All,
    /// Every cyclic order once, its lowest dart first.
    Cyclic,
}

/// Calls `visit` with every plate of `strips` strips, some perhaps from a post
/// to itself, and up to one post more, with every order and every outer dart.
/// More posts cannot be connected.
pub fn each_plate(strips: usize, orders: Orders, visit: &mut dyn FnMut(&Plate)) {
    for posts in 1..=strips + 1 {
        each_strips(posts, strips, &mut Vec::new(), &mut |strips| {
            each_order(posts, strips, orders, visit);
        });
    }
}

fn each_strips(
    posts: usize,
    more: usize,
    start: &mut Vec<[usize; 2]>,
    visit: &mut dyn FnMut(&[[usize; 2]]),
) {
    if more == 0 {
        return visit(start);
    }
    for first in 0..posts {
        for second in 0..posts {
            start.push([first, second]);
            each_strips(posts, more - 1, start, visit);
            start.pop();
        }
    }
}

fn each_order(posts: usize, strips: &[[usize; 2]], orders: Orders, visit: &mut dyn FnMut(&Plate)) {
    let darts = 2 * strips.len();
    let tail = |d: usize| strips[d / 2][d % 2];
    let mut all = vec![Vec::new()];
    for post in 0..posts {
        let leaving = (0..darts).filter(|&d| tail(d) == post).collect();
        let of_post = orders_of(leaving, orders);
        let longer = |start: &Vec<Vec<usize>>| -> Vec<Vec<Vec<usize>>> {
            let with = |order: &Vec<usize>| [&start[..], std::slice::from_ref(order)].concat();
            of_post.iter().map(with).collect()
        };
        all = all.iter().flat_map(longer).collect();
    }
    for order in all {
        for outer in 0..darts {
            visit(&Plate {
                posts,
                strips: strips.to_vec(),
                order: order.clone(),
                outer,
                limits: Vec::new(),
                prices: Vec::new(),
            });
        }
    }
}

fn orders_of(leaving: Vec<usize>, orders: Orders) -> Vec<Vec<usize>> {
    match (orders, leaving.split_first()) {
        (Orders::Cyclic, Some((first, rest))) => permutations(rest)
            .into_iter()
            .map(|rest| [&[*first], &rest[..]].concat())
            .collect(),
        _ => permutations(&leaving),
    }
}

fn permutations(items: &[usize]) -> Vec<Vec<usize>> {
    if items.is_empty() {
        return vec![Vec::new()];
    }
    let mut all = Vec::new();
    for (place, &item) in items.iter().enumerate() {
        let rest = [&items[..place], &items[place + 1..]].concat();
        for end in permutations(&rest) {
            all.push([&[item], &end[..]].concat());
        }
    }
    all
}

/// Calls `visit` with every so-many-th of the plates that are accepted, each
/// cyclic order once.
pub fn each_accepted(strips: usize, share: usize, visit: &mut dyn FnMut(&Plate)) {
    let mut met = 0;
    each_plate(strips, Orders::Cyclic, &mut |plate| {
        if read_list(&list_bytes(plate, 1, None)).is_ok() {
            met += 1;
            if met % share == 0 {
                visit(plate);
            }
        }
    });
}

/// The limits that are tried on each strip; 255 is none.
const LIMITS: [u8; 4] = [0, 1, 2, 255];

/// The prices that are tried on each strip.
const PRICES: [u8; 4] = [1, 2, 3, 100];

/// Calls `visit` with every choice of one of these for each strip, the last one
/// for all of them last.
fn each_choice(of: [u8; 4], strips: usize, visit: &mut dyn FnMut(&[u8])) {
    for code in 0..of.len().pow(strips as u32) {
        let chosen = |strip| of[code / of.len().pow(strip) % of.len()];
        visit(&(0..strips as u32).map(chosen).collect::<Vec<u8>>());
    }
}

/// Calls `visit` with the plate under every choice of a limit for each strip,
/// none on all of them last.
pub fn each_limits(plate: &Plate, visit: &mut dyn FnMut(&Plate)) {
    each_choice(LIMITS, plate.strips.len(), &mut |limits| {
        visit(&plate.within(limits));
    });
}

/// Calls `visit` with the plate under every choice of a price for each strip.
pub fn each_prices(plate: &Plate, visit: &mut dyn FnMut(&Plate)) {
    each_choice(PRICES, plate.strips.len(), &mut |prices| {
        visit(&plate.priced(prices));
    });
}
