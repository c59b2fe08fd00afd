//! What is called, compared and measured for each plate.

use crate::lemon;
use crate::measure::{measure, Call, Effort};
use crate::network::{flow_of, network, Network};
use crate::plates::Named;
use plates_tests::cancelling;
use plates_tests::files::shape_of;
use plates_tests::plate::Shape;
use std::hint::black_box;

/// The results for one plate, times in microseconds.
pub struct Row {
    pub family: &'static str,
    pub name: String,
    pub posts: usize,
    pub strips: usize,
    pub bends: u32,
    pub write: f64,
    pub check: f64,
    pub independent: f64,
    pub lemon: Option<LemonTimes>,
}

/// Times of LEMON.
pub struct LemonTimes {
    pub solve: f64,
    pub build_and_solve: f64,
    pub each_arc: f64,
    pub each_open_arc: f64,
}

/// The shape file that the library writes for a plate list.
pub fn written(list: &[u8]) -> (Vec<u8>, u32) {
    let mut out = [0; plates::LONGEST_SHAPE];
    let shape = plates::write_shape(list, &mut out).expect("the list is accepted");
    (out[..shape.length].to_vec(), shape.bends)
}

/// Angles and right bends of a written shape file.
fn shape_in(file: &[u8], darts: usize) -> Shape {
    let numbers = |content: &[u8]| content.iter().map(|&b| u32::from(b)).collect();
    Shape {
        angles: numbers(&file[13..13 + darts]),
        rights: numbers(&file[16 + darts..16 + 2 * darts]),
    }
}

/// Every way must come to the same shape before it is measured.
fn compare(named: &Named, file: &[u8], bends: u32) {
    let expected = shape_of(&named.list, cancelling::best);
    assert_eq!(expected, Ok((file.to_vec(), bends)), "{}", named.name);
    let verdict = plates::check_shape(&named.list, file).expect("the shape is sound");
    let shape = shape_in(file, named.plate.darts());
    let totals = (verdict.total, verdict.fewest, verdict.ours);
    let sum = named.plate.sum(&shape.rights);
    assert_eq!(totals, (bends, sum, true), "{}", named.name);
    let (flow, cost) = flow_of(&named.plate, &shape);
    lemon::compare(&network(&named.plate), cost, &flow);
}

/// Shaping, checking and the independent implementation, all from the bytes.
fn own_calls<'a>(list: &'a [u8], file: &'a [u8]) -> Vec<Call<'a>> {
    let mut out = [0; plates::LONGEST_SHAPE];
    vec![
        Box::new(move || {
            let shape = plates::write_shape(black_box(list), black_box(&mut out));
            let _ = black_box(shape);
        }),
        Box::new(|| {
            let verdict = plates::check_shape(black_box(list), black_box(file));
            let _ = black_box(verdict);
        }),
        Box::new(|| {
            let shape = shape_of(black_box(list), cancelling::best);
            let _ = black_box(shape);
        }),
    ]
}

/// What the calls of one plate need.
struct Case<'a> {
    named: &'a Named,
    file: Vec<u8>,
    bends: u32,
    network: Network,
}

impl Case<'_> {
    fn new(named: &Named) -> Case<'_> {
        let (file, bends) = written(&named.list);
        compare(named, &file, bends);
        Case {
            network: network(&named.plate),
            named,
            file,
            bends,
        }
    }

    fn calls(&self) -> Vec<Call<'_>> {
        let mut calls = own_calls(&self.named.list, &self.file);
        calls.extend(lemon::calls(&self.network));
        calls
    }

    fn row(&self, times: &[f64]) -> Row {
        Row {
            family: self.named.family,
            name: self.named.name.clone(),
            posts: self.named.plate.posts,
            strips: self.named.plate.strips.len(),
            bends: self.bends,
            write: times[0],
            check: times[1],
            independent: times[2],
            lemon: lemon_times(&times[3..]),
        }
    }
}

/// Compares and measures all plates.
pub fn rows(all: &[Named], effort: &Effort) -> Vec<Row> {
    let cases: Vec<Case> = all.iter().map(Case::new).collect();
    let mut calls: Vec<Call> = cases.iter().flat_map(Case::calls).collect();
    let times = measure(&mut calls, effort);
    let of_each = times.chunks(times.len() / cases.len());
    let rows = cases.iter().zip(of_each);
    rows.map(|(case, times)| case.row(times)).collect()
}

fn lemon_times(times: &[f64]) -> Option<LemonTimes> {
    let &[solve, build_and_solve, each_arc, each_open_arc] = times else {
        return None;
    };
    Some(LemonTimes {
        solve,
        build_and_solve,
        each_arc,
        each_open_arc,
    })
}
