//! The tables that are printed, in Markdown.

use crate::books::BookRow;
use crate::plates::FAMILIES;
use crate::rows::{LemonTimes, Row};

const OWN: [&str; 7] = [
    "plate",
    "posts",
    "strips",
    "bends",
    "write",
    "check",
    "independent",
];

const LEMON: [&str; 7] = [
    "LEMON solve",
    "LEMON build+solve",
    "write / solve",
    "LEMON each arc",
    "each arc / write",
    "LEMON each open arc",
    "each open arc / write",
];

/// The times of all plates.
pub fn times(rows: &[Row]) -> String {
    let mut head: Vec<String> = OWN.map(String::from).to_vec();
    if rows.iter().any(|row| row.lemon.is_some()) {
        head.extend(LEMON.map(String::from));
    }
    let cells = rows.iter().map(cells_of).collect();
    lines(head, cells)
}

fn cells_of(row: &Row) -> Vec<String> {
    let mut cells = vec![
        row.name.clone(),
        row.posts.to_string(),
        row.strips.to_string(),
        row.bends.to_string(),
    ];
    cells.extend([row.write, row.check, row.independent].map(short));
    if let Some(lemon) = &row.lemon {
        cells.extend(lemon_cells(row.write, lemon));
    }
    cells
}

fn lemon_cells(write: f64, lemon: &LemonTimes) -> [String; 7] {
    [
        lemon.solve,
        lemon.build_and_solve,
        write / lemon.solve,
        lemon.each_arc,
        lemon.each_arc / write,
        lemon.each_open_arc,
        lemon.each_open_arc / write,
    ]
    .map(short)
}

/// How the time of shaping grows with the posts.
pub fn growth(rows: &[Row]) -> String {
    let head = [
        "family", "4 posts", "16 posts", "64 posts", "16 / 4", "64 / 16",
    ];
    let mut cells = Vec::new();
    for family in FAMILIES {
        let of_family = rows.iter().filter(|row| row.family == family);
        let writes: Vec<f64> = of_family.map(|row| row.write).collect();
        let ratios = writes.windows(2).map(|pair| pair[1] / pair[0]);
        let numbers = writes.iter().copied().chain(ratios).map(short);
        cells.push([family.to_string()].into_iter().chain(numbers).collect());
    }
    lines(head.map(String::from).to_vec(), cells)
}

/// The times of all books.
pub fn books(rows: &[BookRow]) -> String {
    let head = ["book", "entries", "current", "independent"];
    let cells_of = |row: &BookRow| {
        let times = [row.current, row.independent].map(short);
        let names = [row.kind.to_string(), row.entries.to_string()];
        names.into_iter().chain(times).collect()
    };
    let cells = rows.iter().map(cells_of).collect();
    lines(head.map(String::from).to_vec(), cells)
}

/// Three digits, or all digits before the point.
fn short(number: f64) -> String {
    let places = match number {
        n if n < 10.0 => 2,
        n if n < 100.0 => 1,
        _ => 0,
    };
    format!("{number:.places$}")
}

/// A table with cells of equal width in each column.
fn lines(head: Vec<String>, cells: Vec<Vec<String>>) -> String {
    let longest = |i: usize| cells.iter().map(|row| row[i].len()).max();
    let widths: Vec<usize> = (0..head.len())
        .map(|i| longest(i).unwrap_or(0).max(head[i].len()))
        .collect();
    let rule = widths.iter().map(|&width| "-".repeat(width)).collect();
    let mut text = String::new();
    for row in [head, rule].iter().chain(&cells) {
        for (i, (cell, &width)) in row.iter().zip(&widths).enumerate() {
            text += &if i == 0 {
                format!("| {cell:<width$} |")
            } else {
                format!(" {cell:>width$} |")
            };
        }
        text += "\n";
    }
    text
}
