//! Times of the library beside the independent implementation and LEMON.

use plates_bench::measure::Effort;
use plates_bench::rows::rows;
use plates_bench::{books, lemon, plates, table};
use std::process::ExitCode;

fn main() -> ExitCode {
    let arguments: Vec<String> = std::env::args().skip(1).collect();
    let effort = match arguments.as_slice() {
        [] => Effort::full(),
        [one] if one == "--quick" => Effort::quick(),
        _ => {
            eprintln!("the only argument is --quick");
            return ExitCode::FAILURE;
        }
    };
    let rows = rows(&plates::all(), &effort);
    println!(
        "Microseconds for one call, median of {} batches.",
        effort.batches
    );
    print!("{COLUMNS}");
    print!(
        "{}",
        if lemon::PRESENT {
            LEMON_COLUMNS
        } else {
            NO_LEMON
        }
    );
    println!("\n{}", table::times(&rows));
    println!(
        "Growth of write with the posts:\n\n{}",
        table::growth(&rows)
    );
    let rows = books::rows(effort.books, &effort);
    println!(
        "current_revision on books of entries:\n\n{}",
        table::books(&rows)
    );
    ExitCode::SUCCESS
}

const COLUMNS: &str = "\
write: write_shape, from the bytes of the list to the bytes of the shape
check: check_shape on that shape, from the bytes of both
independent: cycle cancelling of the package tests, from bytes to bytes
";

const LEMON_COLUMNS: &str = "\
LEMON solve: network simplex on a graph that is already built, least bends and
             cornered posts only
LEMON build+solve: the same with the graph built from lists of arcs
LEMON each arc: the first of the cheapest flows, with one solve for each arc
LEMON each open arc: the same, but no solve for an arc that carries its least
Every way came to the same bends, and all but the first two of LEMON to the
same shape.
";

const NO_LEMON: &str = "\
LEMON is not installed (Debian: liblemon-dev); its columns are left out
Both ways came to the same shape.
";
