//! Calls of the library for a profiler.

use plates_bench::plates::by_name;
use plates_bench::rows::written;
use std::hint::black_box;
use std::process::ExitCode;

fn main() -> ExitCode {
    let arguments: Vec<String> = std::env::args().skip(1).collect();
    if let [call, count, names @ ..] = arguments.as_slice() {
        if let Ok(count) = count.parse() {
            return repeat(call, count, names);
        }
    }
    eprintln!("usage: profile write|check|to_text|from_text|split|hang|join CALLS PLATE...");
    ExitCode::FAILURE
}

fn repeat(call: &str, count: u32, names: &[String]) -> ExitCode {
    for name in names {
        let Some(named) = by_name(name) else {
            eprintln!("there is no plate {name}");
            return ExitCode::FAILURE;
        };
        let input = input_of(call, &named.list);
        for _ in 0..count {
            call_once(call, &named.list, &input);
        }
    }
    ExitCode::SUCCESS
}

/// What a call takes beside the list: the shape file, or its text.
fn input_of(call: &str, list: &[u8]) -> Vec<u8> {
    if ["write", "split", "hang", "join"].contains(&call) {
        return Vec::new();
    }
    let file = written(list).0;
    if call != "from_text" {
        return file;
    }
    let mut text = vec![0; plates::LONGEST_TEXT];
    let length = plates::write_text(list, &file, &mut text).expect("our own file has a text");
    text.truncate(length);
    text
}

fn call_once(call: &str, list: &[u8], input: &[u8]) {
    let (list, input) = (black_box(list), black_box(input));
    let mut shape = [0; plates::LONGEST_SHAPE];
    let mut text = vec![0; plates::LONGEST_TEXT];
    let mut after = [0; plates::LONGEST_STEPPED_LIST];
    match call {
        "check" => drop(black_box(plates::check_shape(list, input))),
        "to_text" => drop(black_box(plates::write_text(list, input, &mut text))),
        "from_text" => drop(black_box(plates::read_text(list, input, &mut shape))),
        "split" => drop(black_box(plates::split_strip(list, 0, &mut after))),
        "hang" => drop(black_box(plates::hang_strip(list, 0, &mut after))),
        // The darts of strip 0: of one face on a path or a tree, of two on other plates.
        "join" => drop(black_box(plates::join_darts(list, 0, 1, &mut after))),
        _ => drop(black_box(plates::write_shape(list, &mut shape))),
    }
    black_box((&shape, &text, &after));
}
