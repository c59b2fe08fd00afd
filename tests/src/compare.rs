//! Calls of the library against the independent implementation. A difference
//! panics with the bytes in hexadecimal.

use crate::cancelling;
use crate::files::{in_order, listing_of, shape_of, verdict_of, Solver, Verdict};
use crate::steps::{begun_as, list_after, Step};
use crate::texts::{file_to_text, text_to_file};

/// Bytes as hexadecimal.
pub fn hex(bytes: &[u8]) -> String {
    let pairs: Vec<String> = bytes.iter().map(|b| format!("{b:02x}")).collect();
    pairs.join(" ")
}

/// Lent memory before a call: no two neighbours alike.
fn pattern(length: usize) -> Vec<u8> {
    (0..length).map(|i| (i * 37 + 11) as u8).collect()
}

/// Memory of this length after `written` was put at its front.
fn memory_after(length: usize, written: &[u8]) -> Vec<u8> {
    let mut memory = pattern(length);
    memory[..written.len()].copy_from_slice(written);
    memory
}

/// Lengths to lend for a result of `length` bytes.
fn lengths_to_lend(length: usize) -> Vec<usize> {
    let mut lengths = vec![0, length / 2, length, length + 1, length + 100];
    lengths.extend(length.checked_sub(1));
    lengths
}

/// A call that writes to lent memory: what it reads, and what it should write
/// with how many bends, 0 where it tells none, or its refusal.
struct Writing<'a> {
    name: &'a str,
    reads: &'a [&'a [u8]],
    expected: Result<(&'a [u8], u32), u8>,
}

/// What such a call gives: the length of what it wrote, and the bends.
type Given = Result<(usize, u32), plates::Refusal>;

impl Writing<'_> {
    /// Compares the call for each of these lengths of lent memory.
    fn compare(&self, lengths: &[usize], call: &dyn Fn(&mut [u8]) -> Given) {
        for &lent in lengths {
            let expected = match self.expected {
                Ok((bytes, _)) if lent < bytes.len() => Err(16),
                expected => expected,
            };
            let wanted = expected.map(|(bytes, bends)| (bytes.len(), bends));
            let after = memory_after(lent, expected.map_or(&[], |(bytes, _)| bytes));
            let mut out = pattern(lent);
            let given = call(&mut out).map_err(plates::Refusal::number);
            let reads = || self.reads.iter().map(|bytes| hex(bytes) + "\n");
            assert!(
                given == wanted && out == after,
                "{}: from\n{}lent {lent} bytes\ngiven {given:?}\nwanted {wanted:?}\nmemory {}\nwanted {}",
                self.name,
                reads().collect::<String>(),
                hex(&out),
                hex(&after),
            );
        }
    }

    /// Compares the call for lengths near that of what it writes, or near
    /// `most` where it is refused.
    fn compare_near(&self, most: usize, call: &dyn Fn(&mut [u8]) -> Given) {
        let length = self.expected.map_or(most, |(bytes, _)| bytes.len());
        self.compare(&lengths_to_lend(length), call);
    }
}

/// Compares shaping for lent memory of several lengths. Gives the number of
/// the list's refusal, or 0.
pub fn shaping(list: &[u8], best: Solver) -> u8 {
    shaping_with(list, best, lengths_to_lend)
}

/// Compares shaping for memory that is longer than the shape.
pub fn shaping_longer(list: &[u8], best: Solver) -> u8 {
    shaping_with(list, best, |length| vec![length + 9])
}

fn shaping_with(list: &[u8], best: Solver, lengths: fn(usize) -> Vec<usize>) -> u8 {
    let expected = shape_of(list, best);
    let length = expected.as_ref().map_or(40, |(shape, _)| shape.len());
    let writing = Writing {
        name: "write_shape",
        reads: &[list],
        expected: borrowed(&expected),
    };
    writing.compare(&lengths(length), &|out| {
        plates::write_shape(list, out).map(|shape| (shape.length, shape.bends))
    });
    expected.err().unwrap_or(0)
}

/// A shape file with its bends, or a refusal.
fn borrowed(expected: &Result<(Vec<u8>, u32), u8>) -> Result<(&[u8], u32), u8> {
    match expected {
        Ok((file, bends)) => Ok((file, *bends)),
        Err(number) => Err(*number),
    }
}

/// The number of shaping, the same for all lengths of lent memory.
pub fn refused(list: &[u8]) -> u8 {
    let none = plates::write_shape(list, &mut []).map_or_else(plates::Refusal::number, |_| 0);
    let number = shaping(list, cancelling::best);
    let mut out = [0; plates::LONGEST_SHAPE];
    let most = plates::write_shape(list, &mut out).map_or_else(plates::Refusal::number, |_| 0);
    assert_eq!(most, number);
    assert_eq!(none, if number == 0 { 16 } else { number });
    number
}

/// Compares the verdict on a shape file. Gives its number, or 0.
pub fn checking(list: &[u8], shape: &[u8], best: Solver) -> u8 {
    let wanted = verdict_of(list, shape, best);
    let given = plates::check_shape(list, shape);
    let given = given.map_err(plates::Refusal::number).map(|v| Verdict {
        total: v.total,
        fewest: v.fewest,
        ours: v.ours,
    });
    assert!(
        given == wanted,
        "check_shape: list {}\nshape {}\ngiven {given:?}\nwanted {wanted:?}",
        hex(list),
        hex(shape),
    );
    wanted.err().unwrap_or(0)
}

/// Compares the listing for lent memory of several lengths.
pub fn listing(list: &[u8], best: Solver) {
    let text = listing_of(list, best);
    let writing = Writing {
        name: "write_listing",
        reads: &[list],
        expected: Ok((text.as_bytes(), 0)),
    };
    writing.compare_near(40, &|out| Ok((plates::write_listing(list, out)?, 0)));
}

/// Compares putting an older file in order, for lent memory of several
/// lengths. Gives the file in order, or its refusal.
pub fn ordering(file: &[u8]) -> Result<Vec<u8>, u8> {
    let expected = in_order(file);
    let writing = Writing {
        name: "order_fields",
        reads: &[file],
        expected: expected.as_ref().map(|f| (&f[..], 0)).map_err(|&n| n),
    };
    writing.compare_near(40, &|out| Ok((plates::order_fields(file, out)?, 0)));
    expected
}

/// Compares writing the text of a shape file, for lent memory of several
/// lengths. Gives the text, or the refusal.
pub fn to_text(list: &[u8], shape: &[u8]) -> Result<String, u8> {
    let expected = file_to_text(list, shape);
    let writing = Writing {
        name: "write_text",
        reads: &[list, shape],
        expected: expected.as_ref().map(|t| (t.as_bytes(), 0)).map_err(|&n| n),
    };
    writing.compare_near(2_000, &|out| Ok((plates::write_text(list, shape, out)?, 0)));
    expected
}

/// Compares reading a text, for lent memory of several lengths. Gives the shape
/// file, or the refusal.
pub fn from_text(list: &[u8], text: &[u8]) -> Result<Vec<u8>, u8> {
    let expected = text_to_file(list, text);
    let writing = Writing {
        name: "read_text",
        reads: &[list, text],
        expected: borrowed(&expected),
    };
    writing.compare_near(plates::LONGEST_SHAPE, &|out| {
        plates::read_text(list, text, out).map(|shape| (shape.length, shape.bends))
    });
    expected.map(|(file, _)| file)
}

/// One of the three calls of a step.
pub fn step_of_library(list: &[u8], step: Step, out: &mut [u8]) -> Result<usize, plates::Refusal> {
    match step {
        Step::Split(strip) => plates::split_strip(list, strip, out),
        Step::Hang(dart) => plates::hang_strip(list, dart, out),
        Step::Join(dart, other) => plates::join_darts(list, dart, other, out),
    }
}

/// Compares a step over a list, for lent memory of several lengths. The orders of
/// the posts are compared cyclically, all else byte for byte. Gives the list
/// after the step, or the refusal.
pub fn stepping(list: &[u8], step: Step) -> Result<Vec<u8>, u8> {
    let mut written = pattern(plates::LONGEST_STEPPED_LIST);
    let _ = step_of_library(list, step, &mut written);
    let expected = list_after(list, step).map(|after| begun_as(&after, &written));
    let writing = Writing {
        name: &format!("{step:?}"),
        reads: &[list],
        expected: expected.as_ref().map(|l| (&l[..], 0)).map_err(|&n| n),
    };
    let most = plates::LONGEST_STEPPED_LIST;
    writing.compare_near(most, &|out| Ok((step_of_library(list, step, out)?, 0)));
    expected
}
