//! P1 to P10 of document 01, each with its own bytes and its stated answer.

use plates::{check_shape, write_listing, write_shape, Refusal, Verdict};
use plates_tests::cancelling;
use plates_tests::compare;
use plates_tests::files::{list_bytes, read_list};
use plates_tests::plate::{by_number, turn, Plate, Shape};
use plates_tests::search;

const P1: [u8; 27] = [
    0x01, 0x00, 0x02, 0x00, 0x07, 0x02, 0x00, 0x01, 0x02, 0x03, 0x00, 0x04, 0x00, 0x01, 0x00, 0x01,
    0x04, 0x00, 0x04, 0x00, 0x02, 0x01, 0x03, 0x05, 0x00, 0x01, 0x01,
];
const P1_SHAPE: [u8; 24] = [
    0x11, 0x00, 0x02, 0x00, 0x07, 0x12, 0x00, 0x02, 0x00, 0x02, 0x13, 0x00, 0x04, 0x01, 0x03, 0x03,
    0x01, 0x14, 0x00, 0x04, 0x00, 0x00, 0x00, 0x02,
];

/// Compares the library, both searches and the cancelling with the answer.
fn try_plate(plate: &Plate, rights: &[u8], angles: &[u8]) {
    let list = list_bytes(plate, 7, None);
    let total: u32 = rights.iter().map(|&r| u32::from(r)).sum();
    let length = rights.len() as u8;
    let start = [0x11, 0, 2, 0, 7, 0x12, 0, 2, 0, total as u8];
    let shape = [
        &start[..],
        &[0x13, 0, length],
        angles,
        &[0x14, 0, length],
        rights,
    ]
    .concat();
    let mut out = [0; plates::LONGEST_SHAPE];
    let written = write_shape(&list, &mut out).expect("the plate is accepted");
    assert_eq!(written.bends, total);
    assert_eq!(compare::hex(&out[..written.length]), compare::hex(&shape));
    let sound = Verdict {
        total,
        fewest: total,
        ours: true,
    };
    assert_eq!(check_shape(&list, &shape), Ok(sound));
    for best in [search::best, search::best_with_words, cancelling::best] {
        assert_eq!(compare::shaping(&list, best), 0);
        assert_eq!(compare::checking(&list, &shape, best), 0);
        compare::listing(&list, best);
    }
}

fn refused(list: &[u8]) -> u8 {
    let mut out = [0; plates::LONGEST_SHAPE];
    let given = write_shape(list, &mut out).map_or_else(Refusal::number, |_| 0);
    assert_eq!(given, compare::shaping(list, cancelling::best));
    given
}

#[test]
fn p1_two_strips() {
    let list = read_list(&P1).expect("P1 is accepted");
    assert_eq!(list_bytes(&list.plate, 7, None), P1);
    let mut out = [0; 24];
    assert_eq!(write_shape(&P1, &mut out).map(|s| s.bends), Ok(2));
    assert_eq!(out, P1_SHAPE);
    try_plate(&list.plate, &[0, 0, 0, 2], &[1, 3, 3, 1]);
}

#[test]
fn p1_listing() {
    let text = "revision 7\nbends 2\ndart 0 right 0 angle 1\ndart 1 right 0 angle 3\n\
                dart 2 right 0 angle 3\ndart 3 right 2 angle 1\n";
    let mut out = [0; 200];
    let length = write_listing(&P1, &mut out).expect("the memory is long enough");
    assert_eq!(std::str::from_utf8(&out[..length]), Ok(text));
}

#[test]
fn p2_triangle() {
    let p2 = by_number(3, &[[0, 1], [1, 2], [2, 0]], 1);
    try_plate(&p2, &[0, 0, 0, 0, 1, 0], &[1, 3, 1, 3, 1, 3]);
}

#[test]
fn p3_square() {
    let p3 = by_number(4, &[[0, 1], [1, 2], [2, 3], [3, 0]], 1);
    try_plate(&p3, &[0; 8], &[1, 3, 1, 3, 1, 3, 1, 3]);
}

#[test]
fn p4_one_strip() {
    try_plate(&by_number(2, &[[0, 1]], 0), &[0, 0], &[4, 4]);
}

#[test]
fn p5_star() {
    let p5 = by_number(5, &[[0, 1], [0, 2], [0, 3], [0, 4]], 1);
    try_plate(&p5, &[0; 8], &[4, 1, 4, 1, 4, 1, 4, 1]);
}

#[test]
fn p6_path() {
    try_plate(&by_number(3, &[[0, 1], [1, 2]], 1), &[0; 4], &[2, 4, 4, 2]);
}

#[test]
fn p7_three_strips() {
    let mut p7 = by_number(2, &[[0, 1]; 3], 1);
    p7.order = vec![vec![0, 2, 4], vec![5, 3, 1]];
    try_plate(&p7, &[2, 0, 0, 0, 0, 2], &[1, 2, 1, 1, 2, 1]);
}

#[test]
fn p8_not_plane() {
    let mut p8 = by_number(2, &[[0, 1]; 3], 1);
    p8.order = vec![vec![0, 2, 4], vec![1, 3, 5]];
    assert_eq!(p8.faces().len(), 1);
    assert_eq!(refused(&list_bytes(&p8, 7, None)), 15);
}

/// The example of document 000: e1 to e6 are strips 0 to 5, and the darts of
/// its outer face are the even ones of e1 to e5.
#[test]
fn p9_face_sums() {
    let strips = [[0, 1], [4, 0], [3, 4], [2, 3], [1, 2], [4, 1]];
    let mut p9 = by_number(5, &strips, 0);
    p9.order[1] = vec![8, 1, 11];
    p9.order[4] = vec![10, 2, 5];
    let faces = [vec![0, 8, 6, 4, 2], vec![1, 3, 10], vec![5, 7, 9, 11]];
    assert_eq!(p9.faces(), faces);
    let shape = Shape {
        rights: vec![0, 2, 0, 0, 0, 0, 0, 0, 0, 3, 2, 0],
        angles: vec![1, 3, 1, 1, 2, 2, 2, 1, 3, 1, 2, 1],
    };
    let sums = faces.map(|face| face.iter().map(|&d| turn(&shape, d)).sum::<i64>());
    assert_eq!(sums, [-4, 4, 4]);
    let list = list_bytes(&p9, 7, None);
    let read = read_list(&list).expect("P9 is accepted");
    let file = plates_tests::files::shape_bytes(&read, &shape);
    let verdict = check_shape(&list, &file).expect("the example meets the conditions");
    assert_eq!((verdict.total, verdict.ours), (7, false));
    assert_eq!(compare::checking(&list, &file, cancelling::best), 0);
    assert_eq!(compare::shaping(&list, cancelling::best), 0);
}

#[test]
fn p10_empty_input() {
    assert_eq!(refused(&[]), 6);
}

#[test]
fn p10_posts() {
    let path: Vec<[usize; 2]> = (0..63).map(|post| [post, post + 1]).collect();
    assert_eq!(refused(&list_bytes(&by_number(64, &path, 0), 7, None)), 0);
    let path: Vec<[usize; 2]> = (0..64).map(|post| [post, post + 1]).collect();
    assert_eq!(refused(&list_bytes(&by_number(65, &path, 0), 7, None)), 7);
}

#[test]
fn p10_strips_at_a_post() {
    let star: Vec<[usize; 2]> = (1..6).map(|post| [0, post]).collect();
    assert_eq!(
        refused(&list_bytes(&by_number(5, &star[..4], 0), 7, None)),
        0
    );
    assert_eq!(refused(&list_bytes(&by_number(6, &star, 0), 7, None)), 11);
}

/// Request E5: a strip from a post to itself takes two places; one inside the
/// other needs two more bends.
#[test]
fn e5_strips_to_itself() {
    let loops = |count| by_number(1, &vec![[0, 0]; count], 1);
    try_plate(&loops(1), &[3, 0], &[1, 3]);
    try_plate(&loops(2), &[3, 0, 3, 0], &[1; 4]);
    assert_eq!(refused(&list_bytes(&loops(3), 7, None)), 11);
    let mut nested = loops(2);
    nested.order = vec![vec![0, 2, 3, 1]];
    try_plate(&nested, &[5, 0, 3, 0], &[1; 4]);
    let mut crossed = loops(2);
    crossed.order = vec![vec![0, 2, 1, 3]];
    assert_eq!(refused(&list_bytes(&crossed, 7, None)), 15);
}

#[test]
fn p10_lent_memory() {
    let mut out = [0xee; 30];
    let short = write_shape(&P1, &mut out[..23]);
    assert_eq!(short, Err(Refusal::MemoryShort));
    assert_eq!(out, [0xee; 30]);
    assert!(write_shape(&P1, &mut out[..24]).is_ok());
    assert_eq!(out[..24], P1_SHAPE);
    assert_eq!(out[24..], [0xee; 6]);
}
