//! Posts with exactly two strip ends: shapes that are known without a solver.

use plates::{check_shape, write_shape, Verdict};
use plates_tests::compare;
use plates_tests::files::{file_of, list_bytes};
use plates_tests::plate::{by_number, Plate, Shape};

/// The list of a plate, and a shape without bends as a file.
fn files(plate: &Plate, angles: Vec<u32>) -> (Vec<u8>, Vec<u8>) {
    let list = list_bytes(plate, 7, None);
    let shape = Shape {
        rights: vec![0; plate.darts()],
        angles,
    };
    let file = file_of(&list, &shape);
    (list, file)
}

/// The library writes the shape without bends that has these angles.
fn written(plate: &Plate, angles: Vec<u32>) {
    let (list, file) = files(plate, angles);
    let mut out = [0; plates::LONGEST_SHAPE];
    let written = write_shape(&list, &mut out).expect("the plate is accepted");
    assert_eq!(written.bends, 0);
    assert_eq!(compare::hex(&out[..written.length]), compare::hex(&file));
}

/// The check finds the shape without bends that has these angles sound, and ours or not.
fn judged(plate: &Plate, angles: Vec<u32>, ours: bool) {
    let (list, file) = files(plate, angles);
    let verdict = Verdict {
        total: 0,
        fewest: 0,
        ours,
    };
    assert_eq!(check_shape(&list, &file), Ok(verdict));
}

/// A row of posts, each joined to the next.
fn path(posts: usize) -> Plate {
    let strips: Vec<_> = (1..posts).map(|post| [post - 1, post]).collect();
    by_number(posts, &strips, 1)
}

/// Posts joined in a ring, with even darts inside.
fn ring(posts: usize) -> Plate {
    let strips: Vec<_> = (0..posts).map(|post| [post, (post + 1) % posts]).collect();
    by_number(posts, &strips, 1)
}

/// Even dart 2i ends at post i + 1 and odd dart 2i + 1 at post i.
fn ring_angles(posts: usize, inside: impl Fn(usize) -> u32) -> Vec<u32> {
    let before = |strip| (strip + posts - 1) % posts;
    (0..posts)
        .flat_map(|strip| [inside(strip), 4 - inside(before(strip))])
        .collect()
}

#[test]
fn paths_run_straight() {
    for posts in 3..=64 {
        let plate = path(posts);
        let angle = |dart| if plate.at_joint(dart) { 2 } else { 4 };
        let straight: Vec<u32> = (0..plate.darts()).map(angle).collect();
        assert_eq!(plate.cornered(&straight), 0);
        written(&plate, straight.clone());
        judged(&plate, straight.clone(), true);
        // A corner at post 1: dart 0 and dart 3 end there.
        let mut cornered = straight;
        (cornered[0], cornered[3]) = (1, 3);
        assert_eq!(plate.cornered(&cornered), 1);
        judged(&plate, cornered, false);
    }
}

#[test]
fn rings_have_four_corners() {
    for posts in 4..=64 {
        let plate = ring(posts);
        // Turns inside add to +4, and the first even darts have the smaller angles.
        let four = ring_angles(posts, |strip| if strip < 4 { 1 } else { 2 });
        assert_eq!(plate.cornered(&four), 4);
        written(&plate, four.clone());
        judged(&plate, four, true);
        // Five right corners and a left one come first by right bends and angles alone.
        if posts >= 6 {
            let six = ring_angles(posts, |strip| match strip {
                0..=4 => 1,
                _ if strip == posts - 1 => 3,
                _ => 2,
            });
            assert_eq!(plate.cornered(&six), 6);
            judged(&plate, six, false);
        }
    }
}
