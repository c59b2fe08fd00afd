//! Limits of bends (request E2): shapes that are known without a solver, and
//! where 23, 24 and 25 stand among the other numbers.

use plates::{check_shape, write_listing, write_shape, Refusal, Verdict};
use plates_tests::cancelling;
use plates_tests::compare::{self, refused};
use plates_tests::damage::refused_lists;
use plates_tests::files::{file_of, list_bytes, read_list, shape_bytes, with_limits};
use plates_tests::plate::{by_number, p1, Plate, Shape};
use plates_tests::random::{double_ring, looped_ring, Random};
use plates_tests::remembered::cancel_once;
use plates_tests::search;

/// The number of the check.
fn judged(list: &[u8], shape: &[u8]) -> u8 {
    let number = check_shape(list, shape).map_or_else(Refusal::number, |_| 0);
    assert_eq!(compare::checking(list, shape, cancelling::best), number);
    number
}

/// The plate has this best shape within these limits, and it is judged so.
fn written(plate: &Plate, limits: &[u8], rights: &[u32], angles: &[u32]) {
    let list = list_bytes(&plate.within(limits), 7, None);
    let shape = Shape::new(rights, angles);
    let file = file_of(&list, &shape);
    let mut out = [0; plates::LONGEST_SHAPE];
    let written = write_shape(&list, &mut out).expect("some shape keeps the limits");
    assert_eq!(compare::hex(&out[..written.length]), compare::hex(&file));
    let sound = Verdict {
        total: shape.bends(),
        fewest: shape.bends(),
        ours: true,
    };
    assert_eq!(check_shape(&list, &file), Ok(sound));
    for best in [search::best, search::best_with_words, cancelling::best] {
        assert_eq!(best(&plate.within(limits)).as_ref(), Some(&shape));
    }
}

/// No shape of the plate keeps these limits.
fn without_shape(plate: &Plate, limits: &[u8]) {
    let list = list_bytes(&plate.within(limits), 7, None);
    assert_eq!(refused(&list), 24);
    let mut out = [0; 20];
    let length = write_listing(&list, &mut out).expect("the memory is long enough");
    assert_eq!(out[..length], *b"refused 24\n");
    for best in [search::best, search::best_with_words, cancelling::best] {
        assert_eq!(best(&plate.within(limits)), None);
    }
}

/// P1 needs two bends in all, on darts 0 and 3; the fewer on dart 0 the better.
#[test]
fn p1_within_limits() {
    for (limits, first) in [
        ([255, 255], 0),
        ([0, 2], 0),
        ([0, 255], 0),
        ([1, 1], 1),
        ([254, 1], 1),
        ([255, 1], 1),
        ([2, 0], 2),
        ([255, 0], 2),
    ] {
        written(&p1(), &limits, &[first, 0, 0, 2 - first], &[1, 3, 3, 1]);
    }
    for limits in [[0, 0], [0, 1], [1, 0]] {
        without_shape(&p1(), &limits);
    }
}

/// A strip from a post to itself needs three bends, and one round it five.
#[test]
fn strips_to_itself_within_limits() {
    let loops = |count| by_number(1, &vec![[0, 0]; count], 1);
    written(&loops(1), &[3], &[3, 0], &[1, 3]);
    written(&loops(1), &[254], &[3, 0], &[1, 3]);
    without_shape(&loops(1), &[2]);
    without_shape(&loops(1), &[0]);
    let mut nested = loops(2);
    nested.order = vec![vec![0, 2, 3, 1]];
    written(&nested, &[5, 3], &[5, 0, 3, 0], &[1; 4]);
    without_shape(&nested, &[4, 255]);
    without_shape(&nested, &[255, 2]);
}

/// The bend of P2, the triangle, goes to a strip that may have it; a fourth
/// corner is needed.
#[test]
fn p2_within_limits() {
    let p2 = by_number(3, &[[0, 1], [1, 2], [2, 0]], 1);
    for bent in 0..3 {
        let mut limits = [0; 3];
        limits[bent] = 1;
        let mut rights = [0; 6];
        rights[2 * bent] = 1;
        written(&p2, &limits, &rights, &[1, 3, 1, 3, 1, 3]);
    }
    without_shape(&p2, &[0; 3]);
}

/// Field 07 of every length: over 128 bytes it is refused with 4, else with 23
/// where it has not one byte for each strip, also where these allow no bend.
#[test]
fn every_length() {
    let mut random = Random::new(23);
    let path: Vec<[usize; 2]> = (0..63).map(|post| [post, post + 1]).collect();
    let paths = [1, 2, 3, 63].map(|strips| by_number(strips + 1, &path[..strips], 0));
    for plate in paths.into_iter().chain([64, 32].map(double_ring)) {
        let strips = plate.strips.len();
        let list = list_bytes(&plate, 7, Some(b"Hi"));
        for length in (0..=130).chain([255, 256, 257, 1000]) {
            for content in [vec![255; length], vec![0; length], random.bytes(length)] {
                let number = refused(&with_limits(&list, &content));
                match length {
                    129.. => assert_eq!(number, 4),
                    _ if length != strips => assert_eq!(number, 23),
                    _ => assert!(number == 0 || number == 24 && content[0] != 255),
                }
            }
        }
    }
}

/// Field 07 cut gives 1 or 5, twice gives 3, and before another field 29.
#[test]
fn cut_and_doubled() {
    let list = list_bytes(&p1(), 7, Some(b"Hi"));
    let limited = with_limits(&list, &[1, 1]);
    for (length, number) in [(1, 1), (2, 1), (3, 5), (4, 5), (5, 0)] {
        assert_eq!(refused(&limited[..list.len() + length]), number);
    }
    assert_eq!(refused(&with_limits(&limited, &[1, 1])), 3);
    assert_eq!(refused(&with_limits(&limited, &[])), 3);
    let field = &limited[list.len()..];
    assert_eq!(refused(&[field, &list].concat()), 29);
    let remark = list.len() - 5;
    let before_remark = [&list[..remark], field, &list[remark..]].concat();
    assert_eq!(refused(&before_remark), 29);
    assert_eq!(compare::ordering(&before_remark), Ok(limited));
}

/// 23 comes after each of 6 to 15, and 24 too.
#[test]
fn after_the_numbers_of_the_plate() {
    for (number, list) in refused_lists() {
        assert_eq!(refused(&list), number);
        if !(6..=15).contains(&number) {
            continue;
        }
        for length in [0, 1, 2, 3, 5, 128] {
            let limited = with_limits(&list, &vec![0; length]);
            assert_eq!(refused(&limited), number);
            assert_eq!(judged(&limited, &[]), number);
        }
        assert_eq!(refused(&with_limits(&list, &[0; 129])), 4);
    }
}

/// The check gives 23, and then the numbers of the shape file; it never gives
/// 24, and 25 comes after 22.
#[test]
fn after_the_numbers_of_the_shape() {
    let list = list_bytes(&p1(), 7, None);
    let limited = with_limits(&list, &[0, 1]);
    let file = [
        0x11, 0, 2, 0, 7, 0x12, 0, 2, 0, 2, 0x13, 0, 4, 1, 3, 3, 1, 0x14, 0, 4, 0, 0, 0, 2,
    ];
    assert_eq!(judged(&list, &file), 0);
    assert_eq!(judged(&with_limits(&list, &[0]), &[]), 23);
    assert_eq!(judged(&limited, &file), 25);
    let changed = |place: usize, byte: u8| {
        let mut changed = file.to_vec();
        changed[place] = byte;
        changed
    };
    assert_eq!(judged(&limited, &file[..23]), 5);
    assert_eq!(judged(&limited, &file[..17]), 6);
    let longer = [&changed(19, 5)[..], &[0]].concat();
    assert_eq!(judged(&limited, &longer), 17);
    for (number, place, byte) in [
        (18, 4, 8),
        (19, 13, 0),
        (20, 13, 2),
        (21, 20, 1),
        (22, 9, 3),
    ] {
        assert_eq!(judged(&limited, &changed(place, byte)), number);
    }
}

/// Bends both ways count together: one right and one left pass a limit of 1,
/// and 255 of each do not pass 255, which is no limit.
#[test]
fn both_ways_count() {
    let strip = by_number(2, &[[0, 1]], 0);
    for (bends, limit, number) in [
        (0, 0, 0),
        (1, 0, 25),
        (1, 1, 25),
        (1, 2, 0),
        (127, 253, 25),
        (127, 254, 0),
        (128, 254, 25),
        (128, 255, 0),
        (255, 254, 25),
        (255, 255, 0),
    ] {
        let list = list_bytes(&strip.within(&[limit]), 7, None);
        let shape = Shape {
            rights: vec![bends; 2],
            angles: vec![4; 2],
        };
        let read = read_list(&list).expect("the plate is accepted");
        assert_eq!(judged(&list, &shape_bytes(&read, &shape)), number);
    }
}

/// The plate with a limit on one strip alone.
fn limited_at(plate: &Plate, strip: usize, limit: u32) -> Plate {
    let mut limits = vec![255; plate.strips.len()];
    limits[strip] = limit as u8;
    plate.within(&limits)
}

/// On plates of 128 strips each strip has its own limit: one bend each way more
/// than the limit allows is refused on this strip and not on the next one, and
/// with one less allowed the best shape is another, or there is none.
#[test]
fn each_strip_of_the_largest_plates() {
    let mut changed = 0;
    for plate in [double_ring(64), looped_ring(64)] {
        let free = cancelling::best(&plate).expect("the plate has no limits");
        for (strip, bends) in free.by_strip().into_iter().enumerate() {
            let list = list_bytes(&limited_at(&plate, strip, bends), 7, None);
            let read = read_list(&list).expect("the plate is accepted");
            for (other, number) in [(strip, 25), ((strip + 1) % 128, 0)] {
                let mut both_ways = free.clone();
                both_ways.rights[2 * other] += 1;
                both_ways.rights[2 * other + 1] += 1;
                let file = shape_bytes(&read, &both_ways);
                assert_eq!(compare::checking(&list, &file, cancel_once), number);
            }
            if bends > 0 {
                let less = list_bytes(&limited_at(&plate, strip, bends - 1), 7, None);
                compare::shaping_longer(&less, cancel_once);
                assert_eq!(
                    compare::checking(&less, &shape_bytes(&read, &free), cancel_once),
                    25
                );
                changed += 1;
            }
        }
    }
    println!("each strip of the largest plates: {changed} of 256 have bends");
    assert!(changed > 0);
}
