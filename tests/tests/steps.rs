//! Steps of the editor (request E11): split, hang and join on small, random, full
//! and damaged plates, and journals of many steps.

use plates_tests::cancelling;
use plates_tests::compare;
use plates_tests::damage::{each_damaged, refused_lists, split_fields};
use plates_tests::files::{list_bytes, read_list};
use plates_tests::long_mode;
use plates_tests::plate::{by_number, p1, Plate};
use plates_tests::random::{any_plate, double_ring, list_of, looped_ring, random_prices, Random};
use plates_tests::small::each_accepted;
use plates_tests::steps::{begun_as, faces_after, turned_faces, Step};

/// How often each number was met; at 0, how many steps were not refused.
type Met = [usize; 40];

/// Prints how often the numbers of steps were met.
fn say_met(what: &str, met: &Met) {
    let counts = [0, 35, 36, 37].map(|number| met[number]);
    println!("{what}: {counts:?} steps gave 0, 35, 36, 37");
}

/// Compares a step and looks at the list after it. Gives this list, or the
/// refusal.
fn step(list: &[u8], step: Step, met: &mut Met) -> Result<Vec<u8>, u8> {
    let after = compare::stepping(list, step);
    met[usize::from(after.as_ref().err().copied().unwrap_or(0))] += 1;
    if let Ok(after) = &after {
        stands(list, step, after);
    }
    after
}

/// A shape file without an angle or a bend: against every accepted list 17, which
/// is no number of a list.
const NO_ANGLES: [u8; 16] = [17, 0, 2, 0, 0, 18, 0, 2, 0, 0, 19, 0, 0, 20, 0, 0];

fn library_accepts(list: &[u8]) -> bool {
    plates::check_shape(list, &NO_ANGLES) == Err(plates::Refusal::ShapeLength)
}

/// The face of a dart.
fn face_of(faces: &[Vec<usize>], dart: usize) -> &[usize] {
    let face = faces.iter().find(|face| face.contains(&dart));
    face.expect("every dart is on a face")
}

/// The list after a step is accepted, both here and by the library, and has the
/// length and the fields that the strips say; its faces are those that the walks
/// before the step give, one more after a join, and so is the outer one.
fn stands(before: &[u8], step: Step, after: &[u8]) {
    let old = read_list(before).expect("a step was made").plate;
    let new = read_list(after).expect("the list is accepted").plate;
    assert!(library_accepts(after), "{}", compare::hex(after));
    let strips = old.strips.len() + 1;
    let rated = [(7, &old.limits), (8, &old.prices)].into_iter();
    let more: Vec<u8> = rated
        .filter(|(_, r)| !r.is_empty())
        .map(|(tag, _)| tag)
        .collect();
    assert_eq!(after.len(), 19 + 4 * strips + more.len() * (3 + strips));
    let tags: Vec<u8> = split_fields(after).iter().map(|field| field[0]).collect();
    assert_eq!(tags[..5], [1, 2, 3, 4, 5]);
    assert_eq!(tags[5..], more);
    let more = usize::from(matches!(step, Step::Join(..)));
    let faces = turned_faces(new.faces());
    assert_eq!(faces.len(), old.faces().len() + more);
    let walks = turned_faces(faces_after(&old.faces(), step, old.darts()));
    assert_eq!(faces, walks, "{step:?} {}", compare::hex(before));
    assert_eq!(face_of(&faces, new.outer), face_of(&walks, old.outer));
}

/// Calls `visit` with every step whose numbers are at most two above the last
/// strip or dart.
fn each_step(plate: &Plate, visit: &mut dyn FnMut(Step)) {
    let darts = plate.darts() + 2;
    (0..plate.strips.len() + 2).for_each(|strip| visit(Step::Split(strip)));
    for dart in 0..darts {
        visit(Step::Hang(dart));
        (0..darts).for_each(|other| visit(Step::Join(dart, other)));
    }
}

/// The plate with other starting darts of its orders.
fn turned(plate: &Plate, random: &mut Random) -> Plate {
    let mut plate = plate.clone();
    for around in &mut plate.order {
        let start = random.below(around.len());
        around.rotate_left(start);
    }
    plate
}

/// Random limits, of which some are none.
fn limited(plate: &Plate, random: &mut Random) -> Plate {
    let limit = |_: &[usize; 2]| [random.below(255) as u8, 0, 255][random.below(3)];
    plate.within(&plate.strips.iter().map(limit).collect::<Vec<u8>>())
}

/// The plate with limits or without, with prices or without.
fn perhaps_rated(plate: &Plate, random: &mut Random) -> Plate {
    let mut plate = plate.clone();
    if random.below(2) == 0 {
        plate = limited(&plate, random);
    }
    if random.below(2) == 0 {
        plate.prices = random_prices(&plate, random);
    }
    plate
}

/// Every step on small plates, each plate with limits or without, with prices or
/// without, and with its orders begun anywhere.
#[test]
fn small_plates() {
    let shares: &[(usize, usize)] = match long_mode() {
        true => &[(1, 1), (2, 1), (3, 1), (4, 197)],
        false => &[(1, 1), (2, 1), (3, 7)],
    };
    let mut random = Random::new(11);
    let mut met = [0; 40];
    let mut plates = 0;
    for &(strips, share) in shares {
        each_accepted(strips, share, &mut |plate| {
            let plate = turned(plate, &mut random);
            let plate = perhaps_rated(&plate, &mut random);
            let list = list_of(&plate, &mut random);
            each_step(&plate, &mut |made| {
                let _ = step(&list, made, &mut met);
            });
            plates += 1;
        });
    }
    say_met(&format!("{plates} small plates"), &met);
    assert_eq!(met[0] + met[35] + met[37], met.iter().sum::<usize>());
    assert!([0, 35, 37].iter().all(|&number| met[number] > 1_000));
}

/// Numbers that no plate has; in few bits some of them would be 0 or 1.
const FAR: [usize; 15] = [
    0x100,
    0x101,
    0xffff,
    0x1_0000,
    0x1_0001,
    0x7fff_ffff,
    0x8000_0000,
    0xffff_ffff,
    0x1_0000_0000,
    0x1_0000_0001,
    usize::MAX / 2,
    usize::MAX / 2 + 1,
    usize::MAX / 2 + 2,
    usize::MAX - 1,
    usize::MAX,
];

/// A random step, its kind by shares of ten for splits and for hangs. One in ten
/// has random numbers up to a little above the darts, and some far above; other
/// joins are of darts of one face.
fn random_step(plate: &Plate, [splits, hangs]: [usize; 2], random: &mut Random) -> Step {
    let darts = plate.darts();
    let kind = random.below(10);
    if random.below(10) == 0 {
        let mut number = || match random.below(20) {
            0 => FAR[random.below(FAR.len())],
            _ => random.below(darts + 3),
        };
        return match kind % 3 {
            0 => Step::Split(number()),
            1 => Step::Hang(number()),
            _ => Step::Join(number(), number()),
        };
    }
    if kind < splits {
        Step::Split(random.below(darts / 2))
    } else if kind < splits + hangs {
        Step::Hang(random.below(darts))
    } else {
        let dart = random.below(darts);
        let faces = plate.faces();
        let face = face_of(&faces, dart);
        Step::Join(dart, face[random.below(face.len())])
    }
}

/// A random step; every other time the first of a few that is not refused, if
/// there is one.
fn chosen_step(plate: &Plate, shares: [usize; 2], random: &mut Random) -> Step {
    let mut chosen = random_step(plate, shares, random);
    if random.below(2) == 0 {
        for _ in 0..8 {
            if plate.after_step(chosen).is_ok() {
                break;
            }
            chosen = random_step(plate, shares, random);
        }
    }
    chosen
}

/// Replays a random journal, and goes on after a refused step with the list
/// before it. The shapes of some of the lists are compared too.
fn replay(mut list: Vec<u8>, steps: usize, random: &mut Random, met: &mut Met) -> Vec<u8> {
    let splits = random.below(6);
    let hangs = random.below(6);
    for turn in 0..steps {
        let plate = read_list(&list).expect("the list is accepted").plate;
        let made = chosen_step(&plate, [splits, hangs], random);
        if let Ok(after) = step(&list, made, met) {
            list = after;
        }
        if turn % 150 == 149 {
            compare::shaping_longer(&list, cancelling::best);
            compare::listing(&list, cancelling::best);
        }
    }
    list
}

/// Journals of hundreds of steps on random plates of both sorts, half of them with
/// limits, half with prices, half with a remark.
#[test]
fn random_journals() {
    let count = if long_mode() { 1_500 } else { 100 };
    let (mut met, mut full, mut remarks, mut priced) = ([0; 40], 0, 0, 0);
    for seed in 0..count {
        let mut random = Random::new(21_000_000 + seed);
        let most = [2, 2, 3, 8, 64][random.below(5)];
        let plate = any_plate(most, &mut random);
        let plate = perhaps_rated(&plate, &mut random);
        priced += usize::from(!plate.prices.is_empty());
        let list = list_of(&plate, &mut random);
        remarks += usize::from(split_fields(&list).iter().any(|field| field[0] == 6));
        let steps = 150 * (1 + random.below(3));
        let list = replay(list, steps, &mut random, &mut met);
        let plate = read_list(&list).expect("the list is accepted").plate;
        full += usize::from(plate.posts == 64);
    }
    say_met(
        &format!("{count} random journals, {full} to 64 posts, {priced} with prices"),
        &met,
    );
    assert_eq!(
        met[0] + met[35] + met[36] + met[37],
        met.iter().sum::<usize>()
    );
    assert!([0, 35, 36, 37].iter().all(|&number| met[number] > 500));
    assert!(full > 5 && remarks > 5 && priced > 5);
}

/// The list after a step is that of a plate worked out by hand, its orders read
/// cyclically.
fn becomes(before: &Plate, made: Step, posts: usize, last: [usize; 2], order: &[&[usize]]) {
    let mut plate = before.clone();
    plate.posts = posts;
    if let Step::Split(strip) = made {
        plate.strips[strip][1] = before.posts;
    }
    plate.strips.push(last);
    plate.order = order.iter().map(|around| around.to_vec()).collect();
    let wanted = list_bytes(&plate, 7, None);
    let after = step(&list_bytes(before, 7, Some(b"Hi")), made, &mut [0; 40]);
    let after = after.expect("the step is made");
    let read = read_list(&after).expect("the list is accepted");
    assert_eq!(begun_as(&read, &wanted), wanted, "{made:?}");
}

/// P1, P4, E5's plate and a path, with the table after the step by hand.
#[test]
fn worked_out_by_hand() {
    let p1 = p1();
    becomes(&p1, Step::Split(0), 3, [2, 1], &[&[0, 2], &[5, 3], &[1, 4]]);
    becomes(&p1, Step::Split(1), 3, [2, 1], &[&[0, 2], &[1, 5], &[3, 4]]);
    becomes(&p1, Step::Hang(0), 3, [1, 2], &[&[0, 2], &[4, 1, 3], &[5]]);
    becomes(&p1, Step::Hang(3), 3, [0, 2], &[&[0, 4, 2], &[1, 3], &[5]]);
    becomes(&p1, Step::Join(0, 3), 2, [1, 0], &[&[0, 5, 2], &[4, 1, 3]]);
    becomes(&p1, Step::Join(3, 0), 2, [0, 1], &[&[0, 4, 2], &[5, 1, 3]]);
    becomes(&p1, Step::Join(1, 2), 2, [0, 1], &[&[4, 0, 2], &[1, 5, 3]]);
    let p4 = by_number(2, &[[0, 1]], 0);
    becomes(&p4, Step::Join(0, 1), 2, [1, 0], &[&[3, 0], &[2, 1]]);
    becomes(&p4, Step::Hang(1), 3, [0, 2], &[&[2, 0], &[1], &[3]]);
    let own = by_number(1, &[[0, 0]], 1);
    becomes(&own, Step::Split(0), 2, [1, 0], &[&[0, 3], &[1, 2]]);
    becomes(&own, Step::Hang(0), 2, [0, 1], &[&[0, 2, 1], &[3]]);
    becomes(&own, Step::Hang(1), 2, [0, 1], &[&[2, 0, 1], &[3]]);
    let path = by_number(3, &[[0, 1], [0, 2]], 1);
    let to_itself: [&[usize]; 3] = [&[4, 0, 5, 2], &[1], &[3]];
    becomes(&path, Step::Join(1, 3), 3, [0, 0], &to_itself);
}

/// P1 with limits 8 and 9 and prices 3 and 5, or with one of these fields, after
/// steps: a split gives both halves the strip's, other new strips have 255 and 1.
#[test]
fn limits_and_prices_by_hand() {
    for (made, limit, price) in [
        (Step::Split(0), 8, 3),
        (Step::Split(1), 9, 5),
        (Step::Hang(0), 255, 1),
        (Step::Hang(3), 255, 1),
        (Step::Join(0, 3), 255, 1),
        (Step::Join(2, 1), 255, 1),
    ] {
        let limits = [0x07, 0, 3, 8, 9, limit];
        let prices = [0x08, 0, 3, 3, 5, price];
        let limited = p1().within(&[8, 9]);
        for (plate, wanted) in [
            (limited.clone(), &[limits][..]),
            (p1().priced(&[3, 5]), &[prices]),
            (limited.priced(&[3, 5]), &[limits, prices]),
        ] {
            let list = list_bytes(&plate, 7, Some(b"Hi"));
            let after = step(&list, made, &mut [0; 40]).expect("the step is made");
            assert_eq!(split_fields(&after)[5..], *wanted, "{made:?}");
        }
    }
}

/// A plate of post 0 joined to so many others.
fn star(strips: usize) -> Plate {
    let ends: Vec<[usize; 2]> = (1..=strips).map(|post| [0, post]).collect();
    by_number(strips + 1, &ends, 0)
}

/// A path of so many posts.
fn path(posts: usize) -> Plate {
    let ends: Vec<[usize; 2]> = (1..posts).map(|post| [post - 1, post]).collect();
    by_number(posts, &ends, 0)
}

/// Each of these steps gets its number, or 0 where it is made, with limits and
/// without, and with prices.
fn answers(plate: &Plate, steps: &[(Step, u8)]) {
    let limited = plate.within(&vec![3; plate.strips.len()]);
    let priced = limited.priced(&vec![100; plate.strips.len()]);
    for plate in [plate.clone(), limited, priced] {
        let list = list_bytes(&plate, 7, None);
        for &(made, number) in steps {
            let given = step(&list, made, &mut [0; 40]);
            assert_eq!(given.err().unwrap_or(0), number, "{made:?} on {plate:?}");
        }
    }
}

/// Strips and darts that are not there, equal darts, and darts of two faces, also
/// where 36 or 37 would hold.
#[test]
fn not_there() {
    let steps = [
        (Step::Split(2), 35),
        (Step::Hang(4), 35),
        (Step::Join(0, 4), 35),
        (Step::Join(4, 0), 35),
        (Step::Join(0, 0), 35),
        (Step::Join(0, 1), 35),
    ];
    answers(&p1(), &steps);
    answers(&by_number(1, &[[0, 0]], 1), &[(Step::Join(0, 1), 35)]);
    answers(&star(4), &[(Step::Join(1, 1), 35)]);
    answers(&path(64), &[(Step::Split(63), 35), (Step::Hang(126), 35)]);
}

/// A fifth place where the dart ends, at the first end, at the second, at both,
/// and at one post with three places taken.
#[test]
fn fifth_place() {
    let steps = [
        (Step::Hang(1), 37),
        (Step::Join(1, 0), 37),
        (Step::Join(0, 1), 37),
        (Step::Join(1, 3), 37),
        (Step::Hang(0), 0),
        (Step::Split(0), 0),
        (Step::Join(0, 2), 0),
    ];
    answers(&star(4), &steps);
    let steps = [
        (Step::Join(1, 3), 37),
        (Step::Join(5, 1), 37),
        (Step::Join(1, 2), 0),
        (Step::Hang(1), 0),
    ];
    answers(&star(3), &steps);
    answers(&star(2), &[(Step::Join(1, 3), 0), (Step::Join(3, 1), 0)]);
}

/// Post 64 is made, post 65 is not, also where 37 would hold. A join makes no post.
#[test]
fn post_65() {
    answers(&path(63), &[(Step::Split(61), 0), (Step::Hang(0), 0)]);
    let (split, hang) = (Step::Split(0), Step::Hang(0));
    answers(&path(64), &[(split, 36), (hang, 36), (Step::Join(0, 1), 0)]);
    // A path with posts 60, 61 and 62 at its last post, 59.
    let mut strips = path(60).strips;
    strips.extend((60..63).map(|post| [59, post]));
    let full = by_number(63, &strips, 0);
    assert_eq!(full.degree(59), 4);
    answers(&full, &[(Step::Hang(116), 37), (Step::Hang(0), 0)]);
    let longer = full.after_step(Step::Hang(0)).expect("post 64 is made");
    answers(&longer, &[(Step::Hang(116), 36), (Step::Hang(1), 36)]);
}

/// A plate with 64 posts and 128 strips: every step of it that has its strip and
/// its darts is refused with 36, though 37 would hold too.
fn full_plate(plate: &Plate, random: &mut Random, met: &mut Met) {
    assert_eq!((plate.posts, plate.strips.len()), (64, 128));
    assert!((0..64).all(|post| plate.degree(post) == 4));
    let list = list_of(plate, random);
    let faces = plate.faces();
    let mut number = |made| step(&list, made, met).err();
    for strip in 0..128 {
        assert_eq!(number(Step::Split(strip)), Some(36));
    }
    for dart in 0..256 {
        assert_eq!(number(Step::Hang(dart)), Some(36));
        assert_eq!(number(Step::Join(dart, dart)), Some(35));
        let face = face_of(&faces, dart);
        for other in [plate.after(dart), random.below(256), random.below(256)] {
            let joined = other != dart && face.contains(&other);
            let wanted = if joined { 36 } else { 35 };
            assert_eq!(number(Step::Join(dart, other)), Some(wanted));
        }
    }
    assert_eq!(number(Step::Split(128)), Some(35));
    assert_eq!(number(Step::Hang(256)), Some(35));
}

#[test]
fn full_plates() {
    let mut random = Random::new(64);
    let mut met = [0; 40];
    for plate in [double_ring(64), looped_ring(64)] {
        full_plate(&plate, &mut random, &mut met);
        full_plate(&limited(&plate, &mut random), &mut random, &mut met);
        let priced = plate.priced(&random_prices(&plate, &mut random));
        full_plate(&priced, &mut random, &mut met);
    }
    say_met("full plates", &met);
    assert_eq!(met[0] + met[37], 0);
}

/// A journal from one post with one strip, with a limit and a price or without, to
/// 64 posts and 128 strips: 63 splits make a ring, and each of 64 joins goes beside
/// the next strip of it. Splits and hangs are refused once there are 64 posts.
#[test]
fn journal_to_a_full_plate() {
    for (limits, prices, length) in [
        (&[][..], &[][..], 531),
        (&[9], &[], 662),
        (&[], &[7], 662),
        (&[9], &[7], plates::LONGEST_STEPPED_LIST),
    ] {
        let mut met = [0; 40];
        let own = by_number(1, &[[0, 0]], 1).within(limits).priced(prices);
        let mut list = list_bytes(&own, 7, Some(b"own"));
        for strip in 0..63 {
            list = step(&list, Step::Split(strip), &mut met).expect("up to 64 posts");
        }
        let ring = read_list(&list).expect("the ring is accepted").plate;
        let mut at = 0;
        for _ in 0..64 {
            assert_eq!(step(&list, Step::Split(at / 2), &mut met), Err(36));
            assert_eq!(step(&list, Step::Hang(at), &mut met), Err(36));
            let plate = read_list(&list).expect("the list is accepted").plate;
            let next = Step::Join(at, plate.after(at));
            list = step(&list, next, &mut met).expect("up to 128 strips");
            at = plate.darts();
        }
        let plate = read_list(&list).expect("the list is accepted").plate;
        assert_eq!((met[0], met[36], list.len()), (127, 128, length));
        assert_eq!(ring.strips, plate.strips[..64]);
        let wanted = [vec![9; 64 * limits.len()], vec![255; 64 * limits.len()]].concat();
        assert_eq!(plate.limits, wanted);
        let wanted = [vec![7; 64 * prices.len()], vec![1; 64 * prices.len()]].concat();
        assert_eq!(plate.prices, wanted);
        full_plate(&plate, &mut Random::new(9), &mut met);
    }
}

/// Strips and darts with numbers as large as there are: 35 for each.
#[test]
fn far_numbers() {
    let mut met = [0; 40];
    for plate in [p1(), path(64), double_ring(64)] {
        let list = list_bytes(&plate, 7, None);
        for far in FAR {
            for number in [far, far & !0xff | 3] {
                let steps = [
                    Step::Split(number),
                    Step::Hang(number),
                    Step::Join(number, 0),
                    Step::Join(0, number),
                    Step::Join(number, far),
                ];
                for made in steps {
                    assert_eq!(step(&list, made, &mut met), Err(35), "{made:?}");
                }
            }
        }
    }
    say_met("far numbers", &met);
    assert_eq!(met[35], 3 * 15 * 2 * 5);
}

/// Memory of every length up to a little more than the list: 16 and nothing
/// changed, or the list and nothing changed behind it.
#[test]
fn memory() {
    let mut met = [0; 2];
    let limited = p1().within(&[1, 2]);
    let priced = [p1().priced(&[3, 5]), limited.priced(&[100, 1])];
    for plate in [p1(), limited, star(4)].into_iter().chain(priced) {
        let list = list_bytes(&plate, 7, Some(b"Hi"));
        for made in [Step::Split(1), Step::Hang(2), Step::Join(0, 3)] {
            let number = plate.after_step(made).err();
            let after = compare::stepping(&list, made).unwrap_or_default();
            for lent in 0..after.len() + 9 {
                let mut out = vec![0xee; lent];
                let given = compare::step_of_library(&list, made, &mut out);
                let given = given.map_err(plates::Refusal::number);
                let fits = number.is_none() && lent >= after.len();
                let wanted = if fits {
                    Ok(after.len())
                } else {
                    Err(number.unwrap_or(16))
                };
                assert_eq!(given, wanted);
                let written = if fits { &after[..] } else { &[] };
                assert!(out.starts_with(written));
                assert!(out[written.len()..].iter().all(|&byte| byte == 0xee));
                met[usize::from(fits)] += 1;
            }
        }
    }
    assert!(met[0] > 200 && met[1] > 60, "{met:?}");
}

/// A step of each kind with numbers that may be there.
fn three_steps(random: &mut Random) -> [Step; 3] {
    let [strip, dart, first, second] = [4, 8, 8, 8].map(|below| random.below(below));
    [
        Step::Split(strip),
        Step::Hang(dart),
        Step::Join(first, second),
    ]
}

/// Lists of each number: all three calls give it, whatever the step.
#[test]
fn refused() {
    let mut random = Random::new(35);
    for (number, list) in refused_lists() {
        let far = usize::MAX;
        let all = [Step::Split(far), Step::Hang(far), Step::Join(far, far)];
        for made in three_steps(&mut random).into_iter().chain(all) {
            assert_eq!(step(&list, made, &mut [0; 40]), Err(number), "{made:?}");
        }
    }
}

/// Damaged lists of random plates, half of them with limits, half with prices: all
/// three calls give the list's number, or a step on what is still accepted.
#[test]
fn damaged_lists() {
    let mut numbers = [[0; 40]; 3];
    for seed in 0..if long_mode() { 600 } else { 40 } {
        let mut random = Random::new(22_000_000 + seed);
        let mut plate = any_plate(3 + seed as usize % 8, &mut random);
        if seed % 2 == 0 {
            plate = limited(&plate, &mut random);
        }
        if seed % 4 < 2 {
            plate.prices = random_prices(&plate, &mut random);
        }
        let list = list_of(&plate, &mut random);
        let mut other = Random::new(seed);
        each_damaged(&list, &mut random, &mut |damaged| {
            for (met, made) in numbers.iter_mut().zip(three_steps(&mut other)) {
                let given = step(damaged, made, met).err();
                let own = read_list(damaged).err();
                assert!(own.is_none() || given == own);
            }
        });
    }
    for (name, met) in ["split", "hang", "join"].iter().zip(&numbers) {
        println!("damaged lists, {name}: by number {met:?}");
        for number in (0..=15).chain([23, 29, 35, 38]) {
            assert_eq!(met[number] == 0, number == 10, "{name} {number}");
        }
    }
}
