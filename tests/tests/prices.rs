//! Prices of bends (request E12): shapes that are known without a solver, and
//! where 38 and 39 stand among the other numbers.

use plates::{check_shape, write_shape, Refusal, Verdict};
use plates_tests::cancelling;
use plates_tests::compare::{self, refused};
use plates_tests::damage::{refused_lists, split_fields, with_bytes};
use plates_tests::files::{
    file_of, list_bytes, read_list, shape_bytes, with_limits, with_prices, with_remark, with_sum,
};
use plates_tests::plate::{by_number, p1, Plate, Shape};
use plates_tests::random::{any_plate, double_ring, list_of, looped_ring, random_prices, Random};
use plates_tests::remembered::cancel_once;
use plates_tests::round_trip::Met;
use plates_tests::search;
use plates_tests::texts::text_of;

/// The number of the check, and that of the text; 31 is none of the check.
fn judged(list: &[u8], shape: &[u8]) -> u8 {
    let number = check_shape(list, shape).map_or_else(Refusal::number, |_| 0);
    assert_eq!(compare::checking(list, shape, cancel_once), number);
    let text = Met::default().file(list, shape);
    assert!(text == number || text == 31 && number == 0);
    number
}

/// The library's shape file for a list.
fn library_writes(list: &[u8]) -> (Vec<u8>, u32) {
    let mut out = [0; plates::LONGEST_SHAPE];
    let shape = write_shape(list, &mut out).expect("some shape keeps the limits");
    (out[..shape.length].to_vec(), shape.bends)
}

/// The verdict on a shape against the plate's list.
fn verdict(plate: &Plate, shape: &Shape) -> Verdict {
    let list = list_bytes(plate, 7, None);
    let file = file_of(&list, shape);
    assert_eq!(judged(&list, &file), 0);
    check_shape(&list, &file).expect("the shape is sound")
}

/// The plate has this best shape with this sum, it is judged so, and its file
/// ends with the sum. Mixed words are tried on fewer than five strips.
fn written(plate: &Plate, rights: &[u32], angles: &[u32], sum: u32) {
    let list = list_bytes(plate, 7, None);
    let shape = Shape::new(rights, angles);
    let file = file_of(&list, &shape);
    let written = library_writes(&list);
    assert_eq!(compare::hex(&written.0), compare::hex(&file));
    assert_eq!(written.1, shape.bends());
    assert_eq!(file.len(), 16 + 4 * plate.strips.len() + 7);
    let end = [&[0x16, 0, 4][..], &sum.to_be_bytes()].concat();
    assert!(file.ends_with(&end), "{}", compare::hex(&file));
    let sound = Verdict {
        total: shape.bends(),
        fewest: sum,
        ours: true,
    };
    assert_eq!(verdict(plate, &shape), sound);
    for best in [search::best, cancelling::best] {
        assert_eq!(best(plate).as_ref(), Some(&shape), "{plate:?}");
    }
    if plate.strips.len() < 5 {
        assert_eq!(search::best_with_words(plate).as_ref(), Some(&shape));
    }
}

/// A sound shape that is not ours: its own sum, and the least one.
fn not_ours(plate: &Plate, shape: &Shape, sum: u32, fewest: u32) {
    assert_eq!(plate.sum(&shape.rights), sum);
    let sound = Verdict {
        total: shape.bends(),
        fewest,
        ours: false,
    };
    assert_eq!(verdict(plate, shape), sound);
}

/// P1 needs two bends in all, on darts 0 and 3: both are on the cheaper strip.
/// With equal prices the fewer on dart 0 the better.
#[test]
fn p1_with_prices() {
    for prices in [[1, 1], [1, 2], [2, 1], [99, 100], [100, 99], [100, 100]] {
        let [first, second] = prices.map(u32::from);
        let on_first = if first < second { 2 } else { 0 };
        let rights = [on_first, 0, 0, 2 - on_first];
        let plate = p1().priced(&prices);
        written(&plate, &rights, &[1, 3, 3, 1], 2 * first.min(second));
        let one_each = Shape::new(&[1, 0, 0, 1], &[1, 3, 3, 1]);
        not_ours(&plate, &one_each, first + second, 2 * first.min(second));
    }
}

/// The bend of P2, the triangle, goes to the cheapest strip, the last of them.
#[test]
fn p2_with_prices() {
    let p2 = by_number(3, &[[0, 1], [1, 2], [2, 0]], 1);
    for (prices, bent) in [
        ([1, 2, 3], 0),
        ([2, 1, 3], 1),
        ([3, 2, 1], 2),
        ([1, 1, 2], 1),
        ([1, 2, 1], 2),
        ([5, 5, 5], 2),
        ([100, 100, 99], 2),
        ([99, 100, 100], 0),
    ] {
        let mut rights = [0; 6];
        rights[2 * bent] = 1;
        let plate = p2.priced(&prices);
        written(&plate, &rights, &[1, 3, 1, 3, 1, 3], prices[bent].into());
    }
}

/// Where no bend is needed, or no strip can be chosen, prices change no more
/// than the sum.
#[test]
fn no_choice() {
    let p3 = by_number(4, &[[0, 1], [1, 2], [2, 3], [3, 0]], 1);
    for prices in [[1; 4], [100; 4], [1, 2, 3, 100]] {
        written(&p3.priced(&prices), &[0; 8], &[1, 3, 1, 3, 1, 3, 1, 3], 0);
    }
    let path = by_number(3, &[[0, 1], [1, 2]], 1).priced(&[7, 100]);
    written(&path, &[0; 4], &[2, 4, 4, 2], 0);
    let own = by_number(1, &[[0, 0]], 1);
    written(&own.priced(&[1]), &[3, 0], &[1, 3], 3);
    written(&own.priced(&[100]), &[3, 0], &[1, 3], 300);
    let mut nested = by_number(1, &[[0, 0]; 2], 1);
    nested.order = vec![vec![0, 2, 3, 1]];
    written(&nested.priced(&[2, 30]), &[5, 0, 3, 0], &[1; 4], 100);
    written(&nested.priced(&[30, 2]), &[5, 0, 3, 0], &[1; 4], 156);
}

/// P7 of document 01, three strips between two posts.
fn p7() -> Plate {
    let mut p7 = by_number(2, &[[0, 1]; 3], 1);
    p7.order = vec![vec![0, 2, 4], vec![5, 3, 1]];
    p7
}

/// The four bends of P7 are two on each outer strip. Where one of these is dear
/// all four are on the other one, and two more lead over the middle one.
#[test]
fn more_bends_for_less() {
    let angles = [1, 2, 1, 1, 2, 1];
    let four = Shape::new(&[2, 0, 0, 0, 0, 2], &angles);
    let dear = p7().priced(&[1, 1, 100]);
    written(&dear, &[4, 0, 2, 0, 0, 0], &angles, 6);
    not_ours(&dear, &four, 202, 6);
    let dear = p7().priced(&[100, 1, 1]);
    written(&dear, &[0, 0, 0, 2, 0, 4], &angles, 6);
    not_ours(&dear, &four, 202, 6);
    // Not where the middle strip is dear too.
    written(&p7().priced(&[1, 100, 100]), &four.rights, &angles, 202);
}

/// With these prices two bends on the first strip of P7 cost as much as two on
/// the middle one and two more on the last one. The total decides, though the
/// other shape has the smaller right bends.
#[test]
fn total_decides() {
    let angles = [1, 2, 1, 1, 2, 1];
    for prices in [[2, 1, 1], [41, 40, 1], [100, 1, 99], [100, 50, 50]] {
        let [first, middle, last] = prices.map(u32::from);
        assert_eq!(first, middle + last);
        let sum = 2 * first + 2 * last;
        let plate = p7().priced(&prices);
        written(&plate, &[2, 0, 0, 0, 0, 2], &angles, sum);
        for more in 1..=2 {
            let rights = [2 - more, 0, 0, more, 0, 2 + more];
            not_ours(&plate, &Shape::new(&rights, &angles), sum, sum);
        }
    }
}

/// Four strips between posts 0 and 1, the third with post 2 on it. Of six bends
/// from outside some lead over the first strip, as many less two over the second,
/// the others over the last. With three, four and five of them on the first the
/// sums are equal, and only with four post 2 is straight: it decides, though the
/// total is less with three.
#[test]
fn straight_post_decides() {
    let mut plate = by_number(3, &[[0, 1], [0, 1], [0, 2], [2, 1], [0, 1]], 1);
    plate.order = vec![vec![0, 2, 4, 8], vec![9, 7, 3, 1], vec![5, 6]];
    let shape = |first: u32, inner: u32| {
        let rights = [first, 0, first - 2, 0, 0, 0, 0, 0, 0, 6 - first];
        Shape::new(&rights, &[1, 1, 1, 1, 4 - inner, 1, 1, inner, 1, 1])
    };
    for prices in [[1, 1, 1, 1, 2], [30, 70, 1, 1, 100], [1, 99, 2, 3, 100]] {
        let priced = plate.priced(&prices);
        let [first, second, last] = [0, 1, 4].map(|strip| u32::from(prices[strip]));
        let sum = 4 * first + 2 * second + 2 * last;
        let straight = shape(4, 2);
        assert_eq!((straight.bends(), plate.cornered(&straight.angles)), (8, 0));
        written(&priced, &straight.rights, &straight.angles, sum);
        for (cornered, bends) in [(shape(3, 1), 7), (shape(5, 3), 9)] {
            assert_eq!(
                (cornered.bends(), plate.cornered(&cornered.angles)),
                (bends, 1)
            );
            not_ours(&priced, &cornered, sum, sum);
        }
    }
    // Without prices the seven bends come first, two of them on the first strip.
    let best = search::best(&plate).expect("the plate has no limits");
    assert_eq!(best.rights, [2, 0, 0, 0, 0, 0, 0, 1, 0, 4]);
}

/// The cheapest shape within the limits, whose strips are not the cheap ones.
#[test]
fn within_limits() {
    let angles = [1, 3, 3, 1];
    for (limits, prices, first, sum) in [
        ([1, 255], [1, 5], 1, 6),
        ([0, 255], [1, 100], 0, 200),
        ([2, 0], [100, 1], 2, 200),
        ([255, 255], [2, 3], 2, 4),
        ([255, 1], [9, 8], 1, 17),
    ] {
        let plate = p1().within(&limits).priced(&prices);
        written(&plate, &[first, 0, 0, 2 - first], &angles, sum);
    }
    for limits in [[0, 0], [0, 1], [1, 0]] {
        let plate = p1().within(&limits).priced(&[1, 100]);
        assert_eq!(refused(&list_bytes(&plate, 7, None)), 24);
    }
}

/// Field 08 of every length: over 128 bytes it is refused with 4, else with 38
/// where it has not one byte for each strip.
#[test]
fn every_length() {
    let mut random = Random::new(38);
    let mut met = [0; 40];
    let path: Vec<[usize; 2]> = (0..63).map(|post| [post, post + 1]).collect();
    let paths = [1, 2, 3, 63].map(|strips| by_number(strips + 1, &path[..strips], 0));
    for plate in paths.into_iter().chain([64, 32].map(double_ring)) {
        let strips = plate.strips.len();
        let list = list_bytes(&plate, 7, Some(b"Hi"));
        for length in (0..=130).chain([255, 256, 257, 1000, 65_535]) {
            let any = (0..length).map(|_| 1 + random.below(100) as u8).collect();
            for content in [vec![1; length], vec![100; length], any] {
                let number = refused(&with_prices(&list, &content));
                let wanted = match length {
                    129.. => 4,
                    _ if length == strips => 0,
                    _ => 38,
                };
                assert_eq!(number, wanted, "{length} prices of {strips} strips");
                met[usize::from(number)] += 1;
            }
        }
    }
    println!(
        "field 08 of every length: {} with 0, {} with 38",
        met[0], met[38]
    );
    assert_eq!([met[0], met[38], met[4]], [18, 6 * 3 * 128, 6 * 3 * 7]);
}

/// Every price at every place of P2: 1 to 100 are read, others are 38.
#[test]
fn every_price() {
    let p2 = by_number(3, &[[0, 1], [1, 2], [2, 0]], 1);
    let list = list_bytes(&p2, 7, None);
    for place in 0..3 {
        for price in 0..=255 {
            let mut prices = [50; 3];
            prices[place] = price;
            let read = (1..=100).contains(&price);
            let priced = with_prices(&list, &prices);
            assert_eq!(refused(&priced), if read { 0 } else { 38 });
            if read {
                let sum = u32::from(price.min(50));
                let file = library_writes(&priced).0;
                assert!(file.ends_with(&sum.to_be_bytes()));
            }
        }
    }
    for prices in [[0, 0, 0], [101, 1, 0], [255; 3], [1, 0, 101]] {
        assert_eq!(refused(&with_prices(&list, &prices)), 38);
    }
}

/// Field 08 cut gives 1 or 5, twice gives 3, and before another field 29. Field
/// 09 is none.
#[test]
fn cut_and_doubled() {
    let list = with_limits(&list_bytes(&p1(), 7, Some(b"Hi")), &[2, 2]);
    let priced = with_prices(&list, &[3, 5]);
    for (length, number) in [(0, 0), (1, 1), (2, 1), (3, 5), (4, 5), (5, 0)] {
        assert_eq!(refused(&priced[..list.len() + length]), number);
    }
    assert_eq!(refused(&with_prices(&priced, &[3, 5])), 3);
    assert_eq!(refused(&with_prices(&priced, &[])), 3);
    assert_eq!(refused(&[&priced[..], &[9, 0, 0]].concat()), 2);
    let fields = split_fields(&priced);
    for place in 0..fields.len() - 1 {
        let mut moved = fields.clone();
        moved.insert(place, fields[fields.len() - 1].clone());
        moved.pop();
        assert_eq!(refused(&moved.concat()), 29, "before field {place}");
    }
    // A length over 128 is told before the content that is not there.
    assert_eq!(refused(&[&list[..], &[8, 0, 129]].concat()), 4);
    assert_eq!(refused(&[&list[..], &[8, 0, 128]].concat()), 5);
}

/// 38 comes after each of 6 to 15 and after 23, and before 24 and 16.
#[test]
fn among_the_numbers_of_the_plate() {
    for (number, list) in refused_lists() {
        assert_eq!(refused(&list), number);
        if !(6..=15).contains(&number) && number != 23 {
            continue;
        }
        for prices in [
            &[][..],
            &[0],
            &[1],
            &[1, 1],
            &[1, 2, 3],
            &[101; 5],
            &[1; 128],
        ] {
            let priced = with_prices(&list, prices);
            assert_eq!(refused(&priced), number);
            assert_eq!(judged(&priced, &[]), number);
        }
        assert_eq!(refused(&with_prices(&list, &[0; 129])), 4);
    }
    let list = list_bytes(&p1(), 7, None);
    for (limits, prices, number) in [
        (&[0][..], &[1, 1][..], 23),
        (&[0], &[1], 23),
        (&[0, 0], &[1], 38),
        (&[0, 0], &[1, 0], 38),
        (&[0, 0], &[101, 1], 38),
        (&[0, 0], &[1, 1], 24),
        (&[1, 1], &[1, 1], 0),
    ] {
        let priced = with_prices(&with_limits(&list, limits), prices);
        assert_eq!(refused(&priced), number);
        let of_check = if number == 24 || number == 0 {
            6
        } else {
            number
        };
        assert_eq!(judged(&priced, &[]), of_check);
    }
}

/// P1 with a bend on dart 0 and one on dart 3, prices 3 and 5 and limits of one
/// bend: the list, and the shape file with its sum, which is 8.
fn p1_files() -> (Vec<u8>, Vec<u8>) {
    let list = list_bytes(&p1().within(&[1, 1]).priced(&[3, 5]), 7, None);
    let file = vec![
        0x11, 0, 2, 0, 7, 0x12, 0, 2, 0, 2, 0x13, 0, 4, 1, 3, 3, 1, 0x14, 0, 4, 1, 0, 0, 1, //
        0x16, 0, 4, 0, 0, 0, 8,
    ];
    assert_eq!(library_writes(&list), (file.clone(), 2));
    (list, file)
}

/// The sum absent, false by one in each byte and by other amounts, of another
/// length, doubled, cut, before another field, and there though the list has no
/// prices.
#[test]
fn sums() {
    let (list, file) = p1_files();
    assert_eq!(judged(&list, &file), 0);
    let bare = &file[..24];
    assert_eq!(judged(&list, bare), 39);
    for byte in 0..4 {
        for other in [1, 255, 128] {
            let mut changed = file.clone();
            changed[27 + byte] = changed[27 + byte].wrapping_add(other);
            assert_eq!(judged(&list, &changed), 39);
        }
    }
    for sum in [0, 2, 6, 7, 9, 10, 16, 255, 256, u32::MAX] {
        assert_eq!(judged(&list, &with_sum(bare, &sum.to_be_bytes())), 39);
    }
    for length in (0..=130).chain([255, 256, 257, 65_535]) {
        let number = if length == 4 { 39 } else { 4 };
        assert_eq!(judged(&list, &with_sum(bare, &vec![0; length])), number);
    }
    for (length, number) in [(24, 39), (25, 1), (26, 1), (27, 5), (30, 5), (31, 0)] {
        assert_eq!(judged(&list, &file[..length]), number);
    }
    assert_eq!(judged(&list, &with_sum(&file, &[0, 0, 0, 8])), 3);
    for place in [0, 5, 10, 17] {
        let moved = [&bare[..place], &file[24..], &bare[place..]].concat();
        assert_eq!(judged(&list, &moved), 29);
    }
    for content in [&b""[..], b"Hi", &[0x16; 80]] {
        assert_eq!(judged(&list, &with_remark(&file, content)), 0);
        assert_eq!(judged(&list, &with_remark(bare, content)), 39);
    }
    let behind = [&file[..], &[0x15, 0, 0]].concat();
    assert_eq!(judged(&list, &behind), 29);
    for plate in [p1(), p1().within(&[1, 1])] {
        let list = list_bytes(&plate, 7, None);
        assert_eq!(judged(&list, bare), 0);
        for sum in [0, 2, 8] {
            assert_eq!(judged(&list, &with_sum(bare, &[0, 0, 0, sum])), 39);
        }
    }
}

/// 39 comes after each number of the check, 25 the last of them, with a false
/// sum and with none; then come 31 and 16.
#[test]
fn after_the_numbers_of_the_shape() {
    let (list, file) = p1_files();
    let changed = |bytes: &[(usize, u8)]| with_bytes(&file, bytes);
    let shorter = [&file[..17], &[0x14, 0, 3, 0, 0, 0][..]].concat();
    for (number, sound) in [
        (6, file[..17].to_vec()),
        (17, shorter),
        (18, changed(&[(4, 8)])),
        (19, changed(&[(13, 0)])),
        (20, changed(&[(13, 2)])),
        (21, changed(&[(20, 2)])),
        (22, changed(&[(9, 3)])),
        (25, changed(&[(20, 2), (23, 0)])),
        (39, changed(&[(30, 9)])),
    ] {
        let fields: Vec<Vec<u8>> = split_fields(&sound);
        let bare: Vec<Vec<u8>> = fields.into_iter().filter(|f| f[0] != 0x16).collect();
        let bare = bare.concat();
        for file in [
            sound,
            bare.clone(),
            with_sum(&bare, &[0; 4]),
            with_sum(&bare, &[255; 4]),
        ] {
            assert_eq!(judged(&list, &file), number);
        }
    }
    // A shape that bends strip 0 both ways: 39 before 31, and both before 16.
    let plate = p1().priced(&[3, 5]);
    let list = list_bytes(&plate, 7, None);
    let mixed = file_of(&list, &Shape::new(&[1, 1, 0, 2], &[1, 3, 3, 1]));
    assert!(mixed.ends_with(&[0, 0, 0, 16]));
    let mut false_sum = mixed.clone();
    false_sum[30] = 15;
    for (number, file) in [(31, &mixed[..]), (39, &false_sum), (39, &mixed[..24])] {
        for lent in [0, plates::LONGEST_TEXT] {
            let text = plates::write_text(&list, file, &mut vec![0; lent]);
            assert_eq!(text.map_err(Refusal::number), Err(number));
        }
        assert_eq!(compare::to_text(&list, file), Err(number));
    }
}

/// A text's way back gains the sum where the list has prices, memory and all; it
/// never tells 39.
#[test]
fn texts_gain_the_sum() {
    let text = b"1 1 3 2 1 3\n0 0 1 3 0 1\n";
    let (list, file) = p1_files();
    assert_eq!(
        compare::to_text(&list, &file).as_deref(),
        Ok("1 1 3 2 1 3\n0 0 1 3 0 1\n")
    );
    assert_eq!(compare::from_text(&list, text).as_ref(), Ok(&file));
    for lent in 0..40 {
        let mut out = vec![0xee; lent];
        let back = plates::read_text(&list, text, &mut out).map(|s| (s.length, s.bends));
        let fits = lent >= 31;
        assert_eq!(back.ok(), fits.then_some((31, 2)));
        let length = if fits { 31 } else { 0 };
        assert_eq!(out[..length], file[..length]);
        assert!(out[length..].iter().all(|&byte| byte == 0xee));
    }
    let unpriced = list_bytes(&p1().within(&[1, 1]), 7, None);
    assert_eq!(
        compare::from_text(&unpriced, text).as_deref(),
        Ok(&file[..24])
    );
    // Not the best one: the sum is that of its own bends.
    let other = b"1 - 3 2 11 3\n0 - 1 3 00 1\n";
    let list = list_bytes(&p1().priced(&[3, 5]), 7, None);
    let file = compare::from_text(&list, other).expect("the text is sound");
    assert!(file.ends_with(&[0x14, 0, 4, 0, 0, 0, 2, 0x16, 0, 4, 0, 0, 0, 10]));
}

/// The program that puts older files in order knows neither field: 2, wherever
/// they stand, and never another number for their length or for their place.
#[test]
fn unknown_to_the_old_walk() {
    let (list, file) = p1_files();
    for (file, tag) in [(&list, 0x08), (&file, 0x16)] {
        assert_eq!(compare::ordering(file), Err(2));
        let mut fields = split_fields(file);
        let priced = fields.pop().expect("the file has fields");
        assert_eq!(priced[0], tag);
        assert_eq!(compare::ordering(&fields.concat()), Ok(fields.concat()));
        for content in [&[][..], &[1], &[1, 1], &[0, 0, 0, 8], &[1; 128], &[1; 129]] {
            let head = [tag, 0, content.len() as u8];
            for place in 0..=fields.len() {
                let mut fields = fields.clone();
                fields.insert(place, [&head, content].concat());
                // The tag decides which file it is.
                assert_eq!(compare::ordering(&fields.concat()), Err(2));
            }
            let doubled = [&file[..], &head, content].concat();
            assert_eq!(compare::ordering(&doubled), Err(2));
        }
    }
}

/// The same price everywhere, and 255 everywhere as limits, change neither angles
/// nor right bends; the file is longer by its sum.
#[test]
fn one_price_for_all() {
    let mut random = Random::new(1_200);
    for price in [1, 2, 50, 100] {
        for _ in 0..40 {
            let plate = any_plate(20, &mut random);
            let strips = plate.strips.len();
            let free = library_writes(&list_bytes(&plate, 7, None));
            let priced = plate.priced(&vec![price; strips]);
            let sum = free.1 * u32::from(price);
            let file = with_sum(&free.0, &sum.to_be_bytes());
            for plate in [priced.clone(), priced.within(&vec![255; strips])] {
                let list = list_bytes(&plate, 7, None);
                assert_eq!(library_writes(&list), (file.clone(), free.1));
            }
        }
    }
}

/// On plates of 128 strips each strip has its own price: one that is dearer than
/// the others by one adds its bends to the sum, and the sum without them is false.
#[test]
fn each_strip_of_the_largest_plates() {
    let mut bent = 0;
    for plate in [double_ring(64), looped_ring(64)] {
        let free = cancelling::best(&plate).expect("the plate has no limits");
        for (strip, bends) in free.by_strip().into_iter().enumerate() {
            let mut prices = vec![20; 128];
            prices[strip] = 21;
            let list = list_bytes(&plate.priced(&prices), 7, None);
            let bare = file_of(&list_bytes(&plate, 7, None), &free);
            let sum = 20 * free.bends() + bends;
            for (sum, number) in [(sum, 0), (sum + 1, 39), (sum - 1, 39)] {
                let file = with_sum(&bare, &sum.to_be_bytes());
                assert_eq!(compare::checking(&list, &file, cancel_once), number);
            }
            compare::shaping_longer(&list, cancel_once);
            bent += usize::from(bends > 0);
        }
    }
    println!("each strip of the largest plates: {bent} of 256 have bends");
    assert!(bent > 0);
}

/// The greatest sums: a price of 100 and as many bends both ways as a file can
/// tell. The check counts them all.
#[test]
fn greatest_sums() {
    let path: Vec<[usize; 2]> = (0..63).map(|post| [post, post + 1]).collect();
    let mut greatest = 0;
    for plate in [double_ring(64), looped_ring(64), by_number(64, &path, 0)] {
        let mut shape = cancelling::best(&plate).expect("the plate has no limits");
        for both in shape.rights.chunks_mut(2) {
            let more = 255 - both[0].max(both[1]);
            both.iter_mut().for_each(|right| *right += more);
        }
        let list = list_bytes(&plate.priced(&vec![100; plate.strips.len()]), 7, None);
        let file = file_of(&list, &shape);
        let sum = 100 * shape.bends();
        assert!(file.ends_with(&sum.to_be_bytes()));
        assert_eq!(judged(&list, &file), 0);
        for byte in 0..4 {
            for other in [1, 255] {
                let mut changed = file.clone();
                let place = file.len() - 4 + byte;
                changed[place] = changed[place].wrapping_add(other);
                assert_eq!(compare::checking(&list, &changed, cancel_once), 39);
            }
        }
        greatest = greatest.max(sum);
    }
    println!("greatest sum: {greatest}");
    assert!(greatest > 6_000_000);
}

/// The longest list, with every field as long as it can be: 64 posts, 128
/// strips, a remark of 80 bytes. Its shape file is the longest written.
#[test]
fn longest_list() {
    let mut random = Random::new(876);
    for plate in [double_ring(64), looped_ring(64)] {
        let best = cancel_once(&plate).expect("the plate has no limits");
        let limits: Vec<u8> = best.by_strip().iter().map(|&bends| bends as u8).collect();
        let prices = random_prices(&plate, &mut random);
        for limits in [vec![255; 128], limits] {
            let plate = plate.within(&limits).priced(&prices);
            let list = list_bytes(&plate, 0xffff, Some(&[0x5a; 80]));
            assert_eq!(list.len(), 876);
            assert_eq!(compare::shaping(&list, cancel_once), 0);
            compare::listing(&list, cancel_once);
            let (file, _) = library_writes(&list);
            assert_eq!((file.len(), plates::LONGEST_SHAPE), (535, 535));
            assert_eq!(judged(&list, &file), 0);
            let read = read_list(&list).expect("the list is accepted");
            let text = text_of(
                &plate,
                &cancel_once(&read.plate).expect("it keeps the limits"),
            );
            assert_eq!(compare::from_text(&list, text.as_bytes()), Ok(file));
            // Any byte more is cut off a field, or a tag that was met.
            assert_eq!(refused(&[&list[..], &[8]].concat()), 1);
            assert_eq!(refused(&with_prices(&list, &prices)), 3);
        }
    }
}

/// One price changed at a time: as it rises no bend comes to its strip, and some
/// leave it.
#[test]
fn dearer_strips() {
    let mut moved = 0;
    for seed in 0..60 {
        let mut random = Random::new(38_000 + seed);
        let plate = any_plate(12, &mut random);
        let mut plate = plate.priced(&random_prices(&plate, &mut random));
        let strip = random.below(plate.strips.len());
        let mut before: Option<Shape> = None;
        for price in [1, 2, 3, 10, 50, 100] {
            plate.prices[strip] = price;
            let list = list_of(&plate, &mut random);
            assert_eq!(compare::shaping(&list, cancel_once), 0);
            let shape = cancel_once(&plate).expect("the plate has no limits");
            let read = read_list(&list).expect("the list is accepted");
            assert_eq!(judged(&list, &shape_bytes(&read, &shape)), 0);
            if let Some(before) = &before {
                let (old, new) = (before.by_strip()[strip], shape.by_strip()[strip]);
                assert!(new <= old && plate.sum(&shape.rights) <= plate.sum(&before.rights));
                moved += usize::from(new < old);
            }
            before = Some(shape);
        }
    }
    println!("dearer strips: {moved} times bends left the strip");
    assert!(moved > 20);
}
