//! Texts of faces (request E8): texts worked out by hand, words of up to 255
//! digits, large numbers, lines not of the form.

use plates_tests::compare;
use plates_tests::files::{file_of, list_bytes, with_limits};
use plates_tests::long_mode;
use plates_tests::plate::{by_number, p1, Plate, Shape};
use plates_tests::round_trip::Met;
use plates_tests::texts::text_of;

/// The number of a text.
fn read(list: &[u8], text: &str) -> u8 {
    Met::default().text(list, text.as_bytes())
}

/// P3 of document 01, a square.
fn p3() -> Plate {
    by_number(4, &[[0, 1], [1, 2], [2, 3], [3, 0]], 1)
}

/// P4 of document 01, one strip.
fn p4() -> Plate {
    by_number(2, &[[0, 1]], 0)
}

/// The plate's shape has this text and comes back from it, with a remark and
/// without one.
fn stands(plate: &Plate, shape: &Shape, text: &str) {
    for remark in [None, Some(&b"Hi"[..])] {
        let list = list_bytes(plate, 7, remark);
        let file = file_of(&list, shape);
        assert_eq!(compare::to_text(&list, &file), Ok(text.to_string()));
        assert_eq!(compare::from_text(&list, text.as_bytes()), Ok(file));
    }
}

#[test]
fn plates_to_try() {
    let by_ends = |ends: &[[usize; 2]], outer| {
        let posts = ends.iter().flatten().max().expect("there is a strip") + 1;
        by_number(posts, ends, outer)
    };
    let p1_text = "1 - 3 2 11 3\n0 - 1 3 00 1\n";
    stands(&p1(), &Shape::new(&[0, 0, 0, 2], &[1, 3, 3, 1]), p1_text);
    let p2 = by_ends(&[[0, 1], [1, 2], [2, 0]], 1);
    let p2_text = "1 - 3 5 1 3 3 - 3\n0 - 1 2 - 1 4 0 1\n";
    let p2_shape = Shape::new(&[0, 0, 0, 0, 1, 0], &[1, 3, 1, 3, 1, 3]);
    stands(&p2, &p2_shape, p2_text);
    let p3_text = "1 - 3 7 - 3 5 - 3 3 - 3\n0 - 1 2 - 1 4 - 1 6 - 1\n";
    let p3_shape = Shape::new(&[0; 8], &[1, 3, 1, 3, 1, 3, 1, 3]);
    stands(&p3(), &p3_shape, p3_text);
    stands(&p4(), &Shape::new(&[0, 0], &[4, 4]), "0 - 4 1 - 4\n");
    let p5 = by_ends(&[[0, 1], [0, 2], [0, 3], [0, 4]], 1);
    let p5_text = "0 - 4 1 - 1 6 - 4 7 - 1 4 - 4 5 - 1 2 - 4 3 - 1\n";
    let p5_shape = Shape::new(&[0; 8], &[4, 1, 4, 1, 4, 1, 4, 1]);
    stands(&p5, &p5_shape, p5_text);
    let p6 = by_ends(&[[0, 1], [1, 2]], 1);
    let p6_text = "0 - 2 2 - 4 3 - 2 1 - 4\n";
    stands(&p6, &Shape::new(&[0; 4], &[2, 4, 4, 2]), p6_text);
    let mut p7 = by_ends(&[[0, 1]; 3], 1);
    p7.order[1] = vec![5, 3, 1];
    let p7_text = "1 11 2 4 11 2\n0 00 1 3 - 1\n2 - 1 5 00 1\n";
    let p7_shape = Shape::new(&[2, 0, 0, 0, 0, 2], &[1, 2, 1, 1, 2, 1]);
    stands(&p7, &p7_shape, p7_text);
    let to_itself = by_ends(&[[0, 0]], 1);
    let loop_text = "1 111 3\n0 000 1\n";
    stands(&to_itself, &Shape::new(&[3, 0], &[1, 3]), loop_text);
}

/// A square with as many bends to one side on strip 0 as to the other on strip
/// 1, and one strip with so many bends.
fn long_words(digits: u32) -> [(Plate, Shape); 2] {
    let rights = [digits, 0, 0, digits, 0, 0, 0, 0];
    let square = Shape::new(&rights, &[1, 3, 1, 3, 1, 3, 1, 3]);
    [(p3(), square), (p4(), Shape::new(&[0, digits], &[4, 4]))]
}

/// Words of up to 255 digits go to text and back. Longer ones are 30 though all
/// else is sound.
#[test]
fn words_of_many_digits() {
    for digits in [1, 2, 9, 10, 127, 128, 253, 254, 255] {
        for (plate, bent) in long_words(digits) {
            let list = list_bytes(&plate, 7, Some(b"Hi"));
            let mut met = Met::default();
            assert_eq!(met.file(&list, &file_of(&list, &bent)), 0);
            let text = text_of(&plate, &bent);
            assert_eq!(met.text(&list, text.as_bytes()), 0);
            assert!(text.contains(&format!(" {} ", "0".repeat(digits as usize))));
            let limits = vec![digits as u8 - 1; plate.strips.len()];
            let limited = with_limits(&list, &limits);
            assert_eq!(met.file(&limited, &file_of(&list, &bent)), 25);
            assert_eq!(met.text(&limited, text.as_bytes()), 25);
        }
    }
    for digits in [256, 257, 300, 511, 512, 65_536, 65_791] {
        for (plate, bent) in long_words(digits) {
            let list = list_bytes(&plate, 7, None);
            assert_eq!(read(&list, &text_of(&plate, &bent)), 30);
        }
    }
}

/// A word of so many digits in place of one word alone.
#[test]
fn one_word_of_many_digits() {
    let list = list_bytes(&p4(), 7, None);
    for digit in ["0", "1"] {
        for (digits, number) in [
            (1, 32),
            (254, 32),
            (255, 32),
            (256, 30),
            (257, 30),
            (512, 30),
        ] {
            let word = digit.repeat(digits);
            assert_eq!(read(&list, &format!("0 {word} 4 1 - 4\n")), number);
            assert_eq!(read(&list, &format!("0 - 4 1 {word} 4\n")), number);
        }
        let other = if digit == "0" { "1" } else { "0" };
        for (digits, number) in [(1, 31), (254, 31), (255, 30), (256, 30)] {
            let word = digit.repeat(digits);
            assert_eq!(read(&list, &format!("0 {word}{other} 4 1 - 4\n")), number);
            assert_eq!(read(&list, &format!("0 - 4 1 {other}{word} 4\n")), number);
        }
    }
}

/// Changes to the text of one strip, "0 - 4 1 - 4\n": what is put in place of
/// what, and the number.
const CHANGES: [(&str, &str, u8); 46] = [
    ("\n", "", 30),
    ("\n", "\n\n", 30),
    ("\n", "\n ", 30),
    ("\n", " \n", 30),
    ("\n", "\r\n", 30),
    ("\n", "\r", 30),
    ("\n", "\0", 30),
    ("\n", "\n\0", 30),
    ("\n", "\n0", 30),
    ("\n", "\n0 - 4", 30),
    ("\n", "\n0 - 4 ", 30),
    ("\n", "\n0 - 4 1 - 4\n", 32),
    ("\n", "\n0 - 4\n", 32),
    ("\n", "\n0 01 4\n", 31),
    ("\n", "\n0 01 4", 30),
    ("\n", " 0 - 4\n", 32),
    ("4 1", "4\n1", 32),
    ("4 1", "4  1", 30),
    ("4 1", "4\t1", 30),
    ("4 1", "41", 30),
    ("4 1", "4\u{a0}1", 30),
    ("0 -", " 0 -", 30),
    ("0 -", "\n0 -", 30),
    ("0 -", "\u{feff}0 -", 30),
    ("0 -", "0-", 30),
    ("0 -", "00 -", 30),
    ("0 -", "+0 -", 30),
    ("0 -", "-0 -", 30),
    ("0 -", "- -", 30),
    ("0 -", "a -", 30),
    ("0 -", "٠ -", 30),
    ("0 -", "0 --", 30),
    ("0 -", "0 -0", 30),
    ("0 -", "0 0-", 30),
    ("0 -", "0 2", 30),
    ("0 -", "0 ", 30),
    ("0 -", "0 0", 32),
    ("0 -", "0 01", 31),
    ("0 -", "2 -", 32),
    ("0 -", "1 -", 32),
    ("- 4 1", "- 0 1", 30),
    ("- 4 1", "- 5 1", 30),
    ("- 4 1", "- 04 1", 30),
    ("- 4 1", "- 44 1", 30),
    ("- 4 1", "- - 1", 30),
    ("- 4 1", "- 3 1", 20),
];

#[test]
fn lines_not_of_the_form() {
    let list = list_bytes(&p4(), 7, None);
    let text = "0 - 4 1 - 4\n";
    assert_eq!(read(&list, text), 0);
    for (from, to, number) in CHANGES {
        let changed = text.replacen(from, to, 1);
        assert_ne!(changed, text);
        assert_eq!(read(&list, &changed), number, "{changed:?}");
    }
    for bytes in [&b"0 - 4 1 - 4\xa0\n"[..], b"0 \xff 4 1 - 4\n", b"\x80"] {
        assert_eq!(Met::default().text(&list, bytes), 30);
    }
}

/// The line of one strip many times, and then without its last line feed.
#[test]
fn many_lines() {
    let list = list_bytes(&p4(), 7, None);
    for times in [2, 127, 128, 129, 256, 300, 70_000] {
        let lines = "0 - 4 1 - 4\n".repeat(times);
        assert_eq!(read(&list, &lines), 32);
        assert_eq!(read(&list, lines.trim_end()), 30);
        assert_eq!(read(&list, &(lines + "0 10 4\n")), 31);
    }
}

/// Numbers that are no dart of one strip: by powers of two and ten and by
/// thousands more than a dart, small ones, and very long ones.
fn numbers_over_darts() -> Vec<String> {
    let mut numbers: Vec<String> = (2..=1_030).map(|number| number.to_string()).collect();
    for dart in 0..2_u128 {
        numbers.extend((11..127).map(|power| (dart + (1 << power)).to_string()));
        numbers.extend((4..38).map(|power| (dart + 10_u128.pow(power)).to_string()));
        numbers.extend((2..20).map(|times| (dart + 1_000 * times).to_string()));
        let zeros = [50, 255, 256, 1_000, 70_000].map(|zeros| "0".repeat(zeros));
        numbers.extend(zeros.map(|zeros| format!("1{zeros}{dart}")));
    }
    numbers
}

/// A text may have any such number; it is 32, and 30 with a leading zero.
#[test]
fn numbers_over_every_dart() {
    let list = list_bytes(&p4(), 7, None);
    let numbers = numbers_over_darts();
    for number in &numbers {
        assert_eq!(read(&list, &format!("{number} - 4 1 - 4\n")), 32);
        assert_eq!(read(&list, &format!("0 - 4 {number} - 4\n")), 32);
        assert_eq!(read(&list, &format!("0 - 4 0{number} - 4\n")), 30);
    }
    println!("numbers over every dart: {}", numbers.len());
}

/// The text of P1 with every byte changed to every value, with every value put
/// before every byte, and without every byte; cut at each length, at the front
/// and at the end.
#[test]
fn every_value_of_every_byte() {
    let list = list_bytes(&p1(), 7, None);
    let text = b"1 - 3 2 11 3\n0 - 1 3 00 1\n";
    let mut met = Met::default();
    for place in 0..=text.len() {
        let (front, end) = text.split_at(place);
        met.text(&list, front);
        met.text(&list, end);
        met.text(&list, &[front, end.get(1..).unwrap_or(&[])].concat());
        for value in 0..=255 {
            met.text(&list, &[front, &[value], end].concat());
            met.text(
                &list,
                &[front, &[value], end.get(1..).unwrap_or(&[])].concat(),
            );
        }
    }
    println!("bytes of a text: {met:?}");
    met.assert_met(&[0, 16], &[0, 16, 20, 30, 31, 32]);
}

/// Calls `visit` with every text of at most so many of the bytes that texts
/// have.
fn each_short(start: &mut Vec<u8>, more: usize, visit: &mut dyn FnMut(&[u8])) {
    visit(start);
    if more == 0 {
        return;
    }
    for &byte in b"014- \n" {
        start.push(byte);
        each_short(start, more - 1, visit);
        start.pop();
    }
}

/// Every short text against one strip: none is long enough for it, but some are
/// of the form.
#[test]
fn every_short_text() {
    let list = list_bytes(&p4(), 7, None);
    let mut met = Met::default();
    let most = if long_mode() { 8 } else { 7 };
    each_short(&mut Vec::new(), most, &mut |text| {
        met.text(&list, text);
    });
    println!("short texts: {:?}", met.back);
    met.assert_met(&[], &[30, 31, 32]);
}
