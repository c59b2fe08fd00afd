//! The C header gives each refusal the same name and number as the package,
//! and a C program that includes it gets the library's answers.

use plates::Refusal;
use std::path::{Path, PathBuf};
use std::process::Command;

/// A name in capitals, with an underscore before each inner capital.
fn c_name(refusal: Refusal) -> String {
    let mut name = String::from("PLATES");
    for letter in format!("{refusal:?}").chars() {
        if letter.is_uppercase() {
            name.push('_');
        }
        name.push(letter.to_ascii_uppercase());
    }
    name
}

#[test]
fn header_has_every_refusal() {
    let header = include_str!("../../include/plates.h");
    let words: Vec<&str> = header.split_whitespace().collect();
    for refusal in Refusal::ALL {
        let number = refusal.number().to_string();
        let stands = words.windows(3).any(|w| {
            w[0] == c_name(refusal) && w[1] == "=" && w[2].trim_end_matches(',') == number
        });
        assert!(stands, "{refusal:?}");
    }
}

/// The folder of the archive, as the package `plates` finds it.
fn archive_folder(root: &Path) -> PathBuf {
    match std::env::var_os("PLATES_LIB_DIR") {
        Some(folder) => PathBuf::from(folder),
        None => root.join("target").join("staticlib"),
    }
}

/// What a C program of `tests/c` prints. `cc` is there: cargo links with it.
fn printed_by_c(name: &str) -> String {
    let package = Path::new(env!("CARGO_MANIFEST_DIR"));
    let root = package.parent().expect("the package stands in a folder");
    let program = Path::new(env!("CARGO_TARGET_TMPDIR")).join(name);
    let compiled = Command::new("cc")
        .args(["-std=c99", "-Wall", "-Wextra", "-Werror", "-I"])
        .arg(root.join("include"))
        .arg(package.join("c").join(name).with_extension("c"))
        .arg(archive_folder(root).join("libstripplates.a"))
        .arg("-o")
        .arg(&program)
        .status();
    assert!(compiled.expect("cc is installed").success());
    let ran = Command::new(&program).output().expect("it was compiled");
    assert!(ran.status.success());
    String::from_utf8(ran.stdout).expect("it prints text")
}

/// The archive asks for two names from outside; a C program that has no C library
/// must give no more. `nm` comes with the linker that `cc` calls.
#[test]
fn archive_needs_no_more_names() {
    let package = Path::new(env!("CARGO_MANIFEST_DIR"));
    let root = package.parent().expect("the package stands in a folder");
    let listed = Command::new("nm")
        .args(["--undefined-only", "--format=just-symbols"])
        .arg(archive_folder(root).join("libstripplates.a"))
        .output()
        .expect("nm is installed");
    assert!(listed.status.success());
    let text = String::from_utf8(listed.stdout).expect("it prints text");
    let names = text.lines().filter(|line| !line.is_empty() && !line.ends_with(':'));
    assert_eq!(names.collect::<Vec<_>>(), ["memcpy", "memset"]);
}

/// The expected lines are document 01's of P1; a list without its last byte is
/// refused with 5.
#[test]
fn c_program_gets_the_answers() {
    let expected = "write 0 length 24 bends 2\n\
        check 0 total 2 fewest 2 ours 1\n\
        check 5 total 0 fewest 0 ours 0\n\
        listing 0\n\
        revision 7\nbends 2\n\
        dart 0 right 0 angle 1\ndart 1 right 0 angle 3\n\
        dart 2 right 0 angle 3\ndart 3 right 2 angle 1\n";
    assert_eq!(printed_by_c("p1"), expected);
}

/// P1 with limits 1 and 1 has a bend on dart 0 and one on dart 3; with limits 0
/// and 1 it has no shape, and the memory is as before. That shape is ours within
/// 1 and 1, not within 1 and none, and passes 0.
#[test]
fn c_program_gets_the_limits() {
    let expected = "write 0 length 24 bends 2: 1 0 0 1\n\
        write 24 length 0 bends 0: 1 0 0 1\n\
        check 0 total 2 fewest 2 ours 1\n\
        check 0 total 2 fewest 2 ours 0\n\
        check 25 total 0 fewest 0 ours 0\n";
    assert_eq!(printed_by_c("limits"), expected);
}

/// P1 with prices 3 and 5 has both bends on dart 0, with 100 and 99 on dart 3. The
/// first shape is not ours where strip 1 costs 2; its sum is missing, and false
/// where strip 0 costs 4. With memory one byte short and with prices of 101 and 0
/// nothing is written.
#[test]
fn c_program_gets_the_prices() {
    let written = "02 00 00 00 16 00 04 00 00 00 06";
    let expected = format!(
        "write 0 length 31 bends 2: {written}\n\
         check 0 total 2 fewest 6 ours 1\n\
         check 0 total 2 fewest 4 ours 0\n\
         check 39 total 0 fewest 0 ours 0\n\
         check 39 total 0 fewest 0 ours 0\n\
         write 16 length 0 bends 0: {written}\n\
         write 38 length 0 bends 0: {written}\n\
         write 38 length 0 bends 0: {written}\n\
         write 0 length 31 bends 2: 00 00 00 02 16 00 04 00 00 00 c6\n\
         check 0 total 2 fewest 198 ours 1\n"
    );
    assert_eq!(printed_by_c("prices"), expected);
}

/// Model 7 has revisions 1 and 5, model 9 has 256, and model 8 is not there;
/// without its last byte the book is refused with 40.
#[test]
fn c_program_gets_the_revisions() {
    let expected = "model 7: 0 revision 5\n\
        model 9: 0 revision 256\n\
        model 8: 0 revision 0\n\
        model 9: 40 revision 0\n";
    assert_eq!(printed_by_c("book"), expected);
}

/// A shape file of one strip with its fields exchanged in pairs; then too
/// little memory, a byte cut off, and no byte.
#[test]
fn c_program_gets_the_file_in_order() {
    let expected = "0 length 20: 11 00 02 00 07 12 00 02 00 00 13 00 02 04 04 14 00 02 00 00\n\
        16 length 0:\n5 length 0:\n6 length 0:\n";
    assert_eq!(printed_by_c("older"), expected);
}

/// The text of P1 and back, with the memory just long enough and one byte
/// short. A list without its last byte is refused with 5, a text without its
/// last byte with 30, with bends both ways on strip 1 with 31, with its faces
/// exchanged, and without a byte, with 32. A shape with bends both ways on strip
/// 0 is refused with 31.
#[test]
fn c_program_gets_the_text_and_the_shape() {
    let text = "to text 0 length 26 changed 26\n1 - 3 2 11 3\n0 - 1 3 00 1\n";
    let refused = |number| format!("to text {number} length 0 changed 0\n");
    let file = "11 00 02 00 07 12 00 02 00 02 13 00 04 01 03 03 01 14 00 04 00 00 00 02";
    let back = format!("back 0 length 24 bends 2: {file} ee ee\n");
    let memory = ["ee"; 26].join(" ");
    let not_back = |number| format!("back {number} length 0 bends 0: {memory}\n");
    let mut expected = [text, text].concat() + &refused(16) + &refused(5);
    expected += &back.repeat(2);
    expected.extend([16, 30, 31, 32, 32].map(not_back));
    expected += &refused(31);
    assert_eq!(printed_by_c("texts"), expected);
}

/// P1 with limits 8 and 9: strip 0 is split, a strip is hung at the end of dart
/// 4, and it is joined to the end of dart 0, each with the memory just long enough
/// and one byte short. Refused are strip 2 and dart 6 before they are there, darts
/// 0 and 1 of two faces, and 0 and 4, which the join parted. At the end of dart 4
/// there is room for one strip more and no other. A list without its last byte is
/// refused with 5.
#[test]
fn c_program_gets_the_lists_after_steps() {
    let list = |posts, strips: &str, order: &str, limits: &str| {
        let [ends, darts, own] = [strips, order, limits].map(|s| s.split(' ').count());
        format!(
            "01 00 02 00 07 02 00 01 {posts:02x} 03 00 {ends:02x} {strips} \
             04 00 {darts:02x} {order} 05 00 01 01 07 00 {own:02x} {limits}\n"
        )
    };
    let split = list(3, "00 02 00 01 02 01", "00 02 05 03 01 04", "08 09 08");
    let hung = list(
        4,
        "00 02 00 01 02 01 01 03",
        "00 02 06 05 03 01 04 07",
        "08 09 08 ff",
    );
    let joined = list(
        4,
        "00 02 00 01 02 01 01 03 03 02",
        "00 02 06 05 03 09 01 04 08 07",
        "08 09 08 ff ff",
    );
    let again = list(
        5,
        "00 02 00 01 02 01 01 03 03 02 01 04",
        "00 02 06 0a 05 03 09 01 04 08 07 0b",
        "08 09 08 ff ff ff",
    );
    let expected = format!(
        "split 35 length 0:\nsplit 16 length 0:\nsplit 0 length 37: {split}\
         hang 35 length 0:\nhang 16 length 0:\nhang 0 length 42: {hung}\
         join 35 length 0:\njoin 16 length 0:\njoin 0 length 47: {joined}\
         join 35 length 0:\nhang 0 length 52: {again}\
         hang 37 length 0:\nsplit 5 length 0:\n"
    );
    assert_eq!(printed_by_c("steps"), expected);
}
