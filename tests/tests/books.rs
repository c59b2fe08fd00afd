//! Books of entries: every small book, random ones whole and damaged, and long
//! ones.

use plates_tests::book::{book_bytes, Book, Entry};
use plates_tests::compare::hex;
use plates_tests::long_mode;
use plates_tests::random::Random;

/// How many calls met each refusal; at 0, how many were answered.
type Met = [usize; 43];

/// Compares the answers for these models.
fn compare(bytes: &[u8], models: &[u16], met: &mut Met) {
    let read = Book::read(bytes);
    for &model in models {
        let wanted = match &read {
            Ok(book) => Ok(book.current(model)),
            Err(number) => Err(*number),
        };
        let given = plates::current_revision(bytes, model).map_err(plates::Refusal::number);
        assert_eq!(given, wanted, "model {model} in {}", hex(bytes));
        met[usize::from(wanted.err().unwrap_or(0))] += 1;
    }
}

/// Prints how many were met, and holds that there were some of each.
fn say_met(what: &str, met: &Met) {
    let counts = [0, 40, 41, 42].map(|number| met[number]);
    println!("{what}: {counts:?} calls answered 0, 40, 41, 42");
    assert!(counts.iter().all(|&count| count > 100), "too few of one");
}

/// Every entry of these models with revisions up to `most`.
fn small_entries(models: &[u16], most: u16) -> Vec<Entry> {
    let mut entries = Vec::new();
    for &model in models {
        for revision in 0..=most {
            entries.extend((0..=most).map(|replaced| [model, revision, replaced]));
        }
    }
    entries
}

/// Calls `visit` with every book of `count` of these entries.
fn each_book(entries: &[Entry], count: usize, visit: &mut dyn FnMut(&[Entry])) {
    let mut places = vec![0; count];
    loop {
        let book: Vec<Entry> = places.iter().map(|&place| entries[place]).collect();
        visit(&book);
        let Some(next) = places.iter().rposition(|&place| place + 1 < entries.len()) else {
            return;
        };
        places[next] += 1;
        places[next + 1..].fill(0);
    }
}

/// Every book of up to four entries, in the long mode five, of models 0 and 300
/// with revisions up to 2, and of model 7 with revisions up to 3, each whole
/// and with one to five bytes less.
#[test]
fn every_small_book() {
    let longest = if long_mode() { 5 } else { 4 };
    let mut met = [0; 43];
    for (models, most) in [(&[0, 300][..], 2), (&[7][..], 3)] {
        let entries = small_entries(models, most);
        for count in 0..=longest {
            each_book(&entries, count, &mut |book| {
                let bytes = book_bytes(book);
                compare(&bytes, &[0, 7, 300], &mut met);
                for length in bytes.len().saturating_sub(5)..bytes.len() {
                    compare(&bytes[..length], &[0], &mut met);
                }
            });
        }
    }
    say_met("small books", &met);
}

/// A book without refusal, of these many models: each entry goes on from the
/// last one of its model. Revisions rise, but for the last `loose` entries,
/// which have random ones.
fn sound_book(random: &mut Random, count: usize, models: usize, loose: usize) -> Vec<Entry> {
    let mut book: Vec<Entry> = Vec::new();
    while book.len() < count {
        let model = (random.below(models) * 251) as u16;
        let revision = match book.len() + loose < count {
            true => 1 + book.len() as u16 * 2,
            false => 1 + random.below(65535) as u16,
        };
        let mut of_model = book.iter().filter(|entry| entry[0] == model);
        if of_model.clone().all(|entry| entry[1] != revision) {
            let last = of_model.next_back().map_or(0, |entry| entry[1]);
            book.push([model, revision, last]);
        }
    }
    book
}

/// The book with each byte changed, and cut at each length.
fn damage_bytes(random: &mut Random, bytes: &[u8], met: &mut Met) {
    for place in 0..bytes.len() {
        let mut changed = bytes.to_vec();
        changed[place] ^= 1 + random.below(255) as u8;
        compare(&changed, &[251], met);
        compare(&bytes[..place], &[251], met);
    }
}

/// The book with each entry left out, doubled, put elsewhere, or with the
/// revision or the replaced revision of another one.
fn damage_entries(random: &mut Random, book: &[Entry], met: &mut Met) {
    for place in 0..book.len() {
        let other = random.below(book.len());
        let mut books = vec![book.to_vec(); 5];
        books[0].remove(place);
        books[1].insert(place, book[place]);
        books[2].swap(place, other);
        books[3][place][1] = book[other][1];
        books[4][place][2] = book[other][2];
        for damaged in books {
            compare(&book_bytes(&damaged), &[251], met);
        }
    }
}

/// Random sound books, answered for each model, and damaged.
#[test]
fn random_books() {
    let books = if long_mode() { 5000 } else { 200 };
    let mut random = Random::new(13);
    let mut whole = [0; 43];
    let mut damaged = [0; 43];
    for _ in 0..books {
        let count = random.below(40);
        let loose = [0, 3, count][random.below(3)];
        let book = sound_book(&mut random, count, 5, loose);
        let bytes = book_bytes(&book);
        compare(&bytes, &[0, 251, 502, 753, 1004, 1255], &mut whole);
        damage_bytes(&mut random, &bytes, &mut damaged);
        damage_entries(&mut random, &book, &mut damaged);
    }
    assert_eq!(whole[0], 6 * books, "sound books are accepted");
    say_met("damaged books", &damaged);
}

/// Books of thousands of entries, whole, with a last entry that has a fault,
/// and with one in the middle that has one.
#[test]
fn long_books() {
    let mut random = Random::new(14);
    for (models, loose) in [(1, 0), (1, 40), (250, 0), (250, 4000)] {
        let mut met = [0; 43];
        let book = sound_book(&mut random, 4000, models, loose);
        compare(&book_bytes(&book), &[0, 251, 1], &mut met);
        assert_eq!(met[0], 3);
        for place in [1999, 3999] {
            let mut again = book.clone();
            let first = again[0];
            again[place] = [first[0], first[1], book[place][2]];
            compare(&book_bytes(&again), &[0], &mut met);
        }
        assert_eq!(met[41], 2, "a revision already listed");
        compare(&book_bytes(&book)[..23999], &[0], &mut met);
        assert_eq!(met[40], 1);
    }
}
