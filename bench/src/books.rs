//! Books of entries: compared with the independent implementation, and
//! measured.

use crate::measure::{measure, Call, Effort};
use plates_tests::book::{book_bytes, Book, Entry};
use std::hint::black_box;

/// The kinds of books.
pub const KINDS: [&str; 4] = ["one model", "falling", "100 models", "all models"];

/// The results for one book, times in microseconds.
pub struct BookRow {
    pub kind: &'static str,
    pub entries: usize,
    pub current: f64,
    pub independent: f64,
}

/// A sound book. In turn each of its models gets a revision; revisions rise
/// but for the kind "falling", which has one model.
fn book_of(kind: &str, entries: usize) -> Vec<u8> {
    let models = match kind {
        "one model" | "falling" => 1,
        "100 models" => 100,
        _ => entries,
    };
    let revision = |place: usize| match kind {
        "falling" => (entries - place) as u16,
        _ => (1 + place) as u16,
    };
    let entry = |place: usize| -> Entry {
        let replaced = place.checked_sub(models).map_or(0, revision);
        [(place % models) as u16, revision(place), replaced]
    };
    book_bytes(&(0..entries).map(entry).collect::<Vec<_>>())
}

/// The library's call for model 0, and the independent reading of the book.
fn calls(bytes: &[u8]) -> [Call<'_>; 2] {
    [
        Box::new(|| {
            let revision = plates::current_revision(black_box(bytes), 0);
            let _ = black_box(revision);
        }),
        Box::new(|| {
            let revision = Book::read(black_box(bytes)).map(|book| book.current(0));
            let _ = black_box(revision);
        }),
    ]
}

/// Compares and measures books of these many entries of each kind.
pub fn rows(sizes: &[usize], effort: &Effort) -> Vec<BookRow> {
    let of_kind = |kind| sizes.iter().map(move |&entries| (kind, entries));
    let kinds: Vec<(&str, usize)> = KINDS.into_iter().flat_map(of_kind).collect();
    let books: Vec<Vec<u8>> = kinds.iter().map(|&(k, n)| book_of(k, n)).collect();
    for book in &books {
        let read = Book::read(book).expect("the book is sound");
        assert_eq!(plates::current_revision(book, 0), Ok(read.current(0)));
    }
    let mut calls: Vec<Call> = books.iter().flat_map(|book| calls(book)).collect();
    let times = measure(&mut calls, effort);
    let row = |(&(kind, entries), times): (&(&'static str, usize), &[f64])| BookRow {
        kind,
        entries,
        current: times[0],
        independent: times[1],
    };
    kinds.iter().zip(times.chunks(2)).map(row).collect()
}
