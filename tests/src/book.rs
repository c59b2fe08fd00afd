//! Books of entries (request E13): of each model the revisions listed, and
//! those of them that no entry has replaced, as sets; the current one is the
//! only one of the second. A refusal is its number.

use std::collections::{BTreeMap, BTreeSet};

/// Model, revision, revision replaced.
pub type Entry = [u16; 3];

/// The bytes of a book.
pub fn book_bytes(entries: &[Entry]) -> Vec<u8> {
    let words = entries.iter().flatten();
    words.flat_map(|word| word.to_be_bytes()).collect()
}

#[derive(Default)]
struct Revisions {
    listed: BTreeSet<u16>,
    kept: BTreeSet<u16>,
}

impl Revisions {
    /// The revision that no entry replaces; none where none is listed.
    fn current(&self) -> Option<u16> {
        let expected = usize::from(!self.listed.is_empty());
        assert_eq!(
            self.kept.len(),
            expected,
            "exactly one where there are some"
        );
        self.kept.first().copied()
    }

    /// Takes an entry in, or refuses it.
    fn add(&mut self, revision: u16, replaced: u16) -> Result<(), u8> {
        if revision == 0 || self.listed.contains(&revision) {
            return Err(41);
        }
        if replaced != self.current().unwrap_or(0) {
            return Err(42);
        }
        self.listed.insert(revision);
        self.kept.insert(revision);
        self.kept.remove(&replaced);
        Ok(())
    }
}

/// The revisions of each model of an accepted book.
pub struct Book(BTreeMap<u16, Revisions>);

impl Book {
    pub fn read(bytes: &[u8]) -> Result<Book, u8> {
        let mut models: BTreeMap<u16, Revisions> = BTreeMap::new();
        for entry in bytes.chunks(6) {
            let [a, b, c, d, e, f] = *entry else {
                return Err(40);
            };
            let of_model = models.entry(u16::from_be_bytes([a, b])).or_default();
            of_model.add(u16::from_be_bytes([c, d]), u16::from_be_bytes([e, f]))?;
        }
        Ok(Book(models))
    }

    /// The current revision of a model, or none where it is not in the book.
    pub fn current(&self, model: u16) -> Option<u16> {
        self.0.get(&model).and_then(Revisions::current)
    }
}
