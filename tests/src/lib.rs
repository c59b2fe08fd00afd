//! An independent implementation of document 01 and of the change requests that
//! are here, for comparison with the verified library. It shares no code and no
//! algorithm with it.
//!
//! - [`book`]: books of entries by sets of revisions.
//! - [`files`]: fields, refusals, shape files, verdicts, listings, older files.
//! - [`texts`]: texts of faces by lines and items.
//! - [`plate`]: darts, rotation, faces, limits, prices, the conditions H3 and H4.
//! - [`steps`]: the editor's steps over a plain table of post orders.
//! - [`search`]: the best shape of a small plate by trying every shape.
//! - [`cancelling`]: the best shape of any plate by cancelling cycles.
//! - [`certificate`]: whether a given shape is the best one, or no shape keeps
//!   the limits.
//! - [`small`]: every plate with few strips.
//! - [`random`]: random plates from a seed.
//! - [`near`]: sound shapes near a given one.
//! - [`remembered`]: best shapes found once for many lists of one plate.
//! - [`damage`]: sound files made unsound.
//! - [`text_damage`]: the same for texts.
//! - [`compare`]: one call of the library against this implementation.
//! - [`round_trip`]: both conversions of texts, one after the other.
//!
//! `cargo test --release` runs the default mode, in seconds; with the variable
//! PLATES_LONG=1 it runs the long mode, in minutes. `-- --nocapture` prints
//! how many cases each test compared.

pub mod book;
pub mod cancelling;
pub mod certificate;
pub mod compare;
pub mod damage;
pub mod files;
pub mod near;
pub mod plate;
pub mod random;
pub mod remembered;
pub mod round_trip;
pub mod search;
pub mod small;
pub mod steps;
pub mod text_damage;
pub mod texts;

/// Whether the longer runs were asked for.
pub fn long_mode() -> bool {
    std::env::var_os("PLATES_LONG").is_some_and(|value| value == "1")
}
