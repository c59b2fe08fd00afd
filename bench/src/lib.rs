//! Parts of the benchmark.
//!
//! - [`books`]: books of entries, compared and measured.
//! - [`plates`]: the plates, always the same ones.
//! - [`network`]: the flow network of a plate, for LEMON.
//! - [`lemon`]: calls of LEMON, where it is installed.
//! - [`measure`]: times of repeated calls.
//! - [`rows`]: what is called and compared for each plate.
//! - [`table`]: the tables that are printed.

pub mod books;
#[cfg(lemon)]
pub mod lemon;
#[cfg(not(lemon))]
#[path = "no_lemon.rs"]
pub mod lemon;
pub mod measure;
pub mod network;
pub mod plates;
pub mod rows;
pub mod table;
