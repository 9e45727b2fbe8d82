//! The library beside the second program.
//!
//! The library is proved code behind C functions; the second program is
//! ordinary Rust, written from the documents alone. Here both get the same
//! files and calls, and must say the same:
//!
//! - `library`: the library's functions, behind safe ones;
//! - `files`: files from seeds, and long files of several kinds;
//! - `compare`: both on one file, and on many;
//! - `calls`: calls from seeds and at thresholds, and both on one call;
//! - `memory`: calls by another process, whose buffers lie between walls;
//! - `pairs`: pairs of calls, of which the second is given no less.

pub mod calls;
pub mod compare;
pub mod files;
pub mod library;
pub mod memory;
pub mod pairs;
