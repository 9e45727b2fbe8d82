//! The second program: document 01, with the limits of request 2026-01, written
//! again, from the documents alone.
//!
//! One call gets a rule file, the limits, a unit budget, the number of answers
//! wanted, scratch memory and an output buffer. It checks the file, runs its
//! query, writes whole answers and returns. The modules are the stages of a
//! call, in order:
//!
//! - `record`: the kinds and their body lengths;
//! - `reading`: a rule file is checked and becomes `rules`;
//! - `machine`: the moves of a run, over `cells` and by `matching`;
//! - `answer`: an answer is written;
//! - `call`: the whole call, the embedded form and the program's line.
//!
//! Beside them stand the makers of rule files: `assemble` (bytes from trees
//! and from a text form), `examples` and `random_programs` (good files),
//! `damage` (bad ones), and `generate` (whole cases for comparisons). `cases`
//! reads the stored table of document 01's own cases, and `boundaries` has files
//! at the limits of clauses and variables with what comes of them.

#![forbid(unsafe_code)]

pub mod answer;
pub mod assemble;
pub mod boundaries;
pub mod call;
pub mod cases;
pub mod cells;
pub mod damage;
pub mod end;
pub mod examples;
pub mod generate;
pub mod machine;
pub mod matching;
pub mod random;
pub mod random_programs;
pub mod reading;
pub mod record;
pub mod rules;
