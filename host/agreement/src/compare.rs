//! Both on one file, and on many.

use second::end::Refusal;
use second::reading;

use crate::library::{check, said};

/// What both say of a file, or where they differ.
pub fn agreed(file: &[u8]) -> Result<Result<(), Refusal>, String> {
    let (library, second) = (said(check(file)), reading::check(file));
    match library == second {
        true => Ok(second),
        false => Err(format!("library {library:?}, second program {second:?}")),
    }
}

/// How many files were good, and how many refused by each number.
#[derive(Clone, Copy, Debug, Default)]
pub struct Tally {
    pub good: usize,
    pub refused: [usize; 10],
}

impl Tally {
    /// Compares on a file and counts it.
    pub fn add(&mut self, file: &[u8]) -> Result<(), String> {
        match agreed(file)? {
            Ok(()) => self.good += 1,
            Err(refusal) => self.refused[refusal.number as usize] += 1,
        }
        Ok(())
    }

    pub fn files(&self) -> usize {
        self.good + self.refused.iter().sum::<usize>()
    }
}

/// Compares on so many files of seeds; the error names the seed.
pub fn compare(files: impl Iterator<Item = (u64, Vec<u8>)>) -> Result<Tally, String> {
    let mut tally = Tally::default();
    for (seed, file) in files {
        let added = tally.add(&file);
        added.map_err(|difference| format!("seed {seed}: {difference}"))?;
    }
    Ok(tally)
}
