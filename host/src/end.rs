//! How a run ends, and how a file is refused.

/// The end of a run, with document 01's number.
#[derive(Clone, Copy, Debug, PartialEq, Eq)]
pub enum End {
    NoMoreAnswers = 20,
    WantedReached = 21,
    Budget = 22,
    Cells = 23,
    Steps = 24,
    Work = 25,
    OutputFull = 26,
}

impl End {
    pub fn number(self) -> u32 {
        self as u32
    }
}

/// Whether a number is that of an end: 20 to 26, and 29 of document 02. Every
/// other number but 0 is a refusal's.
pub fn is_end(number: u64) -> bool {
    matches!(number, 20..=26 | 29)
}

/// Why a file is refused, and the place of the record at fault.
#[derive(Clone, Copy, Debug, PartialEq, Eq)]
pub struct Refusal {
    pub number: u32,
    pub place: usize,
}
