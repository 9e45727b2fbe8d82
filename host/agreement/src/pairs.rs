//! Pairs of calls with one file, of which the second is given no less (request
//! 2026-14): what the first wrote is the beginning of what the second writes,
//! and a first that came to 20 is met again in all that is told and written.

use second::call::{Case, Memory, Outcome};
use second::end::is_end;
use second::random::Random;

use crate::calls::{Call, WORDS};
use crate::library::{call, run};

/// What a call may be given more of.
#[derive(Clone, Copy, Debug, PartialEq, Eq)]
pub enum Part {
    Cells,
    Steps,
    Work,
    Budget,
    Wanted,
    Room,
}

pub const PARTS: [Part; 6] = [
    Part::Cells,
    Part::Steps,
    Part::Work,
    Part::Budget,
    Part::Wanted,
    Part::Room,
];

/// A call, and one that is given more of these parts and less of none.
#[derive(Clone, Debug)]
pub struct Pair {
    pub first: Case,
    pub second: Case,
    pub raised: Vec<Part>,
}

impl Pair {
    /// The pair of a seed. Mostly one part alone is raised, by one or by more,
    /// and often the one that stops the first call in the second program.
    pub fn from_seed(seed: u64) -> Pair {
        let first = Call::from_seed(seed).case;
        let mut random = Random::new(seed.wrapping_mul(6));
        let random = &mut random;
        let mut second = first.clone();
        let raised = match (random.below(10), stopping(&first)) {
            (0..=4, Some(part)) => vec![part],
            (0..=7, _) => vec![*random.one_of(&PARTS)],
            _ => PARTS.into_iter().filter(|_| random.percent(50)).collect(),
        };
        for &part in &raised {
            let most = *random.one_of(&[1, 1, 1, 10, 10, 100, 1_000]);
            let by = match random.percent(5) {
                true => 60_000,
                false => random.between(1, most),
            };
            raise(&mut second, part, by);
        }
        if second.limits.in_range() {
            let needed = second.limits.scratch(second.file.len());
            second.scratch_len = match random.below(50) {
                0 => needed - 1,
                more => needed + more % 5,
            };
        }
        Pair {
            first,
            second,
            raised,
        }
    }
}

/// What stops a call in the second program, if anything does.
fn stopping(case: &Case) -> Option<Part> {
    let (mut scratch, mut out) = (vec![0; case.scratch_len], vec![0; case.room]);
    let outcome = case.call(&mut Memory::default(), &mut scratch, &mut out);
    let Outcome::Ended { end, .. } = outcome else {
        return None;
    };
    match end {
        21 => Some(Part::Wanted),
        22 => Some(Part::Budget),
        23 => Some(Part::Cells),
        24 => Some(Part::Steps),
        25 => Some(Part::Work),
        26 => Some(Part::Room),
        _ => None,
    }
}

fn raise(case: &mut Case, part: Part, by: usize) {
    let number = match part {
        Part::Cells => &mut case.limits.cells,
        Part::Steps => &mut case.limits.steps,
        Part::Work => &mut case.limits.work,
        Part::Budget => &mut case.budget,
        Part::Wanted => &mut case.wanted,
        Part::Room => return case.room += by,
    };
    *number = number.saturating_add(by as u32);
}

/// The two forms of a call.
#[derive(Clone, Copy, Debug, PartialEq, Eq)]
pub enum Form {
    Whole,
    Embedded,
}

/// What the library said of a call.
#[derive(Clone, Debug, PartialEq, Eq)]
pub struct Said {
    /// The end or refusal.
    pub number: u64,
    /// The words of the result, or the one number of the embedded form.
    pub told: Vec<u64>,
    /// The bytes written.
    pub bytes: Vec<u8>,
}

impl Form {
    /// Calls the library. The embedded form takes file, budget, wanted number
    /// and room of the case.
    pub fn call(self, case: &Case) -> Said {
        let mut out = vec![0x5A; case.room];
        let (number, told, written) = match self {
            Form::Whole => {
                let mut scratch = vec![0xABCD_1234; case.scratch_len];
                let mut result = vec![7; WORDS];
                call(case, &mut scratch, &mut out, &mut result);
                (result[0], result.clone(), result[4])
            }
            Form::Embedded => {
                let packed = run(&case.file, case.budget, case.wanted, &mut out);
                (packed >> 32, vec![packed], packed & 0xFFFF_FFFF)
            }
        };
        out.truncate(if is_end(number) { written as usize } else { 0 });
        Said {
            number,
            told,
            bytes: out,
        }
    }

    /// What of the promise a second call breaks, which was given no less. The
    /// whole call can be refused for its limits or its scratch, the embedded
    /// form for its file alone.
    pub fn broken(self, first: &Said, second: &Said) -> Option<&'static str> {
        if !is_end(first.number) || !is_end(second.number) {
            let kept = match self {
                Form::Whole => !is_end(first.number) || matches!(second.number, 1 | 3),
                Form::Embedded => first == second,
            };
            return (!kept).then_some("it is refused for something else");
        }
        if !second.bytes.starts_with(&first.bytes) {
            return Some("other bytes come first");
        }
        // Answers and units, which the embedded form does not tell.
        if self == Form::Whole && (2..=3).any(|word| second.told[word] < first.told[word]) {
            return Some("it has fewer answers or units");
        }
        (first.number == 20 && first != second).then_some("the end 20 is not the same")
    }
}
