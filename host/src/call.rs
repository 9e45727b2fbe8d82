//! The whole call: limits, file and scratch are tested, the file is read, its
//! query is run, and the scratch is wiped. Then the embedded form and the
//! line that the small program prints.

use crate::end::Refusal;
use crate::machine::{Ended, Machine};
use crate::reading::read_into;
use crate::rules::Rules;

/// The longest rule file.
pub const FILE: usize = 60_000;

/// The run limits: C, S and W.
#[derive(Clone, Copy, Debug, PartialEq, Eq)]
pub struct Limits {
    pub cells: u32,
    pub steps: u32,
    pub work: u32,
}

impl Limits {
    /// C and S from 1, W from 8, all to 60,000.
    pub fn in_range(&self) -> bool {
        (1..=60_000).contains(&self.cells)
            && (1..=60_000).contains(&self.steps)
            && (8..=60_000).contains(&self.work)
    }

    /// The words of scratch that a file of this length needs.
    pub fn scratch(&self, file: usize) -> usize {
        64 + 2 * file + 4 * self.cells as usize + 8 * self.steps as usize + 4 * self.work as usize
    }
}

/// What a call returns.
#[derive(Clone, Copy, Debug, PartialEq, Eq)]
pub enum Outcome {
    Refused {
        number: u32,
        place: usize,
    },
    Ended {
        end: u32,
        answers: u32,
        units: u32,
        bytes: usize,
    },
}

impl Outcome {
    /// End or refusal, place, answers, units, bytes; 0 for what it has not.
    pub fn words(&self) -> [u64; 5] {
        match *self {
            Outcome::Refused { number, place } => [number.into(), place as u64, 0, 0, 0],
            Outcome::Ended {
                end,
                answers,
                units,
                bytes,
            } => [end.into(), 0, answers.into(), units.into(), bytes as u64],
        }
    }
}

impl From<Refusal> for Outcome {
    fn from(refusal: Refusal) -> Outcome {
        Outcome::Refused {
            number: refusal.number,
            place: refusal.place,
        }
    }
}

impl From<Ended> for Outcome {
    fn from(ended: Ended) -> Outcome {
        Outcome::Ended {
            end: ended.end.number(),
            answers: ended.answers,
            units: ended.units,
            bytes: ended.bytes,
        }
    }
}

/// Memory that calls use one after the other. It changes no result.
#[derive(Debug, Default)]
pub struct Memory {
    rules: Rules,
    machine: Machine,
}

impl Memory {
    /// The whole call.
    pub fn call(
        &mut self,
        file: &[u8],
        limits: Limits,
        budget: u32,
        wanted: u32,
        scratch: &mut [u32],
        out: &mut [u8],
    ) -> Outcome {
        let read =
            tested(file, limits, scratch.len()).and_then(|()| read_into(file, &mut self.rules));
        if let Err(refusal) = read {
            return refusal.into();
        }
        let ended = self
            .machine
            .run(&self.rules, limits, budget, wanted, out, &mut ());
        scratch[..limits.scratch(file.len())].fill(0);
        ended.into()
    }
}

/// Refusals 1, 2 and 3, in that order, before a byte is read.
fn tested(file: &[u8], limits: Limits, scratch: usize) -> Result<(), Refusal> {
    let number = if !limits.in_range() {
        1
    } else if file.len() > FILE {
        2
    } else if scratch < limits.scratch(file.len()) {
        3
    } else {
        return Ok(());
    };
    Err(Refusal { number, place: 0 })
}

/// Everything one call gets. Scratch and output are given by their lengths.
#[derive(Clone, Debug, PartialEq, Eq)]
pub struct Case {
    pub file: Vec<u8>,
    pub limits: Limits,
    pub budget: u32,
    pub wanted: u32,
    pub scratch_len: usize,
    pub room: usize,
}

impl Case {
    /// A call with exactly the scratch that it needs, and 1,000 each for budget,
    /// wanted number and room.
    pub fn new(file: &[u8], limits: Limits) -> Case {
        Case {
            file: file.to_vec(),
            limits,
            budget: 1_000,
            wanted: 1_000,
            scratch_len: limits.scratch(file.len()),
            room: 1_000,
        }
    }

    /// The whole call.
    pub fn call(&self, memory: &mut Memory, scratch: &mut [u32], out: &mut [u8]) -> Outcome {
        let (limits, budget, wanted) = (self.limits, self.budget, self.wanted);
        memory.call(&self.file, limits, budget, wanted, scratch, out)
    }
}

/// The limits of the embedded form.
pub const EMBEDDED: Limits = Limits {
    cells: 1_000,
    steps: 400,
    work: 200,
};
/// The longest rule file of the embedded form, its scratch, and the most
/// output that counts as room.
pub const EMBEDDED_FILE: usize = 4_000;
pub const EMBEDDED_SCRATCH: usize = 16_064;
pub const EMBEDDED_ROOM: usize = 4_000_000_000;

/// A call as the embedded form makes it.
fn embedded_call(file: &[u8], budget: u32, wanted: u32, out: &mut [u8]) -> Outcome {
    if file.len() > EMBEDDED_FILE {
        return Outcome::Refused {
            number: 2,
            place: 0,
        };
    }
    let mut scratch = [0; EMBEDDED_SCRATCH];
    let room = out.len().min(EMBEDDED_ROOM);
    let (memory, out) = (&mut Memory::default(), &mut out[..room]);
    memory.call(file, EMBEDDED, budget, wanted, &mut scratch, out)
}

/// The embedded form: end or refusal in the upper half; in the lower the
/// bytes written after an end, the place after a refusal.
pub fn embedded(file: &[u8], budget: u32, wanted: u32, out: &mut [u8]) -> u64 {
    match embedded_call(file, budget, wanted, out) {
        Outcome::Refused { number, place } => u64::from(number) << 32 | place as u64,
        Outcome::Ended { end, bytes, .. } => u64::from(end) << 32 | bytes as u64,
    }
}

/// The small program: its line, and then the answer bytes.
pub fn program(file: &[u8]) -> Vec<u8> {
    let mut out = [0; 1_000];
    let outcome = embedded_call(file, 1_000, 1_000, &mut out);
    let [.., bytes] = outcome.words();
    [line(&outcome).as_bytes(), &out[..bytes as usize]].concat()
}

/// The program's line, closed by byte 0A.
pub fn line(outcome: &Outcome) -> String {
    match *outcome {
        Outcome::Refused { number, place } => format!("refused {number} at {place}\n"),
        Outcome::Ended {
            end,
            answers,
            units,
            bytes,
        } => {
            let small = match end {
                23..=25 => " limits too small",
                _ => "",
            };
            format!("end {end} answers {answers} units {units} bytes {bytes}{small}\n")
        }
    }
}
