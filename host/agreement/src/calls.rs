//! Calls from seeds and at thresholds, and both programs on one call.
//!
//! Every buffer that the library gets lies between guards, and all of it is
//! filled with a pattern first: what a call must leave as it was still holds
//! the pattern afterwards.

use second::call::{embedded, Case, Limits, Memory, Outcome};
use second::damage::damage;
use second::end::is_end;
use second::generate::{case, good_program, Peaks};
use second::machine::Machine;
use second::random::Random;
use second::reading::read;

use crate::library::{call_parts, run_part, Part};

/// The words that a call tells its outcome in.
pub const WORDS: usize = 12;
/// The words or bytes of a guard.
const GUARD: usize = 16;

/// Everything one call gets.
#[derive(Clone, Debug)]
pub struct Call {
    pub case: Case,
    /// The length of the result.
    pub words: usize,
    /// Which pattern the buffers hold at entry.
    pub pattern: u64,
}

impl Call {
    /// A call with all of its words.
    pub fn new(case: Case) -> Call {
        Call {
            case,
            words: WORDS,
            pattern: 0,
        }
    }

    /// The call of a seed: a case near the thresholds of its file, or one with
    /// small limits.
    pub fn from_seed(seed: u64) -> Call {
        let mut random = Random::new(!seed);
        let random = &mut random;
        let case = match random.percent(65) {
            true => case(seed),
            false => small(random),
        };
        Call {
            case,
            words: random.between(0, WORDS + 2),
            pattern: random.bits(),
        }
    }
}

/// A case with limits that mostly are small.
fn small(random: &mut Random) -> Case {
    let mut file = good_program(random).bytes();
    if random.percent(10) {
        damage(random, &mut file);
    }
    let mut limits = Limits {
        cells: random.between(1, 60) as u32,
        steps: random.between(1, 30) as u32,
        work: random.between(8, 20) as u32,
    };
    match random.below(40) {
        0 => limits.cells = *random.one_of(&[0, 60_001]),
        1 => limits.steps = *random.one_of(&[0, 60_001]),
        2 => limits.work = *random.one_of(&[7, 60_001]),
        3..=9 => limits.cells = 1_000,
        10..=16 => limits.steps = 400,
        17..=30 => (limits.cells, limits.steps) = (1_000, 400),
        _ => (),
    }
    let needed = limits.scratch(file.len());
    let most = *random.one_of(&[20, 100, 3_000]);
    let room = *random.one_of(&[0, 30, 100, 400, 3_000]);
    Case {
        budget: random.between(0, most) as u32,
        wanted: *random.one_of(&[0, 1, 2, 3, 5, 10, 1_000, u32::MAX]),
        scratch_len: match random.below(20) {
            0 => needed - 1,
            1..=9 => needed,
            _ => needed + random.between(1, 9),
        },
        room: random.between(0, room),
        file,
        limits,
    }
}

/// Calls on a good file at all that one run asks for, and one below and above.
pub fn thresholds(file: &[u8], budget: u32, wanted: u32) -> Vec<Call> {
    let rules = read(file).expect("a good file");
    let mut limits = Limits {
        cells: 3_000,
        steps: 1_000,
        work: 1_000,
    };
    let mut peaks = Peaks::default();
    let mut room = vec![0; 3_000];
    let mut machine = Machine::default();
    let ended = machine.run(&rules, limits, budget, wanted, &mut room, &mut peaks);
    limits = Limits {
        cells: peaks.cells.clamp(1, limits.cells),
        steps: peaks.steps.clamp(1, limits.steps),
        work: peaks.work.clamp(8, limits.work),
    };
    let exact = Case {
        file: file.to_vec(),
        limits,
        budget: ended.units,
        wanted: ended.answers,
        scratch_len: 0,
        room: ended.bytes,
    };
    // Nothing but one number of the exact case is near its threshold.
    let ample = Case {
        limits: Limits {
            cells: limits.cells + 100,
            steps: limits.steps + 100,
            work: limits.work + 100,
        },
        budget,
        wanted,
        room: room.len(),
        ..exact.clone()
    };
    let mut cases = vec![exact.clone()];
    for of in [&exact, &ample] {
        for change in [-1, 0, 1] {
            let near = |number: u32| number.saturating_add_signed(change);
            let mut add = |set: &dyn Fn(&mut Case)| {
                let mut case = of.clone();
                set(&mut case);
                cases.push(case);
            };
            add(&|case| case.budget = near(exact.budget));
            add(&|case| case.wanted = near(exact.wanted));
            add(&|case| case.room = near(exact.room as u32) as usize);
            add(&|case| case.limits.cells = near(limits.cells));
            add(&|case| case.limits.steps = near(limits.steps));
            add(&|case| case.limits.work = near(limits.work));
        }
    }
    cases
        .into_iter()
        .map(|case| {
            let scratch_len = case.limits.scratch(case.file.len());
            Call::new(Case {
                scratch_len,
                ..case
            })
        })
        .collect()
}

/// What buffers hold at entry: a number for each place, never 0.
fn filling(pattern: u64, place: usize) -> u64 {
    let bits = (pattern ^ place as u64).wrapping_mul(0x9E37_79B9_7F4A_7C15);
    bits ^ bits >> 29 | 0x0101_0101_0101_0101
}

fn fill<T>(buffer: &mut Vec<T>, length: usize, entry: impl Fn(usize) -> T) {
    buffer.clear();
    buffer.extend((0..length + 2 * GUARD).map(entry));
}

/// The first place, counted from the start of the part, that holds something
/// else than it should.
fn wrong<T: PartialEq>(found: &[T], due: impl Fn(usize) -> T) -> Option<isize> {
    let place = (0..found.len()).find(|&place| found[place] != due(place));
    place.map(|place| place as isize - GUARD as isize)
}

/// Both programs, and buffers that are used again.
#[derive(Default)]
pub struct Both {
    memory: Memory,
    scratch: Vec<u32>,
    out: Vec<u8>,
    result: Vec<u64>,
    second_scratch: Vec<u32>,
    second_out: Vec<u8>,
}

impl Both {
    /// What both say of a call, or where they differ.
    pub fn agreed(&mut self, call: &Call) -> Result<Outcome, String> {
        let Call { case, pattern, .. } = call;
        let words = |place| filling(*pattern, place) as u32;
        let bytes = |place| filling(*pattern, place) as u8;
        let numbers = |place| filling(*pattern, place);

        let given = case.clone();
        self.second_scratch.clear();
        self.second_scratch.resize(case.scratch_len, 1);
        self.second_out.clear();
        self.second_out.resize(case.room, 1);
        let (scratch, out) = (&mut self.second_scratch, &mut self.second_out);
        let second = given.call(&mut self.memory, scratch, out);

        fill(&mut self.scratch, case.scratch_len, words);
        fill(&mut self.out, case.room, bytes);
        fill(&mut self.result, call.words, numbers);
        call_parts(
            &given,
            Part::new(&mut self.scratch, GUARD..GUARD + case.scratch_len),
            Part::new(&mut self.out, GUARD..GUARD + case.room),
            Part::new(&mut self.result, GUARD..GUARD + call.words),
        );

        let due = told(&second);
        let told = call.words.min(WORDS);
        if self.result[GUARD..GUARD + told] != due[..told] {
            let library = &self.result[GUARD..GUARD + told];
            return Err(format!("library {library:?}, second program {second:?}"));
        }
        let result = wrong(&self.result, |place| match place.checked_sub(GUARD) {
            Some(word) if word < told => due[word],
            _ => numbers(place),
        });
        let (wiped, written) = match second {
            Outcome::Refused { .. } => (0, 0),
            Outcome::Ended { bytes, .. } => (case.limits.scratch(case.file.len()), bytes),
        };
        let scratch = wrong(&self.scratch, |place| match place.checked_sub(GUARD) {
            Some(word) if word < wiped => 0,
            _ => words(place),
        });
        let out = wrong(&self.out, |place| match place.checked_sub(GUARD) {
            Some(byte) if byte < written => self.second_out[byte],
            _ => bytes(place),
        });
        for (name, wrong) in [("result", result), ("scratch", scratch), ("output", out)] {
            if let Some(place) = wrong {
                return Err(format!("{name} is wrong at {place} after {second:?}"));
            }
        }
        match given == *case {
            true => Ok(second),
            false => Err(format!("the file was changed before {second:?}")),
        }
    }

    /// The one number that both give in the embedded form, or where they
    /// differ.
    pub fn agreed_embedded(
        &mut self,
        file: &[u8],
        budget: u32,
        wanted: u32,
        room: usize,
    ) -> Result<u64, String> {
        let bytes = |place| filling(file.len() as u64, place) as u8;
        self.second_out.clear();
        self.second_out.resize(room, 1);
        let second = embedded(file, budget, wanted, &mut self.second_out);
        fill(&mut self.out, room, bytes);
        let out = Part::new(&mut self.out, GUARD..GUARD + room);
        let library = run_part(file, budget, wanted, out);
        if library != second {
            return Err(format!(
                "library {library:016X}, second program {second:016X}"
            ));
        }
        let written = match is_end(second >> 32) {
            true => (second & 0xFFFF_FFFF) as usize,
            false => 0,
        };
        let wrong = wrong(&self.out, |place| match place.checked_sub(GUARD) {
            Some(byte) if byte < written => self.second_out[byte],
            _ => bytes(place),
        });
        match wrong {
            None => Ok(second),
            Some(place) => Err(format!("output is wrong at {place} after {second:016X}")),
        }
    }
}

/// An outcome in the twelve words of a result.
pub fn told(outcome: &Outcome) -> [u64; WORDS] {
    let mut words = [0; WORDS];
    words[..5].copy_from_slice(&outcome.words());
    words
}

/// How many calls ended or were refused by each number.
#[derive(Clone, Copy, Debug, Default)]
pub struct Tally {
    pub by_number: [usize; 27],
}

impl Tally {
    pub fn add(&mut self, outcome: &Outcome) {
        self.by_number[told(outcome)[0] as usize] += 1;
    }

    pub fn calls(&self) -> usize {
        self.by_number.iter().sum()
    }
}

/// Compares on calls, each with its seed; the error names the seed.
pub fn compare(calls: impl Iterator<Item = (u64, Call)>) -> Result<Tally, String> {
    let mut both = Both::default();
    let mut tally = Tally::default();
    for (seed, call) in calls {
        let agreed = both.agreed(&call);
        let outcome =
            agreed.map_err(|difference| format!("seed {seed}: {difference}; {call:?}"))?;
        tally.add(&outcome);
    }
    Ok(tally)
}

/// The calls of the seeds from one on, each with its seed.
pub fn from_seed(first: u64) -> impl Iterator<Item = (u64, Call)> {
    (first..).map(|seed| (seed, Call::from_seed(seed)))
}
