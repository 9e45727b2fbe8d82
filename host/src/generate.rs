//! Whole cases from a seed: a rule file, limits, budget, answers wanted,
//! scratch and room.
//!
//! A good file is run first with ample limits. What that run asked for gives
//! the thresholds at which its end changes, and the case is put at, just
//! below or just above some of them.

use crate::assemble::{program, Program};
use crate::call::{Case, Limits, FILE};
use crate::damage::{at_limit, damage, levels};
use crate::end::End;
use crate::examples::*;
use crate::machine::{Machine, Watch};
use crate::random::Random;
use crate::random_programs::*;
use crate::reading::{read, CLAUSES, LEVELS};

/// The case of a seed.
pub fn case(seed: u64) -> Case {
    let mut random = Random::new(seed);
    let random = &mut random;
    let file = match random.below(1000) {
        0..=9 => {
            let over = random.below(2);
            at_limit(random, over)
        }
        10..=699 => good_program(random).bytes(),
        _ => damaged(random),
    };
    let mut case = tuned(random, file);
    spoil(random, &mut case);
    case
}

fn damaged(random: &mut Random) -> Vec<u8> {
    let mut file = match random.percent(4) {
        true => levels(random.between(LEVELS - 1, LEVELS + 2)),
        false => good_program(random).bytes(),
    };
    for _ in 0..*random.one_of(&[1, 1, 1, 1, 2, 3]) {
        damage(random, &mut file);
    }
    file
}

/// A good program: a known one or a random one, maybe with cuts put in and
/// its clauses in another order.
pub fn good_program(random: &mut Random) -> Program {
    let mut good = match random.below(100) {
        0..=44 => known_program(random),
        45..=49 => bare_or_full(random),
        50..=57 => {
            let levels = random.between(1, LEVELS);
            wide_and_deep(random, levels)
        }
        58..=60 => {
            let most = *random.one_of(&[20, 20, 20, 200, 200, CLAUSES, CLAUSES]);
            match random.between(1, most) {
                facts if facts > CLAUSES / 2 => large_table(random, facts),
                facts => fact_table(random, facts),
            }
        }
        61..=64 => random_program(random, LARGE),
        65..=67 => meeting_variables(random),
        _ => random_program(random, SMALL),
    };
    if random.percent(25) {
        add_cuts(random, &mut good);
    }
    if random.percent(15) {
        shuffle_clauses(random, &mut good);
    }
    good
}

fn known_program(random: &mut Random) -> Program {
    let text = match random.below(15) {
        0 => split(random.between(0, 30)),
        1 => split_in_three(random.between(0, 6)),
        2 => naive_reverse(random.between(0, 12)),
        3 => permutations(random.between(0, 5)),
        4 => walks(&random_edges(random)),
        5 => numbers(),
        6 => sums(random.between(0, 30)),
        7 => powers_of_two(random.between(0, 6)),
        8 => shared(random.between(1, 15)),
        9 => shared_answer(random.between(1, 15)),
        10 => shared_inside_itself(random.between(1, 15)),
        11 => bars(random.between(0, 8)),
        12 => shared_by_two(random.between(1, 15)),
        13 => bars_without_two_rests(random.between(0, 6)),
        _ => split(random.between(0, 4)),
    };
    program(&text)
}

fn random_edges(random: &mut Random) -> Vec<(usize, usize)> {
    let nodes = random.between(1, 6);
    let cycles = random.percent(40);
    let edge = |random: &mut Random| {
        let (one, other) = (random.below(nodes), random.below(nodes));
        match cycles {
            true => (one, other),
            false => (one.min(other), one.max(other) + 1),
        }
    };
    (0..random.between(1, 10)).map(|_| edge(random)).collect()
}

/// What a run asked for in all.
#[derive(Clone, Debug, Default)]
pub struct Peaks {
    pub cells: u32,
    pub steps: u32,
    pub work: u32,
    pub units: u32,
    /// Units spent and bytes written after each answer.
    pub answers: Vec<(u32, usize)>,
    /// Whether the run came to its own end.
    pub finished: bool,
}

impl Watch for Peaks {
    fn cells(&mut self, asked: u32) {
        self.cells = self.cells.max(asked);
    }
    fn steps(&mut self, asked: u32) {
        self.steps = self.steps.max(asked);
    }
    fn work(&mut self, asked: u32) {
        self.work = self.work.max(asked);
    }
    fn answer(&mut self, units: u32, bytes: usize) {
        self.answers.push((units, bytes));
    }
}

impl Peaks {
    fn bytes(&self) -> usize {
        self.answers.last().map_or(0, |answer| answer.1)
    }
}

/// Runs a good file with ample limits; a bad one asks for nothing.
fn probe(random: &mut Random, file: &[u8]) -> Peaks {
    let ample = Limits {
        cells: 3_000,
        steps: 1_000,
        work: 1_000,
    };
    let budget = *random.one_of(&[100, 300, 1_000, 1_000, 3_000, 3_000, 10_000]);
    let wanted = *random.one_of(&[1, 5, 20, 100, 1_000]);
    let mut room = vec![0; *random.one_of(&[100, 500, 3_000])];
    let mut peaks = Peaks::default();
    if let Ok(rules) = read(file) {
        let mut machine = Machine::default();
        let ended = machine.run(&rules, ample, budget, wanted, &mut room, &mut peaks);
        peaks.units = ended.units;
        peaks.finished = ended.end == End::NoMoreAnswers;
    }
    peaks
}

/// A case for this file whose limits are near what its run asks for.
fn tuned(random: &mut Random, file: Vec<u8>) -> Case {
    let peaks = probe(random, &file);
    let mut case = Case {
        limits: Limits {
            cells: peaks.cells.max(1) + random.below(3) as u32,
            steps: peaks.steps.max(1) + random.below(3) as u32,
            work: peaks.work.max(8) + random.below(3) as u32,
        },
        budget: peaks.units + random.below(3) as u32,
        wanted: (peaks.answers.len() + random.below(3)) as u32,
        room: peaks.bytes() + random.below(8),
        scratch_len: 0,
        file,
    };
    if peaks.finished && random.percent(10) {
        case.budget = u32::MAX - random.below(2) as u32;
        case.wanted = u32::MAX - random.below(2) as u32;
    }
    for _ in 0..*random.one_of(&[0, 1, 1, 1, 1, 2, 3]) {
        tighten(random, &mut case, &peaks);
    }
    case.scratch_len = case.limits.scratch(case.file.len());
    case
}

/// Puts one number of the case near a threshold.
fn tighten(random: &mut Random, case: &mut Case, peaks: &Peaks) {
    let some_answer = match peaks.answers.is_empty() || random.percent(50) {
        true => (peaks.units, peaks.bytes()),
        false => *random.one_of(&peaks.answers),
    };
    let limits = &mut case.limits;
    match random.below(8) {
        0..=2 if peaks.work > 8 => limits.work = near(random, peaks.work).clamp(8, 60_000),
        0 | 3 => limits.cells = near(random, peaks.cells).clamp(1, 60_000),
        1 | 4 => limits.steps = near(random, peaks.steps).clamp(1, 60_000),
        2 | 5 => case.wanted = near(random, peaks.answers.len() as u32),
        6 => case.budget = near(random, some_answer.0),
        _ => case.room = near(random, some_answer.1 as u32) as usize,
    }
}

/// At a threshold, one below, one above, or anywhere below.
fn near(random: &mut Random, threshold: u32) -> u32 {
    match random.below(5) {
        0 => threshold.saturating_sub(1),
        1 => threshold,
        2 => threshold + 1,
        _ => random.between(0, threshold as usize) as u32,
    }
}

/// Makes some cases ones that are refused before the file is read, gives some
/// more scratch than they need, and a few the widest limits.
fn spoil(random: &mut Random, case: &mut Case) {
    match random.below(1000) {
        0..=14 => bad_limit(random, &mut case.limits),
        15..=34 => case.scratch_len = case.scratch_len.saturating_sub(random.between(1, 3)),
        35 => case.scratch_len = 0,
        36..=39 => too_long(random, case),
        40 => widest(case),
        41..=240 => case.scratch_len += random.between(1, 16),
        _ => return,
    }
    if random.percent(10) {
        spoil(random, case);
    }
}

fn bad_limit(random: &mut Random, limits: &mut Limits) {
    let large = [60_001, 65_536, u32::MAX];
    let high = *random.one_of(&large);
    match random.below(6) {
        0 => limits.cells = 0,
        1 => limits.cells = high,
        2 => limits.steps = 0,
        3 => limits.steps = high,
        4 => limits.work = random.below(8) as u32,
        _ => limits.work = high,
    }
}

/// More bytes than a file may have, with or without scratch for them.
fn too_long(random: &mut Random, case: &mut Case) {
    case.file.resize(FILE + random.between(1, 3), 0);
    if random.percent(50) && case.limits.in_range() {
        case.scratch_len = case.limits.scratch(case.file.len());
    }
}

fn widest(case: &mut Case) {
    case.limits = Limits {
        cells: 60_000,
        steps: 60_000,
        work: 60_000,
    };
    case.scratch_len = case.limits.scratch(case.file.len());
}
