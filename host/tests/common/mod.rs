//! What the tests share: bytes from text, and calls with ample buffers.
#![allow(dead_code)]

use second::call::{Case, Limits, Memory, Outcome};

/// Limits that no small case reaches.
pub const AMPLE: Limits = Limits {
    cells: 500,
    steps: 300,
    work: 100,
};

/// What a call needs beside its file.
#[derive(Clone, Copy)]
pub struct Settings {
    pub limits: Limits,
    pub budget: u32,
    pub wanted: u32,
    pub room: usize,
}

pub const SETTINGS: Settings = Settings {
    limits: AMPLE,
    budget: 10_000,
    wanted: 1_000,
    room: 10_000,
};

/// A call, with its outcome and the bytes written.
pub fn called(case: &Case) -> (Outcome, Vec<u8>) {
    let mut scratch = vec![0; case.scratch_len];
    let mut out = vec![0; case.room];
    let outcome = case.call(&mut Memory::default(), &mut scratch, &mut out);
    let [.., written] = outcome.words();
    out.truncate(written as usize);
    (outcome, out)
}

/// A call with exactly the scratch it needs; the outcome and the bytes written.
pub fn run(file: &[u8], settings: Settings) -> (Outcome, Vec<u8>) {
    called(&Case {
        budget: settings.budget,
        wanted: settings.wanted,
        room: settings.room,
        ..Case::new(file, settings.limits)
    })
}

/// The end, the answers and the units of a run that was not refused.
pub fn ended(file: &[u8], settings: Settings) -> (u32, u32, u32) {
    match run(file, settings).0 {
        Outcome::Ended {
            end,
            answers,
            units,
            ..
        } => (end, answers, units),
        refused => panic!("{refused:?}"),
    }
}

/// The number and the place of a refusal.
pub fn refused(file: &[u8]) -> (u32, usize) {
    match run(file, SETTINGS).0 {
        Outcome::Refused { number, place } => (number, place),
        ended => panic!("{ended:?}"),
    }
}

/// The step lists of the answers in some output, read by the body lengths.
pub fn step_lists(out: &[u8]) -> Vec<Vec<u16>> {
    let mut lists = Vec::new();
    let mut at = 0;
    while at < out.len() {
        match out[at] {
            0x0A => {
                lists.push(Vec::new());
                at += 5;
            }
            0x0C => {
                let step = u16::from_be_bytes([out[at + 1], out[at + 2]]);
                lists.last_mut().expect("an answer is open").push(step);
                at += 3;
            }
            0x0D => at += 1,
            _ => at += 3,
        }
    }
    lists
}
