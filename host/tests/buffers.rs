//! Output and scratch: what a call writes, and what it leaves as it was.

mod common;

use common::*;
use second::assemble::file;
use second::call::{embedded, Case, Limits, Memory, Outcome};
use second::generate::case;

const APPEND: &str = "app([],L,L). app([H|T],L,[H|R]) :- app(T,L,R). ?- app(X,Y,[a]).";

/// Calls a case with filled buffers, some longer than the case says.
fn filled(case: &Case, more: usize) -> (Outcome, Vec<u32>, Vec<u8>) {
    let mut scratch = vec![0xABCD_1234; case.scratch_len + more];
    let mut out = vec![0x5A; case.room + more];
    let (given_scratch, given_out) = (&mut scratch[..case.scratch_len], &mut out[..case.room]);
    let outcome = case.call(&mut Memory::default(), given_scratch, given_out);
    (outcome, scratch, out)
}

#[test]
fn an_end_wipes_the_needed_scratch_and_leaves_the_rest() {
    let file = file(APPEND);
    let limits = Limits {
        cells: 10,
        steps: 2,
        work: 8,
    };
    let needed = 64 + 2 * 70 + 4 * 10 + 8 * 2 + 4 * 8;
    let mut scratch = vec![7; needed + 5];
    let mut out = [9; 50];
    let outcome = Memory::default().call(&file, limits, 18, 9, &mut scratch, &mut out);
    assert_eq!(
        outcome,
        Outcome::Ended {
            end: 20,
            answers: 2,
            units: 18,
            bytes: 45
        }
    );
    assert!(scratch[..needed].iter().all(|&word| word == 0));
    assert_eq!(scratch[needed..], [7; 5]);
    assert_eq!(out[45..], [9; 5]);
}

#[test]
fn an_answer_that_does_not_fit_leaves_no_byte() {
    let file = file(APPEND);
    let mut scratch = vec![7; AMPLE.scratch(file.len())];
    let mut out = [9; 44];
    let mut memory = Memory::default();
    let outcome = memory.call(&file, AMPLE, 100, 9, &mut scratch, &mut out);
    assert_eq!(
        outcome,
        Outcome::Ended {
            end: 26,
            answers: 1,
            units: 14,
            bytes: 21
        }
    );
    assert_eq!(out[21..], [9; 23]);
    let mut out = [9; 20];
    memory.call(&file, AMPLE, 100, 9, &mut scratch, &mut out);
    assert_eq!(out, [9; 20]);
}

#[test]
fn each_case_keeps_to_its_buffers() {
    for seed in 0..20_000 {
        let case = case(seed);
        let (outcome, scratch, out) = filled(&case, 3);
        let (wiped, written) = match outcome {
            Outcome::Refused { .. } => (0, 0),
            Outcome::Ended { bytes, .. } => {
                let Limits { cells, steps, work } = case.limits;
                let words = 64 + 2 * case.file.len() as u32 + 4 * cells + 8 * steps + 4 * work;
                (words as usize, bytes)
            }
        };
        assert!(
            scratch[..wiped].iter().all(|&word| word == 0),
            "seed {seed}"
        );
        assert!(
            scratch[wiped..].iter().all(|&word| word == 0xABCD_1234),
            "seed {seed}"
        );
        assert!(
            out[written..].iter().all(|&byte| byte == 0x5A),
            "seed {seed}"
        );
    }
}

#[test]
fn the_written_bytes_are_the_whole_answers() {
    for seed in 0..20_000 {
        let case = case(seed);
        if let (Outcome::Ended { answers, bytes, .. }, _, out) = filled(&case, 0) {
            assert_eq!(
                step_lists(&out[..bytes]).len() as u32,
                answers,
                "seed {seed}"
            );
        }
    }
}

#[test]
fn memory_used_again_and_scratch_at_entry_change_nothing() {
    let mut memory = Memory::default();
    for seed in 0..20_000 {
        let case = case(seed);
        let (outcome, _, filled_out) = filled(&case, 0);
        let mut scratch = vec![0; case.scratch_len];
        let mut out = vec![0x5A; case.room];
        let again = case.call(&mut memory, &mut scratch, &mut out);
        assert_eq!((again, out), (outcome, filled_out), "seed {seed}");
    }
}

#[test]
fn the_embedded_form_leaves_the_rest_of_the_output() {
    let mut out = [9; 50];
    assert_eq!(embedded(&file(APPEND), 18, 9, &mut out), 20 << 32 | 45);
    assert_eq!(out[45..], [9; 5]);
    assert_eq!(embedded(&[0x08], 18, 9, &mut out[45..]), 4 << 32);
    assert_eq!(out[45..], [9; 5]);
}
