//! The programs run by hand, and those at the limits of clauses and variables,
//! by each way into the library: the whole call, the embedded form and the small
//! program.

mod common;

use agreement::library::{call, run as embedded};
use common::*;
use second::boundaries::boundaries;
use second::cases::{programs, Program, Run};
use second::end::is_end;
use std::process::Command;

/// The end or refusal number, which stands second in the line.
fn upper(run: &Run) -> u64 {
    let number = run.line.split_whitespace().nth(1).expect("a number");
    number.parse().expect("a number")
}

/// Carries out all runs of some programs, and says how many they are.
fn whole_calls(programs: &[Program]) -> usize {
    let mut runs = 0;
    for program in programs {
        for run in &program.runs {
            let mut scratch = vec![0xABCD_1234; run.case.scratch_len];
            let mut out = vec![0x5A; run.case.room];
            let mut result = [7; 12];
            call(&run.case, &mut scratch, &mut out, &mut result);
            let mut due = [0; 12];
            due[0] = upper(run);
            let words = ["at", "answers", "units", "bytes"];
            for (due, word) in due[1..].iter_mut().zip(words) {
                *due = run.number(word) as u64;
            }
            assert_eq!(result, due, "{}: {}", program.name, run.line);
            let mut bytes = run.bytes(program);
            bytes.resize(run.case.room, 0x5A);
            assert!(out == bytes, "{}: {}", program.name, run.line);
            let left = if is_end(due[0]) { 0 } else { 0xABCD_1234 };
            assert!(scratch.iter().all(|&word| word == left));
            runs += 1;
        }
    }
    runs
}

/// Those that the embedded form can carry out.
fn embedded_forms(programs: &[Program]) -> usize {
    let mut runs = 0;
    for program in programs {
        for run in program.runs.iter().filter(|run| run.is_embedded()) {
            let mut out = vec![0x5A; run.case.room];
            let number = embedded(&program.file, run.case.budget, run.case.wanted, &mut out);
            let lower = run.number("at").max(run.number("bytes")) as u64;
            assert_eq!(number, upper(run) << 32 | lower, "{}", program.name);
            let mut bytes = run.bytes(program);
            bytes.resize(run.case.room, 0x5A);
            assert!(out == bytes, "{}: {}", program.name, run.line);
            runs += 1;
        }
    }
    runs
}

/// Those that the small program can carry out.
fn small_programs(programs: &[Program], name: &str) -> usize {
    let small = compiled(C99, &path("program/pegplanet.c"), name);
    let mut runs = 0;
    for program in programs {
        for due in program.runs.iter().filter(|run| run.is_plain()) {
            let ended = run(&mut Command::new(&small), &program.file);
            let bytes = [due.line.as_bytes(), b"\n", &due.bytes(program)].concat();
            assert!(ended.stdout == bytes, "{}: {}", program.name, due.line);
            runs += 1;
        }
    }
    runs
}

#[test]
fn by_the_whole_call() {
    assert_eq!(whole_calls(&programs()), 49);
    // 12 of many facts, 15 and 9 of many variables, 28 of late ones.
    assert_eq!(whole_calls(&boundaries()), 64);
}

#[test]
fn by_the_embedded_form() {
    // All but the eleven runs that say their cells, steps or work.
    assert_eq!(embedded_forms(&programs()), 38);
    // None of many facts, and none with fewer cells.
    assert_eq!(embedded_forms(&boundaries()), 34);
}

#[test]
fn by_the_small_program() {
    assert_eq!(small_programs(&programs(), "program_cases"), 13);
    assert_eq!(small_programs(&boundaries(), "program_limits"), 34);
}
