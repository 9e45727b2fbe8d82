//! The programs run by hand, with the figures of documents 01 and 02, and those
//! at the limits of clauses and variables.

mod common;

use common::*;
use second::assemble::file;
use second::boundaries::boundaries;
use second::call::{embedded, line, program, Outcome};
use second::cases::{programs, Program};

fn a() -> Program {
    programs().remove(0)
}

/// Carries out all runs of some programs, and says how many they are.
fn every_run(programs: &[Program]) -> usize {
    let mut runs = 0;
    for program in programs {
        for due in &program.runs {
            let (outcome, out) = called(&due.case);
            assert_eq!(
                line(&outcome),
                format!("{}\n", due.line),
                "{}",
                program.name
            );
            assert_eq!(out, due.bytes(program), "{}: {}", program.name, due.line);
            runs += 1;
        }
    }
    runs
}

#[test]
fn every_run_of_the_table() {
    assert_eq!(every_run(&programs()), 49);
}

#[test]
fn every_run_at_the_limits_of_clauses_and_variables() {
    // 12 of many facts, 15 and 9 of many variables, 28 of late ones.
    assert_eq!(every_run(&boundaries()), 64);
}

#[test]
fn the_text_form_gives_the_files_of_the_table() {
    let texts = [
        "app([],L,L). app([H|T],L,[H|R]) :- app(T,L,R). ?- app(X,Y,[a]).",
        "p :- a1, a2. a1 :- b. a1. a2. ?- p.",
        "q(a,b). q(Z,c) :- r(Z). r(c). ?- q(X,Y).",
        "eq(V,V). ?- eq(X,f(X)).",
        "a(X) :- b(X), !. a(two). b(one). b(two). ?- a(X).",
        "a(X) :- b(X). a(two). b(one). b(two). ?- a(X).",
        "?- .",
        "a(X) :- b(X). a(two). b(one). b(two). ?- a(X), !.",
        "a(X) :- b(X). a(two). b(one). b(two). ?- !, a(X).",
        "a(X) :- b(X). a(two). b(one). b(two). ?- a(X), !, !.",
        "a(X) :- b(X). a(two). b(one). b(two). ?- b(X), !, b(Y).",
        "b(one). b(two). c(two). ?- b(X), !, c(X).",
        "p(V,one). p(f(V,V,V,V,V,V,V,V),X) :- !, q(X). q(two). ?- p(f(one,one,one,one,one,one,one,one),X).",
    ];
    for (program, text) in programs().iter().zip(texts) {
        assert_eq!(file(text), program.file, "{}", program.name);
    }
}

#[test]
fn the_embedded_form_packs_two_numbers() {
    let mut out = [0; 100];
    assert_eq!(embedded(&a().file, 1_000, 1_000, &mut out), 20 << 32 | 45);
    assert_eq!(out[..45], a().answers.concat());
    assert_eq!(embedded(&a().file, 1_000, 1, &mut out), 21 << 32 | 21);
    assert_eq!(embedded(&a().file, 17, 9, &mut out), 22 << 32 | 45);
    assert_eq!(embedded(&a().file, 18, 9, &mut out[..44]), 26 << 32 | 21);
    assert_eq!(embedded(&a().file[..69], 18, 9, &mut out), 4 << 32 | 69);
    assert_eq!(embedded(&[], 18, 9, &mut out), 4 << 32);
}

#[test]
fn the_embedded_form_takes_files_up_to_4000_bytes() {
    let mut file = a().file;
    file.resize(4_000, 0);
    assert_eq!(embedded(&file, 18, 9, &mut []), 9 << 32 | 70);
    file.push(0);
    assert_eq!(embedded(&file, 18, 9, &mut []), 2 << 32);
}

#[test]
fn the_embedded_form_has_its_own_limits() {
    // 400 steps fit, and 401 do not.
    let mut out = [0; 10];
    let steps = file("p :- p. ?- p.");
    assert_eq!(embedded(&steps, 10_000, 9, &mut out), 24 << 32);
    assert_eq!(embedded(&steps, 400, 9, &mut out), 22 << 32);
    // Each step takes three cells and four units; 333 steps take 999 cells.
    let cells = file("p(X,Y,Z) :- p(X,Y,Z). ?- p(a,a,a).");
    assert_eq!(embedded(&cells, 10_000, 9, &mut out), 23 << 32);
    assert_eq!(embedded(&cells, 333 * 4, 9, &mut out), 22 << 32);
    assert_eq!(embedded(&cells, 333 * 4 + 1, 9, &mut out), 23 << 32);
}

#[test]
fn the_program_prints_a_line_and_the_bytes() {
    for case in programs().iter().chain(&boundaries()) {
        for due in case.runs.iter().filter(|run| run.is_plain()) {
            let expected = [due.line.as_bytes(), b"\n", &due.bytes(case)].concat();
            assert_eq!(program(&case.file), expected);
        }
    }
    assert_eq!(program(&[]), b"refused 4 at 0\n");
    assert_eq!(program(&[0; 4_001]), b"refused 2 at 0\n");
}

#[test]
fn the_program_says_when_limits_are_too_small() {
    let steps = program(&file("p :- p. ?- p."));
    assert_eq!(
        steps,
        b"end 24 answers 0 units 401 bytes 0 limits too small\n"
    );
    let steps = program(&file("p(X) :- p(a). ?- p(a)."));
    assert_eq!(
        steps,
        b"end 24 answers 0 units 801 bytes 0 limits too small\n"
    );
    let ended = |end| {
        line(&Outcome::Ended {
            end,
            answers: 1,
            units: 2,
            bytes: 3,
        })
    };
    for end in [20, 21, 22, 26] {
        assert_eq!(ended(end), format!("end {end} answers 1 units 2 bytes 3\n"));
    }
    for end in [23, 24, 25] {
        assert_eq!(
            ended(end),
            format!("end {end} answers 1 units 2 bytes 3 limits too small\n")
        );
    }
}
