//! The time of a whole call, by the library and by the second program, for
//! several example programs; and of case A in the embedded form.

use std::hint::black_box;
use std::time::Instant;

use agreement::calls::{told, Both, Call};
use agreement::library;
use second::assemble::{file, program};
use second::call::{Case, Limits, Memory, Outcome};
use second::cases::programs;
use second::examples::*;

const SMALL: Limits = limits(4_000, 600);
const MEDIUM: Limits = limits(10_000, 2_500);
const LARGE: Limits = limits(40_000, 8_000);
const ROOM: usize = 60_000;
const ROUNDS: usize = 40;
/// The least time of a round, in seconds.
const ROUND: f64 = 0.005;

const fn limits(cells: u32, steps: u32) -> Limits {
    Limits {
        cells,
        steps,
        work: 100,
    }
}

/// The time of one call in microseconds, over so many.
fn time(calls: usize, mut call: impl FnMut()) -> f64 {
    let start = Instant::now();
    (0..calls).for_each(|_| call());
    start.elapsed().as_secs_f64() * 1e6 / calls as f64
}

/// The least times of the library and of the second program, in turn.
fn least(case: &Case) -> (f64, f64) {
    let mut scratch = vec![0; case.scratch_len];
    let mut out = vec![0; case.room];
    let mut result = [0; 12];
    let mut memory = Memory::default();
    let mut least = (f64::INFINITY, f64::INFINITY);
    let mut calls = 1;
    for _ in 0..ROUNDS {
        let library = time(calls, || {
            library::call(black_box(case), &mut scratch, &mut out, &mut result);
            black_box(&result);
        });
        let second = time(calls, || {
            black_box(black_box(case).call(&mut memory, &mut scratch, &mut out));
        });
        least = (least.0.min(library), least.1.min(second));
        calls = (1 + (ROUND * 1e6 / library.min(second)) as usize).min(1_000);
    }
    least
}

/// The least time of case A in the embedded form, in microseconds.
fn embedded() -> f64 {
    let file = &programs()[0].file;
    let mut out = [0; 1_000];
    let rounds = (0..ROUNDS).map(|_| {
        time(1_000, || {
            let packed = library::run(black_box(file), 1_000, 1_000, &mut out);
            assert_eq!(black_box(packed), 20 << 32 | 45);
        })
    });
    rounds.fold(f64::INFINITY, f64::min)
}

/// Walks in a graph of 4,094 edges, by two rules.
fn large_graph() -> String {
    let edges: Vec<_> = (0..4_094)
        .map(|i| (i % 1_000, (i + i / 1_000 + 1) % 1_000))
        .collect();
    with_clauses(4_096, walks(&edges))
}

/// Two tables of 2,730 facts each and as many facts beside them, joined by two
/// rules: as many clauses as a file may have.
fn large_tables() -> String {
    let rows: Vec<_> = (0..2_730).map(|i| (i % 1_000, 7 * i % 1_000)).collect();
    with_clauses(8_192, joined(&rows))
}

/// A text that has exactly so many clauses.
fn with_clauses(count: usize, text: String) -> String {
    assert_eq!(program(&text).clauses.len(), count);
    text
}

fn main() {
    let call = embedded();
    let second = 1e6 / call;
    println!("pegplanet_run on case A: {call:.2} us a call, {second:.0} calls a second");
    // Each with the answers it has; the second looks for more without end.
    let programs = [
        ("naive reverse of 10", long_reverse(1), 1, SMALL),
        ("naive reverse of 30", naive_reverse(30), 1, SMALL),
        ("naive reverse of 60", long_reverse(6), 1, MEDIUM),
        ("naive reverse of 120", long_reverse(12), 1, LARGE),
        ("4,096 clauses", large_graph(), 80, SMALL),
        ("8,192 clauses", large_tables(), 80, SMALL),
        ("split 12 in three", split_in_three(12), 13 * 14 / 2, SMALL),
        ("permutations of 5", permutations(5), 120, SMALL),
        ("2 to the power of 7", powers_of_two(7), 1, SMALL),
        ("bars of 6 quarters", bars(6), 169, SMALL),
        ("shared values", shared(8), 1, SMALL),
    ];
    println!(
        "program                units answers  library us  ns a unit  second us  library / second"
    );
    for (name, text, wanted, limits) in programs {
        let case = Case {
            budget: 1_000_000,
            wanted,
            room: ROOM,
            ..Case::new(&file(&text), limits)
        };
        let outcome = match Both::default().agreed(&Call::new(case.clone())) {
            Ok(outcome) => outcome,
            Err(difference) => panic!("{name}: {difference}"),
        };
        assert!(
            matches!(outcome, Outcome::Ended { end: 21, .. }),
            "{name}: {outcome:?}"
        );
        let [_, _, answers, units, ..] = told(&outcome);
        let (library, second) = least(&case);
        let unit = library * 1e3 / units as f64;
        let ratio = library / second;
        println!(
            "{name:20} {units:7} {answers:7} {library:11.1} {unit:10.2} {second:10.1} {ratio:10.2}"
        );
    }
}
