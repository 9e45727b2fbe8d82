//! Speed: naive reverse of 30 elements, and reading a long file.

use std::hint::black_box;
use std::time::Instant;

use second::assemble::file;
use second::call::{Limits, Memory};
use second::damage::length;
use second::examples::naive_reverse;
use second::machine::Machine;
use second::reading::{check, read, read_into};
use second::rules::Rules;

const LIMITS: Limits = Limits {
    cells: 4_000,
    steps: 600,
    work: 100,
};

/// The least time of one run, in nanoseconds, over many rounds.
fn least(rounds: u32, runs: u32, mut run: impl FnMut()) -> f64 {
    let round = |run: &mut dyn FnMut()| {
        let start = Instant::now();
        (0..runs).for_each(|_| run());
        start.elapsed().as_nanos() as f64 / f64::from(runs)
    };
    (0..rounds)
        .map(|_| round(&mut run))
        .fold(f64::INFINITY, f64::min)
}

fn reverse() {
    let file = file(&naive_reverse(30));
    let rules = read(&file).expect("a good file");
    let mut out = vec![0; 10_000];
    let mut machine = Machine::default();
    let ended = machine.run(&rules, LIMITS, u32::MAX, u32::MAX, &mut out, &mut ());
    let run = least(20, 1_000, || {
        let out = black_box(&mut out);
        black_box(machine.run(&rules, LIMITS, u32::MAX, u32::MAX, out, &mut ()));
    });
    println!("naive reverse of 30: {ended:?}");
    println!(
        "  run   {:.1} us, {:.1} ns a unit, {:.1} million inferences a second",
        run / 1e3,
        run / f64::from(ended.units),
        496.0 / run * 1e3
    );
    let mut memory = Memory::default();
    let mut scratch = vec![0; LIMITS.scratch(file.len())];
    let call = least(20, 1_000, || {
        black_box(memory.call(
            &file,
            LIMITS,
            u32::MAX,
            u32::MAX,
            &mut scratch,
            black_box(&mut out),
        ));
    });
    println!(
        "  call  {:.1} us (file of {} bytes read, scratch wiped)",
        call / 1e3,
        file.len()
    );
}

fn reading() {
    let file = length(60_000);
    let mut rules = Rules::default();
    let kept = least(20, 100, || {
        read_into(black_box(&file), &mut rules).expect("a good file")
    });
    let checked = least(20, 100, || check(black_box(&file)).expect("a good file"));
    println!(
        "a file of {} bytes: read {:.1} us, checked {:.1} us",
        file.len(),
        kept / 1e3,
        checked / 1e3
    );
}

fn main() {
    reverse();
    reading();
}
