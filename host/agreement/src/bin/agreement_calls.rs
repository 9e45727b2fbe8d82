//! `agreement_calls COUNT [FIRST]`: the library and the second program on so
//! many calls of the generator, from the seed FIRST on, each by the whole call
//! and by the embedded form. The tests take the seeds before 1,000,000.

use std::ops::RangeInclusive;
use std::time::Instant;

use agreement::calls::{from_seed, Both, Tally};

fn main() {
    let mut words = std::env::args().skip(1);
    let mut number = |otherwise| match words.next().map(|word| word.parse()) {
        None => otherwise,
        Some(Ok(number)) => number,
        Some(Err(_)) => fail("agreement_calls COUNT [FIRST]"),
    };
    let (count, first) = (number(200_000), number(1_000_000));
    let start = Instant::now();
    let mut both = Both::default();
    let mut tally = Tally::default();
    let mut embedded = Tally::default();
    let mut slowest = (0.0, 0);
    for (seed, call) in from_seed(first).take(count as usize) {
        let start = Instant::now();
        let agreed = both.agreed(&call).and_then(|outcome| {
            tally.add(&outcome);
            let case = &call.case;
            let packed = both.agreed_embedded(&case.file, case.budget, case.wanted, case.room)?;
            embedded.by_number[(packed >> 32) as usize] += 1;
            Ok(())
        });
        if let Err(difference) = agreed {
            fail(&format!("seed {seed}: {difference}; {call:?}"));
        }
        let seconds = start.elapsed().as_secs_f64();
        if seconds > slowest.0 {
            slowest = (seconds, seed);
        }
    }
    let seconds = start.elapsed().as_secs_f64();
    println!("the library and the second program agree on {count} calls, in {seconds:.1} s");
    for (form, tally) in [("pegplanet_call", &tally), ("pegplanet_run", &embedded)] {
        assert_eq!(tally.calls() as u64, count);
        println!("  {form}: refused {}", counts(tally, 1..=9));
        println!("  {form}: ended {}", counts(tally, 20..=26));
    }
    let (seconds, seed) = slowest;
    println!("  the slowest call, of seed {seed}, took both {seconds:.3} s");
}

fn counts(tally: &Tally, numbers: RangeInclusive<usize>) -> String {
    let counts = numbers.map(|number| format!("{number}: {}", tally.by_number[number]));
    counts.collect::<Vec<_>>().join(", ")
}

fn fail(message: &str) -> ! {
    eprintln!("{message}");
    std::process::exit(1)
}
