//! `agreement COUNT [FIRST]`: the library and the second program on so many
//! files of the generator, from the seed FIRST on. The tests take the seeds
//! before 100,000.

use std::time::Instant;

use agreement::compare::compare;
use agreement::files::from_seed;

fn main() {
    let mut words = std::env::args().skip(1);
    let mut number = |otherwise| match words.next().map(|word| word.parse()) {
        None => otherwise,
        Some(Ok(number)) => number,
        Some(Err(_)) => fail("agreement COUNT [FIRST]"),
    };
    let (count, first) = (number(200_000), number(100_000));
    let start = Instant::now();
    let tally = match compare(from_seed(first).take(count as usize)) {
        Ok(tally) => tally,
        Err(difference) => fail(&difference),
    };
    let seconds = start.elapsed().as_secs_f64();
    let files = tally.files();
    println!("the library and the second program agree on {files} files, in {seconds:.1} s");
    print!("  good {}", tally.good);
    for (number, count) in tally.refused.iter().enumerate().skip(4) {
        print!(", refused {number}: {count}");
    }
    println!();
}

fn fail(message: &str) -> ! {
    eprintln!("{message}");
    std::process::exit(1)
}
