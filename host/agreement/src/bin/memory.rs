//! `memory COUNT COMMAND..`: so many calls of the generator by the process that
//! the command starts, beside the second program.

use std::process::{exit, Command};

use agreement::calls::from_seed;
use agreement::memory::compare;

fn main() {
    let words: Vec<_> = std::env::args().skip(1).collect();
    let count = words.first().and_then(|word| word.parse().ok());
    let (Some(count), Some(program)) = (count, words.get(1)) else {
        eprintln!("memory COUNT COMMAND..");
        exit(2);
    };
    let calls = from_seed(4_000_000).take(count).collect();
    match compare(Command::new(program).args(&words[2..]), calls) {
        Ok(tally) => println!("{} agrees on {} calls", words[1], tally.calls()),
        Err(difference) => {
            eprintln!("{difference}");
            exit(1);
        }
    }
}
