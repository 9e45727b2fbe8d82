//! The stack that the functions take is no more than the header states, and a
//! thread with as much as the header says can call them.

mod common;

use agreement::files::from_seed;
use common::*;
use second::damage::{clause_variables, levels, variables};

/// A function with the stack that it took, and what the header states.
type Taken = (String, usize, usize);

fn line(line: &str) -> Taken {
    let words: Vec<_> = line.split_whitespace().collect();
    let number = |word: &str| word.parse().expect("a number");
    (words[0].to_string(), number(words[1]), number(words[2]))
}

#[test]
fn the_stack_that_the_header_states_is_enough() {
    let program = compiled(C99, &path("host/agreement/tests/stack.c"), "stack");
    let generated = from_seed(0).take(100).map(|(_, file)| file);
    let at_limits = [levels(32), variables(64), clause_variables(64)];
    let files = at_limits.into_iter().chain(generated);
    let mut most: Vec<Taken> = Vec::new();
    for file in files.chain([APPEND.to_vec()]) {
        let (text, status) = said(&program, &file);
        // A thread whose stack is too small ends the process.
        assert_eq!(status, Some(0));
        let taken: Vec<_> = text.lines().map(line).collect();
        assert_eq!(taken.len(), 3, "{text}");
        if most.is_empty() {
            most = taken.clone();
        }
        for (most, taken) in most.iter_mut().zip(taken) {
            most.1 = most.1.max(taken.1);
        }
    }
    println!("{most:?}");
    for (name, taken, stated) in &most {
        assert!(taken <= stated, "{name} takes {taken}");
    }
    // The scratch of the embedded form alone is 16,064 words.
    assert!(most[0].1 > 4 * 16_064 && most[2].1 > 0, "{most:?}");
}
