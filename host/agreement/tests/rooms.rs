//! The embedded form with large rooms, of which 4,000,000,000 bytes count.

mod common;

use std::process::Command;

use common::*;
use second::assemble::file;
use second::cases::programs;

/// What the runs of a file in these rooms said, and the bytes in front.
fn in_rooms(program: &str, file: &[u8], rooms: &[u64]) -> Vec<String> {
    let program = compiled(C99, &path("host/agreement/tests/rooms.c"), program);
    let rooms = rooms.iter().map(|room| room.to_string());
    let ended = run(Command::new(program).args(rooms), file);
    assert!(ended.status.success(), "{ended:?}");
    let said = String::from_utf8_lossy(&ended.stdout);
    said.lines().map(|line| line.to_string()).collect()
}

#[test]
fn case_a_in_rooms_around_the_most_that_counts() {
    let mut front = programs()[0].answers.concat();
    front.resize(48, 0);
    let front = front.iter().map(|byte| format!("{byte:02X}"));
    let due = format!("20 45 {}", front.collect::<String>());
    let most = 4_000_000_000;
    let rooms = [45, most - 1, most, most + 1, 1 << 32, most + 5_000_000_000];
    assert_eq!(in_rooms("rooms", APPEND, &rooms), vec![due; 6]);
}

/// The rules that build values of 2^27 and 2^29 leaves, A and B.
fn large(value: &str) -> Vec<u8> {
    let twice: Vec<_> = (1..14)
        .map(|n| format!("twice(C{}, C{n})", n - 1))
        .collect();
    let twice = twice.join(", ").replace("C0", "a");
    file(&format!(
        "double(X, f(X,X)). twice(X,Z) :- double(X,Y), double(Y,Z).
         go({value}) :- {twice}, double(C13,A), twice(A,B). ?- go(X)."
    ))
}

#[test]
#[ignore = "it takes a minute or two: make bench"]
fn answers_of_gigabytes() {
    let room = [4_100_000_000];
    // A tree of 2^k leaves has one node less than 2^(k+1), of three bytes each;
    // there are 44 steps, and 6 bytes around both.
    let around = 6 + 3 * 44;
    let fits: u64 = 3 * ((1 << 30) - 1) + around;
    let said = in_rooms("large_rooms", &large("B"), &room);
    assert!(said[0].starts_with(&format!("20 {fits} ")), "{said:?}");
    // Both trees and a node over them would fit the room, but not what counts.
    let both: u64 = 3 * ((1 << 30) - 1 + (1 << 28) - 1 + 1) + around;
    assert!(4_000_000_000 < both && both < room[0]);
    let said = in_rooms("larger_rooms", &large("g(A,B)"), &room);
    assert!(said[0].starts_with("26 0 0000"), "{said:?}");
}
