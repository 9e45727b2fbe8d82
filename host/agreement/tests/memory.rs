//! Calls on good and damaged files with every buffer between pages that no one
//! may touch.

mod common;

use std::process::Command;

use agreement::calls::from_seed;
use agreement::memory::compare;
use common::*;

#[test]
fn nothing_outside_the_buffers_is_touched() {
    let program = compiled(C99, &path("host/agreement/tests/memory.c"), "memory");
    let calls = from_seed(90_000).take(10_000).collect();
    let tally = compare(Command::new(&program).arg("pages"), calls).expect("no difference");
    assert_eq!(tally.calls(), 10_000);
    for number in (1..=9).chain(20..=26) {
        assert!(tally.by_number[number] >= 5, "{number}: {tally:?}");
    }
    // The walls stand: where the byte behind a file is read, the process dies.
    let calls = from_seed(90_000).take(2).collect();
    let past = compare(Command::new(&program).args(["pages", "past"]), calls);
    assert!(past.is_err_and(|said| said.contains("signal")));
}
