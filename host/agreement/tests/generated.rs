//! The library and the second program agree on the generator's files.

use agreement::compare::compare;
use agreement::files::from_seed;

#[test]
fn sixty_thousand_files_good_and_damaged() {
    let tally = compare(from_seed(0).take(60_000)).expect("no difference");
    assert_eq!(tally.files(), 60_000);
    assert!(tally.good >= 30_000, "{tally:?}");
    for number in 4..=9 {
        assert!(tally.refused[number] >= 100, "{number}: {tally:?}");
    }
}

#[test]
fn from_several_threads_at_once() {
    let thread = |first| {
        std::thread::spawn(move || compare(from_seed(first).take(2_000)).expect("no difference"))
    };
    for thread in [60_000, 70_000, 80_000, 90_000].map(thread) {
        let tally = thread.join().expect("the thread ends");
        assert_eq!(tally.files(), 2_000);
    }
}
