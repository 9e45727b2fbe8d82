//! A check changes nothing, reads nothing around the file, and needs little
//! stack.

use agreement::files::{from_seed, kinds};
use agreement::library::{check, check_part, said};
use second::damage::levels;
use second::reading;

const APPEND: &[u8] = include_bytes!("../../../examples/append.rules");

/// Checks a file between guards of these bytes, and that all bytes stay.
fn between(before: &[u8], file: &[u8], after: &[u8]) {
    let whole = [before, file, after].concat();
    let mut buffer = whole.clone();
    let number = check_part(&mut buffer, before.len()..before.len() + file.len());
    assert!(buffer == whole, "{file:02X?} was changed");
    assert_eq!(said(number), reading::check(file), "{file:02X?}");
}

#[test]
fn files_and_the_bytes_around_them_stay() {
    for (_, file) in from_seed(0).take(5_000) {
        between(&[0xA5; 64], &file, &[0x5A; 64]);
    }
    for kind in kinds() {
        between(&[0xA5; 64], &kind.file(60_000), &[0x5A; 64]);
    }
}

#[test]
fn bytes_after_the_file_change_nothing() {
    // Each could go on with the file, and one would end it.
    for (_, file) in from_seed(5_000).take(500) {
        for cut in [file.len(), file.len() / 2, file.len().saturating_sub(1)] {
            for byte in 0..=9 {
                between(&[byte; 3], &file[..cut], &[byte; 16]);
            }
            between(&[], &file[..cut], &file[cut..]);
        }
    }
}

#[test]
fn a_file_may_start_at_any_byte() {
    for start in 0..16 {
        between(&vec![1; start], APPEND, &[9]);
    }
}

#[test]
fn a_check_of_the_deepest_terms_takes_little_stack() {
    // The thread itself takes a part of the 16 kilobytes.
    let thread = std::thread::Builder::new().stack_size(16 * 1_024);
    let deep = levels(32);
    let number = thread.spawn(move || check(&deep)).expect("a thread").join();
    assert_eq!(number.expect("it ends"), 0);
}
