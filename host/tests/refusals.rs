//! The refusal table: each row with its place, the order of faults within a
//! record, and files at each limit.

mod common;

use common::*;
use second::call::{embedded, Limits, Memory, Outcome};
use second::cases::bytes;
use second::damage;
use second::end::{is_end, Refusal};
use second::reading::{check, read, read_into};

/// What every way into the program says of a file: nothing, or a number and a
/// place. The embedded form takes no more than 4,000 bytes.
fn said(file: &[u8]) -> Option<(u32, usize)> {
    let refusal = check(file).err();
    let mut rules = read(&damage::length(500)).expect("a good file");
    assert_eq!(read(file).err(), refusal);
    assert_eq!(read_into(file, &mut rules).err(), refusal);
    let said = refusal.map(|Refusal { number, place }| (number, place));
    let called = match run(file, SETTINGS).0 {
        Outcome::Refused { number, place } => Some((number, place)),
        Outcome::Ended { .. } => None,
    };
    assert_eq!(called, said);
    let packed = embedded(file, 1_000, 1_000, &mut [0; 1_000]);
    let short = file.len() <= 4_000;
    match if short { said } else { Some((2, 0)) } {
        Some((number, place)) => assert_eq!(packed, u64::from(number) << 32 | place as u64),
        None => assert!(is_end(packed >> 32)),
    }
    said
}

/// The refusal of a file in two-digit form.
fn at(text: &str) -> (u32, usize) {
    said(&bytes(text)).expect("a refusal")
}

fn good(text: &str) -> bool {
    said(&bytes(text)).is_none()
}

/// A maker of files around a limit: one below and at it they are good, and one
/// above there is this refusal.
fn limit(file: fn(usize) -> Vec<u8>, limit: usize, above: (u32, usize)) {
    assert_eq!(said(&file(limit - 1)), None);
    assert_eq!(said(&file(limit)), None);
    assert_eq!(said(&file(limit + 1)), Some(above));
}

/// A call with these limits, a file of this length and so much scratch.
fn before_reading(limits: Limits, file: usize, scratch: usize) -> Outcome {
    let file = vec![0; file];
    Memory::default().call(&file, limits, 1, 1, &mut vec![0; scratch], &mut [])
}

fn refusal(number: u32) -> Outcome {
    Outcome::Refused { number, place: 0 }
}

#[test]
fn limits_out_of_range_are_1() {
    let words = 64 + 2 * 4 + 4 * 60_000 + 8 * 60_000 + 4 * 60_000;
    let file = bytes("08 00 00 09");
    let run = |cells, steps, work| {
        let limits = Limits { cells, steps, work };
        Memory::default().call(&file, limits, 1, 1, &mut vec![0; words], &mut [0; 6])
    };
    let good = Outcome::Ended {
        end: 21,
        answers: 1,
        units: 0,
        bytes: 6,
    };
    assert_eq!(run(1, 1, 8), good);
    assert_eq!(run(60_000, 60_000, 60_000), good);
    for (cells, steps, work) in [
        (0, 1, 8),
        (1, 0, 8),
        (1, 1, 7),
        (60_001, 1, 8),
        (1, 60_001, 8),
    ] {
        assert_eq!(run(cells, steps, work), refusal(1));
    }
    assert_eq!(run(1, 1, 60_001), refusal(1));
    assert_eq!(run(u32::MAX, u32::MAX, u32::MAX), refusal(1));
}

#[test]
fn a_file_over_60000_bytes_is_2() {
    let words = 64 + 2 * 60_001 + 4 + 8 + 32;
    let least = Limits {
        cells: 1,
        steps: 1,
        work: 8,
    };
    assert_eq!(before_reading(least, 60_001, words), refusal(2));
    let unknown_kind = Outcome::Refused {
        number: 5,
        place: 0,
    };
    assert_eq!(before_reading(least, 60_000, words), unknown_kind);
}

#[test]
fn short_scratch_is_3() {
    let least = Limits {
        cells: 1,
        steps: 1,
        work: 8,
    };
    let words = 64 + 2 * 7 + 4 + 8 + 32;
    assert_eq!(before_reading(least, 7, words - 1), refusal(3));
    assert_eq!(before_reading(least, 7, 0), refusal(3));
    assert_eq!(before_reading(least, 7, words), refusal(5));
    let larger = Limits {
        cells: 11,
        steps: 13,
        work: 17,
    };
    let words = 64 + 2 * 7 + 4 * 11 + 8 * 13 + 4 * 17;
    assert_eq!(before_reading(larger, 7, words - 1), refusal(3));
    assert_eq!(before_reading(larger, 7, words), refusal(5));
}

#[test]
fn refusals_1_2_3_come_in_that_order() {
    let bad = Limits {
        cells: 0,
        steps: 1,
        work: 8,
    };
    let least = Limits {
        cells: 1,
        steps: 1,
        work: 8,
    };
    assert_eq!(before_reading(bad, 60_001, 0), refusal(1));
    assert_eq!(before_reading(least, 60_001, 0), refusal(2));
    assert_eq!(before_reading(least, 60_000, 0), refusal(3));
    assert_eq!(before_reading(least, 0, 64 + 4 + 8 + 32), refusal(4));
}

#[test]
fn a_missing_kind_is_4_at_the_end_of_the_file() {
    assert_eq!(at(""), (4, 0));
    assert_eq!(at("01 00"), (4, 2));
    assert_eq!(at("01 00 02 01"), (4, 4));
    assert_eq!(at("02 01 03 00 00 00 00"), (4, 7));
    assert_eq!(at("02 00 08 00 01"), (4, 5));
    assert_eq!(at("02 01 08 00 01 06 00 00"), (4, 8));
    assert_eq!(at("08 00 00"), (4, 3));
}

#[test]
fn a_short_body_is_4_at_its_record() {
    assert_eq!(at("01"), (4, 0));
    assert_eq!(at("01 00 02"), (4, 2));
    assert_eq!(at("03"), (4, 0));
    assert_eq!(at("03 00 00 00"), (4, 0));
    assert_eq!(at("08"), (4, 0));
    assert_eq!(at("08 00"), (4, 0));
    assert_eq!(at("02 01 08 01 01 06 00"), (4, 5));
    assert_eq!(at("02 01 08 01 01 06 00 00 04"), (4, 8));
    assert_eq!(at("02 01 08 01 01 06 00 00 05 00"), (4, 8));
}

#[test]
fn each_record_of_a_good_file_cut_short_is_4() {
    let file = second::assemble::file("p(f(X,a)) :- q, !, p(X). q. ?- p(f(Y,Y)), !.");
    let places = damage::places(&file);
    for length in 0..file.len() {
        let last = *places.iter().rfind(|&&place| place <= length).unwrap();
        assert_eq!(refused(&file[..length]), (4, last), "{length} bytes");
    }
}

#[test]
fn an_unknown_kind_is_5() {
    assert_eq!(at("00"), (5, 0));
    assert_eq!(at("0E"), (5, 0));
    assert_eq!(at("FF"), (5, 0));
    assert_eq!(at("08 00 00 0E"), (5, 3));
    assert_eq!(at("02 01 08 01 01 06 00 00 FF"), (5, 8));
}

#[test]
fn kinds_that_are_not_due_at_the_top_are_5() {
    for kind in ["04", "05", "06", "07", "09", "0A", "0B", "0C", "0D"] {
        assert_eq!(at(kind), (5, 0), "{kind} is never due at the top");
    }
    assert_eq!(at("02 00 01 00"), (5, 2));
    assert_eq!(at("02 00 03 00 00 00 00 01 00"), (5, 7));
    assert_eq!(at("02 00 03 00 00 00 00 02 00"), (5, 7));
    assert_eq!(at("01 00 09"), (5, 2));
}

#[test]
fn after_the_query_only_the_end_is_due() {
    for kind in ["01 00", "02 00", "03 00 00 00 00", "08 00 00", "07"] {
        assert_eq!(at(&format!("02 00 08 00 00 {kind}")), (5, 5));
    }
}

#[test]
fn kinds_that_are_not_due_inside_are_5() {
    assert_eq!(at("02 01 08 00 01 04 00"), (5, 5));
    assert_eq!(at("02 01 08 00 01 09"), (5, 5));
    assert_eq!(at("02 01 08 00 01 06 00 00 07"), (5, 8));
    assert_eq!(at("02 01 08 00 01 06 00 00 06 00 00"), (5, 8));
    assert_eq!(at("02 01 03 00 00 00 01 06 00 00"), (5, 7));
    assert_eq!(at("08 00 00 07"), (5, 3));
}

#[test]
fn zero_of_everything_is_good() {
    assert!(good("08 00 00 09"));
    assert!(good("01 00 08 00 00 09"));
    assert!(good("02 00 08 00 00 09"));
    assert!(good("02 00 03 00 00 00 00 08 00 00 09"));
    assert!(good("01 00 02 00 08 00 00 09"));
}

#[test]
fn arity_9_is_6() {
    assert!(good("01 08 02 08 08 00 00 09"));
    assert_eq!(at("01 09"), (6, 0));
    assert_eq!(at("01 08 01 FF"), (6, 2));
    assert_eq!(at("01 08 02 09"), (6, 2));
}

#[test]
fn too_many_records_of_a_kind_are_6() {
    limit(damage::functions, 1_024, (6, 2 * 1_024));
    limit(damage::predicates, 1_024, (6, 2 * 1_024));
    limit(damage::clauses, 8_192, (6, 2 + 5 * 8_192));
}

#[test]
fn one_record_too_many_that_is_short_is_4() {
    let functions = damage::functions(1_025);
    assert_eq!(said(&functions[..2 * 1_024 + 1]), Some((4, 2 * 1_024)));
    let clauses = damage::clauses(8_193);
    let last = 2 + 5 * 8_192;
    assert_eq!(said(&clauses[..last + 4]), Some((4, last)));
    assert_eq!(said(&clauses[..last + 5]), Some((6, last)));
}

#[test]
fn counts_of_variables_and_goals_end_at_64_and_16() {
    // A predicate and a fact of eight variables stand before the query; a
    // function and two predicates before the clause.
    limit(damage::variables, 64, (6, 2 + 5 + 8 * 2));
    limit(damage::clause_variables, 64, (6, 3 * 2));
    limit(damage::goals, 16, (6, 0));
    assert_eq!(at("02 00 03 00 00 41 00"), (6, 2));
    assert_eq!(at("02 00 03 00 00 40 00"), (7, 2));
    assert_eq!(at("08 41 00"), (6, 0));
    assert_eq!(at("08 40 00"), (7, 0));
    assert_eq!(at("02 00 03 00 00 00 11"), (6, 2));
    assert!(good(
        "02 00 03 00 00 00 10 07 07 07 07 07 07 07 07 07 07 07 07 07 07 07 07 08 00 00 09"
    ));
}

#[test]
fn files_one_beyond_the_limits_of_document_01_are_good() {
    assert_eq!(said(&damage::clauses(4_097)), None);
    assert_eq!(said(&damage::variables(33)), None);
    assert_eq!(said(&damage::clause_variables(33)), None);
}

#[test]
fn numbers_of_functions_and_predicates_are_declared_or_6() {
    assert_eq!(at("03 00 00 00 00"), (6, 0));
    assert_eq!(at("02 00 03 00 01 00 00"), (6, 2));
    assert_eq!(at("02 00 03 01 00 00 00"), (6, 2));
    assert_eq!(at("08 00 01 06 00 00"), (6, 3));
    assert_eq!(at("02 00 08 00 01 06 00 01"), (6, 5));
    assert_eq!(at("02 01 08 00 01 06 00 00 05 00 00"), (6, 8));
    assert_eq!(at("01 00 02 01 08 00 01 06 00 00 05 00 01"), (6, 10));
    assert_eq!(at("01 00 02 01 08 00 01 06 00 00 05 01 00"), (6, 10));
    assert!(good("01 00 02 01 08 00 01 06 00 00 05 00 00 09"));
}

#[test]
fn variables_not_declared_or_ahead_are_7() {
    assert_eq!(at("02 01 08 00 01 06 00 00 04 00"), (7, 8));
    assert_eq!(at("02 01 08 01 01 06 00 00 04 01"), (7, 8));
    assert_eq!(at("02 02 08 02 01 06 00 00 04 01 04 00"), (7, 8));
    assert_eq!(at("02 02 08 02 01 06 00 00 04 00 04 02"), (7, 10));
    assert_eq!(at("02 02 08 03 01 06 00 00 04 00 04 02"), (7, 10));
    assert!(good("02 02 08 02 01 06 00 00 04 00 04 01 09"));
    assert!(good("02 02 08 01 01 06 00 00 04 00 04 00 09"));
}

#[test]
fn a_declared_variable_that_never_appears_is_7_at_its_clause() {
    assert_eq!(at("08 01 00 09"), (7, 0));
    assert_eq!(at("02 00 03 00 00 01 00 08 00 00 09"), (7, 2));
    assert_eq!(
        at("02 01 03 00 00 02 01 04 00 06 00 00 04 00 08 00 00 09"),
        (7, 2)
    );
    assert_eq!(at("02 01 08 02 01 06 00 00 04 00 09"), (7, 2));
}

#[test]
fn an_unused_variable_is_found_before_the_next_record() {
    assert_eq!(at("08 01 00"), (7, 0));
    assert_eq!(at("08 01 00 FF"), (7, 0));
    assert_eq!(at("02 00 03 00 00 01 00"), (7, 2));
    assert_eq!(at("02 00 03 00 00 01 01 07 FF"), (7, 2));
    // Its goals are still due: the missing one is found first.
    assert_eq!(at("02 00 03 00 00 01 01"), (4, 7));
}

#[test]
fn variables_are_counted_afresh_in_each_clause() {
    assert!(good(
        "02 01 03 00 00 01 00 04 00 03 00 00 01 00 04 00 08 01 01 06 00 00 04 00 09"
    ));
    assert_eq!(
        at("02 01 03 00 00 01 00 04 00 03 00 00 00 00 04 00"),
        (7, 14)
    );
    assert_eq!(
        at("02 01 03 00 00 01 00 04 00 08 02 01 06 00 00 04 01"),
        (7, 15)
    );
}

#[test]
fn a_term_at_level_33_is_8() {
    // Two functions, a predicate, query and goal take 12 bytes; each level 3.
    limit(damage::levels, 32, (8, 12 + 3 * 32));
    assert_eq!(said(&damage::levels(40)), Some((8, 12 + 3 * 32)));
}

#[test]
fn at_level_33_kind_and_body_come_first_and_numbers_later() {
    let place = 12 + 3 * 32;
    let file = |record: &str| {
        let mut file = damage::levels(33)[..place].to_vec();
        file.extend(bytes(record));
        file
    };
    assert_eq!(refused(&file("")), (4, place));
    assert_eq!(refused(&file("06 00 00")), (5, place));
    assert_eq!(refused(&file("05 00")), (4, place));
    assert_eq!(refused(&file("04")), (4, place));
    assert_eq!(refused(&file("05 FF FF")), (8, place));
    assert_eq!(refused(&file("04 FF")), (8, place));
    // One level higher the numbers count.
    let higher = |record: &str| {
        let mut file = damage::levels(33)[..place - 3].to_vec();
        file.extend(bytes(record));
        file
    };
    assert_eq!(refused(&higher("05 FF FF")), (6, place - 3));
    assert_eq!(refused(&higher("04 FF")), (7, place - 3));
}

#[test]
fn levels_are_counted_afresh_for_each_argument() {
    let deep = |levels: usize| format!("{}z{}", "s(".repeat(levels - 1), ")".repeat(levels - 1));
    let file = |a, b, c| {
        let text = format!("p({},{}). ?- p({},X).", deep(a), deep(b), deep(c));
        read(&second::assemble::file(&text))
    };
    assert!(file(32, 32, 32).is_ok());
    assert_eq!(file(33, 32, 32).unwrap_err().number, 8);
    assert_eq!(file(32, 33, 32).unwrap_err().number, 8);
    assert_eq!(file(32, 32, 33).unwrap_err().number, 8);
}

#[test]
fn a_short_body_wins_over_a_bad_number() {
    assert_eq!(at("08 FF"), (4, 0));
    assert_eq!(at("03 FF FF FF"), (4, 0));
    assert_eq!(at("02 01 08 00 01 06 00 00 05 FF"), (4, 8));
}

#[test]
fn bytes_after_the_end_are_9() {
    assert_eq!(at("08 00 00 09 00"), (9, 4));
    assert_eq!(at("08 00 00 09 09 09"), (9, 4));
}

#[test]
fn a_file_of_60000_bytes_is_read() {
    for bytes in [59_999, 60_000] {
        let file = damage::length(bytes);
        assert_eq!(file.len(), bytes);
        assert_eq!(check(&file), Ok(()));
        assert!(read(&file).is_ok());
    }
    assert_eq!(refused(&damage::length(60_001)), (2, 0));
}
