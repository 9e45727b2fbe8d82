//! Files at every limit: one below and at it they are good, one above refused,
//! by every way into both programs.

mod common;

use std::path::{Path, PathBuf};
use std::process::Command;
use std::sync::OnceLock;

use agreement::calls::{Both, Call};
use agreement::compare::agreed;
use agreement::files::kinds;
use common::*;
use second::call::{Case, Outcome, EMBEDDED};
use second::damage::*;
use second::end::{is_end, Refusal};
use second::record::{APPLIED, CLAUSE, VARIABLE};

fn small_program() -> &'static Path {
    static PROGRAM: OnceLock<PathBuf> = OnceLock::new();
    PROGRAM.get_or_init(|| compiled(C99, &path("program/pegplanet.c"), "program_boundaries"))
}

/// What both checks say of a file: nothing, or a number and a place.
fn checked(file: &[u8]) -> Option<(u32, usize)> {
    let said = agreed(file).expect("no difference");
    said.err().map(|Refusal { number, place }| (number, place))
}

/// What both say of a file by the check and the whole call; and by the embedded
/// form and the small program, which take no more than 4,000 bytes.
fn both(file: &[u8]) -> Option<(u32, usize)> {
    let said = checked(file);
    let mut both = Both::default();
    let outcome = both.agreed(&Call::new(Case::new(file, EMBEDDED)));
    let called = match outcome.expect("no difference") {
        Outcome::Refused { number, place } => Some((number, place)),
        Outcome::Ended { .. } => None,
    };
    assert_eq!(called, said);
    let packed = both.agreed_embedded(file, 1_000, 1_000, 1_000);
    let packed = packed.expect("no difference");
    let ended = run(&mut Command::new(small_program()), file);
    let short = file.len() <= 4_000;
    match if short { said } else { Some((2, 0)) } {
        Some((number, place)) => {
            assert_eq!(packed, u64::from(number) << 32 | place as u64);
            let line = format!("refused {number} at {place}\n");
            assert_eq!(ended.stdout, line.into_bytes());
        }
        None => {
            assert!(is_end(packed >> 32), "{packed:016X}");
            assert!(ended.stdout.starts_with(b"end "));
        }
    }
    said
}

/// A maker of files around a limit, and the refusal one above it.
fn limit(file: fn(usize) -> Vec<u8>, limit: usize, above: (u32, usize)) {
    assert_eq!(both(&file(limit - 1)), None);
    assert_eq!(both(&file(limit)), None);
    assert_eq!(both(&file(limit + 1)), Some(above));
}

#[test]
fn functions_end_at_1024() {
    limit(functions, 1_024, (6, 2 * 1_024));
}

#[test]
fn predicates_end_at_1024() {
    limit(predicates, 1_024, (6, 2 * 1_024));
}

#[test]
fn clauses_end_at_8192() {
    limit(clauses, 8_192, (6, 2 + 5 * 8_192));
}

#[test]
fn one_record_too_many_is_first_read_whole() {
    let functions = functions(1_025);
    assert_eq!(both(&functions[..2 * 1_024 + 1]), Some((4, 2 * 1_024)));
    let clauses = clauses(8_193);
    let last = 2 + 5 * 8_192;
    assert_eq!(both(&clauses[..last + 4]), Some((4, last)));
    assert_eq!(both(&clauses[..last + 5]), Some((6, last)));
}

#[test]
fn arity_ends_at_8() {
    limit(arity, 8, (6, 0));
    let predicate = |arity: usize| vec![2, arity as u8, 8, 0, 0, 9];
    limit(predicate, 8, (6, 0));
}

#[test]
fn variables_end_at_64() {
    // A predicate and a fact of eight variables stand before the query; a
    // function and two predicates before the clause.
    limit(variables, 64, (6, 2 + 5 + 8 * 2));
    limit(clause_variables, 64, (6, 3 * 2));
}

#[test]
fn files_one_beyond_the_limits_of_document_01_are_good() {
    assert_eq!(both(&clauses(4_097)), None);
    assert_eq!(both(&variables(33)), None);
    assert_eq!(both(&clause_variables(33)), None);
}

#[test]
fn goals_end_at_16() {
    limit(goals, 16, (6, 0));
    let clause = |count: usize| {
        let mut file = vec![2, 0, 3, 0, 0, 0, count as u8];
        file.extend(vec![7; count]);
        file.extend([8, 0, 0, 9]);
        file
    };
    limit(clause, 16, (6, 2));
}

#[test]
fn levels_end_at_32() {
    // Two functions, a predicate, query and goal take 12 bytes; each level 3.
    limit(levels, 32, (8, 12 + 3 * 32));
    assert_eq!(both(&levels(40)), Some((8, 12 + 3 * 32)));
}

#[test]
fn a_check_alone_has_no_limit_of_length() {
    for bytes in [59_999, 60_000, 60_001, 60_002] {
        let file = length(bytes);
        assert_eq!(file.len(), bytes);
        assert_eq!(checked(&file), None);
        assert_eq!(checked(&file[..bytes - 1]), Some((4, bytes - 1)));
    }
}

#[test]
fn the_long_files_are_of_their_kinds() {
    let [mixed, variables, chains, clauses] = kinds().map(|kind| kind.file(60_000));
    let count = |file: &[u8], kind| {
        let places = places(file);
        places.iter().filter(|&&place| file[place] == kind).count()
    };
    for file in [&mixed, &variables, &chains, &clauses] {
        assert_eq!(file.len(), 60_000);
        assert_eq!(both(file), None);
    }
    assert!(count(&mixed, VARIABLE) > 4_000 && count(&mixed, APPLIED) > 4_000);
    assert!(count(&variables, VARIABLE) > 20_000 && count(&variables, APPLIED) == 0);
    assert_eq!(count(&chains, APPLIED), 32 * count(&chains, CLAUSE));
    assert_eq!(count(&clauses, CLAUSE), 8_192);
}
