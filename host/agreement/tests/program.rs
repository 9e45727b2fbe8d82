//! The small program: document 01's wording, and the second program's bytes.

mod common;

use std::fs::File;
use std::path::PathBuf;
use std::process::Command;

use agreement::files::from_seed;
use common::*;
use second::assemble::file;
use second::call::program as second_program;
use second::damage::length;

fn small_program(name: &str) -> PathBuf {
    compiled(C99, &path("program/pegplanet.c"), name)
}

/// All that the program writes, and its status.
fn written(program: &PathBuf, file: &[u8]) -> (Vec<u8>, Option<i32>) {
    let ended = run(&mut Command::new(program), file);
    assert!(ended.stderr.is_empty());
    (ended.stdout, ended.status.code())
}

#[test]
fn the_lines_of_stops_and_refusals() {
    let program = small_program("program_lines");
    let line = |file: &[u8], due: &str, status| {
        let due = format!("{due}\n").into_bytes();
        assert_eq!(written(&program, file), (due, Some(status)));
    };
    line(&[], "refused 4 at 0", 1);
    line(&length(4_001), "refused 2 at 0", 1);
    line(&[0; 100_000], "refused 2 at 0", 1);
    // Each step takes a unit, and the 401st is one too many.
    let steps = file("p :- p. ?- p.");
    let due = "end 24 answers 0 units 401 bytes 0 limits too small";
    line(&steps, due, 0);
    // Each step takes a unit and 8 cells, and 125 steps take all 1,000.
    let cells = file("p :- p, q(A,B,C,D,E,F,G,H). ?- p.");
    let due = "end 23 answers 0 units 126 bytes 0 limits too small";
    line(&cells, due, 0);
    // There are 5 pairs; each of the 28 nodes takes one and puts 8 in front.
    let value = format!("{}a{}", "g(".repeat(28), ",a,a,a,a,a,a,a)".repeat(28));
    let work = file(&format!("p({value},a,a,a,a). ?- p({value},a,a,a,a)."));
    let due = "end 25 answers 0 units 29 bytes 0 limits too small";
    line(&work, due, 0);
    // Three units a step, so the budget of 1,000 ends before the 400 steps do.
    let budget = file("p(X,Y) :- p(X,Y). ?- p(a,a).");
    line(&budget, "end 22 answers 0 units 1000 bytes 0", 0);
    // Two values of 1 and 27 times 8 nodes, three bytes each, pass the room.
    let value = format!("{}a{}", "g(".repeat(27), ",a,a,a,a,a,a,a)".repeat(27));
    let output = file(&format!("p({value},{value}). ?- p(X,Y)."));
    line(&output, "end 26 answers 0 units 3 bytes 0", 0);
}

#[test]
fn ends_are_20_to_26_and_29_and_all_others_refusals() {
    let (source, tells) = (
        path("program/pegplanet.c"),
        path("host/agreement/tests/tells.c"),
    );
    let program = linked(C99, &source, &[], &tells, "program_told");
    for number in 1..=40 {
        let mut command = Command::new(&program);
        let words = format!("{number} 7 3 5 0 0 0 0 0 0 0 0");
        let ended = run(command.env("TELLS", words), APPEND);
        let (line, status) = match number {
            23..=25 => (
                format!("end {number} answers 3 units 5 bytes 0 limits too small\n"),
                0,
            ),
            20..=26 | 29 => (format!("end {number} answers 3 units 5 bytes 0\n"), 0),
            _ => (format!("refused {number} at 7\n"), 1),
        };
        assert_eq!(String::from_utf8_lossy(&ended.stdout), line);
        assert_eq!(ended.status.code(), Some(status));
    }
}

#[test]
fn it_takes_a_file_by_its_name_and_says_how_it_is_called() {
    let program = small_program("program_words");
    let with = |words: &[&str], input: &[u8]| {
        let ended = run(Command::new(&program).args(words), input);
        let text = |bytes: &[u8]| String::from_utf8_lossy(bytes).into_owned();
        (
            text(&ended.stdout),
            text(&ended.stderr),
            ended.status.code(),
        )
    };
    let append = path("examples/append.rules").display().to_string();
    let by_name = with(&[&append], &[]);
    assert_eq!(by_name, with(&[], APPEND));
    assert!(by_name
        .0
        .starts_with("end 20 answers 2 units 18 bytes 45\n"));
    let (help, nothing, status) = with(&["--help"], &[]);
    assert!(help.contains("pegplanet [FILE]") && nothing.is_empty());
    assert_eq!(status, Some(0));
    for words in [&["--unknown"][..], &[&append, &append]] {
        assert_eq!(with(words, APPEND), (String::new(), help.clone(), Some(2)));
    }
    let (nothing, said, status) = with(&["no such file"], APPEND);
    assert!(nothing.is_empty() && said.starts_with("no such file: "));
    assert_eq!(status, Some(2));
    // The version is the header's, and the numbers are those of document 01.
    let header = std::fs::read_to_string(path("include/pegplanet.h")).expect("the header");
    let (version, ..) = with(&["--version"], &[]);
    let version = version.strip_prefix("pegplanet ").expect("a version");
    assert!(header.contains(&format!("VERSION \"{}\"\n", version.trim_end())));
    let (numbers, ..) = with(&["--numbers"], &[]);
    let numbers: Vec<_> = numbers
        .lines()
        .map(|line| line.split_once('\t').expect("words"))
        .collect();
    let refused = (1..=9).map(|number| format!("refused {number}"));
    let ends = (20..=26).map(|number| format!("end {number}"));
    let listed: Vec<_> = numbers.iter().map(|line| line.0.to_string()).collect();
    assert_eq!(listed, refused.chain(ends).collect::<Vec<_>>());
    assert_eq!(numbers[9].1, "no more answers");
    assert_eq!(numbers[15].1, "output full");
}

#[test]
fn it_agrees_with_the_second_program() {
    let program = small_program("program_agrees");
    let mut by_end = [0; 27];
    for (seed, file) in from_seed(3_000_000).take(600) {
        let (found, status) = written(&program, &file);
        assert!(found == second_program(&file), "seed {seed}: {file:02X?}");
        let line = String::from_utf8_lossy(&found);
        let mut words = line.split_whitespace();
        let refused = words.next() == Some("refused");
        assert_eq!(status, Some(refused.into()));
        let number = words.next().map(|number| number.parse());
        by_end[number.expect("a number").unwrap_or(0_usize)] += 1;
    }
    for number in [4, 5, 6, 20, 22, 26] {
        assert!(by_end[number] >= 5, "{number}: {by_end:?}");
    }
}

#[test]
fn it_says_when_it_cannot_read_or_write() {
    let program = small_program("program_faults");
    // A folder cannot be read.
    let folder = File::open(path("examples")).expect("a folder");
    let ended = Command::new(&program).stdin(folder).output();
    let ended = ended.expect("it runs");
    assert_eq!((ended.stdout.len(), ended.status.code()), (0, Some(2)));
    assert!(!ended.stderr.is_empty());
    // Nothing can be written to a full device.
    if let Ok(full) = File::options().write(true).open("/dev/full") {
        let append = File::open(path("examples/append.rules")).expect("case A");
        let ended = Command::new(&program).stdin(append).stdout(full).output();
        let ended = ended.expect("it runs");
        assert_eq!(ended.status.code(), Some(2));
        assert!(!ended.stderr.is_empty());
    }
}
