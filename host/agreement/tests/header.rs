//! The header, the page's example and the check, compiled without a warning,
//! linked and run.

mod common;

use common::*;

#[test]
fn the_header_serves_c99_and_cpp_programs() {
    let source = path("host/agreement/tests/header.c");
    for (language, program) in [(C99, "header_c"), (CPP, "header_cpp")] {
        let program = compiled(language, &source, program);
        assert_eq!(said(&program, &[]), (String::new(), Some(0)));
    }
}

#[test]
fn a_program_that_uses_nothing_of_the_header_has_no_warning() {
    let source = own("nothing.c");
    let text = "#include \"pegplanet.h\"\nint main(void) { return 0; }\n";
    std::fs::write(&source, text).expect("a source");
    let warnings = [
        "-Wconversion",
        "-Wsign-conversion",
        "-Wshadow",
        "-Wcast-qual",
        "-Wunused",
    ];
    for (compiler, words) in [C99, CPP] {
        let words = [words, &warnings].concat();
        compiled((compiler, &words), &source, &format!("nothing_{compiler}"));
    }
}

#[test]
fn the_example_of_the_page_compiles_as_printed() {
    let page = std::fs::read_to_string(path("README.md")).expect("the page");
    let after = page.split_once("```c\n").expect("an example").1;
    let example = after.split_once("```").expect("its end").0;
    assert!(example.contains("pegplanet_run"), "{example}");
    let source = own("page.c");
    std::fs::write(&source, example).expect("a source");
    for (language, program) in [(C99, "page_c"), (CPP, "page_cpp")] {
        let program = compiled(language, &source, program);
        let lines = "an answer, proved in 1 steps
an answer, proved in 2 steps
number 20, no more answers, place 0
";
        assert_eq!(said(&program, APPEND), (lines.to_string(), Some(0)));
        let line = "number 4, file ends where a record is due or not whole, place 69\n";
        assert_eq!(said(&program, &APPEND[..69]), (line.to_string(), Some(1)));
    }
}

#[test]
fn the_check_says_what_came_of_a_file() {
    let program = compiled(C99, &path("examples/check.c"), "check");
    let line = |file: &[u8], line: &str, status| {
        assert_eq!(said(&program, file), (format!("{line}\n"), Some(status)));
    };
    line(APPEND, "good", 0);
    let short = "refused 4 at 69: file ends where a record is due or not whole";
    line(&APPEND[..69], short, 1);
    let arity = "refused 6 at 2: number out of range, or one record too many of a kind";
    line(&[1, 0, 1, 9], arity, 1);
    line(&second::damage::length(60_000), "good", 0);
    line(&second::damage::length(60_001), "file too long", 2);
}
