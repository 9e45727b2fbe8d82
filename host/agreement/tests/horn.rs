//! The horn part of March: the assembler, the house rules, the part and the
//! warnings.

mod common;

use std::path::{Path, PathBuf};
use std::process::{Command, Output};
use std::sync::OnceLock;

use common::*;
use second::damage::{clause_variables, clauses, variables};

fn read(name: &str) -> String {
    std::fs::read_to_string(path("examples/horn").join(name)).expect(name)
}

fn assembler() -> &'static Path {
    static ASSEMBLER: OnceLock<PathBuf> = OnceLock::new();
    ASSEMBLER.get_or_init(|| compiled(C99, &path("examples/horn/assemble.c"), "assemble"))
}

/// What the assembler writes for a text that it takes.
fn assembled(words: &[&str], text: &str) -> Vec<u8> {
    let ended = run(Command::new(assembler()).args(words), text.as_bytes());
    let said = String::from_utf8_lossy(&ended.stderr);
    assert!(ended.status.success(), "{said}");
    ended.stdout
}

/// An extractor, built with the names of its house rules, and their rule file.
struct Extractor {
    program: PathBuf,
    rules: PathBuf,
}

impl Extractor {
    fn new(name: &str, rules: &str) -> Extractor {
        let folder = own(&format!("{name} of its own"));
        std::fs::create_dir_all(&folder).expect("a folder");
        let names = assembled(&["--names"], rules);
        std::fs::write(folder.join("house.h"), names).expect("the names");
        let file = folder.join("house.rules");
        std::fs::write(&file, assembled(&[], rules)).expect("the house rules");
        let source = path("examples/horn/extract.c");
        let library = path("build/libpegplanet.a");
        let program = linked(C99, &source, &[&folder], &library, name);
        Extractor {
            program,
            rules: file,
        }
    }

    fn run(&self, budget: Option<u32>, score: &str) -> Output {
        self.run_with(&self.rules, budget, score)
    }

    fn run_with(&self, rules: &Path, budget: Option<u32>, score: &str) -> Output {
        let mut command = Command::new(&self.program);
        command.arg(rules);
        command.args(budget.map(|budget| budget.to_string()));
        run(&mut command, score.as_bytes())
    }
}

fn text(bytes: &[u8]) -> String {
    String::from_utf8_lossy(bytes).into_owned()
}

#[test]
fn the_assembler_puts_records_as_document_01_says() {
    let rules = "% all kinds of records
        function a/0. function f/01.
        predicate p/1. predicate function/0.   % no word is reserved
        p(X) :- !, function, p(f(X)).
        function.
        ?- p(a), !.% a remark that the text ends with";
    let file = [
        &[1, 0, 1, 1, 2, 1, 2, 0][..],
        &[3, 0, 0, 1, 3, 4, 0, 7, 6, 0, 1, 6, 0, 0, 5, 0, 1, 4, 0],
        &[3, 0, 1, 0, 0],
        &[8, 0, 2, 6, 0, 0, 5, 0, 0, 7, 9],
    ];
    assert_eq!(assembled(&[], rules), file.concat());
    assert_eq!(assembled(&[], "?-."), [8, 0, 0, 9]);
    // From a file by its name it is the same.
    let named = own("records.txt");
    std::fs::write(&named, rules).expect("a text");
    let name = named.display().to_string();
    assert_eq!(assembled(&[&name], ""), file.concat());
}

#[test]
fn the_rules_of_the_page_are_case_a() {
    let page = std::fs::read_to_string(path("README.md")).expect("the page");
    let after = page.split_once("    function nil").expect("rules").1;
    let rules = after.split_once("\n\n").expect("their end").0;
    assert_eq!(assembled(&[], &format!("function nil{rules}")), APPEND);
}

#[test]
fn the_assembler_says_where_what_stands_and_what_is_due() {
    let wrong = |text: &str, said: &str| {
        let ended = run(&mut Command::new(assembler()), text.as_bytes());
        let due = format!("<stdin>:{said}\n");
        assert_eq!(String::from_utf8_lossy(&ended.stderr), due);
        assert_eq!((ended.stdout.len(), ended.status.code()), (0, Some(1)));
    };
    let declared = "function a/0.\nfunction f/1.\npredicate p/1.\n";
    let after = |text: &str, said: &str| wrong(&format!("{declared}{text}"), said);
    wrong(
        "",
        "1:1: found the end of the text, due: a clause or the query",
    );
    wrong("function a.", "1:11: found ., due: / and the arity");
    wrong(
        "function F/0.",
        "1:10: found F, due: a name, which begins with a small letter",
    );
    wrong("function a/b.", "1:12: found b, due: the arity, a number");
    wrong("function a/0b.", "1:12: found 0b, due: the arity, a number");
    wrong("function a/9.", "1:12: arity 9 is out of range: 0 to 8");
    wrong(
        "function a/18446744073709551617.",
        "1:12: arity 18446744073709551617 is out of range: 0 to 8",
    );
    wrong(
        "function a/0.\nfunction a/1.",
        "2:10: a is declared twice among the functions",
    );
    let order = "functions are declared first, then predicates, then clauses follow";
    wrong("predicate p/0.\n  function a/0.", &format!("2:3: {order}"));
    after("p(a). predicate q/0.", &format!("4:7: {order}"));
    // Two words behind each other: a full stop is missing.
    wrong("function a/0 function b/0.", "1:14: found function, due: .");
    after("p(b).", "4:3: b is not declared among the functions");
    after("q(a).", "4:1: q is not declared among the predicates");
    after("p(a) :- a.", "4:9: a is not declared among the predicates");
    after("p(f(a)) ?-.", "4:9: found ?-, due: :- or .");
    after("p(f(a) a).", "4:8: found a, due: , or )");
    after("p(f()).", "4:5: found ), due: a term");
    after("p(_).", "4:3: found _, due: a term");
    after("p(a) :- .", "4:9: found ., due: a goal");
    after("p(a) :- p(X) :- p(X).", "4:14: found :-, due: , or .");
    after("p(\x01).", "4:3: found byte 01, due: a term");
    after(
        "p(a). ?-. p",
        "4:11: found p, due: nothing behind the query",
    );
    after(
        "p(a).",
        "4:6: found the end of the text, due: a clause or the query",
    );
    after("p(a). \0 ?-.", "4:7: found byte 00, which no text has");
    // A wrong count of arguments says both.
    let count = |here: &str, due| format!("has {here} here and is declared with {due}");
    after(
        "p(f(a, a)).",
        &format!("4:3: f {}", count("2 arguments", 1)),
    );
    after("\n\tp.", &format!("5:2: p {}", count("0 arguments", 1)));
    after("p(a(a)).", &format!("4:3: a {}", count("1 argument", 0)));
}

/// So many lines or goals, each by its number, with a mark between them.
fn joined(count: usize, mark: &str, each: impl Fn(usize) -> String) -> String {
    (0..count).map(each).collect::<Vec<_>>().join(mark)
}

/// A goal of eight variables, or the head of a clause: the first eight are in
/// row 0.
fn row(predicate: &str, row: usize) -> String {
    let variables = joined(8, ",", |place| format!("X{}", 8 * row + place));
    format!("{predicate}({variables})")
}

#[test]
fn the_assembler_knows_the_limits() {
    /// A text with something too much, and the part of it that is.
    fn wrong(text: &str, too_much: &str, said: &str) {
        let ended = run(&mut Command::new(assembler()), text.as_bytes());
        let before = &text[..text.find(too_much).expect("too much")];
        let line = before.matches('\n').count() + 1;
        let column = before.len() - before.rfind('\n').map_or(0, |end| end + 1) + 1;
        let due = format!("<stdin>:{line}:{column}: more than {said}\n");
        assert_eq!(String::from_utf8_lossy(&ended.stderr), due);
        assert_eq!((ended.stdout.len(), ended.status.code()), (0, Some(1)));
    }
    let functions = joined(1_025, "\n", |number| format!("function f{number}/0."));
    wrong(&functions, "f1024", "1024 functions");
    let predicates = joined(1_025, "\n", |number| format!("predicate p{number}/0."));
    wrong(&predicates, "p1024", "1024 predicates");
    let clauses = format!("predicate p/0.\n{}r.", "p. ".repeat(8_192));
    wrong(&clauses, "r.", "8192 clauses");
    let declared = "function a/0. function f/1. predicate p/1. predicate q/8.\n";
    let goals = joined(17, ", ", |number| format!("p(X{number})"));
    wrong(&format!("{declared}?- {goals}."), "p(X16)", "16 goals");
    let goals = joined(9, ", ", |number| row("q", number));
    let variables = "64 variables";
    wrong(&format!("{declared}?- {goals}."), "X64", variables);
    wrong(&format!("{declared}p(X0) :- {goals}."), "X64", variables);
    let term = format!("{}a{}", "f(".repeat(32), ")".repeat(32));
    wrong(&format!("{declared}?- p({term})."), "a)", "32 levels");
}

#[test]
fn the_assembler_takes_as_many_clauses_and_variables_as_the_machine() {
    let text = format!("predicate p/0.\n{}?- p.", "p.\n".repeat(8_192));
    assert_eq!(assembled(&[], &text), clauses(8_192));
    let goals = joined(8, ", ", |number| row("p", number));
    let text = format!("predicate p/8. {}. ?- {goals}.", row("p", 0));
    assert_eq!(assembled(&[], &text), variables(64));
    let body = joined(7, ", ", |number| row("p", number + 1));
    let constants = "(a,a,a,a,a,a,a,a)";
    let text = format!(
        "function a/0. predicate q/8. predicate p/8.
         {} :- {body}. p{constants}. ?- q{constants}.",
        row("q", 0)
    );
    assert_eq!(assembled(&[], &text), clause_variables(64));
}

#[test]
fn the_programs_say_how_they_are_called() {
    for words in [
        &["--help"][..],
        &["--name"],
        &["a", "b"],
        &["--names", "a", "b"],
    ] {
        let ended = run(Command::new(assembler()).args(words), &[]);
        let (said, status) = match words {
            ["--help"] => (&ended.stdout, 0),
            _ => (&ended.stderr, 2),
        };
        assert_eq!(ended.status.code(), Some(status));
        assert!(text(said).contains("assemble --names [FILE]"));
        assert_eq!(ended.stdout.len() + ended.stderr.len(), said.len());
    }
    let ended = run(Command::new(assembler()).arg("no such file"), &[]);
    assert!(text(&ended.stderr).starts_with("no such file: "));
    assert_eq!((ended.stdout.len(), ended.status.code()), (0, Some(2)));
}

#[test]
fn the_rest_is_split_at_the_hidden_changes_and_the_totals_agree() {
    let part = read("part.txt");
    // By hand: 7 bars of 8 eighths, 3 of 4, 7 of 8 and 8 of 6.
    let eighths = 7 * 8 + 3 * 4 + 7 * 8 + 8 * 6;
    for whose in ["score: ", "part:  "] {
        assert!(part.contains(&format!("{whose}25 bars, {eighths} eighths\n")));
    }
    for split in [
        "bar   3        rest   5",
        "bar   8   2/4  rest   3",
        "bar  11   4/4  rest   4",
    ] {
        assert!(part.contains(split), "{split}");
    }
    let ended = Extractor::new("horn_part", &read("rules.txt")).run(None, &read("score.txt"));
    assert_eq!(text(&ended.stderr), "");
    assert_eq!(text(&ended.stdout), part);
    assert_eq!(ended.status.code(), Some(0));
}

#[test]
fn without_the_rule_there_is_no_part() {
    let rules = read("rules.txt").replace("split(hidden_time, Before, bar(Holds, hidden)).\n", "");
    assert_ne!(rules, read("rules.txt"));
    let ended = Extractor::new("horn_fault", &rules).run(None, &read("score.txt"));
    // The rest of 12 bars: 3 of them are 4 eighths shorter than it says.
    let warning = "warning: score and part do not agree; no part is written
score: 25 bars, 172 eighths
part:  25 bars, 184 eighths
";
    assert_eq!(text(&ended.stdout), "");
    assert_eq!(text(&ended.stderr), warning);
    assert_eq!(ended.status.code(), Some(1));
}

#[test]
fn names_in_another_order_give_the_same_part() {
    let rules = read("rules.txt");
    let (first, second) = ("function new_time/0.\n", "function hidden_time/0.\n");
    let (players, others) = ("function oboe/0.\n", "function bar/2.\n");
    for name in [first, second, players, others] {
        assert_eq!(rules.matches(name).count(), 1);
    }
    let swapped = rules
        .replace(first, "")
        .replace(second, &format!("{second}{first}"));
    let swapped = format!("{players}{}", swapped.replace(players, ""));
    let other = Extractor::new("horn_swapped", &swapped);
    let ended = other.run(None, &read("score.txt"));
    assert_eq!(text(&ended.stderr), "");
    assert_eq!(text(&ended.stdout), read("part.txt"));
    // An extractor takes no other rules than those that its names are of.
    let extractor = Extractor::new("horn_names", &rules);
    for (extractor, file) in [(&extractor, &other.rules), (&other, &extractor.rules)] {
        let ended = extractor.run_with(file, None, &read("score.txt"));
        let said = "these are not the house rules that the extractor was built for\n";
        assert_eq!(text(&ended.stderr), said);
        assert_eq!((ended.stdout.len(), ended.status.code()), (0, Some(2)));
    }
}

#[test]
fn a_header_of_no_names_serves_as_well() {
    // Words that the header itself uses.
    let rules = "function name/0. function count/0. predicate name/0. ?-.";
    for (rules, functions) in [(rules, 2), ("?-.", 0)] {
        let folder = own(&format!("{functions} names"));
        std::fs::create_dir_all(&folder).expect("a folder");
        let names = text(&assembled(&["--names"], rules));
        let due = format!("FUNCTIONS = {functions}\n");
        assert!(names.contains(&due), "{names}");
        std::fs::write(folder.join("house.h"), names).expect("the names");
        let source = folder.join("names.c");
        let main =
            "#include \"house.h\"\n#include \"house.h\"\nint main(void) { return FUNCTIONS; }\n";
        std::fs::write(&source, main).expect("a source");
        for (number, language) in [C99, CPP].into_iter().enumerate() {
            let program = format!("names_{functions}_{number}");
            let library = path("build/libpegplanet.a");
            let program = linked(language, &source, &[&folder], &library, &program);
            assert_eq!(said(&program, &[]).1, Some(functions));
        }
    }
}

#[test]
fn a_rest_with_a_cue_stands_apart_unless_the_cue_goes_on() {
    let score = "time 4/4 rest 2 cue oboe 2 cue oboe 1 cue clarinet 1 rest 1";
    let ended = Extractor::new("horn_cues", &read("rules.txt")).run(None, score);
    let part = "bar   1   4/4  rest   2            new time
bar   3        cue    3  oboe      new cue
bar   6        cue    1  clarinet  new cue
bar   7        rest   1            new cue
score: 7 bars, 56 eighths
part:  7 bars, 56 eighths
";
    assert_eq!(text(&ended.stdout), part);
    assert_eq!(ended.status.code(), Some(0));
}

#[test]
fn after_any_other_end_there_is_a_warning_and_no_part() {
    let extractor = Extractor::new("horn_warning", &read("rules.txt"));
    let score = read("score.txt");
    let warned = |extractor: &Extractor, budget, why: &str| {
        let ended = extractor.run(budget, &score);
        let warning = format!("warning: {why}; no part is written\n");
        assert_eq!(text(&ended.stderr), warning);
        assert_eq!((ended.stdout.len(), ended.status.code()), (0, Some(1)));
    };
    let stopped = "the machine was stopped, end 22, budget spent";
    warned(&extractor, Some(0), &format!("bars 1 and 2: {stopped}"));
    warned(&extractor, Some(10), &format!("bars 3 and 4: {stopped}"));
    // Rules that leave no room for a question in the 4,000 bytes of a file.
    let rules = read("rules.txt");
    let many = rules.replace(
        "% The query",
        &format!("{}% The query", "never.\n".repeat(765)),
    );
    let long = Extractor::new("horn_long", &many);
    let refused = "bars 1 and 2: the question was refused, 2, file too long";
    warned(&long, None, refused);
    // One budget is enough for all questions; with any smaller one no part is
    // written.
    let part = read("part.txt");
    let parts = (0..200).map(|budget| {
        let ended = extractor.run(Some(budget), &score);
        let whole = ended.status.success();
        let due = if whole { &part } else { "" };
        assert_eq!(text(&ended.stdout), due, "{budget}");
        assert_eq!(ended.stderr.is_empty(), whole);
        whole
    });
    let parts: Vec<_> = parts.collect();
    let enough = parts.iter().position(|&whole| whole).expect("a part");
    assert!(enough > 10 && parts[enough..].iter().all(|&whole| whole));
}
