//! The night run over folders with good, refused, stopped and linked files, by
//! GNU parallel where it is installed, and by xargs.

mod common;

use std::fs;
use std::os::unix::ffi::OsStrExt;
use std::os::unix::fs::{symlink, PermissionsExt};
use std::path::{Path, PathBuf};
use std::process::{Child, Command, Output, Stdio};
use std::sync::OnceLock;
use std::time::{Duration, Instant};

use common::*;
use second::assemble::file;
use second::damage::length;

/// What the program writes for case A, as document 01 has it.
const WRITTEN: &[u8] = b"end 20 answers 2 units 18 bytes 45
\x0A\x00\x00\x00\x01\x05\x00\x00\x05\x00\x01\x05\x00\x02\x05\x00\x00\x0C\x00\x00\x0D\
\x0A\x00\x00\x00\x02\x05\x00\x01\x05\x00\x02\x05\x00\x00\x05\x00\x00\x0C\x00\x01\x0C\x00\x00\x0D";

/// Who runs the files of a night.
#[derive(Clone, Copy, PartialEq, Debug)]
enum Way {
    Parallel,
    Xargs,
}

/// The ways that are open here.
fn ways() -> Vec<Way> {
    let asked = Command::new("parallel").arg("--version").output();
    if asked.is_ok_and(|said| said.stdout.starts_with(b"GNU parallel")) {
        return vec![Way::Parallel, Way::Xargs];
    }
    eprintln!("GNU parallel is not installed: the night is tried with xargs alone");
    vec![Way::Xargs]
}

fn small_program() -> &'static Path {
    static PROGRAM: OnceLock<PathBuf> = OnceLock::new();
    PROGRAM.get_or_init(|| compiled(C99, &path("program/pegplanet.c"), "night_program"))
}

/// A new folder with these files.
fn folder(name: &str, files: &[(&str, &[u8])]) -> PathBuf {
    let folder = own(name);
    drop(fs::remove_dir_all(&folder));
    fs::create_dir_all(folder.join("more of them")).expect("a folder");
    for (name, file) in files {
        fs::write(folder.join(name), file).expect("a file");
    }
    folder
}

/// A script of the shell in the place of the program.
fn stand_in(name: &str, lines: &str) -> PathBuf {
    let program = own(name);
    fs::write(&program, format!("#!/bin/sh\n{lines}\n")).expect("a program");
    fs::set_permissions(&program, fs::Permissions::from_mode(0o755)).expect("a program");
    program
}

/// A night to be called, which hears every signal.
fn night(way: Way, program: &Path) -> Command {
    let mut command = Command::new("env");
    command.arg("--default-signal").arg(path("examples/night"));
    command.env("PEGPLANET", program);
    match way {
        Way::Parallel => command.env_remove("NIGHT_WITHOUT_PARALLEL"),
        Way::Xargs => command.env("NIGHT_WITHOUT_PARALLEL", "1"),
    };
    command
}

fn text(bytes: &[u8]) -> String {
    String::from_utf8_lossy(bytes).into_owned()
}

/// A night's table and status, with nothing on standard error but what a way
/// says of itself.
fn quiet(way: Way, ended: &Output) -> (String, Option<i32>) {
    let due = match way {
        Way::Parallel => "",
        Way::Xargs => "night: without GNU parallel xargs runs the night, on this machine alone\n",
    };
    assert_eq!(text(&ended.stderr), due);
    (text(&ended.stdout), ended.status.code())
}

/// The lines of the log without date and time, which are looked at here.
fn log(folder: &Path) -> Vec<String> {
    let log = fs::read_to_string(folder.join("night.log")).expect("a log");
    let line = |line: &str| {
        let column: Vec<_> = line.split('\t').collect();
        let [date, name, said, units, seconds] = column[..] else {
            panic!("{line}")
        };
        let pattern = "dddd-dd-ddTdd:dd:ddZ".chars();
        let fits = |(c, due): (char, char)| {
            if due == 'd' {
                c.is_ascii_digit()
            } else {
                c == due
            }
        };
        assert_eq!(date.len(), 20, "{line}");
        assert!(date.chars().zip(pattern).all(fits), "{line}");
        let seconds: f64 = seconds.parse().expect("seconds");
        assert!((0.0..60.0).contains(&seconds), "{line}");
        let name = name.replace(&format!("{}/", folder.display()), "");
        [said, units, &name].join(" | ")
    };
    let mut lines: Vec<_> = log.lines().map(line).collect();
    lines.sort();
    lines
}

#[test]
fn answers_stand_beside_the_files_and_a_line_for_each_in_the_log() {
    for way in ways() {
        let none = file("eq(V,V). ?- eq(X,f(X)).");
        let good = folder(
            &format!("a good night, {way:?}"),
            &[
                ("append.rules", APPEND),
                ("more of them/two words.rules", APPEND),
                ("none.rules", &none),
                ("no rules", &[0]),
            ],
        );
        // The second time, answers and log of the first are replaced.
        for _ in 0..2 {
            let ended = run(night(way, small_program()).arg(&good), &[]);
            let table = "end 20            3  no more answers\n".to_string();
            assert_eq!(quiet(way, &ended), (table, Some(0)));
            let written = |name: &str| fs::read(good.join(name)).expect(name);
            assert_eq!(written("append.answers"), WRITTEN);
            assert_eq!(written("more of them/two words.answers"), WRITTEN);
            let line = b"end 20 answers 0 units 3 bytes 0\n";
            assert_eq!(written("none.answers"), line);
            let lines = [
                "end 20 | 18 | append.rules",
                "end 20 | 18 | more of them/two words.rules",
                "end 20 | 3 | none.rules",
            ];
            assert_eq!(log(&good), lines);
        }
    }
}

#[test]
fn refused_and_stopped_files_are_told() {
    for way in ways() {
        let bad = folder(
            &format!("a bad night, {way:?}"),
            &[
                ("append.rules", APPEND),
                ("budget.rules", &file("p(X,Y) :- p(X,Y). ?- p(a,a).")),
                ("empty.rules", &[]),
                ("long.rules", &length(4_001)),
                ("more of them/short.rules", &APPEND[..69]),
                (
                    "output.rules",
                    &file("nat(z). nat(s(N)) :- nat(N). ?- nat(X)."),
                ),
                ("steps.rules", &file("p :- p. ?- p.")),
            ],
        );
        let ended = run(night(way, small_program()).arg(&bad), &[]);
        let table = "end 20            1  no more answers
end 22            1  budget spent
end 24            1  limit of steps met
end 26            1  output full
refused 2         1  file too long
refused 4         2  file ends where a record is due or not whole
";
        // An answer of n steps takes 6 + 6n bytes: 16 of them take 912, and one
        // more would take 1,020. It is found after 4n - 2 units, 66 for the last.
        let output = "end 26 answers 16 units 66 bytes 912";
        let files = [
            ("budget.rules", "end 22 answers 0 units 1000 bytes 0"),
            ("empty.rules", "refused 4 at 0"),
            ("long.rules", "refused 2 at 0"),
            ("more of them/short.rules", "refused 4 at 69"),
            ("output.rules", output),
            (
                "steps.rules",
                "end 24 answers 0 units 401 bytes 0 limits too small",
            ),
        ];
        let line = |(name, line)| format!("{}: {line}\n", bad.join(name).display());
        let lines = files.map(line).concat();
        let due = (format!("{table}{lines}"), Some(1));
        assert_eq!(quiet(way, &ended), due);
        let short = fs::read(bad.join("more of them/short.answers"));
        assert_eq!(short.expect("what was said"), b"refused 4 at 69\n");
        let refused = "refused 4 | - | more of them/short.rules".to_string();
        assert!(log(&bad).contains(&refused));
    }
}

#[test]
fn links_are_followed_and_one_that_leads_nowhere_is_told() {
    for way in ways() {
        let elsewhere = folder(
            &format!("elsewhere, {way:?}"),
            &[("far.rules", APPEND), ("not here", APPEND)],
        );
        let linked = folder(&format!("a linked night, {way:?}"), &[]);
        symlink(elsewhere.join("not here"), linked.join("near.rules")).expect("a link");
        symlink(&elsewhere, linked.join("far")).expect("a link");
        let ended = run(night(way, small_program()).arg(&linked), &[]);
        let table = "end 20            2  no more answers\n".to_string();
        assert_eq!(quiet(way, &ended), (table.clone(), Some(0)));
        for answers in [linked.join("near.answers"), elsewhere.join("far.answers")] {
            assert_eq!(fs::read(answers).expect("answers"), WRITTEN);
        }
        // What find complains of is told, and no good night.
        symlink(&linked, linked.join("round and round")).expect("a link");
        let ended = run(night(way, small_program()).arg(&linked), &[]);
        assert!(text(&ended.stderr).contains("round and round"));
        assert_eq!((text(&ended.stdout), ended.status.code()), (table, Some(1)));
        symlink(linked.join("nothing"), linked.join("lost.rules")).expect("a link");
        let ended = run(night(way, small_program()).arg(&linked), &[]);
        let lost = linked.join("lost.rules").display().to_string();
        let table = "end 20            2  no more answers
nothing said      1  the program failed
";
        assert_eq!(
            text(&ended.stdout),
            format!("{table}{lost}: nothing said\n")
        );
        assert_eq!(ended.status.code(), Some(1));
        let errors = text(&ended.stderr);
        assert!(
            errors.contains(&format!("{lost}: No such file")),
            "{errors}"
        );
        assert!(!errors.contains('\r'));
    }
}

#[test]
fn two_ways_to_one_file_do_not_meet() {
    for way in ways() {
        let names: Vec<_> = (0..40)
            .map(|number| format!("more of them/{number}.rules"))
            .collect();
        let files: Vec<_> = names.iter().map(|name| (name.as_str(), APPEND)).collect();
        let twice = folder(&format!("a night with twins, {way:?}"), &files);
        symlink(twice.join("more of them"), twice.join("the same")).expect("a link");
        let ended = run(night(way, small_program()).arg(&twice), &[]);
        let table = "end 20           80  no more answers\n".to_string();
        assert_eq!(quiet(way, &ended), (table, Some(0)));
        for name in names {
            let answers = twice.join(name.replace(".rules", ".answers"));
            assert_eq!(fs::read(answers).expect("answers"), WRITTEN);
        }
    }
}

#[test]
fn a_file_may_have_any_name() {
    let names = [
        "-dash",
        "{}",
        "$(touch made)",
        "`touch made`",
        "quote'",
        "double \"",
        "back\\slash",
        "new\nline",
        "a\ttab",
        "%s",
        "*",
        "~",
    ];
    let shown = |name: &str| name.replace('\n', "\\n").replace('\t', "\\t");
    for way in ways() {
        let odd = folder(&format!("an odd night, {way:?}"), &[]);
        for name in names {
            fs::write(odd.join(format!("{name}.rules")), APPEND).expect("a file");
        }
        let ended = run(night(way, small_program()).arg(&odd), &[]);
        let table = format!("end 20       {:6}  no more answers\n", names.len());
        assert_eq!(quiet(way, &ended), (table, Some(0)));
        let lines = log(&odd).join("\n");
        for name in names {
            let answers = fs::read(odd.join(format!("{name}.answers")));
            assert_eq!(answers.expect(name), WRITTEN);
            assert!(lines.contains(&format!("{}.rules", shown(name))), "{lines}");
        }
        assert_eq!(lines.lines().count(), names.len());
        assert!(!odd.join("made").exists() && !Path::new("made").exists());
    }
}

#[test]
fn where_the_program_fails_there_are_no_answers_not_even_old_ones() {
    for way in ways() {
        let files = [("append.rules", APPEND), ("append.answers", WRITTEN)];
        let folder = folder(&format!("a failing night, {way:?}"), &files);
        let line = format!("{}: nothing said\n", folder.join("append.rules").display());
        let due = format!("nothing said      1  the program failed\n{line}");
        let half = stand_in(
            "half",
            "[ \"$1\" = --numbers ] && exit; echo end 20; exit 2",
        );
        for program in [Path::new("/bin/true"), &half] {
            let ended = run(night(way, program).arg(&folder), &[]);
            assert_eq!(quiet(way, &ended), (due.clone(), Some(1)));
            let left = fs::read_dir(&folder).expect("a folder");
            let left = left.filter(|entry| {
                let name = entry.as_ref().expect("an entry").file_name();
                name.as_bytes().starts_with(b"append.a")
            });
            assert_eq!(left.count(), 0);
        }
    }
}

#[test]
fn a_night_with_nothing_to_run_says_so() {
    let empty = folder("an empty night", &[("no rules", &[0])]);
    let refused = |way, program: &str, words: &[&str], due: &str| {
        let ended = run(night(way, Path::new(program)).args(words), &[]);
        assert!(text(&ended.stderr).contains(due), "{}", text(&ended.stderr));
        assert_eq!((ended.stdout.len(), ended.status.code()), (0, Some(2)));
    };
    let at = empty.display().to_string();
    for way in ways() {
        refused(way, "/bin/true", &[&at], "there is no rule file in ");
        refused(way, "/bin/true", &["no such"], "there is no folder no such");
        refused(way, "no such", &[&at], "there is no program no such");
        let usage = "night [--resume] [--hosts LIST] FOLDER";
        for words in [&[][..], &["a", "b"], &["--unknown", &at], &["--hosts"]] {
            refused(way, "/bin/true", words, usage);
        }
    }
    for words in [&["--resume", &at][..], &["--hosts", ":", &at]] {
        let due = "--resume and --hosts need GNU parallel";
        refused(Way::Xargs, "/bin/true", words, due);
    }
    if ways().contains(&Way::Parallel) {
        fs::remove_file(empty.join("night.files")).expect("the list");
        let due = "there is no night to resume in ";
        refused(Way::Parallel, "/bin/true", &["--resume", &at], due);
    }
    let ended = run(night(Way::Xargs, Path::new("no such")).arg("--help"), &[]);
    assert!(text(&ended.stdout).contains("night [--resume] [--hosts LIST] FOLDER"));
    assert_eq!(ended.status.code(), Some(0));
}

/// Waits until something is so; a minute is far more than it takes.
fn until(what: &str, mut so: impl FnMut() -> bool) {
    let start = Instant::now();
    while !so() {
        assert!(start.elapsed() < Duration::from_secs(60), "{what}");
        std::thread::sleep(Duration::from_millis(5));
    }
}

/// Files s00 to s59. Until there is the file `go`, or for a minute, the program
/// waits at each from s30 on.
fn waiting_night(way: Way, name: &str) -> (PathBuf, PathBuf) {
    let numbers: Vec<_> = (0..60)
        .map(|number| format!("s{number:02}.rules"))
        .collect();
    let files: Vec<_> = numbers.iter().map(|name| (name.as_str(), APPEND)).collect();
    let folder = folder(&format!("{name}, {way:?}"), &files);
    fs::write(folder.join("s59.answers"), "old").expect("old answers");
    let go = folder.join("go");
    let lines = format!(
        "case $1 in
    *s[345]?.rules) turns=0; while [ ! -e '{}' ] && [ $turns -lt 6000 ]; do sleep 0.01; turns=$((turns + 1)); done ;;
esac
exec '{}' \"$@\"",
        go.display(),
        small_program().display()
    );
    (
        folder,
        stand_in(&format!("{name}, {way:?}, program"), &lines),
    )
}

/// A night that has come to the files at which its program waits.
fn started(way: Way, folder: &Path, program: &Path) -> Child {
    let mut command = night(way, program);
    let output = command.arg(folder).stdin(Stdio::null());
    let output = output.stdout(Stdio::piped()).stderr(Stdio::piped());
    let child = output.spawn().expect("a night");
    let half =
        || fs::read(folder.join("night.log")).is_ok_and(|log| text(&log).lines().count() == 30);
    until("the first half is run", half);
    // Answers of an earlier night are gone, also those of files to come.
    assert!(!folder.join("s59.answers").exists());
    child
}

#[test]
fn an_interrupted_night_is_resumed() {
    if !ways().contains(&Way::Parallel) {
        return;
    }
    for signal in ["-TERM", "-INT", "-HUP"] {
        let (folder, program) = waiting_night(Way::Parallel, &format!("a night by {signal}"));
        let child = started(Way::Parallel, &folder, &program);
        let id = child.id().to_string();
        let killed = Command::new("kill").args([signal, &id]).status();
        assert!(killed.expect("kill").success());
        let ended = child.wait_with_output().expect("it ends");
        let due = "end 20           30  no more answers\nof 60 files 30 were run\n".to_string();
        assert_eq!(quiet(Way::Parallel, &ended), (due, Some(1)));
        // What a killed night would leave half written is removed.
        fs::write(folder.join("s58.answers.part.x.1"), "end 20").expect("a part");
        // A file that was added waits for the next night.
        fs::write(folder.join("s99.rules"), APPEND).expect("a file");
        fs::write(folder.join("go"), "").expect("a file");
        let mut command = night(Way::Parallel, &program);
        let ended = run(command.arg("--resume").arg(&folder), &[]);
        let due = "end 20           60  no more answers\n".to_string();
        assert_eq!(quiet(Way::Parallel, &ended), (due, Some(0)));
        let numbers = (0..60).map(|number| format!("end 20 | 18 | s{number:02}.rules"));
        // A file that was run when the night was stopped may be run again.
        let mut lines = log(&folder);
        lines.dedup();
        assert_eq!(lines, numbers.collect::<Vec<_>>());
        for entry in fs::read_dir(&folder).expect("a folder") {
            let path = entry.expect("an entry").path();
            assert!(!text(path.as_os_str().as_bytes()).contains(".part"));
            if path.extension().is_some_and(|end| end == "answers") {
                assert_eq!(fs::read(path).expect("answers"), WRITTEN);
            }
        }
        assert!(folder.join("s59.answers").exists() && !folder.join("s99.answers").exists());
    }
}

#[test]
fn a_line_of_the_log_that_is_not_whole_does_not_count() {
    if !ways().contains(&Way::Parallel) {
        return;
    }
    let files = [("one.rules", APPEND), ("two.rules", APPEND)];
    let folder = folder("a torn night", &files);
    let ended = run(night(Way::Parallel, small_program()).arg(&folder), &[]);
    assert_eq!(ended.status.code(), Some(0));
    let whole = fs::read(folder.join("night.log")).expect("a log");
    // Units and seconds of the last line take more than these bytes.
    fs::write(folder.join("night.log"), &whole[..whole.len() - 11]).expect("a log");
    let mut command = night(Way::Parallel, small_program());
    let ended = run(command.arg("--resume").arg(&folder), &[]);
    let due = "end 20            1  no more answers\nof 2 files 1 were run\n".to_string();
    assert_eq!(quiet(Way::Parallel, &ended), (due, Some(1)));
}

#[test]
fn there_is_one_night_at_a_time_in_a_folder() {
    for way in ways() {
        let (folder, program) = waiting_night(way, "a long night");
        let child = started(way, &folder, &program);
        let ended = run(night(way, &program).arg(&folder), &[]);
        assert!(text(&ended.stderr).contains("a night in "));
        assert_eq!((ended.stdout.len(), ended.status.code()), (0, Some(2)));
        fs::write(folder.join("go"), "").expect("a file");
        let ended = child.wait_with_output().expect("it ends");
        let due = "end 20           60  no more answers\n".to_string();
        assert_eq!(quiet(way, &ended), (due, Some(0)));
    }
}

#[test]
fn this_machine_may_be_one_of_several() {
    if ways().contains(&Way::Parallel) {
        let folder = folder("a shared night", &[("append.rules", APPEND)]);
        let mut command = night(Way::Parallel, small_program());
        let ended = run(command.args(["--hosts", "2/:"]).arg(&folder), &[]);
        let due = "end 20            1  no more answers\n".to_string();
        assert_eq!(quiet(Way::Parallel, &ended), (due, Some(0)));
        assert_eq!(
            fs::read(folder.join("append.answers")).expect("answers"),
            WRITTEN
        );
    }
}
