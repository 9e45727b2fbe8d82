//! What the tests share: C programs of this repository, compiled without a
//! warning, linked with the library and run.
#![allow(dead_code)]

use std::io::Write;
use std::path::{Path, PathBuf};
use std::process::{Command, Output, Stdio};

pub const APPEND: &[u8] = include_bytes!("../../../../examples/append.rules");

/// The languages that the header is for.
pub const C99: (&str, &[&str]) = ("cc", &["-std=c99", "-x", "c"]);
pub const CPP: (&str, &[&str]) = ("c++", &["-std=c++11", "-x", "c++"]);

/// A path of the repository.
pub fn path(name: &str) -> PathBuf {
    Path::new(env!("CARGO_MANIFEST_DIR"))
        .join("../..")
        .join(name)
}

/// A path for what a test writes.
pub fn own(name: &str) -> PathBuf {
    Path::new(env!("CARGO_TARGET_TMPDIR")).join(name)
}

/// Compiles a source and links the library to it.
pub fn compiled(language: (&str, &[&str]), source: &Path, program: &str) -> PathBuf {
    let archive = path("build/libpegplanet.a");
    linked(language, source, &[], &archive, program)
}

/// Compiles a source with headers of more folders, and links an archive or
/// another source to it.
pub fn linked(
    (compiler, language): (&str, &[&str]),
    source: &Path,
    folders: &[&Path],
    other: &Path,
    program: &str,
) -> PathBuf {
    let program = own(program);
    let mut command = Command::new(compiler);
    command
        .args(language)
        .args(["-O2", "-Wall", "-Wextra", "-pedantic", "-Werror"])
        .arg("-I")
        .arg(path("include"));
    for folder in folders {
        command.arg("-I").arg(folder);
    }
    command
        .arg(source)
        .args(["-x", "none"])
        .arg(other)
        .arg("-pthread")
        .arg("-o")
        .arg(&program);
    let ended = run(&mut command, &[]);
    let said = String::from_utf8_lossy(&ended.stderr);
    assert!(ended.status.success(), "{compiler}: {said}");
    assert!(said.is_empty(), "{compiler}: {said}");
    program
}

/// What a command writes when it gets these bytes, and its status.
pub fn run(command: &mut Command, input: &[u8]) -> Output {
    let mut child = command
        .stdin(Stdio::piped())
        .stdout(Stdio::piped())
        .stderr(Stdio::piped())
        .spawn()
        .unwrap_or_else(|error| panic!("{command:?} does not run: {error}"));
    let mut stdin = child.stdin.take().expect("its input");
    let input = input.to_vec();
    // A command need not read its input to the end.
    let writer = std::thread::spawn(move || drop(stdin.write_all(&input)));
    let ended = child.wait_with_output().expect("the command ends");
    writer.join().expect("the input is written");
    ended
}

/// What a program says on standard output, and its status.
pub fn said(program: &Path, input: &[u8]) -> (String, Option<i32>) {
    let ended = run(&mut Command::new(program), input);
    let said = String::from_utf8_lossy(&ended.stdout).into_owned();
    (said, ended.status.code())
}
