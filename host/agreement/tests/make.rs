//! What `make` shows, and that what `make install` puts in place serves a
//! program elsewhere.

mod common;

use std::fs;
use std::os::unix::fs::PermissionsExt;
use std::process::Command;

use common::*;

/// What make writes for these words, in a place where the toolchain of the
/// proofs cannot be used: the library is there, and no file of the crates is
/// newer.
fn make(words: &[&str]) -> (String, String) {
    let folder = own("no toolchain");
    fs::create_dir_all(&folder).expect("a folder");
    let rt = folder.join("rt");
    fs::write(&rt, "#!/bin/sh\nexit 9\n").expect("no toolchain");
    fs::set_permissions(&rt, fs::Permissions::from_mode(0o755)).expect("no toolchain");
    let paths = std::env::var("PATH").expect("paths");
    let mut make = Command::new("make");
    make.current_dir(path("."))
        .env_remove("MAKEFLAGS")
        .env("PATH", format!("{}:{paths}", folder.display()));
    let ended = run(make.args(words), &[]);
    let text = |bytes: &[u8]| String::from_utf8_lossy(bytes).into_owned();
    let (out, errors) = (text(&ended.stdout), text(&ended.stderr));
    assert!(ended.status.success(), "{out}{errors}");
    (out, errors)
}

#[test]
fn it_shows_case_a_and_the_part_and_installs_the_library() {
    let (out, errors) = make(&["CFLAGS=-O2 -Werror"]);
    assert!(
        out.contains("\nend 20 answers 2 units 18 bytes 45\n"),
        "{out}"
    );
    let part = fs::read_to_string(path("examples/horn/part.txt")).expect("the part");
    assert!(out.contains(&part), "{out}");
    assert!(errors.contains("warning: bars 3 and 4: the machine was stopped, end 22"));

    // A compiler's words come from outside, and warnings stop no one else.
    let words = ["-n", "-W", "include/pegplanet.h", "build/pegplanet"];
    let (theirs, _) = make(&[&words[..], &["CFLAGS=-O3 -g"]].concat());
    assert!(theirs.contains(" -O3 -g "), "{theirs}");
    let (ours, _) = make(&words);
    assert!(ours.contains("-O2") && !ours.contains("-Werror"), "{ours}");

    let prefix = own("installed");
    drop(fs::remove_dir_all(&prefix));
    let at = prefix.display().to_string();
    make(&["install", &format!("PREFIX={at}")]);
    let (line, _) = said(&prefix.join("bin/pegplanet"), APPEND);
    assert!(line.starts_with("end 20 answers 2 units 18 bytes 45\n"));
    let flags = fs::read_to_string(prefix.join("lib/pkgconfig/pegplanet.pc")).expect("flags");
    assert!(flags.contains(&format!("prefix={at}\n")), "{flags}");
    let header = fs::read_to_string(prefix.join("include/pegplanet.h")).expect("the header");
    let version = flags
        .lines()
        .find_map(|line| line.strip_prefix("Version: "));
    let version = format!("PEGPLANET_VERSION \"{}\"\n", version.expect("a version"));
    assert!(header.contains(&version), "{flags}");
    let given = |name: &str| -> Vec<String> {
        let line = flags.lines().find_map(|line| line.strip_prefix(name));
        let words = line.expect(name).split_whitespace();
        words.map(|word| word.replace("${prefix}", &at)).collect()
    };
    // As pkg-config says, with the archive; and with the shared library.
    let shared = [format!("-L{at}/lib"), "-lpegplanet".to_string()];
    let found = [format!("-Wl,-rpath,{at}/lib")];
    for (name, libraries) in [
        ("installed_check", given("Libs:")),
        ("shared_check", [&shared[..], &found].concat()),
    ] {
        let program = own(name);
        let mut compiler = Command::new("cc");
        compiler
            .args(given("Cflags:"))
            .arg(path("examples/check.c"));
        compiler.args(libraries).arg("-o").arg(&program);
        assert!(run(&mut compiler, &[]).status.success());
        assert_eq!(said(&program, APPEND), ("good\n".to_string(), Some(0)));
    }
    // The one holds the library, the other one needs it.
    fs::remove_file(prefix.join("lib/libpegplanet.so")).expect("the shared library");
    assert_eq!(said(&own("installed_check"), APPEND).1, Some(0));
    assert_ne!(said(&own("shared_check"), APPEND).1, Some(0));
}
