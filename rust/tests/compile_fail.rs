//! The compiler takes compile_fail/cases.rs as it stands, and refuses it with each of its wrong
//! lines. The crate is compiled for it as metadata alone, so no archive is needed.

use std::env;
use std::fs;
use std::path::Path;
use std::process::Command;

/// How many wrong lines there are.
const CASES: usize = 37;

/// Compiles a library whose source is in this folder, also of those that were compiled before. What
/// the compiler says, or nothing where it takes it.
fn compile(path: &str, words: &[&str]) -> Option<String> {
    let (folder, out) = (
        Path::new(env!("CARGO_MANIFEST_DIR")),
        Path::new(env!("CARGO_TARGET_TMPDIR")).join("compile_fail"),
    );
    fs::create_dir_all(&out).unwrap();
    let mut command = Command::new(env::var_os("RUSTC").unwrap_or_else(|| "rustc".into()));
    command
        .args(["--edition", "2021", "--crate-type", "lib", "--emit", "metadata", "-A", "warnings"])
        .env("OUT_DIR", env!("OUT_DIR"));
    command.arg(folder.join(path)).arg("-L").arg(&out).arg("--out-dir").arg(&out).args(words);
    let output = command.output().expect("a compiler");
    (!output.status.success()).then(|| String::from_utf8_lossy(&output.stderr).into_owned())
}

/// What it says of the cases with this one's wrong line.
fn said_of(name: &str) -> Option<String> {
    compile("tests/compile_fail/cases.rs", &["--extern", "kupaldiz", "--cfg", name])
}

/// The errors in the compiler's message, such as `E0505: cannot move out of ..`, or the text alone;
/// except the last line, which sums them up.
fn errors_in(message: &str) -> Vec<String> {
    let heads = message.lines().filter_map(|line| line.strip_prefix("error"));
    let heads = heads.filter_map(|head| match head.strip_prefix('[') {
        Some(coded) => Some(coded.replacen(']', "", 1)),
        None => head.strip_prefix(": ").map(str::to_string),
    });
    heads.filter(|text| !text.starts_with("aborting due to")).collect()
}

/// The name of each case, and how each error of it begins.
fn cases(text: &str) -> Vec<(&str, &str)> {
    let lines = text.lines().filter_map(|line| {
        line.trim().strip_prefix("#[cfg(")?.trim_start_matches("not(").split_once("] // ")
    });
    lines.map(|(name, error)| (name.trim_end_matches(')'), error)).collect()
}

#[test]
fn what_is_wrong_is_refused_for_just_that_reason() {
    assert_eq!(
        (compile("src/lib.rs", &["--crate-name", "kupaldiz"]), said_of("no_case")),
        (None, None)
    );
    let text = include_str!("compile_fail/cases.rs");
    let cases = cases(text);
    assert_eq!((cases.len(), text.matches("#[cfg(").count()), (CASES, CASES));
    for (name, expected) in cases {
        let said = said_of(name).unwrap_or_default();
        let errors = errors_in(&said);
        assert!(
            !errors.is_empty() && errors.iter().all(|error| error.starts_with(expected)),
            "{name}: not {expected}\n{said}"
        );
    }
}
