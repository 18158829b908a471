//! The sessions of docs/SCRIPTS.md of the repository, whose left column has the commands and whose
//! right column the report. There are many more scripts in a kit of `tools/conformance.py`, which
//! runs them by `tools/conformance.py run KIT script /dev/stdin`.
#![allow(dead_code)]

mod common;
#[path = "../examples/script.rs"]
mod script;

use std::fs;

#[test]
fn each_session_has_its_report() {
    let page = concat!(env!("CARGO_MANIFEST_DIR"), "/../docs/SCRIPTS.md");
    let page = match fs::read_to_string(page) {
        Ok(page) => page,
        Err(_) => return eprintln!("no {page}: a package of the crate has no such page"),
    };
    let sessions: Vec<&str> =
        page.split("```session\n").skip(1).filter_map(|rest| rest.split("```").next()).collect();
    assert!(sessions.len() > 2);
    for session in sessions {
        let columns: Vec<(&str, &str)> =
            session.lines().filter_map(|line| line.split_once("  ")).collect();
        let (commands, report): (Vec<&str>, Vec<&str>) =
            columns.into_iter().map(|(left, right)| (left, right.trim())).unzip();
        let mut lines = Vec::new();
        script::run(&commands.join("\n"), |line| lines.push(line.to_string()));
        assert_eq!(lines, report);
    }
}
