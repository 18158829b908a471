#![allow(unknown_lints, unexpected_cfgs)]
//! The tests' own eyes: who watches the archive's calls names each that the crate makes, and sees
//! two that are made at once.

mod common;

use common::watched;
use std::env;
use std::process::Command;

#[test]
#[cfg_attr(not(kupaldiz_watched), ignore)]
fn the_calls_of_the_crate_are_watched() {
    let before = watched::calls();
    drop(common::with_driver(7));
    assert!(watched::calls() >= before + 3);
}

/// In a program of its own, since it ends that.
#[test]
fn two_calls_with_one_handle_are_seen() {
    if env::var_os("KUPALDIZ_AT_ONCE").is_some() {
        return meet();
    }
    let ended = Command::new(env::current_exe().unwrap())
        .args(["two_calls_with_one_handle_are_seen", "--nocapture"])
        .env("KUPALDIZ_AT_ONCE", "1")
        .output()
        .unwrap();
    let said = String::from_utf8_lossy(&ended.stderr);
    assert!(
        !ended.status.success() && said.contains("two: a handle is in use by another call"),
        "{said}"
    );
}

/// Takes a handle on another thread while this one has it.
fn meet() {
    let _mine = watched::InUse::take("one", vec![8]);
    std::thread::scope(|scope| drop(scope.spawn(|| drop(watched::InUse::take("two", vec![8])))));
}
