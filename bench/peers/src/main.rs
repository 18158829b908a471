//! Runs one contender in Rust, and prints its nanoseconds an operation on one line, as `contenders.c` does.
#![forbid(unsafe_code)]

mod contender;
mod epoch;
mod list;
mod runs;
mod swap;

use contender::{batches, lookups, Contender};
use list::{Key, MOST_ENTRIES};
use runs::{nanoseconds_each, nanoseconds_waited};
use std::process::ExitCode;

const MOST_THREADS: usize = 64;
const MOST_COUNT: usize = 1_000_000_000;

const USAGE: &str = "usage: peers crossbeam-epoch|arc-swap THREADS ENTRIES OPERATIONS
       peers crossbeam-epoch|arc-swap wait CPUS READERS ENTRIES COUNT";

fn main() -> ExitCode {
    let words: Vec<String> = std::env::args().skip(1).collect();
    let words: Vec<&str> = words.iter().map(String::as_str).collect();
    match run(&words) {
        Ok(line) => {
            println!("{line}");
            ExitCode::SUCCESS
        }
        Err(fault) => {
            eprintln!("{fault}");
            ExitCode::FAILURE
        }
    }
}

/// The line of what the words ask for.
fn run(words: &[&str]) -> Result<String, &'static str> {
    let Some((name, words)) = words.split_first() else {
        return Err(USAGE);
    };
    match *name {
        "crossbeam-epoch" => run_as(epoch::Epoch::new, words),
        "arc-swap" => run_as(swap::Swap::new, words),
        _ => Err(USAGE),
    }
}

fn run_as<C: Contender>(open: fn(usize) -> C, words: &[&str]) -> Result<String, &'static str> {
    match words {
        [threads, entries, count] => {
            let threads = number(threads, 1, MOST_THREADS)?;
            let entries = number(entries, 1, MOST_ENTRIES)?;
            let count = number(count, 1, MOST_COUNT)? as u64;
            operations(&open(entries), threads, entries, count).ok_or("a wrong answer")
        }
        ["wait", cpus, readers, entries, count] => {
            let cpus = number(cpus, 1, MOST_THREADS)?;
            let readers = number(readers, 0, cpus - 1)?;
            let entries = number(entries, 1, MOST_ENTRIES)?;
            let count = number(count, 1, MOST_COUNT)? as u64;
            let waited = waits(&open(entries), [cpus, readers], entries, count).ok_or("a wrong answer")?;
            Ok(format!("cpus {cpus} readers {readers} entries {entries}{waited}"))
        }
        _ => Err(USAGE),
    }
}

fn number(word: &str, least: usize, most: usize) -> Result<usize, &'static str> {
    let number = word.parse().map_err(|_| USAGE)?;
    if (least..=most).contains(&number) {
        Ok(number)
    } else {
        Err(USAGE)
    }
}

fn keys(entries: usize) -> Vec<Key> {
    (0..entries).map(Key::of).collect()
}

fn operations<C: Contender>(contender: &C, threads: usize, entries: usize, count: u64) -> Option<String> {
    let keys = keys(entries);
    let lookup = nanoseconds_each(contender, lookups, &keys, threads, count)?;
    let batch = nanoseconds_each(contender, batches, &keys, threads, count)?;
    Some(format!("threads {threads} entries {entries} lookup {lookup:.2} batch {batch:.2}"))
}

fn waits<C: Contender>(contender: &C, threads: [usize; 2], entries: usize, count: u64) -> Option<String> {
    let keys = keys(entries);
    let replace = nanoseconds_waited(contender, (C::replace, 1), &keys, threads, count)?;
    let exchange = nanoseconds_waited(contender, (C::exchange, 0), &keys, threads, count)?;
    let mut line = format!(" replace {replace:.1} exchange {exchange:.1}");
    if contender.perform().is_some() {
        let perform = |contender: &C| {
            contender.perform();
        };
        let perform = nanoseconds_waited(contender, (perform, 0), &keys, threads, count)?;
        line += &format!(" perform {perform:.1}");
    }
    Some(line)
}
