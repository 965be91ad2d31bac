//! Loads a policy and the solver's file, and prints what a reader sees: `load POLICY FILE.xml READER`.
//!
//! POLICY is a file of subject, isa and rule lines. What is refused is told in words, with the file and the line; then
//! the status is 1, and no view is printed.

use louvretansy::{Store, MAX_RECORDS};
use std::env;
use std::fmt::Display;
use std::fs;
use std::io::{self, Write};
use std::process::ExitCode;

/// Says of an error what it is about.
fn about<E: Display>(what: &str) -> impl FnOnce(E) -> String + '_ {
    move |error| format!("{what}: {error}")
}

/// What the reader sees of the solver's file under the policy.
fn view(policy: &str, solver: &str, reader: &str) -> Result<Vec<u8>, String> {
    let mut store = Store::new(MAX_RECORDS);
    let lines = fs::read(policy).map_err(about(policy))?;
    for (number, line) in (1..).zip(lines.split_inclusive(|&byte| byte == b'\n')) {
        let line = line.strip_suffix(b"\n").unwrap_or(line);
        store.line(line).map_err(about(&format!("{policy}:{number}")))?;
    }
    let document = fs::read(solver).map_err(about(solver))?;
    store.load_xml(document).map_err(about(solver))?;
    let login = format!("(user {reader})");
    store.line(&login).map_err(about(&login))?;
    store.line("(view)").map_err(about("(view)"))
}

fn main() -> ExitCode {
    let words: Vec<String> = env::args().skip(1).collect();
    let [policy, solver, reader] = &words[..] else {
        eprintln!("load POLICY FILE.xml READER");
        return ExitCode::from(2);
    };
    let printed =
        view(policy, solver, reader).and_then(|view| io::stdout().write_all(&view).map_err(about("standard output")));
    match printed {
        Ok(()) => ExitCode::SUCCESS,
        Err(words) => {
            eprintln!("{words}");
            ExitCode::FAILURE
        }
    }
}
