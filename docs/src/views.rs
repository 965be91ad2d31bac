//! The tester of the view alone (plain_view.rs): `(view)` on random, empty and damaged states and tables, through the straightforward version and through it. The
//! returned number and every byte of state, table and area must be the same; a refused line must leave all of them as they were.
//!
//!     views [--seed N] [--lines N] [--library FILE.so | --wrong NAME]

use std::collections::BTreeMap;
use std::process::ExitCode;
use timetable::reading::Reading;
use timetable::step::{AREA_SHORT, BAD_STORE, NO_USER, WRONG_STAGE};
use timetable::testing::engine::{Engine, PlainView, Straightforward};
use timetable::testing::lent::{agree, new_area, Lent};
use timetable::testing::options::Options;
use timetable::testing::random::Random;
use timetable::testing::sessions;

const DEFAULT_LINES: usize = 100_000;
const LINE: &[u8] = b"(view)";

/// What a view gave: a refusal, or what its answer shows.
fn kind(returned: i64, area: &[u8]) -> String {
    match returned {
        ..0 => format!("refused {}", -returned),
        _ if area.starts_with(b"(end 0)") => "empty".to_string(),
        _ if area[..returned as usize].windows(10).any(|text| text == b"RESTRICTED") => "with RESTRICTED".to_string(),
        _ => "with labels alone".to_string(),
    }
}

fn run(engine: &dyn Engine, seed: u64, lines: usize) -> bool {
    let mut seen: BTreeMap<String, usize> = BTreeMap::new();
    for number in 0..lines {
        let mut random = Random::part(seed, number as u64);
        let start = if number % 2 == 0 { sessions::tight_start(&mut random) } else { sessions::start(&mut random) };
        let before = Lent { state: start.state, table: start.table, area: new_area(&mut random) };
        let (mut one, mut other) = (before.clone(), before.clone());
        let returned = one.line(&Straightforward(Reading::Right), LINE);
        let second = other.line(engine, LINE);
        if let Err(what) = agree(&before, (&one, returned), (&other, second)) {
            println!("FAILED: view {number}, from {} bytes: {what}", start.kind);
            return false;
        }
        *seen.entry(kind(returned, &one.area)).or_default() += 1;
    }
    for (kind, count) in &seen {
        println!("{kind}: {count}");
    }
    let refusals = [WRONG_STAGE, NO_USER, AREA_SHORT, BAD_STORE].map(|number| format!("refused {number}"));
    let answers = ["empty", "with RESTRICTED", "with labels alone"].map(String::from);
    let unseen: Vec<&String> = refusals.iter().chain(&answers).filter(|kind| !seen.contains_key(*kind)).collect();
    if !unseen.is_empty() {
        println!("FAILED: not seen: {unseen:?}");
    }
    unseen.is_empty()
}

fn main() -> ExitCode {
    let usage = "views [--seed N] [--lines N] [--library FILE.so | --wrong NAME]";
    let Some(options) = Options::read(usage, DEFAULT_LINES, Box::new(PlainView)) else {
        return ExitCode::from(2);
    };
    if run(options.engine.as_ref(), options.seed, options.lines) {
        ExitCode::SUCCESS
    } else {
        ExitCode::FAILURE
    }
}
