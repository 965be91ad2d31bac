//! The comparer: random lists of lines and documents, on empty, random and damaged states and tables, through the straightforward version and a second engine.
//! After each the returned number and every byte of state, table and area must be the same; a refused one must leave all of them as they were. What a document
//! leaves must be what the second engine leaves for the root and child lines of the same tree.
//!
//!     compare [--seed N] [--lines N] [--library FILE.so | --wrong NAME]
//!
//! Without a library or a false reading the second engine is the straightforward version itself.

use std::process::ExitCode;
use timetable::form::{LINE_MAXIMUM, WORDS};
use timetable::reading::Reading;
use timetable::sheet::SHEET_BYTES;
use timetable::step::{read_store, AREA_SHORT, BAD_DAY, BAD_LABEL, BAD_STORE, NO_DOCUMENT, TABLE_FULL, TOO_DEEP, WRONG_STAGE};
use timetable::table::{nest, Tree};
use timetable::testing::engine::{Engine, Straightforward};
use timetable::testing::generate::{text_of, tree_text};
use timetable::testing::lent::{agree, new_area, Call, Lent};
use timetable::testing::options::Options;
use timetable::testing::random::Random;
use timetable::testing::sessions::{self, Start};
use timetable::testing::sheets::Sheets;

const DEFAULT_LINES: usize = 20_000;
const ENOUGH_LINES: usize = 20_000; // to have seen every form accepted and every refusal
const LINE_REFUSALS: [u8; 14] = [1, 2, 3, 4, 5, 6, 7, 8, 9, 10, BAD_DAY, 11, 12, 13];
const DOCUMENT_REFUSALS: [u8; 7] = [WRONG_STAGE, BAD_LABEL, TOO_DEEP, TABLE_FULL, AREA_SHORT, BAD_STORE, NO_DOCUMENT];
const TOLD_BYTES: usize = 4_096; // of each line or document, where a difference is told

#[derive(Default)]
struct Counts {
    sessions: usize,
    lines: usize,
    accepted: [usize; WORDS.len() + 1], // by form; the last is for what is none
    refused: [usize; WORDS.len() + 1],
    refusals: [usize; BAD_DAY as usize + 1],
    effective_changes: usize,
    sheets: Sheets,
    documents: Documents,
}

#[derive(Default)]
struct Documents {
    given: usize,
    accepted: usize,
    by_lines: usize, // accepted, and compared with their lines
    filling: usize,  // accepted into a table of exactly their size
    refusals: [usize; NO_DOCUMENT as usize + 1],
}

fn form_number(line: &[u8]) -> usize {
    let word: Vec<u8> = line.iter().skip(1).copied().take_while(|byte| byte.is_ascii_lowercase()).collect();
    WORDS.iter().position(|known| line.first() == Some(&b'(') && known.as_bytes() == word).unwrap_or(WORDS.len())
}

fn compare_session(engine: &dyn Engine, random: &mut Random, start: Start, counts: &mut Counts, told: &mut Vec<String>) -> Result<(), String> {
    let length = sessions::length(random, &start);
    let mut one = Lent { state: start.state, table: start.table, area: new_area(random) };
    let mut other = one.clone();
    let mut before = one.clone();
    for _ in 0..length {
        if random.percent(12) {
            one.area = new_area(random);
            other.area.clone_from(&one.area);
        }
        let store = read_store(&one.state, &one.table);
        let call = sessions::call(random, store.as_ref());
        if random.percent(8) {
            if let Some(length) = short_area(random, &call) {
                one.area.truncate(length);
                other.area.clone_from(&one.area);
            }
        }
        before.copy_from(&one);
        let returned = one.call(&Straightforward(Reading::Right), &call);
        let second = other.call(engine, &call);
        told.push(format!("{returned} {second} {}", call_text(&call)));
        match &call {
            Call::Line(line) => count_line(counts, line, returned, &one.area),
            Call::LoadXml(_) => count_document(&mut counts.documents, returned),
        }
        agree(&before, (&one, returned), (&other, second))?;
        if matches!(call, Call::LoadXml(_)) && returned >= 0 {
            let loaded = read_store(&other.state, &other.table).ok_or("13 does not let the loaded store pass")?;
            counts.documents.filling += usize::from(loaded.table.nodes.len() == loaded.table.capacity);
            counts.documents.by_lines += usize::from(as_by_lines(engine, &before, &other, &nest(&loaded.table.nodes))?);
        }
    }
    Ok(())
}

/// The length of an area that is just long enough for a call's answer, or not.
fn short_area(random: &mut Random, call: &Call) -> Option<usize> {
    match call {
        Call::LoadXml(_) => Some(random.below(6)),
        Call::Line(line) if line.starts_with(b"(sheet ") => Some(random.within(SHEET_BYTES - 1, SHEET_BYTES)),
        Call::Line(_) => None,
    }
}

fn call_text(call: &Call) -> String {
    let (word, bytes) = match call {
        Call::Line(line) => ("", line),
        Call::LoadXml(xml) => ("load_xml ", xml),
    };
    let left = bytes.len().saturating_sub(TOLD_BYTES);
    let behind = if left > 0 { format!(" and {left} bytes more") } else { String::new() };
    format!("{word}{}{behind}", bytes[..bytes.len() - left].escape_ascii())
}

/// The root line and the child lines of a tree.
fn lines_of(tree: &Tree) -> Vec<String> {
    let mut lines = vec![format!("(root {})", text_of(&tree.label))];
    lines.extend(tree.children.iter().map(|child| format!("(child {})", tree_text(child))));
    lines
}

/// Whether a loaded tree was compared with what an engine leaves for its lines: not where one of them is too long. What is wrong, if they differ.
fn as_by_lines(engine: &dyn Engine, before: &Lent, loaded: &Lent, tree: &Tree) -> Result<bool, String> {
    let lines = lines_of(tree);
    if lines.iter().any(|line| line.len() > LINE_MAXIMUM) {
        return Ok(false);
    }
    let mut lent = before.clone();
    for line in &lines {
        let returned = lent.line(engine, line.as_bytes());
        if returned < 0 {
            return Err(format!("the document is taken, and its line {line} is refused with {}", -returned));
        }
    }
    if lent == *loaded {
        Ok(true)
    } else {
        Err(format!("the document leaves other bytes than its lines: {}", lines.join(" ")))
    }
}

fn count_document(documents: &mut Documents, returned: i64) {
    documents.given += 1;
    if returned < 0 {
        documents.refusals[(-returned) as usize] += 1;
    } else {
        documents.accepted += 1;
    }
}

fn count_line(counts: &mut Counts, line: &[u8], returned: i64, area: &[u8]) {
    counts.lines += 1;
    counts.sheets.count(line, returned, area);
    let form = form_number(line);
    if returned < 0 {
        counts.refused[form] += 1;
        counts.refusals[(-returned) as usize] += 1;
    } else {
        counts.accepted[form] += 1;
        let answer = &area[..returned as usize];
        counts.effective_changes += usize::from(answer.starts_with(b"(done ") && !answer.ends_with(b" 0)\n"));
    }
}

fn print_counts(counts: &Counts) {
    let documents = &counts.documents;
    println!("{} sessions, {} lines and {} documents compared", counts.sessions, counts.lines, documents.given);
    println!("{:10} {:>9} {:>9}", "form", "accepted", "refused");
    for (number, word) in WORDS.iter().chain(["(none)"].iter()).enumerate() {
        println!("{word:10} {:>9} {:>9}", counts.accepted[number], counts.refused[number]);
    }
    let refusals = LINE_REFUSALS.map(|number| format!("{number}: {}", counts.refusals[number as usize]));
    println!("changes with at least one node done {}", counts.effective_changes);
    println!("{}", counts.sheets.text());
    println!("refusals {}", refusals.join(", "));
    let refusals = DOCUMENT_REFUSALS.map(|number| format!("{number}: {}", documents.refusals[number as usize]));
    println!(
        "documents accepted {}, {} compared with their lines, {} fill the table; refusals {}",
        documents.accepted,
        documents.by_lines,
        documents.filling,
        refusals.join(", ")
    );
}

/// What a run of enough lines must have seen and has not.
fn unseen(counts: &Counts) -> Vec<String> {
    let forms = (0..WORDS.len()).filter(|form| counts.accepted[*form] == 0).map(|form| format!("{} accepted", WORDS[form]));
    let refusals = LINE_REFUSALS.iter().filter(|number| counts.refusals[**number as usize] == 0).map(|number| format!("refusal {number}"));
    let documents = &counts.documents;
    let too_long = documents.accepted - documents.by_lines;
    let accepted =
        [("taken as its lines are", documents.by_lines), ("taken though its lines are too long", too_long), ("that fills the table", documents.filling)];
    let accepted = accepted.into_iter().filter(|(_, count)| *count == 0).map(|(what, _)| format!("a document {what}"));
    let refused = DOCUMENT_REFUSALS.iter().filter(|number| documents.refusals[**number as usize] == 0).map(|number| format!("refusal {number} of a document"));
    forms.chain(refusals).chain(counts.sheets.unseen()).chain(accepted).chain(refused).collect()
}

fn run(engine: &dyn Engine, seed: u64, lines: usize) -> bool {
    let mut counts = Counts::default();
    while counts.lines < lines {
        let mut random = Random::part(seed, counts.sessions as u64);
        counts.sessions += 1;
        let start = sessions::start(&mut random);
        let kind = start.kind;
        let mut told = Vec::new();
        if let Err(what) = compare_session(engine, &mut random, start, &mut counts, &mut told) {
            print_counts(&counts);
            println!("FAILED: session {} from {kind} bytes, line {}: {what}\n{}", counts.sessions, told.len(), told.join("\n"));
            return false;
        }
    }
    print_counts(&counts);
    let unseen = unseen(&counts);
    if counts.lines >= ENOUGH_LINES && !unseen.is_empty() {
        println!("FAILED: not seen: {}", unseen.join(", "));
        return false;
    }
    true
}

fn main() -> ExitCode {
    let usage = "compare [--seed N] [--lines N] [--library FILE.so | --wrong NAME]";
    let Some(options) = Options::read(usage, DEFAULT_LINES, Box::new(Straightforward(Reading::Right))) else {
        return ExitCode::from(2);
    };
    if run(options.engine.as_ref(), options.seed, options.lines) {
        ExitCode::SUCCESS
    } else {
        ExitCode::FAILURE
    }
}
