//! Random sessions for the comparer: lines of every form and documents, good and bad, and stores to start from, sound and damaged.

use super::documents::document;
use super::generate::{self, label, other_case, path_text, text_of, tree, tree_text, typed};
use super::lent::Call;
use super::random::Random;
use crate::form::LINE_MAXIMUM;
use crate::label::{read_record, write_record, Label, RECORD_BYTES, RESTRICTED};
use crate::path::{Step, Test};
use crate::policy::{Policy, Rule, ISA_MAXIMUM, POSITION, READ, RULES_MAXIMUM, SUBJECTS_MAXIMUM};
use crate::reading::Reading;
use crate::sheet::{DAYS, PERIODS};
use crate::state::{self, Stage, State};
use crate::step::{step, Store};
use crate::table::{self, flatten, Node, Tree, CAPACITY_MAXIMUM, LEVEL_MAXIMUM};
use crate::view::view;
use crate::window::Window;
use crate::STATE_BYTES;

const AREA_BYTES: usize = 65_536;

// --- Parts of lines ---

const ODD_LABELS: [&str; 19] = [
    "RESTRICTED",
    "RESTRICTED",
    "restricted",
    "Restricted",
    "RESTRICTED.",
    ".",
    "..",
    "-1",
    "7",
    "0x",
    "or",
    "_",
    "a+b",
    "",
    "a,b",
    "*",
    "$",
    "abcdefghijklmnopqrstuvwx",
    "abcdefghijklmnopqrstuvwxy",
];
const NAMES: [&str; 6] = ["ann", "bob", "cid", "staff", "music", "office"];
const RIGHTS: [&str; 8] = ["position", "read", "read", "insert", "update", "delete", "write", "Read"];
const EFFECTS: [&str; 9] = ["accept", "accept", "accept", "accept", "deny", "deny", "deny", "allow", "Accept"];
const ODD_PATHS: [&str; 34] = [
    "/",
    "//",
    "///a",
    "a",
    "a/b",
    "//a//",
    "//a[",
    "//a[]",
    "//a]",
    "//a[0]",
    "//a[01]",
    "//a[9999]",
    "//a[10000]",
    "//a[/b]",
    "//a[b/]",
    "//a[10B]",
    "//a[7/x]",
    "//a[7[1]]",
    "//a[0x]",
    "//*[1][1][1]",
    "//*[1][2]",
    "//*[*[*[1]]]",
    "//*[*[*[*[1]]]]",
    "//*[*[*[*]]][*[*//*]]",
    "//a[b]c",
    "//a[b=c]",
    "//abcdefghijklmnopqrstuvwx",
    "//abcdefghijklmnopqrstuvwxy",
    "/*/*/*/*/*/*/*/*/*/*/*/*/*/*/*/*",
    "/*/*/*/*/*/*/*/*/*/*/*/*/*/*/*/*/*",
    "//*[*//*//*//*//*//*//*//*//*//*//*//*//*//*//*//*]",
    "//*[*//*//*//*//*//*//*//*//*//*//*//*//*//*//*//*//*]",
    "//$[$]",
    "//a$",
];
const ODD_SHEETS: [&str; 14] = [
    "(sheet)",
    "(sheet )",
    "(sheet $)",
    "(sheet *)",
    "(sheet /R-12)",
    "(sheet //room)",
    "(sheet R-12[1])",
    "(sheet room )",
    "(sheet  room)",
    "(sheet room R-12)",
    "(sheet (room))",
    "(sheet ro+m)",
    "(sheet abcdefghijklmnopqrstuvwx)",
    "(sheet abcdefghijklmnopqrstuvwxy)",
];
const ODD_DAYS: [&str; 14] = ["", "0", "00", "000", "367", "999", "0007", "1000", "x", "-1", "1.0", "+1", "1 ", " 1"];
const PATH_BYTES: &[u8] = b"/[]*$ab019.-#";

fn label_text(random: &mut Random) -> String {
    if random.percent(6) {
        return random.pick(&ODD_LABELS).to_string();
    }
    text_of(&generate::some_label(random))
}

fn name_text(random: &mut Random) -> String {
    if random.percent(15) {
        return label_text(random);
    }
    let name = label(random.pick::<&str>(&NAMES));
    typed(random, &name)
}

/// One byte taken out, put in or replaced.
pub fn disturb(random: &mut Random, text: &mut Vec<u8>, bytes: &[u8]) {
    let at = random.below(text.len() + 1);
    let byte = *random.pick(bytes);
    match random.below(3) {
        0 if at < text.len() => {
            text.remove(at);
        }
        1 if at < text.len() => text[at] = byte,
        _ => text.insert(at, byte),
    }
}

fn command_path(random: &mut Random, seen: &[Node], own: &[Label]) -> String {
    let text = match random.below(20) {
        0 => return random.pick(&ODD_PATHS).to_string(),
        1..=3 => generate::any_path(random),
        _ if seen.is_empty() => generate::any_path(random),
        _ => {
            let node = random.below(seen.len());
            generate::path_to(random, seen, own, node)
        }
    };
    if random.percent(4) {
        let mut bytes = text.into_bytes();
        disturb(random, &mut bytes, PATH_BYTES);
        return String::from_utf8_lossy(&bytes).into_owned();
    }
    text
}

fn day_line(random: &mut Random) -> String {
    if random.percent(15) {
        return format!("(day {})", random.pick(&ODD_DAYS));
    }
    let day = generate::some_day(random);
    format!("(day {})", generate::day_text(random, day))
}

fn window_line(random: &mut Random, path: &str, day: u16) -> String {
    match random.below(20) {
        0 => format!("(window {path} {} {day})", random.pick(&ODD_DAYS)),
        1 => format!("(window {path} {day} {})", random.pick(&ODD_DAYS)),
        2 => format!("(window {path} {day} {})", generate::some_day(random)), // the first day may be after the last
        _ => generate::window_line(random, path, day),
    }
}

fn some_tree(random: &mut Random) -> Tree {
    let mut grown = match random.below(12) {
        0 => {
            let height = random.within(LEVEL_MAXIMUM - 3, LEVEL_MAXIMUM + 1);
            chain(random, height)
        }
        1 => tree(random, 40, 5),
        _ => {
            let size = random.within(1, 6);
            tree(random, size, 4)
        }
    };
    if random.percent(3) {
        grown.label = label(&typed(random, &RESTRICTED));
    }
    grown
}

fn chain(random: &mut Random, height: usize) -> Tree {
    let children = if height == 0 { Vec::new() } else { vec![chain(random, height - 1)] };
    Tree::new(generate::some_label(random), children)
}

/// A line of an exact length around the limit that holds a wide tree.
fn long_line(random: &mut Random, start: &str) -> String {
    let length = random.within(LINE_MAXIMUM - 2, LINE_MAXIMUM + 2);
    let mut line = format!("{start} (wide");
    while line.len() + 40 < length {
        line.push_str(&format!(" ({})", text_of(&generate::some_label(random))));
    }
    let left = length - line.len() - 2; // from 11 to 38 bytes for the last one or two children
    if left > 27 {
        line.push_str(" (twelve-chars)");
    }
    let last = (length - line.len() - 2).saturating_sub(3).clamp(1, 24);
    line.push_str(&format!(" ({})", "l".repeat(last)));
    line + "))"
}

// --- Lines and documents ---

/// A line for a store, or a document: mostly where there is no root, and anywhere else too.
pub fn call(random: &mut Random, store: Option<&Store>) -> Call {
    let capacity = store.map_or(0, |store| store.table.capacity);
    let chance = match store.map(|store| store.state.stage) {
        None => 15,
        Some(Stage::A | Stage::B) if capacity + 10 > CAPACITY_MAXIMUM => 60,
        Some(Stage::A) => 4,
        Some(Stage::B) => 50,
        Some(_) => 1,
    };
    if random.percent(chance) {
        Call::LoadXml(document(random, capacity))
    } else {
        Call::Line(line(random, store))
    }
}

/// A line for a store; any form may come at any stage, and those that fit come more often.
fn line(random: &mut Random, store: Option<&Store>) -> Vec<u8> {
    let stage = store.map_or(Stage::A, |store| store.state.stage);
    let mut text = match random.below(100) {
        0..=1 => (0..random.below(30)).map(|_| random.byte()).collect(),
        2 => Vec::new(),
        3..=8 => {
            let any = *random.pick(&[Stage::A, Stage::B, Stage::C, Stage::D, Stage::E]);
            stage_line(random, any, store)
        }
        _ => {
            let further = random.percent(if stage == Stage::D { 25 } else { 12 });
            let next = match stage {
                Stage::A if further => Stage::B,
                Stage::B if further => Stage::C,
                Stage::C => Stage::D,
                Stage::D if further => Stage::E,
                stage => stage,
            };
            stage_line(random, next, store)
        }
    };
    if random.percent(4) {
        let bytes: &[u8] = if random.percent(20) { &[0, 9, 13, 31, 127, 128, 255] } else { b"() ()abRS.*/" };
        disturb(random, &mut text, bytes);
    }
    if random.percent(1) {
        let word = text.len().min(random.within(2, 6));
        text[..word].make_ascii_uppercase(); // a form in capitals is none
    }
    text
}

fn stage_line(random: &mut Random, stage: Stage, store: Option<&Store>) -> Vec<u8> {
    match stage {
        Stage::A if random.percent(55) => format!("(subject {})", name_text(random)),
        Stage::A => isa_line(random, store),
        Stage::B => rule_line(random, store),
        Stage::C => format!("(root {})", label_text(random)),
        Stage::D if random.percent(4) => long_line(random, "(child"),
        Stage::D if random.percent(25) => format!("(child {})", tree_text(&generate::day(random, PERIODS))),
        Stage::D => format!("(child {})", tree_text(&some_tree(random))),
        Stage::E => session_line(random, store),
    }
    .into_bytes()
}

fn isa_line(random: &mut Random, store: Option<&Store>) -> String {
    let subjects = store.map_or(0, |store| store.state.policy.subjects.len());
    if subjects > 1 && random.percent(70) {
        let subject = random.within(1, subjects - 1);
        let role = random.below(subject);
        let names = &store.expect("subjects").state.policy.subjects;
        return format!("(isa {} {})", typed(random, &names[subject]), typed(random, &names[role]));
    }
    format!("(isa {} {})", name_text(random), name_text(random))
}

fn declared_name(random: &mut Random, store: Option<&Store>) -> String {
    match store {
        Some(store) if !store.state.policy.subjects.is_empty() && random.percent(90) => {
            let name = *random.pick(&store.state.policy.subjects);
            typed(random, &name)
        }
        _ => name_text(random),
    }
}

fn rule_line(random: &mut Random, store: Option<&Store>) -> String {
    let path = match random.below(20) {
        0..=1 => command_path(random, &[], &[]),
        2..=11 => "//*".to_string(),
        _ => path_text(&rule_path(random, 4)),
    };
    let name = declared_name(random, store);
    let (effect, right) = if random.percent(90) { (random.below(7), random.below(6)) } else { (random.below(9), random.below(8)) };
    format!("(rule {} {} {path} {name})", EFFECTS[effect], RIGHTS[right])
}

fn session_line(random: &mut Random, store: Option<&Store>) -> String {
    let Some(store) = store else {
        return generate::question(random, &[], &[]);
    };
    let Some(user) = store.state.user else {
        return match random.below(8) {
            0 => generate::question(random, &[], &[]),
            1 => window_line(random, "//*", store.state.day),
            2 => day_line(random),
            _ => format!("(user {})", declared_name(random, Some(store))),
        };
    };
    let nodes = &store.table.nodes;
    let seen = view(nodes, &store.state.policy.rights(nodes, user), store.state.day).nodes;
    if seen.is_empty() && random.percent(30) {
        return format!("(user {})", declared_name(random, Some(store)));
    }
    let own = store.state.policy.own_names(user);
    let line = user_line(random, store, &seen, &own);
    let idle = step(store, line.as_bytes(), AREA_BYTES, Reading::Right).is_ok_and(|accepted| accepted.answer.ends_with(b" 0)\n"));
    if idle {
        user_line(random, store, &seen, &own) // a second try to find something to do
    } else {
        line
    }
}

fn user_line(random: &mut Random, store: &Store, seen: &[Node], own: &[Label]) -> String {
    let path = command_path(random, seen, own);
    match random.below(29 + generate::sheet_share(seen, 8, 1)) {
        0 => format!("(user {})", declared_name(random, Some(store))),
        1..=3 => "(view)".to_string(),
        4..=6 => format!("(query {path})"),
        7..=8 => format!("(find {path})"),
        9..=11 => format!("(rename {path} {})", label_text(random)),
        12..=14 => format!("(update {path} {})", label_text(random)),
        15..=16 => format!("(append {path} {})", tree_text(&some_tree(random))),
        17..=18 => format!("(before {path} {})", tree_text(&some_tree(random))),
        19..=20 => format!("(after {path} {})", tree_text(&some_tree(random))),
        21 if random.percent(15) => long_line(random, &format!("(append {path}")),
        24..=25 => day_line(random),
        26..=28 => window_line(random, &path, store.state.day),
        29.. if random.percent(6) => random.pick(&ODD_SHEETS).to_string(),
        29.. => format!("(sheet {})", generate::room(random, seen)),
        _ => format!("(remove {path})"),
    }
}

// --- Stores ---

fn rule_path(random: &mut Random, longest: usize) -> Vec<Step> {
    let step = |random: &mut Random| {
        let test = match random.below(8) {
            0..=2 => Test::Any,
            3 => Test::Own,
            _ => Test::Label(generate::some_label(random)),
        };
        Step { descendants: random.percent(60), test, brackets: Vec::new() }
    };
    (0..random.within(1, longest)).map(|_| step(random)).collect()
}

/// A policy near its maximum.
fn full_policy(random: &mut Random) -> Policy {
    let mut policy = Policy::default();
    let subjects = random.within(SUBJECTS_MAXIMUM - 2, SUBJECTS_MAXIMUM);
    policy.subjects.extend(NAMES.map(|name| label(&typed(random, &label(name)))));
    while policy.subjects.len() < subjects {
        policy.subjects.push(label(&format!("s{}", policy.subjects.len())));
    }
    let isa_lines = random.within(ISA_MAXIMUM - 2, ISA_MAXIMUM);
    while policy.isa.len() < isa_lines {
        let subject = random.within(1, policy.subjects.len() - 1);
        let line = (subject, random.below(subject));
        if !policy.isa.contains(&line) {
            policy.isa.push(line);
        }
    }
    for _ in 0..random.within(RULES_MAXIMUM - 2, RULES_MAXIMUM) {
        let subject = if random.percent(50) { random.below(3) } else { random.below(policy.subjects.len()) };
        let right = 1 << random.below(5);
        policy.rules.push(Rule { accept: random.percent(65), right, subject, path: rule_path(random, 16) });
    }
    policy
}

/// Bytes of a state and a table to start from.
pub struct Start {
    pub kind: &'static str,
    pub state: Vec<u8>,
    pub table: Vec<u8>,
}

fn table_bytes(nodes: &[Node], free: usize, odd: usize) -> Vec<u8> {
    let mut bytes = vec![0; 4 + RECORD_BYTES * (nodes.len() + free) + odd];
    table::encode(nodes, &mut bytes);
    bytes
}

fn empty_start(random: &mut Random) -> Start {
    let length = match random.below(20) {
        0 => random.below(4 + 2 * RECORD_BYTES),
        1..=5 => 4 + random.below(12 * RECORD_BYTES),
        _ => 4 + random.within(60, 200) * RECORD_BYTES,
    };
    Start { kind: "empty", state: vec![0; STATE_BYTES], table: vec![0; length] }
}

/// Gives none, few or many of a tree's nodes windows of their own.
fn date_some(random: &mut Random, tree: &mut Tree, day: u16) {
    let chance = *random.pick(&[0, 10, 30, 60]);
    generate::date(random, tree, day, chance);
}

fn sound_start(random: &mut Random) -> Start {
    let full = random.percent(10);
    let (mut policy, reader) = if full { (full_policy(random), 0) } else { generate::policy(random) };
    let stages: &[Stage] = if full {
        &[Stage::A, Stage::B, Stage::D, Stage::E]
    } else {
        &[Stage::A, Stage::B, Stage::C, Stage::D, Stage::E, Stage::E, Stage::E, Stage::E, Stage::E, Stage::E]
    };
    let stage = *random.pick(stages);
    if stage == Stage::A {
        policy.rules.clear();
    }
    let user = if random.percent(80) { reader } else { random.below(policy.subjects.len()) };
    let user = Some(user).filter(|_| stage == Stage::E && random.percent(95));
    let day = generate::some_day(random);
    let nodes = if stage >= Stage::C {
        let mut grown = match random.below(8) {
            0 => generate::deep_tree(random, LEVEL_MAXIMUM),
            1 => tree(random, 300, LEVEL_MAXIMUM),
            2..=3 if !full => generate::week_for(random, &mut policy, reader, DAYS + 2, PERIODS + 2),
            _ => {
                let size = random.within(1, 40);
                tree(random, size, 6)
            }
        };
        date_some(random, &mut grown, day);
        flatten(&grown).0
    } else {
        Vec::new()
    };
    let mut bytes = vec![0; STATE_BYTES];
    state::encode(&State { stage, user, day, policy }, &mut bytes);
    let free = if random.percent(30) { random.below(8) } else { random.within(40, 200) };
    let odd = random.below(RECORD_BYTES);
    Start { kind: "sound", state: bytes, table: table_bytes(&nodes, free, odd) }
}

/// A table around the largest capacity, in a session of stage E.
fn large_start(random: &mut Random) -> Start {
    let (policy, reader) = generate::policy(random);
    let mut root = Tree::new(generate::some_label(random), Vec::new());
    let count = CAPACITY_MAXIMUM - random.below(12);
    let mut size = 1;
    while size < count {
        let most = random.within(1, (count - size).min(40));
        let child = tree(random, most, 6);
        size += child.size();
        root.children.push(child);
    }
    let day = generate::some_day(random);
    date_some(random, &mut root, day);
    let mut bytes = vec![0; STATE_BYTES];
    state::encode(&State { stage: Stage::E, user: Some(reader), day, policy }, &mut bytes);
    let nodes = flatten(&root).0;
    let free = CAPACITY_MAXIMUM - count + random.below(40);
    let odd = random.below(RECORD_BYTES);
    Start { kind: "large", state: bytes, table: table_bytes(&nodes, free, odd) }
}

/// A policy and an empty table of some records, to load a document.
fn rootless_start(random: &mut Random, kind: &'static str, records: usize) -> Start {
    let (policy, _) = generate::policy(random);
    let mut bytes = vec![0; STATE_BYTES];
    let day = generate::some_day(random);
    state::encode(&State { stage: Stage::B, user: None, day, policy }, &mut bytes);
    let odd = random.below(RECORD_BYTES);
    Start { kind, state: bytes, table: table_bytes(&[], records, odd) }
}

/// Few labels, and paths of up to 12 steps over them, so that many paths fit or nearly fit, in a session of stage E that shows most nodes.
pub fn tight_start(random: &mut Random) -> Start {
    let labels = [label("a"), label("b"), label("c")];
    let mut policy = Policy { subjects: labels.to_vec(), isa: vec![(1, 0), (2, 1)], rules: Vec::new() };
    let all = vec![Step { descendants: true, test: Test::Any, brackets: Vec::new() }];
    policy.rules.push(Rule { accept: true, right: READ, subject: 0, path: all });
    for _ in 0..random.within(0, 12) {
        let longest = random.within(1, 12);
        let path = (0..random.within(1, longest)).map(|_| tight_step(random, &labels)).collect();
        policy.rules.push(Rule { accept: random.percent(40), right: *random.pick(&[READ, READ, POSITION]), subject: random.below(2), path });
    }
    let mut nodes = vec![Node::new(0, *random.pick(&labels), None)];
    let (cased, day, dated) = (random.percent(50), generate::some_day(random), *random.pick(&[0, 5, 20]));
    for _ in 0..random.within(1, 60) {
        let deepest = (nodes[nodes.len() - 1].level + 1).min(LEVEL_MAXIMUM);
        let level = if random.percent(75) { deepest } else { random.within(1, deepest) };
        let label = if random.percent(90) { labels[random.below(2)] } else { labels[2] };
        let label = if cased { other_case(random, &label) } else { label };
        nodes.push(Node::new(level, label, None));
    }
    for node in &mut nodes[1..] {
        if random.percent(dated) {
            node.window = generate::some_window(random, day);
        }
    }
    let mut bytes = vec![0; STATE_BYTES];
    state::encode(&State { stage: Stage::E, user: Some(random.below(3)), day, policy }, &mut bytes);
    let free = random.below(3);
    Start { kind: "tight", state: bytes, table: table_bytes(&nodes, free, 0) }
}

fn tight_step(random: &mut Random, labels: &[Label]) -> Step {
    let test = match random.below(6) {
        0 => Test::Any,
        1 => Test::Own,
        _ => Test::Label(labels[random.below(2)]),
    };
    Step { descendants: random.percent(50), test, brackets: Vec::new() }
}

fn other_byte(random: &mut Random, byte: u8) -> u8 {
    match random.below(6) {
        0 => byte.wrapping_add(1),
        1 => byte.wrapping_sub(1),
        2 => 0,
        3 => random.below(66) as u8,
        4 => *random.pick(&[1, 2, 4, 8, 16, 32, 11, 12, 24, 25, b'*', b'$', b'a', 255]),
        _ => random.byte(),
    }
}

/// The label of a record in another case.
fn recase(random: &mut Random, record: &mut [u8]) {
    if let Some((first, text)) = read_record(record) {
        if let Some(label) = Label::new(text) {
            write_record(record, first, other_case(random, &label).text());
        }
    }
}

/// Where a state's bytes are in use or next to those in use, and now and then anywhere.
fn state_place(random: &mut Random, bytes: &[u8]) -> usize {
    let (subjects, isa_lines, rules) = (bytes[8] as usize, bytes[9] as usize, bytes[10] as usize);
    let place = match random.below(9) {
        0..=1 => random.below(16),
        2..=3 => 16 + random.below(32 * (subjects + 1)),
        4 => 16 + 32 * 64 + random.below(2 * (isa_lines + 1)),
        5..=6 => 16 + 32 * 64 + 256 + 520 * random.below(rules + 1) + random.below(90),
        7 => STATE_BYTES - 1 - random.below(40),
        _ => random.below(STATE_BYTES),
    };
    place.min(STATE_BYTES - 1)
}

fn damage_state(random: &mut Random, bytes: &mut Vec<u8>) {
    let subjects = bytes[8] as usize;
    let rules = usize::from(bytes[10]).min(RULES_MAXIMUM); // the count may be damaged already
    match random.below(13) {
        0 => {
            bytes.truncate(*random.pick(&[0, 1, 8, STATE_BYTES - 1]));
        }
        1 => bytes.push(*random.pick(&[0, 1])),
        2 if subjects > 1 => {
            let (from, to) = (random.below(subjects), random.below(subjects));
            bytes.copy_within(16 + 32 * from..48 + 32 * from, 16 + 32 * to);
            recase(random, &mut bytes[16 + 32 * to..48 + 32 * to]);
        }
        3 if subjects > 0 => {
            let at = 16 + 32 * random.below(subjects);
            write_record(&mut bytes[at..at + 32], 0, typed(random, &RESTRICTED).as_bytes());
        }
        4 if rules > 0 => {
            let at = 16 + 32 * 64 + 256 + 520 * random.below(rules) + 8;
            let text: &[u8] = random.pick::<&[u8]>(&[b"RESTRICTED", b"Restricted", b"restricted", b"*", b"$", b"**", b"$a", b"[1]", b"a/b"]);
            write_record(&mut bytes[at..at + 32], 1, text);
        }
        5 => {
            let at = 16 + 32 * 64 + 2 * random.below(4);
            let line = [random.below(5) as u8, random.below(5) as u8];
            bytes[at..at + 2].copy_from_slice(&line);
        }
        6 => bytes[0] = random.below(7) as u8,
        7 => bytes[1] = random.below(7) as u8,
        8 => bytes[8 + random.below(3)] = *random.pick(&[0, 1, 63, 64, 65, 127, 128, 129, 255]),
        9 => bytes[2..4].copy_from_slice(&random.pick::<u16>(&[0, 255, 256, 364, 365, 366, 367, 511, 65_535]).to_le_bytes()),
        _ => {
            let at = state_place(random, bytes);
            bytes[at] = other_byte(random, bytes[at]);
        }
    }
}

/// Another window in a record: a bad one, or a good one that the root may not have.
fn damage_window(random: &mut Random, record: &mut [u8]) {
    const NUMBERS: [u16; 11] = [0, 0, 1, 2, 255, 256, 365, 366, 367, 622, 65_535];
    let (mut first, mut last) = Window::read(record).unwrap_or((1, 366));
    match random.below(5) {
        0 => (first, last) = (last, first),
        1 => (first, last) = (0, 0),
        2 => first = *random.pick(&NUMBERS),
        3 => last = *random.pick(&NUMBERS),
        _ => (first, last) = (*random.pick(&NUMBERS), *random.pick(&NUMBERS)),
    }
    Window { first, last }.write(record);
}

fn damage_table(random: &mut Random, bytes: &mut Vec<u8>) {
    if bytes.len() < 4 {
        bytes.resize(4, 0);
    }
    let count = u32::from_le_bytes([bytes[0], bytes[1], bytes[2], bytes[3]]) as usize;
    let record = if random.percent(10) { 4 } else { 4 + 32 * random.below(count.max(1)) };
    match random.below(12) {
        0 => {
            let length = random.below(5);
            bytes.truncate(length);
        }
        1 => {
            let length = bytes.len() - random.below(bytes.len().min(70));
            bytes.truncate(length);
        }
        2 => {
            let more = random.within(1, 40);
            bytes.resize(bytes.len() + more, 0);
            let last = bytes.len() - 1;
            bytes[last] = random.below(2) as u8;
        }
        3 => {
            let at = random.below(4);
            bytes[at] = other_byte(random, bytes[at]);
        }
        4 if record + 32 <= bytes.len() => bytes[record] = random.below(14) as u8,
        5 if record + 32 <= bytes.len() => bytes[record + 1] = *random.pick(&[0, 1, 2, 23, 24, 25, 255]),
        6 if record + 32 <= bytes.len() => {
            let record = &mut bytes[record..record + 32];
            let window = Window::read(record);
            write_record(record, record[0], typed(random, &RESTRICTED).as_bytes());
            if let Some((first, last)) = window {
                Window { first, last }.write(record); // so that the label alone is wrong
            }
        }
        7 if record + 32 <= bytes.len() => {
            let at = record + random.below(32);
            bytes[at] = other_byte(random, bytes[at]);
        }
        8..=9 if record + 32 <= bytes.len() => damage_window(random, &mut bytes[record..record + 32]),
        10 if random.percent(50) => {
            for record in bytes[4..].chunks_exact_mut(32).take(count) {
                Window { first: 0, last: 0 }.write(record); // as tables were before windows
            }
        }
        10 => {
            let at = (4 + 32 * count + random.below(64)).min(bytes.len() - 1);
            bytes[at] = other_byte(random, bytes[at]);
        }
        _ => {
            let at = random.below(bytes.len());
            bytes[at] = other_byte(random, bytes[at]);
        }
    }
}

fn damaged_start(random: &mut Random) -> Start {
    let mut start = if random.percent(10) { empty_start(random) } else { sound_start(random) };
    start.kind = "damaged";
    for _ in 0..random.within(1, 2) {
        if random.percent(50) {
            damage_table(random, &mut start.table);
        } else if start.state.len() == STATE_BYTES {
            damage_state(random, &mut start.state);
        }
    }
    start
}

pub fn start(random: &mut Random) -> Start {
    match random.below(1_000) {
        0..=1 => large_start(random),
        2 => {
            let records = random.within(CAPACITY_MAXIMUM - 2, CAPACITY_MAXIMUM + 2);
            rootless_start(random, "large", records)
        }
        3..=250 => {
            let records = match random.below(10) {
                0..=4 => random.below(40),
                5..=6 => random.within(60, 200),
                _ => random.within(400, 410),
            };
            rootless_start(random, "rootless", records)
        }
        251..=450 => empty_start(random),
        451..=700 => sound_start(random),
        _ => damaged_start(random),
    }
}

/// How many lines and documents a session from such a start has.
pub fn length(random: &mut Random, start: &Start) -> usize {
    match start.kind {
        "damaged" => random.within(2, 12),
        "rootless" => random.within(8, 30),
        "large" => 12,
        _ => random.within(20, 80),
    }
}
