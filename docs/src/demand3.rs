//! The random tester for demand 3 (document 01, What demand 3 compares; document 02, card 7). Pairs of trees that look the same to a reader on one day get the
//! same lines; every reply up to the first refusal 11 must be equal, both suppositions must hold again after it, and in each run alone no subject's rights on a kept
//! node may change. A line that changes the day ends the list; where the trees look the same on the new day too, the next lines are a list of their own. Some of
//! the trees are loaded from a document by the engine under test.
//!
//!     demand3 [--seed N] [--lines N] [--library FILE.so | --wrong NAME]
//!     demand3 --self-test [--seed N] [--lines N]
//!
//! Without a library it tests the straightforward version. --self-test puts each false reading into that version, and each must be found.

use std::process::ExitCode;
use timetable::form::{read_form, Form};
use timetable::label::{listed, Label, RESTRICTED};
use timetable::policy::Policy;
use timetable::reading::{Reading, FALSE_READINGS};
use timetable::sheet::{DAYS, SHEET_BYTES};
use timetable::state::{Stage, State};
use timetable::step::{read_store, step, Store, BAD_DAY, TABLE_FULL};
use timetable::table::{flatten, nest, Node, Table, Tree, LEVEL_MAXIMUM};
use timetable::testing::documents::{document_of, has_document};
use timetable::testing::engine::{Engine, Straightforward};
use timetable::testing::generate;
use timetable::testing::options::Options;
use timetable::testing::random::Random;
use timetable::testing::sheets::Sheets;
use timetable::view::{look, view, view_by};
use timetable::window::WHOLE_YEAR;
use timetable::{state, table, STATE_BYTES};

const DEFAULT_LINES: usize = 100_000;
const CHANGES: [&[u8]; 7] = [b"(rename ", b"(update ", b"(append ", b"(before ", b"(after ", b"(remove ", b"(window "];
const AREA_BYTES: usize = 8_192;
const CROWDED: usize = 40;

// --- The two suppositions ---

/// Why two trees are not alike to a reader on a day, if they are not. What is shown is compared as bytes, true labels behind RESTRICTED whatever their case (document 02,
/// card 6).
fn difference(policy: &Policy, reader: usize, day: u16, trees: [&[Node]; 2]) -> Option<&'static str> {
    let views = trees.map(|nodes| view(nodes, &policy.rights(nodes, reader), day));
    if look(&views[0]) != look(&views[1]) {
        return Some("the trees do not look the same");
    }
    let words = policy.words();
    for place in 0..views[0].nodes.len() {
        if views[0].nodes[place].label == RESTRICTED {
            let labels = [0, 1].map(|run| trees[run][views[run].stored[place]].label);
            if !labels[0].same(&labels[1]) && labels.iter().any(|label| listed(&words, label, Label::same)) {
                return Some("behind RESTRICTED in the same place the true labels differ, and one is a policy word");
            }
        }
    }
    None
}

/// What two trees that are alike to a reader have.
#[derive(Clone, Copy)]
struct Kinds {
    two_cases: bool,   // somewhere behind RESTRICTED a policy word in two cases
    two_windows: bool, // in some place nodes that are shown in windows of their own
    outside: bool,     // nodes that are kept from the reader by the day alone
}

fn kinds(policy: &Policy, reader: usize, day: u16, trees: [&[Node]; 2]) -> Kinds {
    let rights = trees.map(|nodes| policy.rights(nodes, reader));
    let views = [0, 1].map(|run| view(trees[run], &rights[run], day));
    let words = policy.words();
    let in_place = |place: usize| [0, 1].map(|run| &trees[run][views[run].stored[place]]);
    let in_two_cases = |[one, other]: [&Node; 2]| one.label != other.label && listed(&words, &one.label, Label::same);
    let places = 0..views[0].nodes.len();
    Kinds {
        two_cases: places.clone().any(|place| views[0].nodes[place].label == RESTRICTED && in_two_cases(in_place(place))),
        two_windows: places.map(in_place).any(|[one, other]| one.window != other.window),
        outside: (0..2).any(|run| view_by(trees[run], &rights[run], |_| true) != views[run]),
    }
}

// --- Pairs ---

struct Run {
    state: Vec<u8>,
    table: Vec<u8>,
    area: Vec<u8>,
    store: Store,
    rights: Vec<Vec<u8>>, // of every subject on every node
    loaded: bool,         // from a document
}

struct Pair {
    policy: Policy,
    reader: usize,
    day: u16,
    runs: [Run; 2],
    login: bool,
    kinds: Kinds,
}

fn all_rights(policy: &Policy, nodes: &[Node]) -> Vec<Vec<u8>> {
    (0..policy.subjects.len()).map(|subject| policy.rights(nodes, subject)).collect()
}

/// Applies an edit to one node of a tree, by its number in document order.
fn edit_node(tree: &mut Tree, number: &mut usize, edit: &mut dyn FnMut(&mut Tree)) {
    if *number == 0 {
        edit(tree);
    }
    *number = number.wrapping_sub(1);
    for child in &mut tree.children {
        edit_node(child, number, edit);
    }
}

/// The tree with one label, its case, one child or one new child changed somewhere.
fn mutated(random: &mut Random, tree: &Tree) -> Tree {
    let mut tree = tree.clone();
    let mut number = random.below(tree.size());
    let kind = random.below(4);
    edit_node(&mut tree, &mut number, &mut |node| match kind {
        0 => node.label = generate::some_label(random),
        1 => node.label = generate::other_case(random, &node.label),
        2 if !node.children.is_empty() => {
            let child = random.below(node.children.len());
            node.children.remove(child);
        }
        _ => {
            let size = random.within(1, 4);
            let place = random.below(node.children.len() + 1);
            node.children.insert(place, generate::tree(random, size, 3));
        }
    });
    tree
}

/// The tree with the window of one node changed, or with a new child in some window.
fn redated(random: &mut Random, tree: &Tree, day: u16) -> Tree {
    let mut tree = tree.clone();
    let mut number = random.below(tree.size());
    let re_date = number > 0 && random.percent(50);
    edit_node(&mut tree, &mut number, &mut |node| {
        let window = generate::some_window(random, day);
        if re_date {
            node.window = window;
        } else {
            let place = random.below(node.children.len() + 1);
            node.children.insert(place, Tree { window, ..generate::tree(random, 2, 1) });
        }
    });
    tree
}

/// Takes the tree's document into an empty table, and logs the user in.
fn load(engine: &dyn Engine, random: &mut Random, tree: &Tree, user: Option<&Label>, state: &mut [u8], table: &mut [u8]) -> Result<(), String> {
    let mut area = [0; 5];
    let xml = document_of(random, tree);
    let mut returned = vec![engine.load_xml(state, table, &xml, &mut area)];
    if let Some(user) = user {
        let line = format!("(user {})", generate::text_of(user));
        returned.push(engine.line(state, table, line.as_bytes(), &mut area));
    }
    let accepted = returned.iter().all(|returned| *returned == 5) && area == *b"(ok)\n";
    let loaded = read_store(state, table).is_some_and(|store| store.table.nodes == flatten(tree).0);
    if accepted && loaded {
        Ok(())
    } else {
        Err(format!("document and login return {returned:?} and do not leave the tree: {}", xml.escape_ascii()))
    }
}

/// A run from a state with some user and day. The isa lines are put in another order.
fn make_run(engine: &dyn Engine, random: &mut Random, start: &State, tree: &Tree, tight: bool) -> Result<Run, String> {
    let (mut policy, user) = (start.policy.clone(), start.user);
    random.shuffle(&mut policy.isa);
    let (nodes, _) = flatten(tree);
    let free = if tight { random.below(9) } else { random.within(60, 260) };
    let mut state_bytes = vec![0; STATE_BYTES];
    let mut table_bytes = vec![0; 4 + 32 * (nodes.len() + free) + random.below(32)];
    let loaded = has_document(tree) && random.percent(50);
    if loaded {
        state::encode(&State { stage: Stage::B, user: None, day: start.day, policy: policy.clone() }, &mut state_bytes);
        load(engine, random, tree, user.map(|user| &policy.subjects[user]), &mut state_bytes, &mut table_bytes)?;
    } else {
        let stage = if user.is_some() { Stage::E } else { *random.pick(&[Stage::C, Stage::D, Stage::E]) };
        state::encode(&State { stage, user, day: start.day, policy: policy.clone() }, &mut state_bytes);
        table::encode(&nodes, &mut table_bytes);
    }
    let store = read_store(&state_bytes, &table_bytes).expect("13 lets it pass");
    let rights = all_rights(&policy, &nodes);
    Ok(Run { state: state_bytes, table: table_bytes, area: Vec::new(), store, rights, loaded })
}

/// Two runs whose trees differ and are alike to the reader on one day.
fn make_pair(engine: &dyn Engine, random: &mut Random) -> Result<Pair, String> {
    loop {
        let (mut policy, reader) = generate::policy(random);
        let day = generate::some_day(random);
        let mut first = if random.percent(15) {
            let height = random.within(8, LEVEL_MAXIMUM);
            generate::deep_tree(random, height)
        } else if random.percent(25) {
            generate::week_for(random, &mut policy, reader, DAYS + 2, 3)
        } else {
            let (size, height) = (random.within(8, 36), random.within(2, 6));
            generate::tree(random, size, height)
        };
        let dated = *random.pick(&[0, 0, 0, 10, 25]);
        generate::date(random, &mut first, day, dated);
        let nodes = flatten(&first).0;
        let shown = view(&nodes, &policy.rights(&nodes, reader), day).nodes.len();
        if shown < 3 && !random.percent(2) {
            continue;
        }
        let mut second = first.clone();
        let take_if_alike = |second: &mut Tree, candidate: Tree| {
            let other = flatten(&candidate).0;
            if candidate.height() <= LEVEL_MAXIMUM && difference(&policy, reader, day, [&nodes, &other]).is_none() {
                *second = candidate;
            }
        };
        for _ in 0..40 {
            let candidate = mutated(random, &second);
            take_if_alike(&mut second, candidate);
        }
        if first == second && !random.percent(10) {
            continue;
        }
        for _ in 0..*random.pick(&[0, 0, 5, 20]) {
            let candidate = redated(random, &second, day);
            take_if_alike(&mut second, candidate);
        }
        if first == second {
            continue;
        }
        let login = random.percent(40);
        let tight = random.percent(25);
        let mut user = || match login {
            false => Some(reader),
            true if random.percent(50) => None,
            true => Some(random.below(policy.subjects.len())),
        };
        let states = [user(), user()].map(|user| State { stage: Stage::E, user, day, policy: policy.clone() });
        let runs = [make_run(engine, random, &states[0], &first, tight)?, make_run(engine, random, &states[1], &second, tight)?];
        let kinds = kinds(&policy, reader, day, [&runs[0].store.table.nodes, &runs[1].store.table.nodes]);
        return Ok(Pair { policy, reader, day, runs, login, kinds });
    }
}

// --- Lines ---

fn login_line(random: &mut Random, pair: &Pair) -> String {
    format!("(user {})", generate::typed(random, &pair.policy.subjects[pair.reader]))
}

fn next_line(random: &mut Random, pair: &Pair) -> String {
    let nodes = &pair.runs[0].store.table.nodes;
    let view = view(nodes, &pair.runs[0].rights[pair.reader], pair.day).nodes;
    let own = pair.policy.own_names(pair.reader);
    match random.below(100) {
        0..=69 => {
            let room = CROWDED.saturating_sub(nodes.len());
            let line = generate::change(random, &view, &own, room, pair.day);
            let idle = step(&pair.runs[0].store, line.as_bytes(), AREA_BYTES, Reading::Right).is_ok_and(|accepted| accepted.answer.ends_with(b" 0)\n"));
            if idle {
                generate::change(random, &view, &own, room, pair.day) // a second try to find something to do
            } else {
                line
            }
        }
        70..=89 => generate::question(random, &view, &own),
        90..=92 => login_line(random, pair),
        93 => {
            let day = if random.percent(40) { pair.day } else { generate::some_day(random) };
            format!("(day {})", generate::day_text(random, day))
        }
        _ => generate::refused(random),
    }
}

#[derive(Default)]
struct Counts {
    pairs: usize,
    two_cases: usize,
    two_windows: usize,
    outside: usize,
    loaded: usize,
    lines: usize,
    compared: usize,
    accepted_changes: usize,
    effective_changes: usize,
    accepted_others: usize,
    sheets: Sheets,
    new_days: usize,
    ended_by_day: usize, // since the trees do not look the same on the new one
    refusals: [usize; BAD_DAY as usize + 1],
    kept_nodes: usize,
}

/// What demand 3 forbids, found at a line.
struct Finding {
    pair: usize,
    line: usize,
    what: String,
    story: String,
}

/// The sentence on rights for one run and one line, from the store before it to the store after it.
fn check_rights(engine: &dyn Engine, policy: &Policy, run: &mut Run, before: &Store, line: &[u8], counts: &mut Counts) -> Result<(), String> {
    let nodes = &run.store.table.nodes;
    if *nodes == before.table.nodes {
        return Ok(());
    }
    let accepted = step(before, line, run.area.len(), engine.reading()).map_err(|number| format!("the table changes at a line refused with {number}"))?;
    let (expected, origins) = flatten(&accepted.tree.unwrap_or_else(|| nest(&before.table.nodes)));
    if expected != *nodes {
        return Err("the table is not that of the straightforward version".to_string());
    }
    let rights = all_rights(policy, nodes);
    for (number, origin) in origins.iter().enumerate() {
        if let Some(origin) = origin {
            counts.kept_nodes += 1;
            if let Some(subject) = (0..rights.len()).find(|subject| rights[*subject][number] != run.rights[*subject][*origin]) {
                let (name, label) = (generate::text_of(&policy.subjects[subject]), generate::text_of(&nodes[number].label));
                return Err(format!("the rights of {name} on a kept node, now {label}, change"));
            }
        }
    }
    run.rights = rights;
    Ok(())
}

fn same_policy(one: &Policy, other: &Policy) -> bool {
    let isa_lines = |policy: &Policy| {
        let mut lines = policy.isa.clone();
        lines.sort_unstable();
        lines
    };
    one.subjects == other.subjects && one.rules == other.rules && isa_lines(one) == isa_lines(other)
}

/// The day that a line with this reply leaves.
fn day_after(day: u16, line: &[u8], returned: i64) -> u16 {
    match read_form(line) {
        Some(Form::Day(new)) if returned >= 0 => new,
        _ => day,
    }
}

/// One list of lines on one pair; its lines are kept for the story of a finding.
fn run_pair(engine: &dyn Engine, random: &mut Random, pair: &mut Pair, counts: &mut Counts, lines: &mut Vec<String>) -> Result<(), String> {
    let mut comparing = true;
    let mut left = random.within(20, 60);
    while left > 0 {
        left -= 1;
        let line = if pair.login && lines.is_empty() { login_line(random, pair) } else { next_line(random, pair) };
        let area_length = match random.below(100) {
            0..=5 if line.starts_with("(sheet ") => random.within(SHEET_BYTES - 1, SHEET_BYTES),
            0..=5 if !lines.is_empty() => random.below(60),
            _ => AREA_BYTES,
        };
        lines.push(line);
        let line = lines[lines.len() - 1].as_bytes();
        counts.lines += 1;

        let mut returned = [0; 2];
        for (run, returned) in pair.runs.iter_mut().zip(&mut returned) {
            run.area.clear();
            run.area.resize(area_length, random.byte());
            *returned = engine.line(&mut run.state, &mut run.table, line, &mut run.area);
            let after = read_store(&run.state, &run.table).ok_or("13 no longer lets the store pass")?;
            let before = std::mem::replace(&mut run.store, after);
            if !same_policy(&run.store.state.policy, &pair.policy) {
                return Err("the policy changes".to_string());
            }
            if run.store.state.day != day_after(pair.day, line, *returned) {
                return Err("the day is not the one that was set".to_string());
            }
            check_rights(engine, &pair.policy, run, &before, line, counts)?;
        }
        count_reply(returned[0], line, &pair.runs[0].area, counts);

        if comparing && returned.contains(&-i64::from(TABLE_FULL)) {
            comparing = false;
            left = left.min(10);
        }
        if comparing {
            counts.compared += 1;
            compare_replies(returned, pair)?;
            let day = pair.runs[0].store.state.day;
            let trees = [&pair.runs[0].store.table.nodes[..], &pair.runs[1].store.table.nodes[..]];
            match difference(&pair.policy, pair.reader, day, trees) {
                Some(_) if day != pair.day => {
                    counts.ended_by_day += 1;
                    comparing = false;
                    left = left.min(10);
                }
                Some(what) => return Err(format!("after the line {what}")),
                None => {}
            }
        }
        counts.new_days += usize::from(pair.runs[0].store.state.day != pair.day);
        pair.day = pair.runs[0].store.state.day;
    }
    Ok(())
}

fn compare_replies(returned: [i64; 2], pair: &Pair) -> Result<(), String> {
    if returned[0] != returned[1] {
        return Err(format!("the replies differ: {} and {}", reply_text(returned[0], &pair.runs[0]), reply_text(returned[1], &pair.runs[1])));
    }
    let length = returned[0].max(0) as usize;
    if pair.runs[0].area[..length] != pair.runs[1].area[..length] {
        return Err(format!("the answers differ: {} and {}", reply_text(returned[0], &pair.runs[0]), reply_text(returned[1], &pair.runs[1])));
    }
    Ok(())
}

fn reply_text(returned: i64, run: &Run) -> String {
    if returned < 0 {
        return format!("refused {}", -returned);
    }
    format!("{:?}", String::from_utf8_lossy(&run.area[..returned as usize]))
}

fn count_reply(returned: i64, line: &[u8], area: &[u8], counts: &mut Counts) {
    counts.sheets.count(line, returned, area);
    if returned < 0 {
        counts.refusals[(-returned) as usize] += 1;
    } else if CHANGES.iter().any(|word| line.starts_with(word)) {
        counts.accepted_changes += 1;
        counts.effective_changes += usize::from(!area[..returned as usize].ends_with(b" 0)\n"));
    } else {
        counts.accepted_others += 1;
    }
}

// --- The run ---

/// The lines that make a pair's policy, both trees with their windows, and the lines given.
fn story(policy: &Policy, reader: &Label, day: u16, starts: &[Table; 2], lines: &[String]) -> String {
    let mut text = generate::policy_lines(policy).join("\n");
    for (number, Table { capacity, nodes }) in starts.iter().enumerate() {
        text.push_str(&format!("\ntree {} of {capacity} records: {}", number + 1, generate::tree_text(&nest(nodes))));
        for (number, node) in nodes.iter().enumerate().filter(|(_, node)| node.window != WHOLE_YEAR) {
            text.push_str(&format!("\nnode {number}, {}: days {} to {}", generate::text_of(&node.label), node.window.first, node.window.last));
        }
    }
    text.push_str(&format!("\nreader {} on day {day}\n", generate::text_of(reader)));
    text.push_str(&lines.join("\n"));
    text
}

fn run(engine: &dyn Engine, seed: u64, lines: usize) -> (Counts, Option<Finding>) {
    let mut counts = Counts::default();
    while counts.lines < lines {
        let mut random = Random::part(seed, counts.pairs as u64);
        counts.pairs += 1;
        let mut pair = match make_pair(engine, &mut random) {
            Ok(pair) => pair,
            Err(what) => {
                let finding = Finding { pair: counts.pairs, line: counts.lines, what, story: String::new() };
                return (counts, Some(finding));
            }
        };
        counts.two_cases += usize::from(pair.kinds.two_cases);
        counts.two_windows += usize::from(pair.kinds.two_windows);
        counts.outside += usize::from(pair.kinds.outside);
        counts.loaded += pair.runs.iter().filter(|run| run.loaded).count();
        let (starts, day) = ([0, 1].map(|run| pair.runs[run].store.table.clone()), pair.day);
        let mut given = Vec::new();
        if let Err(what) = run_pair(engine, &mut random, &mut pair, &mut counts, &mut given) {
            let story = story(&pair.policy, &pair.policy.subjects[pair.reader], day, &starts, &given);
            let finding = Finding { pair: counts.pairs, line: counts.lines, what, story };
            return (counts, Some(finding));
        }
    }
    (counts, None)
}

fn print_counts(counts: &Counts) {
    println!("{} pairs, {} of their trees loaded from a document", counts.pairs, counts.loaded);
    println!("{} pairs with a policy word in two cases behind RESTRICTED", counts.two_cases);
    println!("{} pairs with nodes outside their window, {} with two windows in one place that is shown", counts.outside, counts.two_windows);
    println!("{} lines, {} of them before the first 11 or a day on which the trees differ, and compared", counts.lines, counts.compared);
    println!("{} lines change the day, {} of them end the assurance", counts.new_days, counts.ended_by_day);
    let percent = |part: usize| 100 * part / counts.lines.max(1);
    println!(
        "accepted changes {} ({} %), with at least one node done {} ({} %), other accepted lines {}",
        counts.accepted_changes,
        percent(counts.accepted_changes),
        counts.effective_changes,
        percent(counts.effective_changes),
        counts.accepted_others
    );
    println!("{}", counts.sheets.text());
    let refusals: Vec<String> =
        (1..counts.refusals.len()).filter(|number| *number != 14).map(|number| format!("{number}: {}", counts.refusals[number])).collect();
    println!("refusals {}", refusals.join(", "));
    println!("rights compared on {} kept nodes", counts.kept_nodes);
}

/// One run; true if nothing is found, at least 30 of 100 lines are changes that do something, trees were loaded, a policy word stood in two cases behind
/// RESTRICTED, nodes stood outside their windows and in two windows in one place, days were changed with both outcomes, and sheets of each kind were seen.
fn test(engine: &dyn Engine, seed: u64, lines: usize) -> bool {
    let (counts, finding) = run(engine, seed, lines);
    print_counts(&counts);
    match finding {
        Some(finding) => {
            println!("FAILED: pair {}, line {}: {}\n{}", finding.pair, finding.line, finding.what, finding.story);
            false
        }
        None => {
            let unseen = if counts.lines >= DEFAULT_LINES { counts.sheets.unseen() } else { Vec::new() };
            if !unseen.is_empty() {
                println!("FAILED: not seen: {}", unseen.join(", "));
            }
            let both_days = counts.ended_by_day > 0 && counts.new_days > counts.ended_by_day;
            let all_kinds = counts.loaded > 0 && counts.two_cases > 0 && counts.two_windows > 0 && counts.outside > 0 && both_days;
            100 * counts.effective_changes >= 30 * counts.lines && all_kinds && unseen.is_empty()
        }
    }
}

/// Each false reading must be found.
fn self_test(seed: u64, lines: usize) -> bool {
    let mut all_found = true;
    for (name, reading) in FALSE_READINGS {
        match run(&Straightforward(reading), seed, lines).1 {
            Some(finding) => println!("found: {name} in pair {}, line {}: {}", finding.pair, finding.line, finding.what),
            None => {
                println!("FAILED: {name} is not found in {lines} lines");
                all_found = false;
            }
        }
    }
    all_found
}

fn main() -> ExitCode {
    let usage = "demand3 [--seed N] [--lines N] [--library FILE.so | --wrong NAME] [--self-test]";
    let Some(options) = Options::read(usage, DEFAULT_LINES, Box::new(Straightforward(Reading::Right))) else {
        return ExitCode::from(2);
    };
    let passed = if options.self_test { self_test(options.seed, options.lines) } else { test(options.engine.as_ref(), options.seed, options.lines) };
    if passed {
        ExitCode::SUCCESS
    } else {
        ExitCode::FAILURE
    }
}

#[cfg(test)]
mod tests {
    use super::*;
    use timetable::path::read_path;
    use timetable::policy::{Rule, POSITION, READ};
    use timetable::window::{Window, FIRST_DAY};

    /// What tells two trees apart to one who reads all but what is labelled key or lies in a room, and sees that it is there.
    fn told(children: [Tree; 2]) -> Option<&'static str> {
        let rule = |accept, right, path: &str| Rule { accept, right, subject: 0, path: read_path(path.as_bytes()).expect("a path") };
        let rules = vec![rule(true, READ, "//*"), rule(true, POSITION, "//*"), rule(false, READ, "//key"), rule(false, READ, "//room/*")];
        let policy = Policy { subjects: vec![generate::label("ann")], isa: Vec::new(), rules };
        let [one, other] = children.map(|child| flatten(&tree("school", vec![child])).0);
        difference(&policy, 0, FIRST_DAY, [&one, &other])
    }

    fn tree(label: &str, children: Vec<Tree>) -> Tree {
        Tree::new(generate::label(label), children)
    }

    #[test]
    fn shown_labels_are_compared_as_bytes_and_hidden_ones_in_either_case() {
        let leaf = |label: &str| tree(label, Vec::new());
        let room = |label: &str| tree("room", vec![leaf(label)]);
        assert_eq!(told([leaf("hall"), leaf("hall")]), None);
        assert!(told([leaf("hall"), leaf("Hall")]).is_some());
        assert!(told([room("x"), tree("Room", vec![leaf("x")])]).is_some());
        assert_eq!(told([leaf("key"), leaf("KEY")]), None); // a policy word
        assert_eq!(told([room("exam"), room("Exam")]), None);
        assert_eq!(told([room("exam"), room("film")]), None); // neither is one
        assert!(told([room("exam"), room("Key")]).is_some());
        assert!(told([room("ROOM"), room("key")]).is_some());
    }

    #[test]
    fn trees_are_compared_on_one_day() {
        let exam = |first, last| Tree { window: Window { first, last }, ..tree("hall", vec![tree("exam", Vec::new())]) };
        let hall = || tree("hall", Vec::new());
        assert_eq!(told([exam(1, 5), exam(1, 366)]), None); // windows are not listed
        assert!(told([exam(2, 5), tree("key", Vec::new())]).is_some());
        assert!(told([exam(1, 5), hall()]).is_some());
        let tomorrow = |label: &str| Tree { window: Window { first: 2, last: 9 }, ..tree(label, vec![hall()]) };
        assert_eq!(told([tomorrow("exam"), tomorrow("film")]), None); // neither is shown, nor is what is below
    }
}
