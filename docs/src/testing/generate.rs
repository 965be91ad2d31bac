//! Random policies, trees, paths and lines.

use super::random::Random;
use crate::label::{listed, Label, RESTRICTED};
use crate::path::{Step, Test};
use crate::policy::{Policy, Rule, DELETE, INSERT, POSITION, READ, UPDATE};
use crate::step::write_tree;
use crate::table::{flatten, nest_inserted, Node, Tree, LEVEL_MAXIMUM};
use crate::window::{Window, FIRST_DAY, LAST_DAY};

/// Two of them fill a sheet's cell and more; R-12 and Rm12 differ in what no case tells apart.
const LABELS: [&str; 15] = ["a", "b", "c", "note", "x", "y", "z", "k.1", "R-12", "Rm12", "10B", "lesson", "room", "geography-12C", "philosophy-and-logic-13C"];
const ROOMS: [&str; 3] = ["k.1", "R-12", "room"];
const ROOM_LEVEL: usize = 3;
const NAMES: [&str; 6] = ["ann", "bob", "cid", "staff", "music", "office"];
const RIGHTS: [(&str, u8); 5] = [("position", POSITION), ("read", READ), ("insert", INSERT), ("update", UPDATE), ("delete", DELETE)];

pub fn label(text: &str) -> Label {
    Label::new(text.as_bytes()).expect("a label")
}

pub fn text_of(label: &Label) -> String {
    String::from_utf8_lossy(label.text()).into_owned()
}

// --- The case of letters ---

/// The label in some case: all letters capital or small, one of them or each turned.
pub fn other_case(random: &mut Random, label: &Label) -> Label {
    let mut text = label.text().to_vec();
    match random.below(4) {
        0 => text.make_ascii_uppercase(),
        1 => text.make_ascii_lowercase(),
        2 => {
            let byte = random.pick_mut(&mut text);
            *byte ^= u8::from(byte.is_ascii_alphabetic()) << 5;
        }
        _ => {
            for byte in text.iter_mut().filter(|byte| byte.is_ascii_alphabetic() && random.percent(50)) {
                *byte ^= 32;
            }
        }
    }
    Label::new(&text).expect("a label")
}

/// The label as it is typed: mostly as it stands, now and then in another case.
pub fn typed(random: &mut Random, label: &Label) -> String {
    text_of(&if random.percent(30) { other_case(random, label) } else { *label })
}

fn restricted(random: &mut Random) -> String {
    typed(random, &RESTRICTED)
}

// --- Policies ---

/// A subject that a reader is, the reader included.
fn some_role(random: &mut Random, policy: &Policy, reader: usize) -> usize {
    let roles = policy.roles(reader);
    let held: Vec<usize> = (0..roles.len()).filter(|subject| roles[*subject]).collect();
    *random.pick(&held)
}

fn rule_path(random: &mut Random, words: &[Label], uses_own: bool) -> Vec<Step> {
    let mut path = Vec::new();
    for number in 0..random.within(1, 3) {
        let descendants = random.percent(if number == 0 { 85 } else { 40 });
        let test = match random.below(10) {
            0..=4 => Test::Label(*random.pick(words)),
            5..=7 => Test::Any,
            _ if uses_own => Test::Own,
            _ => Test::Label(*random.pick(words)),
        };
        path.push(Step { descendants, test, brackets: Vec::new() });
    }
    path
}

/// A policy, and a reader to whom it grants a good deal.
pub fn policy(random: &mut Random) -> (Policy, usize) {
    let mut policy = Policy::default();
    let mut names = NAMES.map(|name| label(&typed(random, &label(name))));
    random.shuffle(&mut names);
    let subjects = random.within(2, 5);
    policy.subjects.extend(&names[..subjects]);
    for subject in 1..subjects {
        for role in 0..subject {
            if random.percent(35) {
                policy.isa.push((subject, role));
            }
        }
    }
    let reader = random.below(subjects);
    let words: Vec<Label> = (0..random.within(1, 4)).map(|_| some_label(random)).collect();
    let uses_own = random.percent(40);
    let all = vec![Step { descendants: true, test: Test::Any, brackets: Vec::new() }];
    for (right, chance) in [(POSITION, 35), (READ, 85), (INSERT, 80), (UPDATE, 85), (DELETE, 75)] {
        if random.percent(chance) {
            let subject = some_role(random, &policy, reader);
            policy.rules.push(Rule { accept: true, right, subject, path: all.clone() });
        }
    }
    for _ in 0..random.within(2, 8) {
        let subject = if random.percent(60) { some_role(random, &policy, reader) } else { random.below(subjects) };
        let right = if random.percent(55) { READ } else { random.pick(&RIGHTS).1 };
        let accept = random.percent(35);
        let path = rule_path(random, &words, uses_own);
        policy.rules.push(Rule { accept, right, subject, path });
    }
    (policy, reader)
}

pub fn path_text(path: &[Step]) -> String {
    let mut text = String::new();
    for step in path {
        text.push_str(if step.descendants { "//" } else { "/" });
        text.push_str(&test_text(&step.test));
    }
    text
}

fn test_text(test: &Test) -> String {
    match test {
        Test::Any => "*".to_string(),
        Test::Own => "$".to_string(),
        Test::Label(label) => text_of(label),
    }
}

/// The lines that make a policy.
pub fn policy_lines(policy: &Policy) -> Vec<String> {
    let name = |subject: usize| text_of(&policy.subjects[subject]);
    let mut lines: Vec<String> = (0..policy.subjects.len()).map(|subject| format!("(subject {})", name(subject))).collect();
    lines.extend(policy.isa.iter().map(|(subject, role)| format!("(isa {} {})", name(*subject), name(*role))));
    for rule in &policy.rules {
        let right = RIGHTS.iter().find(|(_, bit)| *bit == rule.right).expect("a right").0;
        let effect = if rule.accept { "accept" } else { "deny" };
        lines.push(format!("(rule {effect} {right} {} {})", path_text(&rule.path), name(rule.subject)));
    }
    lines
}

// --- Trees ---

pub fn some_label(random: &mut Random) -> Label {
    let text: &&str = if random.percent(75) { random.pick(&LABELS) } else { random.pick(&NAMES) };
    label(&typed(random, &label(text)))
}

/// A tree of at most `size` nodes and `height` levels below its root.
pub fn tree(random: &mut Random, size: usize, height: usize) -> Tree {
    let mut left = size - 1;
    let mut children = Vec::new();
    while height > 0 && left > 0 && random.percent(85) {
        let share = random.within(1, left);
        children.push(tree(random, share, height - 1));
        left -= share;
    }
    Tree::new(some_label(random), children)
}

/// A tree that reaches down some levels, with small trees beside the way.
pub fn deep_tree(random: &mut Random, height: usize) -> Tree {
    let mut children = Vec::new();
    if height > 0 {
        for _ in 0..random.below(3) {
            let size = random.within(1, 2);
            children.push(tree(random, size, height - 1));
        }
        children.push(deep_tree(random, height - 1));
        random.shuffle(&mut children);
    }
    Tree::new(some_label(random), children)
}

fn some_room(random: &mut Random) -> String {
    let room = label(random.pick::<&str>(&ROOMS));
    typed(random, &room)
}

/// A day of some periods, each with a few rooms; in a room stand mostly one lesson or two, and now and then none.
pub fn day(random: &mut Random, periods: usize) -> Tree {
    let lesson = |random: &mut Random| Tree::new(some_label(random), Vec::new());
    let room = |random: &mut Random| {
        let name = if random.percent(90) { label(&some_room(random)) } else { some_label(random) };
        let lessons = *random.pick(&[0, 1, 1, 2, 2, 3]);
        Tree::new(name, (0..lessons).map(|_| lesson(random)).collect())
    };
    let period = |random: &mut Random| {
        let rooms = *random.pick(&[0, 1, 1, 2, 2, 3]);
        Tree::new(some_label(random), (0..rooms).map(|_| room(random)).collect())
    };
    Tree::new(some_label(random), (0..periods).map(|_| period(random)).collect())
}

/// A week of so many days at most, each of so many periods at most.
pub fn week(random: &mut Random, days: usize, periods: usize) -> Tree {
    let day = |random: &mut Random| {
        let periods = random.within(periods / 2, periods);
        day(random, periods)
    };
    let days = random.within(days / 2, days);
    Tree::new(some_label(random), (0..days).map(|_| day(random)).collect())
}

/// A week for a reader from whom some of its days, periods, rooms or lessons are kept.
pub fn week_for(random: &mut Random, policy: &mut Policy, reader: usize, days: usize, periods: usize) -> Tree {
    let week = week(random, days, periods);
    let nodes = flatten(&week).0;
    for _ in 0..random.within(1, 3) {
        let level = random.within(1, ROOM_LEVEL + 1);
        let labels: Vec<Label> = nodes.iter().filter(|node| node.level == level).map(|node| node.label).collect();
        if !labels.is_empty() {
            let path = vec![Step { descendants: true, test: Test::Label(*random.pick(&labels)), brackets: Vec::new() }];
            policy.rules.push(Rule { accept: false, right: READ, subject: reader, path });
        }
    }
    week
}

/// A tree of exactly `size` nodes and at most `height` levels below its root.
pub fn sized_tree(random: &mut Random, size: usize, height: usize) -> Tree {
    let mut nodes = vec![Node::new(0, some_label(random), None)];
    while nodes.len() < size {
        let deepest = (nodes[nodes.len() - 1].level + 1).min(height);
        let level = if random.percent(60) { deepest } else { random.within(1, deepest) };
        nodes.push(Node::new(level, some_label(random), None));
    }
    nest_inserted(&nodes)
}

// --- Days and windows ---

/// A day of the year, mostly one of few, so that windows begin and end on it, or next to it.
pub fn some_day(random: &mut Random) -> u16 {
    const DAYS: [u16; 9] = [1, 2, 3, 100, 255, 256, 257, 365, 366];
    if random.percent(85) {
        *random.pick(&DAYS)
    } else {
        random.within(FIRST_DAY as usize, LAST_DAY as usize) as u16
    }
}

/// A window, often around a day or with it at an end.
pub fn some_window(random: &mut Random, day: u16) -> Window {
    let (one, other) = (some_day(random), some_day(random));
    match random.below(8) {
        0 => Window { first: day, last: one.max(day) },
        1 => Window { first: one.min(day), last: day },
        2..=4 => Window { first: one.min(day), last: other.max(day) },
        _ => Window { first: one.min(other), last: one.max(other) },
    }
}

/// Gives some nodes of a tree windows of their own, its root aside.
pub fn date(random: &mut Random, tree: &mut Tree, day: u16, chance: usize) {
    for child in &mut tree.children {
        if random.percent(chance) {
            child.window = some_window(random, day);
        }
        date(random, child, day, chance);
    }
}

/// A day as it is typed: now and then with zeros before it.
pub fn day_text(random: &mut Random, day: u16) -> String {
    let digits = if random.percent(80) { 1 } else { random.within(1, 3) };
    format!("{day:0digits$}")
}

/// Two days as they are typed, behind a path.
fn window_text(random: &mut Random, window: Window) -> String {
    format!("{} {}", day_text(random, window.first), day_text(random, window.last))
}

/// A line that re-dates what a path selects.
pub fn window_line(random: &mut Random, path: &str, day: u16) -> String {
    let window = some_window(random, day);
    format!("(window {path} {})", window_text(random, window))
}

pub fn tree_text(tree: &Tree) -> String {
    let mut text = Vec::new();
    write_tree(tree, &mut text);
    String::from_utf8_lossy(&text).into_owned()
}

// --- Command paths ---

fn any_test(random: &mut Random) -> String {
    match random.below(10) {
        0..=2 => "*".to_string(),
        3 => "$".to_string(),
        4 => restricted(random),
        _ => text_of(&some_label(random)),
    }
}

/// A bracket within a limit of depth.
fn bracket(random: &mut Random, depth: usize) -> String {
    if random.percent(45) {
        return format!("[{}]", random.within(1, 3));
    }
    let mut text = format!("[{}", any_test(random));
    loop {
        if depth > 1 && random.percent(25) {
            text.push_str(&bracket(random, depth - 1));
        }
        if !random.percent(30) {
            break;
        }
        text.push_str(if random.percent(50) { "/" } else { "//" });
        text.push_str(&any_test(random));
    }
    text + "]"
}

/// Any well-formed path.
pub fn any_path(random: &mut Random) -> String {
    let mut text = String::new();
    for number in 0..random.within(1, 3) {
        text.push_str(if random.percent(if number == 0 { 80 } else { 40 }) { "//" } else { "/" });
        text.push_str(&any_test(random));
        for _ in 0..random.below(8).saturating_sub(5) {
            text.push_str(&bracket(random, 3));
        }
    }
    text
}

/// A path that leads to a node of a view, and perhaps to others; now and then by `$`, where the node has one of the reader's own names.
pub fn path_to(random: &mut Random, view: &[Node], own: &[Label], node: usize) -> String {
    let mut chain = vec![node];
    while let Some(parent) = view[chain[chain.len() - 1]].parent {
        chain.push(parent);
    }
    chain.reverse();
    let mut text = String::new();
    let mut skipped = false;
    for (place, number) in chain.iter().enumerate() {
        if place + 1 < chain.len() && random.percent(55) {
            skipped = true;
            continue;
        }
        let label = view[*number].label;
        let test = match random.percent(if skipped { 10 } else { 30 }) {
            true => Test::Any,
            false if listed(own, &label, Label::same) && random.percent(50) => Test::Own,
            false if random.percent(30) => Test::Label(other_case(random, &label)),
            false => Test::Label(label),
        };
        text.push_str(if skipped || random.percent(15) { "//" } else { "/" });
        text.push_str(&test_text(&test));
        skipped = false;
        if random.percent(25) {
            let before = (0..*number).filter(|other| view[*other].parent == view[*number].parent && test.passes(&view[*other].label, own));
            text.push_str(&format!("[{}]", before.count() + 1));
        }
        let children: Vec<usize> = (0..view.len()).filter(|other| view[*other].parent == Some(*number)).collect();
        if !children.is_empty() && random.percent(20) {
            let child = view[*random.pick(&children)].label;
            text.push_str(&format!("[{}]", typed(random, &child)));
        }
    }
    text
}

fn command_path(random: &mut Random, view: &[Node], own: &[Label]) -> String {
    if view.is_empty() || random.percent(15) {
        return any_path(random);
    }
    let node = random.below(view.len());
    path_to(random, view, own, node)
}

/// A path to a parent in the view, for `update`.
fn parent_path(random: &mut Random, view: &[Node], own: &[Label]) -> String {
    let parents: Vec<usize> = view.iter().filter_map(|node| node.parent).collect();
    if parents.is_empty() || random.percent(10) {
        return any_path(random);
    }
    let node = *random.pick(&parents);
    path_to(random, view, own, node)
}

// --- Lines ---

fn new_label(random: &mut Random) -> String {
    if random.percent(2) {
        return restricted(random);
    }
    text_of(&some_label(random))
}

fn small_tree(random: &mut Random, room: usize) -> String {
    let size = random.within(1, room.clamp(1, 4));
    let height = if random.percent(3) { LEVEL_MAXIMUM } else { 3 };
    tree_text(&tree(random, size, height))
}

/// A change at a view on a day; `room` nodes may be added without crowding.
pub fn change(random: &mut Random, view: &[Node], own: &[Label], room: usize, day: u16) -> String {
    let path = command_path(random, view, own);
    let kind = match view.len() {
        _ if room == 0 => random.pick(&[0, 1, 5, 5, 5, 6]),
        0..=5 => random.pick(&[0, 1, 2, 2, 2, 3, 4, 6]),
        _ => random.pick(&[0, 0, 1, 1, 2, 3, 4, 5, 6]),
    };
    match kind {
        0 => format!("(rename {path} {})", new_label(random)),
        1 => format!("(update {} {})", parent_path(random, view, own), new_label(random)),
        2 => format!("(append {path} {})", small_tree(random, room)),
        3 => format!("(before {path} {})", small_tree(random, room)),
        4 => format!("(after {path} {})", small_tree(random, room)),
        5 => format!("(remove {path})"),
        _ => window_line(random, &path, day),
    }
}

/// The label of one of these nodes, as it is typed.
fn typed_label(random: &mut Random, view: &[Node], among: &[usize]) -> String {
    let node = *random.pick(among);
    typed(random, &view[node].label)
}

/// A room for a sheet, mostly one that stands where a sheet looks for rooms.
pub fn room(random: &mut Random, view: &[Node]) -> String {
    let any: Vec<usize> = (0..view.len()).filter(|number| view[*number].level == ROOM_LEVEL).collect();
    let with_lesson: Vec<usize> = view.iter().filter(|node| node.level == ROOM_LEVEL + 1).filter_map(|node| node.parent).collect();
    match random.below(20) {
        0 => restricted(random),
        1 => text_of(&some_label(random)),
        2..=13 if !with_lesson.is_empty() => typed_label(random, view, &with_lesson),
        14..=17 if !any.is_empty() => typed_label(random, view, &any),
        _ => some_room(random),
    }
}

/// How often a sheet is asked for, of a view that has lessons or none.
pub fn sheet_share(view: &[Node], with_lessons: usize, with_none: usize) -> usize {
    if view.iter().any(|node| node.level == ROOM_LEVEL + 1) {
        with_lessons
    } else {
        with_none
    }
}

pub fn question(random: &mut Random, view: &[Node], own: &[Label]) -> String {
    match random.below(6 + sheet_share(view, 3, 1)) {
        0 => "(view)".to_string(),
        1..=3 => format!("(query {})", command_path(random, view, own)),
        4..=5 => format!("(find {})", command_path(random, view, own)),
        _ => format!("(sheet {})", room(random, view)),
    }
}

/// A line that is refused in every session of stage E, or in most.
pub fn refused(random: &mut Random) -> String {
    let path = any_path(random);
    let name = text_of(&some_label(random));
    match random.below(17) {
        0 => format!("(subject {name})"),
        1 => format!("(isa {name} staff)"),
        2 => format!("(rule accept read {path} {name})"),
        3 => format!("(root {name})"),
        4 => format!("(child ({name}))"),
        5 => "(user nobody)".to_string(),
        6 => format!("(user {})", restricted(random)),
        7 => format!("(query {path}[0])"),
        8 => format!("(remove {path}/)"),
        9 => format!("(append {path} ({}))", restricted(random)),
        10 => format!("(rename {path} {})", restricted(random)),
        11 => format!("(view {path})"),
        12 => format!("(query {path}\t)"),
        13 => format!("(sheet {path})"),
        14 => random.pick(&["(day 0)", "(day 367)", "(day 1000)", "(day x)"]).to_string(),
        15 => format!("(window {path} {})", random.pick(&["0 9", "9 8", "1 367", "000 000", "1", "1 0366"])),
        _ => format!("(find  {path})"),
    }
}
