//! `(view)` alone, for the speed of a large view (document 02, card 12): "That version makes 13's check, then passes once over the records, tries each rule at
//! most once on each, and gives the same answer." It works on the lent bytes themselves and decodes neither state nor table.
//!
//! The rules are tried from the last to the first, until read and position are decided; those of other rights, or of subjects that the user is not, are left out
//! before the pass.

use crate::label::{all_zero, is_label_byte, read_record, read_text, LABEL_MAXIMUM, RECORD_BYTES, RESTRICTED, SPARE_AT};
use crate::path::STEPS_MAXIMUM;
use crate::policy::{DELETE, INSERT, ISA_MAXIMUM, POSITION, READ, RULES_MAXIMUM, SUBJECTS_MAXIMUM, UPDATE};
use crate::state::{Stage, ISA_AT, RULES_AT, RULE_BYTES, RULE_STEPS_AT, SESSION_BYTES, STATE_BYTES, SUBJECTS_AT};
use crate::step::{AREA_SHORT, BAD_STORE, NO_FORM, NO_USER, WRONG_STAGE};
use crate::table::{CAPACITY_MAXIMUM, COUNT_BYTES, LEVEL_MAXIMUM};
use crate::window::{FIRST_DAY, LAST_DAY};
use std::io::Write;

/// A label in small letters with the zeros behind it: two are the same bytes where the labels are equal (document 02, card 6).
type Folded = [u8; LABEL_MAXIMUM];
const LABEL_AT: usize = 2;

fn folded(record: &[u8]) -> Folded {
    let label: &Folded = record[LABEL_AT..].first_chunk().expect("a record");
    label.map(|byte| byte.to_ascii_lowercase())
}

fn text(record: &[u8]) -> &[u8] {
    &record[LABEL_AT..LABEL_AT + record[1] as usize]
}

// --- 13's check ---

/// The text of a label that is not RESTRICTED.
fn text_ok(text: &[u8]) -> bool {
    text.iter().all(|&byte| is_label_byte(byte)) && !text.eq_ignore_ascii_case(RESTRICTED.text())
}

/// A label that is not RESTRICTED, and zeros behind it.
fn label_ok(record: &[u8]) -> bool {
    read_record(record).is_some_and(|(_, text)| text_ok(text))
}

/// The first and the last day of a node (document 02, card 7).
fn window(record: &[u8]) -> (u16, u16) {
    let number = |at: usize| u16::from_le_bytes([record[at], record[at + 1]]);
    (number(SPARE_AT), number(SPARE_AT + 2))
}

/// Such a label, and a window; the root's is the whole year.
fn node_ok(record: &[u8], root: bool) -> bool {
    let (first, last) = window(record);
    let window_ok = if root { (first, last) == (FIRST_DAY, LAST_DAY) } else { FIRST_DAY <= first && first <= last && last <= LAST_DAY };
    window_ok && all_zero(&record[SPARE_AT + 4..]) && read_text(record).is_some_and(|(_, text)| text_ok(text))
}

fn records_ok(records: &[u8]) -> bool {
    let mut deepest = 0; // level that the next record may have
    for (number, record) in records.chunks_exact(RECORD_BYTES).enumerate() {
        let level = record[0] as usize;
        if level > deepest.min(LEVEL_MAXIMUM) || (level == 0) != (number == 0) || !node_ok(record, number == 0) {
            return false;
        }
        deepest = level + 1;
    }
    true
}

/// The records in use of a table; none where the bytes are no table.
fn records(table: &[u8]) -> Option<&[u8]> {
    let (count, rest) = table.split_first_chunk::<COUNT_BYTES>()?;
    let count = u32::from_le_bytes(*count) as usize;
    if count > (rest.len() / RECORD_BYTES).min(CAPACITY_MAXIMUM) {
        return None;
    }
    let (records, free) = rest.split_at(count * RECORD_BYTES);
    (records_ok(records) && all_zero(free)).then_some(records)
}

fn subjects_ok(subjects: &[u8]) -> bool {
    let sound = subjects.chunks_exact(RECORD_BYTES).all(|name| name[0] == 0 && label_ok(name));
    let names: Vec<Folded> = subjects.chunks_exact(RECORD_BYTES).map(folded).collect();
    sound && (0..names.len()).all(|number| !names[..number].contains(&names[number]))
}

fn isa_ok(isa: &[u8], subjects: usize) -> bool {
    let mut roles = [0u64; SUBJECTS_MAXIMUM]; // of each subject, a bit a role
    isa.chunks_exact(2).all(|line| {
        let (subject, role) = (line[0] as usize, line[1] as usize);
        let fits = subject < subjects && role < subject && roles[subject] >> role & 1 == 0;
        if fits {
            roles[subject] |= 1 << role;
        }
        fits
    })
}

fn step_ok(step: &[u8]) -> bool {
    step[0] <= 1 && (label_ok(step) || (step[1] == 1 && matches!(step[LABEL_AT], b'*' | b'$') && all_zero(&step[LABEL_AT + 1..])))
}

fn rule_ok(rule: &[u8], subjects: usize) -> bool {
    let (head, steps) = rule.split_at(RULE_STEPS_AT);
    let count = head[3] as usize;
    if head[0] > 1 || ![POSITION, READ, INSERT, UPDATE, DELETE].contains(&head[1]) || head[2] as usize >= subjects || !all_zero(&head[4..]) {
        return false;
    }
    if !(1..=STEPS_MAXIMUM).contains(&count) {
        return false;
    }
    let (steps, unused) = steps.split_at(count * RECORD_BYTES);
    steps.chunks_exact(RECORD_BYTES).all(step_ok) && all_zero(unused)
}

/// A policy in its bytes: the subjects, isa lines and rules in use.
struct Policy<'a> {
    subjects: &'a [u8],
    isa: &'a [u8],
    rules: &'a [u8],
}

fn policy(bytes: &[u8]) -> Option<Policy<'_>> {
    let (subjects, isa, rules) = (bytes[0] as usize, bytes[1] as usize, bytes[2] as usize);
    if subjects > SUBJECTS_MAXIMUM || isa > ISA_MAXIMUM || rules > RULES_MAXIMUM || !all_zero(&bytes[3..SUBJECTS_AT]) {
        return None;
    }
    let (subject_bytes, no_subjects) = bytes[SUBJECTS_AT..ISA_AT].split_at(subjects * RECORD_BYTES);
    let (isa_bytes, no_isa) = bytes[ISA_AT..RULES_AT].split_at(2 * isa);
    let (rule_bytes, no_rules) = bytes[RULES_AT..].split_at(rules * RULE_BYTES);
    let sound = subjects_ok(subject_bytes) && isa_ok(isa_bytes, subjects) && rule_bytes.chunks_exact(RULE_BYTES).all(|rule| rule_ok(rule, subjects));
    let rest_zero = all_zero(no_subjects) && all_zero(no_isa) && all_zero(no_rules);
    (sound && rest_zero).then_some(Policy { subjects: subject_bytes, isa: isa_bytes, rules: rule_bytes })
}

/// What 13 lets pass.
struct Store<'a> {
    stage: u8,
    user: Option<usize>,
    day: u16,
    policy: Policy<'a>,
    records: &'a [u8],
}

fn store<'a>(state: &'a [u8], table: &'a [u8]) -> Option<Store<'a>> {
    if state.len() != STATE_BYTES || state[0] > Stage::E as u8 || !all_zero(&state[4..SESSION_BYTES]) {
        return None;
    }
    let (stage, user) = (state[0], (state[1] as usize).checked_sub(1));
    let day_before = u16::from_le_bytes([state[2], state[3]]); // a day is stored less one
    if day_before >= LAST_DAY {
        return None;
    }
    let policy = policy(&state[SESSION_BYTES..])?;
    let user_known = user.is_none_or(|user| user < policy.subjects.len() / RECORD_BYTES);
    let rule_at_a = stage < Stage::B as u8 && !policy.rules.is_empty();
    if !user_known || rule_at_a || (user.is_some() && stage != Stage::E as u8) {
        return None;
    }
    let records = records(table)?;
    let root_taken = stage >= Stage::C as u8;
    (root_taken != records.is_empty()).then_some(Store { stage, user, day: day_before + 1, policy, records })
}

// --- Rules and paths ---

/// What a step lets pass: any label, one label, or for `$` the user's names (document 02, card 5).
enum Test {
    Any,
    Label(Folded),
    Own,
}

/// A node of a chain: its label, and whether that is one of the user's names.
#[derive(Clone, Copy)]
struct Link {
    label: Folded,
    own: bool,
}

/// A step of a rule's path.
struct Step {
    descendants: bool,
    test: Test,
}

impl Step {
    fn new(step: &[u8]) -> Step {
        let test = match text(step) {
            b"*" => Test::Any,
            b"$" => Test::Own,
            _ => Test::Label(folded(step)),
        };
        Step { descendants: step[0] == 1, test }
    }

    fn passes(&self, node: &Link) -> bool {
        match &self.test {
            Test::Any => true,
            Test::Label(wanted) => *wanted == node.label,
            Test::Own => node.own,
        }
    }
}

struct Rule {
    accept: bool,
    right: u8,
    path: Vec<Step>,
}

impl Rule {
    fn new(rule: &[u8]) -> Rule {
        let steps = &rule[RULE_STEPS_AT..][..rule[3] as usize * RECORD_BYTES];
        Rule { accept: rule[0] == 1, right: rule[1], path: steps.chunks_exact(RECORD_BYTES).map(Step::new).collect() }
    }
}

impl Policy<'_> {
    /// The subjects that a subject is, a bit each. A role is declared before who has it, so one way down through the subjects finds all.
    fn roles(&self, user: usize) -> u64 {
        let mut roles = 1u64 << user;
        for subject in (1..=user).rev() {
            if roles >> subject & 1 == 1 {
                for line in self.isa.chunks_exact(2).filter(|line| line[0] as usize == subject) {
                    roles |= 1 << line[1];
                }
            }
        }
        roles
    }

    /// The names of these subjects.
    fn names(&self, roles: u64) -> Vec<Folded> {
        self.subjects.chunks_exact(RECORD_BYTES).enumerate().filter(|(subject, _)| roles >> subject & 1 == 1).map(|(_, name)| folded(name)).collect()
    }

    /// The rules of read and position that apply to a user with these roles, the last one first.
    fn rules(&self, roles: u64) -> Vec<Rule> {
        let applies = |rule: &&[u8]| rule[1] & (READ | POSITION) != 0 && roles >> rule[2] & 1 == 1;
        self.rules.chunks_exact(RULE_BYTES).rev().filter(applies).map(Rule::new).collect()
    }
}

/// Whether a path selects the last node of a chain of labels that begins with the root's. From the last step backwards, each run of steps after a `//` is put
/// as low as it fits: if the steps before it fit above any place of the run, they fit above the lowest.
fn selects(path: &[Step], chain: &[Link]) -> bool {
    let (mut step, mut level) = (path.len() - 1, chain.len() - 1);
    let mut next = None; // the last step before the `//` passed last, and the next level to put it on
    loop {
        if step <= level && path[step].passes(&chain[level]) {
            if step == 0 && (level == 0 || path[0].descendants) {
                return true;
            }
            if step > 0 {
                if path[step].descendants {
                    next = Some((step - 1, level - 1));
                }
                (step, level) = (step - 1, level - 1);
                continue;
            }
        }
        match next {
            Some((first, lower)) if lower > first => {
                (step, level) = (first, lower - 1);
                next = Some((step, level));
            }
            _ => return false,
        }
    }
}

/// Read and position on the last node of a chain.
fn rights(rules: &[Rule], chain: &[Link]) -> u8 {
    let (mut decided, mut granted) = (0, 0);
    for rule in rules {
        if decided & rule.right == 0 && selects(&rule.path, chain) {
            decided |= rule.right;
            if rule.accept {
                granted |= rule.right;
            }
            if decided == READ | POSITION {
                break;
            }
        }
    }
    granted
}

// --- The answer ---

struct Answer {
    bytes: Vec<u8>,
    level: usize, // of the node written last
    nodes: usize,
}

impl Answer {
    /// Ends the trees that a node on a level does not belong to.
    fn close(&mut self, level: usize) {
        for _ in level..=self.level {
            self.bytes.push(b')');
        }
        if level == 1 && self.level > 0 {
            self.bytes.extend_from_slice(b")\n");
        }
    }

    fn node(&mut self, level: usize, label: &[u8]) {
        if level == 0 {
            self.bytes.extend_from_slice(b"(root ");
            self.bytes.extend_from_slice(label);
            self.bytes.extend_from_slice(b")\n");
        } else {
            self.close(level);
            self.bytes.extend_from_slice(if level == 1 { b"(child (" } else { b" (" });
            self.bytes.extend_from_slice(label);
        }
        self.level = level;
        self.nodes += 1;
    }

    fn end(mut self) -> Vec<u8> {
        self.close(1);
        writeln!(self.bytes, "(end {})", self.nodes).expect("a vector takes all bytes");
        self.bytes
    }
}

/// The view of a user with these names on a day: one pass over the records, each label folded once, and compared with the names once, if a rule uses `$`.
fn view(records: &[u8], rules: &[Rule], names: &[Folded], day: u16) -> Vec<u8> {
    let mut chain = [Link { label: [0; LABEL_MAXIMUM], own: false }; LEVEL_MAXIMUM + 1]; // from the root to the node
    let uses_own = rules.iter().flat_map(|rule| &rule.path).any(|step| matches!(step.test, Test::Own));
    let mut hidden = LEVEL_MAXIMUM + 1; // the level of the highest node on the way that is not shown
    let mut answer = Answer { bytes: Vec::new(), level: 0, nodes: 0 };
    for record in records.chunks_exact(RECORD_BYTES) {
        let level = record[0] as usize;
        if level > hidden {
            continue;
        }
        let (first, last) = window(record);
        if day < first || last < day {
            hidden = level;
            continue;
        }
        hidden = LEVEL_MAXIMUM + 1;
        let label = folded(record);
        chain[level] = Link { label, own: uses_own && names.contains(&label) };
        match rights(rules, &chain[..=level]) {
            0 => hidden = level,
            rights if rights & READ != 0 => answer.node(level, text(record)),
            _ => answer.node(level, RESTRICTED.text()),
        }
    }
    answer.end()
}

fn answer(state: &[u8], table: &[u8], line: &[u8]) -> Result<Vec<u8>, u8> {
    let store = store(state, table).ok_or(BAD_STORE)?;
    if line != b"(view)" {
        return Err(NO_FORM);
    }
    if store.stage < Stage::C as u8 {
        return Err(WRONG_STAGE);
    }
    let user = store.user.ok_or(NO_USER)?;
    let roles = store.policy.roles(user);
    Ok(view(store.records, &store.policy.rules(roles), &store.policy.names(roles), store.day))
}

/// `(view)` on lent bytes: the answer's length, or minus the refusal's number. Every other line is refused with 2.
pub fn timetable_line(state: &mut [u8], table: &mut [u8], line: &[u8], area: &mut [u8]) -> i64 {
    match answer(state, table, line) {
        Err(number) => -i64::from(number),
        Ok(answer) if answer.len() > area.len() => -i64::from(AREA_SHORT),
        Ok(answer) => {
            area[..answer.len()].copy_from_slice(&answer);
            answer.len() as i64
        }
    }
}
