//! A state's bytes (docs/FORMAT.md): the session, then the policy.

use crate::label::{all_zero, read_record, write_record, Equality, Label, RECORD_BYTES, RESTRICTED};
use crate::path::{Step, Test, STEPS_MAXIMUM};
use crate::policy::{Policy, Rule, DELETE, INSERT, ISA_MAXIMUM, POSITION, READ, RULES_MAXIMUM, SUBJECTS_MAXIMUM, UPDATE};
use crate::window::{is_day, Window, FIRST_DAY};

pub const SESSION_BYTES: usize = 8;
pub const SUBJECTS_AT: usize = 8;
pub const ISA_AT: usize = SUBJECTS_AT + RECORD_BYTES * SUBJECTS_MAXIMUM;
pub const RULES_AT: usize = ISA_AT + 2 * ISA_MAXIMUM;
pub const RULE_STEPS_AT: usize = 8;
pub const RULE_BYTES: usize = RULE_STEPS_AT + RECORD_BYTES * STEPS_MAXIMUM;
pub const POLICY_BYTES: usize = RULES_AT + RULE_BYTES * RULES_MAXIMUM;
pub const STATE_BYTES: usize = SESSION_BYTES + POLICY_BYTES;

#[derive(Clone, Copy, PartialEq, Eq, PartialOrd, Ord, Debug)]
pub enum Stage {
    A,
    B,
    C,
    D,
    E,
}

const STAGES: [Stage; 5] = [Stage::A, Stage::B, Stage::C, Stage::D, Stage::E];

#[derive(Clone, PartialEq, Eq, Debug)]
pub struct State {
    pub stage: Stage,
    pub user: Option<usize>,
    pub day: u16,
    pub policy: Policy,
}

// --- Reading ---

/// How 13 compares labels, with RESTRICTED and names with one another, and which windows and days it lets pass.
#[derive(Clone, Copy)]
pub struct Checks {
    pub ban: Equality,
    pub names: Equality,
    pub window: fn((u16, u16)) -> Option<Window>,
    pub any_root: bool, // whether a root may have any window
    pub any_day: bool,  // whether a session may have any day
}

fn decode_step(record: &[u8], ban: Equality) -> Option<Step> {
    let (axis, text) = read_record(record)?;
    let test = match text {
        b"*" => Test::Any,
        b"$" => Test::Own,
        _ => Test::Label(Label::new(text)?),
    };
    if axis > 1 || test.is_label(&RESTRICTED, ban) {
        return None;
    }
    Some(Step { descendants: axis == 1, test, brackets: Vec::new() })
}

fn decode_rule(bytes: &[u8], subjects: usize, ban: Equality) -> Option<Rule> {
    let (right, subject, steps) = (bytes[1], bytes[2] as usize, bytes[3] as usize);
    let right_known = [POSITION, READ, INSERT, UPDATE, DELETE].contains(&right);
    if bytes[0] > 1 || !right_known || subject >= subjects || !(1..=STEPS_MAXIMUM).contains(&steps) || !all_zero(&bytes[4..RULE_STEPS_AT]) {
        return None;
    }
    let mut path = Vec::with_capacity(steps);
    for number in 0..steps {
        path.push(decode_step(&bytes[RULE_STEPS_AT + RECORD_BYTES * number..][..RECORD_BYTES], ban)?);
    }
    if !all_zero(&bytes[RULE_STEPS_AT + RECORD_BYTES * steps..RULE_BYTES]) {
        return None;
    }
    Some(Rule { accept: bytes[0] == 1, right, subject, path })
}

fn decode_policy(bytes: &[u8], checks: Checks) -> Option<Policy> {
    let (subjects, isa_lines, rules) = (bytes[0] as usize, bytes[1] as usize, bytes[2] as usize);
    if subjects > SUBJECTS_MAXIMUM || isa_lines > ISA_MAXIMUM || rules > RULES_MAXIMUM || !all_zero(&bytes[3..SUBJECTS_AT]) {
        return None;
    }
    let mut policy = Policy::default();
    for number in 0..subjects {
        let (first, text) = read_record(&bytes[SUBJECTS_AT + RECORD_BYTES * number..][..RECORD_BYTES])?;
        let name = Label::new(text)?;
        if first != 0 || (checks.ban)(&name, &RESTRICTED) || policy.subject(&name, checks.names).is_some() {
            return None;
        }
        policy.subjects.push(name);
    }
    for number in 0..isa_lines {
        let line = (bytes[ISA_AT + 2 * number] as usize, bytes[ISA_AT + 2 * number + 1] as usize);
        if line.0 >= subjects || line.1 >= line.0 || policy.isa.contains(&line) {
            return None;
        }
        policy.isa.push(line);
    }
    for number in 0..rules {
        policy.rules.push(decode_rule(&bytes[RULES_AT + RULE_BYTES * number..][..RULE_BYTES], subjects, checks.ban)?);
    }
    let unused = all_zero(&bytes[SUBJECTS_AT + RECORD_BYTES * subjects..ISA_AT])
        && all_zero(&bytes[ISA_AT + 2 * isa_lines..RULES_AT])
        && all_zero(&bytes[RULES_AT + RULE_BYTES * rules..]);
    if unused {
        Some(policy)
    } else {
        None
    }
}

/// The state that lent bytes hold, if they hold one.
pub fn decode(bytes: &[u8], checks: Checks) -> Option<State> {
    if bytes.len() != STATE_BYTES || !all_zero(&bytes[4..SESSION_BYTES]) {
        return None;
    }
    let stage = *STAGES.get(bytes[0] as usize)?;
    let user = (bytes[1] as usize).checked_sub(1);
    let day = u16::from_le_bytes([bytes[2], bytes[3]]).checked_add(FIRST_DAY).filter(|day| is_day(*day) || checks.any_day)?;
    let policy = decode_policy(&bytes[SESSION_BYTES..], checks)?;
    let user_known = match user {
        None => true,
        Some(subject) => subject < policy.subjects.len(),
    };
    let rule_at_a = !policy.rules.is_empty() && stage < Stage::B;
    if !user_known || rule_at_a || (user.is_some() && stage != Stage::E) {
        return None;
    }
    Some(State { stage, user, day, policy })
}

// --- Writing ---

fn encode_rule(rule: &Rule, bytes: &mut [u8]) {
    bytes[0] = rule.accept as u8;
    bytes[1] = rule.right;
    bytes[2] = rule.subject as u8;
    bytes[3] = rule.path.len() as u8;
    for (number, step) in rule.path.iter().enumerate() {
        let text = match &step.test {
            Test::Any => b"*",
            Test::Own => b"$",
            Test::Label(label) => label.text(),
        };
        write_record(&mut bytes[RULE_STEPS_AT + RECORD_BYTES * number..][..RECORD_BYTES], step.descendants as u8, text);
    }
}

/// Writes a state into its bytes.
pub fn encode(state: &State, bytes: &mut [u8]) {
    bytes.fill(0);
    bytes[0] = state.stage as u8;
    bytes[1] = state.user.map_or(0, |subject| subject as u8 + 1);
    bytes[2..4].copy_from_slice(&(state.day - FIRST_DAY).to_le_bytes());
    let policy = &state.policy;
    let bytes = &mut bytes[SESSION_BYTES..];
    bytes[0] = policy.subjects.len() as u8;
    bytes[1] = policy.isa.len() as u8;
    bytes[2] = policy.rules.len() as u8;
    for (number, name) in policy.subjects.iter().enumerate() {
        write_record(&mut bytes[SUBJECTS_AT + RECORD_BYTES * number..][..RECORD_BYTES], 0, name.text());
    }
    for (number, line) in policy.isa.iter().enumerate() {
        bytes[ISA_AT + 2 * number] = line.0 as u8;
        bytes[ISA_AT + 2 * number + 1] = line.1 as u8;
    }
    for (number, rule) in policy.rules.iter().enumerate() {
        encode_rule(rule, &mut bytes[RULES_AT + RULE_BYTES * number..][..RULE_BYTES]);
    }
}
