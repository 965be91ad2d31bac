//! Lent bytes for one engine, and what two engines must agree on after a call.

use super::engine::Engine;
use super::random::Random;

#[derive(Clone, PartialEq)]
pub struct Lent {
    pub state: Vec<u8>,
    pub table: Vec<u8>,
    pub area: Vec<u8>,
}

/// What is given to a store: a line, or a document to load.
pub enum Call {
    Line(Vec<u8>),
    LoadXml(Vec<u8>),
}

impl Lent {
    pub fn line(&mut self, engine: &dyn Engine, line: &[u8]) -> i64 {
        engine.line(&mut self.state, &mut self.table, line, &mut self.area)
    }

    pub fn call(&mut self, engine: &dyn Engine, call: &Call) -> i64 {
        match call {
            Call::Line(line) => self.line(engine, line),
            Call::LoadXml(xml) => engine.load_xml(&mut self.state, &mut self.table, xml, &mut self.area),
        }
    }

    pub fn copy_from(&mut self, other: &Lent) {
        self.state.clone_from(&other.state);
        self.table.clone_from(&other.table);
        self.area.clone_from(&other.area);
    }
}

/// An answer area of random bytes, now and then a short one.
pub fn new_area(random: &mut Random) -> Vec<u8> {
    let length = match random.below(40) {
        0 => 65_536,
        1..=4 => random.below(40),
        5 => random.below(600),
        _ => 4_096,
    };
    (0..length).map(|_| random.byte()).collect()
}

fn first_difference(name: &str, one: &[u8], other: &[u8]) -> Option<String> {
    if one == other {
        return None;
    }
    let at = one.iter().zip(other).position(|(one, other)| one != other).unwrap_or(one.len().min(other.len()));
    Some(format!("byte {at} of the {name} is {:?} and {:?}", one.get(at), other.get(at)))
}

fn differences(one: &Lent, other: &Lent) -> Option<String> {
    first_difference("state", &one.state, &other.state)
        .or_else(|| first_difference("table", &one.table, &other.table))
        .or_else(|| first_difference("area", &one.area, &other.area))
}

/// What is wrong after a call that two engines answered with these numbers: they return or leave different things, a refused call changed something, or an
/// accepted one the area behind its answer.
pub fn agree(before: &Lent, one: (&Lent, i64), other: (&Lent, i64)) -> Result<(), String> {
    let (after, returned) = one;
    if returned != other.1 {
        return Err(format!("the engines return {returned} and {}", other.1));
    }
    if let Some(difference) = differences(after, other.0) {
        return Err(difference);
    }
    if returned < 0 && after != before {
        return Err("a refused call changes something".to_string());
    }
    if returned >= 0 && after.area[returned as usize..] != before.area[returned as usize..] {
        return Err("the area changes behind the answer".to_string());
    }
    Ok(())
}
