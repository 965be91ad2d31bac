//! The stored tree and its table (document 01, Tree and table; docs/FORMAT.md).

use crate::label::{all_zero, read_text, write_record, Equality, Label, RECORD_BYTES, RESTRICTED};
use crate::state::Checks;
use crate::window::{Window, WHOLE_YEAR};

pub const LEVEL_MAXIMUM: usize = 11;
pub const CAPACITY_MAXIMUM: usize = 16_384;
pub const COUNT_BYTES: usize = 4;

/// A node in a list in document order; its parent is a number in the same list, none for the root.
#[derive(Clone, Copy, PartialEq, Eq, Debug)]
pub struct Node {
    pub level: usize,
    pub label: Label,
    pub window: Window,
    pub parent: Option<usize>,
}

impl Node {
    /// A node that is shown all year.
    pub fn new(level: usize, label: Label, parent: Option<usize>) -> Node {
        Node { level, label, window: WHOLE_YEAR, parent }
    }
}

/// A nested tree. `origin` is the number that a node had before the line; inserted nodes have none.
#[derive(Clone, PartialEq, Eq, Debug)]
pub struct Tree {
    pub label: Label,
    pub window: Window,
    pub origin: Option<usize>,
    pub children: Vec<Tree>,
}

impl Tree {
    /// A tree that comes from outside the table.
    pub fn new(label: Label, children: Vec<Tree>) -> Tree {
        Tree { label, window: WHOLE_YEAR, origin: None, children }
    }

    pub fn size(&self) -> usize {
        1 + self.children.iter().map(Tree::size).sum::<usize>()
    }

    /// Levels below the tree's own root.
    pub fn height(&self) -> usize {
        self.children.iter().map(|child| 1 + child.height()).max().unwrap_or(0)
    }

    pub fn holds(&self, label: &Label, equal: Equality) -> bool {
        equal(&self.label, label) || self.children.iter().any(|child| child.holds(label, equal))
    }
}

/// The nodes of a tree in document order, with their origins.
pub fn flatten(tree: &Tree) -> (Vec<Node>, Vec<Option<usize>>) {
    fn walk(tree: &Tree, level: usize, parent: Option<usize>, nodes: &mut Vec<Node>, origins: &mut Vec<Option<usize>>) {
        let number = nodes.len();
        nodes.push(Node { level, label: tree.label, window: tree.window, parent });
        origins.push(tree.origin);
        for child in &tree.children {
            walk(child, level + 1, Some(number), nodes, origins);
        }
    }
    let (mut nodes, mut origins) = (Vec::new(), Vec::new());
    walk(tree, 0, None, &mut nodes, &mut origins);
    (nodes, origins)
}

/// The nested tree of a list of nodes that is not empty, each with the origin that it is given by its number.
fn nest_from(nodes: &[Node], origin: fn(usize) -> Option<usize>) -> Tree {
    fn take(nodes: &[Node], origin: fn(usize) -> Option<usize>, next: &mut usize) -> Tree {
        let number = *next;
        *next += 1;
        let mut children = Vec::new();
        while *next < nodes.len() && nodes[*next].level > nodes[number].level {
            children.push(take(nodes, origin, next));
        }
        Tree { label: nodes[number].label, window: nodes[number].window, origin: origin(number), children }
    }
    take(nodes, origin, &mut 0)
}

/// The nested tree of a list of nodes that is not empty; every node is its own origin.
pub fn nest(nodes: &[Node]) -> Tree {
    nest_from(nodes, Some)
}

/// The nested tree of a list of nodes that is not empty and comes from outside the table.
pub fn nest_inserted(nodes: &[Node]) -> Tree {
    nest_from(nodes, |_| None)
}

#[derive(Clone, Debug)]
pub struct Table {
    pub capacity: usize,
    pub nodes: Vec<Node>,
}

/// The window of a record, the root's or another's; none where it is bad.
fn decode_window(record: &[u8], root: bool, checks: Checks) -> Option<Window> {
    let window = (checks.window)(Window::read(record)?)?;
    (!root || window == WHOLE_YEAR || checks.any_root).then_some(window)
}

/// The table that lent bytes hold, if they hold one: none of its labels may be equal to RESTRICTED, and the root's window is the whole year.
pub fn decode(bytes: &[u8], checks: Checks) -> Option<Table> {
    if bytes.len() < COUNT_BYTES {
        return None;
    }
    let capacity = ((bytes.len() - COUNT_BYTES) / RECORD_BYTES).min(CAPACITY_MAXIMUM);
    let count = u32::from_le_bytes([bytes[0], bytes[1], bytes[2], bytes[3]]) as usize;
    if count > capacity {
        return None;
    }
    let mut nodes: Vec<Node> = Vec::with_capacity(count);
    let mut open: Vec<usize> = Vec::new(); // the node of each level on the way to the next one
    for number in 0..count {
        let record = &bytes[COUNT_BYTES + RECORD_BYTES * number..][..RECORD_BYTES];
        let (level, text) = read_text(record)?;
        let (level, label, window) = (level as usize, Label::new(text)?, decode_window(record, number == 0, checks)?);
        let level_fits = if number == 0 { level == 0 } else { level >= 1 && level <= open.len() };
        if !level_fits || level > LEVEL_MAXIMUM || (checks.ban)(&label, &RESTRICTED) {
            return None;
        }
        open.truncate(level);
        nodes.push(Node { level, label, window, parent: open.last().copied() });
        open.push(number);
    }
    if !all_zero(&bytes[COUNT_BYTES + RECORD_BYTES * count..]) {
        return None;
    }
    Some(Table { capacity, nodes })
}

/// Writes the nodes into bytes that are long enough for them.
pub fn encode(nodes: &[Node], bytes: &mut [u8]) {
    bytes[..COUNT_BYTES].copy_from_slice(&(nodes.len() as u32).to_le_bytes());
    for (number, node) in nodes.iter().enumerate() {
        let record = &mut bytes[COUNT_BYTES + RECORD_BYTES * number..][..RECORD_BYTES];
        write_record(record, node.level as u8, node.label.text());
        node.window.write(record);
    }
    bytes[COUNT_BYTES + RECORD_BYTES * nodes.len()..].fill(0);
}
