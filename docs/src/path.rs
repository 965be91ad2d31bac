//! Paths (document 01, Paths): reading one, and the nodes it selects.

use crate::label::{is_label_byte, listed, Equality, Label};
use crate::table::Node;

pub const STEPS_MAXIMUM: usize = 16;
const BRACKETS_MAXIMUM: usize = 2;
const DEPTH_MAXIMUM: usize = 3;
const POSITION_DIGITS: usize = 4;

#[derive(Clone, Copy, PartialEq, Eq, Debug)]
pub enum Test {
    Label(Label),
    Any,
    Own,
}

impl Test {
    /// Whether a node with this label passes; `own` are the names that `$` passes.
    pub fn passes(&self, label: &Label, own: &[Label]) -> bool {
        match self {
            Test::Any => true,
            Test::Own => listed(own, label, Label::same),
            Test::Label(wanted) => wanted.same(label),
        }
    }

    /// Whether the test is for a label equal to this.
    pub fn is_label(&self, label: &Label, equal: Equality) -> bool {
        matches!(self, Test::Label(wanted) if equal(wanted, label))
    }
}

#[derive(Clone, PartialEq, Eq, Debug)]
pub enum Bracket {
    Position(usize),
    Path(Vec<Step>),
}

/// One step: to children, or to all descendants.
#[derive(Clone, PartialEq, Eq, Debug)]
pub struct Step {
    pub descendants: bool,
    pub test: Test,
    pub brackets: Vec<Bracket>,
}

// --- Reading ---

struct Reader<'a> {
    text: &'a [u8],
    at: usize,
}

impl Reader<'_> {
    fn next_is(&self, byte: u8) -> bool {
        self.text.get(self.at) == Some(&byte)
    }

    fn skip(&mut self, byte: u8) -> Option<()> {
        if !self.next_is(byte) {
            return None;
        }
        self.at += 1;
        Some(())
    }

    /// The steps of a path, inside that many brackets.
    fn steps(&mut self, depth: usize) -> Option<Vec<Step>> {
        let mut steps = Vec::new();
        loop {
            let mut descendants = false;
            if depth == 0 || !steps.is_empty() {
                self.skip(b'/')?;
                descendants = self.skip(b'/').is_some();
            }
            let test = self.test()?;
            let mut brackets = Vec::new();
            while self.next_is(b'[') {
                if brackets.len() == BRACKETS_MAXIMUM {
                    return None;
                }
                brackets.push(self.bracket(depth + 1)?);
            }
            steps.push(Step { descendants, test, brackets });
            if steps.len() > STEPS_MAXIMUM {
                return None;
            }
            if !self.next_is(b'/') {
                return Some(steps);
            }
        }
    }

    fn test(&mut self) -> Option<Test> {
        if self.skip(b'*').is_some() {
            return Some(Test::Any);
        }
        if self.skip(b'$').is_some() {
            return Some(Test::Own);
        }
        let start = self.at;
        while self.at < self.text.len() && is_label_byte(self.text[self.at]) {
            self.at += 1;
        }
        Label::new(&self.text[start..self.at]).map(Test::Label)
    }

    fn bracket(&mut self, depth: usize) -> Option<Bracket> {
        if depth > DEPTH_MAXIMUM {
            return None;
        }
        self.skip(b'[')?;
        let digits = self.text[self.at..].iter().take_while(|byte| byte.is_ascii_digit()).count();
        if self.text.get(self.at + digits) == Some(&b']') {
            let number = &self.text[self.at..self.at + digits];
            if digits == 0 || digits > POSITION_DIGITS || number[0] == b'0' {
                return None;
            }
            self.at += digits + 1;
            return Some(Bracket::Position(number.iter().fold(0, |sum, digit| 10 * sum + (digit - b'0') as usize)));
        }
        let steps = self.steps(depth)?;
        self.skip(b']')?;
        Some(Bracket::Path(steps))
    }
}

/// The path that a text is, if it is well formed.
pub fn read_path(text: &[u8]) -> Option<Vec<Step>> {
    let mut reader = Reader { text, at: 0 };
    let steps = reader.steps(0)?;
    if reader.at == text.len() {
        Some(steps)
    } else {
        None
    }
}

// --- Selecting ---

/// Which nodes pass a step: its test, then its brackets from left to right.
fn passing(nodes: &[Node], step: &Step, test: &impl Fn(&Test, &Label) -> bool) -> Vec<bool> {
    let mut passes: Vec<bool> = nodes.iter().map(|node| test(&step.test, &node.label)).collect();
    for bracket in &step.brackets {
        match bracket {
            Bracket::Position(position) => {
                let mut counted = vec![0; nodes.len() + 1]; // for each parent; the document node's is the last
                for (number, node) in nodes.iter().enumerate() {
                    if passes[number] {
                        let count = &mut counted[node.parent.unwrap_or(nodes.len())];
                        *count += 1;
                        passes[number] = *count == *position;
                    }
                }
            }
            Bracket::Path(path) => {
                let finds = finding(nodes, path, test);
                for number in 0..nodes.len() {
                    passes[number] &= finds[number];
                }
            }
        }
    }
    passes
}

/// The nodes from which a path finds something.
fn finding(nodes: &[Node], path: &[Step], test: &impl Fn(&Test, &Label) -> bool) -> Vec<bool> {
    let mut finds = vec![true; nodes.len()]; // nothing is left to find
    for step in path.iter().rev() {
        let passes = passing(nodes, step, test);
        let mut before = vec![false; nodes.len()];
        for number in (0..nodes.len()).rev() {
            let found = passes[number] && finds[number];
            if let Some(parent) = nodes[number].parent {
                if found || (step.descendants && before[number]) {
                    before[parent] = true;
                }
            }
        }
        finds = before;
    }
    finds
}

/// The nodes that a path selects from the document node; `own` are the names that `$` passes.
pub fn select(nodes: &[Node], path: &[Step], own: &[Label]) -> Vec<bool> {
    select_by(nodes, path, &|test, label| test.passes(label, own))
}

/// The nodes that a path selects; `test` says whether a label passes a test.
pub fn select_by(nodes: &[Node], path: &[Step], test: &impl Fn(&Test, &Label) -> bool) -> Vec<bool> {
    let mut from = vec![false; nodes.len()];
    let mut from_document = true;
    for step in path {
        let passes = passing(nodes, step, test);
        let mut next = vec![false; nodes.len()];
        let mut reached = vec![false; nodes.len()]; // below a node that the step starts from
        for (number, node) in nodes.iter().enumerate() {
            reached[number] = match node.parent {
                None => from_document,
                Some(parent) => from[parent] || (step.descendants && reached[parent]),
            };
            next[number] = reached[number] && passes[number];
        }
        from = next;
        from_document = false;
    }
    from
}

#[cfg(test)]
mod tests {
    use super::*;
    use crate::table::{flatten, Tree};
    use crate::testing::{generate, random::Random};

    /// Children of a node, or of the document node.
    fn children(nodes: &[Node], from: Option<usize>) -> Vec<usize> {
        (0..nodes.len()).filter(|number| nodes[*number].parent == from).collect()
    }

    /// XPath's own definition from one context node: a step is taken from each node on its own, and each bracket filters the list that the one before left.
    fn reached(nodes: &[Node], from: Option<usize>, path: &[Step], own: &[Label]) -> Vec<usize> {
        let Some((step, rest)) = path.split_first() else {
            return from.into_iter().collect();
        };
        let mut parents = vec![from];
        if step.descendants {
            let mut next = 0;
            while next < parents.len() {
                parents.extend(children(nodes, parents[next]).into_iter().map(Some));
                next += 1;
            }
        }
        let mut found = Vec::new();
        for parent in parents {
            let mut list = children(nodes, parent);
            let small = |label: &Label| label.text().to_ascii_lowercase();
            list.retain(|number| match &step.test {
                Test::Any => true,
                Test::Own => own.iter().any(|name| small(name) == small(&nodes[*number].label)),
                Test::Label(label) => small(label) == small(&nodes[*number].label),
            });
            for bracket in &step.brackets {
                list = match bracket {
                    Bracket::Position(position) => list.into_iter().skip(position - 1).take(1).collect(),
                    Bracket::Path(inner) => list.into_iter().filter(|number| !reached(nodes, Some(*number), inner, own).is_empty()).collect(),
                };
            }
            for number in list {
                found.extend(reached(nodes, Some(number), rest, own));
            }
        }
        found
    }

    #[test]
    fn selections_are_those_of_xpath() {
        let mut random = Random::new(1);
        let own = ["Ann", "staff"].map(generate::label);
        let mut hits = 0;
        for _ in 0..20_000 {
            let size = random.within(1, 14);
            let nodes = flatten(&generate::tree(&mut random, size, 5)).0;
            let text = match random.below(3) {
                0 => generate::any_path(&mut random),
                _ => {
                    let node = random.below(nodes.len());
                    generate::path_to(&mut random, &nodes, &own, node)
                }
            };
            let path = read_path(text.as_bytes()).expect("a path");
            let mut marks = vec![false; nodes.len()];
            for number in reached(&nodes, None, &path, &own) {
                marks[number] = true;
                hits += 1;
            }
            assert_eq!(select(&nodes, &path, &own), marks, "{text}");
        }
        assert!(hits > 10_000);
    }

    #[test]
    fn a_position_after_own_counts_under_whichever_name() {
        let tree = |text: &str, children| Tree::new(generate::label(text), children);
        let leaf = |text: &str| tree(text, Vec::new());
        let nodes = flatten(&tree("r", vec![leaf("ann"), leaf("x"), tree("staff", vec![leaf("ann")]), leaf("bob"), leaf("ann")])).0;
        let own = ["ann", "staff"].map(generate::label);
        let selected = |text: &str| {
            let marks = select(&nodes, &read_path(text.as_bytes()).expect("a path"), &own);
            (0..marks.len()).filter(|number| marks[*number]).collect::<Vec<usize>>()
        };
        assert_eq!(selected("//$"), [1, 3, 4, 6]);
        assert_eq!(selected("/r/$[1]"), [1]);
        assert_eq!(selected("/r/$[2]"), [3]);
        assert_eq!(selected("/r/$[3]"), [6]);
        assert_eq!(selected("/r/$[4]"), []);
        assert_eq!(selected("//$/$"), [4]); // two names in one path
        assert_eq!(selected("//*[$][$[2]]"), [0]);
    }

    #[test]
    fn a_step_passes_in_either_case() {
        let leaf = |text: &str| Tree::new(generate::label(text), Vec::new());
        let nodes = flatten(&Tree { children: ["r12", "R12", "R-12", "ANN", "Room", "AZaz"].map(leaf).to_vec(), ..leaf("school") }).0;
        let own = ["ann"].map(generate::label);
        let selected = |text: &str| {
            let marks = select(&nodes, &read_path(text.as_bytes()).expect("a path"), &own);
            (0..marks.len()).filter(|number| marks[*number]).collect::<Vec<usize>>()
        };
        assert_eq!(selected("/SCHOOL/R12"), [1, 2]);
        assert_eq!(selected("//r12[2]"), [2]); // counted together
        assert_eq!(selected("//r-12"), [3]);
        assert_eq!(selected("//$"), [4]);
        assert_eq!(selected("/*[rOOM]"), [0]);
        assert_eq!(selected("//azAZ"), [6]);
    }
}
