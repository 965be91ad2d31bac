//! Random documents of the solver: of the narrow kind, printed in one of the ways that mean the same, or damaged.

use super::generate::{self, label, sized_tree, typed};
use super::random::Random;
use super::sessions::disturb;
use crate::label::{Label, RESTRICTED};
use crate::table::{Tree, CAPACITY_MAXIMUM, LEVEL_MAXIMUM};
use crate::window::WHOLE_YEAR;
use crate::xml::is_name;

const BLANKS: [&str; 4] = [" ", "\t", "\r", "\n"];
const TEXTS: [&str; 7] = ["10B", "7", "-1", ".", "2.5", "..", "-"]; // labels that are no names
const NESTED: [&str; 4] = ["a", "b", "ab", "_"];
const WIDE: usize = 400; // nodes, too many for one line

/// What may stand between the tags of a document of the kind.
const KNOWN: [&str; 15] = [
    "<a/>",
    "<a></a>",
    "<_/>",
    "<xml/>",
    "<abcdefghijklmnopqrstuvwx/>",
    "<abcdefghijklmnopqrstuvwx>\n</abcdefghijklmnopqrstuvwx>",
    "<RESTRICTED/>",
    "<restricted/>",
    "<x>RESTRICTED</x>",
    "<X>Restricted<x/></X>",
    "<x>\t\r\n abcdefghijklmnopqrstuvwx\n</x>",
    "<x>-1</x>",
    "<x>7</x>",
    "<x>a<b/>a</x>",
    " \t\r\n",
];

/// What may stand nowhere in one.
const FOREIGN: [&str; 55] = [
    "<!-- c -->",
    "<!---->",
    "<![CDATA[x]]>",
    "<![CDATA[]]>",
    "]]>",
    "&lt;",
    "&amp;",
    "&#65;",
    "&x;",
    "&",
    "<?xml version=\"1.0\"?>",
    "<?p x?>",
    "<?p?>",
    "<!DOCTYPE a>",
    "<!ELEMENT a ANY>",
    "\u{feff}",
    "\u{e9}",
    "\u{a0}",
    "\u{2028}",
    "\0",
    "\u{b}",
    "\u{c}",
    "\u{7f}",
    "<a b=\"c\"/>",
    "<a b='c'></a>",
    "<a b/>",
    "<a />",
    "<a ></a>",
    "<a></a >",
    "<a\n/>",
    "< a/>",
    "<a></ a>",
    "<a>< /a>",
    "<a/ >",
    "<a/></a>",
    "<a></a/>",
    "<a//>",
    "<>",
    "</>",
    "</a>",
    "<a>",
    "<a",
    "<",
    "</",
    "/>",
    ">",
    "<x>abcdefghijklmnopqrstuvwxy</x>",
    "<x>a b</x>",
    "<x>a\tb</x>",
    "<x>a>b</x>",
    "<x>a+b</x>",
    "<x>a&#32;</x>",
    "<a></b>",
    "<a></A>",
    "<A></a>",
];

const NO_NAMES: [&str; 12] = ["7", "7a", "0", "-", "-a", ".", ".a", "a:b", "a+b", "\u{e9}", "a\u{e9}", "abcdefghijklmnopqrstuvwxy"];

/// What may stand nowhere inside a tag or a label.
const INSIDE: [&[u8]; 20] = [
    b" ",
    b" ",
    b"\t",
    b"\n",
    b"\r",
    b" b=\"c\"",
    b" b='c'",
    b"/",
    b"<",
    b">",
    b":",
    b"=",
    b"&lt;",
    b"\xc3\xa9",
    b"\x80",
    b"\xff",
    b"\0",
    b"\x0c",
    b"\x7f",
    b"\xc2\xa0",
];

/// What may not stand beside the root.
const BESIDE: [&str; 9] = ["\u{feff}", "<?xml version=\"1.0\"?>", "<!DOCTYPE a>", "<!-- c -->", "a", "7", "<a/>", "<a></a>", "\0"];

// --- Printing ---

fn some_name(random: &mut Random) -> Label {
    loop {
        let label = generate::some_label(random);
        if is_name(&label) {
            return label;
        }
    }
}

/// Whether some document has this tree: all of it is there all year, and only a leaf may carry a label that is no name, and not directly behind another such leaf.
pub fn has_document(tree: &Tree) -> bool {
    let all_year = tree.window == WHOLE_YEAR && tree.children.iter().all(|child| child.window == WHOLE_YEAR);
    let text = |child: &Tree| !is_name(&child.label);
    let leaves = tree.children.iter().all(|child| !text(child) || child.children.is_empty());
    let parted = tree.children.windows(2).all(|pair| !(text(&pair[0]) && text(&pair[1])));
    all_year && leaves && parted && tree.children.iter().all(|child| text(child) || has_document(child)) && !text(tree)
}

/// The tree with such labels that some document has it.
fn with_document(random: &mut Random, mut tree: Tree) -> Tree {
    if !is_name(&tree.label) {
        tree.label = some_name(random);
    }
    let mut children: Vec<Tree> = Vec::new();
    for mut child in tree.children {
        let before = children.last().is_some_and(|before| !is_name(&before.label));
        let may_be_text = child.children.is_empty() && !before;
        if may_be_text && random.percent(15) {
            child.label = label(random.pick::<&str>(&TEXTS));
        }
        if !may_be_text || is_name(&child.label) {
            child = with_document(random, child);
        }
        children.push(child);
    }
    tree.children = children;
    tree
}

/// A document in parts: tags, texts and blanks.
struct Printer<'a> {
    random: &'a mut Random,
    parts: Vec<Vec<u8>>,
    blanks: usize, // the chance of blanks at a place where they may stand
    texts: usize,  // the chance that a leaf with a name is a text
}

impl Printer<'_> {
    fn blanks(&mut self) {
        if self.random.percent(self.blanks) {
            let blanks: String = (0..self.random.within(1, 3)).map(|_| *self.random.pick(&BLANKS)).collect();
            self.parts.push(blanks.into_bytes());
        }
    }

    fn tag(&mut self, before: &str, name: &Label, behind: &str) {
        self.parts.push([before.as_bytes(), name.text(), behind.as_bytes()].concat());
    }

    fn element(&mut self, tree: &Tree) {
        if tree.children.is_empty() && self.random.percent(50) {
            return self.tag("<", &tree.label, "/>");
        }
        self.tag("<", &tree.label, ">");
        self.blanks();
        let mut behind_text = false;
        for (number, child) in tree.children.iter().enumerate() {
            let before_text = tree.children.get(number + 1).is_some_and(|next| !is_name(&next.label));
            let may_be_text = child.children.is_empty() && !behind_text && !before_text;
            behind_text = !is_name(&child.label) || may_be_text && self.random.percent(self.texts);
            if behind_text {
                self.parts.push(child.label.text().to_vec());
            } else {
                self.element(child);
            }
            self.blanks();
        }
        self.tag("</", &tree.label, ">");
    }
}

/// The parts of a document of a tree that has one.
fn parts_of(random: &mut Random, tree: &Tree) -> Vec<Vec<u8>> {
    let (blanks, texts) = (*random.pick(&[0, 0, 20, 60]), *random.pick(&[0, 30, 80]));
    let mut printer = Printer { random, parts: Vec::new(), blanks, texts };
    printer.blanks();
    printer.element(tree);
    printer.blanks();
    printer.parts
}

/// A document of a tree that has one.
pub fn document_of(random: &mut Random, tree: &Tree) -> Vec<u8> {
    parts_of(random, tree).concat()
}

// --- Damage ---

/// A tag with this start.
fn tag_of(random: &mut Random, parts: &[Vec<u8>], start: &str) -> Option<usize> {
    let tags: Vec<usize> = (0..parts.len()).filter(|place| parts[*place].starts_with(start.as_bytes()) && parts[*place].len() > start.len() + 1).collect();
    (!tags.is_empty()).then(|| *random.pick(&tags))
}

/// Puts something into a tag or a label, often at one of its ends.
fn put_inside(random: &mut Random, part: &mut Vec<u8>) {
    let ends = [1, part.len() - 1, part.len().saturating_sub(2), random.below(part.len() + 1)];
    let at = *random.pick(&ends);
    let inside: &&[u8] = random.pick(&INSIDE);
    part.splice(at..at, inside.iter().copied());
}

/// Another name in a tag: another letter, another case, one byte more or less.
fn other_name(random: &mut Random, tag: &mut Vec<u8>) {
    let last = tag.len() - 2; // the name's last byte
    match random.below(4) {
        0 => tag[last] = if tag[last] == b'a' { b'b' } else { b'a' },
        1 if tag[last].is_ascii_alphabetic() => tag[last] ^= 32,
        2 => tag.insert(last, b'a'),
        _ => {
            tag.remove(last);
        }
    }
}

fn damage(random: &mut Random, parts: &mut Vec<Vec<u8>>) {
    let place = random.below(parts.len() + 1);
    match random.below(16) {
        0..=2 => parts.insert(place, random.pick(&FOREIGN).as_bytes().to_vec()),
        3 => {
            let name = random.pick(&NO_NAMES);
            let element = if random.percent(50) { format!("<{name}/>") } else { format!("<{name}></{name}>") };
            parts.insert(place, element.into_bytes());
        }
        4..=5 => {
            let end = *random.pick(&[0, parts.len()]);
            parts.insert(end, random.pick(&BESIDE).as_bytes().to_vec());
        }
        6..=8 if place < parts.len() && !parts[place].is_empty() => put_inside(random, &mut parts[place]),
        9..=10 => {
            if let Some(tag) = tag_of(random, parts, "</").or_else(|| tag_of(random, parts, "<")) {
                other_name(random, &mut parts[tag]);
            }
        }
        11 if place < parts.len() => {
            parts.remove(place);
        }
        12 if place < parts.len() => parts.insert(place, parts[place].clone()),
        13 if place < parts.len() => {
            let other = random.below(parts.len());
            parts.swap(place, other);
        }
        14 => parts.truncate(place),
        _ => {
            let mut bytes = parts.concat();
            disturb(random, &mut bytes, b"<>/ \ta7-.&!?\"=\x00\x0c\x7f\x80\xbf\xef\xff");
            *parts = vec![bytes];
        }
    }
}

// --- Documents ---

/// Elements in one another, far deeper than a table has levels; with something wrong in the depth, or not.
fn deep(random: &mut Random) -> Vec<u8> {
    let depth = match random.below(40) {
        0 => random.within(20_000, 100_000),
        1..=5 => random.within(200, 5_000),
        _ => random.within(LEVEL_MAXIMUM, 60),
    };
    let mut names: Vec<&str> = (0..depth).map(|_| *random.pick(&NESTED)).collect();
    let level = random.below(depth);
    if random.percent(15) {
        names[level] = *random.pick(&["RESTRICTED", "restricted"]);
    }
    let opened: Vec<String> = names.iter().map(|name| format!("<{name}>")).collect();
    let mut closed: Vec<String> = names.iter().rev().map(|name| format!("</{name}>")).collect();
    let closing = random.below(depth);
    match random.below(9) {
        0..=1 => closed[closing] = "</c>".to_string(),
        2 => closed[closing].clear(),
        3 => closed.truncate(closing),
        4 => closed[closing] = closed[closing].to_uppercase(), // no other tag, where the name is `_` or RESTRICTED
        _ => {}
    }
    let inner = *random.pick(&["", "", "text", "<b/>", "\n", "a b", "&lt;", "RESTRICTED"]);
    [opened.concat().as_str(), inner, closed.concat().as_str()].concat().into_bytes()
}

/// A tree that a document has, often of a size around the capacity, with levels around the last, or with a child that no line could hold.
fn some_tree(random: &mut Random, capacity: usize) -> Tree {
    let near = capacity < WIDE || capacity + 10 > CAPACITY_MAXIMUM;
    let (size, height) = match random.below(20) {
        0..=5 if near => ((capacity + random.below(3)).saturating_sub(1).max(1), 8),
        6..=9 => (random.within(20, 50), random.within(LEVEL_MAXIMUM - 1, LEVEL_MAXIMUM + 2)),
        10..=11 => (1, 1),
        _ if capacity >= WIDE && random.percent(70) => {
            let size = random.within(WIDE / 2, WIDE + 5);
            let child = sized_tree(random, size, 6);
            let tree = Tree::new(some_name(random), vec![child]);
            return with_document(random, tree);
        }
        _ => (random.within(1, 30), 6),
    };
    let tree = sized_tree(random, size, height);
    with_document(random, tree)
}

/// Gives one of a tree's nodes the label RESTRICTED, in some case.
fn restrict(random: &mut Random, tree: &mut Tree) {
    if tree.children.is_empty() || random.percent(20) {
        tree.label = label(&typed(random, &RESTRICTED));
    } else {
        let child = random.below(tree.children.len());
        restrict(random, &mut tree.children[child]);
    }
}

/// A document for a table of some capacity, of the kind or not.
pub fn document(random: &mut Random, capacity: usize) -> Vec<u8> {
    let mut parts = match random.below(100) {
        0..=5 => return deep(random),
        6 => vec![random.pick(&["", "", " ", "\n\t", "<"]).as_bytes().to_vec()],
        _ => {
            let mut tree = some_tree(random, capacity);
            if random.percent(8) {
                restrict(random, &mut tree);
            }
            parts_of(random, &tree)
        }
    };
    if random.percent(15) {
        let place = random.below(parts.len() + 1);
        parts.insert(place, random.pick(&KNOWN).as_bytes().to_vec());
    }
    if random.percent(40) {
        for _ in 0..random.within(1, 2) {
            damage(random, &mut parts);
        }
    }
    parts.concat()
}

#[cfg(test)]
mod tests {
    use super::*;
    use crate::reading::Reading;
    use crate::table::flatten;
    use crate::xml::Document;

    #[test]
    fn what_may_stand_between_tags_is_of_the_kind_and_what_is_foreign_is_not() {
        let read = |inside: &str| Document::new(format!("<r>{inside}</r>").as_bytes(), Reading::Right).read();
        for known in KNOWN {
            assert_eq!(read(known), Some(()), "{known:?}");
        }
        for foreign in FOREIGN {
            assert_eq!(read(foreign), None, "{foreign:?}");
        }
        for name in NO_NAMES {
            assert_eq!(read(&format!("<{name}/>")), None, "{name:?}");
        }
    }

    #[test]
    fn documents_are_read_as_the_trees_that_they_were_printed_from() {
        let mut random = Random::new(1);
        let (mut texts, mut nodes) = (0, 0);
        for _ in 0..20_000 {
            let (size, height) = (random.within(1, 30), random.within(1, 13));
            let tree = sized_tree(&mut random, size, height);
            let tree = with_document(&mut random, tree);
            assert!(has_document(&tree));
            let xml = document_of(&mut random, &tree);
            let mut document = Document::new(&xml, Reading::Right);
            assert_eq!(document.read(), Some(()), "{}", xml.escape_ascii());
            assert_eq!(document.nodes, flatten(&tree).0, "{}", xml.escape_ascii());
            nodes += size;
            texts += document.nodes.iter().filter(|node| !is_name(&node.label)).count();
        }
        assert!(texts > 10_000 && nodes > 200_000);
    }
}
