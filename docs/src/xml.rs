//! The solver's file (document 02, card 2): which nodes a document of the narrow kind has. Depth costs memory here, and no recursion.

use crate::form::Reader;
use crate::label::Label;
use crate::reading::Reading;
use crate::table::Node;

/// A document that is read from left to right: the nodes so far in document order, and those of them that are elements still open.
pub struct Document<'a> {
    reader: Reader<'a>,
    pub nodes: Vec<Node>,
    open: Vec<usize>,
    texts: Vec<usize>,
    reading: Reading,
}

/// A space, a tab or a part of a line end.
fn is_blank(byte: u8) -> bool {
    matches!(byte, b' ' | b'\t' | b'\r' | b'\n')
}

fn trimmed(text: &[u8]) -> &[u8] {
    let front = text.iter().take_while(|byte| is_blank(**byte)).count();
    let end = text[front..].iter().rev().take_while(|byte| is_blank(**byte)).count();
    &text[front..text.len() - end]
}

/// A label that does not begin with a digit, hyphen or full stop.
pub fn is_name(label: &Label) -> bool {
    !matches!(label.text()[0], b'0'..=b'9' | b'-' | b'.')
}

impl<'a> Document<'a> {
    pub fn new(xml: &'a [u8], reading: Reading) -> Document<'a> {
        Document { reader: Reader::new(xml), nodes: Vec::new(), open: Vec::new(), texts: Vec::new(), reading }
    }

    /// Reads the whole; none if it is not of the kind.
    pub fn read(&mut self) -> Option<()> {
        loop {
            self.text()?;
            if self.reader.at_end() {
                break;
            }
            self.tag()?;
        }
        let closed = self.open.is_empty() && !self.nodes.is_empty();
        closed.then_some(())
    }

    /// What stands before the next tag or the end: blanks, or in an element a label among blanks.
    fn text(&mut self) -> Option<()> {
        let whole = self.reader.run(|byte| byte != b'<').unwrap_or_default();
        let text = trimmed(whole);
        if text.is_empty() {
            return Some(());
        }
        let element = *self.open.last()?;
        let label = Label::new(if self.reading == Reading::TextNotTrimmed { whole } else { text })?;
        if self.reading == Reading::TextDropped {
            return Some(());
        }
        if self.reading == Reading::TextsJoined {
            if let Some(before) = self.texts.iter().rev().find(|before| self.nodes[**before].parent == Some(element)) {
                let joined = &mut self.nodes[*before].label;
                *joined = Label::new(&[joined.text(), label.text()].concat())?;
                return Some(());
            }
        }
        let leaf = self.add(label);
        self.texts.push(leaf);
        Some(())
    }

    /// `<NAME>`, `<NAME/>` or `</NAME>`.
    fn tag(&mut self) -> Option<()> {
        self.reader.skip(b'<')?;
        if self.reader.skip(b'/').is_some() {
            let name = self.name()?;
            let element = self.open.pop()?;
            let opened = &self.nodes[element].label;
            let matches = match self.reading {
                Reading::AnyClosingTag => true,
                Reading::ClosingTagInAnyCase => opened.same(&name),
                _ => *opened == name, // exactly (document 02, card 6)
            };
            if !matches {
                return None;
            }
            return self.reader.skip(b'>');
        }
        let name = self.name()?;
        let second_root = self.open.is_empty() && !self.nodes.is_empty();
        if second_root && self.reading != Reading::SecondRoot {
            return None;
        }
        let element = self.add(name);
        if self.reader.skip(b'/').is_none() {
            self.open.push(element);
        }
        self.reader.skip(b'>')
    }

    fn name(&mut self) -> Option<Label> {
        self.reader.label().filter(is_name)
    }

    /// A node as last child of the innermost open element, or as root; its number.
    fn add(&mut self, label: Label) -> usize {
        self.nodes.push(Node::new(self.open.len(), label, self.open.last().copied()));
        self.nodes.len() - 1
    }
}

#[cfg(test)]
mod tests {
    use super::*;
    use crate::table::nest;
    use crate::testing::generate::tree_text;

    /// The tree of a document, if it is of the kind.
    fn tree_of(xml: &str) -> Option<String> {
        let mut document = Document::new(xml.as_bytes(), Reading::Right);
        document.read()?;
        Some(tree_text(&nest(&document.nodes)))
    }

    #[test]
    fn documents_of_the_kind_are_read() {
        let name = "abcdefghijklmnopqrstuvwx";
        for (xml, tree) in [
            ("<a/>", "(a)"),
            ("<a></a>", "(a)"),
            (" \t\r\n<a> \t\r\n</a> \t\r\n", "(a)"),
            ("<a>x<b/>y</a>", "(a (x) (b) (y))"),
            ("<a>\r\n x\t<b>10B</b>\n-1 </a>", "(a (x) (b (10B)) (-1))"),
            ("<_.-7>.</_.-7>", "(_.-7 (.))"),
            ("<xml><Xml/>xml</xml>", "(xml (Xml) (xml))"),
            ("<R12><r12>R12</r12></R12>", "(R12 (r12 (R12)))"),
            (&format!("<{name}>{name}</{name}>"), &format!("({name} ({name}))")),
            ("<a>RESTRICTED</a>", "(a (RESTRICTED))"),
        ] {
            assert_eq!(tree_of(xml).as_deref(), Some(tree), "{xml:?}");
        }
    }

    #[test]
    fn what_is_beside_the_root_is_not_of_the_kind() {
        for xml in ["", " ", "a", "<a/><a/>", "<a></a><b/>", "x<a/>", "<a/>x", "<a/>\u{c}", "\u{feff}<a/>", "<a>", "</a>", "<a/></a>", "<a><b></a></b>"] {
            assert_eq!(tree_of(xml), None, "{xml:?}");
        }
    }

    #[test]
    fn a_closing_tag_matches_exactly() {
        for xml in ["<a></b>", "<a></A>", "<A></a>", "<Room></room>"] {
            assert_eq!(tree_of(xml), None, "{xml:?}");
        }
    }
}
