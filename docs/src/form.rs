//! The forms of a line (document 01, Lines; document 02, cards 3 and 7).

use crate::label::{is_label_byte, Label};
use crate::policy::{DELETE, INSERT, POSITION, READ, UPDATE};
use crate::table::Tree;

pub const LINE_MAXIMUM: usize = 1_024;
const DAY_DIGITS: usize = 3;

#[derive(Clone, Copy, PartialEq, Eq, Debug)]
pub enum Place {
    Append,
    Before,
    After,
}

/// A form; paths are runs of bytes that are read later.
#[derive(Clone, Debug)]
pub enum Form<'a> {
    Subject(Label),
    Isa(Label, Label),
    Rule { accept: bool, right: u8, path: &'a [u8], name: Label },
    Root(Label),
    Child(Tree),
    User(Label),
    View,
    Query(&'a [u8]),
    Find(&'a [u8]),
    Rename(&'a [u8], Label),
    Update(&'a [u8], Label),
    Insert(Place, &'a [u8], Tree),
    Remove(&'a [u8]),
    Sheet(Label),
    Day(u16),
    Window(&'a [u8], u16, u16),
}

/// The words that forms begin with, in the order of documents 01 and 02.
pub const WORDS: [&str; 18] = [
    "subject", "isa", "rule", "root", "child", "user", "view", "query", "find", "rename", "update", "append", "before", "after", "remove", "sheet", "day",
    "window",
];

/// Bytes that are read from left to right.
pub struct Reader<'a> {
    bytes: &'a [u8],
    at: usize,
}

impl<'a> Reader<'a> {
    pub fn new(bytes: &'a [u8]) -> Reader<'a> {
        Reader { bytes, at: 0 }
    }

    pub fn at_end(&self) -> bool {
        self.at == self.bytes.len()
    }

    pub fn skip(&mut self, byte: u8) -> Option<()> {
        if self.bytes.get(self.at) != Some(&byte) {
            return None;
        }
        self.at += 1;
        Some(())
    }

    /// The bytes up to the first that is not wanted; at least one.
    pub fn run(&mut self, wanted: fn(u8) -> bool) -> Option<&'a [u8]> {
        let length = self.bytes[self.at..].iter().take_while(|byte| wanted(**byte)).count();
        let run = &self.bytes[self.at..self.at + length];
        self.at += length;
        if length == 0 {
            None
        } else {
            Some(run)
        }
    }

    fn word(&mut self) -> Option<&'a [u8]> {
        self.run(|byte| byte.is_ascii_lowercase())
    }

    pub fn label(&mut self) -> Option<Label> {
        Label::new(self.run(is_label_byte)?)
    }

    /// A space and a label.
    fn next_label(&mut self) -> Option<Label> {
        self.skip(b' ')?;
        self.label()
    }

    /// A space and a run that passes as a path.
    fn next_path(&mut self) -> Option<&'a [u8]> {
        self.skip(b' ')?;
        self.run(|byte| !matches!(byte, b' ' | b'(' | b')'))
    }

    /// A space and a tree.
    fn next_tree(&mut self) -> Option<Tree> {
        self.skip(b' ')?;
        self.skip(b'(')?;
        let label = self.label()?;
        let mut children = Vec::new();
        while self.skip(b')').is_none() {
            children.push(self.next_tree()?);
        }
        Some(Tree::new(label, children))
    }

    /// A space and a day as it is typed, of the year or not: 1 to 3 digits.
    fn next_day(&mut self) -> Option<u16> {
        self.skip(b' ')?;
        let digits = self.run(|byte| byte.is_ascii_digit())?;
        let number = |digits: &[u8]| digits.iter().fold(0, |number, digit| 10 * number + u16::from(digit - b'0'));
        (digits.len() <= DAY_DIGITS).then(|| number(digits))
    }

    fn rule(&mut self) -> Option<Form<'a>> {
        self.skip(b' ')?;
        let accept = match self.word()? {
            b"accept" => true,
            b"deny" => false,
            _ => return None,
        };
        self.skip(b' ')?;
        let right = match self.word()? {
            b"position" => POSITION,
            b"read" => READ,
            b"insert" => INSERT,
            b"update" => UPDATE,
            b"delete" => DELETE,
            _ => return None,
        };
        Some(Form::Rule { accept, right, path: self.next_path()?, name: self.next_label()? })
    }

    fn form(&mut self) -> Option<Form<'a>> {
        self.skip(b'(')?;
        let form = match self.word()? {
            b"subject" => Form::Subject(self.next_label()?),
            b"isa" => Form::Isa(self.next_label()?, self.next_label()?),
            b"rule" => self.rule()?,
            b"root" => Form::Root(self.next_label()?),
            b"child" => Form::Child(self.next_tree()?),
            b"user" => Form::User(self.next_label()?),
            b"view" => Form::View,
            b"query" => Form::Query(self.next_path()?),
            b"find" => Form::Find(self.next_path()?),
            b"rename" => Form::Rename(self.next_path()?, self.next_label()?),
            b"update" => Form::Update(self.next_path()?, self.next_label()?),
            b"append" => Form::Insert(Place::Append, self.next_path()?, self.next_tree()?),
            b"before" => Form::Insert(Place::Before, self.next_path()?, self.next_tree()?),
            b"after" => Form::Insert(Place::After, self.next_path()?, self.next_tree()?),
            b"remove" => Form::Remove(self.next_path()?),
            b"sheet" => Form::Sheet(self.next_label()?),
            b"day" => Form::Day(self.next_day()?),
            b"window" => Form::Window(self.next_path()?, self.next_day()?, self.next_day()?),
            _ => return None,
        };
        self.skip(b')')?;
        Some(form)
    }
}

/// The form that a line is, if it is one.
pub fn read_form(line: &[u8]) -> Option<Form<'_>> {
    let mut reader = Reader::new(line);
    let form = reader.form()?;
    if reader.at_end() {
        Some(form)
    } else {
        None
    }
}
