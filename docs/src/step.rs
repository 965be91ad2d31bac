//! One line on a state and a table (document 01, Lines to Who can be turned down; document 02, cards 1, 3, 5, 6 and 7), and one document of the solver (card 2).

use crate::form::{read_form, Form, Place, LINE_MAXIMUM};
use crate::label::{listed, Label, RESTRICTED};
use crate::path::{read_path, Step};
use crate::policy::{Policy, Rule, DELETE, INSERT, ISA_MAXIMUM, READ, RULES_MAXIMUM, SUBJECTS_MAXIMUM, UPDATE};
use crate::reading::{Compared, Reading};
use crate::sheet::Sheet;
use crate::state::{self, Stage, State};
use crate::table::{self, flatten, nest, nest_inserted, Node, Table, Tree, LEVEL_MAXIMUM};
use crate::view::View;
use crate::window::{is_day, Window, FIRST_DAY, WHOLE_YEAR};
use crate::xml::Document;

pub const LINE_BYTES: u8 = 1;
pub const NO_FORM: u8 = 2;
pub const WRONG_STAGE: u8 = 3;
pub const BAD_PATH: u8 = 4;
pub const BAD_NAME: u8 = 5;
pub const RULE_BRACKET: u8 = 6;
pub const POLICY_FULL: u8 = 7;
pub const NO_USER: u8 = 8;
pub const BAD_LABEL: u8 = 9;
pub const TOO_DEEP: u8 = 10;
pub const TABLE_FULL: u8 = 11;
pub const AREA_SHORT: u8 = 12;
pub const BAD_STORE: u8 = 13;
pub const NO_DOCUMENT: u8 = 14;
pub const BAD_DAY: u8 = 15;

/// What 13 lets pass: a state, a table, and the two agreeing on the root.
#[derive(Clone, Debug)]
pub struct Store {
    pub state: State,
    pub table: Table,
}

pub fn read_store(state: &[u8], table: &[u8]) -> Option<Store> {
    read_store_by(state, table, Reading::Right)
}

fn read_store_by(state: &[u8], table: &[u8], reading: Reading) -> Option<Store> {
    let state = state::decode(state, reading.checks())?;
    let table = table::decode(table, reading.checks())?;
    if (state.stage >= Stage::C) != table.nodes.is_empty() {
        Some(Store { state, table })
    } else {
        None
    }
}

/// What is accepted, a line or a document: its answer, and the state and the tree where they change.
pub struct Accepted {
    pub answer: Vec<u8>,
    pub state: Option<State>,
    pub tree: Option<Tree>,
}

fn ok(state: Option<State>, tree: Option<Tree>) -> Accepted {
    Accepted { answer: b"(ok)\n".to_vec(), state, tree }
}

fn answered(answer: Vec<u8>) -> Accepted {
    Accepted { answer, state: None, tree: None }
}

fn done(selected: usize, done: usize, tree: Tree) -> Accepted {
    Accepted { answer: format!("(done {selected} {done})\n").into_bytes(), state: None, tree: Some(tree) }
}

fn refuse_if(condition: bool, number: u8) -> Result<(), u8> {
    if condition {
        Err(number)
    } else {
        Ok(())
    }
}

// --- Policy, tree and login ---

/// What a policy line leaves: the policy edited, the stage moved.
fn policy_edited(store: &Store, stage: Stage, edit: impl FnOnce(&mut Policy)) -> Accepted {
    let mut state = store.state.clone();
    state.stage = stage;
    edit(&mut state.policy);
    ok(Some(state), None)
}

/// The subject with a name.
fn named(policy: &Policy, name: &Label, reading: Reading) -> Result<usize, u8> {
    policy.subject(name, reading.equality(Compared::Names)).ok_or(BAD_NAME)
}

fn is_restricted(label: &Label, reading: Reading) -> bool {
    reading.equality(Compared::Ban)(label, &RESTRICTED)
}

fn subject_line(store: &Store, name: Label, reading: Reading) -> Result<Accepted, u8> {
    let policy = &store.state.policy;
    refuse_if(store.state.stage > Stage::A, WRONG_STAGE)?;
    refuse_if(named(policy, &name, reading).is_ok(), BAD_NAME)?;
    refuse_if(policy.subjects.len() == SUBJECTS_MAXIMUM, POLICY_FULL)?;
    refuse_if(is_restricted(&name, reading), BAD_LABEL)?;
    Ok(policy_edited(store, Stage::A, |policy| policy.subjects.push(name)))
}

fn isa_line(store: &Store, name: Label, role: Label, reading: Reading) -> Result<Accepted, u8> {
    let policy = &store.state.policy;
    refuse_if(store.state.stage > Stage::A, WRONG_STAGE)?;
    let line = (named(policy, &name, reading)?, named(policy, &role, reading)?);
    let as_declared = (name, role) == (policy.subjects[line.0], policy.subjects[line.1]) || reading != Reading::IsaByText;
    refuse_if(line.1 >= line.0 || (policy.isa.contains(&line) && as_declared), BAD_NAME)?;
    refuse_if(policy.isa.len() == ISA_MAXIMUM, POLICY_FULL)?;
    Ok(policy_edited(store, Stage::A, |policy| policy.isa.push(line)))
}

fn rule_line(store: &Store, accept: bool, right: u8, path: &[u8], name: Label, reading: Reading) -> Result<Accepted, u8> {
    let policy = &store.state.policy;
    refuse_if(store.state.stage > Stage::B, WRONG_STAGE)?;
    let path = read_path(path).ok_or(BAD_PATH)?;
    let subject = named(policy, &name, reading)?;
    refuse_if(path.iter().any(|step| !step.brackets.is_empty()), RULE_BRACKET)?;
    refuse_if(policy.rules.len() == RULES_MAXIMUM, POLICY_FULL)?;
    refuse_if(path.iter().any(|step| step.test.is_label(&RESTRICTED, reading.equality(Compared::Ban))), BAD_LABEL)?;
    Ok(policy_edited(store, Stage::B, |policy| policy.rules.push(Rule { accept, right, subject, path })))
}

/// 9, 10 and 11 for the nodes that root, children or a document bring, so many levels below the root and with so many records free.
fn refuse_nodes(nodes: &[Node], below: usize, free: usize, reading: Reading) -> Result<(), u8> {
    refuse_if(nodes.iter().any(|node| is_restricted(&node.label, reading)), BAD_LABEL)?;
    refuse_if(nodes.iter().any(|node| below + node.level > LEVEL_MAXIMUM), TOO_DEEP)?;
    refuse_if(nodes.len() > free, TABLE_FULL)
}

/// What a root line leaves.
fn rooted(state: &State, label: Label) -> (State, Tree) {
    (State { stage: Stage::C, ..state.clone() }, Tree::new(label, Vec::new()))
}

/// What a child line leaves.
fn with_child((mut state, mut root): (State, Tree), child: Tree) -> (State, Tree) {
    state.stage = Stage::D;
    root.children.push(child);
    (state, root)
}

fn root_line(store: &Store, label: Label, reading: Reading) -> Result<Accepted, u8> {
    refuse_if(store.state.stage >= Stage::C, WRONG_STAGE)?;
    let (state, root) = rooted(&store.state, label);
    refuse_nodes(&flatten(&root).0, 0, store.table.capacity, reading)?;
    Ok(ok(Some(state), Some(root)))
}

fn child_line(store: &Store, tree: Tree, reading: Reading) -> Result<Accepted, u8> {
    refuse_if(store.state.stage != Stage::C && store.state.stage != Stage::D, WRONG_STAGE)?;
    refuse_nodes(&flatten(&tree).0, 1, store.table.capacity - store.table.nodes.len(), reading)?;
    let (state, root) = with_child((store.state.clone(), nest(&store.table.nodes)), tree);
    Ok(ok(Some(state), Some(root)))
}

fn user_line(store: &Store, name: Label, reading: Reading) -> Result<Accepted, u8> {
    refuse_if(store.state.stage < Stage::C, WRONG_STAGE)?;
    let user = named(&store.state.policy, &name, reading)?;
    let day = if reading == Reading::LoginResetsDay { FIRST_DAY } else { store.state.day };
    let state = State { stage: Stage::E, user: Some(user), day, ..store.state.clone() };
    Ok(ok(Some(state), None))
}

/// Sets the session's day, and leaves whoever is the user, or no user.
fn day_line(store: &Store, day: u16, reading: Reading) -> Result<Accepted, u8> {
    refuse_if(store.state.stage < Stage::C, WRONG_STAGE)?;
    refuse_if(reading == Reading::DayNeedsUser && store.state.user.is_none(), NO_USER)?;
    refuse_if(!is_day(day), BAD_DAY)?;
    let logged_in = (reading == Reading::DayLogsIn && !store.state.policy.subjects.is_empty()).then_some(0);
    let state = State { stage: Stage::E, user: store.state.user.or(logged_in), day, ..store.state.clone() };
    Ok(ok(Some(state), None))
}

// --- A user's lines ---

/// A user at work: the stored nodes, the user's rights on them, and the user's view.
struct Session<'a> {
    store: &'a Store,
    user: usize,
    reading: Reading,
    rights: Vec<u8>,
    view: View,
}

/// The session in which a user's line is answered; the path is read before the user is looked for.
fn session<'a>(store: &'a Store, path: Option<&[u8]>, reading: Reading) -> Result<(Session<'a>, Vec<Step>), u8> {
    refuse_if(store.state.stage < Stage::C, WRONG_STAGE)?;
    let path = match path {
        None => Vec::new(),
        Some(text) => read_path(text).ok_or(BAD_PATH)?,
    };
    let user = store.state.user.ok_or(NO_USER)?;
    let rights = reading.rights(&store.state.policy, &store.table.nodes, user);
    let view = reading.shown(reading.view(&store.table.nodes, &rights, store.state.day));
    Ok((Session { store, user, reading, rights, view }, path))
}

impl Session<'_> {
    fn nodes(&self) -> &[Node] {
        &self.store.table.nodes
    }

    /// The nodes that a path selects among these for the user.
    fn select(&self, nodes: &[Node], path: &[Step]) -> Vec<bool> {
        self.reading.select(&self.store.state.policy, nodes, path, self.user)
    }

    /// The numbers in the view of the nodes that a path selects there.
    fn selected(&self, path: &[Step]) -> Vec<usize> {
        let marks = if self.reading == Reading::StoredLabels {
            let relabelled = |(node, stored): (&Node, &usize)| Node { label: self.nodes()[*stored].label, ..*node };
            let true_labels: Vec<Node> = self.view.nodes.iter().zip(&self.view.stored).map(relabelled).collect();
            self.select(&true_labels, path)
        } else {
            self.select(&self.view.nodes, path)
        };
        (0..marks.len()).filter(|number| marks[*number]).collect()
    }

    fn words(&self) -> Vec<Label> {
        let policy = &self.store.state.policy;
        match self.reading {
            Reading::NoOwnNames => policy.words_of(policy.rules.iter(), &[]),
            Reading::NamesOfRoles => policy.words_of(policy.rules.iter(), &policy.own_names(self.user)),
            Reading::ReadersWords => {
                let roles = policy.roles(self.user);
                policy.words_of(policy.rules.iter().filter(|rule| roles[rule.subject]), &policy.subjects)
            }
            _ => policy.words(),
        }
    }

    fn view_answer(&self) -> Vec<u8> {
        let mut answer = Vec::new();
        if !self.view.nodes.is_empty() {
            let root = nest(&self.view.nodes);
            answer.extend_from_slice(b"(root ");
            answer.extend_from_slice(root.label.text());
            answer.extend_from_slice(b")\n");
            for child in &root.children {
                answer.extend_from_slice(b"(child ");
                write_tree(child, &mut answer);
                answer.extend_from_slice(b")\n");
            }
        }
        answer.extend_from_slice(format!("(end {})\n", self.view.nodes.len()).as_bytes());
        answer
    }

    fn query_answer(&self, path: &[Step]) -> Vec<u8> {
        let selected = self.selected(path);
        let mut answer = Vec::new();
        for number in &selected {
            write_hit(&self.view.nodes[*number], &mut answer);
        }
        answer.extend_from_slice(format!("(end {})\n", selected.len()).as_bytes());
        answer
    }

    /// The node that a path finds: the first selected in document order.
    fn found(&self, path: &[Step]) -> Option<&Node> {
        let selected = self.selected(path);
        match self.reading {
            Reading::LastHit => selected.last(),
            Reading::NoneForOneHit if selected.len() == 1 => None,
            _ => selected.first(),
        }
        .map(|number| &self.view.nodes[*number])
    }

    /// The node that a path finds in the stored tree, shown or not.
    fn found_stored(&self, path: &[Step]) -> Option<&Node> {
        let marks = self.select(self.nodes(), path);
        marks.iter().position(|mark| *mark).map(|number| &self.nodes()[number])
    }

    fn find_answer(&self, path: &[Step]) -> Vec<u8> {
        let mut answer = Vec::new();
        match if self.reading == Reading::StoredHits { self.found_stored(path) } else { self.found(path) } {
            None => answer.extend_from_slice(b"(none)\n"),
            Some(node) => write_hit(node, &mut answer),
        }
        answer
    }

    fn sheet_answer(&self, room: Label) -> Result<Vec<u8>, u8> {
        refuse_if(self.reading == Reading::NoRestrictedRoom && is_restricted(&room, self.reading), BAD_LABEL)?;
        let stored_tree = || View { nodes: self.nodes().to_vec(), stored: (0..self.nodes().len()).collect() };
        let view = if self.reading == Reading::StoredSheet { &stored_tree() } else { &self.view };
        Ok(Sheet { view, stored: self.nodes(), room, reading: self.reading }.answer())
    }

    fn is_word(&self, label: &Label, words: &[Label]) -> bool {
        listed(words, label, self.reading.equality(Compared::Words))
    }

    /// A node of the stored tree may be given a new label: read and update on it, its label no policy word.
    fn may_relabel(&self, stored: usize, new: &Label, words: &[Label]) -> bool {
        let label = &self.nodes()[stored].label;
        let spared = self.reading == Reading::CaseNotRenamed && label.same(new);
        let word = self.is_word(label, words) && self.reading != Reading::RenameOfWord;
        self.rights[stored] & (READ | UPDATE) == READ | UPDATE && !word && !spared
    }

    fn new_label_allowed(&self, label: &Label, words: &[Label]) -> Result<(), u8> {
        let word = self.is_word(label, words) && self.reading != Reading::RenameIntoWord;
        refuse_if(is_restricted(label, self.reading) || word, BAD_LABEL)
    }

    fn rename(&self, path: &[Step], label: Label) -> Result<Accepted, u8> {
        let words = self.words();
        self.new_label_allowed(&label, &words)?;
        let selected = self.selected(path);
        let mut marks = vec![false; self.nodes().len()];
        for number in &selected {
            let stored = self.view.stored[*number];
            marks[stored] = self.may_relabel(stored, &label, &words);
        }
        let tree = relabelled(nest(self.nodes()), &marks, label);
        let tree = if self.reading == Reading::RenameResetsWindow { redated(tree, &marks, WHOLE_YEAR) } else { tree };
        Ok(done(selected.len(), count(&marks), tree))
    }

    /// Concerns each shown child of a selected node.
    fn update(&self, path: &[Step], label: Label) -> Result<Accepted, u8> {
        let words = self.words();
        self.new_label_allowed(&label, &words)?;
        let selected = self.selected(path);
        let mut parents = vec![false; self.nodes().len()];
        for number in &selected {
            parents[self.view.stored[*number]] = true;
        }
        let mut shown = vec![false; self.nodes().len()];
        for stored in &self.view.stored {
            shown[*stored] = true;
        }
        let mut marks = vec![false; self.nodes().len()];
        for (number, node) in self.nodes().iter().enumerate() {
            if node.parent.is_some_and(|parent| parents[parent]) {
                marks[number] = if shown[number] {
                    self.may_relabel(number, &label, &words)
                } else {
                    self.reading == Reading::UpdateHidden && self.rights[number] & UPDATE != 0 && !self.is_word(&node.label, &words)
                };
            }
        }
        Ok(done(selected.len(), count(&marks), relabelled(nest(self.nodes()), &marks, label)))
    }

    fn insert(&self, place: Place, path: &[Step], tree: &Tree) -> Result<Accepted, u8> {
        refuse_if(tree.holds(&RESTRICTED, self.reading.equality(Compared::Ban)), BAD_LABEL)?;
        let selected = self.selected(path);
        let mut marks = vec![false; self.nodes().len()];
        for number in &selected {
            let stored = self.view.stored[*number];
            let receiver = match place {
                Place::Append => Some(stored),
                Place::Before | Place::After => self.nodes()[stored].parent,
            };
            if let Some(receiver) = receiver {
                if self.rights[receiver] & INSERT != 0 {
                    marks[stored] = true;
                    refuse_if(self.nodes()[receiver].level + 1 + tree.height() > LEVEL_MAXIMUM, TOO_DEEP)?;
                }
            }
        }
        let free = self.store.table.capacity - self.nodes().len();
        if self.reading == Reading::PlaceByPlace {
            let fits = free / tree.size();
            refuse_if(fits == 0 && count(&marks) > 0, TABLE_FULL)?;
            let mut left = fits;
            for mark in marks.iter_mut().filter(|mark| **mark) {
                *mark = left > 0;
                left = left.saturating_sub(1);
            }
        }
        refuse_if(count(&marks) * tree.size() > free, TABLE_FULL)?;
        let new = |beside: &Tree| match self.reading {
            Reading::InsertedTakesWindow => Tree { window: beside.window, ..tree.clone() },
            _ => tree.clone(),
        };
        Ok(done(selected.len(), count(&marks), inserted(nest(self.nodes()), &marks, place, &new)))
    }

    fn remove(&self, path: &[Step]) -> Accepted {
        let selected = self.selected(path);
        let mut marks = vec![false; self.nodes().len()];
        for number in &selected {
            let stored = self.view.stored[*number];
            let spared = self.reading == Reading::SpareHidden && self.hides_below(stored);
            marks[stored] = self.nodes()[stored].parent.is_some() && self.rights[stored] & DELETE != 0 && !spared;
        }
        let tree = removed(nest(self.nodes()), &marks);
        let counted = if self.reading == Reading::CountFreed { self.nodes().len() - tree.size() } else { count(&marks) };
        done(selected.len(), counted, tree)
    }

    /// A node of the stored tree may be given a window: read and update on it, and it is not the root. Its label may be a policy word.
    fn may_redate(&self, stored: usize) -> bool {
        let node = &self.nodes()[stored];
        let needed = match self.reading {
            Reading::WindowWithoutRead => UPDATE,
            Reading::WindowWithoutUpdate => READ,
            _ => READ | UPDATE,
        };
        let root = node.parent.is_none() && self.reading != Reading::RootRedated;
        let word = self.reading == Reading::WordsNotRedated && self.is_word(&node.label, &self.words());
        self.rights[stored] & needed == needed && !root && !word
    }

    fn window(&self, path: &[Step], first: u16, last: u16) -> Result<Accepted, u8> {
        let selected = self.selected(path);
        let window = Window::new(first, last);
        let spared = self.reading == Reading::DaysWhereSelected && selected.is_empty();
        refuse_if(window.is_none() && !spared, BAD_DAY)?;
        let mut marks = vec![false; self.nodes().len()];
        for number in &selected {
            let stored = self.view.stored[*number];
            marks[stored] = self.may_redate(stored);
        }
        let counted = count(&marks);
        if self.reading == Reading::WindowsBelow {
            for number in 1..marks.len() {
                marks[number] |= self.nodes()[number].parent.is_some_and(|parent| marks[parent]);
            }
        }
        Ok(done(selected.len(), counted, redated(nest(self.nodes()), &marks, window.unwrap_or(WHOLE_YEAR))))
    }

    fn hides_below(&self, stored: usize) -> bool {
        let below = self.nodes()[stored + 1..].iter().take_while(|node| node.level > self.nodes()[stored].level).count();
        (stored + 1..=stored + below).any(|number| !self.view.stored.contains(&number))
    }
}

fn count(marks: &[bool]) -> usize {
    marks.iter().filter(|mark| **mark).count()
}

// --- What is written ---

pub fn write_tree(tree: &Tree, answer: &mut Vec<u8>) {
    answer.push(b'(');
    answer.extend_from_slice(tree.label.text());
    for child in &tree.children {
        answer.push(b' ');
        write_tree(child, answer);
    }
    answer.push(b')');
}

fn write_hit(node: &Node, answer: &mut Vec<u8>) {
    answer.extend_from_slice(format!("(hit {} ", node.level).as_bytes());
    answer.extend_from_slice(node.label.text());
    answer.extend_from_slice(b")\n");
}

// --- Changes of the stored tree; a mark stands for each node by its number ---

fn marked(tree: &Tree, marks: &[bool]) -> bool {
    tree.origin.is_some_and(|number| marks[number])
}

fn relabelled(mut tree: Tree, marks: &[bool], label: Label) -> Tree {
    if marked(&tree, marks) {
        tree.label = label;
    }
    tree.children = tree.children.into_iter().map(|child| relabelled(child, marks, label)).collect();
    tree
}

fn removed(mut tree: Tree, marks: &[bool]) -> Tree {
    tree.children.retain(|child| !marked(child, marks));
    tree.children = tree.children.into_iter().map(|child| removed(child, marks)).collect();
    tree
}

fn redated(mut tree: Tree, marks: &[bool], window: Window) -> Tree {
    if marked(&tree, marks) {
        tree.window = window;
    }
    tree.children = tree.children.into_iter().map(|child| redated(child, marks, window)).collect();
    tree
}

/// What `new` gives for a marked node is put beside it, or below it.
fn inserted(mut tree: Tree, marks: &[bool], place: Place, new: &dyn Fn(&Tree) -> Tree) -> Tree {
    let mut children = Vec::new();
    for child in std::mem::take(&mut tree.children) {
        let beside = if marked(&child, marks) { Some(new(&child)) } else { None };
        if place == Place::Before {
            children.extend(beside.clone());
        }
        children.push(inserted(child, marks, place, new));
        if place == Place::After {
            children.extend(beside);
        }
    }
    tree.children = children;
    if marked(&tree, marks) && place == Place::Append {
        let below = new(&tree);
        tree.children.push(below);
    }
    tree
}

// --- The line ---

/// What a line does to a store that 13 lets pass: the first refusal of 1 to 10, 15, 11 and 12 that applies, or what is accepted.
pub fn step(store: &Store, line: &[u8], area_length: usize, reading: Reading) -> Result<Accepted, u8> {
    refuse_if(line.len() > LINE_MAXIMUM || line.iter().any(|byte| !(32..=126).contains(byte)), LINE_BYTES)?;
    let line = reading.line(line);
    let accepted = match reading.form(read_form(&line).ok_or(NO_FORM)?) {
        Form::Subject(name) => subject_line(store, name, reading)?,
        Form::Isa(name, role) => isa_line(store, name, role, reading)?,
        Form::Rule { accept, right, path, name } => rule_line(store, accept, right, path, name, reading)?,
        Form::Root(label) => root_line(store, label, reading)?,
        Form::Child(tree) => child_line(store, tree, reading)?,
        Form::User(name) => user_line(store, name, reading)?,
        Form::View => answered(session(store, None, reading.of_view())?.0.view_answer()),
        Form::Query(text) => {
            let (session, path) = session(store, Some(text), reading)?;
            answered(session.query_answer(&path))
        }
        Form::Find(text) => {
            let (session, path) = session(store, Some(text), reading)?;
            refuse_if(reading == Reading::RoomForAllHits && session.query_answer(&path).len() > area_length, AREA_SHORT)?;
            answered(session.find_answer(&path))
        }
        Form::Rename(text, label) => {
            let (session, path) = session(store, Some(text), reading)?;
            session.rename(&path, label)?
        }
        Form::Update(text, label) => {
            let (session, path) = session(store, Some(text), reading)?;
            session.update(&path, label)?
        }
        Form::Insert(place, text, tree) => {
            let (session, path) = session(store, Some(text), reading)?;
            session.insert(place, &path, &tree)?
        }
        Form::Remove(text) => {
            let (session, path) = session(store, Some(text), reading)?;
            session.remove(&path)
        }
        Form::Sheet(room) => answered(session(store, None, reading)?.0.sheet_answer(room)?),
        Form::Day(day) => day_line(store, day, reading)?,
        Form::Window(text, first, last) => {
            let (session, path) = session(store, Some(text), reading)?;
            session.window(&path, first, last)?
        }
    };
    refuse_if(accepted.answer.len() > area_length, AREA_SHORT)?;
    Ok(accepted)
}

/// What a document does to a store that 13 lets pass: the first refusal of 3, 14, 9, 10, 11 and 12 that applies, or what its root line and its child lines would
/// leave if lines had no length limit.
pub fn load(store: &Store, xml: &[u8], area_length: usize, reading: Reading) -> Result<Accepted, u8> {
    refuse_if(store.state.stage >= Stage::C, WRONG_STAGE)?;
    let mut document = Document::new(xml, reading);
    let read = document.read();
    let mut nodes = document.nodes;
    if reading == Reading::LabelsBeforeDocument {
        refuse_if(nodes.iter().any(|node| is_restricted(&node.label, reading)), BAD_LABEL)?;
    }
    read.ok_or(NO_DOCUMENT)?;
    let capacity = store.table.capacity;
    let uncounted = usize::from(reading == Reading::RootNotCounted && capacity > 0);
    refuse_nodes(&nodes, 0, capacity + uncounted, reading)?;
    nodes.truncate(capacity); // all of them, where the root was counted
    let tree = nest_inserted(&nodes);
    let (mut state, root) = tree.children.into_iter().fold(rooted(&store.state, tree.label), with_child);
    if reading == Reading::RootAloneAtD {
        state.stage = Stage::D;
    }
    let accepted = ok(Some(state), Some(root));
    refuse_if(accepted.answer.len() > area_length, AREA_SHORT)?;
    Ok(accepted)
}

/// A call on lent bytes: 13, then what it does to the store. The answer's length, or minus the refusal's number.
fn call_lent(state: &mut [u8], table: &mut [u8], area: &mut [u8], reading: Reading, call: impl FnOnce(&Store) -> Result<Accepted, u8>) -> i64 {
    let Some(store) = read_store_by(state, table, reading) else {
        return -i64::from(BAD_STORE);
    };
    match call(&store) {
        Err(number) => -i64::from(number),
        Ok(accepted) => {
            if let Some(new_state) = &accepted.state {
                state::encode(new_state, state);
            }
            if let Some(tree) = &accepted.tree {
                table::encode(&flatten(tree).0, table);
            }
            area[..accepted.answer.len()].copy_from_slice(&accepted.answer);
            accepted.answer.len() as i64
        }
    }
}

/// One line on lent bytes under a reading.
pub fn read_line(state: &mut [u8], table: &mut [u8], line: &[u8], area: &mut [u8], reading: Reading) -> i64 {
    let area_length = area.len();
    call_lent(state, table, area, reading, |store| step(store, line, area_length, reading))
}

/// One document on lent bytes under a reading.
pub fn load_xml(state: &mut [u8], table: &mut [u8], xml: &[u8], area: &mut [u8], reading: Reading) -> i64 {
    let area_length = area.len();
    call_lent(state, table, area, reading, |store| load(store, xml, area_length, reading))
}

/// The answer's length, or minus the refusal's number.
pub fn timetable_line(state: &mut [u8], table: &mut [u8], line: &[u8], area: &mut [u8]) -> i64 {
    read_line(state, table, line, area, Reading::Right)
}

/// The answer's length, or minus the refusal's number.
pub fn timetable_load_xml(state: &mut [u8], table: &mut [u8], xml: &[u8], area: &mut [u8]) -> i64 {
    load_xml(state, table, xml, area, Reading::Right)
}

#[cfg(test)]
mod tests {
    use super::*;
    use crate::testing::documents::{document_of, has_document};
    use crate::testing::generate::{self, sized_tree};
    use crate::testing::random::Random;

    fn empty_store(stage: Stage, policy: Policy, capacity: usize) -> Store {
        Store { state: State { stage, user: None, day: FIRST_DAY, policy }, table: Table { capacity, nodes: Vec::new() } }
    }

    /// The store that a root line and child lines of any length leave.
    fn by_lines(store: &Store, tree: &Tree) -> Result<Store, u8> {
        let after = |accepted: Accepted| Store {
            state: accepted.state.expect("a state"),
            table: Table { capacity: store.table.capacity, nodes: flatten(&accepted.tree.expect("a tree")).0 },
        };
        let mut store = after(root_line(store, tree.label, Reading::Right)?);
        for child in &tree.children {
            store = after(child_line(&store, child.clone(), Reading::Right)?);
        }
        Ok(store)
    }

    #[test]
    fn a_document_leaves_what_its_lines_leave() {
        let mut random = Random::new(1);
        let (mut loaded, mut refused) = (0, 0);
        for _ in 0..20_000 {
            let (size, height) = (random.within(1, 40), random.within(1, LEVEL_MAXIMUM + 1));
            let tree = sized_tree(&mut random, size, height);
            if !has_document(&tree) {
                continue;
            }
            let stage = *random.pick(&[Stage::A, Stage::B]);
            let store = empty_store(stage, generate::policy(&mut random).0, random.within(size - 1, size + 1));
            let xml = document_of(&mut random, &tree);
            match load(&store, &xml, 5, Reading::Right) {
                Ok(accepted) => {
                    let lines = by_lines(&store, &tree).expect("lines that are taken");
                    assert_eq!(accepted.state.as_ref(), Some(&lines.state));
                    assert_eq!(flatten(&accepted.tree.expect("a tree")).0, lines.table.nodes);
                    loaded += 1;
                }
                Err(_) => {
                    assert!(by_lines(&store, &tree).is_err());
                    refused += 1;
                }
            }
        }
        assert!(loaded > 2_000 && refused > 1_000, "{loaded} loaded, {refused} refused");
    }

    #[test]
    fn depth_is_refused_behind_the_whole_document() {
        let store = empty_store(Stage::A, Policy::default(), 16_384);
        let number = |xml: &str| load(&store, xml.as_bytes(), 5, Reading::Right).err();
        let (opened, closed) = ("<a>".repeat(100_000), "</a>".repeat(100_000));
        assert_eq!(number(&format!("{opened}{closed}")), Some(TOO_DEEP));
        assert_eq!(number(&format!("{opened}RESTRICTED{closed}")), Some(BAD_LABEL));
        assert_eq!(number(&format!("{opened}Restricted{closed}")), Some(BAD_LABEL));
        assert_eq!(number(&opened), Some(NO_DOCUMENT));
        assert_eq!(number(&format!("{opened}<b></c>{closed}")), Some(NO_DOCUMENT));
        assert_eq!(number(&format!("{opened}RESTRICTED{}", &closed[4..])), Some(NO_DOCUMENT));
    }
}
