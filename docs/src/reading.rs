//! The readings of documents 01 and 02: the right one, and false ones, which the tests of the testers put in.

use crate::form::Form;
use crate::label::{listed, Equality, Label, RESTRICTED};
use crate::path::{select, select_by, Step, Test};
use crate::policy::{Policy, READ};
use crate::state::Checks;
use crate::table::{Node, Tree};
use crate::view::{view, view_by, View};
use crate::window::{Window, WHOLE_YEAR};

/// How document 01 and the cards are read. All but the first are false, and stand here for the tests of the testers alone.
#[derive(Clone, Copy, PartialEq, Eq, Debug)]
pub enum Reading {
    Right,
    RenameIntoWord,
    RenameOfWord,
    NoOwnNames,
    NamesOfRoles,
    UpdateHidden,
    StoredLabels,
    CountFreed,
    SpareHidden,
    ReadersWords,
    PlaceByPlace,
    StoredHits,
    LastHit,
    NoneForOneHit,
    RoomForAllHits,
    LoginInCommands,
    LoginInRules,
    DirectRoles,
    RulesName,
    NamesBetween,
    EveryName,
    NameByName,
    ExactSteps,
    ExactOwn,
    ExactWords,
    ExactNames,
    ExactBan,
    ExactBanIn13,
    ExactNamesIn13,
    ExactRooms,
    IsaByText,
    ANotFolded,
    ZNotFolded,
    LowBits,
    ShownFolded,
    StoredFolded,
    CaseNotRenamed,
    FormsInAnyCase,
    StoredSheet,
    StoredDays,
    StoredPeriods,
    StoredLessons,
    TrueLabels,
    TrueRooms,
    SecondRoom,
    RoomWithLesson,
    SixthForFifth,
    SixDays,
    LabelsUncut,
    NoBlankCells,
    NoRowsForHiddenRoot,
    NoRestrictedRoom,
    InWindowBelow,
    LastDayExcluded,
    WindowsTakeRead,
    DayInViewAlone,
    WindowsBelow,
    WindowWithoutRead,
    WindowWithoutUpdate,
    WordsNotRedated,
    RootRedated,
    RenameResetsWindow,
    InsertedTakesWindow,
    DaysWhereSelected,
    DayLogsIn,
    DayNeedsUser,
    LoginResetsDay,
    ZerosIn13,
    AnyRootIn13,
    AnyDayIn13,
    AnyClosingTag,
    ClosingTagInAnyCase,
    TextDropped,
    TextNotTrimmed,
    TextsJoined,
    SecondRoot,
    LabelsBeforeDocument,
    RootNotCounted,
    RootAloneAtD,
}

/// Those that make demand 3 false
pub const FALSE_READINGS: [(&str, Reading); 25] = [
    ("rename-into-word", Reading::RenameIntoWord),
    ("rename-of-word", Reading::RenameOfWord),
    ("no-own-names", Reading::NoOwnNames),
    ("names-of-roles", Reading::NamesOfRoles),
    ("update-hidden", Reading::UpdateHidden),
    ("stored-labels", Reading::StoredLabels),
    ("count-freed", Reading::CountFreed),
    ("spare-hidden", Reading::SpareHidden),
    ("readers-words", Reading::ReadersWords),
    ("place-by-place", Reading::PlaceByPlace),
    ("stored-hits", Reading::StoredHits),
    ("exact-steps", Reading::ExactSteps),
    ("exact-own", Reading::ExactOwn),
    ("exact-words", Reading::ExactWords),
    ("stored-sheet", Reading::StoredSheet),
    ("stored-days", Reading::StoredDays),
    ("stored-periods", Reading::StoredPeriods),
    ("stored-lessons", Reading::StoredLessons),
    ("true-labels", Reading::TrueLabels),
    ("true-rooms", Reading::TrueRooms),
    ("in-window-below", Reading::InWindowBelow),
    ("last-day-excluded", Reading::LastDayExcluded),
    ("windows-take-read", Reading::WindowsTakeRead),
    ("day-in-view-alone", Reading::DayInViewAlone),
    ("windows-below", Reading::WindowsBelow),
];

/// Those that give two trees that look alike the same answers, though not the right ones
pub const OTHER_ANSWERS: [(&str, Reading); 44] = [
    ("last-hit", Reading::LastHit),
    ("none-for-one-hit", Reading::NoneForOneHit),
    ("room-for-all-hits", Reading::RoomForAllHits),
    ("login-in-commands", Reading::LoginInCommands),
    ("login-in-rules", Reading::LoginInRules),
    ("direct-roles", Reading::DirectRoles),
    ("rules-name", Reading::RulesName),
    ("names-between", Reading::NamesBetween),
    ("every-name", Reading::EveryName),
    ("name-by-name", Reading::NameByName),
    ("exact-names", Reading::ExactNames),
    ("exact-ban", Reading::ExactBan),
    ("exact-ban-in-13", Reading::ExactBanIn13),
    ("exact-names-in-13", Reading::ExactNamesIn13),
    ("exact-rooms", Reading::ExactRooms),
    ("isa-by-text", Reading::IsaByText),
    ("a-not-folded", Reading::ANotFolded),
    ("z-not-folded", Reading::ZNotFolded),
    ("low-bits", Reading::LowBits),
    ("shown-folded", Reading::ShownFolded),
    ("stored-folded", Reading::StoredFolded),
    ("case-not-renamed", Reading::CaseNotRenamed),
    ("forms-in-any-case", Reading::FormsInAnyCase),
    ("second-room", Reading::SecondRoom),
    ("room-with-lesson", Reading::RoomWithLesson),
    ("sixth-for-fifth", Reading::SixthForFifth),
    ("six-days", Reading::SixDays),
    ("labels-uncut", Reading::LabelsUncut),
    ("no-blank-cells", Reading::NoBlankCells),
    ("no-rows-for-hidden-root", Reading::NoRowsForHiddenRoot),
    ("no-restricted-room", Reading::NoRestrictedRoom),
    ("window-without-read", Reading::WindowWithoutRead),
    ("window-without-update", Reading::WindowWithoutUpdate),
    ("words-not-redated", Reading::WordsNotRedated),
    ("root-redated", Reading::RootRedated),
    ("rename-resets-window", Reading::RenameResetsWindow),
    ("inserted-takes-window", Reading::InsertedTakesWindow),
    ("days-where-selected", Reading::DaysWhereSelected),
    ("day-logs-in", Reading::DayLogsIn),
    ("day-needs-user", Reading::DayNeedsUser),
    ("login-resets-day", Reading::LoginResetsDay),
    ("zeros-in-13", Reading::ZerosIn13),
    ("any-root-in-13", Reading::AnyRootIn13),
    ("any-day-in-13", Reading::AnyDayIn13),
];

/// Those of the solver's file
pub const OTHER_TREES: [(&str, Reading); 9] = [
    ("any-closing-tag", Reading::AnyClosingTag),
    ("closing-tag-in-any-case", Reading::ClosingTagInAnyCase),
    ("text-dropped", Reading::TextDropped),
    ("text-not-trimmed", Reading::TextNotTrimmed),
    ("texts-joined", Reading::TextsJoined),
    ("second-root", Reading::SecondRoot),
    ("labels-before-document", Reading::LabelsBeforeDocument),
    ("root-not-counted", Reading::RootNotCounted),
    ("root-alone-at-d", Reading::RootAloneAtD),
];

// --- What `$` passes ---

impl Reading {
    /// A user's rights, with `$` in rules as it is read.
    pub fn rights(self, policy: &Policy, nodes: &[Node], user: usize) -> Vec<u8> {
        if self == Reading::Right {
            return policy.rights(nodes, user);
        }
        let mut rights = policy.rights_by(nodes, user, |rule| self.selected_by_any(nodes, &rule.path, &self.names(policy, user, Some(rule.subject))));
        if self == Reading::WindowsTakeRead {
            for (rights, _) in rights.iter_mut().zip(nodes).filter(|(_, node)| node.window != WHOLE_YEAR) {
                *rights &= !READ;
            }
        }
        rights
    }

    /// The nodes that a path of a command selects for a user, with `$` as it is read.
    pub fn select(self, policy: &Policy, nodes: &[Node], path: &[Step], user: usize) -> Vec<bool> {
        if self == Reading::Right {
            return select(nodes, path, &policy.own_names(user));
        }
        self.selected_by_any(nodes, path, &self.names(policy, user, None))
    }

    /// The names that `$` passes for a user, in a rule for the subject given or in a command; several lists where a false reading takes one name at a time.
    fn names(self, policy: &Policy, user: usize, rule: Option<usize>) -> Vec<Vec<Label>> {
        let names_where = |holds: &dyn Fn(usize) -> bool| (0..policy.subjects.len()).filter(|role| holds(*role)).map(|role| policy.subjects[role]).collect();
        let roles = policy.roles(user);
        match (self, rule) {
            (Reading::LoginInCommands, None) | (Reading::LoginInRules, Some(_)) => vec![vec![policy.subjects[user]]],
            (Reading::DirectRoles, _) => vec![names_where(&|role| role == user || policy.isa.contains(&(user, role)))],
            (Reading::RulesName, Some(subject)) => vec![vec![policy.subjects[subject]]],
            (Reading::NamesBetween, Some(subject)) => vec![names_where(&|role| roles[role] && policy.roles(role)[subject])],
            (Reading::EveryName, _) => vec![policy.subjects.clone()],
            (Reading::NameByName, _) => policy.own_names(user).into_iter().map(|name| vec![name]).collect(),
            _ => vec![policy.own_names(user)],
        }
    }

    /// The nodes that a path selects with one of these lists of names for `$`.
    fn selected_by_any(self, nodes: &[Node], path: &[Step], names: &[Vec<Label>]) -> Vec<bool> {
        let (steps, own) = (self.equality(Compared::Steps), self.equality(Compared::Own));
        let mut marks = vec![false; nodes.len()];
        for names in names {
            let passes = |test: &Test, label: &Label| match test {
                Test::Own => listed(names, label, own),
                test => *test == Test::Any || test.is_label(label, steps),
            };
            for (mark, selected) in marks.iter_mut().zip(select_by(nodes, path, &passes)) {
                *mark |= selected;
            }
        }
        marks
    }
}

// --- Which labels are equal (document 02, card 6) ---

/// Where labels are compared.
#[derive(Clone, Copy, PartialEq, Eq, Debug)]
pub enum Compared {
    Steps,
    Own,
    Words,
    Names,
    Ban,
    BanIn13,
    NamesIn13,
    Rooms,
}

fn same_by(one: &Label, other: &Label, fold: fn(u8) -> u8) -> bool {
    one.text().len() == other.text().len() && one.text().iter().zip(other.text()).all(|(one, other)| fold(*one) == fold(*other))
}

fn same_but_a(one: &Label, other: &Label) -> bool {
    same_by(one, other, |byte| if byte == b'A' { byte } else { byte.to_ascii_lowercase() })
}

fn same_but_z(one: &Label, other: &Label) -> bool {
    same_by(one, other, |byte| if byte == b'Z' { byte } else { byte.to_ascii_lowercase() })
}

/// `-` is `m`, and `0` is `p`.
fn same_low_bits(one: &Label, other: &Label) -> bool {
    same_by(one, other, |byte| byte & 31)
}

fn small(label: &Label) -> Label {
    Label::new(&label.text().to_ascii_lowercase()).expect("a label")
}

fn small_tree(tree: &Tree) -> Tree {
    Tree { label: small(&tree.label), children: tree.children.iter().map(small_tree).collect(), ..*tree }
}

impl Reading {
    /// When two labels are equal, compared there.
    pub fn equality(self, compared: Compared) -> Equality {
        match (self, compared) {
            (Reading::ExactSteps, Compared::Steps)
            | (Reading::ExactOwn, Compared::Own)
            | (Reading::ExactWords, Compared::Words)
            | (Reading::ExactNames, Compared::Names)
            | (Reading::ExactBan, Compared::Ban)
            | (Reading::ExactBanIn13, Compared::BanIn13)
            | (Reading::ExactNamesIn13, Compared::NamesIn13)
            | (Reading::ExactRooms, Compared::Rooms) => Label::eq,
            (Reading::ANotFolded, _) => same_but_a,
            (Reading::ZNotFolded, _) => same_but_z,
            (Reading::LowBits, _) => same_low_bits,
            _ => Label::same,
        }
    }

    pub fn checks(self) -> Checks {
        Checks {
            ban: self.equality(Compared::BanIn13),
            names: self.equality(Compared::NamesIn13),
            window: if self == Reading::ZerosIn13 { window_or_zeros } else { window_of },
            any_root: self == Reading::AnyRootIn13,
            any_day: self == Reading::AnyDayIn13,
        }
    }

    /// The view with the labels that are shown.
    pub fn shown(self, mut view: View) -> View {
        if self == Reading::ShownFolded {
            for node in view.nodes.iter_mut().filter(|node| node.label != RESTRICTED) {
                node.label = small(&node.label);
            }
        }
        view
    }

    /// The line with its words as they are read.
    pub fn line(self, line: &[u8]) -> Vec<u8> {
        let mut line = line.to_vec();
        if self == Reading::FormsInAnyCase {
            let words = if line.get(1..5).is_some_and(|word| word.eq_ignore_ascii_case(b"rule")) { 3 } else { 1 };
            let end = (0..line.len()).filter(|at| line[*at] == b' ').nth(words - 1).unwrap_or(line.len());
            line[..end].make_ascii_lowercase();
        }
        line
    }

    /// The form with its labels as they are stored.
    pub fn form(self, form: Form) -> Form {
        match form {
            form if self != Reading::StoredFolded => form,
            Form::Root(label) => Form::Root(small(&label)),
            Form::Child(tree) => Form::Child(small_tree(&tree)),
            Form::Rename(path, label) => Form::Rename(path, small(&label)),
            Form::Update(path, label) => Form::Update(path, small(&label)),
            Form::Insert(place, path, tree) => Form::Insert(place, path, small_tree(&tree)),
            form => form,
        }
    }
}

// --- Windows by date (document 02, card 7) ---

fn window_of((first, last): (u16, u16)) -> Option<Window> {
    Window::new(first, last)
}

/// Zeros, as tables had them before windows, for the whole year.
fn window_or_zeros(days: (u16, u16)) -> Option<Window> {
    if days == (0, 0) {
        Some(WHOLE_YEAR)
    } else {
        window_of(days)
    }
}

/// The view of all days without the nodes outside their window on one: what is below such a node stays.
fn without_outside(view: &View, day: u16) -> View {
    let mut kept = View { nodes: Vec::new(), stored: Vec::new() };
    let mut place: Vec<Option<usize>> = Vec::new(); // of each node, or of the nearest kept one above it
    for (node, stored) in view.nodes.iter().zip(&view.stored) {
        let parent = node.parent.and_then(|parent| place[parent]);
        if node.window.holds(day) {
            place.push(Some(kept.nodes.len()));
            kept.nodes.push(Node { parent, ..*node });
            kept.stored.push(*stored);
        } else {
            place.push(parent);
        }
    }
    kept
}

impl Reading {
    /// What these rights show on a day.
    pub fn view(self, nodes: &[Node], rights: &[u8], day: u16) -> View {
        match self {
            Reading::InWindowBelow => without_outside(&view_by(nodes, rights, |_| true), day),
            Reading::LastDayExcluded => view_by(nodes, rights, |window| window.holds(day) && day < window.last),
            Reading::DayInViewAlone => view_by(nodes, rights, |_| true),
            _ => view(nodes, rights, day),
        }
    }

    /// The reading of `(view)` alone.
    pub fn of_view(self) -> Reading {
        if self == Reading::DayInViewAlone {
            Reading::Right
        } else {
            self
        }
    }
}
