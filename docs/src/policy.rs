//! Policies and rights (document 01, Rights).

use crate::label::{Equality, Label};
use crate::path::{select, Step, Test};
use crate::table::Node;

pub const SUBJECTS_MAXIMUM: usize = 64;
pub const ISA_MAXIMUM: usize = 128;
pub const RULES_MAXIMUM: usize = 128;

pub const POSITION: u8 = 1;
pub const READ: u8 = 2;
pub const INSERT: u8 = 4;
pub const UPDATE: u8 = 8;
pub const DELETE: u8 = 16;

#[derive(Clone, PartialEq, Eq, Debug)]
pub struct Rule {
    pub accept: bool,
    pub right: u8,
    pub subject: usize,
    pub path: Vec<Step>,
}

#[derive(Clone, PartialEq, Eq, Default, Debug)]
pub struct Policy {
    pub subjects: Vec<Label>,
    pub isa: Vec<(usize, usize)>,
    pub rules: Vec<Rule>,
}

impl Policy {
    /// The subject with a name equal to this.
    pub fn subject(&self, name: &Label, equal: Equality) -> Option<usize> {
        self.subjects.iter().position(|subject| equal(subject, name))
    }

    /// Which subjects a subject is: itself, and all that the isa lines lead to.
    pub fn roles(&self, subject: usize) -> Vec<bool> {
        let mut roles = vec![false; self.subjects.len()];
        let mut waiting = vec![subject];
        while let Some(role) = waiting.pop() {
            if !roles[role] {
                roles[role] = true;
                waiting.extend(self.isa.iter().filter(|(n, _)| *n == role).map(|(_, r)| *r));
            }
        }
        roles
    }

    /// The names that `$` passes for a subject, in rules and in commands: those of all that it is, its own included (document 02, card 5).
    pub fn own_names(&self, subject: usize) -> Vec<Label> {
        let roles = self.roles(subject);
        self.subjects.iter().zip(roles).filter(|(_, is)| *is).map(|(name, _)| *name).collect()
    }

    /// A subject's rights on every node of the stored tree: the last applicable rule for a right wins.
    pub fn rights(&self, nodes: &[Node], subject: usize) -> Vec<u8> {
        let own = self.own_names(subject);
        self.rights_by(nodes, subject, |rule| select(nodes, &rule.path, &own))
    }

    /// The rights where each rule selects the nodes given for it.
    pub fn rights_by(&self, nodes: &[Node], subject: usize, selected: impl Fn(&Rule) -> Vec<bool>) -> Vec<u8> {
        let roles = self.roles(subject);
        let mut rights = vec![0; nodes.len()];
        for rule in self.rules.iter().filter(|rule| roles[rule.subject]) {
            let selected = selected(rule);
            for number in (0..nodes.len()).filter(|number| selected[*number]) {
                if rule.accept {
                    rights[number] |= rule.right;
                } else {
                    rights[number] &= !rule.right;
                }
            }
        }
        rights
    }

    /// The policy words that these rules bring in, with these names once one of them uses `$`.
    pub fn words_of<'a>(&self, rules: impl Iterator<Item = &'a Rule>, names: &[Label]) -> Vec<Label> {
        let mut words = Vec::new();
        let mut uses_own = false;
        for step in rules.flat_map(|rule| rule.path.iter()) {
            match step.test {
                Test::Label(label) => words.push(label),
                Test::Own => uses_own = true,
                Test::Any => {}
            }
        }
        if uses_own {
            words.extend(names);
        }
        words
    }

    /// The labels named in any rule's path; once any rule uses `$`, every subject's name too.
    pub fn words(&self) -> Vec<Label> {
        self.words_of(self.rules.iter(), &self.subjects)
    }
}

#[cfg(test)]
mod tests {
    use super::*;
    use crate::path::read_path;
    use crate::table::{flatten, Tree};
    use crate::testing::generate::label;

    /// staff, 10B, 10C; tutors is staff; SHA is tutors and 10B. SHA may read what lies under `$`, by a rule for staff.
    fn school() -> Policy {
        let path = read_path(b"//$/*").expect("a path");
        let subjects = ["staff", "10B", "10C", "tutors", "SHA"].map(label).to_vec();
        Policy { subjects, isa: vec![(3, 0), (4, 3), (4, 1)], rules: vec![Rule { accept: true, right: READ, subject: 0, path }] }
    }

    fn names_for_own(name: &str) -> Vec<Label> {
        let policy = school();
        policy.own_names(policy.subject(&label(name), Label::same).expect("a subject"))
    }

    #[test]
    fn own_names_are_those_of_all_that_a_subject_is() {
        assert_eq!(names_for_own("SHA"), ["staff", "10B", "tutors", "SHA"].map(label)); // a role of a role, and the login name
        assert_eq!(names_for_own("tutors"), ["staff", "tutors"].map(label)); // not who is a tutor
        assert_eq!(names_for_own("10b"), ["10B"].map(label)); // found in either case, and as declared
    }

    #[test]
    fn own_in_a_rule_passes_all_that_the_asked_subject_is() {
        let under = |text: &str| Tree::new(label(text), vec![Tree::new(label("x"), Vec::new())]);
        let names = ["10B", "10C", "sha", "Staff", "MEI"];
        let root = Tree::new(label("school"), names.map(under).to_vec());
        let nodes = flatten(&root).0;
        let policy = school();
        let read_under = |subject: usize| {
            let rights = policy.rights(&nodes, subject);
            names.into_iter().enumerate().filter(|(number, _)| rights[2 + 2 * number] == READ).map(|(_, name)| name).collect::<Vec<&str>>()
        };
        assert_eq!(read_under(4), ["10B", "sha", "Staff"]); // 10B too, though it lies not between SHA and the rule's staff
        assert_eq!(read_under(3), ["Staff"]);
        assert_eq!(read_under(2), [""; 0]); // the rule is not for 10C
    }
}
