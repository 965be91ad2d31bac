//! Views (document 01, View; document 02, card 7).

use crate::label::RESTRICTED;
use crate::policy::{POSITION, READ};
use crate::table::Node;
use crate::window::Window;

/// What a reader is shown: nodes with the labels that they carry, parents counted within the view, and each node's number in the stored tree.
#[derive(Clone, PartialEq, Eq, Debug)]
pub struct View {
    pub nodes: Vec<Node>,
    pub stored: Vec<usize>,
}

/// The view that these rights give on a day: a node is shown in its window with read or position under a shown parent.
pub fn view(nodes: &[Node], rights: &[u8], day: u16) -> View {
    view_by(nodes, rights, |window| window.holds(day))
}

/// The view where a node is in its window as said.
pub fn view_by(nodes: &[Node], rights: &[u8], in_window: impl Fn(Window) -> bool) -> View {
    let mut view = View { nodes: Vec::new(), stored: Vec::new() };
    let mut place: Vec<Option<usize>> = Vec::with_capacity(nodes.len()); // in the view
    for (number, node) in nodes.iter().enumerate() {
        let parent = node.parent.map(|parent| place[parent]);
        let granted = rights[number] & (READ | POSITION) != 0 && in_window(node.window);
        if !granted || parent == Some(None) {
            place.push(None);
            continue;
        }
        place.push(Some(view.nodes.len()));
        let label = if rights[number] & READ != 0 { node.label } else { RESTRICTED };
        view.nodes.push(Node { label, parent: parent.flatten(), ..*node });
        view.stored.push(number);
    }
    view
}

/// The list that two trees must have in common to look the same to a reader: level and carried label of each shown node.
pub fn look(view: &View) -> Vec<(usize, crate::label::Label)> {
    view.nodes.iter().map(|node| (node.level, node.label)).collect()
}
