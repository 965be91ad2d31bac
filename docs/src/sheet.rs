//! The sheet for a room's door (document 02, card 3).

use crate::label::Label;
use crate::reading::{Compared, Reading};
use crate::table::Node;
use crate::view::View;

pub const DAYS: usize = 5;
pub const PERIODS: usize = 8;
pub const LABEL_BYTES: usize = 13; // of a cell, before its `|`
/// Nine rows: a digit and a space, the cells, a line feed.
pub const SHEET_BYTES: usize = (1 + PERIODS) * (2 + DAYS * (LABEL_BYTES + 1) + 1);

/// What a sheet is made from: the user's view and a room. The stored nodes are for the false readings alone.
pub struct Sheet<'a> {
    pub view: &'a View,
    pub stored: &'a [Node],
    pub room: Label,
    pub reading: Reading,
}

fn children(nodes: &[Node], parent: usize) -> impl Iterator<Item = usize> + '_ {
    (0..nodes.len()).filter(move |number| nodes[*number].parent == Some(parent))
}

impl Sheet<'_> {
    /// The shown child of a node that so many others stand before. Under the false reading `counted` hidden ones count too.
    fn child(&self, node: usize, before: usize, counted: Reading) -> Option<usize> {
        if self.reading == counted {
            let stored = children(self.stored, *self.view.stored.get(node)?).nth(before)?;
            return self.view.stored.iter().position(|shown| *shown == stored);
        }
        children(&self.view.nodes, node).nth(before)
    }

    /// The root's first five shown children.
    fn days(&self) -> Vec<Option<usize>> {
        let day = |before| self.child(0, before, Reading::StoredDays);
        let mut days: Vec<Option<usize>> = (0..DAYS).map(day).collect();
        match (self.reading, day(DAYS)) {
            (Reading::SixthForFifth, Some(sixth)) => days[DAYS - 1] = Some(sixth),
            (Reading::SixDays, Some(sixth)) => days.push(Some(sixth)),
            _ => {}
        }
        days
    }

    /// The label that a node carries in the view. Under the false reading `stored` it is the stored one.
    fn label(&self, node: usize, stored: Reading) -> Label {
        if self.reading == stored {
            return self.stored[self.view.stored[node]].label;
        }
        self.view.nodes[node].label
    }

    /// A period's first child labelled ROOM.
    fn room(&self, period: usize) -> Option<usize> {
        let equal = self.reading.equality(Compared::Rooms);
        let mut rooms = children(&self.view.nodes, period).filter(|child| equal(&self.label(*child, Reading::TrueRooms), &self.room));
        match self.reading {
            Reading::SecondRoom => rooms.take(2).last(),
            Reading::RoomWithLesson => rooms.find(|room| children(&self.view.nodes, *room).next().is_some()),
            _ => rooms.next(),
        }
    }

    /// What a day has in the room in a period from 1 to 8.
    fn lesson(&self, day: usize, period: usize) -> Option<usize> {
        let period = self.child(day, period - 1, Reading::StoredPeriods)?;
        self.child(self.room(period)?, 0, Reading::StoredLessons)
    }

    /// A label, cut or filled with spaces, then `|`; blank for what is missing.
    fn write_cell(&self, node: Option<usize>, answer: &mut Vec<u8>) {
        let mut cell = node.map_or(Vec::new(), |node| self.label(node, Reading::TrueLabels).text().to_vec());
        let length = if self.reading == Reading::LabelsUncut { cell.len().max(LABEL_BYTES) } else { LABEL_BYTES };
        cell.resize(length, b' ');
        cell.push(b'|');
        answer.extend_from_slice(&cell);
    }

    fn write_row(&self, first: &str, cells: &[Option<usize>], answer: &mut Vec<u8>) {
        answer.extend_from_slice(first.as_bytes());
        answer.push(b' ');
        for node in cells.iter().filter(|node| node.is_some() || self.reading != Reading::NoBlankCells) {
            self.write_cell(*node, answer);
        }
        answer.push(b'\n');
    }

    /// The row of the days, then one for each period.
    pub fn answer(&self) -> Vec<u8> {
        let mut answer = Vec::new();
        if self.reading == Reading::NoRowsForHiddenRoot && self.view.nodes.is_empty() {
            return answer;
        }
        let days = self.days();
        self.write_row(" ", &days, &mut answer);
        for period in 1..=PERIODS {
            let lessons: Vec<Option<usize>> = days.iter().map(|day| self.lesson((*day)?, period)).collect();
            self.write_row(&period.to_string(), &lessons, &mut answer);
        }
        answer
    }
}

#[cfg(test)]
mod tests {
    use super::*;
    use crate::label::RESTRICTED;
    use crate::path::{read_path, select};
    use crate::table::{flatten, Tree};
    use crate::testing::generate;
    use crate::testing::random::Random;
    use crate::view::view;
    use crate::window::FIRST_DAY;

    /// The cell of the one node that a path selects in a view.
    fn cell_of(view: &View, path: &str) -> String {
        let own = generate::label("own");
        let marks = select(&view.nodes, &read_path(path.as_bytes()).expect("a path"), &[own]);
        let selected: Vec<usize> = (0..marks.len()).filter(|number| marks[*number]).collect();
        assert!(selected.len() <= 1, "{path}");
        let label = selected.first().map_or(String::new(), |number| generate::text_of(&view.nodes[*number].label));
        format!("{label:13.13}|")
    }

    #[test]
    fn cells_hold_what_paths_select() {
        let mut random = Random::new(1);
        let mut lessons = 0;
        for _ in 0..3_000 {
            let (policy, reader) = generate::policy(&mut random);
            let nodes = flatten(&generate::week(&mut random, DAYS + 2, PERIODS + 2)).0;
            let view = view(&nodes, &policy.rights(&nodes, reader), FIRST_DAY);
            let room = generate::room(&mut random, &view.nodes);
            let cells = |path: &dyn Fn(usize) -> String| -> String { (1..=DAYS).map(|day| cell_of(&view, &path(day))).collect() };
            let mut wanted = format!("  {}\n", cells(&|day| format!("/*/*[{day}]")));
            for period in 1..=PERIODS {
                let row = cells(&|day| format!("/*/*[{day}]/*[{period}]/{room}[1]/*[1]"));
                wanted.push_str(&format!("{period} {row}\n"));
                lessons += usize::from(row.bytes().any(|byte| !matches!(byte, b' ' | b'|')));
            }
            let sheet = Sheet { view: &view, stored: &nodes, room: generate::label(&room), reading: Reading::Right }.answer();
            assert_eq!(String::from_utf8_lossy(&sheet), wanted);
            assert_eq!(sheet.len(), SHEET_BYTES);
        }
        assert!(lessons > 5_000, "{lessons} rows with a lesson");
    }

    #[test]
    fn the_first_room_alone_decides_and_a_sixth_day_is_left_out() {
        let leaf = |label: &str| Tree::new(generate::label(label), Vec::new());
        let tree = |label: &str, children: Vec<Tree>| Tree { children, ..leaf(label) };
        let period = tree("p", vec![leaf("x"), tree("x", vec![leaf("late")])]);
        let mut days: Vec<Tree> = ["mon", "tue", "wed", "thu", "a-label-of-24-bytes-----", "sat"].map(leaf).to_vec();
        days[0].children.push(period);
        days[4].children.push(tree("q", vec![tree("x", vec![leaf("RESTRICTED"), leaf("second")])]));
        let nodes = flatten(&tree("r", days)).0;
        let view = View { stored: (0..nodes.len()).collect(), nodes: nodes.clone() };
        let sheet = |room: Label| String::from_utf8(Sheet { view: &view, stored: &nodes, room, reading: Reading::Right }.answer()).expect("ASCII");
        let rows = |one: &str| {
            let blank: String = (2..=8).map(|period| format!("{period} {}\n", "             |".repeat(5))).collect();
            format!("  mon          |tue          |wed          |thu          |a-label-of-24|\n1 {}{one}\n{blank}", "             |".repeat(4))
        };
        assert_eq!(sheet(generate::label("x")), rows("RESTRICTED   |"));
        assert_eq!(sheet(generate::label("X")), rows("RESTRICTED   |"));
        assert_eq!(sheet(RESTRICTED), rows("             |"));
    }
}
