//! What the testers count of sheets, so that they are not all blank.

use crate::label::RESTRICTED;
use crate::sheet::{DAYS, LABEL_BYTES, PERIODS, SHEET_BYTES};
use crate::step::AREA_SHORT;

const CUT: &[u8] = b"philosophy-an"; // what a cell holds of a longer label
const LESSONS_PERCENT: usize = 40; // of the sheets, that have a lesson

const WHAT: [&str; 8] = [
    "with a lesson on the fifth day",
    "with a lesson in period 8",
    "with the lesson RESTRICTED",
    "with a label cut",
    "with days and no lesson",
    "all blank",
    "in an area of its length",
    "refused in an area one byte shorter",
];

#[derive(Default)]
pub struct Sheets {
    accepted: usize,
    lesson: usize, // accepted, with a lesson
    seen: [usize; WHAT.len()],
}

/// The label in a row's cell for a day, without the spaces behind it.
fn cell(sheet: &[u8], row: usize, day: usize) -> &[u8] {
    let row = &sheet[row * (SHEET_BYTES / (1 + PERIODS))..];
    row[2 + day * (LABEL_BYTES + 1)..][..LABEL_BYTES].trim_ascii_end()
}

impl Sheets {
    /// Counts a line and its reply, if it is a sheet.
    pub fn count(&mut self, line: &[u8], returned: i64, area: &[u8]) {
        if !line.starts_with(b"(sheet ") {
            return;
        }
        let accepted = returned == SHEET_BYTES as i64;
        let cells = (0..=PERIODS).flat_map(|row| (0..DAYS).map(move |day| (row, day)));
        let filled: Vec<(usize, usize)> = cells.filter(|(row, day)| accepted && !cell(area, *row, *day).is_empty()).collect();
        let lessons: Vec<(usize, usize)> = filled.iter().copied().filter(|(row, _)| *row > 0).collect();
        self.accepted += usize::from(accepted);
        self.lesson += usize::from(!lessons.is_empty());
        let seen = [
            lessons.iter().any(|(_, day)| day + 1 == DAYS),
            lessons.iter().any(|(row, _)| *row == PERIODS),
            lessons.iter().any(|(row, day)| cell(area, *row, *day) == RESTRICTED.text()),
            filled.iter().any(|(row, day)| cell(area, *row, *day) == CUT),
            lessons.is_empty() && !filled.is_empty(),
            accepted && filled.is_empty(),
            accepted && area.len() == SHEET_BYTES,
            returned == -i64::from(AREA_SHORT) && area.len() + 1 == SHEET_BYTES,
        ];
        for (count, seen) in self.seen.iter_mut().zip(seen) {
            *count += usize::from(seen);
        }
    }

    pub fn text(&self) -> String {
        let seen: Vec<String> = WHAT.iter().zip(self.seen).map(|(what, count)| format!("{what} {count}")).collect();
        let percent = 100 * self.lesson / self.accepted.max(1);
        format!("sheets accepted {}, with a lesson {} ({percent} %), {}", self.accepted, self.lesson, seen.join(", "))
    }

    /// What a run of enough lines must have seen and has not.
    pub fn unseen(&self) -> Vec<String> {
        let mut unseen: Vec<String> = WHAT.iter().zip(self.seen).filter(|(_, count)| *count == 0).map(|(what, _)| format!("a sheet {what}")).collect();
        if 100 * self.lesson < LESSONS_PERCENT * self.accepted {
            unseen.push(format!("a lesson in {LESSONS_PERCENT} of 100 sheets"));
        }
        unseen
    }
}
