//! Windows by date (document 02, card 7): the days of a year, and from which to which a node is shown.

use crate::label::{all_zero, RECORD_BYTES, SPARE_AT};

pub const FIRST_DAY: u16 = 1;
pub const LAST_DAY: u16 = 366;

const FIRST_AT: usize = SPARE_AT;
const LAST_AT: usize = SPARE_AT + 2;
const ZEROS_AT: usize = SPARE_AT + 4;

pub fn is_day(day: u16) -> bool {
    (FIRST_DAY..=LAST_DAY).contains(&day)
}

/// A first and a last day, both included.
#[derive(Clone, Copy, PartialEq, Eq, Debug)]
pub struct Window {
    pub first: u16,
    pub last: u16,
}

/// What lines, inserted trees and documents give, and what a root always has.
pub const WHOLE_YEAR: Window = Window { first: FIRST_DAY, last: LAST_DAY };

impl Window {
    /// None for days outside 1 to 366, or a first day after the last.
    pub fn new(first: u16, last: u16) -> Option<Window> {
        (is_day(first) && is_day(last) && first <= last).then_some(Window { first, last })
    }

    pub fn holds(self, day: u16) -> bool {
        (self.first..=self.last).contains(&day)
    }

    /// The two numbers in the spare bytes of a record, 16 bits each, little-endian, with zeros behind them.
    pub fn read(record: &[u8]) -> Option<(u16, u16)> {
        let number = |at: usize| u16::from_le_bytes([record[at], record[at + 1]]);
        all_zero(&record[ZEROS_AT..RECORD_BYTES]).then(|| (number(FIRST_AT), number(LAST_AT)))
    }

    /// Writes the window into a record.
    pub fn write(self, record: &mut [u8]) {
        record[FIRST_AT..LAST_AT].copy_from_slice(&self.first.to_le_bytes());
        record[LAST_AT..ZEROS_AT].copy_from_slice(&self.last.to_le_bytes());
    }
}

#[cfg(test)]
mod tests {
    use super::*;

    #[test]
    fn both_days_are_included() {
        let window = Window::new(5, 9).expect("a window");
        assert_eq!((1..=366).filter(|day| window.holds(*day)).collect::<Vec<u16>>(), [5, 6, 7, 8, 9]);
        assert!((1..=366).all(|day| WHOLE_YEAR.holds(day) && Window::new(day, day).is_some_and(|window| window.holds(day))));
    }

    #[test]
    fn days_outside_the_year_and_a_first_after_the_last_are_no_window() {
        for (first, last) in [(0, 0), (0, 5), (1, 0), (6, 5), (1, 367), (367, 367), (366, 1), (65_535, 65_535)] {
            assert_eq!(Window::new(first, last), None, "{first} {last}");
        }
    }

    #[test]
    fn the_bytes_of_a_window() {
        let mut record = [0; RECORD_BYTES];
        Window { first: 5, last: 366 }.write(&mut record);
        assert_eq!(record[SPARE_AT..], [5, 0, 110, 1, 0, 0]);
        assert_eq!(Window::read(&record), Some((5, 366)));
        record[RECORD_BYTES - 1] = 1;
        assert_eq!(Window::read(&record), None);
    }
}
