//! The timetable tree and its readers: a safe wrapper of the proved library (include/timetable.h).
//!
//! ```
//! use louvretansy::{Refusal, Store};
//!
//! let mut store = Store::new(1024);
//! assert_eq!(store.line("(subject staff)"), Ok(b"(ok)\n".to_vec()));
//! assert_eq!(store.line("(view)"), Err(Refusal::WrongStage));
//! ```
//!
//! A call needs [`STACK_BYTES`] of free stack. The threads that Rust starts have 2 MiB, unless they are told otherwise.

#![deny(missing_docs, missing_debug_implementations, unsafe_op_in_unsafe_fn)]

use std::error::Error;
use std::fmt;

/// The version of this wrapper, which is that of include/timetable.h.
pub const VERSION: &str = env!("CARGO_PKG_VERSION");

/// The most bytes of a line, without its line feed.
pub const MAX_LINE_BYTES: usize = 1024;

/// The most records that a table uses. A node takes one.
pub const MAX_RECORDS: usize = 16_384;

/// The bytes of a state. A library whose [`state_bytes`] are not so many is of another version.
pub const STATE_BYTES: usize = 68_880;

/// The bytes of the answer to `(sheet ROOM)`, whatever is on the sheet.
pub const SHEET_BYTES: usize = 657;

/// The free stack that is enough for every call: measured, with an eighth and more to spare.
pub const STACK_BYTES: usize = 1_310_720;

extern "C" {
    fn timetable_state_bytes() -> usize;
    fn timetable_line(
        state: *mut u8,
        state_length: usize,
        table: *mut u8,
        table_length: usize,
        line: *const u8,
        line_length: usize,
        area: *mut u8,
        area_length: usize,
    ) -> i64;
    fn timetable_load_xml(
        state: *mut u8,
        state_length: usize,
        table: *mut u8,
        table_length: usize,
        xml: *const u8,
        xml_length: usize,
        area: *mut u8,
        area_length: usize,
    ) -> i64;
}

/// Makes `Refusal` from its table: number, name and the reason, which follows "refused, since".
macro_rules! refusals {
    ($($number:literal $name:ident $reason:literal)*) => {
        /// Why a line or a document is refused. 13 is tested first, then the others in the order of their numbers,
        /// except for 14, which comes after 4, and 15, which comes after 10: the first that applies is given.
        ///
        /// Each of them says what follows "refused, since".
        #[derive(Clone, Copy, PartialEq, Eq, Hash, Debug)]
        #[non_exhaustive]
        pub enum Refusal {
            $(#[doc = concat!($number, ": ", $reason, ".")] $name,)*
            /// A number that this version of the wrapper does not know: the library is newer.
            Unknown(
                /// The number.
                u64,
            ),
        }

        impl Refusal {
            /// All that have a name, by number.
            pub const ALL: &'static [Refusal] = &[$(Refusal::$name),*];

            /// The number, as the program prints it.
            #[must_use]
            pub const fn number(self) -> u64 {
                match self {
                    $(Refusal::$name => $number,)*
                    Refusal::Unknown(number) => number,
                }
            }

            /// The reason in words, which follow "refused, since".
            #[must_use]
            pub const fn reason(self) -> &'static str {
                match self {
                    $(Refusal::$name => $reason,)*
                    Refusal::Unknown(_) => "the library gives a number that this version of the wrapper does not know",
                }
            }
        }

        impl TryFrom<u64> for Refusal {
            type Error = UnknownRefusal;

            /// The refusal that has the number, if one has.
            fn try_from(number: u64) -> Result<Refusal, UnknownRefusal> {
                match number {
                    $($number => Ok(Refusal::$name),)*
                    _ => Err(UnknownRefusal(number)),
                }
            }
        }
    };
}

refusals! {
    1 BadLine "it has more than 1,024 bytes, or a byte that is no plain ASCII character"
    2 NoForm "it is none of the forms: a wrong word, a bad label or tree, a space too many or too few"
    3 WrongStage "it does not fit the stage: policy, root, children, work"
    4 BadPath "its path is not well formed"
    5 BadName "a name is unknown or declared twice, an isa line is repeated, \
               or a role is not declared before who has it"
    6 RuleBracket "a rule's path has a bracket"
    7 PolicyFull "the policy is full: 64 subjects, 128 isa lines, 128 rules"
    8 NoUser "nobody has logged in yet"
    9 BadLabel "RESTRICTED is a new label or name in it, or stands in a tree or a rule's path; \
                or a policy word is the new label of a rename or update"
    10 TooDeep "a node would come to a level above 11"
    11 TableFull "the whole of it needs more free records than there are"
    12 AreaShort "the answer area is shorter than the answer"
    13 BadStore "the lent state or table is not valid, or the two do not agree"
    14 NoDocument "the document is not of the kind that is taken: one root element, tags that match, \
                   labels as names and texts, and nothing else"
    15 BadDay "a day is outside 1 to 366, or the first day is after the last"
}

impl fmt::Display for Refusal {
    fn fmt(&self, out: &mut fmt::Formatter<'_>) -> fmt::Result {
        write!(out, "refused {}: {}", self.number(), self.reason())
    }
}

impl Error for Refusal {}

impl From<Refusal> for u64 {
    fn from(refusal: Refusal) -> u64 {
        refusal.number()
    }
}

/// A number that no refusal has.
#[derive(Clone, Copy, PartialEq, Eq, Hash, Debug)]
pub struct UnknownRefusal(
    /// The number.
    pub u64,
);

impl fmt::Display for UnknownRefusal {
    fn fmt(&self, out: &mut fmt::Formatter<'_>) -> fmt::Result {
        write!(out, "no refusal has the number {}", self.0)
    }
}

impl Error for UnknownRefusal {}

/// The bytes of a state, as the library has them.
#[must_use]
pub fn state_bytes() -> usize {
    // SAFETY: it takes nothing and returns a constant.
    unsafe { timetable_state_bytes() }
}

/// Whether the library is one for this wrapper, as far as the size of its state tells.
#[must_use]
pub fn library_fits() -> bool {
    state_bytes() == STATE_BYTES
}

/// The bytes of a table of so many records. Those above [`MAX_RECORDS`] are never used, and stay zero.
#[must_use]
pub const fn table_bytes(records: usize) -> usize {
    4 + 32 * records
}

/// An area that no answer outgrows, for a table of so many records: those of a sheet, and for each record what a node
/// takes in a view at most.
#[must_use]
pub const fn area_bytes(records: usize) -> usize {
    SHEET_BYTES + 35 * if records < MAX_RECORDS { records } else { MAX_RECORDS }
}

/// What the library returned: the answer's length, or minus the number of a refusal.
fn length_or_refusal(returned: i64) -> Result<usize, Refusal> {
    usize::try_from(returned).map_err(|_| {
        let number = returned.unsigned_abs();
        Refusal::try_from(number).unwrap_or(Refusal::Unknown(number))
    })
}

/// One line, without its line feed, on lent bytes, which may be any.
///
/// The answer's length, with its bytes at the front of the area; the area after them is as it was.
///
/// # Errors
///
/// Why the line is refused. Then every byte is as it was.
pub fn line(state: &mut [u8], table: &mut [u8], line: &[u8], area: &mut [u8]) -> Result<usize, Refusal> {
    // SAFETY: the pointers and lengths are those of slices, so they are not null; three are borrowed mutably, so none
    // of the four overlap.
    length_or_refusal(unsafe {
        timetable_line(
            state.as_mut_ptr(),
            state.len(),
            table.as_mut_ptr(),
            table.len(),
            line.as_ptr(),
            line.len(),
            area.as_mut_ptr(),
            area.len(),
        )
    })
}

/// The solver's file, whole, on lent bytes, which may be any: in place of root and child lines, where no root is there
/// yet. include/timetable.h tells which documents are taken.
///
/// The answer's length, 5, with `(ok)` and a line feed at the front of the area; the area after them is as it was.
///
/// # Errors
///
/// Why the document is refused. Then every byte is as it was.
pub fn load_xml(state: &mut [u8], table: &mut [u8], xml: &[u8], area: &mut [u8]) -> Result<usize, Refusal> {
    // SAFETY: as for a line.
    length_or_refusal(unsafe {
        timetable_load_xml(
            state.as_mut_ptr(),
            state.len(),
            table.as_mut_ptr(),
            table.len(),
            xml.as_ptr(),
            xml.len(),
            area.as_mut_ptr(),
            area.len(),
        )
    })
}

/// A state and a table, with an area for every answer.
#[derive(Clone)]
pub struct Store {
    state: Vec<u8>,
    table: Vec<u8>,
    area: Vec<u8>,
}

impl Store {
    /// An empty store whose table has so many records.
    #[must_use]
    pub fn new(records: usize) -> Store {
        Store::from_bytes(vec![0; state_bytes()], vec![0; table_bytes(records)])
    }

    /// A store of these bytes. If they are not those of a store, every line is refused with 13.
    #[must_use]
    pub fn from_bytes(state: Vec<u8>, table: Vec<u8>) -> Store {
        let area = vec![0; area_bytes(table.len().saturating_sub(table_bytes(0)) / 32)];
        Store { state, table, area }
    }

    /// The bytes of the state, to be kept.
    #[must_use]
    pub fn state(&self) -> &[u8] {
        &self.state
    }

    /// The bytes of the table, to be kept.
    #[must_use]
    pub fn table(&self) -> &[u8] {
        &self.table
    }

    /// The answer to a line, which is given without its line feed.
    ///
    /// # Errors
    ///
    /// Why the line is refused. Then nothing has changed.
    pub fn line(&mut self, text: impl AsRef<[u8]>) -> Result<Vec<u8>, Refusal> {
        let length = line(&mut self.state, &mut self.table, text.as_ref(), &mut self.area)?;
        Ok(self.area[..length].to_vec())
    }

    /// The answer to the solver's file: the whole document, in place of root and child lines.
    ///
    /// ```
    /// let mut store = louvretansy::Store::new(16);
    /// assert_eq!(store.load_xml("<school><mon>R12</mon></school>"), Ok(b"(ok)\n".to_vec()));
    /// ```
    ///
    /// # Errors
    ///
    /// Why the document is refused. Then nothing has changed.
    pub fn load_xml(&mut self, document: impl AsRef<[u8]>) -> Result<Vec<u8>, Refusal> {
        let length = load_xml(&mut self.state, &mut self.table, document.as_ref(), &mut self.area)?;
        Ok(self.area[..length].to_vec())
    }
}

/// Sizes alone: labels are not for every log.
impl fmt::Debug for Store {
    fn fmt(&self, out: &mut fmt::Formatter<'_>) -> fmt::Result {
        out.debug_struct("Store")
            .field("state_bytes", &self.state.len())
            .field("table_bytes", &self.table.len())
            .finish_non_exhaustive()
    }
}

#[cfg(test)]
mod tests {
    use super::*;

    #[test]
    fn every_number_that_a_library_returns_is_a_length_or_a_refusal() {
        assert_eq!(length_or_refusal(5), Ok(5));
        assert_eq!(length_or_refusal(-1), Err(Refusal::BadLine));
        assert_eq!(length_or_refusal(-13), Err(Refusal::BadStore));
        assert_eq!(length_or_refusal(-14), Err(Refusal::NoDocument));
        assert_eq!(length_or_refusal(-15), Err(Refusal::BadDay));
        assert_eq!(length_or_refusal(-99), Err(Refusal::Unknown(99)));
        assert_eq!(length_or_refusal(i64::MIN), Err(Refusal::Unknown(1 << 63)));
    }
}
