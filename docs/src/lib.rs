//! An independent, straightforward version of the timetable store, written from document 01, document 02 and docs/FORMAT.md. It decodes state and table, works on
//! lists and nested trees, and encodes them back. Tests compare it with the proved one.

pub mod form;
pub mod label;
pub mod path;
pub mod plain_view;
pub mod policy;
pub mod reading;
pub mod sheet;
pub mod state;
pub mod step;
pub mod table;
pub mod testing;
pub mod view;
pub mod window;
pub mod xml;

pub use state::STATE_BYTES;
pub use step::{timetable_line, timetable_load_xml};

/// Exports a function on a lent store, lent bytes and a lent area under a name, with C's calling convention.
#[macro_export]
macro_rules! export_call {
    ($name:ident, $call:path) => {
        /// # Safety
        /// Each pointer lends as many bytes as the length behind it says, and no two of them overlap.
        #[no_mangle]
        pub unsafe extern "C" fn $name(
            state: *mut u8,
            state_length: usize,
            table: *mut u8,
            table_length: usize,
            given: *const u8,
            given_length: usize,
            area: *mut u8,
            area_length: usize,
        ) -> i64 {
            use std::slice::{from_raw_parts, from_raw_parts_mut};
            $call(
                from_raw_parts_mut(state, state_length),
                from_raw_parts_mut(table, table_length),
                from_raw_parts(given, given_length),
                from_raw_parts_mut(area, area_length),
            )
        }
    };
}

/// Exports a function on lent bytes as `timetable_line`, and `timetable_state_bytes` beside it.
#[macro_export]
macro_rules! export_line {
    ($line:path) => {
        $crate::export_call!(timetable_line, $line);

        #[no_mangle]
        pub extern "C" fn timetable_state_bytes() -> usize {
            $crate::STATE_BYTES
        }
    };
}
