//! The engines under test: the straightforward version, under the right reading or a false one, the view alone, and a library with C's calling convention.

use crate::plain_view;
use crate::policy::RULES_MAXIMUM;
use crate::reading::{Reading, FALSE_READINGS, OTHER_ANSWERS, OTHER_TREES};
use crate::state::{RULES_AT, RULE_BYTES, SESSION_BYTES};
use crate::step::{load_xml, read_line};
use crate::STATE_BYTES;
use std::ffi::{c_char, c_int, c_void, CStr, CString};

pub trait Engine {
    /// One line on lent bytes: the answer's length, or minus the refusal's number.
    fn line(&self, state: &mut [u8], table: &mut [u8], line: &[u8], area: &mut [u8]) -> i64;

    /// One document on lent bytes, likewise.
    fn load_xml(&self, _state: &mut [u8], _table: &mut [u8], _xml: &[u8], _area: &mut [u8]) -> i64 {
        panic!("the view alone loads no document")
    }

    /// How the engine reads changes, for telling which nodes it keeps.
    fn reading(&self) -> Reading;
}

/// The straightforward version.
pub struct Straightforward(pub Reading);

impl Engine for Straightforward {
    fn line(&self, state: &mut [u8], table: &mut [u8], line: &[u8], area: &mut [u8]) -> i64 {
        read_line(state, table, line, area, self.0)
    }

    fn load_xml(&self, state: &mut [u8], table: &mut [u8], xml: &[u8], area: &mut [u8]) -> i64 {
        load_xml(state, table, xml, area, self.0)
    }

    fn reading(&self) -> Reading {
        self.0
    }
}

/// The view alone (plain_view.rs).
pub struct PlainView;

impl Engine for PlainView {
    fn line(&self, state: &mut [u8], table: &mut [u8], line: &[u8], area: &mut [u8]) -> i64 {
        plain_view::timetable_line(state, table, line, area)
    }

    fn reading(&self) -> Reading {
        Reading::Right
    }
}

/// The view alone with the rules tried from the first to the last. False, and here for the test of its tester alone.
struct FirstRuleWins;

impl Engine for FirstRuleWins {
    fn line(&self, state: &mut [u8], table: &mut [u8], line: &[u8], area: &mut [u8]) -> i64 {
        let mut turned = state.to_vec();
        if state.len() == STATE_BYTES {
            let rules = usize::from(state[SESSION_BYTES + 2]).min(RULES_MAXIMUM);
            let at = |rule: usize| SESSION_BYTES + RULES_AT + RULE_BYTES * rule..SESSION_BYTES + RULES_AT + RULE_BYTES * (rule + 1);
            for rule in 0..rules {
                turned[at(rule)].copy_from_slice(&state[at(rules - 1 - rule)]);
            }
        }
        plain_view::timetable_line(&mut turned, table, line, area)
    }

    fn reading(&self) -> Reading {
        Reading::Right
    }
}

/// The engine that is wrong in the way named.
pub fn wrong_engine(name: &str) -> Option<Box<dyn Engine>> {
    if name == "first-rule-wins" {
        return Some(Box::new(FirstRuleWins));
    }
    let mut readings = FALSE_READINGS.iter().chain(&OTHER_ANSWERS).chain(&OTHER_TREES);
    readings.find(|(known, _)| *known == name).map(|(_, reading)| Box::new(Straightforward(*reading)) as Box<dyn Engine>)
}

// --- A library: `timetable_line`, `timetable_load_xml` and `timetable_state_bytes` of a shared object, each slice as a pointer and a length ---

type CallFunction = unsafe extern "C" fn(*mut u8, usize, *mut u8, usize, *const u8, usize, *mut u8, usize) -> i64;
type StateBytesFunction = unsafe extern "C" fn() -> usize;

extern "C" {
    fn dlopen(name: *const c_char, flags: c_int) -> *mut c_void;
    fn dlsym(handle: *mut c_void, name: *const c_char) -> *mut c_void;
    fn dlerror() -> *const c_char;
}

const RTLD_NOW: c_int = 2;

pub struct Library {
    line: CallFunction,
    load_xml: Option<CallFunction>, // the view alone has none
}

impl Library {
    /// Opens a shared object. Tells why it cannot.
    pub fn open(path: &str) -> Result<Library, String> {
        let failure = || unsafe {
            let text = dlerror();
            if text.is_null() {
                "a symbol is missing".to_string()
            } else {
                CStr::from_ptr(text).to_string_lossy().into_owned()
            }
        };
        let name = CString::new(path).map_err(|error| error.to_string())?;
        unsafe {
            let handle = dlopen(name.as_ptr(), RTLD_NOW);
            if handle.is_null() {
                return Err(failure());
            }
            let line = dlsym(handle, c"timetable_line".as_ptr());
            let load_xml = dlsym(handle, c"timetable_load_xml".as_ptr());
            let state_bytes = dlsym(handle, c"timetable_state_bytes".as_ptr());
            if line.is_null() || state_bytes.is_null() {
                return Err(failure());
            }
            let state_bytes: StateBytesFunction = std::mem::transmute(state_bytes);
            if state_bytes() != STATE_BYTES {
                return Err(format!("its states have {} bytes, not {STATE_BYTES}", state_bytes()));
            }
            let call = |symbol| std::mem::transmute::<*mut c_void, CallFunction>(symbol);
            Ok(Library { line: call(line), load_xml: (!load_xml.is_null()).then(|| call(load_xml)) })
        }
    }
}

fn lend(call: CallFunction, state: &mut [u8], table: &mut [u8], given: &[u8], area: &mut [u8]) -> i64 {
    unsafe { call(state.as_mut_ptr(), state.len(), table.as_mut_ptr(), table.len(), given.as_ptr(), given.len(), area.as_mut_ptr(), area.len()) }
}

impl Engine for Library {
    fn line(&self, state: &mut [u8], table: &mut [u8], line: &[u8], area: &mut [u8]) -> i64 {
        lend(self.line, state, table, line, area)
    }

    fn load_xml(&self, state: &mut [u8], table: &mut [u8], xml: &[u8], area: &mut [u8]) -> i64 {
        lend(self.load_xml.expect("the library has no timetable_load_xml"), state, table, xml, area)
    }

    fn reading(&self) -> Reading {
        Reading::Right
    }
}
