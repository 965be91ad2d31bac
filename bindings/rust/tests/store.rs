//! The wrapper: answers, refusals, bytes that are not those of a store, and what it shares with header and README.md.

use louvretansy::{
    area_bytes, library_fits, line, load_xml, state_bytes, table_bytes, Refusal, Store, UnknownRefusal, MAX_LINE_BYTES,
    MAX_RECORDS, SHEET_BYTES, STACK_BYTES, STATE_BYTES, VERSION,
};
use std::collections::HashMap;
use std::fs;
use std::path::Path;
use std::thread;

/// A store of so many records with a reader, who is logged in.
fn small_school(records: usize) -> Store {
    let mut store = Store::new(records);
    for line in [
        "(subject staff)",
        "(rule accept read //* staff)",
        "(rule accept insert //* staff)",
        "(root school)",
        "(child (mon))",
        "(user staff)",
    ] {
        assert_eq!(store.line(line.as_bytes()), Ok(b"(ok)\n".to_vec()), "{line}");
    }
    store
}

/// A file of the repository.
fn page(name: &str) -> String {
    let path = Path::new(env!("CARGO_MANIFEST_DIR")).join("../..").join(name);
    fs::read_to_string(&path).unwrap_or_else(|error| panic!("{}: {error}", path.display()))
}

#[test]
fn refusals_have_the_numbers_and_reasons_of_the_readme() {
    let readme = page("README.md").replace("\n  ", " ");
    let mut rows = readme.lines().filter_map(|row| {
        let (number, rest) = row.strip_prefix("- **")?.split_once("** ")?;
        let (reason, _) = rest.split_once("; for example `")?;
        Some((number.parse::<u64>().ok()?, reason.strip_suffix(" (library alone)").unwrap_or(reason)))
    });
    for &refusal in Refusal::ALL {
        assert_eq!(Some((refusal.number(), refusal.reason())), rows.next());
        assert_eq!(Refusal::try_from(refusal.number()), Ok(refusal));
        assert_eq!(refusal.to_string(), format!("refused {}: {}", refusal.number(), refusal.reason()));
    }
    assert_eq!(rows.next(), None);
}

#[test]
fn a_number_that_no_refusal_has_is_an_error() {
    for number in [0, 99, u64::MAX] {
        assert_eq!(Refusal::try_from(number), Err(UnknownRefusal(number)));
        assert_eq!(Refusal::Unknown(number).number(), number);
    }
    assert_eq!(UnknownRefusal(99).to_string(), "no refusal has the number 99");
    assert!(Refusal::Unknown(99).to_string().starts_with("refused 99: "));
}

#[test]
fn sizes_and_version_are_those_of_the_header() {
    let header = page("include/timetable.h");
    let mut defined = HashMap::new();
    for line in header.lines() {
        if let [name, value] = line.strip_prefix("#define TIMETABLE_").unwrap_or("").split(' ').collect::<Vec<_>>()[..]
        {
            defined.insert(name, value.trim_matches('"'));
        }
    }
    assert_eq!(defined["VERSION"], VERSION);
    assert_eq!(defined["MAX_LINE_BYTES"], MAX_LINE_BYTES.to_string());
    assert_eq!(defined["MAX_RECORDS"], MAX_RECORDS.to_string());
    assert_eq!(defined["STATE_BYTES"], STATE_BYTES.to_string());
    assert_eq!(defined["SHEET_BYTES"], SHEET_BYTES.to_string());
    assert_eq!(defined["STACK_BYTES"], STACK_BYTES.to_string());
    assert!(library_fits() && state_bytes() == STATE_BYTES);
    assert_eq!(area_bytes(MAX_RECORDS + 1), area_bytes(MAX_RECORDS));
}

#[test]
fn a_store_shows_sizes_and_no_labels() {
    assert_eq!(format!("{:?}", small_school(2)), "Store { state_bytes: 68880, table_bytes: 68, .. }");
}

#[test]
fn a_thread_with_the_stack_that_is_asked_for_is_enough() {
    let steps = "//*".repeat(15);
    let path = format!("//*{steps}[*{steps}[*{steps}[*{steps}]]]");
    let answer = move || small_school(2).line(format!("(update {path} x)"));
    let thread = thread::Builder::new().stack_size(STACK_BYTES).spawn(answer).expect("a thread");
    assert_eq!(thread.join().expect("it ends"), Ok(b"(done 0 0)\n".to_vec()));
}

#[test]
fn each_refusal_comes_with_its_number_and_changes_nothing() {
    let (school, deep) = (small_school(2), small_school(40));
    let mut empty = Store::new(2);
    let levels = "(a ".repeat(11) + "(a" + &")".repeat(12);
    let refused = [
        (&school, "(view)\n".to_string(), Refusal::BadLine),
        (&school, "(look)".to_string(), Refusal::NoForm),
        (&school, "(subject SHA)".to_string(), Refusal::WrongStage),
        (&school, "(query //*[0])".to_string(), Refusal::BadPath),
        (&school, "(user SHA)".to_string(), Refusal::BadName),
        (&school, "(rename //mon RESTRICTED)".to_string(), Refusal::BadLabel),
        (&school, "(rename //MON Restricted)".to_string(), Refusal::BadLabel),
        (&school, "(day 367)".to_string(), Refusal::BadDay),
        (&school, "(window //mon 9 8)".to_string(), Refusal::BadDay),
        (&school, "(append //mon (x))".to_string(), Refusal::TableFull),
        (&deep, format!("(append //mon {levels})"), Refusal::TooDeep),
    ];
    for (store, line, refusal) in refused {
        let mut after = store.clone();
        assert_eq!(after.line(line.as_bytes()), Err(refusal), "{line}");
        assert!(after.state() == store.state() && after.table() == store.table(), "{line}");
    }
    assert_eq!(empty.line(b"(subject staff)"), Ok(b"(ok)\n".to_vec()));
    assert_eq!(empty.line(b"(rule accept read //a[b] staff)"), Err(Refusal::RuleBracket));
    for number in 1..64 {
        assert_eq!(empty.line(format!("(subject s{number})").as_bytes()), Ok(b"(ok)\n".to_vec()));
    }
    assert_eq!(empty.line(b"(subject s64)"), Err(Refusal::PolicyFull));
    assert_eq!(empty.line(b"(root school)"), Ok(b"(ok)\n".to_vec()));
    assert_eq!(empty.line(b"(view)"), Err(Refusal::NoUser));
}

#[test]
fn a_document_leaves_what_its_lines_leave() {
    let (mut loaded, mut typed) = (Store::new(9), Store::new(9));
    for store in [&mut loaded, &mut typed] {
        assert_eq!(store.line("(subject staff)"), Ok(b"(ok)\n".to_vec()));
    }
    let document = "\n<school>\r\n\t<mon> 8.15 <lesson><room>R12</room></lesson></mon><tue></tue>\n</school> ";
    assert_eq!(loaded.load_xml(document), Ok(b"(ok)\n".to_vec()));
    for line in ["(root school)", "(child (mon (8.15) (lesson (room (R12)))))", "(child (tue))"] {
        assert_eq!(typed.line(line), Ok(b"(ok)\n".to_vec()), "{line}");
    }
    assert!(loaded.state() == typed.state() && loaded.table() == typed.table());
}

#[test]
fn each_refusal_of_a_document_comes_with_its_number_and_changes_nothing() {
    let (school, empty) = (small_school(2), Store::new(2));
    let damaged = Store::from_bytes(Vec::new(), Vec::new());
    let refused = [
        (&damaged, "<a/>".to_string(), Refusal::BadStore),
        (&school, "<a/>".to_string(), Refusal::WrongStage),
        (&empty, "<a><b></a></b>".to_string(), Refusal::NoDocument),
        (&empty, "<a></A>".to_string(), Refusal::NoDocument),
        (&empty, "<a b=\"c\"/>".to_string(), Refusal::NoDocument),
        (&empty, "<a><RESTRICTED/></a>".to_string(), Refusal::BadLabel),
        (&empty, "<a>".repeat(13) + &"</a>".repeat(13), Refusal::TooDeep),
        (&empty, "<a><b/>c</a>".to_string(), Refusal::TableFull),
    ];
    for (store, document, refusal) in refused {
        let mut after = store.clone();
        assert_eq!(after.load_xml(&document), Err(refusal), "{document}");
        assert!(after.state() == store.state() && after.table() == store.table(), "{document}");
    }
    let (mut state, mut table, mut area) = (empty.state().to_vec(), empty.table().to_vec(), [7; 4]);
    assert_eq!(load_xml(&mut state, &mut table, b"<a/>", &mut area), Err(Refusal::AreaShort));
    assert!(state == empty.state() && table == empty.table() && area == [7; 4]);
}

#[test]
fn short_areas_are_refused_and_kept() {
    let (mut state, mut table) = (vec![0; state_bytes()], vec![0; table_bytes(3)]);
    for room in 0..5 {
        let mut area = vec![7; room];
        assert_eq!(line(&mut state, &mut table, b"(subject staff)", &mut area), Err(Refusal::AreaShort));
        assert_eq!(area, vec![7; room]);
    }
    let mut area = [7; 6];
    assert_eq!(line(&mut state, &mut table, b"(subject staff)", &mut area), Ok(5));
    assert_eq!(&area, b"(ok)\n\x07");
}

#[test]
fn bytes_are_taken_over_and_damaged_ones_refused() {
    let school = small_school(9);
    let mut copy = Store::from_bytes(school.state().to_vec(), school.table().to_vec());
    assert_eq!(copy.line(b"(view)"), Ok(b"(root school)\n(child (mon))\n(end 2)\n".to_vec()));
    let mut short = Store::from_bytes(school.state()[1..].to_vec(), school.table().to_vec());
    assert_eq!(short.line(b"(view)"), Err(Refusal::BadStore));
    let mut none = Store::from_bytes(Vec::new(), Vec::new());
    assert_eq!(none.line(b"(view)"), Err(Refusal::BadStore));
}

#[test]
fn the_area_holds_the_longest_view() {
    let label = "x".repeat(24);
    let mut store = Store::new(1000);
    for line in ["(subject staff)", "(rule accept read //* staff)", &format!("(root {label})")] {
        assert_eq!(store.line(line.as_bytes()), Ok(b"(ok)\n".to_vec()));
    }
    for _ in 1..1000 {
        assert_eq!(store.line(format!("(child ({label}))").as_bytes()), Ok(b"(ok)\n".to_vec()));
    }
    assert_eq!(store.line(b"(user staff)"), Ok(b"(ok)\n".to_vec()));
    let view = store.line(b"(view)").expect("the area is long enough");
    assert_eq!(view.len(), 32 + 999 * 35 + 11);
    assert!(view.len() <= area_bytes(1000));
}

#[test]
fn the_smallest_store_has_room_for_a_sheet() {
    let mut store = Store::new(1);
    for line in ["(subject door)", "(rule accept read //* door)", "(root school)", "(user door)"] {
        assert_eq!(store.line(line.as_bytes()), Ok(b"(ok)\n".to_vec()));
    }
    assert_eq!(store.line(b"(sheet R12)").map(|sheet| sheet.len()), Ok(SHEET_BYTES));
}
