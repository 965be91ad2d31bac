//! The view alone (plain_view.rs) as a shared object, for the benchmark.

timetable::export_line!(timetable::plain_view::timetable_line);
