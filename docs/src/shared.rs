//! The straightforward version as a shared object, to try the testers on a library.

timetable::export_line!(timetable::timetable_line);
timetable::export_call!(timetable_load_xml, timetable::timetable_load_xml);
