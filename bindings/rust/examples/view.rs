//! The small school of document 01, and what the reader SHA sees of it.

use louvretansy::Store;
use std::error::Error;
use std::io::Write;

const SCHOOL: [&str; 10] = [
    "(subject staff)",
    "(subject SHA)",
    "(isa SHA staff)",
    "(rule accept read //* staff)",
    "(rule deny read //note/* staff)",
    "(rule accept position //note/* staff)",
    "(rule accept update //room/* staff)",
    "(root school)",
    "(child (mon (lesson (class (10B)) (room (R12)) (note (ill)))))",
    "(user SHA)",
];

fn main() -> Result<(), Box<dyn Error>> {
    let mut store = Store::new(1024);
    for line in SCHOOL {
        store.line(line)?;
    }
    std::io::stdout().write_all(&store.line("(view)")?)?;
    Ok(())
}
