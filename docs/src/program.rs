//! The program `timetable`: lines from standard input, answers to standard output (document 01, Lines and What is written).

use std::io::{self, BufWriter, Read, Write};
use timetable::form::LINE_MAXIMUM;
use timetable::{timetable_line, STATE_BYTES};

const RECORDS: usize = 1_024;
const AREA_BYTES: usize = 65_536;
const INPUT_MAXIMUM: u64 = 4_294_967_295;
const CHUNK_BYTES: usize = 65_536;

struct Program<W: Write> {
    state: Vec<u8>,
    table: Vec<u8>,
    area: Vec<u8>,
    line: Vec<u8>, // one byte more than a line may hold tells that it is too long
    output: W,
}

impl<W: Write> Program<W> {
    fn take(&mut self, byte: u8) {
        if self.line.len() <= LINE_MAXIMUM {
            self.line.push(byte);
        }
    }

    fn answer(&mut self) -> io::Result<()> {
        let returned = timetable_line(&mut self.state, &mut self.table, &self.line, &mut self.area);
        self.line.clear();
        if returned < 0 {
            return writeln!(self.output, "(refused {})", -returned);
        }
        self.output.write_all(&self.area[..returned as usize])
    }
}

fn run() -> io::Result<()> {
    let mut program = Program {
        state: vec![0; STATE_BYTES],
        table: vec![0; 4 + 32 * RECORDS],
        area: vec![0; AREA_BYTES],
        line: Vec::new(),
        output: BufWriter::with_capacity(CHUNK_BYTES, io::stdout().lock()),
    };
    let mut input = io::stdin().lock().take(INPUT_MAXIMUM);
    let mut chunk = vec![0; CHUNK_BYTES];
    loop {
        let length = input.read(&mut chunk)?;
        if length == 0 {
            break;
        }
        for byte in &chunk[..length] {
            if *byte == b'\n' {
                program.answer()?;
            } else {
                program.take(*byte);
            }
        }
    }
    if !program.line.is_empty() {
        program.answer()?;
    }
    program.output.flush()
}

/// A closed or failing input or output ends the program quietly.
fn main() {
    let _ = run();
}
