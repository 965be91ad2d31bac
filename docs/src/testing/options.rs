//! The command line of the testers.

use crate::testing::engine::{wrong_engine, Engine, Library};

pub const DEFAULT_SEED: u64 = 20_261_115;

/// What is asked of a tester.
pub struct Options {
    pub seed: u64,
    pub lines: usize,
    pub engine: Box<dyn Engine>,
    pub self_test: bool,
}

impl Options {
    /// The options that the command line gives; none, and why, where it is not understood.
    pub fn read(usage: &str, lines: usize, engine: Box<dyn Engine>) -> Option<Options> {
        let mut options = Options { seed: DEFAULT_SEED, lines, engine, self_test: false };
        let mut arguments = std::env::args().skip(1);
        while let Some(argument) = arguments.next() {
            if !options.take(&argument, &mut arguments) {
                eprintln!("{usage}");
                return None;
            }
        }
        println!("seed {}", options.seed);
        Some(options)
    }

    fn take(&mut self, argument: &str, rest: &mut dyn Iterator<Item = String>) -> bool {
        if argument == "--self-test" {
            self.self_test = true;
            return true;
        }
        let value = rest.next().unwrap_or_default();
        match argument {
            "--seed" => value.parse().map(|number| self.seed = number).is_ok(),
            "--lines" => value.parse().map(|number| self.lines = number).is_ok(),
            "--wrong" => wrong_engine(&value).map(|engine| self.engine = engine).is_some(),
            "--library" => Library::open(&value).map(|library| self.engine = Box::new(library)).map_err(|error| eprintln!("{value}: {error}")).is_ok(),
            _ => false,
        }
    }
}
