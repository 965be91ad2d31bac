//! What the testers share: random numbers, random policies, trees, lines and documents, the engines under test, and the command line.

pub mod documents;
pub mod engine;
pub mod generate;
pub mod lent;
pub mod options;
pub mod random;
pub mod sessions;
pub mod sheets;
