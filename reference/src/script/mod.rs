//! The script: how a person talks to the dispatcher. docs/SCRIPT.md describes the language.

pub mod parse;
pub mod play;
pub mod print;

pub use parse::{parse, Command, Fault, LINE_ROOM};
pub use play::{play, Answer, LineReader, Player};
