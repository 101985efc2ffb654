//! What everybody shares who holds something to the second program: the image and the calls of `include/lawqendo.h`, document 01's
//! mornings, scripts, tables, events and states by lot, and tallies of what was met.
//!
//! The second program itself is `reference`, and knows nothing of this. Who uses it: the tests of the second program, the comparison with the archive
//! (`board/tests`), the benchmark (`bench`), and the program `harness`, which writes scripts and counts what they meet.
//!
//! "01" in the comments is document 01, and the words in quotes after it are the heading of the section.

pub mod answers;
pub mod calls;
pub mod draw;
pub mod event;
pub mod generate;
pub mod header;
pub mod image;
pub mod marked;
pub mod rng;
pub mod sets;
pub mod tally;

pub use event::Event;
