//! The second program: what document 01 asks for, written apart from the dispatcher and in another shape.
//!
//! The dispatcher that ships is small and proved. This one is plain: it takes the table apart into structs,
//! keeps lists, and loops. The two are compared over many scripts; where they differ, one of them is wrong.
//!
//! Every public call has a reply for every input, made-up states included, and none of them panics.
//! "01" in the comments is document 01, and the words in quotes after it are the heading of the section.

pub mod check;
pub mod limits;
pub mod machine;
pub mod script;
pub mod state;
pub mod table;
pub mod torn;
pub mod verdict;

pub use check::{check, Refusal};
pub use machine::{release, running, step, Reply, Turn};
pub use state::{start, Row, State};
pub use table::{Section, Step, Table, Task};
pub use torn::torn;
pub use verdict::{verdict, Verdict};
