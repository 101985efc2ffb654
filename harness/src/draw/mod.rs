//! Tables, states and events by lot, the same for the same seed.
//!
//! `crates/cases/stdin` is recorded by its seed (docs/CASES.md): what [`tables::table`] and [`events::event`] draw, and in which order, is
//! part of that record.

pub mod events;
pub mod states;
pub mod tables;

use reference::check;
use reference::verdict::{common_period, search_end};

/// What the second program's verdict on these words costs, which tries every t: about how many tasks it looks at.
pub fn search_cost(words: &[u32]) -> u64 {
    let Ok(table) = check(words) else {
        return 0;
    };
    common_period(&table).map_or(0, |common| {
        search_end(&table, common) * table.tasks.len() as u64
    })
}
