//! Small functions that several tests use.
#![allow(dead_code)]

use harness::Event;
use reference::{start, Reply, Row, State};

/// A fresh state of a table that passes.
pub fn fresh(words: &[u32]) -> State {
    let (result, state) = start(words);
    assert_eq!(result, Ok(()));
    state
}

/// Gives one event to a state and asks for its reply; hands back the new state.
pub fn after(state: &State, event: Event, wanted: Reply) -> State {
    let (next, reply) = event.on(state);
    assert_eq!(reply, wanted, "{event}");
    next
}

/// The row of a job.
pub fn job(base: u64, active: u64, number: u64, place: u32) -> Row {
    Row {
        base,
        active,
        number,
        place,
        ..Row::default()
    }
}

/// Plays a script and gives its reply lines.
pub fn replies(script: &[u8]) -> Vec<String> {
    let mut output = Vec::new();
    reference::script::play(script, &mut output).expect("writing to a list of bytes");
    let text = String::from_utf8(output).expect("replies are text");
    text.lines().map(str::to_string).collect()
}
