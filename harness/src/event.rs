//! An event on a state.

use std::fmt::{Display, Formatter, Result as Written};

use reference::{Reply, State};

#[derive(Clone, Copy, PartialEq, Eq, Debug)]
pub enum Event {
    Release { task: u32, time: u64 },
    Step { time: u64 },
}

impl Event {
    /// What the second program makes of it: the state that it hands back, and the reply.
    pub fn on(self, state: &State) -> (State, Reply) {
        match self {
            Event::Release { task, time } => reference::release(state, task, time),
            Event::Step { time } => reference::step(state, time),
        }
    }

    pub fn time(self) -> u64 {
        match self {
            Event::Release { time, .. } | Event::Step { time } => time,
        }
    }

    /// Which of the two it is, as a script says it.
    pub fn kind(self) -> Kind {
        match self {
            Event::Release { .. } => Kind::Release,
            Event::Step { .. } => Kind::Step,
        }
    }
}

#[derive(Clone, Copy, PartialEq, Eq, Debug)]
pub enum Kind {
    Release,
    Step,
}

impl Display for Kind {
    fn fmt(&self, f: &mut Formatter) -> Written {
        f.write_str(match self {
            Kind::Release => "release",
            Kind::Step => "step",
        })
    }
}

/// As a script writes it.
impl Display for Event {
    fn fmt(&self, f: &mut Formatter) -> Written {
        match self {
            Event::Release { task, time } => write!(f, "release {task} at {time}"),
            Event::Step { time } => write!(f, "step at {time}"),
        }
    }
}

/// A release, in short.
pub fn release(task: u32, time: u64) -> Event {
    Event::Release { task, time }
}

/// A step, in short.
pub fn step(time: u64) -> Event {
    Event::Step { time }
}
