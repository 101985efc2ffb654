//! The dispatcher's state, and the start that makes one from a checked table.

use crate::check::{check, Refusal};
use crate::limits::{DEPTH, ROOM, ROWS};
use crate::table::Table;

/// Everything that the dispatcher remembers. Every combination of values is a legal input of an event:
/// one that no start leads to is a made-up state, and it has a reply too.
#[derive(Clone, PartialEq, Eq, Debug)]
pub struct State {
    /// Room for the longest table, always all of it. The words behind `length` aren't read.
    pub words: Vec<u32>,
    /// How many of the words are the table.
    pub length: u64,
    pub clock: u64,
    /// How many releases were accepted.
    pub count: u64,
    /// The set of tasks that have a ready job: a bit for each member.
    pub ready: u32,
    /// The set of tasks that have had a release.
    pub had: u32,
    /// One row for each task that a table can have.
    pub rows: [Row; ROWS],
}

/// What is remembered about one task and its job.
#[derive(Clone, PartialEq, Eq, Debug, Default)]
pub struct Row {
    /// The job's base deadline.
    pub base: u64,
    /// The job's active deadline.
    pub active: u64,
    /// The job's release number: the count of accepted releases before its own.
    pub number: u64,
    /// How many steps of its plan the job has done.
    pub place: u32,
    /// The active deadlines from before each lock that is still held, the outermost first; 0 where none is.
    pub saved: [u64; DEPTH],
    /// The time of the task's last accepted release.
    pub last: u64,
}

/// Is this member in the set? (01, "The words of a table": one unsigned number with a bit for each member.)
pub fn contains(set: u32, member: u32) -> bool {
    member < 32 && (set >> member) & 1 == 1
}

impl State {
    /// The state whose numbers are all zero. Its table is the empty list, so every event on it is TORN.
    pub fn zero() -> State {
        State {
            words: vec![0; ROOM],
            length: 0,
            clock: 0,
            count: 0,
            ready: 0,
            had: 0,
            rows: Default::default(),
        }
    }

    /// The state's own table, or none if it would not pass the check. A length above the room is no table:
    /// no list that long passes.
    pub fn table(&self) -> Option<Table> {
        let length = usize::try_from(self.length).ok()?;
        if length > ROOM {
            return None;
        }
        check(self.words.get(..length)?).ok()
    }

    /// The tasks that have a ready job, by rising number. `tasks` is n.
    pub fn ready_tasks(&self, tasks: usize) -> Vec<usize> {
        (0..tasks.min(ROWS))
            .filter(|task| contains(self.ready, *task as u32))
            .collect()
    }
}

/// Makes a fresh state from the lent words: clock 0, no jobs and no releases. A refused start gives the
/// refusal and the state whose numbers are all zero (01, "When the table check says no").
pub fn start(words: &[u32]) -> (Result<(), Refusal>, State) {
    let mut state = State::zero();
    if let Err(refusal) = check(words) {
        return (Err(refusal), state);
    }
    for (room, word) in state.words.iter_mut().zip(words) {
        *room = *word;
    }
    state.length = words.len() as u64;
    (Ok(()), state)
}
