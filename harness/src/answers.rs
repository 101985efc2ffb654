//! The numbers of an answer, as `include/lawqendo.h` lists them, filled from the second program's replies.

use reference::limits::{name, FITS, HEAVY, LATE, LONG};
use reference::{Refusal, Reply, Turn, Verdict};

/// Where each number of an answer stands, and how many they are.
pub const NUMBER: usize = 0;
pub const VALUE: usize = 1;
pub const RUNS: usize = 2;
pub const TASK: usize = 3;
pub const DEADLINE: usize = 4;
pub const ANSWER: usize = 5;

pub type Answer = [u64; ANSWER];

/// The number of an answer that refuses nothing.
pub const ACCEPTED: u64 = 0;
/// The number of an accepted step by which a job has finished.
pub const FINISHED: u64 = 64;

/// An answer that names nobody.
pub fn plain(number: u64, value: u64) -> Answer {
    let mut answer = [0; ANSWER];
    answer[NUMBER] = number;
    answer[VALUE] = value;
    answer
}

/// An answer that names who runs.
pub fn runs(number: u64, value: u64, task: u64, deadline: u64) -> Answer {
    let mut answer = plain(number, value);
    answer[RUNS] = 1;
    answer[TASK] = task;
    answer[DEADLINE] = deadline;
    answer
}

fn refused(refusal: &Refusal) -> Answer {
    plain(u64::from(refusal.number), refusal.place as u64)
}

/// The answer of a check, and of a start.
pub fn of_check<A>(found: &Result<A, Refusal>) -> Answer {
    match found {
        Ok(_) => plain(ACCEPTED, 0),
        Err(refusal) => refused(refusal),
    }
}

/// The answer of an event.
pub fn of_event(reply: &Reply) -> Answer {
    match reply {
        Reply::Refused(number) => plain(u64::from(*number), 0),
        Reply::WentOn(turn) => with_turn(ACCEPTED, 0, turn),
        // A lateness has a sign, and C reads it by a cast.
        Reply::Finished(lateness, turn) => with_turn(FINISHED, *lateness as u64, turn),
    }
}

fn with_turn(number: u64, value: u64, turn: &Turn) -> Answer {
    match turn {
        Turn::Runs { task, active } => runs(number, value, u64::from(*task), *active),
        Turn::Idle => plain(number, value),
    }
}

/// The answer of a verdict.
pub fn of_verdict(verdict: &Verdict) -> Answer {
    match verdict {
        Verdict::Refused(refusal) => refused(refusal),
        Verdict::Fits => plain(u64::from(FITS), 0),
        Verdict::Late(t) => plain(u64::from(LATE), *t),
        Verdict::Heavy => plain(u64::from(HEAVY), 0),
        Verdict::Long => plain(u64::from(LONG), 0),
    }
}

/// Has the event been accepted?
pub fn is_accepted(answer: &Answer) -> bool {
    matches!(answer[NUMBER], ACCEPTED | FINISHED)
}

/// An answer with its number's name, for a person to read.
pub fn as_text(answer: &Answer) -> String {
    let said = match answer[NUMBER] {
        ACCEPTED => "accepted",
        FINISHED => "finished",
        number => u32::try_from(number).map_or("UNKNOWN", name),
    };
    let value = if answer[NUMBER] == FINISHED {
        format!("lateness {}", answer[VALUE] as i64)
    } else {
        format!("value {}", answer[VALUE])
    };
    let turn = match answer[RUNS] {
        0 => "nobody named",
        1 => "runs",
        _ => "UNKNOWN",
    };
    format!(
        "{answer:?} ({said}, {value}, {turn} {} {})",
        answer[TASK], answer[DEADLINE]
    )
}
