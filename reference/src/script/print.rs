//! The exact texts of the reply lines.

use std::fmt::{Display, Formatter, Result as Written};

use super::parse::Fault;
use super::play::Answer;
use crate::check::Refusal;
use crate::limits::{name, FITS, HEAVY, LATE, LONG};
use crate::machine::{Reply, Turn};
use crate::state::State;
use crate::table::Step;
use crate::verdict::Verdict;

impl Display for Refusal {
    fn fmt(&self, f: &mut Formatter) -> Written {
        write!(
            f,
            "refused {} {} at {}",
            self.number,
            name(self.number),
            self.place
        )
    }
}

impl Display for Turn {
    fn fmt(&self, f: &mut Formatter) -> Written {
        match self {
            Turn::Runs { task, active } => write!(f, "runs {task}, {active}"),
            Turn::Idle => write!(f, "idle"),
        }
    }
}

impl Display for Reply {
    fn fmt(&self, f: &mut Formatter) -> Written {
        match self {
            Reply::Refused(number) => write!(f, "refused {number} {}", name(*number)),
            Reply::WentOn(turn) => write!(f, "{turn}"),
            Reply::Finished(lateness, turn) => write!(f, "lateness {lateness}; {turn}"),
        }
    }
}

impl Display for Verdict {
    fn fmt(&self, f: &mut Formatter) -> Written {
        match self {
            Verdict::Refused(refusal) => write!(f, "{refusal}"),
            Verdict::Fits => write!(f, "{FITS} {}", name(FITS)),
            Verdict::Late(t) => write!(f, "{LATE} {} {t}", name(LATE)),
            Verdict::Heavy => write!(f, "{HEAVY} {}", name(HEAVY)),
            Verdict::Long => write!(f, "{LONG} {}", name(LONG)),
        }
    }
}

impl Display for Fault {
    fn fmt(&self, f: &mut Formatter) -> Written {
        f.write_str(match self {
            Fault::UnknownWord => "unknown word",
            Fault::NumberMissing => "number missing",
            Fault::MalformedNumber => "malformed number",
            Fault::NumberTooLarge => "number too large",
            Fault::SomethingLeftOver => "something left over",
            Fault::LineTooLong => "line too long",
        })
    }
}

impl Answer {
    /// The reply lines of this answer, without line feeds. Only `show` can have more than one.
    pub fn lines(&self) -> Vec<String> {
        match self {
            Answer::Skipped | Answer::Lent => Vec::new(),
            Answer::Checked(Ok(())) => vec!["sound".to_string()],
            Answer::Started(Ok(())) => vec!["started".to_string()],
            Answer::Checked(Err(refusal)) | Answer::Started(Err(refusal)) => {
                vec![refusal.to_string()]
            }
            Answer::Released(reply) | Answer::Stepped(reply) => vec![reply.to_string()],
            Answer::Judged(verdict) => vec![verdict.to_string()],
            Answer::Shown(state) => show(state),
            Answer::Bad(line, fault) => vec![format!("line {line}: {fault}")],
        }
    }
}

/// The state for a person: the clock, then a line for each ready job by rising task number.
/// A state whose table doesn't pass the check has no plans to read, so it shows its clock alone.
pub fn show(state: &State) -> Vec<String> {
    let mut lines = vec![format!("clock {}", state.clock)];
    let Some(table) = state.table() else {
        return lines;
    };
    for index in state.ready_tasks(table.tasks.len()) {
        let row = &state.rows[index];
        let plan = &table.tasks[index];
        let held = plan.held(row.place);
        let mut resources: Vec<u32> = held.iter().map(|section| section.resource).collect();
        resources.sort_unstable();
        let holds = if resources.is_empty() {
            "nothing".to_string()
        } else {
            let texts: Vec<String> = resources.iter().map(u32::to_string).collect();
            texts.join(" ")
        };
        let next = match plan.next(row.place) {
            Some(Step::Lock(section)) => format!("lock {}", section.resource),
            Some(Step::Unlock) => match held.last() {
                Some(innermost) => format!("unlock {}", innermost.resource),
                None => "unlock".to_string(),
            },
            None => "finish".to_string(),
        };
        lines.push(format!(
            "task {index}: base {}, active {}, release {}, holds {holds}, next {next}",
            row.base, row.active, row.number
        ));
    }
    lines
}
