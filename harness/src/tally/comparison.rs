//! What a comparison has met, and what it met too rarely.

use std::fmt::{Display, Formatter, Result as Written};

use reference::limits::{COUNT_LIMIT, DEPTH, END_OF_TIME, ROOM, ROWS, STORED_TIME, TORN};
use reference::state::contains;
use reference::{Refusal, Reply, State, Table, Turn, Verdict};

use super::grounds::{self, CheckGround, Crowding, TornGround};
use super::{event_names, judged, number, verdict_names, Counts};
use crate::event::Event;
use crate::sets::all_below;

#[derive(Default)]
pub struct ComparisonTally {
    counts: Counts,
    pub events: u64,
}

const SOUND: &str = "check: sound";
const SEVERAL: &str = "TORN on several grounds at once";
const HIGHER: &str = "turn: a tie that a higher task number wins";
const WIDE: &str = "image: a number too large for its field";
const WIDE_ACCEPTED: &str = "image: accepted with a number too large for its field";

impl ComparisonTally {
    /// Counts an event, its reply and what is special about it. `wide` says whether its image has a number that is too large for its field.
    pub fn event(
        &mut self,
        event: Event,
        wide: bool,
        before: &State,
        reply: &Reply,
        after: &State,
    ) {
        self.events += 1;
        self.counts.event(event.kind(), before, reply, after);
        if wide {
            self.counts.add(WIDE);
        }
        let table = before.table();
        match (reply, table) {
            (Reply::Refused(TORN), table) => {
                // A ground that stands alone decides by itself: it is the one that is tried.
                self.counts
                    .add(match TornGround::met(before, table.as_ref())[..] {
                        [ground] => torn(ground),
                        _ => SEVERAL.to_string(),
                    });
            }
            (Reply::Refused(_), _) | (_, None) => {}
            (Reply::WentOn(turn) | Reply::Finished(_, turn), Some(table)) => {
                self.accepted(&table, before, event.time());
                if wide {
                    self.counts.add(WIDE_ACCEPTED);
                }
                if ties_with_a_lower_task(after, turn) {
                    self.counts.add(HIGHER);
                }
            }
        }
    }

    /// Accepted, and at the last value that a ground of a refusal still allows.
    fn accepted(&mut self, table: &Table, before: &State, time: u64) {
        let at = Accepted {
            before,
            time,
            table,
            ready: before.ready_tasks(table.tasks.len()),
        };
        for (what, is_met) in EDGES {
            if is_met(&at) {
                self.counts.add(edge(what));
            }
        }
    }

    pub fn check(&mut self, words: &[u32], found: &Result<(), Refusal>) {
        self.counts.add(match found {
            Ok(()) => SOUND.to_string(),
            Err(refusal) => check(CheckGround::of(words, *refusal)),
        });
        if let Some(crowding) = found.err().and_then(|it| Crowding::of(words, it)) {
            self.counts.add(check(crowding));
        }
        let tasks = reference::check(words).map_or(Vec::new(), |table| table.tasks);
        for around in tasks.iter().flat_map(grounds::filled) {
            self.counts.add(filled(around));
        }
    }

    pub fn verdict(&mut self, words: &[u32], verdict: &Verdict) {
        self.counts.add(match (verdict, number(verdict)) {
            (Verdict::Refused(refusal), _) => {
                format!("verdict: {}", CheckGround::of(words, *refusal))
            }
            (_, number) => judged(number.unwrap_or(0)),
        });
    }

    /// What was met less often than this.
    pub fn rarer_than(&self, least: u64) -> Vec<String> {
        let mut names = all_names();
        names.retain(|what| self.counts.of(what) < least);
        names
    }
}

/// An accepted event: the state before it, its time, the state's table and ready tasks.
struct Accepted<'a> {
    before: &'a State,
    time: u64,
    table: &'a Table,
    ready: Vec<usize>,
}

type Edge = (&'static str, fn(&Accepted) -> bool);

const EDGES: [Edge; 15] = [
    ("clock 2^40 - 1", |at| at.before.clock == END_OF_TIME - 1),
    ("time 2^40 - 1", |at| at.time == END_OF_TIME - 1),
    ("time right at the clock", |at| at.time == at.before.clock),
    ("count 2^44", |at| at.before.count == COUNT_LIMIT),
    ("base at the limit", |at| {
        at.before.rows.iter().any(|row| row.base == STORED_TIME)
    }),
    ("active at the limit", |at| {
        at.before.rows.iter().any(|row| row.active == STORED_TIME)
    }),
    ("saved at the limit", |at| {
        let rows = &at.before.rows;
        rows.iter().any(|row| row.saved.contains(&STORED_TIME))
    }),
    ("last at the limit", |at| {
        at.before.rows.iter().any(|row| row.last == STORED_TIME)
    }),
    ("last right at the clock", |at| {
        let had = |task: &usize| contains(at.before.had, *task as u32);
        let last = |task: usize| at.before.rows[task].last;
        (0..at.table.tasks.len())
            .filter(had)
            .any(|task| last(task) == at.before.clock)
    }),
    ("number right below the count", |at| {
        let number = |task: &usize| at.before.rows[*task].number;
        at.ready
            .iter()
            .any(|task| number(task) + 1 == at.before.count)
    }),
    ("place at the plan's end", |at| {
        let place = |task: &usize| at.before.rows[*task].place;
        at.ready
            .iter()
            .any(|task| at.table.tasks[*task].next(place(task)).is_none())
    }),
    ("had bits at n and above", |at| {
        at.before.had & !all_below(at.table.tasks.len()) != 0
    }),
    ("the most tasks", |at| at.table.tasks.len() == ROWS),
    ("the longest table", |at| at.before.length == ROOM as u64),
    ("the most ready jobs", |at| at.ready.len() == ROWS),
];

/// Has another ready job the running one's deadline, and a lower task number?
fn ties_with_a_lower_task(after: &State, turn: &Turn) -> bool {
    match turn {
        Turn::Runs { task, active } => after
            .ready_tasks(*task as usize)
            .into_iter()
            .any(|other| after.rows[other].active == *active),
        Turn::Idle => false,
    }
}

fn torn(ground: TornGround) -> String {
    format!("TORN by this alone: {ground}")
}

fn check(ground: impl Display) -> String {
    format!("check: {ground}")
}

fn filled(around: usize) -> String {
    match around {
        0 => "check: sections fill C to the last tick".to_string(),
        _ => format!("check: sections fill one at depth {around} to the last tick"),
    }
}

fn edge(what: &str) -> String {
    format!("accepted with {what}")
}

/// Everything that has to be met often.
fn all_names() -> Vec<String> {
    let mut names = event_names();
    names.push(HIGHER.to_string());
    names.extend(TornGround::all().into_iter().map(torn));
    names.extend(EDGES.map(|(what, _)| edge(what)));
    names.extend([WIDE, WIDE_ACCEPTED, SOUND].map(str::to_string));
    names.extend(CheckGround::all().into_iter().map(check));
    names.extend(Crowding::ALL.map(check));
    names.extend((0..DEPTH).map(filled));
    names.extend(verdict_names());
    names
}

impl Display for ComparisonTally {
    fn fmt(&self, f: &mut Formatter) -> Written {
        writeln!(f, "{:8} events", self.events)?;
        self.counts.print(f, &all_names())
    }
}
