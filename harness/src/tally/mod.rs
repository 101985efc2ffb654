//! Counts what is met: by a script, and by a comparison. Each thing has a name, and is counted by it.

mod comparison;
pub mod grounds;
mod script;

use std::collections::BTreeMap;
use std::fmt::{Formatter, Result as Written};

use reference::limits::{name, DEPTH, OF_RELEASE, OF_STEP, OF_TABLE, VERDICTS};
use reference::limits::{FITS, HEAVY, LATE, LONG};
use reference::{running, Reply, Row, State, Step, Table, Turn, Verdict};

use crate::event::Kind;

pub use comparison::ComparisonTally;
pub use script::{tally, ScriptTally};

/// How often each thing was met.
#[derive(Default)]
pub struct Counts(BTreeMap<String, u64>);

impl Counts {
    pub fn add(&mut self, what: impl Into<String>) {
        *self.0.entry(what.into()).or_insert(0) += 1;
    }

    /// How often this was met.
    pub fn of(&self, what: &str) -> u64 {
        self.0.get(what).copied().unwrap_or(0)
    }

    /// A line for each of these names, so that a 0 is seen as well, and then one for whatever else was met.
    fn print(&self, f: &mut Formatter, names: &[String]) -> Written {
        for what in names {
            writeln!(f, "{:8} {what}", self.of(what))?;
        }
        for (what, count) in &self.0 {
            if !names.contains(what) {
                writeln!(f, "{count:8} {what}")?;
            }
        }
        Ok(())
    }

    /// Counts an event by its reply, and what is special about where it led.
    fn event(&mut self, kind: Kind, before: &State, reply: &Reply, after: &State) {
        let turn = match reply {
            Reply::Refused(number) => return self.add(refused(kind, *number)),
            Reply::WentOn(turn) | Reply::Finished(_, turn) => turn,
        };
        let Some(table) = before.table() else {
            return self.add("accepted without a table");
        };
        self.add(match (kind, reply) {
            (_, Reply::Finished(lateness, _)) => finish(*lateness, *turn != Turn::Idle),
            _ if *turn == Turn::Idle => format!("{kind}: idle"),
            (Kind::Release, _) => RELEASED.to_string(),
            (Kind::Step, _) => went_on(before, &table),
        });
        let rows = || before.rows.iter().zip(&after.rows);
        let stepped = |(old, new): &(&Row, &Row)| Some(new.place) == old.place.checked_add(1);
        if rows()
            .filter(stepped)
            .any(|(old, new)| new.active < old.active)
        {
            self.add(LOWERS);
        }
        if rows()
            .filter(stepped)
            .any(|(old, new)| new.active > old.active && new.active < new.base)
        {
            self.add(KEEPS);
        }
        self.turn(after, &table);
    }

    /// Counts what is special about who runs in a state. An event leaves the table as it is.
    fn turn(&mut self, state: &State, table: &Table) {
        let Some(first) = running(state, table) else {
            return;
        };
        let runs = &state.rows[first];
        let mut others = state.ready_tasks(table.tasks.len());
        others.retain(|task| *task != first);
        if others
            .iter()
            .any(|task| state.rows[*task].active == runs.active)
        {
            self.add(TIE);
        }
        // Before the running job in the order by base deadline and then release.
        let before = |row: &Row| (row.base, row.number) < (runs.base, runs.number);
        if others.iter().any(|task| before(&state.rows[*task])) {
            self.add(BLOCKED);
        }
    }
}

const RELEASED: &str = "release: runs";
const LOWERS: &str = "step: lock that lowers the deadline";
const KEEPS: &str = "step: unlock that keeps an outer lowering";
const TIE: &str = "turn: decided by a tie";
const BLOCKED: &str = "turn: somebody is blocked";

fn refused(call: impl std::fmt::Display, number: u32) -> String {
    format!("{call}: refused {number:2} {}", name(number))
}

fn finish(lateness: i64, runs: bool) -> String {
    let sign = match lateness.signum() {
        -1 => "early",
        0 => "on time",
        _ => "late",
    };
    format!(
        "step: finish {sign}, {}",
        if runs { "runs" } else { "idle" }
    )
}

fn lock(section: usize) -> String {
    format!("step: lock, section {section}")
}

fn unlock(section: usize) -> String {
    format!("step: unlock, section {section}")
}

/// Which step the running job of this state does, with the number of sections it holds while in it.
fn went_on(before: &State, table: &Table) -> String {
    let step = running(before, table).map(|task| (&table.tasks[task], before.rows[task].place));
    let step = step.map(|(plan, place)| (plan.next(place), plan.held(place).len()));
    match step {
        Some((Some(Step::Lock(_)), held)) => lock(held + 1),
        Some((Some(Step::Unlock), held)) => unlock(held),
        _ => "step: went on".to_string(),
    }
}

fn judged(number: u32) -> String {
    format!("verdict: {number} {}", name(number))
}

/// The number of a verdict on a sound table.
fn number(verdict: &Verdict) -> Option<u32> {
    match verdict {
        Verdict::Refused(_) => None,
        Verdict::Fits => Some(FITS),
        Verdict::Late(_) => Some(LATE),
        Verdict::Heavy => Some(HEAVY),
        Verdict::Long => Some(LONG),
    }
}

/// The refusals of a call on a table.
fn table_names(call: &str) -> Vec<String> {
    OF_TABLE.map(|number| refused(call, number)).to_vec()
}

fn verdict_names() -> Vec<String> {
    VERDICTS.map(judged).to_vec()
}

/// Everything that [`Counts::event`] names, in the order in which it is printed.
fn event_names() -> Vec<String> {
    let mut names = vec![RELEASED.to_string()];
    names.extend(OF_RELEASE.map(|number| refused(Kind::Release, number)));
    names.extend((1..=DEPTH).map(lock));
    names.push(LOWERS.to_string());
    names.extend((1..=DEPTH).map(unlock));
    names.push(KEEPS.to_string());
    for lateness in [-1, 0, 1] {
        names.extend([true, false].map(|runs| finish(lateness, runs)));
    }
    names.extend(OF_STEP.map(|number| refused(Kind::Step, number)));
    names.extend([TIE, BLOCKED].map(str::to_string));
    names
}
