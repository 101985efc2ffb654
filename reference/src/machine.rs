//! The two events and who runs (01, "The machine's rules" and "When an event is turned away").

use crate::limits::{ACTIVE, BACK, DEPTH, EARLY, END, END_OF_TIME, HELD, NOBODY, TORN};
use crate::state::{contains, Row, State};
use crate::table::{Step, Table};
use crate::torn::whole;

/// Who runs after an accepted event.
#[derive(Clone, Copy, PartialEq, Eq, Debug)]
pub enum Turn {
    /// "runs" with task number and active deadline.
    Runs { task: u32, active: u64 },
    /// Nobody is ready.
    Idle,
}

/// The reply to an event.
#[derive(Clone, Copy, PartialEq, Eq, Debug)]
pub enum Reply {
    /// Turned away with this number, 6 to 12.
    Refused(u32),
    /// A release, a lock or an unlock was accepted.
    WentOn(Turn),
    /// A finish was accepted: its lateness, which is time minus base deadline with its sign, and who runs.
    Finished(i64, Turn),
}

/// A release of a task at a time.
pub fn release(state: &State, task: u32, time: u64) -> (State, Reply) {
    match try_release(state, task, time) {
        Ok(accepted) => accepted,
        // A refused event hands the state back equal, clock included.
        Err(number) => (state.clone(), Reply::Refused(number)),
    }
}

/// The running job's next step at a time.
pub fn step(state: &State, time: u64) -> (State, Reply) {
    match try_step(state, time) {
        Ok(accepted) => accepted,
        Err(number) => (state.clone(), Reply::Refused(number)),
    }
}

fn try_release(state: &State, task: u32, time: u64) -> Result<(State, Reply), u32> {
    let table = whole(state).ok_or(TORN)?;
    judge_time(state, time)?;
    let index = task as usize;
    let Some(plan) = table.tasks.get(index) else {
        return Err(NOBODY);
    };
    if contains(state.ready, task) {
        return Err(ACTIVE);
    }
    let last = state.rows[index].last;
    if contains(state.had, task) && time < last.saturating_add(u64::from(plan.period)) {
        return Err(EARLY);
    }

    // Base deadline t + D, and the active deadline starts equal to it.
    let deadline = time + u64::from(plan.deadline);
    let mut after = state.clone();
    after.clock = time;
    after.count = state.count + 1;
    after.ready |= 1 << task;
    after.had |= 1 << task;
    after.rows[index] = Row {
        base: deadline,
        active: deadline,
        number: state.count,
        place: 0,
        saved: [0; DEPTH],
        last: time,
    };
    let turn = turn(&after, &table);
    Ok((after, Reply::WentOn(turn)))
}

fn try_step(state: &State, time: u64) -> Result<(State, Reply), u32> {
    let table = whole(state).ok_or(TORN)?;
    judge_time(state, time)?;
    let Some(index) = running(state, &table) else {
        return Err(NOBODY);
    };
    let plan = &table.tasks[index];
    let row = &state.rows[index];
    // The depth is how many sections the job holds; the saved deadline of the k-th lies in slot k.
    let depth = plan.held(row.place).len();
    let mut after = state.clone();
    after.clock = time;
    let job = &mut after.rows[index];
    match plan.next(row.place) {
        Some(Step::Lock(section)) => {
            if held_by_another(state, &table, index, section.resource) {
                return Err(HELD);
            }
            // A lock at time t: the smaller of the present value and t + floor.
            let floor = table.floor(section.resource).unwrap_or(0);
            if let Some(slot) = job.saved.get_mut(depth) {
                *slot = row.active;
            }
            job.active = row.active.min(time + u64::from(floor));
            job.place = row.place + 1;
        }
        Some(Step::Unlock) => {
            // The unlock brings back the value from before that lock.
            if let Some(slot) = depth.checked_sub(1).and_then(|k| job.saved.get_mut(k)) {
                job.active = *slot;
                *slot = 0;
            }
            job.place = row.place + 1;
        }
        None => {
            // A finish sets the job's numbers to zero, all but the task's last release.
            let lateness = time as i64 - row.base as i64;
            *job = Row {
                last: row.last,
                ..Row::default()
            };
            after.ready &= !(1 << index);
            let turn = turn(&after, &table);
            return Ok((after, Reply::Finished(lateness, turn)));
        }
    }
    let turn = turn(&after, &table);
    Ok((after, Reply::WentOn(turn)))
}

/// BACK and END, in this order; both events judge them alike.
fn judge_time(state: &State, time: u64) -> Result<(), u32> {
    if time < state.clock {
        return Err(BACK);
    }
    if time >= END_OF_TIME {
        return Err(END);
    }
    Ok(())
}

/// The task of the running job: the ready one with the earliest active deadline, and among equals the one
/// whose release was accepted first.
pub fn running(state: &State, table: &Table) -> Option<usize> {
    let mut best: Option<usize> = None;
    for task in state.ready_tasks(table.tasks.len()) {
        let better = match best {
            None => true,
            Some(other) => {
                let mine = &state.rows[task];
                let its = &state.rows[other];
                (mine.active, mine.number) < (its.active, its.number)
            }
        };
        if better {
            best = Some(task);
        }
    }
    best
}

/// Who runs, as a reply says it.
fn turn(state: &State, table: &Table) -> Turn {
    match running(state, table) {
        Some(task) => Turn::Runs {
            task: task as u32,
            active: state.rows[task].active,
        },
        None => Turn::Idle,
    }
}

/// Does another ready job hold the resource? What a job holds is read from its plan and place.
fn held_by_another(state: &State, table: &Table, index: usize, resource: u32) -> bool {
    state
        .ready_tasks(table.tasks.len())
        .into_iter()
        .filter(|other| *other != index)
        .any(|other| {
            table.tasks[other]
                .held(state.rows[other].place)
                .iter()
                .any(|section| section.resource == resource)
        })
}
