//! Events by lot, aimed by the state as it stands, made-up ones included: at ties, at the limits, and at each refusal.

use reference::limits::{END_OF_TIME, ROWS, TASKS};
use reference::state::contains;
use reference::{running, State, Step, Table};

use crate::event::Event;
use crate::rng::Rng;
use crate::sets::BITS;

/// How events follow each other.
#[derive(Clone, Copy)]
pub struct Manner {
    /// How many events out of twenty are releases while somebody is ready: with few, jobs get far in their plans.
    pub eager: u64,
    /// The most ticks that mostly lie between two events: with few, the locks lower the deadlines more.
    pub pace: u64,
}

/// A release or a step. `table` is the state's own.
pub fn event(rng: &mut Rng, manner: Manner, state: &State, table: Option<&Table>) -> Event {
    // Where nobody is ready there is little to step, and where everybody is, little to release.
    let tasks = table.map_or(2, |table| table.tasks.len() as u32);
    let ready = state.ready.count_ones();
    let part = if ready == 0 {
        17
    } else if ready < tasks {
        manner.eager
    } else {
        1
    };
    if rng.chance(part, 20) {
        let task = task(rng, state, table);
        let time = release_time(rng, manner, state, table, task);
        Event::Release { task, time }
    } else {
        let time = step_time(rng, manner, state, table);
        Event::Step { time }
    }
}

/// A task to release: mostly one that has no ready job, sometimes one that has, sometimes no task at all.
pub fn task(rng: &mut Rng, state: &State, table: Option<&Table>) -> u32 {
    let n = table.map_or(3, |table| table.tasks.len() as u32);
    if rng.chance(1, 16) {
        return rng.pick(&[
            n,
            n,
            n + 1,
            TASKS,
            BITS - 1,
            BITS,
            BITS + 1,
            2 * BITS,
            u32::MAX,
        ]);
    }
    let free: Vec<u32> = (0..n)
        .filter(|task| !contains(state.ready, *task))
        .collect();
    // Often the most patient task goes first, so that it gets far in its plan before the others come.
    if let Some(table) = table.filter(|_| state.ready == 0 && rng.chance(1, 2)) {
        let patience = |task: &u32| table.tasks[*task as usize].deadline;
        if let Some(task) = free.iter().copied().max_by_key(patience) {
            return task;
        }
    }
    if free.is_empty() || rng.chance(1, 7) {
        rng.word(0, n - 1)
    } else {
        rng.pick(&free)
    }
}

fn release_time(
    rng: &mut Rng,
    manner: Manner,
    state: &State,
    table: Option<&Table>,
    task: u32,
) -> u64 {
    if let Some(plan) = table.and_then(|table| table.tasks.get(task as usize)) {
        // A tie: the new job's deadline is just that of a ready one.
        if rng.chance(1, 4) {
            if let Some(time) = moment_for(rng, state, u64::from(plan.deadline)) {
                return time;
            }
        }
        // Around the first moment that isn't EARLY any more.
        let last = state.rows[task as usize].last;
        let due = last.saturating_add(u64::from(plan.period));
        if contains(state.had, task) && due > state.clock && rng.chance(1, 3) {
            return rng.pick(&[due - 1, due, due, due, due.saturating_add(1)]);
        }
    }
    time(rng, manner, state)
}

fn step_time(rng: &mut Rng, manner: Manner, state: &State, table: Option<&Table>) -> u64 {
    let runs = table.and_then(|table| Some((table, running(state, table)?)));
    if let Some((table, task)) = runs {
        let row = &state.rows[task];
        match table.tasks[task].next(row.place) {
            // A lock whose lowering ends in a tie.
            Some(Step::Lock(section)) if rng.chance(1, 4) => {
                let floor = table.floor(section.resource).unwrap_or(0);
                if let Some(time) = moment_for(rng, state, u64::from(floor)) {
                    return time;
                }
            }
            // A finish right on time, or a tick to either side.
            None if row.base > state.clock && rng.chance(1, 6) => {
                let later = |ticks: u64| row.base.saturating_add(ticks);
                return rng.pick(&[row.base - 1, row.base, row.base, later(1), later(7)]);
            }
            _ => {}
        }
    }
    time(rng, manner, state)
}

/// A moment from which this many ticks lead to the active deadline of some ready job.
fn moment_for(rng: &mut Rng, state: &State, ticks: u64) -> Option<u64> {
    let moments: Vec<u64> = (0..ROWS)
        .filter(|task| contains(state.ready, *task as u32))
        .filter_map(|task| state.rows[task].active.checked_sub(ticks))
        .filter(|moment| *moment >= state.clock)
        .collect();
    if moments.is_empty() {
        return None;
    }
    Some(rng.pick(&moments))
}

/// A time around the clock, sometimes before it, sometimes at the limits.
fn time(rng: &mut Rng, manner: Manner, state: &State) -> u64 {
    let clock = state.clock;
    let later = |ticks: u64| clock.saturating_add(ticks);
    match rng.between(0, 399) {
        0..=139 => clock,
        140..=349 => later(rng.between(1, manner.pace)),
        350..=357 => later(rng.between(7, 100)),
        358..=360 => later(rng.between(100, 2_000_000)),
        361..=370 => clock.saturating_sub(1),
        371..=376 => rng.between(0, clock),
        377..=378 => 0,
        379..=384 => END_OF_TIME,
        385..=387 => END_OF_TIME + rng.between(1, 2_000_000),
        388..=389 => u64::MAX,
        390 => u64::MAX - rng.between(0, 2_000_000),
        391 => 1 << 63,
        392 => rng.bits(),
        393 => u64::from(u32::MAX) + rng.between(0, 1),
        _ => clock,
    }
}
