//! When a state is torn (01, "When an event is turned away", below the table).

use crate::limits::{COUNT_LIMIT, END_OF_TIME, STORED_TIME};
use crate::state::{contains, Row, State};
use crate::table::Table;

/// The state's table if the state is whole; none if it is torn.
pub fn whole(state: &State) -> Option<Table> {
    // Its table would not pass the check.
    let table = state.table()?;
    let grounds = [
        clock_past_the_end(state),
        ready_without_task(state, &table),
        place_past_the_plan(state, &table),
        stored_time_too_far(state),
        release_after_the_clock(state, &table),
        too_many_releases(state),
        release_number_twice(state, &table),
        release_number_not_given_yet(state, &table),
    ];
    if grounds.contains(&true) {
        return None;
    }
    Some(table)
}

/// Is the state torn?
pub fn torn(state: &State) -> bool {
    whole(state).is_none()
}

/// Its clock is 2^40 or more.
fn clock_past_the_end(state: &State) -> bool {
    state.clock >= END_OF_TIME
}

/// A job counts as ready whose task is not below n. A set has 32 bits, and each of them is asked.
fn ready_without_task(state: &State, table: &Table) -> bool {
    (0..32).any(|task| contains(state.ready, task) && task as usize >= table.tasks.len())
}

/// A ready job's place is past its plan's end. The place right at the end is the finish.
fn place_past_the_plan(state: &State, table: &Table) -> bool {
    ready_rows(state, table)
        .iter()
        .any(|(task, row)| row.place as usize > table.tasks[*task].steps.len())
}

/// A stored time is above 2^40 + 1,000,000, in every row, used or not.
fn stored_time_too_far(state: &State) -> bool {
    state.rows.iter().any(|row| {
        row.base > STORED_TIME
            || row.active > STORED_TIME
            || row.saved.iter().any(|time| *time > STORED_TIME)
            || row.last > STORED_TIME
    })
}

/// A task's last release is after the clock, for tasks below n that have had a release.
fn release_after_the_clock(state: &State, table: &Table) -> bool {
    (0..table.tasks.len())
        .any(|task| contains(state.had, task as u32) && state.rows[task].last > state.clock)
}

/// Its count of accepted releases is above 2^44.
fn too_many_releases(state: &State) -> bool {
    state.count > COUNT_LIMIT
}

/// Two ready jobs have the same release number.
fn release_number_twice(state: &State, table: &Table) -> bool {
    let rows = ready_rows(state, table);
    rows.iter().any(|(task, row)| {
        rows.iter()
            .any(|(other, its)| other != task && its.number == row.number)
    })
}

/// A ready job has a release number that is not below the count.
fn release_number_not_given_yet(state: &State, table: &Table) -> bool {
    ready_rows(state, table)
        .iter()
        .any(|(_, row)| row.number >= state.count)
}

/// The rows of the ready jobs whose task is below n.
fn ready_rows<'a>(state: &'a State, table: &Table) -> Vec<(usize, &'a Row)> {
    state
        .ready_tasks(table.tasks.len())
        .into_iter()
        .map(|task| (task, &state.rows[task]))
        .collect()
}
