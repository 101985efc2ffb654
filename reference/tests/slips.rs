//! The four slips that document 01 has seen drawn on the whiteboard: each would answer otherwise here.

mod common;

use common::{after, fresh};
use harness::event::{release, step};
use harness::marked::{finished, finished_idle, runs, TABLE_A, TABLE_M12};

#[test]
fn ties_go_by_release_and_not_by_task_number() {
    let state = fresh(&TABLE_M12);
    let state = after(&state, release(1, 0), runs(1, 30));
    let state = after(&state, step(1), runs(1, 21));
    // With task numbers this would say runs 0, 21.
    after(&state, release(0, 1), runs(1, 21));
}

#[test]
fn an_unlock_goes_back_to_the_value_before_its_lock() {
    // Task 0 is the patient one, with resource 1 inside resource 0; task 1 (D 30) uses 0, task 2 (D 8) uses 1.
    let words = [
        3, 2, //
        500, 100, 9, 4, 1, 0, 6, 1, 1, 2, 2, 0, 0, 2, 0, 0, //
        500, 30, 2, 2, 1, 0, 1, 2, 0, 0, //
        500, 8, 2, 2, 1, 1, 1, 2, 0, 0,
    ];
    let state = fresh(&words);
    let state = after(&state, release(0, 0), runs(0, 100));
    let state = after(&state, step(1), runs(0, 31));
    let state = after(&state, step(2), runs(0, 10));
    assert_eq!(state.rows[0].saved, [100, 31, 0, 0]);
    // The base deadline would be 100 here.
    let state = after(&state, step(3), runs(0, 31));
    assert_eq!(state.rows[0].saved, [100, 0, 0, 0]);
    let state = after(&state, step(4), runs(0, 100));
    assert_eq!(state.rows[0].saved, [0; 4]);
    after(&state, step(5), finished_idle(-95));
}

#[test]
fn lateness_has_a_sign() {
    let state = fresh(&TABLE_A);
    let state = after(&state, release(0, 3), runs(0, 13));
    after(&state, step(6), finished_idle(-7));
    after(&state, step(13), finished_idle(0));
    after(&state, step(20), finished_idle(7));
    // The base deadline counts, and the next one runs.
    let state = after(&state, release(2, 3), runs(0, 13));
    after(&state, step(20), finished(7, 2, 33));
}

#[test]
fn the_lowering_counts_from_the_time_of_the_lock() {
    let state = fresh(&TABLE_A);
    let state = after(&state, release(2, 0), runs(2, 30));
    // The floor alone would give 20.
    after(&state, step(1), runs(2, 21));
    // The smaller of the present value and t + floor: no lock makes a deadline later.
    after(&state, step(10), runs(2, 30));
    after(&state, step(11), runs(2, 30));
}
