//! Refusals 6 to 12, each alone and in its order, and what a refused event hands back.

mod common;

use common::{after, fresh, job};
use harness::event::{release, step, Event};
use harness::marked::{finished, finished_idle, runs, TABLE_A, TABLE_M12};
use reference::limits::{ACTIVE, BACK, EARLY, END, HELD, NOBODY, TORN};
use reference::limits::{COUNT_LIMIT, DEPTH, END_OF_TIME, ROOM, ROWS, STORED_TIME};
use reference::{start, Reply, Row, State};

/// The event is turned away with this number, and the state comes back equal.
fn turned_away(state: &State, event: Event, number: u32) {
    let back = after(state, event, Reply::Refused(number));
    assert_eq!(&back, state);
}

#[test]
fn back() {
    let state = fresh(&TABLE_A);
    let state = after(&state, release(2, 5), runs(2, 35));
    turned_away(&state, release(0, 4), BACK);
    turned_away(&state, step(4), BACK);
    turned_away(&state, step(0), BACK);
    // Equal is allowed: a lock at the release's own instant.
    after(&state, step(5), runs(2, 25));
}

#[test]
fn end() {
    let state = fresh(&TABLE_A);
    for time in [END_OF_TIME, END_OF_TIME + 1, u64::MAX] {
        turned_away(&state, release(0, time), END);
        turned_away(&state, step(time), END);
    }
    let last = END_OF_TIME - 1;
    let state = after(&state, release(0, last), runs(0, last + 10));
    let state = after(&state, step(last), finished_idle(-10));
    turned_away(&state, release(0, last), EARLY);
}

#[test]
fn nobody() {
    let state = fresh(&TABLE_A);
    turned_away(&state, step(0), NOBODY);
    for task in [3, 16, 31, 32, 64, u32::MAX] {
        turned_away(&state, release(task, 0), NOBODY);
    }
}

#[test]
fn active() {
    let state = fresh(&TABLE_A);
    let state = after(&state, release(0, 0), runs(0, 10));
    turned_away(&state, release(0, 0), ACTIVE);
    turned_away(&state, release(0, 500), ACTIVE);
}

#[test]
fn early() {
    let state = fresh(&TABLE_A);
    // A fresh task may be released at 0 although its last release is stored as 0.
    let state = after(&state, release(0, 0), runs(0, 10));
    let state = after(&state, step(3), finished_idle(-7));
    turned_away(&state, release(0, 3), EARLY);
    turned_away(&state, release(0, 19), EARLY);
    let state = after(&state, release(0, 20), runs(0, 30));
    // Measured between accepted releases: the refused ones didn't count.
    let state = after(&state, step(21), finished_idle(-9));
    turned_away(&state, release(0, 39), EARLY);
    after(&state, release(0, 40), runs(0, 50));
}

#[test]
fn held_in_a_made_up_state() {
    // Task 1 holds resource 0 with active deadline 21; task 0 is before it and wants the same.
    let mut state = fresh(&TABLE_M12);
    state.clock = 1;
    state.count = 2;
    state.ready = 0b011;
    state.had = 0b011;
    state.rows[1] = job(30, 21, 0, 1);
    state.rows[0] = job(20, 20, 1, 0);
    turned_away(&state, step(1), HELD);
    // BACK and END go first.
    turned_away(&state, step(0), BACK);
    turned_away(&state, step(END_OF_TIME), END);
    // If the other has unlocked, the lock goes through. With another place the same state is another one.
    let mut free = state.clone();
    free.rows[1].place = 2;
    after(&free, step(1), runs(0, 20));
    // One's own section is no obstacle for others' steps: an unlock is never held up.
    let mut own = state.clone();
    own.rows[0].place = 1;
    own.rows[0].saved[0] = 20;
    after(&own, step(1), runs(0, 20));
}

#[test]
fn the_order_of_the_checks() {
    // TORN before all else.
    let (_, zero) = start(&[]);
    turned_away(&zero, release(u32::MAX, u64::MAX), TORN);
    turned_away(&zero, step(u64::MAX), TORN);
    let state = fresh(&TABLE_A);
    let state = after(&state, release(0, 9), runs(0, 19));
    // BACK before NOBODY and ACTIVE.
    turned_away(&state, release(7, 8), BACK);
    turned_away(&state, release(0, 8), BACK);
    // END before NOBODY and ACTIVE.
    turned_away(&state, release(7, END_OF_TIME), END);
    turned_away(&state, release(0, END_OF_TIME), END);
    // ACTIVE before EARLY.
    turned_away(&state, release(0, 9), ACTIVE);
}

#[test]
fn a_refused_start_is_all_zero_and_torn() {
    let (result, state) = start(&[1, 0, 2, 2, 2, 1]);
    assert!(result.is_err());
    assert_eq!(state, State::zero());
    assert_eq!(state.words.len(), ROOM);
    turned_away(&state, release(0, 0), TORN);
    turned_away(&state, step(0), TORN);
}

/// A whole made-up state of table A that has something to lose: task 1 ready in its section, task 2 done.
fn made_up() -> State {
    let mut state = fresh(&TABLE_A);
    state.clock = 50;
    state.count = 2;
    state.ready = 0b010;
    state.had = 0b110;
    state.rows[1] = Row {
        base: 60,
        active: 60,
        number: 1,
        place: 1,
        saved: [60, 0, 0, 0],
        last: 40,
    };
    state.rows[2].last = 10;
    state
}

/// The changed state is torn for both events, whatever they bring.
fn torn(change: impl Fn(&mut State)) {
    let mut state = made_up();
    change(&mut state);
    assert!(reference::torn(&state));
    for time in [0, 50, 51, END_OF_TIME, u64::MAX] {
        turned_away(&state, step(time), TORN);
        for task in [0, 1, 3, u32::MAX] {
            turned_away(&state, release(task, time), TORN);
        }
    }
}

/// The changed state is not torn.
fn whole(change: impl Fn(&mut State)) {
    let mut state = made_up();
    change(&mut state);
    assert!(!reference::torn(&state));
    for event in [step(50), release(0, 50)] {
        assert_ne!(event.on(&state).1, Reply::Refused(TORN));
    }
}

#[test]
fn the_made_up_state_is_whole() {
    whole(|_| ());
    after(&made_up(), step(50), runs(1, 60));
}

#[test]
fn torn_by_its_table() {
    for word in 0..26 {
        torn(|state| state.words[word] = u32::MAX);
    }
    let room = ROOM as u64;
    for length in (0..26).chain([27, room, room + 1, 1 << 32, u64::MAX]) {
        torn(|state| state.length = length);
    }
    // Words behind the length aren't read.
    whole(|state| state.words[26..].fill(7));
    // A list of words of another size than the room has no such length.
    torn(|state| state.words.truncate(25));
    torn(|state| state.words.clear());
    // Two sections of task 2 that claim a tick more than its C, and two that fill it.
    let sections = |state: &mut State, second: u32| {
        state.words[19..32].copy_from_slice(&[4, 1, 0, 6, 2, 0, 0, 1, 0, second, 2, 0, 0]);
        state.length = 32;
    };
    torn(|state| sections(state, 5));
    whole(|state| sections(state, 4));
}

#[test]
fn torn_by_its_clock() {
    torn(|state| state.clock = END_OF_TIME);
    torn(|state| state.clock = u64::MAX);
    whole(|state| state.clock = END_OF_TIME - 1);
}

#[test]
fn torn_by_a_ready_job_without_a_task() {
    for bit in 3..32 {
        torn(|state| state.ready |= 1 << bit);
        // That it had a release is carried along unread.
        whole(|state| state.had |= 1 << bit);
    }
}

#[test]
fn torn_by_a_place_past_the_plan() {
    // Task 1 has two steps: place 2 is its finish.
    whole(|state| state.rows[1].place = 2);
    torn(|state| state.rows[1].place = 3);
    torn(|state| state.rows[1].place = u32::MAX);
    // Task 2 isn't ready, and row 9 has no task.
    whole(|state| state.rows[2].place = u32::MAX);
    whole(|state| state.rows[9].place = u32::MAX);
}

#[test]
fn torn_by_a_stored_time() {
    for row in 0..ROWS {
        torn(|state| state.rows[row].base = STORED_TIME + 1);
        torn(|state| state.rows[row].active = u64::MAX);
        torn(|state| state.rows[row].active = STORED_TIME + 1);
        for slot in 0..DEPTH {
            torn(|state| state.rows[row].saved[slot] = STORED_TIME + 1);
            whole(|state| state.rows[row].saved[slot] = STORED_TIME);
        }
        torn(|state| state.rows[row].last = STORED_TIME + 1);
        whole(|state| state.rows[row].base = STORED_TIME);
        whole(|state| state.rows[row].active = STORED_TIME);
    }
}

#[test]
fn torn_by_a_last_release_after_the_clock() {
    // Judged for tasks below n that have had a release: here 1 and 2.
    for row in 0..ROWS {
        let change = |state: &mut State| state.rows[row].last = 51;
        if row == 1 || row == 2 {
            torn(change);
        } else {
            whole(change);
        }
        whole(|state| state.rows[row].last = 50);
    }
    torn(|state| {
        state.had |= 1;
        state.rows[0].last = 51;
    });
    whole(|state| {
        state.had |= 1 << 5;
        state.rows[5].last = 51;
    });
}

#[test]
fn torn_by_its_count() {
    whole(|state| state.count = COUNT_LIMIT);
    torn(|state| state.count = COUNT_LIMIT + 1);
    torn(|state| state.count = u64::MAX);
}

#[test]
fn torn_by_release_numbers() {
    // Not below the count.
    torn(|state| state.rows[1].number = 2);
    torn(|state| state.rows[1].number = u64::MAX);
    torn(|state| state.count = 1);
    // Two ready jobs with the same.
    torn(|state| {
        state.ready = 0b110;
        state.rows[2].number = 1;
    });
    whole(|state| {
        state.ready = 0b110;
        state.rows[2].number = 0;
    });
    // A job that isn't ready has no number to judge.
    whole(|state| state.rows[2].number = u64::MAX);
    whole(|state| state.rows[12].number = 1);
}

#[test]
fn the_count_at_its_limit_accepts_one_more() {
    let mut state = made_up();
    state.count = COUNT_LIMIT;
    let state = after(&state, release(0, 50), runs(1, 60));
    assert_eq!(state.count, COUNT_LIMIT + 1);
    assert_eq!(state.rows[0].number, COUNT_LIMIT);
    turned_away(&state, step(50), TORN);
}

#[test]
fn an_active_deadline_above_the_base_is_no_ground() {
    let mut state = made_up();
    state.rows[1].active = 900;
    state.rows[1].saved[0] = 800;
    // The unlock brings back what was saved; the lateness goes by the base deadline.
    let state = after(&state, step(50), runs(1, 800));
    assert_eq!(state.rows[1].saved, [0; DEPTH]);
    after(&state, step(61), finished_idle(1));
}

#[test]
fn a_release_writes_its_whole_row() {
    let mut state = made_up();
    state.rows[0] = Row {
        base: 1,
        active: 2,
        number: 3,
        place: 4,
        saved: [5, 6, 7, 8],
        last: 9,
    };
    let state = after(&state, release(0, 50), runs(1, 60));
    let wanted = Row {
        base: 60,
        active: 60,
        number: 2,
        place: 0,
        saved: [0; DEPTH],
        last: 50,
    };
    // The tie at 60 goes to task 1, whose release was accepted first.
    assert_eq!(state.rows[0], wanted);
    assert_eq!((state.ready, state.had, state.count), (0b011, 0b111, 3));
}

#[test]
fn a_lock_saves_in_the_slot_of_its_depth_and_leaves_the_others() {
    // Task 0 holds 0 and is about to lock 1 inside it; its slots hold odd values.
    let words = [1, 2, 9, 9, 9, 4, 1, 0, 5, 1, 1, 5, 2, 0, 0, 2, 0, 0];
    let mut state = fresh(&words);
    state.clock = 3;
    state.count = 1;
    state.ready = 1;
    state.rows[0] = Row {
        base: 40,
        active: 30,
        number: 0,
        place: 1,
        saved: [11, 22, 33, 44],
        last: 0,
    };
    let state = after(&state, step(3), runs(0, 12));
    assert_eq!(state.rows[0].saved, [11, 30, 33, 44]);
    let state = after(&state, step(4), runs(0, 30));
    assert_eq!(state.rows[0].saved, [11, 0, 33, 44]);
    let state = after(&state, step(5), runs(0, 11));
    assert_eq!(state.rows[0].saved, [0, 0, 33, 44]);
    let state = after(&state, step(6), finished_idle(-34));
    assert_eq!(state.rows[0], Row::default());
}

#[test]
fn the_next_one_runs_after_a_finish() {
    let state = fresh(&TABLE_A);
    let state = after(&state, release(0, 0), runs(0, 10));
    let state = after(&state, release(1, 0), runs(0, 10));
    after(&state, step(2), finished(-8, 1, 20));
}
