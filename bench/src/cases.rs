//! What is measured: events on two tables with few and with many ready jobs, and lists of words.

use harness::image::{encode, Image};
use harness::marked::{table_a_with, LENGTH_OF_2, TABLE_A};
use harness::sets::all_below;
use harness::Event;
use reference::limits::{DEPTH, RESOURCES, ROOM, ROWS, STEPS};
use reference::limits::{STEP_WORDS, TABLE_HEAD, TASKS, TASK_HEAD};
use reference::{check, start, Reply, Row, State};

use crate::twin::PERIOD;

/// An event on an image.
pub struct Case {
    pub table: String,
    pub kind: &'static str,
    /// How many jobs are ready: for a release the new one included, for a step before it.
    pub ready: usize,
    pub state: State,
    pub image: Image,
    pub event: Event,
    /// The numbers of the image that the event changes.
    pub changed: Vec<usize>,
}

/// The longest table, as many tasks as there may be with full plans: two sections one in the other, again and again, each resource with
/// several users.
fn full() -> Vec<u32> {
    let mut words = vec![TASKS, RESOURCES];
    for task in 0..TASKS {
        words.extend([400, 200 + 10 * task, 20, STEPS]);
        for turn in 0..STEPS / 4 {
            let outer = (task + 4 * turn) % RESOURCES;
            let inner = (outer + 1) % RESOURCES;
            words.extend([1, outer, 4, 1, inner, 2, 2, 0, 0, 2, 0, 0]);
        }
    }
    words
}

const CLOCK: u64 = 1000;

/// A state with `ready` jobs, each half through its plan, except that task 0 is at `place` and runs, if it is ready.
fn state(words: &[u32], tasks: std::ops::Range<usize>, place: u32) -> State {
    let (started, mut state) = start(words);
    started.expect("the table passes the check");
    let table = check(words).expect("the table passes the check");
    state.clock = CLOCK;
    state.had = all_below(table.tasks.len());
    state.count = 100;
    for task in tasks {
        state.ready |= 1 << task;
        let half = table.tasks[task].steps.len() as u32 / 8 * 4;
        let deadline = CLOCK + 50 + 10 * task as u64;
        state.rows[task] = Row {
            base: deadline,
            active: deadline,
            number: 99 - task as u64,
            place: if task == 0 { place } else { half },
            saved: [0; DEPTH],
            last: CLOCK - 100,
        };
        // What is held was locked with a deadline to come back to.
        let depth = table.tasks[task].held(state.rows[task].place).len();
        state.rows[task].saved[..depth].fill(deadline);
    }
    state
}

fn case(table: &str, kind: &'static str, ready: usize, state: State, event: Event) -> Case {
    let image = encode(&state);
    let (after, reply) = event.on(&state);
    let after = match reply {
        Reply::Refused(_) => image,
        _ => encode(&after),
    };
    assert_eq!(
        matches!(reply, Reply::Refused(_)),
        kind == "refused",
        "{table}, {kind}, {ready}: {reply:?}"
    );
    let changed = (0..image.len())
        .filter(|index| image[*index] != after[*index])
        .collect();
    Case {
        table: table.to_string(),
        kind,
        ready,
        state,
        image,
        event,
        changed,
    }
}

/// Every event that is measured.
pub fn events() -> Vec<Case> {
    // In table A task 2 is put first, so that it is the one that runs: it has a section.
    let (head, tasks) = TABLE_A.split_at(TABLE_HEAD);
    let (others, last) = tasks.split_at(tasks.len() - (TASK_HEAD + 2 * STEP_WORDS));
    let a = [head, last, others].concat();
    let full = full();
    assert_eq!(full.len(), ROOM);
    let longest = format!("{ROOM} words");
    let step = Event::Step { time: CLOCK + 1 };
    let release = Event::Release {
        task: 0,
        time: CLOCK + 1,
    };
    let mut cases = Vec::new();
    // The places of the first unlock and of the finish.
    for (table, words, counts, unlock, end) in [
        ("table A", &a, &[1, 3][..], 1, 2),
        (&longest, &full, &[1, ROWS / 2, ROWS][..], 2, STEPS),
    ] {
        for ready in counts.iter().copied() {
            let all = 0..ready;
            cases.push(case(
                table,
                "release",
                ready,
                state(words, 1..ready, 0),
                release,
            ));
            for (kind, place) in [("lock", 0), ("unlock", unlock), ("finish", end)] {
                let state = state(words, all.clone(), place);
                cases.push(case(table, kind, ready, state, step));
            }
            let state = state(words, all, 0);
            let back = Event::Step { time: CLOCK - 1 };
            cases.push(case(table, "refused", ready, state, back));
        }
    }
    cases
}

/// Every list of words whose verdict is measured, with a name.
pub fn verdicts() -> Vec<(String, Vec<u32>)> {
    let mut longest = full();
    // Its costs fill the processor; with longer periods it fits.
    let task_words = TASK_HEAD + STEP_WORDS * STEPS as usize;
    for (task, words) in longest[TABLE_HEAD..].chunks_mut(task_words).enumerate() {
        words[PERIOD] = if task % 2 == 0 { 800 } else { 400 };
    }
    vec![
        ("table A, FITS".to_string(), TABLE_A.to_vec()),
        (
            "M5, LATE 20".to_string(),
            table_a_with(LENGTH_OF_2, 9).to_vec(),
        ),
        (format!("{ROOM} words, FITS"), longest),
        (
            "2 tasks, P 1,000,000".to_string(),
            vec![2, 0, 64, 64, 30, 0, 15_625, 15_625, 2, 0],
        ),
    ]
}
