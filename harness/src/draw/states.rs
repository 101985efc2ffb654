//! States that nobody would make.

use reference::limits::{COUNT_LIMIT, DEPTH, END_OF_TIME, ROOM, ROWS, STEPS, STORED_TIME, TASKS};
use reference::state::contains;
use reference::{check, Row, State, Step, Table};

use super::tables;
use crate::image::{at, Image, HAD, LENGTH, PLACE, READY};
use crate::rng::Rng;
use crate::sets::{all_below, BITS};
use crate::tally::grounds::TornGround;

/// A state of the second program with this table and nothing else.
fn with_table(words: &[u32]) -> State {
    let mut state = State::zero();
    state.words[..words.len()].copy_from_slice(words);
    state.length = words.len() as u64;
    state
}

/// A state that isn't torn and that mostly no start leads to: any ready jobs at any places, with any numbers and deadlines.
pub fn whole(rng: &mut Rng) -> (State, Table) {
    let words = tables::sound(rng);
    let table = check(&words).expect("a sound table passes the check");
    let mut state = with_table(&words);
    if rng.chance(1, 4) {
        let behind = words.len()..ROOM;
        for at in behind {
            state.words[at] = tables::odd_word(rng);
        }
    }
    let n = table.tasks.len();
    state.clock = match rng.between(0, 9) {
        0..=5 => rng.between(0, 200),
        6 => END_OF_TIME - 1,
        7..=8 => END_OF_TIME - rng.between(1, 100),
        _ => rng.between(0, END_OF_TIME - 1),
    };
    state.count = match rng.between(0, 9) {
        0..=4 => rng.between(n as u64, n as u64 + 4),
        5..=6 => rng.between(ROWS as u64, 1000),
        7 => COUNT_LIMIT,
        8 => COUNT_LIMIT - rng.between(0, 3),
        _ => rng.between(ROWS as u64, COUNT_LIMIT),
    };
    let below = all_below(n);
    state.ready = match rng.between(0, 3) {
        0 => below,
        1 => rng.bits() as u32 & below,
        2 => (rng.bits() | rng.bits()) as u32 & below,
        _ => (rng.bits() & rng.bits()) as u32 & below,
    };
    state.had = match rng.between(0, 2) {
        0 => below,
        1 => rng.bits() as u32,
        _ => state.ready,
    };
    let numbers = distinct(rng, state.count);
    let near = state.clock.saturating_sub(30);
    for (task, number) in numbers.into_iter().enumerate() {
        let mut row = any_row(rng, near);
        if task < n && contains(state.ready, task as u32) {
            row.number = number;
            row.place = place(rng, &table, task);
        } else if rng.chance(1, 2) {
            row = Row::default();
        }
        row.last = if task < n && contains(state.had, task as u32) {
            match rng.between(0, 3) {
                0 => state.clock,
                1 => state.clock - rng.between(0, state.clock.min(40)),
                _ => rng.between(0, state.clock),
            }
        } else {
            rng.pick(&[0, 0, row.last, STORED_TIME])
        };
        state.rows[task] = row;
    }
    if rng.chance(1, 3) {
        aim_at_held(rng, &mut state, &table);
    }
    (state, table)
}

/// A number below the count for each row, all different if the count allows it; mostly the last ones given.
fn distinct(rng: &mut Rng, count: u64) -> Vec<u64> {
    let lately = count.saturating_sub(ROWS as u64 + 1);
    let mut numbers: Vec<u64> = Vec::new();
    for k in 0..ROWS as u64 {
        let number = match rng.between(0, 2) {
            0 => rng.between(0, count.saturating_sub(1)),
            1 => rng.between(lately, count.saturating_sub(1)),
            _ => count.saturating_sub(k + 1),
        };
        let free = |number: &u64| !numbers.contains(number);
        let number = Some(number)
            .filter(free)
            .or_else(|| (lately..count).find(free));
        numbers.push(number.unwrap_or(0));
    }
    numbers
}

/// A place of the task's plan: often right before a lock, while holding something, or at the end.
fn place(rng: &mut Rng, table: &Table, task: usize) -> u32 {
    let end = table.tasks[task].steps.len() as u32;
    match rng.between(0, 3) {
        0 => end,
        1 => {
            let before_lock =
                |place: &u32| matches!(table.tasks[task].next(*place), Some(Step::Lock(_)));
            let places: Vec<u32> = (0..end).filter(before_lock).collect();
            if places.is_empty() {
                end
            } else {
                rng.pick(&places)
            }
        }
        _ => rng.word(0, end),
    }
}

/// Numbers within the limits, around `near` or at the limit.
fn any_row(rng: &mut Rng, near: u64) -> Row {
    Row {
        base: stored(rng, near),
        active: stored(rng, near),
        number: rng.bits() >> rng.between(0, 63),
        place: rng.pick(&[0, 1, STEPS + 1, 40, u32::MAX]),
        saved: [0; DEPTH].map(|_| stored(rng, near)),
        last: stored(rng, near),
    }
}

fn stored(rng: &mut Rng, near: u64) -> u64 {
    match rng.between(0, 31) {
        0 => 0,
        1 => STORED_TIME,
        2 => rng.between(0, STORED_TIME),
        3..=17 => (near + rng.between(0, 60)).min(STORED_TIME),
        _ => (near + 20 + rng.between(0, 3)).min(STORED_TIME),
    }
}

/// Lets one job stand before a lock of what another holds, and be the one that runs, if it finds two such plans soon.
fn aim_at_held(rng: &mut Rng, state: &mut State, table: &Table) {
    let n = table.tasks.len();
    for _ in 0..10 {
        let (task, other) = (rng.index(n), rng.index(n));
        let place = rng.index(table.tasks[task].steps.len()) as u32;
        let where_held = rng.index(table.tasks[other].steps.len()) as u32;
        let Some(Step::Lock(section)) = table.tasks[task].next(place) else {
            continue;
        };
        let held = table.tasks[other].held(where_held);
        if task == other || held.iter().all(|s| s.resource != section.resource) {
            continue;
        }
        state.ready |= 1 << task | 1 << other;
        state.rows[task].place = place;
        state.rows[task].active = 0;
        state.rows[other].place = where_held;
        // Both are ready now, so their numbers count.
        let numbers = distinct(rng, state.count);
        for (row, number) in state.rows.iter_mut().zip(numbers) {
            row.number = number;
        }
        return;
    }
}

/// Breaks a state that isn't torn on one ground, or puts the field just where it still holds.
pub fn spoil(rng: &mut Rng, state: &mut State, table: &Table) {
    let n = table.tasks.len();
    let row = rng.index(ROWS);
    let beyond = rng.pick(&[0, 1, 1, 1, 2, 1 << 20, 1 << 40, u64::MAX - STORED_TIME]);
    let time = STORED_TIME + beyond;
    match rng.pick(&TornGround::all()) {
        TornGround::Table => spoil_table(rng, state),
        TornGround::LengthAboveTheRoom => {
            let room = ROOM as u64;
            state.length = rng.pick(&[room + 1, room, 1 << 32, 1 << 63, u64::MAX]);
        }
        TornGround::Clock => state.clock = around(rng, END_OF_TIME - 1),
        TornGround::Ready => {
            let beyond = rng.pick(&[n as u32, n as u32, TASKS - 1, TASKS, BITS - 1]);
            state.ready |= 1 << beyond.min(BITS - 1);
        }
        TornGround::Base => state.rows[row].base = time,
        TornGround::Active => state.rows[row].active = time,
        TornGround::Saved(slot) => state.rows[row].saved[slot] = time,
        TornGround::LastTooFar => state.rows[row].last = time,
        TornGround::LastAfterTheClock => {
            let task = rng.index(n);
            state.had |= 1 << task;
            state.clock = state.clock.min(END_OF_TIME - 2);
            state.rows[task].last = state.clock + rng.pick(&[0, 1, 1, 2, 30]);
        }
        TornGround::Count => state.count = around(rng, COUNT_LIMIT),
        ground @ (TornGround::Place
        | TornGround::NumbersEqual
        | TornGround::NumberNotBelowTheCount) => spoil_job(rng, state, table, ground),
    }
}

/// This greatest value, or one above it.
fn around(rng: &mut Rng, most: u64) -> u64 {
    rng.pick(&[most, most + 1, most + 1, most + 2, 1 << 63, u64::MAX])
}

fn spoil_table(rng: &mut Rng, state: &mut State) {
    let at = rng.index(state.length as usize);
    state.words[at] = match rng.between(0, 2) {
        0 => state.words[at].wrapping_add(1),
        1 => state.words[at].wrapping_sub(1),
        _ => tables::odd_word(rng),
    };
    if rng.chance(1, 4) {
        state.length = rng.pick(&[state.length - 1, state.length + 1, 0, ROOM as u64]);
    }
}

/// The grounds that ask for ready jobs; where there are none, nothing is spoiled.
fn spoil_job(rng: &mut Rng, state: &mut State, table: &Table, ground: TornGround) {
    let ready = state.ready_tasks(table.tasks.len());
    if ready.is_empty() {
        return;
    }
    let (task, other) = (rng.pick(&ready), rng.pick(&ready));
    match ground {
        TornGround::Place => {
            let end = table.tasks[task].steps.len() as u32;
            let far = [end, end + 1, end + 1, end + 2, STEPS + 1, u32::MAX];
            state.rows[task].place = rng.pick(&far);
        }
        TornGround::NumbersEqual => state.rows[task].number = state.rows[other].number,
        _ => {
            let beyond = rng.pick(&[0, 0, 1, 1 << 40, u64::MAX - state.count]);
            state.rows[task].number = state.count + beyond;
        }
    }
}

/// Changes a few numbers of a state, whichever: a state taken from a run, bent.
pub fn bend(rng: &mut Rng, state: &mut State) {
    for _ in 0..rng.between(1, 3) {
        let row = rng.index(ROWS);
        let other = rng.index(ROWS);
        let near = state.clock.saturating_sub(10);
        let job = &mut state.rows[row];
        match rng.between(0, 15) {
            0 => state.ready ^= 1 << row,
            1 => state.had ^= 1 << rng.index(BITS as usize),
            2 => state.clock = near.saturating_add(rng.between(0, 20)),
            3 => {
                state.count = state
                    .count
                    .saturating_add(rng.between(0, 4))
                    .saturating_sub(2)
            }
            4 => job.place = job.place.wrapping_add(rng.word(0, 2)).wrapping_sub(1),
            5 => job.place = rng.word(0, STEPS + 1),
            6 => job.active = near.saturating_add(rng.between(0, 40)),
            7 => job.base = near.saturating_add(rng.between(0, 40)),
            8 => job.saved[rng.index(DEPTH)] = near.saturating_add(rng.between(0, 40)),
            9 => job.last = near.saturating_add(rng.between(0, 20)),
            10 => job.number = state.count.saturating_sub(rng.between(0, 5)),
            11 => state.rows.swap(row, other),
            12 => {
                let at = rng.index(state.length.clamp(1, ROOM as u64) as usize);
                state.words[at] = state.words[at].wrapping_add(rng.word(0, 2)).wrapping_sub(1);
            }
            13 => {
                // Its plan goes elsewhere while the job stands where it stood.
                let at = 2 + rng.index(state.length.clamp(3, ROOM as u64) as usize - 2);
                state.words[at] = rng.word(1, 20);
            }
            14 => state.rows[row].number = state.rows[other].number,
            _ => {
                state.length = state
                    .length
                    .saturating_add(rng.between(0, 2))
                    .saturating_sub(1)
            }
        }
    }
}

/// Every number by lot; the table too, or a sound one.
pub fn wild(rng: &mut Rng) -> State {
    let words = if rng.chance(1, 2) {
        let mut words = tables::any(rng);
        words.truncate(ROOM);
        words
    } else {
        tables::sound(rng)
    };
    let mut state = with_table(&words);
    if rng.chance(1, 8) {
        for word in &mut state.words {
            *word = rng.bits() as u32;
        }
        state.length = any_number(rng);
    }
    // With few bits set and mostly small numbers a few of these are not torn.
    let few = (rng.bits() & rng.bits() & rng.bits()) as u32 & 0x1f;
    state.ready = rng.pick(&[0, few, few, few, 1, u32::MAX]);
    state.had = rng.bits() as u32;
    let number = if rng.chance(1, 2) {
        any_number
    } else {
        mild_number
    };
    state.clock = number(rng);
    state.count = number(rng);
    for row in &mut state.rows {
        *row = Row {
            base: number(rng),
            active: number(rng),
            number: number(rng),
            place: number(rng) as u32,
            saved: [0; DEPTH].map(|_| number(rng)),
            last: number(rng),
        };
        if rng.chance(1, 2) {
            row.last = 0;
        }
    }
    state
}

fn any_number(rng: &mut Rng) -> u64 {
    match rng.between(0, 3) {
        0 => rng.bits(),
        1 => rng.bits() >> rng.between(0, 63),
        2 => rng.between(0, 20),
        _ => rng.pick(&[
            0,
            END_OF_TIME - 1,
            END_OF_TIME,
            STORED_TIME,
            STORED_TIME + 1,
            COUNT_LIMIT,
            COUNT_LIMIT + 1,
            u64::MAX,
        ]),
    }
}

fn mild_number(rng: &mut Rng) -> u64 {
    if rng.chance(1, 200) {
        any_number(rng)
    } else {
        rng.between(0, 30)
    }
}

/// Puts numbers that are too large for their field into an image: the fields of 32 bits are the two sets and the places.
pub fn widen(rng: &mut Rng, image: &mut Image) {
    let mut fields = vec![READY, HAD];
    fields.extend((0..ROWS).map(|row| at(row, PLACE)));
    for _ in 0..rng.between(1, 4) {
        let field = rng.pick(&fields);
        let above = match rng.between(0, 2) {
            0 => 1,
            1 => u64::from(u32::MAX),
            _ => rng.bits() >> 32,
        };
        image[field] |= above << 32;
    }
}

/// Has an image a number that is too large for its field?
pub fn is_wide(image: &Image) -> bool {
    image
        .rows()
        .map(|row| row[PLACE])
        .chain([image[READY], image[HAD]])
        .any(|number| number > u64::from(u32::MAX))
}

/// An image of nothing but bits by lot, or with a sound table in front of them.
pub fn noise(rng: &mut Rng) -> Image {
    let mut image = Image::all(0);
    for number in image.iter_mut() {
        *number = rng.bits() >> rng.pick(&[0, 0, 0, 24, 32, 60]);
    }
    if rng.chance(1, 2) {
        let words = tables::sound(rng);
        image.set_words(&words);
        image[LENGTH] = words.len() as u64;
    }
    image
}
