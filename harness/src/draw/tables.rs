//! Tables by lot: sound ones, careless ones, and sound ones with one word spoiled, cut or added.

use reference::limits::{DEPTH, RESOURCES, STEPS, STEP_WORDS, TABLE_HEAD, TASKS, TASK_HEAD, TICKS};

use crate::marked::{table_a_with, LENGTH_OF_2, TABLE_A, TABLE_M12};
use crate::rng::Rng;
use crate::sets::BITS;

/// M5's table.
const TABLE_M5: [u32; 26] = table_a_with(LENGTH_OF_2, 9);

/// Tables that document 01 writes out, and some whose verdict is a close one. A number of them is nudged now and
/// then.
const KNOWN: [&[u32]; 9] = [
    &TABLE_A,
    &TABLE_M5,
    &TABLE_M12,
    // M6.
    &[1, 0, 2, 2, 2, 0],
    // M8.
    &[1, 0, 2, 5, 3, 0],
    // LATE 29 and LATE 40, far behind the largest D.
    &[2, 0, 6, 5, 3, 0, 10, 9, 5, 0],
    &[2, 0, 14, 12, 7, 0, 21, 18, 10, 0],
    // Common multiples of 1,000,000, which is allowed, and of 1,000,001, which is LONG.
    &[2, 0, 64, 50, 30, 0, 15_625, 15_625, 2, 0],
    &[2, 0, 101, 50, 30, 0, 9901, 9901, 2, 0],
];

/// Periods that keep the common multiple small, so that the search over every t is short.
const PERIODS: [&[u32]; 8] = [
    &[10, 20, 30, 40],
    &[4, 6, 8, 12, 24],
    &[100],
    &[5, 10, 25, 50, 100],
    &[1, 2, 3, 4],
    &[60, 90, 120, 180, 360],
    &[7, 14, 21],
    &[16, 32, 64, 128],
];

/// A table for a script: mostly sound, in one case out of four not.
pub fn table(rng: &mut Rng) -> Vec<u32> {
    match rng.between(0, 99) {
        0..=16 => lively(rng),
        17..=39 => diving(rng),
        40..=53 => roomy(rng),
        54..=61 => nudged(rng),
        62..=63 => overfull(rng),
        64..=66 => far(rng),
        67..=72 => long(rng),
        73..=79 => careless(rng, 0),
        80..=81 => odd_words(rng, 9),
        82..=85 => crowded(rng),
        _ => spoiled(rng),
    }
}

/// A table that passes the check, for a state.
pub fn sound(rng: &mut Rng) -> Vec<u32> {
    match rng.between(0, 19) {
        0..=7 => lively(rng),
        8..=13 => diving(rng),
        14 => full(rng),
        15..=16 => far(rng),
        17..=18 => longest(rng),
        _ => vec![1, rng.word(0, RESOURCES), 5, 5, 2, 0],
    }
}

/// A list of words for the check: mostly broken, on each ground.
pub fn any(rng: &mut Rng) -> Vec<u32> {
    match rng.between(0, 21) {
        0..=2 => sound(rng),
        3 => {
            // n or m.
            let mut words = sound(rng);
            let at = rng.index(TABLE_HEAD);
            words[at] = too_small_or_large(rng);
            words
        }
        4..=12 => spoiled(rng),
        13..=16 => careless(rng, 4),
        17 => too_deep(rng),
        18 => odd_words(rng, 12),
        19..=20 => crowded(rng),
        _ => {
            // Longer than the room, and sometimes with an odd word within it.
            let mut words = longest(rng);
            let at = rng.index(words.len());
            words.extend(odd_words(rng, 40));
            if rng.chance(1, 4) {
                words[at] = odd_word(rng);
            }
            words
        }
    }
}

/// A table whose verdict is a close one, or LONG, or around the common multiple where it becomes so.
pub fn timed(rng: &mut Rng) -> Vec<u32> {
    match rng.between(0, 9) {
        0..=5 => roomy(rng),
        6..=7 => nudged(rng),
        _ => long(rng),
    }
}

/// Appends a task: T, D and C, and then s and the steps, which are its plan.
fn put_task(words: &mut Vec<u32>, ticks: [u32; 3], plan: &[u32]) {
    words.extend(ticks);
    words.extend(plan);
}

/// Made for running: few different deadlines, so that ties happen, and nested sections.
fn lively(rng: &mut Rng) -> Vec<u32> {
    let n = rng.word(2, 7);
    let m = rng.word(1, 5);
    let periods = rng.pick(&PERIODS);
    let base = rng.word(4, 20);
    let deadlines = [
        base,
        base,
        base + 1,
        base + rng.word(1, 6),
        2 * base,
        3 * base,
        3 * base,
        8 * base,
    ];
    let mut words = vec![n, m];
    for _ in 0..n {
        let cost = rng.word(1, 24);
        let steps = rng.word(0, 12);
        let ticks = [rng.pick(periods), rng.pick(&deadlines), cost];
        put_task(&mut words, ticks, &plan(rng, m, cost, steps));
    }
    words
}

/// Made for lowering: each resource has an urgent user with a short plan, and the patient tasks dive, so that
/// an inner lock often lowers more than an outer one.
fn diving(rng: &mut Rng) -> Vec<u32> {
    let m = rng.word(2, 5);
    let n = m + rng.word(1, 3);
    let base = rng.word(3, 9);
    let periods = rng.pick(&PERIODS);
    let mut tasks: Vec<Vec<u32>> = Vec::new();
    for resource in 0..m {
        let deadline = base * rng.pick(&[1, 2, 3, 5]) + rng.word(0, 1);
        let cost = rng.word(1, 5);
        let length = rng.word(1, cost);
        let mut task = Vec::new();
        let ticks = [rng.pick(periods), deadline, cost];
        put_task(&mut task, ticks, &[2, 1, resource, length, 2, 0, 0]);
        tasks.push(task);
    }
    for _ in m..n {
        let cost = rng.word(4, 40);
        let deadline = base * rng.pick(&[6, 10, 30]);
        let mut task = Vec::new();
        let ticks = [rng.pick(periods), deadline, cost];
        put_task(&mut task, ticks, &plan(rng, m, cost, 14));
        tasks.push(task);
    }
    let mut words = vec![n, m];
    while !tasks.is_empty() {
        let next = rng.index(tasks.len());
        words.extend(tasks.swap_remove(next));
    }
    words
}

/// Made for the verdict: the processor is about filled, and deadlines lie around the periods.
fn roomy(rng: &mut Rng) -> Vec<u32> {
    let n = rng.word(1, 5);
    let m = rng.word(0, 3);
    let periods = rng.pick(&PERIODS);
    let mut words = vec![n, m];
    for _ in 0..n {
        let period = rng.pick(periods);
        let share = (period / n).max(1);
        let most = share + rng.word(0, 1);
        let cost = rng.word(share.div_ceil(3), most);
        let deadline = rng.word((period / 2).max(1), period * 2);
        let ticks = [period, deadline, cost];
        put_task(&mut words, ticks, &plan(rng, m, cost, 4));
    }
    words
}

/// One of document 01's tables, with a number moved by a little.
fn nudged(rng: &mut Rng) -> Vec<u32> {
    let mut words = rng.pick(&KNOWN).to_vec();
    for _ in 0..rng.between(0, 2) {
        let at = rng.index(words.len());
        words[at] = match rng.between(0, 3) {
            0 => words[at].saturating_sub(1),
            1 => words[at] + 1,
            2 => words[at] + rng.word(0, 10),
            _ => words[at] / 2,
        };
    }
    words
}

/// The largest shapes: as many tasks, resources and steps as a table may have, or about so many.
fn full(rng: &mut Rng) -> Vec<u32> {
    let n = rng.word(TASKS - 2, TASKS);
    let m = rng.word(RESOURCES / 2, RESOURCES);
    let mut words = vec![n, m];
    for _ in 0..n {
        let cost = rng.word(1, 32);
        let ticks = [rng.pick(&[64, 128]), rng.pick(&[9, 10, 60, 64]), cost];
        let steps = rng.pick(&[STEPS / 2, STEPS]);
        put_task(&mut words, ticks, &plan(rng, m, cost, steps));
    }
    words
}

/// The same, sometimes with words after the last task, and beyond the room for them.
fn overfull(rng: &mut Rng) -> Vec<u32> {
    let mut words = full(rng);
    if rng.chance(1, 6) {
        let count = rng.pick(&[1, 2, 40]);
        words.extend((0..count).map(|_| odd_word(rng)).collect::<Vec<u32>>());
    }
    words
}

/// The longest table: every task with all the steps that it may have.
fn longest(rng: &mut Rng) -> Vec<u32> {
    let m = rng.word(2, RESOURCES);
    let mut words = vec![TASKS, m];
    for _ in 0..TASKS {
        // What each of the parts may take.
        let share = rng.word(2, 20);
        let cost = share * (STEPS / 4) + rng.word(0, 1);
        let mut plan = vec![STEPS];
        for _ in 0..STEPS / 4 {
            // Two locks and two unlocks, one in the other or one after the other.
            let outer = rng.word(0, m - 1);
            let inner = (outer + rng.word(1, m - 1)) % m;
            let length = rng.word(1, share - 1);
            plan.extend([1, outer, length]);
            if rng.chance(2, 3) {
                let inside = rng.word(1, length);
                plan.extend([1, inner, inside, 2, 0, 0, 2, 0, 0]);
            } else {
                let left = share - length;
                let then = rng.word(left.div_ceil(2), left);
                plan.extend([2, 0, 0, 1, inner, then, 2, 0, 0]);
            }
        }
        let ticks = [rng.pick(&[100, 200, 400]), rng.word(20, 400), cost];
        put_task(&mut words, ticks, &plan);
    }
    words
}

/// Values at the limits of T, D and C.
fn far(rng: &mut Rng) -> Vec<u32> {
    let n = rng.word(1, 3);
    let m = rng.word(0, 2);
    let mut words = vec![n, m];
    let ends = [1, 2, 3, TICKS - 1, TICKS, TICKS];
    let period = rng.pick(&ends);
    for _ in 0..n {
        let cost = rng.pick(&ends);
        let period = if rng.chance(1, 3) {
            rng.pick(&ends)
        } else {
            period
        };
        let ticks = [period, rng.pick(&ends), cost];
        put_task(&mut words, ticks, &plan(rng, m, cost, 4));
    }
    words
}

/// Periods whose common multiple is around or above 1,000,000.
fn long(rng: &mut Rng) -> Vec<u32> {
    let n = rng.word(2, 5);
    let m = rng.word(0, 2);
    let mut words = vec![n, m];
    for _ in 0..n {
        let cost = rng.word(1, 30);
        let period = rng.pick(&[97, 101, 103, 1000, 1001, 4096, 15_625, 333_333]);
        let ticks = [period, rng.word(1, 2000), cost];
        put_task(&mut words, ticks, &plan(rng, m, cost, 4));
    }
    words
}

/// Steps that are put together carelessly, so that NEST is met on each ground. Of twenty steps `broken` are none by their own words, so
/// that STEP is met too.
fn careless(rng: &mut Rng, broken: u64) -> Vec<u32> {
    let n = rng.word(1, 3);
    let m = rng.word(1, RESOURCES / 2);
    let mut words = vec![n, m];
    for _ in 0..n {
        let cost = rng.word(1, 12);
        let ticks = [rng.word(1, 50), rng.word(1, 50), cost];
        let count = rng.word(0, STEPS / 2);
        let mut plan = vec![count];
        let falling = rng.chance(1, 2);
        let mut length = cost;
        for k in 0..count {
            if broken > 0 && rng.chance(broken, 20) {
                plan.extend(no_step(rng, m, cost));
            } else if rng.chance(if k == 0 { 19 } else { 13 }, 20) {
                if !falling {
                    length = rng.word(1, cost);
                } else if length > 1 && rng.chance(1, 3) {
                    length -= 1;
                }
                let resource = if rng.chance(3, 4) {
                    k % m
                } else {
                    rng.word(0, m - 1)
                };
                plan.extend([1, resource, length]);
            } else {
                plan.extend([2, 0, 0]);
            }
        }
        put_task(&mut words, ticks, &plan);
    }
    words
}

/// A step's words that are no step: one for each ground of STEP.
fn no_step(rng: &mut Rng, m: u32, cost: u32) -> [u32; STEP_WORDS] {
    let kind = rng.pick(&[0, 3, u32::MAX]);
    rng.pick(&[
        [kind, 0, 0],
        [2, 1, 0],
        [2, 0, 1],
        [1, m, 1],
        [1, 0, 0],
        [1, 0, cost + 1],
    ])
}

/// A plan that only dives, until it holds one section too many.
fn too_deep(rng: &mut Rng) -> Vec<u32> {
    let most = DEPTH as u32 + 1;
    let mut words = vec![1, rng.word(most, RESOURCES)];
    let mut length = rng.word(1, 12);
    let ticks = [rng.word(1, 50), rng.word(1, 50), length];
    let mut plan = vec![most];
    for resource in 0..most {
        length = rng.word(length.div_ceil(2), length);
        plan.extend([1, resource, length]);
    }
    put_task(&mut words, ticks, &plan);
    words
}

/// Sections one after the other, at each depth, that fill what is right around them to the last tick, or claim a tick more; and then
/// now and then with another fault in the same step.
fn crowded(rng: &mut Rng) -> Vec<u32> {
    let around = rng.word(0, DEPTH as u32 - 1);
    let m = rng.word(DEPTH as u32 + 1, RESOURCES - 1);
    let cost = rng.word(2, 30);
    let mut most = cost;
    let mut steps = Vec::new();
    for resource in 0..around {
        most = rng.word(most.div_ceil(2).max(2), most);
        steps.push([1, resource, most]);
    }
    let first = rng.word(1, most - 1);
    steps.push([1, around, first]);
    if around + 1 < DEPTH as u32 && rng.chance(1, 2) {
        // What is inside the first one is no claim on what is around it.
        steps.extend([[1, around + 1, first], [2, 0, 0]]);
    }
    steps.push([2, 0, 0]);
    let left = most - first;
    steps.push(match rng.between(0, 9) {
        0..=2 => [1, around, left],
        3..=6 => [1, around, left + 1],
        7 => [1, around, rng.word(left + 1, most)],
        // 4 and 5 go before: no such resource, or one that is held already if something is around.
        8 => [1, m, left + 1],
        _ => [1, around.saturating_sub(1), left + 1],
    });
    steps.extend((0..=around).map(|_| [2, 0, 0]));
    let mut plan = vec![steps.len() as u32];
    plan.extend(steps.iter().flatten());
    let mut words = vec![1, m];
    let ticks = [rng.word(1, 50), rng.word(1, 50), cost];
    put_task(&mut words, ticks, &plan);
    words
}

/// A sound table with one word spoiled, cut or added.
fn spoiled(rng: &mut Rng) -> Vec<u32> {
    let mut words = match rng.between(0, 3) {
        0 => rng.pick(&KNOWN).to_vec(),
        1 => roomy(rng),
        2 => diving(rng),
        _ => lively(rng),
    };
    let at = rng.index(words.len());
    match rng.between(0, 9) {
        0..=2 => words[at] = odd_word(rng),
        // A word of a head: n, m, or T, D, C and s of a task.
        3..=5 => {
            let head = rng.pick(&heads(&words));
            words[head] = if rng.chance(1, 2) {
                too_small_or_large(rng)
            } else {
                odd_word(rng)
            };
        }
        6 => words.truncate(at),
        7 => words.push(odd_word(rng)),
        8 => words.insert(at, odd_word(rng)),
        _ => {
            words.remove(at);
        }
    }
    words
}

/// Where the words n, m, and T, D, C and s of each task stand in a sound table.
pub fn heads(words: &[u32]) -> Vec<usize> {
    let mut places: Vec<usize> = (0..TABLE_HEAD).collect();
    let mut at = TABLE_HEAD;
    while at + TASK_HEAD <= words.len() {
        places.extend(at..at + TASK_HEAD);
        at = end_of_plan(words, at);
    }
    places
}

/// The index after the plan of the task whose first word this is.
pub fn end_of_plan(words: &[u32], task: usize) -> usize {
    task + TASK_HEAD + STEP_WORDS * words[task + TASK_HEAD - 1] as usize
}

/// A word that is right in no head, or in few.
fn too_small_or_large(rng: &mut Rng) -> u32 {
    rng.pick(&[0, TASKS + 1, TICKS + 1, u32::MAX])
}

/// Less than `most` words that are likely to be wrong.
fn odd_words(rng: &mut Rng, most: usize) -> Vec<u32> {
    let count = rng.index(most);
    (0..count).map(|_| odd_word(rng)).collect()
}

/// A word that is likely to be wrong where it stands.
pub fn odd_word(rng: &mut Rng) -> u32 {
    let any = rng.bits() as u32;
    rng.pick(&[
        0,
        0,
        1,
        2,
        3,
        4,
        5,
        9,
        TASKS - 1,
        TASKS,
        TASKS + 1,
        BITS - 1,
        BITS,
        TICKS - 1,
        TICKS,
        TICKS + 1,
        1 << 31,
        u32::MAX,
        any,
    ])
}

/// A sound plan: the number of its steps, at most `most`, and their words.
fn plan(rng: &mut Rng, m: u32, cost: u32, most: u32) -> Vec<u32> {
    // Some plans have one section after the other, some dive.
    let eager = rng.between(3, 9);
    let mut steps: Vec<[u32; STEP_WORDS]> = Vec::new();
    let mut held: Vec<u32> = Vec::new();
    // What is left of C, and of the length of each section that is held.
    let mut left = vec![cost];
    loop {
        let free: Vec<u32> = (0..m).filter(|r| !held.contains(r)).collect();
        let room = most as usize - steps.len() >= held.len() + 2;
        let may_lock = room && held.len() < DEPTH && !free.is_empty() && left[held.len()] > 0;
        if may_lock && rng.chance(eager, 10) {
            let around = &mut left[held.len()];
            let length = match rng.between(0, 3) {
                // All that is left: nothing comes after it on this level.
                0 => *around,
                1 => rng.word(1, *around),
                _ => rng.word(1, around.div_ceil(3)),
            };
            *around -= length;
            let resource = rng.pick(&free);
            held.push(resource);
            left.push(length);
            steps.push([1, resource, length]);
        } else if held.pop().is_some() {
            left.pop();
            steps.push([2, 0, 0]);
        } else {
            break;
        }
    }
    let mut words = vec![steps.len() as u32];
    words.extend(steps.into_iter().flatten());
    words
}
