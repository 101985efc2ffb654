//! The twin: the same calls on the same image, with the same checks and replies, in plain Rust and without a proof.
//!
//! It is written for speed. It changes the image where it lies, unpacks the words that are in use, walks the table once, and takes nothing else apart. It is
//! compared with the second program as the archive is (tests/twin.rs), so that what it is fast at is the right thing.

use harness::answers::{plain, runs, Answer, ACCEPTED, FINISHED};
use harness::calls::Calls;
use harness::image::{at, Image, ACTIVE, BASE, CLOCK, COUNT, FIRST_ROW, HAD, LAST, LENGTH};
use harness::image::{NUMBER, PLACE, READY, ROW, SAVED};
use harness::sets::all_below;
use harness::Event;
use reference::limits::{self, COUNT_LIMIT, END_OF_TIME, ROOM, ROWS, STORED_TIME};
use reference::limits::{BACK, CROWDED, EARLY, END, HELD, NEST, NOBODY, RANGE, SHORT, STEP, TORN};
use reference::limits::{DEPTH, RESOURCES, STEPS, STEP_WORDS, TABLE_HEAD, TASKS, TASK_HEAD, TICKS};

use crate::plain::verdict;

/// Where a task's words stand in it.
pub(crate) const PERIOD: usize = 0;
pub(crate) const DEADLINE: usize = 1;
pub(crate) const COST: usize = 2;
const TIMES: usize = 3;
const COUNT_OF_STEPS: usize = TASK_HEAD - 1;

/// What one walk over a sound table learns: how many tasks there are and where each starts.
pub(crate) struct Survey {
    pub(crate) tasks: usize,
    pub(crate) starts: [usize; ROWS],
}

/// A refusal's number, and for the check its place.
type Refused = (u32, usize);

/// Walks over the words of a table once.
#[inline(always)]
pub(crate) fn survey(words: &[u32]) -> Result<Survey, Refused> {
    let ask = |at: usize| words.get(at).copied().ok_or((SHORT, words.len()));
    let tasks = ask(0)?;
    if tasks == 0 || tasks > TASKS {
        return Err((limits::COUNT, 0));
    }
    let resources = ask(1)?;
    if resources > RESOURCES {
        return Err((limits::COUNT, 1));
    }
    let tasks = tasks as usize;
    let mut starts = [0; ROWS];
    let mut at = TABLE_HEAD;
    for start in &mut starts[..tasks] {
        *start = at;
        for place in at..at + TIMES {
            let ticks = ask(place)?;
            if ticks == 0 || ticks > TICKS {
                return Err((RANGE, place));
            }
        }
        let cost = words[at + COST];
        let steps = ask(at + COUNT_OF_STEPS)?;
        if steps > STEPS {
            return Err((limits::COUNT, at + COUNT_OF_STEPS));
        }
        at = plan(words, at + TASK_HEAD, steps, resources, cost)?;
    }
    if at < words.len() {
        return Err((SHORT, at));
    }
    Ok(Survey { tasks, starts })
}

/// Walks over one plan; the index after its last word.
#[inline(always)]
fn plan(
    words: &[u32],
    mut at: usize,
    steps: u32,
    resources: u32,
    cost: u32,
) -> Result<usize, Refused> {
    let mut held: u32 = 0;
    let mut depth = 0;
    let mut sections = [(0, 0); DEPTH];
    // What is left of C, and of each section that is held.
    let mut left = [cost; DEPTH + 1];
    for _ in 0..steps {
        let Some(&[kind, resource, ticks]) = words.get(at..at + STEP_WORDS) else {
            return Err((SHORT, words.len()));
        };
        if kind == 1 {
            if resource >= resources || ticks == 0 || ticks > cost {
                return Err((STEP, at));
            }
            let around = if depth == 0 {
                cost
            } else {
                sections[depth - 1].1
            };
            if held >> resource & 1 == 1 || depth == DEPTH || ticks > around {
                return Err((NEST, at));
            }
            if ticks > left[depth] {
                return Err((CROWDED, at));
            }
            held |= 1 << resource;
            sections[depth] = (resource, ticks);
            left[depth] -= ticks;
            depth += 1;
            left[depth] = ticks;
        } else {
            if kind != 2 || resource != 0 || ticks != 0 {
                return Err((STEP, at));
            }
            if depth == 0 {
                return Err((NEST, at));
            }
            depth -= 1;
            held &= !(1 << sections[depth].0);
        }
        at += STEP_WORDS;
    }
    if depth != 0 {
        return Err((NEST, at));
    }
    Ok(at)
}

/// The words that are in use, unpacked; nothing where there would be more than there is room for.
#[inline(always)]
fn unpack<'a>(image: &Image, room: &'a mut [u32; ROOM]) -> Option<&'a [u32]> {
    if image[LENGTH] > ROOM as u64 {
        return None;
    }
    let length = image[LENGTH] as usize;
    let (pairs, _) = room.as_chunks_mut::<2>();
    for (pair, packed) in pairs.iter_mut().zip(&image[..length.div_ceil(2)]) {
        *pair = [*packed as u32, (*packed >> 32) as u32];
    }
    Some(&room[..length])
}

/// The members of a set, the lowest first.
fn members(set: u32) -> impl Iterator<Item = usize> {
    let mut rest = set;
    std::iter::from_fn(move || {
        let lowest = rest.trailing_zeros();
        rest &= rest.wrapping_sub(1);
        (lowest < 32).then_some(lowest as usize)
    })
}

/// The survey of the image's table if the state is whole; nothing if it is torn.
#[inline(always)]
fn whole(image: &Image, words: &[u32]) -> Option<Survey> {
    let survey = survey(words).ok()?;
    let (clock, count) = (image[CLOCK], image[COUNT]);
    let (ready, had) = (image[READY] as u32, image[HAD] as u32);
    let below = all_below(survey.tasks);
    if clock >= END_OF_TIME || count > COUNT_LIMIT || ready & !below != 0 {
        return None;
    }
    let (rows, _) = image[FIRST_ROW..].as_chunks::<ROW>();
    for row in rows {
        let latest = row[SAVED..=LAST]
            .iter()
            .fold(row[BASE].max(row[ACTIVE]), |latest, time| latest.max(*time));
        if latest > STORED_TIME {
            return None;
        }
    }
    if members(had & below).any(|task| rows[task][LAST] > clock) {
        return None;
    }
    let mut others = ready;
    for task in members(ready) {
        others &= others - 1;
        let row = &rows[task];
        if row[PLACE] as u32 > words[survey.starts[task] + COUNT_OF_STEPS]
            || row[NUMBER] >= count
            || members(others).any(|other| rows[other][NUMBER] == row[NUMBER])
        {
            return None;
        }
    }
    Some(survey)
}

/// The ready job with the earliest active deadline, and among equals the one released first.
#[inline(always)]
fn running(image: &Image) -> Option<usize> {
    members(image[READY] as u32 & all_below(ROWS))
        .min_by_key(|task| (image[at(*task, ACTIVE)], image[at(*task, NUMBER)]))
}

/// An accepted event: the fields of 32 bits are left as they were read, and who runs is answered.
#[inline(always)]
fn accept(image: &mut Image, time: u64, number: u64, value: u64, answer: &mut Answer) -> u64 {
    image[CLOCK] = time;
    image[READY] &= 0xffff_ffff;
    image[HAD] &= 0xffff_ffff;
    for row in image[FIRST_ROW..].chunks_exact_mut(ROW) {
        row[PLACE] &= 0xffff_ffff;
    }
    *answer = match running(image) {
        Some(task) => runs(number, value, task as u64, image[at(task, ACTIVE)]),
        None => plain(number, value),
    };
    number
}

fn refuse(number: u32, answer: &mut Answer) -> u64 {
    *answer = plain(u64::from(number), 0);
    u64::from(number)
}

#[inline(never)]
pub fn release(image: &mut Image, task: u32, time: u64, answer: &mut Answer) -> u64 {
    let mut room = [0; ROOM];
    let Some(words) = unpack(image, &mut room) else {
        return refuse(TORN, answer);
    };
    let Some(survey) = whole(image, words) else {
        return refuse(TORN, answer);
    };
    if time < image[CLOCK] {
        return refuse(BACK, answer);
    }
    if time >= END_OF_TIME {
        return refuse(END, answer);
    }
    let index = task as usize;
    if index >= survey.tasks {
        return refuse(NOBODY, answer);
    }
    let start = survey.starts[index];
    let bit = 1u64 << task;
    if image[READY] & bit != 0 {
        return refuse(limits::ACTIVE, answer);
    }
    let period = u64::from(words[start + PERIOD]);
    if image[HAD] & bit != 0 && time < image[at(index, LAST)] + period {
        return refuse(EARLY, answer);
    }
    let deadline = time + u64::from(words[start + DEADLINE]);
    let number = image[COUNT];
    image[COUNT] += 1;
    image[READY] |= bit;
    image[HAD] |= bit;
    let row = &mut image[at(index, 0)..at(index + 1, 0)];
    row.fill(0);
    row[BASE] = deadline;
    row[ACTIVE] = deadline;
    row[NUMBER] = number;
    row[LAST] = time;
    accept(image, time, ACCEPTED, 0, answer)
}

/// What the first `place` steps of a plan leave held: the set of resources and how many they are.
fn held(words: &[u32], start: usize, place: usize) -> (u32, usize) {
    let mut set = 0;
    let mut depth = 0;
    let mut sections = [0; DEPTH];
    for step in words[start + TASK_HEAD..][..STEP_WORDS * place].chunks_exact(STEP_WORDS) {
        if step[0] == 1 {
            sections[depth] = step[1];
            depth += 1;
            set |= 1 << step[1];
        } else {
            depth -= 1;
            set &= !(1 << sections[depth]);
        }
    }
    (set, depth)
}

/// The steps of the plan of the task that starts here.
pub(crate) fn steps(words: &[u32], start: usize) -> impl Iterator<Item = &[u32]> {
    let count = words[start + COUNT_OF_STEPS] as usize;
    words[start + TASK_HEAD..][..STEP_WORDS * count].chunks_exact(STEP_WORDS)
}

/// The least D among the users of a resource.
fn floor(words: &[u32], survey: &Survey, resource: u32) -> u64 {
    let uses = |start: &usize| steps(words, *start).any(|step| step[0] == 1 && step[1] == resource);
    let users = survey.starts[..survey.tasks]
        .iter()
        .filter(|start| uses(start));
    u64::from(
        users
            .map(|start| words[start + DEADLINE])
            .min()
            .unwrap_or(0),
    )
}

#[inline(never)]
pub fn step(image: &mut Image, time: u64, answer: &mut Answer) -> u64 {
    let mut room = [0; ROOM];
    let Some(words) = unpack(image, &mut room) else {
        return refuse(TORN, answer);
    };
    let Some(survey) = whole(image, words) else {
        return refuse(TORN, answer);
    };
    if time < image[CLOCK] {
        return refuse(BACK, answer);
    }
    if time >= END_OF_TIME {
        return refuse(END, answer);
    }
    let Some(task) = running(image) else {
        return refuse(NOBODY, answer);
    };
    let start = survey.starts[task];
    let place = image[at(task, PLACE)] as u32 as usize;
    if place == words[start + COUNT_OF_STEPS] as usize {
        let lateness = time as i64 - image[at(task, BASE)] as i64;
        image[READY] &= !(1 << task);
        image[at(task, BASE)..at(task, LAST)].fill(0);
        return accept(image, time, FINISHED, lateness as u64, answer);
    }
    let first = start + TASK_HEAD + STEP_WORDS * place;
    let (_, depth) = held(words, start, place);
    if words[first] == 1 {
        let resource = words[first + 1];
        let others = image[READY] as u32 & !(1 << task);
        let holds = |other: usize| {
            let place = image[at(other, PLACE)] as u32 as usize;
            held(words, survey.starts[other], place).0 >> resource & 1 == 1
        };
        if members(others).any(holds) {
            return refuse(HELD, answer);
        }
        let active = image[at(task, ACTIVE)];
        image[at(task, SAVED) + depth] = active;
        image[at(task, ACTIVE)] = active.min(time + floor(words, &survey, resource));
    } else {
        let slot = at(task, SAVED) + depth - 1;
        image[at(task, ACTIVE)] = image[slot];
        image[slot] = 0;
    }
    image[at(task, PLACE)] += 1;
    accept(image, time, ACCEPTED, 0, answer)
}

#[inline(never)]
pub fn check(words: &[u32], answer: &mut Answer) -> u64 {
    let (number, value) = match survey(words) {
        Ok(_) => (ACCEPTED, 0),
        Err((number, place)) => (u64::from(number), place as u64),
    };
    *answer = plain(number, value);
    number
}

#[inline(never)]
pub fn start(words: &[u32], image: &mut Image, answer: &mut Answer) -> u64 {
    *image = Image::all(0);
    let number = check(words, answer);
    if number == ACCEPTED {
        image.set_words(words);
        image[LENGTH] = words.len() as u64;
    }
    number
}

/// The twin in the archive's place, for the comparison with the second program.
pub struct Twin;

impl Calls for Twin {
    fn check(&self, words: &[u32], answer: &mut Answer) -> u64 {
        check(words, answer)
    }

    fn start(&self, words: &[u32], image: &mut Image, answer: &mut Answer) -> u64 {
        start(words, image, answer)
    }

    fn event(&self, image: &mut Image, event: Event, answer: &mut Answer) -> u64 {
        match event {
            Event::Release { task, time } => release(image, task, time, answer),
            Event::Step { time } => step(image, time, answer),
        }
    }

    fn verdict(&self, words: &[u32], answer: &mut Answer) -> u64 {
        verdict(words, answer)
    }
}
