//! On which grounds a state is torn, a list of words is refused: finer than a reply says it, for the tally alone.

use std::fmt::{Display, Formatter, Result as Written};

use reference::limits::{name, COUNT, CROWDED, NEST, RANGE, SHORT, STEP};
use reference::limits::{COUNT_LIMIT, DEPTH, END_OF_TIME, ROOM, STORED_TIME};
use reference::limits::{STEP_WORDS, TABLE_HEAD, TASK_HEAD};
use reference::state::contains;
use reference::{Refusal, State, Step, Table, Task};

use crate::draw::tables::end_of_plan;
use crate::sets::all_below;

/// The grounds of TORN (01, "When an event is turned away"), stored times field by field.
#[derive(Clone, Copy, PartialEq, Eq, Debug)]
pub enum TornGround {
    /// The table would not pass the check, though its length has room.
    Table,
    LengthAboveTheRoom,
    Clock,
    Ready,
    Place,
    Base,
    Active,
    /// A saved deadline, by its slot.
    Saved(usize),
    LastTooFar,
    LastAfterTheClock,
    Count,
    NumbersEqual,
    NumberNotBelowTheCount,
}

impl TornGround {
    pub fn all() -> Vec<TornGround> {
        use TornGround::*;
        let mut all = vec![Table, LengthAboveTheRoom, Clock, Ready, Place, Base, Active];
        all.extend((0..DEPTH).map(Saved));
        all.extend([LastTooFar, LastAfterTheClock, Count]);
        all.extend([NumbersEqual, NumberNotBelowTheCount]);
        all
    }

    /// Every ground on which a state is torn. `table` is the state's own.
    pub fn met(state: &State, table: Option<&Table>) -> Vec<TornGround> {
        let mut met = TornGround::all();
        met.retain(|ground| ground.holds(state, table));
        met
    }

    /// Is the state torn on this ground? Where its table doesn't pass the check, the grounds that ask for it don't hold.
    fn holds(self, state: &State, table: Option<&Table>) -> bool {
        let room = state.length <= ROOM as u64;
        let n = table.map_or(0, |table| table.tasks.len());
        let rows = &state.rows;
        let ready = state.ready_tasks(n);
        let had = |task: &usize| contains(state.had, *task as u32);
        match self {
            TornGround::Table => table.is_none() && room,
            TornGround::LengthAboveTheRoom => !room,
            TornGround::Clock => state.clock >= END_OF_TIME,
            TornGround::Ready => table.is_some() && state.ready & !all_below(n) != 0,
            TornGround::Place => table.is_some_and(|table| {
                let end = |task: usize| table.tasks[task].steps.len();
                ready
                    .iter()
                    .any(|task| rows[*task].place as usize > end(*task))
            }),
            TornGround::Base => rows.iter().any(|row| row.base > STORED_TIME),
            TornGround::Active => rows.iter().any(|row| row.active > STORED_TIME),
            TornGround::Saved(slot) => rows.iter().any(|row| row.saved[slot] > STORED_TIME),
            TornGround::LastTooFar => rows.iter().any(|row| row.last > STORED_TIME),
            TornGround::LastAfterTheClock => {
                (0..n).filter(had).any(|task| rows[task].last > state.clock)
            }
            TornGround::Count => state.count > COUNT_LIMIT,
            TornGround::NumbersEqual => ready.iter().enumerate().any(|(k, task)| {
                let same = |other: &usize| rows[*other].number == rows[*task].number;
                ready[k + 1..].iter().any(same)
            }),
            TornGround::NumberNotBelowTheCount => {
                ready.iter().any(|task| rows[*task].number >= state.count)
            }
        }
    }
}

impl Display for TornGround {
    fn fmt(&self, f: &mut Formatter) -> Written {
        f.write_str(match self {
            TornGround::Table => "table",
            TornGround::LengthAboveTheRoom => "length above the room",
            TornGround::Clock => "clock",
            TornGround::Ready => "ready",
            TornGround::Place => "place",
            TornGround::Base => "base",
            TornGround::Active => "active",
            TornGround::Saved(slot) => return write!(f, "saved {slot}"),
            TornGround::LastTooFar => "last too far",
            TornGround::LastAfterTheClock => "last after the clock",
            TornGround::Count => "count",
            TornGround::NumbersEqual => "numbers equal",
            TornGround::NumberNotBelowTheCount => "number not below the count",
        })
    }
}

/// The grounds on which a list of words is refused (01, "When the table check says no", and request 105).
#[derive(Clone, Copy, PartialEq, Eq, Debug)]
pub enum CheckGround {
    WordMissing,
    WordsRemain,
    NoTask,
    TooManyTasks,
    TooManyResources,
    TooManySteps,
    /// One of a task's times, by its place in the task's head.
    Zero(usize),
    TooLarge(usize),
    Kind,
    UnlockWithResource,
    UnlockWithLength,
    ResourceNotBelowM,
    NoLength,
    LengthAboveC,
    NothingHeld,
    AlreadyHeld,
    TooDeep,
    LongerThanAround,
    EndsHolding,
    /// The sections claim more than what is right around them, which is C or another section: by how many sections are around them.
    Crowded(usize),
}

/// The names of the times at the front of a task's head.
const TIMES: [&str; 3] = ["T", "D", "C"];

impl CheckGround {
    pub fn all() -> Vec<CheckGround> {
        use CheckGround::*;
        let mut all = vec![WordMissing, WordsRemain, NoTask, TooManyTasks];
        all.extend([TooManyResources, TooManySteps]);
        all.extend((0..TIMES.len()).flat_map(|time| [Zero(time), TooLarge(time)]));
        all.extend([Kind, UnlockWithResource, UnlockWithLength]);
        all.extend([ResourceNotBelowM, NoLength, LengthAboveC]);
        all.extend([NothingHeld, AlreadyHeld, TooDeep]);
        all.extend([LongerThanAround, EndsHolding]);
        all.extend((0..DEPTH).map(Crowded));
        all
    }

    /// The ground of a refusal that the second program gave for these words.
    pub fn of(words: &[u32], refusal: Refusal) -> CheckGround {
        let place = refusal.place;
        match refusal.number {
            SHORT if place == words.len() => CheckGround::WordMissing,
            SHORT => CheckGround::WordsRemain,
            COUNT if place == 0 && words[place] == 0 => CheckGround::NoTask,
            COUNT if place == 0 => CheckGround::TooManyTasks,
            COUNT if place == 1 => CheckGround::TooManyResources,
            COUNT => CheckGround::TooManySteps,
            RANGE => {
                let time = place - task_around(words, refusal);
                if words[place] == 0 {
                    CheckGround::Zero(time)
                } else {
                    CheckGround::TooLarge(time)
                }
            }
            STEP => match words[place..place + STEP_WORDS] {
                [1, resource, _] if resource >= words[1] => CheckGround::ResourceNotBelowM,
                [1, _, 0] => CheckGround::NoLength,
                [1, _, _] => CheckGround::LengthAboveC,
                [2, 0, _] => CheckGround::UnlockWithLength,
                [2, _, _] => CheckGround::UnlockWithResource,
                _ => CheckGround::Kind,
            },
            CROWDED => CheckGround::Crowded(level_of(words, refusal).around),
            _ => CheckGround::of_nest(words, refusal),
        }
    }

    fn of_nest(words: &[u32], refusal: Refusal) -> CheckGround {
        let place = refusal.place;
        let task = task_around(words, refusal);
        let held = held_before(words, task, place);
        match words.get(place) {
            _ if place == end_of_plan(words, task) => CheckGround::EndsHolding,
            Some(2) => CheckGround::NothingHeld,
            _ if held.contains(&words[place + 1]) => CheckGround::AlreadyHeld,
            _ if held.len() == DEPTH => CheckGround::TooDeep,
            _ => CheckGround::LongerThanAround,
        }
    }

    /// The number of the refusal, and the ground in words.
    fn told(self) -> (u32, String) {
        use CheckGround::*;
        let (number, ground) = match self {
            WordMissing => (SHORT, "a wanted word isn't there"),
            WordsRemain => (SHORT, "words remain"),
            NoTask => (COUNT, "n is 0"),
            TooManyTasks => (COUNT, "n too large"),
            TooManyResources => (COUNT, "m too large"),
            TooManySteps => (COUNT, "s too large"),
            Zero(time) => return (RANGE, format!("{} is 0", TIMES[time])),
            TooLarge(time) => return (RANGE, format!("{} too large", TIMES[time])),
            Kind => (STEP, "kind"),
            UnlockWithResource => (STEP, "unlock with a resource"),
            UnlockWithLength => (STEP, "unlock with a length"),
            ResourceNotBelowM => (STEP, "resource not below m"),
            NoLength => (STEP, "length 0"),
            LengthAboveC => (STEP, "length above C"),
            NothingHeld => (NEST, "unlock with nothing held"),
            AlreadyHeld => (NEST, "resource already held"),
            TooDeep => (NEST, "one section too many"),
            LongerThanAround => (NEST, "longer than the section around it"),
            EndsHolding => (NEST, "the plan ends holding something"),
            Crowded(0) => (CROWDED, "the outermost sections and C"),
            Crowded(around) => {
                return (CROWDED, format!("sections inside one at depth {around}"));
            }
        };
        (number, ground.to_string())
    }
}

impl Display for CheckGround {
    fn fmt(&self, f: &mut Formatter) -> Written {
        let (number, ground) = self.told();
        write!(f, "{number} {}: {ground}", name(number))
    }
}

/// The first word of the task that a refusal's place stands in, or right behind. The words before the place are sound.
fn task_around(words: &[u32], refusal: Refusal) -> usize {
    let mut task = TABLE_HEAD;
    while refusal.place >= task + TASK_HEAD {
        let end = end_of_plan(words, task);
        if refusal.place < end {
            break;
        }
        // A plan that ends holding something is refused at the index after its last word.
        let after = refusal.number == NEST && refusal.place == end;
        if after && !held_before(words, task, end).is_empty() {
            break;
        }
        task = end;
    }
    task
}

/// The resources that the plan of a task holds before the step at `place`.
fn held_before(words: &[u32], task: usize, place: usize) -> Vec<u32> {
    let mut held = Vec::new();
    for step in words[task + TASK_HEAD..place].chunks_exact(STEP_WORDS) {
        match step[0] {
            1 => held.push(step[1]),
            _ => {
                held.pop();
            }
        }
    }
    held
}

/// Where a lock step stands: how many sections are around it, how long what is right around it may take, and what the sections directly
/// inside that claim before it.
struct Level {
    around: usize,
    most: u32,
    claimed: u32,
}

/// The level of the step at the place of a refusal.
fn level_of(words: &[u32], refusal: Refusal) -> Level {
    let task = task_around(words, refusal);
    let cost = words[task + TASK_HEAD - 2];
    let mut open = vec![(cost, 0)];
    for step in words[task + TASK_HEAD..refusal.place].chunks_exact(STEP_WORDS) {
        enter(&mut open, (step[0] == 1).then_some(step[2]));
    }
    let (most, claimed) = open[open.len() - 1];
    Level {
        around: open.len() - 1,
        most,
        claimed,
    }
}

/// One step more of a sound plan, a lock of this length or an unlock. `open` has C and the length of each section that is held, and what is
/// claimed of each.
fn enter(open: &mut Vec<(u32, u32)>, lock: Option<u32>) {
    match (lock, open.last_mut()) {
        (Some(length), Some((_, claimed))) => {
            *claimed += length;
            open.push((length, 0));
        }
        _ => {
            open.pop();
        }
    }
}

/// How a refused lock stands to CROWDED.
#[derive(Clone, Copy, PartialEq, Eq, Debug)]
pub enum Crowding {
    /// CROWDED, and one tick less would have passed.
    ByOneTick,
    /// STEP, and a sound step of this length would have been CROWDED.
    AfterStep,
    /// NEST, and likewise.
    AfterNest,
}

impl Crowding {
    pub const ALL: [Crowding; 3] = [
        Crowding::ByOneTick,
        Crowding::AfterStep,
        Crowding::AfterNest,
    ];

    /// What is so of a refusal that the second program gave for these words. A length that alone is too long for what is around it doesn't count.
    pub fn of(words: &[u32], refusal: Refusal) -> Option<Crowding> {
        let number = refusal.number;
        if ![STEP, NEST, CROWDED].contains(&number) {
            return None;
        }
        let &[1, _, length] = words.get(refusal.place..refusal.place + STEP_WORDS)? else {
            return None;
        };
        if number == NEST && CheckGround::of(words, refusal) == CheckGround::EndsHolding {
            return None;
        }
        let level = level_of(words, refusal);
        if length > level.most || level.claimed + length <= level.most {
            return None;
        }
        match number {
            STEP => Some(Crowding::AfterStep),
            NEST => Some(Crowding::AfterNest),
            _ if level.claimed + length == level.most + 1 => Some(Crowding::ByOneTick),
            _ => None,
        }
    }
}

impl Display for Crowding {
    fn fmt(&self, f: &mut Formatter) -> Written {
        f.write_str(match self {
            Crowding::ByOneTick => "14 CROWDED by one tick",
            Crowding::AfterStep => "4 STEP that goes before 14 CROWDED",
            Crowding::AfterNest => "5 NEST that goes before 14 CROWDED",
        })
    }
}

/// Where several sections of a plan fill what is right around them to the last tick: by how many sections are around them.
pub fn filled(task: &Task) -> Vec<usize> {
    let mut filled = Vec::new();
    let mut open = vec![(task.cost, 0)];
    for step in &task.steps {
        let (most, claimed) = open[open.len() - 1];
        let lock = match step {
            Step::Lock(section) => Some(section.length),
            Step::Unlock => None,
        };
        if lock.is_some_and(|length| claimed > 0 && claimed + length == most) {
            filled.push(open.len() - 1);
        }
        enter(&mut open, lock);
    }
    filled
}
