//! The comparison can fail: the second program with one slip in it stands in the archive's place, and each slip is found
//! within the gate's events. Without a slip nothing is found.

use board_tests::hammer;
use harness::answers::{self, is_accepted, plain, runs, Answer, ACCEPTED, FINISHED};
use harness::answers::{DEADLINE, NUMBER, RUNS, TASK, VALUE};
use harness::calls::{Calls, Second};
use harness::image::{self, at, decode, encode, Image, ACTIVE, BASE, CLOCK, COUNT, HAD, LAST};
use harness::image::{LENGTH, PLACE, READY, SAVED};
use harness::tally::grounds::{filled, Crowding};
use harness::Event;
use reference::limits::{BACK, CROWDED, EARLY, HELD, LATE, TORN};
use reference::limits::{COUNT_LIMIT, END_OF_TIME, ROOM, STORED_TIME};
use reference::{running, Step};

/// What is done wrong with an event: given the image before it, the event, and what was right.
type Wrong = Box<dyn Fn(&Image, Event, &mut Image, &mut Answer)>;

/// The second program, and what is done wrong in its calls.
struct Slip {
    event: Wrong,
    check: fn(words: &[u32], answer: &mut Answer),
    start: fn(image: &mut Image, answer: &mut Answer),
    verdict: fn(answer: &mut Answer),
}

/// Nothing is done wrong.
fn right() -> Slip {
    Slip {
        event: Box::new(|_, _, _, _| {}),
        check: |_, _| {},
        start: |_, _| {},
        verdict: |_| {},
    }
}

impl Calls for Slip {
    fn check(&self, words: &[u32], answer: &mut Answer) -> u64 {
        Second.check(words, answer);
        (self.check)(words, answer);
        answer[NUMBER]
    }

    fn start(&self, words: &[u32], image: &mut Image, answer: &mut Answer) -> u64 {
        Second.start(words, image, answer);
        (self.start)(image, answer);
        answer[NUMBER]
    }

    fn event(&self, image: &mut Image, event: Event, answer: &mut Answer) -> u64 {
        let before = *image;
        Second.event(image, event, answer);
        (self.event)(&before, event, image, answer);
        answer[NUMBER]
    }

    fn verdict(&self, words: &[u32], answer: &mut Answer) -> u64 {
        Second.verdict(words, answer);
        (self.verdict)(answer);
        answer[NUMBER]
    }
}

fn is_found(slip: &Slip) -> bool {
    hammer::events(slip, 1, 60_000).is_err()
}

fn found(event: impl Fn(&Image, Event, &mut Image, &mut Answer) + 'static) {
    let event = Box::new(event);
    assert!(is_found(&Slip { event, ..right() }));
}

/// Refuses the event.
fn refuse(number: u32, before: &Image, image: &mut Image, answer: &mut Answer) {
    *image = *before;
    *answer = plain(u64::from(number), 0);
}

#[test]
fn no_slip() {
    assert!(!is_found(&right()));
}

#[test]
fn ties_broken_by_task_number() {
    found(|_, _, image, answer| {
        if is_accepted(answer) && answer[RUNS] == 1 {
            for task in 0..answer[TASK] {
                let ready = image[READY] >> task & 1 == 1;
                if ready && image[at(task as usize, ACTIVE)] == answer[DEADLINE] {
                    answer[TASK] = task;
                    break;
                }
            }
        }
    });
}

/// The job that an accepted step of this image moves.
fn mover(before: &Image) -> Option<(usize, Option<Step>)> {
    let state = decode(before);
    let table = state.table()?;
    let task = running(&state, &table)?;
    Some((task, table.tasks[task].next(state.rows[task].place)))
}

#[test]
fn unlock_goes_back_to_the_base() {
    found(|before, event, image, answer| {
        if let (Event::Step { .. }, true) = (event, is_accepted(answer)) {
            if let Some((task, Some(Step::Unlock))) = mover(before) {
                image[at(task, ACTIVE)] = image[at(task, BASE)];
            }
        }
    });
}

#[test]
fn an_unlock_keeps_its_slot() {
    found(|before, event, image, answer| {
        if let (Event::Step { .. }, true) = (event, is_accepted(answer)) {
            if let Some((task, Some(Step::Unlock))) = mover(before) {
                let saved = at(task, SAVED)..at(task, LAST);
                image[saved.clone()].copy_from_slice(&before[saved]);
            }
        }
    });
}

#[test]
fn lateness_as_a_distance() {
    found(|_, _, _, answer| {
        if answer[NUMBER] == FINISHED {
            answer[VALUE] = (answer[VALUE] as i64).unsigned_abs();
        }
    });
}

#[test]
fn lowering_to_the_floor_alone() {
    found(|before, event, image, answer| {
        if let (Event::Step { .. }, true) = (event, is_accepted(answer)) {
            if let Some((task, Some(Step::Lock(section)))) = mover(before) {
                let table = decode(before).table().expect("an accepted event");
                let floor = u64::from(table.floor(section.resource).unwrap_or(0));
                image[at(task, ACTIVE)] = before[at(task, ACTIVE)].min(floor);
            }
        }
    });
}

#[test]
fn held_is_never_said() {
    found(|before, event, image, answer| {
        if answer[NUMBER] == u64::from(HELD) {
            let (task, _) = mover(before).expect("HELD has a running job");
            image[at(task, PLACE)] += 1;
            image[CLOCK] = event.time();
            *answer = runs(ACCEPTED, 0, task as u64, image[at(task, ACTIVE)]);
        }
    });
}

#[test]
fn a_refused_event_sets_the_clock() {
    found(|_, event, image, answer| {
        if answer[NUMBER] == u64::from(EARLY) {
            image[CLOCK] = event.time();
        }
    });
}

#[test]
fn a_refused_event_cleans_the_image() {
    found(|before, _, image, answer| {
        if !is_accepted(answer) {
            *image = encode(&decode(before));
        }
    });
}

#[test]
fn an_accepted_event_leaves_a_number_too_large() {
    found(|before, _, image, answer| {
        if is_accepted(answer) {
            image[HAD] |= before[HAD] >> 32 << 32;
        }
    });
}

#[test]
fn a_finish_keeps_the_saved_deadlines() {
    found(|before, _, image, answer| {
        if answer[NUMBER] == FINISHED {
            let (task, _) = mover(before).expect("a finish has a running job");
            let saved = at(task, SAVED)..at(task, LAST);
            image[saved.clone()].copy_from_slice(&before[saved]);
        }
    });
}

#[test]
fn a_release_keeps_the_saved_deadlines() {
    found(|before, event, image, answer| {
        if let (Event::Release { task, .. }, true) = (event, is_accepted(answer)) {
            let saved = at(task as usize, SAVED)..at(task as usize, LAST);
            image[saved.clone()].copy_from_slice(&before[saved]);
        }
    });
}

#[test]
fn the_words_behind_the_length_are_cleared() {
    found(|_, _, image, answer| {
        if is_accepted(answer) {
            let mut words = image.words();
            words.truncate(image[LENGTH] as usize);
            image.set_words(&words);
        }
    });
}

#[test]
fn an_equal_time_is_back() {
    found(|before, event, image, answer| {
        if is_accepted(answer) && event.time() == before[CLOCK] {
            refuse(BACK, before, image, answer);
        }
    });
}

#[test]
fn a_stored_time_at_the_limit_is_torn() {
    for field in [BASE, ACTIVE, LAST].into_iter().chain(SAVED..LAST) {
        found(move |before, _, image, answer| {
            if before.rows().any(|row| row[field] == STORED_TIME) {
                refuse(TORN, before, image, answer);
            }
        });
    }
}

#[test]
fn a_count_at_the_limit_is_torn() {
    found(|before, _, image, answer| {
        if before[COUNT] == COUNT_LIMIT {
            refuse(TORN, before, image, answer);
        }
    });
}

#[test]
fn the_last_tick_is_torn() {
    found(|before, _, image, answer| {
        if before[CLOCK] == END_OF_TIME - 1 {
            refuse(TORN, before, image, answer);
        }
    });
}

#[test]
fn the_longest_table_is_torn() {
    found(|before, _, image, answer| {
        if before[LENGTH] == ROOM as u64 {
            refuse(TORN, before, image, answer);
        }
    });
}

#[test]
fn a_large_length_is_read_by_its_low_half() {
    found(|before, event, image, answer| {
        if before[LENGTH] > u64::from(u32::MAX) {
            let mut other = *before;
            other[LENGTH] &= u64::from(u32::MAX);
            Second.event(&mut other, event, answer);
            *image = other;
        }
    });
}

#[test]
fn a_last_release_right_at_the_clock_is_torn() {
    found(|before, _, image, answer| {
        let last = |row: &[u64]| row[LAST] == before[CLOCK] && row[LAST] > 0;
        if before.rows().any(last) {
            refuse(TORN, before, image, answer);
        }
    });
}

#[test]
fn a_number_right_below_the_count_is_torn() {
    found(|before, _, image, answer| {
        let last = |row: &[u64]| row[image::NUMBER] + 1 == before[COUNT];
        if before.rows().any(last) && before[READY] != 0 {
            refuse(TORN, before, image, answer);
        }
    });
}

#[test]
fn an_answer_keeps_what_it_had() {
    found(|_, _, _, answer| {
        if !is_accepted(answer) {
            answer[DEADLINE] = 1;
        }
    });
}

/// A slip of the check alone.
fn found_by_check(check: fn(&[u32], &mut Answer)) {
    assert!(is_found(&Slip { check, ..right() }));
}

#[test]
fn a_crowded_plan_passes() {
    found_by_check(|_, answer| {
        if answer[NUMBER] == u64::from(CROWDED) {
            *answer = plain(ACCEPTED, 0);
        }
    });
}

#[test]
fn sections_that_just_fit_are_crowded() {
    found_by_check(|words, answer| {
        let tasks = reference::check(words).map_or(Vec::new(), |table| table.tasks);
        if tasks.iter().any(|task| !filled(task).is_empty()) {
            *answer = plain(u64::from(CROWDED), 0);
        }
    });
}

#[test]
fn crowded_goes_before_nest() {
    found_by_check(|words, answer| {
        let crowding = reference::check(words)
            .err()
            .and_then(|it| Crowding::of(words, it));
        if crowding == Some(Crowding::AfterNest) {
            answer[NUMBER] = u64::from(CROWDED);
        }
    });
}

#[test]
fn a_start_leaves_words_behind() {
    let slip = Slip {
        start: |image, _| {
            if image[LENGTH] < ROOM as u64 {
                image[LENGTH - 1] = 1;
            }
        },
        ..right()
    };
    assert!(is_found(&slip));
}

#[test]
fn a_refused_start_leaves_the_image() {
    let slip = Slip {
        start: |image, answer| {
            if answer[NUMBER] != ACCEPTED {
                *image = Image::all(1);
            }
        },
        ..right()
    };
    assert!(is_found(&slip));
}

#[test]
fn a_late_verdict_without_its_moment() {
    let slip = Slip {
        verdict: |answer| {
            if answer[NUMBER] == u64::from(LATE) {
                answer[VALUE] += 1;
            }
        },
        ..right()
    };
    assert!(is_found(&slip));
}

#[test]
fn a_difference_can_be_pasted() {
    let slip = Slip {
        event: Box::new(|_, _, _, answer| {
            if answer[NUMBER] == FINISHED {
                answer[VALUE] = 7;
            }
        }),
        ..right()
    };
    let text = match hammer::events(&slip, 1, 60_000) {
        Ok(_) => panic!("no difference"),
        Err(difference) => difference.text,
    };
    for part in [
        "DIFFERENT: Step { time: ",
        "(seed 1 run)",
        "  second program: [64, ",
        "  archive:        [64, 7, ",
        "#[test]\nfn found_seed_1_run() {\n    let image = picture(\n        &[",
        "    same_event(&image, Event::Step { time: ",
    ] {
        assert!(text.contains(part), "{part} isn't in\n{text}");
    }
    assert!(answers::as_text(&plain(FINISHED, u64::MAX)).contains("lateness -1"));
}
