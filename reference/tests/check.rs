//! Refusals 1 to 5 and 14: every ground, its place, and which goes first.

use harness::marked::{table_a_with, TABLE_A};
use reference::limits::{COUNT, CROWDED, NEST, RANGE, SHORT, STEP};
use reference::limits::{RESOURCES, ROOM, STEPS, TASKS};
use reference::{check, Refusal, Step};

fn refused(words: &[u32], number: u32, place: usize) {
    assert_eq!(check(words), Err(Refusal { number, place }), "{words:?}");
}

/// One task with T 10, D 10, C 8 and these steps; m is 6.
fn plan(steps: &[[u32; 3]]) -> Vec<u32> {
    let mut words = vec![1, 6, 10, 10, 8, steps.len() as u32];
    words.extend(steps.iter().flatten());
    words
}

/// The index of the first word of a step of `plan`.
fn place(step: usize) -> usize {
    6 + 3 * step
}

const UNLOCK: [u32; 3] = [2, 0, 0];

#[test]
fn table_a_is_taken_apart() {
    let table = check(&TABLE_A).expect("table A is sound");
    assert_eq!(table.resources, 1);
    assert_eq!(table.tasks.len(), 3);
    assert_eq!(table.tasks[2].deadline, 30);
    assert!(matches!(table.tasks[2].steps[0], Step::Lock(s) if s.length == 4));
    assert_eq!(table.floor(0), Some(20));
    assert_eq!(table.floor(1), None);
}

#[test]
fn short_when_a_wanted_word_is_not_there() {
    // Wherever table A is cut, the place is the list's length; a step's words are asked for together.
    for length in 0..TABLE_A.len() {
        refused(&TABLE_A[..length], SHORT, length);
    }
}

#[test]
fn short_when_words_remain() {
    let mut words = TABLE_A.to_vec();
    words.push(7);
    refused(&words, SHORT, 26);
    words.extend([8, 9]);
    refused(&words, SHORT, 26);
}

#[test]
fn a_step_is_asked_for_whole_before_it_is_judged() {
    // Kind 9 is wrong, but the step's third word isn't there.
    refused(&[1, 1, 10, 10, 5, 1, 9, 0], SHORT, 8);
    refused(&[1, 1, 10, 10, 5, 1, 9, 0, 0], STEP, 6);
}

#[test]
fn count() {
    refused(&[0, 0], COUNT, 0);
    refused(&[TASKS + 1, 0], COUNT, 0);
    refused(&[u32::MAX], COUNT, 0);
    refused(&[1, RESOURCES + 1], COUNT, 1);
    refused(&[1, 0, 5, 5, 5, STEPS + 1], COUNT, 5);
    assert!(check(&[1, RESOURCES, 5, 5, 5, 0]).is_ok());
    assert!(check(&[1, 0, 5, 5, 5, 0]).is_ok());
    let mut most = vec![TASKS, 0];
    most.extend([1, 1, 1, 0].repeat(TASKS as usize));
    assert!(check(&most).is_ok());
}

#[test]
fn range() {
    for at in 2..5 {
        for word in [0, 1_000_001, u32::MAX] {
            refused(&table_a_with(at, word), RANGE, at);
        }
    }
    assert!(check(&[1, 0, 1_000_000, 1_000_000, 1_000_000, 0]).is_ok());
    assert!(check(&[1, 0, 1, 1, 1, 0]).is_ok());
}

#[test]
fn step() {
    for bad in [
        [0, 0, 0],
        [3, 0, 1],
        [u32::MAX, 0, 1],
        // An unlock with a word that isn't 0.
        [2, 1, 0],
        [2, 0, 1],
        // A lock's resource not below m, its length below 1, above C.
        [1, 6, 1],
        [1, 0, 0],
        [1, 0, 9],
    ] {
        refused(&plan(&[bad]), STEP, place(0));
    }
    assert!(check(&plan(&[[1, 5, 8], UNLOCK])).is_ok());
    // 4 goes before 5: this unlock has nothing to unlock either.
    refused(&plan(&[[2, 0, 7]]), STEP, place(0));
}

#[test]
fn nest() {
    // Unlock with nothing held.
    refused(&plan(&[UNLOCK]), NEST, place(0));
    refused(&plan(&[[1, 0, 3], UNLOCK, UNLOCK]), NEST, place(2));
    // Lock of a resource already held by the plan.
    refused(&plan(&[[1, 0, 3], [1, 0, 3]]), NEST, place(1));
    refused(&plan(&[[1, 0, 3], [1, 1, 3], [1, 0, 1]]), NEST, place(2));
    // A fifth held section.
    let five = [[1, 0, 3], [1, 1, 3], [1, 2, 3], [1, 3, 3], [1, 4, 3]];
    refused(&plan(&five), NEST, place(4));
    // An inner length above that of the section right around it.
    refused(&plan(&[[1, 0, 3], [1, 1, 4]]), NEST, place(1));
    refused(&plan(&[[1, 0, 8], [1, 1, 3], [1, 2, 4]]), NEST, place(2));
    // A plan that ends holding something: the index after its last word.
    refused(&plan(&[[1, 0, 3]]), NEST, place(1));
    refused(&plan(&[[1, 0, 3], [1, 1, 3], UNLOCK]), NEST, place(3));
    // It is judged before the next word is asked for.
    let mut more = plan(&[[1, 0, 3]]);
    more[0] = 2;
    refused(&more, NEST, place(1));
    more.push(0);
    refused(&more, NEST, place(1));
}

#[test]
fn sections_that_are_allowed() {
    // Four held at once, the same length inside, and a resource locked again after its unlock.
    let four = [[1, 0, 3], [1, 1, 3], [1, 2, 3], [1, 3, 3]];
    let mut steps = four.to_vec();
    steps.extend([UNLOCK; 4]);
    steps.extend([[1, 0, 5], UNLOCK]);
    assert!(check(&plan(&steps)).is_ok());
    // A longer section is measured against the one right around it, not against one that was unlocked.
    let steps = [[1, 0, 8], [1, 1, 2], UNLOCK, [1, 1, 6], UNLOCK, UNLOCK];
    assert!(check(&plan(&steps)).is_ok());
}

#[test]
fn the_longest_table_and_one_word_more() {
    let mut words = vec![TASKS, RESOURCES];
    for _ in 0..TASKS {
        words.extend([1_000_000, 1_000_000, 1_000_000, STEPS]);
        let section = [1, RESOURCES - 1, 125_000, 2, 0, 0];
        words.extend(section.repeat(STEPS as usize / 2));
    }
    assert_eq!(words.len(), ROOM);
    assert!(check(&words).is_ok());
    words.push(0);
    refused(&words, SHORT, ROOM);
    words.extend([1; 5000]);
    refused(&words, SHORT, ROOM);
}

/// Steps one after the other, each section unlocked before the next is locked.
fn in_a_row(sections: &[[u32; 3]]) -> Vec<[u32; 3]> {
    sections.iter().flat_map(|lock| [*lock, UNLOCK]).collect()
}

/// These steps within sections of these lengths, on resources 5, 4, ..
fn within(around: &[u32], steps: &[[u32; 3]]) -> Vec<[u32; 3]> {
    let mut whole: Vec<[u32; 3]> = Vec::new();
    whole.extend((0..around.len()).map(|depth| [1, 5 - depth as u32, around[depth]]));
    whole.extend(steps);
    whole.extend(around.iter().map(|_| UNLOCK));
    whole
}

#[test]
fn crowded_by_outermost_sections() {
    // One section as long as C, and two that fill it; a tick more, and the second goes over.
    assert!(check(&plan(&in_a_row(&[[1, 0, 8]]))).is_ok());
    assert!(check(&plan(&in_a_row(&[[1, 0, 5], [1, 1, 3]]))).is_ok());
    refused(&plan(&in_a_row(&[[1, 0, 5], [1, 1, 4]])), CROWDED, place(2));
    refused(&plan(&in_a_row(&[[1, 0, 8], [1, 1, 1]])), CROWDED, place(2));
    // The same resource again claims its length again.
    refused(&plan(&in_a_row(&[[1, 0, 5], [1, 0, 4]])), CROWDED, place(2));
    // The place is the lock that goes over, not the first one nor the plan's end.
    let eight = [[1, 0, 1]; 8];
    assert!(check(&plan(&in_a_row(&eight))).is_ok());
    let steps = in_a_row(&[[1, 0, 2], [1, 0, 2], [1, 0, 2], [1, 0, 3], [1, 0, 8]]);
    refused(&plan(&steps), CROWDED, place(6));
    // Another task has its own C.
    let mut words = plan(&in_a_row(&[[1, 0, 8]]));
    words[0] = 2;
    words.extend([10, 10, 3, 4, 1, 0, 2, 2, 0, 0, 1, 0, 1, 2, 0, 0]);
    assert!(check(&words).is_ok());
    words[24] = 2;
    refused(&words, CROWDED, 22);
}

#[test]
fn crowded_inside_a_section() {
    for around in [&[6][..], &[8, 6], &[7, 6, 6]] {
        let first = place(around.len());
        let fill = within(around, &in_a_row(&[[1, 0, 4], [1, 1, 2]]));
        assert!(check(&plan(&fill)).is_ok(), "{fill:?}");
        assert!(check(&plan(&within(around, &in_a_row(&[[1, 0, 6]])))).is_ok());
        // A tick more: the second lock inside goes over, though it would fit the plan by itself.
        let over = within(around, &in_a_row(&[[1, 0, 4], [1, 1, 3]]));
        refused(&plan(&over), CROWDED, first + 6);
        let over = within(around, &in_a_row(&[[1, 0, 6], [1, 0, 1]]));
        refused(&plan(&over), CROWDED, first + 6);
    }
}

#[test]
fn only_sections_directly_inside_count() {
    // Three in one another, each as long as C: every level is filled by one.
    let deep = [[1, 0, 8], [1, 1, 8], [1, 2, 8], UNLOCK, UNLOCK, UNLOCK];
    assert!(check(&plan(&deep)).is_ok());
    // After them C is used up.
    refused(
        &plan(&[&deep[..], &[[1, 0, 1]]].concat()),
        CROWDED,
        place(6),
    );
    // What an inner section claimed is no claim on C, and a second section begins with nothing claimed in it.
    let inner = |length| [[1, 0, length], [1, 1, length], UNLOCK, UNLOCK];
    assert!(check(&plan(&[inner(4), inner(4)].concat())).is_ok());
    refused(&plan(&[inner(4), inner(5)].concat()), CROWDED, place(4));
    // After an inner unlock the outer section's claims are as before it.
    let steps = [[1, 0, 7], [1, 1, 3], [1, 2, 3], UNLOCK, UNLOCK, [1, 2, 4]];
    let closed = [&steps[..], &[UNLOCK, UNLOCK, [1, 3, 1], UNLOCK]].concat();
    assert!(check(&plan(&closed)).is_ok());
    let over = [&steps[..], &[UNLOCK, [1, 2, 1]]].concat();
    refused(&plan(&over), CROWDED, place(7));
}

#[test]
fn crowded_comes_after_step_and_nest() {
    let first = [[1, 0, 5], UNLOCK];
    let then = |step: [u32; 3]| plan(&[&first[..], &[step]].concat());
    refused(&then([1, 1, 4]), CROWDED, place(2));
    // Resource 6 isn't there; a length above C stays STEP.
    refused(&then([1, 6, 4]), STEP, place(2));
    refused(&then([1, 1, 9]), STEP, place(2));
    let inside = |step: [u32; 3]| plan(&[&[[1, 0, 6], [1, 1, 5], UNLOCK][..], &[step]].concat());
    refused(&inside([1, 1, 2]), CROWDED, place(3));
    // Already held, and longer than the section around it.
    refused(&inside([1, 0, 2]), NEST, place(3));
    refused(&inside([1, 1, 7]), NEST, place(3));
    refused(&inside([1, 6, 2]), STEP, place(3));
    // It is judged before the plan's end is, and before the next step is asked for.
    let mut words = inside([1, 1, 2]);
    words[5] = STEPS;
    refused(&words, CROWDED, place(3));
}
