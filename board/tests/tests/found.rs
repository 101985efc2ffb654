//! Places where the archive and the second program might differ, and where a reported difference is pasted.

use board_tests::found::{same_event, same_verdict, same_words};
use harness::image::picture;
use harness::marked::TABLE_A;
use harness::Event;

/// Task 1 stands before its lock and runs; task 2 holds the resource. No run leads here.
#[test]
fn held() {
    let image = picture(
        &TABLE_A,
        [26, 5, 2, 0b110, 0b110],
        &[
            (1, [9, 9, 1, 0, 0, 0, 0, 0, 2]),
            (2, [30, 30, 0, 1, 30, 0, 0, 0, 0]),
        ],
    );
    same_event(&image, Event::Step { time: 5 });
}

/// The sets and the places have 32 bits, and an image has 64 for each.
#[test]
fn numbers_too_large() {
    let image = picture(
        &TABLE_A,
        [26, 5, 2, 1 << 63 | 0b100, u64::MAX << 32 | 0b100],
        &[(2, [30, 30, 0, 1 << 32 | 1, 30, 0, 0, 0, 0])],
    );
    same_event(&image, Event::Step { time: 5 });
    same_event(&image, Event::Step { time: 4 });
    same_event(&image, Event::Release { task: 2, time: 9 });
    same_event(&image, Event::Release { task: 0, time: 9 });
}

/// A length that would be that of table A if only its low half were read.
#[test]
fn a_length_far_above_the_room() {
    let image = picture(&TABLE_A, [1 << 32 | 26, 0, 0, 0, 0], &[]);
    same_event(&image, Event::Release { task: 0, time: 0 });
}

/// The count at its limit still accepts a release; what it leads to is torn.
#[test]
fn the_last_count() {
    let image = picture(&TABLE_A, [26, 0, 1 << 44, 0, 0], &[]);
    same_event(&image, Event::Release { task: 0, time: 0 });
    let image = picture(&TABLE_A, [26, 0, (1 << 44) + 1, 0, 0], &[]);
    same_event(&image, Event::Release { task: 0, time: 0 });
}

/// A finish long after the base deadline and long before it.
#[test]
fn lateness_at_its_ends() {
    let last = (1u64 << 40) - 1;
    for (base, time) in [(0, last), (last + 1_000_001, 0)] {
        let image = picture(
            &TABLE_A,
            [26, 0, 1, 1, 1],
            &[(0, [base, 7, 0, 0, 0, 0, 0, 0, 0])],
        );
        same_event(&image, Event::Step { time });
    }
}

#[test]
fn lists_of_words() {
    for cut in 0..=TABLE_A.len() {
        same_words(&TABLE_A[..cut]);
        same_verdict(&TABLE_A[..cut]);
    }
    same_words(&[0; 2000]);
    same_verdict(&[u32::MAX; 2000]);
}
