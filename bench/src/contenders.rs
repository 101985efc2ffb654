//! Who is measured.

use std::hint::black_box;

use board_tests::archive::Archive;
use harness::answers::{Answer, ANSWER};
use harness::calls::Calls;
use harness::image::Image;
use harness::Event;

use crate::cases::Case;
use crate::twin::Twin;

#[derive(Clone, Copy, PartialEq, Eq, Debug)]
pub enum Contender {
    Archive,
    Twin,
    Second,
}

impl Contender {
    pub const ALL: [Contender; 3] = [Contender::Archive, Contender::Twin, Contender::Second];

    /// What stands around a call that isn't counted.
    pub const NOTHING: fn() = || {};

    pub fn name(self) -> &'static str {
        match self {
            Contender::Archive => "archive",
            Contender::Twin => "twin",
            Contender::Second => "second program",
        }
    }

    /// One event, on a copy of the case's image. `begin` and `end` are called right before it and after it.
    pub fn event(self, case: &Case, begin: fn(), end: fn()) {
        let mut image = case.image;
        let mut answer = [0; ANSWER];
        begin();
        match self {
            Contender::Archive => measured(&Archive, &mut image, case.event, &mut answer),
            Contender::Twin => measured(&Twin, &mut image, case.event, &mut answer),
            Contender::Second => measured_second(case),
        }
        end();
        black_box((&image, &answer));
    }

    /// One verdict. The twin's is the plain program's.
    pub fn verdict(self, words: &[u32], begin: fn(), end: fn()) {
        let mut answer = [0; ANSWER];
        begin();
        match self {
            Contender::Archive => measured_verdict(&Archive, words, &mut answer),
            Contender::Twin => measured_verdict(&Twin, words, &mut answer),
            Contender::Second => measured_second_verdict(words),
        }
        end();
        black_box(answer);
    }
}

// Each is a call by itself, and its result counts as used.

#[inline(never)]
fn measured<C: Calls>(calls: &C, image: &mut Image, event: Event, answer: &mut Answer) {
    black_box(calls.event(black_box(image), event, answer));
}

#[inline(never)]
fn measured_second(case: &Case) {
    black_box(case.event.on(black_box(&case.state)));
}

#[inline(never)]
fn measured_verdict<C: Calls>(calls: &C, words: &[u32], answer: &mut Answer) {
    black_box(calls.verdict(black_box(words), answer));
}

#[inline(never)]
fn measured_second_verdict(words: &[u32]) {
    black_box(reference::verdict(black_box(words)));
}
