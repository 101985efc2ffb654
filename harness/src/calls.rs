//! The calls of the archive, as a comparison sees them: the archive has them, and so has anything that is put in its place.

use reference::Reply;

use crate::answers::{self, Answer, NUMBER};
use crate::event::Event;
use crate::image::{decode, encode, Image};

/// Each call fills the answer and returns its first number.
pub trait Calls {
    fn check(&self, words: &[u32], answer: &mut Answer) -> u64;
    fn start(&self, words: &[u32], image: &mut Image, answer: &mut Answer) -> u64;
    fn event(&self, image: &mut Image, event: Event, answer: &mut Answer) -> u64;
    fn verdict(&self, words: &[u32], answer: &mut Answer) -> u64;
}

/// The second program, put in the archive's place. The comparison then finds nothing; a slip built into it must be found.
pub struct Second;

impl Calls for Second {
    fn check(&self, words: &[u32], answer: &mut Answer) -> u64 {
        *answer = answers::of_check(&reference::check(words));
        answer[NUMBER]
    }

    fn start(&self, words: &[u32], image: &mut Image, answer: &mut Answer) -> u64 {
        let (found, state) = reference::start(words);
        *image = encode(&state);
        *answer = answers::of_check(&found);
        answer[NUMBER]
    }

    fn event(&self, image: &mut Image, event: Event, answer: &mut Answer) -> u64 {
        let (after, reply) = event.on(&decode(image));
        // A refused event leaves the image as it lies.
        if !matches!(reply, Reply::Refused(_)) {
            *image = encode(&after);
        }
        *answer = answers::of_event(&reply);
        answer[NUMBER]
    }

    fn verdict(&self, words: &[u32], answer: &mut Answer) -> u64 {
        *answer = answers::of_verdict(&reference::verdict(words));
        answer[NUMBER]
    }
}
