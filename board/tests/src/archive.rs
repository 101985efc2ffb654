//! The archive's functions, as `include/lawqendo.h` declares them. The only unsafe code of this package.

use harness::answers::Answer;
use harness::calls::Calls;
use harness::image::Image;
use harness::Event;

extern "C" {
    fn lawqendo_check(words: *const u32, count: usize, answer: *mut Answer) -> u64;
    fn lawqendo_start(
        words: *const u32,
        count: usize,
        image: *mut Image,
        answer: *mut Answer,
    ) -> u64;
    fn lawqendo_release(image: *mut Image, task: u32, time: u64, answer: *mut Answer) -> u64;
    fn lawqendo_step(image: *mut Image, time: u64, answer: *mut Answer) -> u64;
    fn lawqendo_verdict(words: *const u32, count: usize, answer: *mut Answer) -> u64;
}

/// The linked archive.
///
/// Safety, for each call: the words are lent as a pointer to the first and how many there are, the image and the answer as
/// pointers to arrays of the header's lengths. The references that they are made from outlive the call, which keeps nothing,
/// and every value of every number is allowed.
pub struct Archive;

impl Calls for Archive {
    fn check(&self, words: &[u32], answer: &mut Answer) -> u64 {
        unsafe { lawqendo_check(words.as_ptr(), words.len(), answer) }
    }

    fn start(&self, words: &[u32], image: &mut Image, answer: &mut Answer) -> u64 {
        unsafe { lawqendo_start(words.as_ptr(), words.len(), image, answer) }
    }

    fn event(&self, image: &mut Image, event: Event, answer: &mut Answer) -> u64 {
        match event {
            Event::Release { task, time } => unsafe { lawqendo_release(image, task, time, answer) },
            Event::Step { time } => unsafe { lawqendo_step(image, time, answer) },
        }
    }

    fn verdict(&self, words: &[u32], answer: &mut Answer) -> u64 {
        unsafe { lawqendo_verdict(words.as_ptr(), words.len(), answer) }
    }
}
