//! What a test says to the archive: the lines of a reported difference are calls of these. Each fails where the archive differs from the second program.

use harness::image::Image;
use harness::Event;

use crate::archive::Archive;
use crate::compare::Comparison;

/// The archive and the second program agree on this event on this image.
pub fn same_event(image: &Image, event: Event) {
    let mut image = *image;
    if let Err(difference) = Comparison::new(&Archive).event(&mut image, event) {
        panic!("{difference}");
    }
}

/// They agree on the check of these words and on a start from them.
pub fn same_words(words: &[u32]) {
    let mut image = Image::all(u64::MAX);
    if let Err(difference) = Comparison::new(&Archive).words(words, &mut image) {
        panic!("{difference}");
    }
}

/// They agree on the verdict on these words.
pub fn same_verdict(words: &[u32]) {
    if let Err(difference) = Comparison::new(&Archive).verdict(words) {
        panic!("{difference}");
    }
}
