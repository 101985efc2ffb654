//! The image of a state, as `include/lawqendo.h` lays it out.

use std::ops::{Deref, DerefMut};

use reference::limits::{DEPTH, ROOM, ROWS};
use reference::{Row, State};

/// The words of the table, two to a number: the even one below, the odd one above.
pub const PACKED: usize = ROOM.div_ceil(2);
pub const LENGTH: usize = PACKED;
pub const CLOCK: usize = PACKED + 1;
pub const COUNT: usize = PACKED + 2;
pub const READY: usize = PACKED + 3;
pub const HAD: usize = PACKED + 4;
/// The first row; one for each task that a table can have follow each other.
pub const FIRST_ROW: usize = PACKED + 5;
/// Numbers between the words and the rows.
pub const MIDDLE: usize = FIRST_ROW - LENGTH;

/// Where each number of a row stands in it, and how many they are.
pub const BASE: usize = 0;
pub const ACTIVE: usize = 1;
pub const NUMBER: usize = 2;
pub const PLACE: usize = 3;
pub const SAVED: usize = 4;
pub const LAST: usize = SAVED + DEPTH;
pub const ROW: usize = LAST + 1;

/// Numbers in an image.
pub const NUMBERS: usize = FIRST_ROW + ROWS * ROW;

/// An image, as a controller keeps it.
#[derive(Clone, Copy, PartialEq, Eq, Debug)]
#[repr(transparent)]
pub struct Image([u64; NUMBERS]);

impl Deref for Image {
    type Target = [u64; NUMBERS];

    fn deref(&self) -> &[u64; NUMBERS] {
        &self.0
    }
}

impl DerefMut for Image {
    fn deref_mut(&mut self) -> &mut [u64; NUMBERS] {
        &mut self.0
    }
}

/// Where a number of a row stands in the image.
pub fn at(row: usize, field: usize) -> usize {
    FIRST_ROW + row * ROW + field
}

/// How a number is read whose field is a `u32`: its remainder by 2^32.
pub fn narrow(number: u64) -> u32 {
    number as u32
}

impl Image {
    /// An image of nothing but this number.
    pub fn all(number: u64) -> Image {
        Image([number; NUMBERS])
    }

    /// The rows, each as its numbers.
    pub fn rows(&self) -> impl Iterator<Item = &[u64]> {
        self.0[FIRST_ROW..].chunks_exact(ROW)
    }

    /// The whole room of words.
    pub fn words(&self) -> Vec<u32> {
        self.0[..PACKED]
            .iter()
            .flat_map(|packed| [*packed as u32, (*packed >> 32) as u32])
            .take(ROOM)
            .collect()
    }

    /// Sets the first words, and those behind them to 0. The length is left as it is.
    pub fn set_words(&mut self, words: &[u32]) {
        let mut pairs = words.chunks(2);
        for packed in &mut self.0[..PACKED] {
            let pair = pairs.next().unwrap_or(&[]);
            let word = |half: usize| u64::from(pair.get(half).copied().unwrap_or(0));
            *packed = word(0) | word(1) << 32;
        }
    }
}

/// The state that an image is. Every image is one.
pub fn decode(image: &Image) -> State {
    let mut state = State::zero();
    state.words = image.words();
    state.length = image[LENGTH];
    state.clock = image[CLOCK];
    state.count = image[COUNT];
    state.ready = narrow(image[READY]);
    state.had = narrow(image[HAD]);
    for (row, numbers) in state.rows.iter_mut().zip(image.rows()) {
        let mut saved = [0; DEPTH];
        saved.copy_from_slice(&numbers[SAVED..LAST]);
        *row = Row {
            base: numbers[BASE],
            active: numbers[ACTIVE],
            number: numbers[NUMBER],
            place: narrow(numbers[PLACE]),
            saved,
            last: numbers[LAST],
        };
    }
    state
}

/// The image of a state.
pub fn encode(state: &State) -> Image {
    let mut image = Image::all(0);
    image.set_words(&state.words);
    image[LENGTH] = state.length;
    image[CLOCK] = state.clock;
    image[COUNT] = state.count;
    image[READY] = u64::from(state.ready);
    image[HAD] = u64::from(state.had);
    for (row, numbers) in state
        .rows
        .iter()
        .zip(image[FIRST_ROW..].chunks_exact_mut(ROW))
    {
        numbers[BASE] = row.base;
        numbers[ACTIVE] = row.active;
        numbers[NUMBER] = row.number;
        numbers[PLACE] = u64::from(row.place);
        numbers[SAVED..LAST].copy_from_slice(&row.saved);
        numbers[LAST] = row.last;
    }
    image
}

/// What a number of the image is called, for a person to read.
pub fn name(index: usize) -> String {
    match index {
        LENGTH => "length".to_string(),
        CLOCK => "clock".to_string(),
        COUNT => "count".to_string(),
        READY => "ready".to_string(),
        HAD => "had".to_string(),
        _ if index < PACKED => format!("words {} and {}", 2 * index, 2 * index + 1),
        _ => {
            let (row, field) = ((index - FIRST_ROW) / ROW, (index - FIRST_ROW) % ROW);
            let field = match field {
                BASE => "base".to_string(),
                ACTIVE => "active".to_string(),
                NUMBER => "number".to_string(),
                PLACE => "place".to_string(),
                LAST => "last".to_string(),
                _ => format!("saved {}", field - SAVED),
            };
            format!("row {row}, {field}")
        }
    }
}

/// An image written out: the words, the numbers behind them, and the rows that are not all zero. This is how
/// the report of a difference writes one, so that it can be pasted into a test.
pub fn picture(words: &[u32], middle: [u64; MIDDLE], rows: &[(usize, [u64; ROW])]) -> Image {
    let mut image = Image::all(0);
    image.set_words(words);
    image[LENGTH..FIRST_ROW].copy_from_slice(&middle);
    for (row, numbers) in rows {
        image[at(*row, 0)..at(*row + 1, 0)].copy_from_slice(numbers);
    }
    image
}

/// The text of a call of [`picture`] that gives this image.
pub fn as_text(image: &Image) -> String {
    let words = image.words();
    let used = words
        .iter()
        .rposition(|word| *word != 0)
        .map_or(0, |last| last + 1);
    let mut text = format!(
        "picture(\n        &{:?},\n        {:?},\n        &[\n",
        &words[..used],
        &image[LENGTH..FIRST_ROW]
    );
    for (row, numbers) in image.rows().enumerate() {
        if numbers.iter().any(|number| *number != 0) {
            text.push_str(&format!("            ({row}, {numbers:?}),\n"));
        }
    }
    text.push_str("        ],\n    )");
    text
}
