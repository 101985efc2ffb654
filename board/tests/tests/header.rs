//! The numbers of `include/lawqendo.h`, read from it, are those that the comparisons work with, each of them; and those of the dispatcher's own crate.

use std::collections::BTreeMap;

use harness::answers::{ACCEPTED, ANSWER, DEADLINE, FINISHED, NUMBER, RUNS, TASK, VALUE};
use harness::header;
use harness::image::{at, CLOCK, COUNT, HAD, LENGTH, NUMBERS, READY};
use reference::limits::{DEPTH, NAMES, RESOURCES, ROOM, STEPS, TASKS};

/// What the header has to define: these names, with these numbers, and no other.
fn wanted() -> BTreeMap<String, u64> {
    let places = [
        ("IMAGE", NUMBERS),
        ("ANSWER", ANSWER),
        ("ROOM", ROOM),
        ("TASKS", TASKS as usize),
        ("RESOURCES", RESOURCES as usize),
        ("STEPS", STEPS as usize),
        ("SECTIONS", DEPTH),
        ("AT_LENGTH", LENGTH),
        ("AT_CLOCK", CLOCK),
        ("AT_COUNT", COUNT),
        ("AT_READY", READY),
        ("AT_HAD", HAD),
        ("AT_ROW(0)", at(0, 0)),
        ("AT_ROW(1)", at(1, 0)),
        ("NUMBER", NUMBER),
        ("VALUE", VALUE),
        ("RUNS", RUNS),
        ("TASK", TASK),
        ("DEADLINE", DEADLINE),
    ];
    let ours = [("ACCEPTED", ACCEPTED), ("FINISHED", FINISHED)];
    let places = places.map(|(name, number)| (name.to_string(), number as u64));
    let ours = ours.map(|(name, number)| (name.to_string(), number));
    let names = NAMES.map(|(number, name)| (name.to_string(), u64::from(number)));
    places.into_iter().chain(ours).chain(names).collect()
}

#[test]
fn the_header_defines_what_is_worked_with() {
    assert_eq!(header::numbers(), wanted());
}

/// Every number that the dispatcher's crate `numbers` answers with is in the header under its name, and is one of document 01's.
#[test]
fn the_header_has_the_dispatchers_answers() {
    let header = header::numbers();
    let answers = header::answers();
    for (name, number) in &answers {
        assert_eq!(header.get(name), Some(number), "LAWQENDO_{name}");
    }
    for (number, name) in NAMES {
        assert_eq!(answers.get(name), Some(&u64::from(number)), "{name}");
    }
}

#[test]
fn a_header_is_read() {
    let text = "\
        #ifndef LAWQENDO_H\n#define LAWQENDO_H\n#include <stdint.h>\n#define LAWQENDO_IMAGE 566\n\
        #define LAWQENDO_AT_ROW(i) (422 + 9 * (i))\n    LAWQENDO_TORN = 6, /* why */\n    LAWQENDO_LAST = 64\n};\n";
    let wanted = [
        ("AT_ROW(0)", 422),
        ("AT_ROW(1)", 431),
        ("IMAGE", 566),
        ("LAST", 64),
        ("TORN", 6),
    ];
    let wanted = wanted.map(|(name, number)| (name.to_string(), number));
    assert_eq!(header::numbers_of(text), BTreeMap::from(wanted));
}
