//! M1 to M12 of document 01 ("Two mornings at the chair"): its tables, events and replies, for everybody who is held to them.

use reference::limits::{COUNT, SHORT};
use reference::{Refusal, Reply, Turn, Verdict};

use crate::event::{release, step, Event};

/// Table A.
pub const TABLE_A: [u32; 26] = [
    3, 1, 20, 10, 3, 0, 30, 20, 9, 2, 1, 0, 1, 2, 0, 0, 40, 30, 10, 2, 1, 0, 4, 2, 0, 0,
];

/// The table of M12.
pub const TABLE_M12: [u32; 26] = [
    3, 1, 100, 20, 5, 2, 1, 0, 2, 2, 0, 0, 100, 30, 5, 2, 1, 0, 2, 2, 0, 0, 100, 5, 5, 0,
];

/// In table A, the place of D of task 0 and of the length of task 2's section.
pub const DEADLINE_OF_0: usize = 3;
pub const LENGTH_OF_2: usize = 22;

/// Table A with one word changed.
pub const fn table_a_with(place: usize, word: u32) -> [u32; 26] {
    let mut words = TABLE_A;
    words[place] = word;
    words
}

pub fn runs(task: u32, active: u64) -> Reply {
    Reply::WentOn(Turn::Runs { task, active })
}

pub fn finished(lateness: i64, task: u32, active: u64) -> Reply {
    Reply::Finished(lateness, Turn::Runs { task, active })
}

pub fn finished_idle(lateness: i64) -> Reply {
    Reply::Finished(lateness, Turn::Idle)
}

/// A table, and events from its start on with their replies.
pub struct Morning {
    pub name: &'static str,
    pub words: [u32; 26],
    pub events: Vec<(Event, Reply)>,
}

/// The mornings: M1, M2 and M12.
pub fn mornings() -> [Morning; 3] {
    [
        Morning {
            name: "M1",
            words: TABLE_A,
            events: vec![
                (release(2, 0), runs(2, 30)),
                (step(1), runs(2, 21)),
                (release(1, 2), runs(2, 21)),
                (release(0, 3), runs(0, 13)),
                (step(6), finished(-7, 2, 21)),
                (step(8), runs(1, 22)),
                (step(9), runs(1, 22)),
                (step(10), runs(1, 22)),
                (step(17), finished(-5, 2, 30)),
                (step(22), finished_idle(-8)),
            ],
        },
        Morning {
            name: "M2",
            // Task 0 is no user of resource 0, whose floor stays 20.
            words: table_a_with(DEADLINE_OF_0, 18),
            events: vec![
                (release(2, 0), runs(2, 30)),
                (step(1), runs(2, 21)),
                (release(1, 2), runs(2, 21)),
                (release(0, 3), runs(2, 21)),
            ],
        },
        Morning {
            name: "M12",
            words: TABLE_M12,
            events: vec![
                (release(1, 0), runs(1, 30)),
                (step(1), runs(1, 21)),
                (release(0, 1), runs(1, 21)),
                (release(2, 2), runs(2, 7)),
                (step(4), finished(-3, 1, 21)),
            ],
        },
    ]
}

/// The verdicts: M3 to M11. Of M9, which says "never", it is one case.
pub fn verdicts() -> Vec<(&'static str, Vec<u32>, Verdict)> {
    let refused = |number| Verdict::Refused(Refusal { number, place: 0 });
    vec![
        ("M3", TABLE_A.to_vec(), Verdict::Fits),
        ("M4", table_a_with(LENGTH_OF_2, 8).to_vec(), Verdict::Fits),
        (
            "M5",
            table_a_with(LENGTH_OF_2, 9).to_vec(),
            Verdict::Late(20),
        ),
        ("M6", vec![1, 0, 2, 2, 2, 0], Verdict::Fits),
        ("M7", vec![1, 0, 2, 1, 2, 0], Verdict::Late(1)),
        ("M8", vec![1, 0, 2, 5, 3, 0], Verdict::Heavy),
        ("M9", vec![1, 0, 1_000_000, 1_000_000, 1, 0], Verdict::Fits),
        (
            "M10",
            vec![2, 0, 1_000_000, 1_000_000, 1, 0, 3, 3, 1, 0],
            Verdict::Long,
        ),
        ("M11, an empty list", vec![], refused(SHORT)),
        ("M11, a zero", vec![0], refused(COUNT)),
    ]
}
