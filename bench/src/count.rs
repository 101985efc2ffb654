//! Each event and each verdict once, in a fixed order, for bench/instructions to count.

use crate::callgrind::{begin, end};
use crate::cases::{events, verdicts};
use crate::contenders::Contender;

/// Does everything once, and prints a line for each: what it was, and whose.
pub fn print() {
    for case in events() {
        for contender in Contender::ALL {
            contender.event(&case, begin, end);
            let (table, kind, ready) = (&case.table, case.kind, case.ready);
            println!("{table}\t{kind}\t{ready}\t{}", contender.name());
        }
    }
    // The last one tries two million t, which takes a counter too long.
    for (name, words) in verdicts().into_iter().take(3) {
        for contender in Contender::ALL {
            contender.verdict(&words, begin, end);
            println!("{name}\tverdict\t\t{}", contender.name());
        }
    }
}
