//! The twin and the plain verdict are compared with the second program as the archive is, so that they are measured doing the right thing.

use bench::twin::Twin;
use board_tests::hammer;

#[test]
fn the_twin_replies_as_the_second_program() {
    match hammer::events(&Twin, 1, 300_000) {
        Ok(tally) => assert!(tally.rarer_than(100).is_empty()),
        Err(difference) => panic!("{difference}"),
    }
}
