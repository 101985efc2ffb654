//! M1 to M12 of document 01.

mod common;

use common::{after, fresh};
use harness::marked::{mornings, verdicts, Morning};
use reference::limits::DEPTH;
use reference::{check, start, verdict, State, Verdict};

/// Plays a morning from its start; the state that it leads to.
fn play(morning: Morning) -> State {
    let mut state = fresh(&morning.words);
    for (event, reply) in morning.events {
        state = after(&state, event, reply);
    }
    state
}

#[test]
fn m1_m2_m12_the_mornings() {
    for morning in mornings() {
        play(morning);
    }
}

/// After M1 nobody is ready, and of the jobs only the last releases are left.
#[test]
fn m1_leaves_the_last_releases() {
    let [m1, ..] = mornings();
    let state = play(m1);
    assert_eq!((state.ready, state.had), (0, 0b111));
    assert_eq!((state.count, state.clock), (3, 22));
    for (task, last) in [(0, 3), (1, 2), (2, 0)] {
        let row = &state.rows[task];
        assert_eq!((row.base, row.active, row.number, row.place), (0, 0, 0, 0));
        assert_eq!((row.saved, row.last), ([0; DEPTH], last));
    }
}

#[test]
fn m3_to_m11_the_verdicts() {
    for (name, words, wanted) in verdicts() {
        assert_eq!(verdict(&words), wanted, "{name}");
        // M11's lists are refused by the check and by a start as well.
        if let Verdict::Refused(refusal) = wanted {
            assert_eq!(check(&words), Err(refusal), "{name}");
            assert_eq!(start(&words), (Err(refusal), State::zero()), "{name}");
        }
    }
}

#[test]
fn m9_one_period_of_1_000_000_is_never_long() {
    let tables: [&[u32]; 7] = [
        &[1, 0, 1_000_000, 1, 1, 0],
        &[1, 0, 1_000_000, 1, 2, 0],
        &[1, 0, 1_000_000, 1_000_000, 1_000_000, 0],
        &[1, 0, 1_000_000, 999_999, 1_000_000, 0],
        &[1, 16, 1_000_000, 500_000, 7, 2, 1, 15, 7, 2, 0, 0],
        &[1, 1, 1_000_000, 3, 4, 2, 1, 0, 1, 2, 0, 0],
        &[1, 1, 1_000_000, 1_000_000, 999_999, 0],
    ];
    for words in tables {
        let answer = verdict(words);
        assert!(
            matches!(answer, Verdict::Fits | Verdict::Late(_)),
            "{words:?}: {answer:?}"
        );
    }
}
