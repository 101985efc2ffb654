//! Document 01's mornings through the archive ("Two mornings at the chair").

use board_tests::archive::Archive;
use harness::answers::{of_check, of_event, of_verdict, Answer, ANSWER, NUMBER};
use harness::calls::Calls;
use harness::image::Image;
use harness::marked::{mornings, verdicts, TABLE_A};
use harness::Event;
use reference::limits::{SHORT, TORN};
use reference::{Refusal, Reply, Verdict};

/// What a call answers, where the answer held something before; it returns the answer's number.
fn answer(call: impl FnOnce(&mut Answer) -> u64) -> Answer {
    let mut answer = [7; ANSWER];
    let returned = call(&mut answer);
    assert_eq!(returned, answer[NUMBER]);
    answer
}

#[test]
fn mornings_from_their_starts() {
    for morning in mornings() {
        let mut image = Image::all(7);
        let started = answer(|answer| Archive.start(&morning.words, &mut image, answer));
        assert_eq!(started, of_check(&Ok::<(), Refusal>(())));
        for (event, reply) in morning.events {
            let said = answer(|answer| Archive.event(&mut image, event, answer));
            assert_eq!(said, of_event(&reply), "{}: {event}", morning.name);
        }
    }
}

#[test]
fn m3_to_m11() {
    for (name, words, wanted) in verdicts() {
        let said = answer(|answer| Archive.verdict(&words, answer));
        assert_eq!(said, of_verdict(&wanted), "{name}");
        let found = match wanted {
            Verdict::Refused(refusal) => Err(refusal),
            _ => Ok(()),
        };
        let said = answer(|answer| Archive.check(&words, answer));
        assert_eq!(said, of_check(&found), "{name}");
    }
}

/// "A refused start gives the number, the place and a state whose numbers are all zero."
#[test]
fn a_refused_start() {
    let mut image = Image::all(7);
    let found: Result<(), Refusal> = Err(Refusal {
        number: SHORT,
        place: 25,
    });
    let said = answer(|answer| Archive.start(&TABLE_A[..25], &mut image, answer));
    assert_eq!(said, of_check(&found));
    assert_eq!(image, Image::all(0));
    let said = answer(|answer| Archive.event(&mut image, Event::Step { time: 0 }, answer));
    assert_eq!(said, of_event(&Reply::Refused(TORN)));
    assert_eq!(image, Image::all(0));
}
