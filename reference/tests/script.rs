//! The script: what each line is answered, to the byte.

mod common;

use common::replies;
use reference::script::{parse, Command, Fault, LINE_ROOM};

fn command(line: &str) -> Command {
    match parse(line.as_bytes()) {
        Ok(Some(command)) => command,
        other => panic!("{line:?} gives {other:?}"),
    }
}

fn fault(line: &str) -> Fault {
    match parse(line.as_bytes()) {
        Err(fault) => fault,
        other => panic!("{line:?} gives {other:?}"),
    }
}

#[test]
fn commands() {
    assert_eq!(command("table"), Command::Table(vec![]));
    assert_eq!(command("table /"), Command::Table(vec![]));
    assert_eq!(command("table 1 / 002 /"), Command::Table(vec![1, 2]));
    assert_eq!(
        command("table 4294967295"),
        Command::Table(vec![4_294_967_295])
    );
    assert_eq!(command("check"), Command::Check);
    assert_eq!(command("start"), Command::Start);
    assert_eq!(command("verdict"), Command::Verdict);
    assert_eq!(command("show"), Command::Show);
    assert_eq!(
        command("release 4294967295 at 18446744073709551615"),
        Command::Release {
            task: u32::MAX,
            time: u64::MAX
        }
    );
    assert_eq!(
        command("\t step\r at  00000000000000000000000007 \r"),
        Command::Step { time: 7 }
    );
    assert_eq!(command("step at 7#8"), Command::Step { time: 7 });
    assert_eq!(command("check # it"), Command::Check);
}

#[test]
fn lines_with_nothing_in_them() {
    for line in ["", " ", "\t\r ", "#", "# step at 5", "  #"] {
        assert_eq!(parse(line.as_bytes()), Ok(None), "{line:?}");
    }
}

#[test]
fn unknown_word() {
    for line in [
        "stap at 5",
        "Check",
        "7",
        "/",
        "at 5",
        "release 1 on 5",
        "release 1 5",
        "step 5",
        "step at5",
        "step AT 5",
        "check\u{b}",
        "chéck",
    ] {
        assert_eq!(fault(line), Fault::UnknownWord, "{line:?}");
    }
    assert_eq!(parse(b"\xff"), Err(Fault::UnknownWord));
    assert_eq!(parse(b"check\0"), Err(Fault::UnknownWord));
}

#[test]
fn number_missing() {
    for line in [
        "release",
        "release 1",
        "release 1 at",
        "step",
        "step at",
        "step at #5",
    ] {
        assert_eq!(fault(line), Fault::NumberMissing, "{line:?}");
    }
}

#[test]
fn malformed_number() {
    for line in [
        "release at 5",
        "release x at 5",
        "release -1 at 5",
        "release / at 5",
        "step at +5",
        "step at 5.0",
        "step at 1,000",
        "step at at",
        "step at 99999999999999999999999x",
        "table 1 x",
        "table //",
        "table 1/",
        "table ５",
    ] {
        assert_eq!(fault(line), Fault::MalformedNumber, "{line:?}");
    }
}

#[test]
fn number_too_large() {
    for line in [
        "release 4294967296 at 5",
        "step at 18446744073709551616",
        "step at 000018446744073709551616",
        "step at 340282366920938463463374607431768211456",
        "table 4294967296",
        "table 1 18446744073709551617",
    ] {
        assert_eq!(fault(line), Fault::NumberTooLarge, "{line:?}");
    }
}

#[test]
fn something_left_over() {
    for line in [
        "check it",
        "start /",
        "verdict 20",
        "show show",
        "step at 5 6",
        "release 1 at 5 at",
    ] {
        assert_eq!(fault(line), Fault::SomethingLeftOver, "{line:?}");
    }
}

#[test]
fn the_first_fault_from_the_left_is_the_answer() {
    assert_eq!(fault("release 4294967296 on x"), Fault::NumberTooLarge);
    assert_eq!(fault("release x on"), Fault::MalformedNumber);
    assert_eq!(fault("release 1 on x"), Fault::UnknownWord);
    assert_eq!(fault("step at x 5"), Fault::MalformedNumber);
    assert_eq!(fault("table 4294967296 x"), Fault::NumberTooLarge);
}

#[test]
fn line_too_long() {
    let mut line = b"step at 5".to_vec();
    line.resize(LINE_ROOM, b' ');
    assert_eq!(parse(&line), Ok(Some(Command::Step { time: 5 })));
    line.push(b' ');
    assert_eq!(parse(&line), Err(Fault::LineTooLong));
    // Not even a comment is judged.
    let comment = vec![b'#'; LINE_ROOM + 1];
    assert_eq!(parse(&comment), Err(Fault::LineTooLong));
    assert_eq!(parse(&comment[1..]), Ok(None));
    // In a script the next line is the next one.
    let mut script = vec![b'x'; 3 * LINE_ROOM];
    script.extend_from_slice(b"\nshow");
    assert_eq!(replies(&script), ["line 1: line too long", "clock 0"]);
}

#[test]
fn before_any_table_and_start() {
    let script = b"check\nverdict\nstep at 0\nrelease 0 at 0\nshow\nstart\nshow\n";
    assert_eq!(
        replies(script),
        [
            "refused 1 SHORT at 0",
            "refused 1 SHORT at 0",
            "refused 6 TORN",
            "refused 6 TORN",
            "clock 0",
            "refused 1 SHORT at 0",
            "clock 0",
        ]
    );
}

#[test]
fn lines_are_counted_and_bad_ones_change_nothing() {
    let script = b"\n# two\ntable 1 0 2 2 2 0\r\nstart\nstep\ntable 9 x\ncheck\nstep at 0 0\nrelease 0 at 1\n\nwhat";
    assert_eq!(
        replies(script),
        [
            "started",
            "line 5: number missing",
            "line 6: malformed number",
            "sound",
            "line 8: something left over",
            "runs 0, 3",
            "line 11: unknown word",
        ]
    );
}

#[test]
fn the_end_of_the_input() {
    assert!(replies(b"").is_empty());
    assert_eq!(replies(b"show"), ["clock 0"]);
    assert_eq!(replies(b"show\n"), ["clock 0"]);
    assert_eq!(replies(b"show\n\nx"), ["clock 0", "line 3: unknown word"]);
}

#[test]
fn a_new_table_leaves_the_state_alone() {
    let script =
        b"table 1 0 2 2 2 0\nstart\nrelease 0 at 0\ntable\nstep at 1\ncheck\nstart\nstep at 1";
    assert_eq!(
        replies(script),
        [
            "started",
            "runs 0, 2",
            "lateness -1; idle",
            "refused 1 SHORT at 0",
            "refused 1 SHORT at 0",
            "refused 6 TORN",
        ]
    );
}

#[test]
fn every_verdict_is_printed() {
    let script = b"\
table 1 0 2 2 2 0\nverdict\ntable 1 0 2 1 2 0\nverdict\ntable 1 0 2 5 3 0\nverdict\n\
table 2 0 1000000 1 1 0 3 3 1 0\nverdict\ntable 1 0 0\nverdict\n";
    assert_eq!(
        replies(script),
        [
            "20 FITS",
            "21 LATE 1",
            "22 HEAVY",
            "23 LONG",
            "refused 3 RANGE at 2"
        ]
    );
}

#[test]
fn show() {
    let script = b"\
table 3 4 / 100 90 9 4 1 3 5 1 1 2 2 0 0 2 0 0 / 100 50 3 0 / 100 40 2 2 1 1 1 2 0 0\n\
start\nshow\nrelease 0 at 1\nshow\nstep at 2\nstep at 3\nrelease 1 at 3\nrelease 2 at 4\nshow\n\
step at 5\nshow\nstep at 6\nshow\n";
    assert_eq!(
        replies(script),
        [
            "started",
            "clock 0",
            "runs 0, 91",
            "clock 1",
            "task 0: base 91, active 91, release 0, holds nothing, next lock 3",
            "runs 0, 91",
            "runs 0, 43",
            "runs 0, 43",
            "runs 0, 43",
            "clock 4",
            "task 0: base 91, active 43, release 0, holds 1 3, next unlock 1",
            "task 1: base 53, active 53, release 1, holds nothing, next finish",
            "task 2: base 44, active 44, release 2, holds nothing, next lock 1",
            "runs 2, 44",
            "clock 5",
            "task 0: base 91, active 91, release 0, holds 3, next unlock 3",
            "task 1: base 53, active 53, release 1, holds nothing, next finish",
            "task 2: base 44, active 44, release 2, holds nothing, next lock 1",
            "runs 2, 44",
            "clock 6",
            "task 0: base 91, active 91, release 0, holds 3, next unlock 3",
            "task 1: base 53, active 53, release 1, holds nothing, next finish",
            "task 2: base 44, active 44, release 2, holds 1, next unlock 1",
        ]
    );
}
