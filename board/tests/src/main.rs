//! `board-tests` compares the archive with the second program.

use std::process::ExitCode;
use std::time::{Duration, Instant};

use board_tests::archive::Archive;
use board_tests::compare::{Comparison, Difference};
use board_tests::hammer;

const USAGE: &str = "\
usage: board-tests                 the gate: a fixed seed, 300,000 events, and a tally that must not have gaps
       board-tests SEED SECONDS    rounds with the seeds from SEED on, for SECONDS seconds; 0 goes on until it is told to stop";

/// The gate's first seed, how many events it has, and how often each thing of the tally has to be met.
const SEED: u64 = 1;
const EVENTS: u64 = 300_000;
const OFTEN: u64 = 100;

fn main() -> ExitCode {
    let arguments: Vec<String> = std::env::args().skip(1).collect();
    match arguments.as_slice() {
        [] => gate(),
        [seed, seconds] => match (seed.parse(), seconds.parse()) {
            (Ok(seed), Ok(seconds)) => go_on(seed, seconds),
            _ => usage(),
        },
        _ => usage(),
    }
}

fn usage() -> ExitCode {
    eprintln!("{USAGE}");
    ExitCode::from(2)
}

fn gate() -> ExitCode {
    let tally = match hammer::events(&Archive, SEED, EVENTS) {
        Ok(tally) => tally,
        Err(difference) => return different(&difference),
    };
    print!("{tally}");
    let rare = tally.rarer_than(OFTEN);
    if rare.is_empty() {
        println!(
            "{} events, no difference, nothing met fewer than {OFTEN} times",
            tally.events
        );
        return ExitCode::SUCCESS;
    }
    for what in rare {
        println!("met fewer than {OFTEN} times: {what}");
    }
    ExitCode::FAILURE
}

fn go_on(first: u64, seconds: u64) -> ExitCode {
    let began = Instant::now();
    let mut said = began;
    let mut to = Comparison::new(&Archive);
    let mut seed = first;
    while seconds == 0 || began.elapsed() < Duration::from_secs(seconds) {
        if let Err(difference) = hammer::round(&mut to, seed) {
            return different(&difference);
        }
        seed = seed.wrapping_add(1);
        if said.elapsed() > Duration::from_secs(60) {
            said = Instant::now();
            println!(
                "{} events up to seed {seed}, no difference",
                to.tally.events
            );
        }
    }
    print!("{}", to.tally);
    println!(
        "{} events up to seed {seed}, no difference",
        to.tally.events
    );
    ExitCode::SUCCESS
}

fn different(difference: &Difference) -> ExitCode {
    println!("{difference}");
    ExitCode::FAILURE
}
