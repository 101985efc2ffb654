//! Time, as medians of many rounds in which the contenders take turns.

use std::hint::black_box;
use std::time::Instant;

use board_tests::archive::Archive;
use harness::answers::ANSWER;
use harness::calls::Calls;
use harness::image::Image;

use crate::cases::{events, verdicts, Case};
use crate::contenders::Contender;
use crate::twin::Twin;

const ROUNDS: usize = 61;
/// About how long one contender's turn in a round is, in nanoseconds.
const TURN: f64 = 200_000.0;

/// Nanoseconds a call.
fn spin(calls: usize, mut call: impl FnMut()) -> f64 {
    let began = Instant::now();
    for _ in 0..calls {
        call();
    }
    began.elapsed().as_nanos() as f64 / calls as f64
}

/// Nanoseconds an event. An event on an image is followed by putting back what it changed.
fn event(contender: Option<Contender>, case: &Case, calls: usize) -> f64 {
    let mut image = case.image;
    let mut answer = [0; ANSWER];
    let put_back = |image: &mut Image| {
        for index in &case.changed {
            image[*index] = case.image[*index];
        }
    };
    match contender {
        Some(Contender::Archive) => spin(calls, || {
            Archive.event(black_box(&mut image), case.event, black_box(&mut answer));
            put_back(&mut image);
        }),
        Some(Contender::Twin) => spin(calls, || {
            Twin.event(black_box(&mut image), case.event, black_box(&mut answer));
            put_back(&mut image);
        }),
        Some(Contender::Second) => spin(calls, || {
            black_box(case.event.on(black_box(&case.state)));
        }),
        // Nothing but what stands around an event.
        None => spin(calls, || {
            black_box((&mut image, &mut answer));
            put_back(black_box(&mut image));
        }),
    }
}

fn median(mut numbers: Vec<f64>) -> f64 {
    numbers.sort_by(f64::total_cmp);
    numbers[numbers.len() / 2]
}

/// Rounds in which each contender has a turn; for each its median, and the median of the ratio to the first one.
fn rounds(contenders: usize, rounds: usize, turn: impl Fn(usize) -> f64) -> (Vec<f64>, Vec<f64>) {
    let mut times = vec![Vec::new(); contenders];
    for _ in 0..rounds {
        for (contender, times) in times.iter_mut().enumerate() {
            times.push(turn(contender));
        }
    }
    let ratio = |other: &Vec<f64>| {
        let ratios = times[0].iter().zip(other).map(|(first, its)| first / its);
        median(ratios.collect())
    };
    let ratios = times.iter().map(ratio).collect();
    (times.into_iter().map(median).collect(), ratios)
}

/// Prints what an event costs.
pub fn print_events() {
    println!(
        "event, nanoseconds (medians of {ROUNDS} rounds), and the archive's time over the other's"
    );
    println!(
        "{:10} {:8} {:>5} {:>9} {:>9} {:>9} {:>13} {:>15}",
        "table", "event", "ready", "archive", "twin", "second", "archive/twin", "archive/second"
    );
    for case in events() {
        let around = median((0..ROUNDS).map(|_| event(None, &case, 1000)).collect());
        let calls: Vec<usize> = Contender::ALL
            .iter()
            .map(|contender| {
                let once = event(Some(*contender), &case, 20);
                (TURN / once).clamp(5.0, 10_000.0) as usize
            })
            .collect();
        let (times, ratios) = rounds(3, ROUNDS, |k| {
            let contender = Contender::ALL[k];
            let time = event(Some(contender), &case, calls[k]);
            if contender == Contender::Second {
                time
            } else {
                (time - around).max(0.1)
            }
        });
        println!(
            "{:10} {:8} {:5} {:9.0} {:9.0} {:9.0} {:13.2} {:15.3}",
            case.table, case.kind, case.ready, times[0], times[1], times[2], ratios[1], ratios[2]
        );
    }
}

/// Prints what a verdict costs. The twin's verdict is the plain program that tries every t.
pub fn print_verdicts() {
    println!("verdict, microseconds (medians), and the archive's time over the other's");
    println!(
        "{:22} {:>11} {:>11} {:>11} {:>14} {:>15}",
        "table", "archive", "plain", "second", "archive/plain", "archive/second"
    );
    for (name, words) in verdicts() {
        let time = |k: usize, calls| {
            spin(calls, || {
                Contender::ALL[k].verdict(&words, Contender::NOTHING, Contender::NOTHING)
            })
        };
        let once = (0..3).map(|k| time(k, 1)).fold(1.0, f64::max);
        let calls = (TURN / once).clamp(1.0, 10_000.0) as usize;
        let count = (1e9 / once).clamp(3.0, ROUNDS as f64) as usize;
        let (times, ratios) = rounds(3, count, |k| time(k, calls));
        println!(
            "{name:22} {:11.2} {:11.2} {:11.2} {:14.2} {:15.3}",
            times[0] / 1000.0,
            times[1] / 1000.0,
            times[2] / 1000.0,
            ratios[1],
            ratios[2]
        );
    }
}
