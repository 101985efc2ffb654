//! `bench` prints what an event and a verdict cost.

use std::process::ExitCode;

const USAGE: &str = "\
usage: bench            times of events and verdicts, and the stack that they use
       bench count      each event and verdict once, for bench/instructions";

fn main() -> ExitCode {
    let arguments: Vec<String> = std::env::args().skip(1).collect();
    let words: Vec<&str> = arguments.iter().map(String::as_str).collect();
    match words.as_slice() {
        [] => {
            bench::timing::print_events();
            println!();
            bench::timing::print_verdicts();
            println!();
            bench::stack::print();
        }
        ["count"] => bench::count::print(),
        _ => {
            eprintln!("{USAGE}");
            return ExitCode::from(2);
        }
    }
    ExitCode::SUCCESS
}
