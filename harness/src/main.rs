//! `harness` writes scripts by lot and counts what a script meets; see docs/CASES.md.

use std::io::{stdin, stdout, BufWriter, Write};
use std::process::ExitCode;

use harness::generate::generate;
use harness::tally::tally;

const USAGE: &str = "\
usage: harness generate SEED COUNT [wild] writes a script with about COUNT replies, its tally to standard error
       harness tally                      counts what the script on standard input meets";

fn main() -> ExitCode {
    let arguments: Vec<String> = std::env::args().skip(1).collect();
    let words: Vec<&str> = arguments.iter().map(String::as_str).collect();
    let done = match words.as_slice() {
        ["tally"] => tally(stdin().lock()).and_then(|tally| write!(stdout(), "{tally}")),
        ["generate", seed, count, how @ ..] if matches!(how, [] | ["wild"]) => {
            match (seed.parse(), count.parse()) {
                (Ok(seed), Ok(count)) => write_script(seed, count, !how.is_empty()),
                _ => return usage(),
            }
        }
        _ => return usage(),
    };
    match done {
        Ok(()) => ExitCode::SUCCESS,
        Err(_) => ExitCode::FAILURE,
    }
}

fn usage() -> ExitCode {
    let _ = writeln!(std::io::stderr(), "{USAGE}");
    ExitCode::from(2)
}

fn write_script(seed: u64, count: u64, wild: bool) -> std::io::Result<()> {
    let script = generate(seed, count, wild);
    let mut output = BufWriter::new(stdout().lock());
    output.write_all(&script.text)?;
    output.flush()?;
    write!(std::io::stderr(), "{}", script.tally)
}
