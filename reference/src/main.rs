//! `reference play` answers a script; see docs/SCRIPT.md.

use std::io::{stdin, stdout, BufWriter, IsTerminal, Write};
use std::process::ExitCode;

use reference::script::{play, LineReader, Player};

const USAGE: &str = "\
usage: reference [play]    answers the script on standard input
       reference lines     the same, and before each reply line the script's line";

fn main() -> ExitCode {
    let arguments: Vec<String> = std::env::args().skip(1).collect();
    let words: Vec<&str> = arguments.iter().map(String::as_str).collect();
    let done = match words.as_slice() {
        [] | ["play"] => answer(),
        ["lines"] => lines(),
        _ => {
            let _ = writeln!(std::io::stderr(), "{USAGE}");
            return ExitCode::from(2);
        }
    };
    match done {
        Ok(()) => ExitCode::SUCCESS,
        Err(_) => ExitCode::FAILURE,
    }
}

/// Answers the script. A person at the keyboard sees each reply at once.
fn answer() -> std::io::Result<()> {
    let input = stdin();
    if input.is_terminal() {
        // Standard output at a terminal is written line by line.
        return play(input.lock(), &mut stdout().lock());
    }
    let mut output = BufWriter::new(stdout().lock());
    play(input.lock(), &mut output)?;
    output.flush()
}

/// Answers the script; each reply line follows the number and the text of the line that it answers.
fn lines() -> std::io::Result<()> {
    let mut output = BufWriter::new(stdout().lock());
    let mut reader = LineReader::new(stdin().lock());
    let mut player = Player::new();
    while let Some(line) = reader.next_line()? {
        let answer = player.line(&line);
        let mut text = String::from_utf8_lossy(&line).replace(['\r', '\t'], " ");
        if text.chars().count() > 200 {
            text = text.chars().take(200).collect::<String>() + " ..";
        }
        for reply in answer.lines() {
            writeln!(output, "line {}: {text} => {reply}", player.lines)?;
        }
    }
    output.flush()
}
