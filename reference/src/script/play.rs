//! Playing a script: every line is answered in turn.

use std::io::{BufRead, Write};

use super::parse::{parse, Command, Fault, LINE_ROOM};
use crate::check::{check, Refusal};
use crate::machine::{release, step, Reply};
use crate::state::{start, State};
use crate::verdict::{verdict, Verdict};

/// What a line is answered.
#[derive(Clone, PartialEq, Eq, Debug)]
pub enum Answer {
    /// A line with nothing in it: no reply line.
    Skipped,
    /// A well-formed `table`: no reply line.
    Lent,
    Checked(Result<(), Refusal>),
    Started(Result<(), Refusal>),
    Released(Reply),
    Stepped(Reply),
    Judged(Verdict),
    /// The state as it stands.
    Shown(Box<State>),
    /// The line's number, counted from 1, and what is wrong.
    Bad(u64, Fault),
}

impl Answer {
    /// Does this answer have a reply line?
    pub fn replies(&self) -> bool {
        !matches!(self, Answer::Skipped | Answer::Lent)
    }
}

/// The one who plays: the table that was lent last, the state, and how many lines there were.
pub struct Player {
    pub words: Vec<u32>,
    pub state: State,
    pub lines: u64,
}

impl Default for Player {
    fn default() -> Self {
        Player::new()
    }
}

impl Player {
    /// Before any `table` the table is the empty list; before any `start` the state is all zero.
    pub fn new() -> Player {
        Player {
            words: Vec::new(),
            state: State::zero(),
            lines: 0,
        }
    }

    /// Answers one line (without its line feed).
    pub fn line(&mut self, line: &[u8]) -> Answer {
        self.lines += 1;
        match parse(line) {
            Ok(None) => Answer::Skipped,
            Ok(Some(command)) => self.obey(command),
            Err(fault) => Answer::Bad(self.lines, fault),
        }
    }

    fn obey(&mut self, command: Command) -> Answer {
        match command {
            Command::Table(words) => {
                // A new table leaves the state alone until the next start.
                self.words = words;
                Answer::Lent
            }
            Command::Check => Answer::Checked(check(&self.words).map(|_| ())),
            Command::Start => {
                let (result, state) = start(&self.words);
                self.state = state;
                Answer::Started(result)
            }
            Command::Release { task, time } => {
                let (state, reply) = release(&self.state, task, time);
                self.state = state;
                Answer::Released(reply)
            }
            Command::Step { time } => {
                let (state, reply) = step(&self.state, time);
                self.state = state;
                Answer::Stepped(reply)
            }
            Command::Verdict => Answer::Judged(verdict(&self.words)),
            Command::Show => Answer::Shown(Box::new(self.state.clone())),
        }
    }
}

/// Reads a script line by line. A line ends at a line feed or at the end of the input; nothing after the
/// last line feed is no line. Of a line that is too long only so much is kept as shows that it is.
pub struct LineReader<R> {
    input: R,
}

impl<R: BufRead> LineReader<R> {
    pub fn new(input: R) -> LineReader<R> {
        LineReader { input }
    }

    /// The next line without its line feed, or none at the end of the input.
    pub fn next_line(&mut self) -> std::io::Result<Option<Vec<u8>>> {
        let mut line: Vec<u8> = Vec::new();
        let mut met_any = false;
        loop {
            let piece = self.input.fill_buf()?;
            if piece.is_empty() {
                return Ok(if met_any { Some(line) } else { None });
            }
            met_any = true;
            let feed = piece.iter().position(|byte| *byte == b'\n');
            let part = &piece[..feed.unwrap_or(piece.len())];
            let room = (LINE_ROOM + 1).saturating_sub(line.len());
            line.extend_from_slice(&part[..part.len().min(room)]);
            let used = part.len() + usize::from(feed.is_some());
            self.input.consume(used);
            if feed.is_some() {
                return Ok(Some(line));
            }
        }
    }
}

/// Plays a whole script and writes the reply lines.
pub fn play(input: impl BufRead, output: &mut impl Write) -> std::io::Result<()> {
    let mut reader = LineReader::new(input);
    let mut player = Player::new();
    while let Some(line) = reader.next_line()? {
        for reply in player.line(&line).lines() {
            writeln!(output, "{reply}")?;
        }
    }
    Ok(())
}
