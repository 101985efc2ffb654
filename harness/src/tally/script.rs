//! What a script meets: each kind of reply, each refusal by its number, each verdict, each bad line.

use std::fmt::{Display, Formatter, Result as Written};
use std::io::BufRead;

use reference::script::{Answer, Fault, LineReader, Player};
use reference::{Refusal, Verdict};

use super::{event_names, judged, number, refused, table_names, verdict_names, Counts};
use crate::event::Kind;

#[derive(Default)]
pub struct ScriptTally {
    counts: Counts,
    /// Lines that have a reply.
    pub replies: u64,
}

const LENT: &str = "table: lent";
const SOUND: &str = "check: sound";
const STARTED: &str = "start: started";
const SHOWN: &str = "show";
const SKIPPED: &str = "line: blank or comment only";

fn bad(fault: Fault) -> String {
    format!("line: {fault}")
}

fn found(call: &str, well: &str, result: &Result<(), Refusal>) -> String {
    match result {
        Ok(()) => well.to_string(),
        Err(refusal) => refused(call, refusal.number),
    }
}

fn verdict(verdict: &Verdict) -> String {
    match (verdict, number(verdict)) {
        (Verdict::Refused(refusal), _) => refused("verdict", refusal.number),
        (_, number) => judged(number.unwrap_or(0)),
    }
}

impl ScriptTally {
    /// Plays one line and counts its answer.
    pub fn line(&mut self, player: &mut Player, line: &[u8]) -> Answer {
        let before = player.state.clone();
        let answer = player.line(line);
        self.replies += u64::from(answer.replies());
        self.counts.add(match &answer {
            Answer::Skipped => SKIPPED.to_string(),
            Answer::Lent => LENT.to_string(),
            Answer::Checked(result) => found("check", SOUND, result),
            Answer::Started(result) => found("start", STARTED, result),
            Answer::Judged(judged) => verdict(judged),
            Answer::Shown(_) => SHOWN.to_string(),
            Answer::Bad(_, fault) => bad(*fault),
            Answer::Released(reply) => {
                self.counts
                    .event(Kind::Release, &before, reply, &player.state);
                return answer;
            }
            Answer::Stepped(reply) => {
                self.counts.event(Kind::Step, &before, reply, &player.state);
                return answer;
            }
        });
        answer
    }

    /// What a script may meet that this one didn't.
    pub fn not_met(&self) -> Vec<String> {
        let mut names = all_names();
        names.retain(|what| self.counts.of(what) == 0);
        names
    }
}

/// Every line that the tally can have, in the order in which it is printed.
fn all_names() -> Vec<String> {
    let mut names = vec![LENT.to_string(), SOUND.to_string()];
    names.extend(table_names("check"));
    names.push(STARTED.to_string());
    names.extend(table_names("start"));
    names.extend(event_names());
    names.extend(verdict_names());
    names.extend(table_names("verdict"));
    names.extend([SHOWN, SKIPPED].map(str::to_string));
    names.extend(Fault::ALL.map(bad));
    names
}

impl Display for ScriptTally {
    fn fmt(&self, f: &mut Formatter) -> Written {
        writeln!(f, "{:8} lines with a reply", self.replies)?;
        self.counts.print(f, &all_names())
    }
}

/// The tally of a whole script.
pub fn tally(input: impl BufRead) -> std::io::Result<ScriptTally> {
    let mut reader = LineReader::new(input);
    let mut player = Player::new();
    let mut tally = ScriptTally::default();
    while let Some(line) = reader.next_line()? {
        tally.line(&mut player, &line);
    }
    Ok(tally)
}
