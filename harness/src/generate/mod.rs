//! Writes a script by lot, the same for the same seed. It plays along while it writes, so that it can aim at
//! ties, at the limits and at every refusal.

mod badlines;

use reference::check;
use reference::limits::END_OF_TIME;
use reference::script::{Answer, Player};

use crate::draw::events::{self, Manner};
use crate::draw::{search_cost, tables};
use crate::event::Event;
use crate::rng::Rng;
use crate::tally::ScriptTally;

/// A generated script and what it meets.
pub struct Script {
    pub text: Vec<u8>,
    pub tally: ScriptTally,
}

/// Writes a script with about `count` lines that have a reply. A wild one also has bytes of every value in
/// its bad lines; the others are plain text.
pub fn generate(seed: u64, count: u64, wild: bool) -> Script {
    let mut writer = Writer {
        rng: Rng::new(seed),
        text: Vec::new(),
        player: Player::new(),
        tally: ScriptTally::default(),
        wild,
        manner: Manner { eager: 4, pace: 2 },
    };
    // Before any table and any start: every command has a reply from the first line on.
    for line in ["check", "show", "release 0 at 0", "step at 0", "verdict"] {
        if writer.rng.chance(1, 2) {
            writer.say(line);
        }
    }
    while writer.tally.replies < count {
        writer.morning();
    }
    // A last line without a line feed is a line.
    if writer.rng.chance(1, 2) {
        writer.text.pop();
    }
    Script {
        text: writer.text,
        tally: writer.tally,
    }
}

struct Writer {
    rng: Rng,
    text: Vec<u8>,
    player: Player,
    tally: ScriptTally,
    wild: bool,
    manner: Manner,
}

impl Writer {
    /// A table and what is done with it.
    fn morning(&mut self) {
        self.manner = Manner {
            eager: self.rng.pick(&[2, 3, 4, 8]),
            pace: self.rng.pick(&[1, 1, 2, 6]),
        };
        let words = tables::table(&mut self.rng);
        self.say_table(&words);
        let sound = check(&words).is_ok();
        if self.rng.chance(if sound { 2 } else { 5 }, 10) {
            self.say("check");
        }
        if self.verdict_is_wanted(&words) {
            self.say("verdict");
        }
        // Now and then the new table is lent only, and the state stays the old one.
        if self.rng.chance(if sound { 9 } else { 5 }, 10) {
            self.say("start");
        }
        let most = if self.player.state.table().is_some() {
            self.rng.pick(&[0, 3, 20, 60, 120])
        } else {
            3
        };
        for _ in 0..self.rng.between(0, most) {
            self.event();
            if self.rng.chance(1, 40) {
                self.say("show");
            }
            if self.rng.chance(1, 25) {
                self.bad_line();
            }
            if self.rng.chance(1, 40) {
                self.nothing();
            }
        }
        if self.rng.chance(1, 20) {
            self.jump();
        }
    }

    /// Ask for the verdict, but rarely where the search over every t is a long one.
    fn verdict_is_wanted(&mut self, words: &[u32]) -> bool {
        if search_cost(words) > 200_000 {
            self.rng.chance(1, 4)
        } else {
            self.rng.chance(7, 10)
        }
    }

    /// A release or a step.
    fn event(&mut self) {
        let state = &self.player.state;
        let table = state.table();
        let event = events::event(&mut self.rng, self.manner, state, table.as_ref());
        self.say(&event.to_string());
    }

    /// A jump to the last ticks before the end of time: the mornings after it are short.
    fn jump(&mut self) {
        let state = &self.player.state;
        let near = END_OF_TIME - self.rng.pick(&[1, 1, 2, 5, 20, 60]);
        let time = near.max(state.clock);
        let event = if self.rng.chance(1, 2) {
            Event::Step { time }
        } else {
            let task = events::task(&mut self.rng, state, state.table().as_ref());
            Event::Release { task, time }
        };
        self.say(&event.to_string());
        for _ in 0..self.rng.between(0, 25) {
            self.event();
        }
    }

    /// Writes a `table` line; the tasks are sometimes set apart by `/`.
    fn say_table(&mut self, words: &[u32]) {
        let slashes = self.rng.chance(1, 2);
        let mut text = "table".to_string();
        for word in words {
            if slashes && self.rng.chance(1, 6) {
                text.push_str(" /");
            }
            text.push(' ');
            if self.rng.chance(1, 500) {
                text.push_str("000");
            }
            text.push_str(&word.to_string());
        }
        if self.rng.chance(1, 30) {
            text.push_str(" /");
        }
        self.say(&text);
    }

    /// Writes a line, sometimes with other blanks and a comment, and plays it.
    fn say(&mut self, text: &str) -> Answer {
        let mut line = text.as_bytes().to_vec();
        if self.rng.chance(1, 4) {
            let blank = self.rng.pick(&[&b"\t"[..], b"  ", b" \t ", b"\r", b" \r "]);
            line = replace_blanks(&line, blank);
        }
        if self.rng.chance(1, 25) {
            line.splice(0..0, *b" \t");
        }
        if self.rng.chance(1, 25) {
            let comments = ["# why not", " # a # b", "#", "  #\t7 at 9", " # späti"];
            line.extend_from_slice(self.rng.pick(&comments).as_bytes());
        }
        if self.rng.chance(1, 20) {
            line.push(b'\r');
        }
        self.write(&line)
    }

    /// A line with nothing in it.
    fn nothing(&mut self) {
        let lines = [
            "",
            " ",
            "\t",
            "\r",
            "# a comment",
            " # step at 5",
            "#",
            " \t\r",
        ];
        let line = self.rng.pick(&lines);
        self.write(line.as_bytes());
    }

    /// Writes these bytes as a line and plays it.
    fn write(&mut self, line: &[u8]) -> Answer {
        // A line feed in the bytes would make two lines of them; no caller has one.
        self.text.extend_from_slice(line);
        self.text.push(b'\n');
        self.tally.line(&mut self.player, line)
    }
}

fn replace_blanks(line: &[u8], blank: &[u8]) -> Vec<u8> {
    let mut out = Vec::new();
    for byte in line {
        if *byte == b' ' {
            out.extend_from_slice(blank);
        } else {
            out.push(*byte);
        }
    }
    out
}
