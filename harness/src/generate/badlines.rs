//! Lines that are no command, of each kind, and near misses.

use reference::script::LINE_ROOM;

use super::Writer;

const UNKNOWN_WORD: [&str; 14] = [
    "stap at 5",
    "Release 1 at 2",
    "tables 1 2 3",
    "tabl",
    "at 5",
    "7",
    "/ table 1 0 2 2 2 0",
    "release 1 on 5",
    "release 0 5 at",
    "release 1 AT 5",
    "step 5",
    "step at5",
    "stepat 5",
    "später at 5",
];

const NUMBER_MISSING: [&str; 7] = [
    "release",
    "release 1",
    "release 1 at",
    "step",
    "step at",
    "release # 1 at 5",
    "step at # 5",
];

const MALFORMED: [&str; 18] = [
    "release at 5",
    "release x at 5",
    "release 1, at 5",
    "release 0x1 at 5",
    "step at -1",
    "step at +1",
    "step at 1_000",
    "step at 5.0",
    "step at at",
    "step at /",
    "step at 99999999999999999999999999a",
    "release / at 5",
    "table 1 0 2 2 2 0x",
    "table 1, 0",
    "table // 1 0",
    "table 1/0",
    "table a",
    "step at ５",
];

const TOO_LARGE: [&str; 9] = [
    "release 4294967296 at 1",
    "release 99999999999999999999999999999999999999999 at 1",
    "step at 18446744073709551616",
    "release 0 at 18446744073709551616",
    "step at 340282366920938463463374607431768211456",
    "step at 00018446744073709551616",
    "table 1 0 4294967296 2 2 0",
    "table 18446744073709551616",
    "table 340282366920938463463374607431768211457 0",
];

const LEFT_OVER: [&str; 10] = [
    "check it",
    "check 1",
    "start now",
    "start /",
    "verdict 20",
    "show all",
    "show show",
    "step at 5 6",
    "release 1 at 2 at 3",
    "release 0 at 0 /",
];

/// Two faults in a line: the first from the left is the answer.
const TWO_FAULTS: [&str; 8] = [
    "release 4294967296 to x",
    "release x at 18446744073709551616",
    "step on x",
    "step at 18446744073709551616 7",
    "table 4294967296 x",
    "table x 4294967296",
    "release -1",
    "stap at x y",
];

/// Lines that look odd and are commands all the same.
const FINE: [&str; 5] = [
    "step at 000000000000000000000000000000000000000000000000",
    "release 00000000000000000000 at 18446744073709551615",
    "release 4294967295 at 0",
    "check#it",
    "step\tat\r0#",
];

impl Writer {
    pub(super) fn bad_line(&mut self) {
        // A line around the room for one; rare, because it is long.
        if self.rng.chance(1, 300) {
            return self.long_line();
        }
        let line = match self.rng.between(0, 13) {
            0..=1 => self.rng.pick(&UNKNOWN_WORD),
            2..=3 => self.rng.pick(&NUMBER_MISSING),
            4..=5 => self.rng.pick(&MALFORMED),
            6..=7 => self.rng.pick(&TOO_LARGE),
            8..=9 => self.rng.pick(&LEFT_OVER),
            10 => self.rng.pick(&TWO_FAULTS),
            11 => self.rng.pick(&FINE),
            _ => return self.damaged_line(),
        };
        if self.rng.chance(1, 4) {
            self.say(line);
        } else {
            self.write(line.as_bytes());
        }
    }

    /// A command with one byte changed, put in or left out.
    fn damaged_line(&mut self) {
        let clock = self.player.state.clock;
        let text = match self.rng.between(0, 7) {
            0 => "check".to_string(),
            1 => "show".to_string(),
            2 => "table 1 0 / 2 2 2 0".to_string(),
            3..=5 => format!("release {} at {clock}", self.rng.between(0, 3)),
            _ => format!("step at {clock}"),
        };
        let mut line = text.into_bytes();
        let at = self.rng.index(line.len());
        let byte = if self.wild {
            // Any byte but the line feed.
            match self.rng.bits() as u8 {
                b'\n' => 0,
                other => other,
            }
        } else {
            self.rng.pick(b" \t\r#/-+.,;:_~aAtT0123456789\x0b\x0c\x7f")
        };
        match self.rng.between(0, 2) {
            0 => line[at] = byte,
            1 => line.insert(at, byte),
            _ => {
                line.remove(at);
            }
        }
        self.write(&line);
    }

    /// A line with just as many bytes as a line may have, or one or some more.
    fn long_line(&mut self) {
        let clock = self.player.state.clock;
        let length = LINE_ROOM + self.rng.pick(&[0, 0, 1, 1, 2]);
        let mut line = match self.rng.between(0, 2) {
            0 => b"# ".to_vec(),
            1 => b"check".to_vec(),
            _ => format!("step at {clock}").into_bytes(),
        };
        let fill = self.rng.pick(b"  .");
        if fill == b'.' {
            line.push(b'#');
        }
        line.resize(length, fill);
        self.write(&line);
    }
}
