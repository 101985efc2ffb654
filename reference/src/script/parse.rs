//! One line of a script, taken apart.

/// A line may have this many bytes, its line feed not counted.
pub const LINE_ROOM: usize = 65_536;

/// What a line asks for.
#[derive(Clone, PartialEq, Eq, Debug)]
pub enum Command {
    Table(Vec<u32>),
    Check,
    Start,
    Release { task: u32, time: u64 },
    Step { time: u64 },
    Verdict,
    Show,
}

/// What is wrong with a line that is no command.
#[derive(Clone, Copy, PartialEq, Eq, PartialOrd, Ord, Debug)]
pub enum Fault {
    UnknownWord,
    NumberMissing,
    MalformedNumber,
    NumberTooLarge,
    SomethingLeftOver,
    LineTooLong,
}

impl Fault {
    pub const ALL: [Fault; 6] = [
        Fault::UnknownWord,
        Fault::NumberMissing,
        Fault::MalformedNumber,
        Fault::NumberTooLarge,
        Fault::SomethingLeftOver,
        Fault::LineTooLong,
    ];
}

/// Takes a line apart (without its line feed). A line with nothing in it is no command and no fault.
/// The words are judged from left to right, and the first fault is the answer.
pub fn parse(line: &[u8]) -> Result<Option<Command>, Fault> {
    if line.len() > LINE_ROOM {
        return Err(Fault::LineTooLong);
    }
    let mut words = Words(words(line).into_iter());
    let Some(first) = words.next() else {
        return Ok(None);
    };
    let command = match first {
        b"table" => Command::Table(words.table()?),
        b"check" => Command::Check,
        b"start" => Command::Start,
        b"release" => {
            let task = words.number(u64::from(u32::MAX))? as u32;
            words.at()?;
            let time = words.number(u64::MAX)?;
            Command::Release { task, time }
        }
        b"step" => {
            words.at()?;
            let time = words.number(u64::MAX)?;
            Command::Step { time }
        }
        b"verdict" => Command::Verdict,
        b"show" => Command::Show,
        _ => return Err(Fault::UnknownWord),
    };
    match words.next() {
        None => Ok(Some(command)),
        Some(_) => Err(Fault::SomethingLeftOver),
    }
}

/// The words of a line: what stands between blanks (space, tab, carriage return), up to the first `#`.
fn words(line: &[u8]) -> Vec<&[u8]> {
    let end = line
        .iter()
        .position(|byte| *byte == b'#')
        .unwrap_or(line.len());
    line[..end]
        .split(|byte| matches!(byte, b' ' | b'\t' | b'\r'))
        .filter(|word| !word.is_empty())
        .collect()
}

/// The words that are still to be judged.
struct Words<'a>(std::vec::IntoIter<&'a [u8]>);

impl<'a> Words<'a> {
    fn next(&mut self) -> Option<&'a [u8]> {
        self.0.next()
    }

    /// The word `at` must stand here.
    fn at(&mut self) -> Result<(), Fault> {
        match self.next() {
            Some(b"at") => Ok(()),
            Some(_) => Err(Fault::UnknownWord),
            None => Err(Fault::NumberMissing),
        }
    }

    /// A number of at most `most` must stand here.
    fn number(&mut self, most: u64) -> Result<u64, Fault> {
        match self.next() {
            Some(word) => number(word, most),
            None => Err(Fault::NumberMissing),
        }
    }

    /// Words of a table to the line's end; a word `/` stands for nothing.
    fn table(&mut self) -> Result<Vec<u32>, Fault> {
        let mut table = Vec::new();
        for word in self.0.by_ref() {
            if word != b"/" {
                table.push(number(word, u64::from(u32::MAX))? as u32);
            }
        }
        Ok(table)
    }
}

/// A number is a word of digits only. Leading zeros change nothing.
fn number(word: &[u8], most: u64) -> Result<u64, Fault> {
    if word.is_empty() || !word.iter().all(u8::is_ascii_digit) {
        return Err(Fault::MalformedNumber);
    }
    let mut value: u64 = 0;
    for digit in word {
        value = value
            .checked_mul(10)
            .and_then(|tens| tens.checked_add(u64::from(digit - b'0')))
            .ok_or(Fault::NumberTooLarge)?;
    }
    if value > most {
        return Err(Fault::NumberTooLarge);
    }
    Ok(value)
}
