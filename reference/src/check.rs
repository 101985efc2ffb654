//! The table check (01, "When the table check says no", and request 105).

use crate::limits::{COUNT, CROWDED, NEST, RANGE, SHORT, STEP};
use crate::limits::{DEPTH, RESOURCES, STEPS, TASKS, TICKS};
use crate::table::{Section, Step, Table, Task};

/// A refusal of the check: its number and its place, which is a word index.
#[derive(Clone, Copy, PartialEq, Eq, Debug)]
pub struct Refusal {
    pub number: u32,
    pub place: usize,
}

fn refuse<A>(number: u32, place: usize) -> Result<A, Refusal> {
    Err(Refusal { number, place })
}

/// Walks over the lent words. A word is asked for only when the words before it are sound.
struct Reader<'a> {
    words: &'a [u32],
    /// The index of the next word.
    at: usize,
}

impl Reader<'_> {
    /// Asks for the next word.
    fn ask(&mut self) -> Result<u32, Refusal> {
        match self.words.get(self.at) {
            Some(word) => {
                self.at += 1;
                Ok(*word)
            }
            None => refuse(SHORT, self.words.len()),
        }
    }

    /// Asks for one word and refuses it, with `number` at its own place, unless it is from `least` to `most`.
    fn ask_between(&mut self, least: u32, most: u32, number: u32) -> Result<u32, Refusal> {
        let place = self.at;
        let word = self.ask()?;
        if word < least || word > most {
            return refuse(number, place);
        }
        Ok(word)
    }
}

/// Checks the words of a table and takes them apart; or says which word is the first broken one.
pub fn check(words: &[u32]) -> Result<Table, Refusal> {
    let mut reader = Reader { words, at: 0 };
    let count = reader.ask_between(1, TASKS, COUNT)?;
    let resources = reader.ask_between(0, RESOURCES, COUNT)?;
    let mut tasks = Vec::new();
    for _ in 0..count {
        tasks.push(check_task(&mut reader, resources)?);
    }
    if reader.at < words.len() {
        // Words remain after the last task.
        return refuse(SHORT, reader.at);
    }
    Ok(Table { resources, tasks })
}

/// Reads T, D, C, s and the plan of one task.
fn check_task(reader: &mut Reader, resources: u32) -> Result<Task, Refusal> {
    let period = reader.ask_between(1, TICKS, RANGE)?;
    let deadline = reader.ask_between(1, TICKS, RANGE)?;
    let cost = reader.ask_between(1, TICKS, RANGE)?;
    let count = reader.ask_between(0, STEPS, COUNT)?;
    let mut steps = Vec::new();
    let mut plan = Plan {
        resources,
        cost,
        claimed: 0,
        held: Vec::new(),
    };
    for _ in 0..count {
        steps.push(check_step(reader, &mut plan)?);
    }
    if !plan.held.is_empty() {
        // A plan that ends holding something: the place is the index after the plan's last word.
        return refuse(NEST, reader.at);
    }
    Ok(Task {
        period,
        deadline,
        cost,
        steps,
    })
}

/// Reads one step. Its three words are asked for together, and a refusal's place is the first of them.
fn check_step(reader: &mut Reader, plan: &mut Plan) -> Result<Step, Refusal> {
    let place = reader.at;
    let kind = reader.ask()?;
    let resource = reader.ask()?;
    let length = reader.ask()?;
    let step = match kind {
        1 => plan.lock(Section { resource, length }),
        2 if resource == 0 && length == 0 => plan.unlock(),
        _ => Err(STEP),
    };
    step.map_err(|number| Refusal { number, place })
}

/// A plan as far as it was read.
struct Plan {
    /// m
    resources: u32,
    /// C
    cost: u32,
    /// The sum of the outermost sections' lengths.
    claimed: u32,
    /// The sections that it holds, the outermost first.
    held: Vec<Held>,
}

/// A section that is held, and the sum of the lengths of the sections directly inside it.
struct Held {
    section: Section,
    claimed: u32,
}

impl Plan {
    /// A lock; or the number that it is refused with. Within a step 4 goes before 5, and 5 before 14.
    fn lock(&mut self, section: Section) -> Result<Step, u32> {
        let Section { resource, length } = section;
        if resource >= self.resources || length < 1 || length > self.cost {
            return Err(STEP);
        }
        if self.held.iter().any(|it| it.section.resource == resource) {
            return Err(NEST);
        }
        if self.held.len() >= DEPTH {
            return Err(NEST);
        }
        if let Some(around) = self.held.last() {
            if length > around.section.length {
                return Err(NEST);
            }
        }
        // How long what is right around it may take, and what the sections directly inside that claim before this one.
        let (most, claimed) = match self.held.last_mut() {
            Some(around) => (around.section.length, &mut around.claimed),
            None => (self.cost, &mut self.claimed),
        };
        *claimed += length;
        if *claimed > most {
            return Err(CROWDED);
        }
        self.held.push(Held {
            section,
            claimed: 0,
        });
        Ok(Step::Lock(section))
    }

    /// An unlock of the most recent section; or the number that it is refused with.
    fn unlock(&mut self) -> Result<Step, u32> {
        match self.held.pop() {
            Some(_) => Ok(Step::Unlock),
            None => Err(NEST),
        }
    }
}
