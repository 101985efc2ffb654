//! The verdict as a plain program gives it: every whole t up to P plus the largest D is tried, one after the other.

use harness::answers::{plain, Answer};
use reference::limits::{FITS, HEAVY, LATE, LONG, LONGEST_PERIOD, RESOURCES};

use crate::twin::{steps, survey, COST, DEADLINE, PERIOD};

struct Task {
    period: u64,
    deadline: u64,
    cost: u64,
}

/// A lock step: the task's D, the resource's floor, the section's length.
struct Lock {
    deadline: u64,
    floor: u64,
    length: u64,
}

#[inline(never)]
pub fn verdict(words: &[u32], answer: &mut Answer) -> u64 {
    let (number, value) = judge(words);
    *answer = plain(u64::from(number), value);
    u64::from(number)
}

fn judge(words: &[u32]) -> (u32, u64) {
    let survey = match survey(words) {
        Ok(survey) => survey,
        Err((number, place)) => return (number, place as u64),
    };
    let starts = &survey.starts[..survey.tasks];
    let tasks: Vec<Task> = starts
        .iter()
        .map(|start| Task {
            period: u64::from(words[start + PERIOD]),
            deadline: u64::from(words[start + DEADLINE]),
            cost: u64::from(words[start + COST]),
        })
        .collect();

    let mut common = 1;
    for task in &tasks {
        common = common / divisor(common, task.period) * task.period;
        if common > LONGEST_PERIOD {
            return (LONG, 0);
        }
    }
    let work: u64 = tasks
        .iter()
        .map(|task| task.cost * common / task.period)
        .sum();
    if work > common {
        return (HEAVY, 0);
    }

    let locks = locks(words, starts);
    let largest = tasks.iter().map(|task| task.deadline).max().unwrap_or(0);
    for t in 0..=common + largest {
        if demand(&tasks, t) + blocking(&locks, t) > t {
            return (LATE, t);
        }
    }
    (FITS, 0)
}

fn divisor(a: u64, b: u64) -> u64 {
    if b == 0 {
        a
    } else {
        divisor(b, a % b)
    }
}

fn demand(tasks: &[Task], t: u64) -> u64 {
    tasks
        .iter()
        .filter(|task| task.deadline <= t)
        .map(|task| task.cost * (1 + (t - task.deadline) / task.period))
        .sum()
}

fn blocking(locks: &[Lock], t: u64) -> u64 {
    locks
        .iter()
        .filter(|lock| lock.deadline > t && lock.floor <= t)
        .map(|lock| lock.length)
        .max()
        .unwrap_or(0)
}

/// Every lock step, with the floors asked for once.
fn locks(words: &[u32], starts: &[usize]) -> Vec<Lock> {
    let lock_steps = |start: usize| steps(words, start).filter(|step| step[0] == 1);
    let mut floors = [u64::MAX; RESOURCES as usize];
    for start in starts {
        for step in lock_steps(*start) {
            let floor = &mut floors[step[1] as usize];
            *floor = (*floor).min(u64::from(words[start + DEADLINE]));
        }
    }
    let mut locks = Vec::new();
    for start in starts {
        for step in lock_steps(*start) {
            locks.push(Lock {
                deadline: u64::from(words[start + DEADLINE]),
                floor: floors[step[1] as usize],
                length: u64::from(step[2]),
            });
        }
    }
    locks
}
