//! The timing verdict (01, "The verdict"), by trying every whole t.

use crate::check::{check, Refusal};
use crate::limits::LONGEST_PERIOD;
use crate::table::Table;

/// What the verdict answers.
#[derive(Clone, Copy, PartialEq, Eq, Debug)]
pub enum Verdict {
    /// The table doesn't pass the check: its refusal, with the place.
    Refused(Refusal),
    /// 20: every t without end holds.
    Fits,
    /// 21, with the least t where h(t) + b(t) > t.
    Late(u64),
    /// 22: the sum of C * P / T is above P.
    Heavy,
    /// 23: P is above 1,000,000; the question stays open.
    Long,
}

/// The verdict on a list of words.
pub fn verdict(words: &[u32]) -> Verdict {
    let table = match check(words) {
        Ok(table) => table,
        Err(refusal) => return Verdict::Refused(refusal),
    };
    let Some(common) = common_period(&table) else {
        return Verdict::Long;
    };
    if work_in(&table, common) > common {
        return Verdict::Heavy;
    }
    let sections = sections(&table);
    for t in 0..=search_end(&table, common) {
        if demand(&table, t) + blocking(&sections, t) > t {
            return Verdict::Late(t);
        }
    }
    Verdict::Fits
}

/// P, the least common multiple of the periods; none if it is above 1,000,000.
/// A common multiple only grows with each further period, so we may leave at the first that is too large.
pub fn common_period(table: &Table) -> Option<u64> {
    let mut common: u64 = 1;
    for task in &table.tasks {
        let period = u64::from(task.period);
        common = common / greatest_common_divisor(common, period) * period;
        if common > LONGEST_PERIOD {
            return None;
        }
    }
    Some(common)
}

/// Euclid's rule.
fn greatest_common_divisor(a: u64, b: u64) -> u64 {
    let (mut a, mut b) = (a, b);
    while b != 0 {
        (a, b) = (b, a % b);
    }
    a
}

/// The sum of C * P / T. T divides P, so nothing is rounded.
fn work_in(table: &Table, common: u64) -> u64 {
    table
        .tasks
        .iter()
        .map(|task| u64::from(task.cost) * (common / u64::from(task.period)))
        .sum()
}

/// How far the search goes: P + the largest D. That is far enough for every t without end. From the largest
/// D on, nothing blocks any more (b asks for a D above t), and P ticks later the demand is higher by the sum
/// of C * P / T, which is at most P here. So if t + P breaks the rule, t has broken it already.
pub fn search_end(table: &Table, common: u64) -> u64 {
    let largest = table.tasks.iter().map(|task| task.deadline).max();
    common + u64::from(largest.unwrap_or(0))
}

/// h(t): the sum, over tasks with D at most t, of C times (1 + (t - D) / T, rounded down).
fn demand(table: &Table, t: u64) -> u64 {
    let mut sum = 0;
    for task in &table.tasks {
        let deadline = u64::from(task.deadline);
        if deadline <= t {
            sum += u64::from(task.cost) * (1 + (t - deadline) / u64::from(task.period));
        }
    }
    sum
}

/// A lock step as the blocking sees it.
struct Blocker {
    /// D of the task whose plan has the step.
    deadline: u64,
    /// The floor of the resource that it locks.
    floor: u64,
    length: u64,
}

/// Every lock step of every task.
fn sections(table: &Table) -> Vec<Blocker> {
    let mut all = Vec::new();
    for task in &table.tasks {
        for section in task.sections() {
            all.push(Blocker {
                deadline: u64::from(task.deadline),
                floor: u64::from(table.floor(section.resource).unwrap_or(0)),
                length: u64::from(section.length),
            });
        }
    }
    all
}

/// b(t): the greatest length of a lock step of task j on resource r with D of j above t and the floor of r
/// at most t, or 0.
fn blocking(sections: &[Blocker], t: u64) -> u64 {
    let mut greatest = 0;
    for section in sections {
        if section.deadline > t && section.floor <= t {
            greatest = greatest.max(section.length);
        }
    }
    greatest
}
