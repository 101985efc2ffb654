//! The numbers of document 01: its limits, and the numbers and names of its replies; and those that later requests add.

/// Most tasks in a table (01, "The words of a table").
pub const TASKS: u32 = 16;
/// Most resources in a table.
pub const RESOURCES: u32 = 16;
/// Most steps in a plan.
pub const STEPS: u32 = 16;
/// Most ticks in T, D and C.
pub const TICKS: u32 = 1_000_000;
/// Most sections held at once by a job.
pub const DEPTH: usize = 4;
/// The first time that is no clock any more: 2^40.
pub const END_OF_TIME: u64 = 1 << 40;

/// Words before the first task: n and m.
pub const TABLE_HEAD: usize = 2;
/// Words of a task before its steps: T, D, C and s.
pub const TASK_HEAD: usize = 4;
/// Words of a step: kind, resource and length.
pub const STEP_WORDS: usize = 3;
/// Room for the words of the longest table.
pub const ROOM: usize = TABLE_HEAD + ROWS * (TASK_HEAD + STEPS as usize * STEP_WORDS);
/// Rows in a state, one for each task that a table can have.
pub const ROWS: usize = TASKS as usize;
/// The greatest time that a state may store (01, "When an event is turned away").
pub const STORED_TIME: u64 = END_OF_TIME + 1_000_000;
/// The greatest count of accepted releases.
pub const COUNT_LIMIT: u64 = 1 << 44;
/// The greatest common multiple of the periods for which the verdict answers (01, "The verdict").
pub const LONGEST_PERIOD: u64 = 1_000_000;

// Refusals of the table check (01, "When the table check says no").
pub const SHORT: u32 = 1;
pub const COUNT: u32 = 2;
pub const RANGE: u32 = 3;
pub const STEP: u32 = 4;
pub const NEST: u32 = 5;
/// Request 105: sections that can't fit.
pub const CROWDED: u32 = 14;

// Refusals of an event (01, "When an event is turned away").
pub const TORN: u32 = 6;
pub const BACK: u32 = 7;
pub const END: u32 = 8;
pub const NOBODY: u32 = 9;
pub const ACTIVE: u32 = 10;
pub const EARLY: u32 = 11;
pub const HELD: u32 = 12;

// Verdicts (01, "The verdict").
pub const FITS: u32 = 20;
pub const LATE: u32 = 21;
pub const HEAVY: u32 = 22;
pub const LONG: u32 = 23;

/// What the check, and with it a start and a verdict, can refuse.
pub const OF_TABLE: [u32; 6] = [SHORT, COUNT, RANGE, STEP, NEST, CROWDED];
/// What a release can be refused with.
pub const OF_RELEASE: [u32; 6] = [TORN, BACK, END, NOBODY, ACTIVE, EARLY];
/// What a step can be refused with.
pub const OF_STEP: [u32; 5] = [TORN, BACK, END, NOBODY, HELD];
/// What a verdict on a sound table can be.
pub const VERDICTS: [u32; 4] = [FITS, LATE, HEAVY, LONG];

/// The name of each number.
pub const NAMES: [(u32, &str); 17] = [
    (SHORT, "SHORT"),
    (COUNT, "COUNT"),
    (RANGE, "RANGE"),
    (STEP, "STEP"),
    (NEST, "NEST"),
    (TORN, "TORN"),
    (BACK, "BACK"),
    (END, "END"),
    (NOBODY, "NOBODY"),
    (ACTIVE, "ACTIVE"),
    (EARLY, "EARLY"),
    (HELD, "HELD"),
    (CROWDED, "CROWDED"),
    (FITS, "FITS"),
    (LATE, "LATE"),
    (HEAVY, "HEAVY"),
    (LONG, "LONG"),
];

/// The name that goes with a number.
pub fn name(number: u32) -> &'static str {
    NAMES
        .iter()
        .find(|(its, _)| *its == number)
        .map_or("UNKNOWN", |(_, name)| name)
}
