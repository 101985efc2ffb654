//! The stack that a call uses, by painting it beforehand and looking how far down the paint is gone.
//!
//! The call runs on a thread whose stack is memory of our own: it is filled with a pattern before the thread starts and read after it has
//! ended. This is the package's only unsafe code. It asks for POSIX threads, as Linux has them.

use std::ffi::{c_int, c_void};
use std::hint::black_box;

use crate::cases::{events, verdicts};
use crate::contenders::Contender;

const PAINT: u64 = 0x5bad_c0de_5bad_c0de;
const WORDS: usize = 1 << 17;
/// Where a stack has to begin and end.
const ALIGN: usize = 64 * 1024;

/// Room for a `pthread_attr_t`, whose size each machine has its own of: at most 64 bytes on Linux.
#[repr(C, align(16))]
struct Attributes([u64; 32]);

extern "C" {
    fn pthread_attr_init(attributes: *mut Attributes) -> c_int;
    fn pthread_attr_setstack(attributes: *mut Attributes, at: *mut c_void, size: usize) -> c_int;
    fn pthread_create(
        thread: *mut usize,
        attributes: *const Attributes,
        main: extern "C" fn(*mut c_void) -> *mut c_void,
        argument: *mut c_void,
    ) -> c_int;
    fn pthread_join(thread: usize, result: *mut *mut c_void) -> c_int;
}

struct Job<'a> {
    call: &'a dyn Fn(),
    /// The address of a local of the thread's own function: what lies below it belongs to the call.
    mark: usize,
}

extern "C" fn run(argument: *mut c_void) -> *mut c_void {
    // The argument is the job that `depth` lends until this thread has ended.
    let job = unsafe { &mut *argument.cast::<Job>() };
    let here = 0u64;
    job.mark = black_box(&here) as *const u64 as usize;
    (job.call)();
    std::ptr::null_mut()
}

/// How many bytes of stack a call writes to, below the frame that it is called from.
pub fn depth(call: &dyn Fn()) -> usize {
    let mut stack = vec![PAINT; WORDS + ALIGN / 8];
    let first = stack.as_ptr() as usize;
    let bottom = first.next_multiple_of(ALIGN);
    let mut job = Job { call, mark: 0 };
    let mut attributes = Attributes([0; 32]);
    let mut thread = 0;
    // The stack's memory and the job outlive the thread, which is joined before either is touched again.
    let failed = unsafe {
        pthread_attr_init(&mut attributes)
            | pthread_attr_setstack(&mut attributes, bottom as *mut c_void, WORDS * 8)
            | pthread_create(&mut thread, &attributes, run, (&raw mut job).cast())
            | pthread_join(thread, std::ptr::null_mut())
    };
    assert_eq!(failed, 0, "no thread with a stack of its own");
    stack = black_box(stack);
    let used = stack[(bottom - first) / 8..]
        .iter()
        .position(|word| *word != PAINT)
        .expect("a thread leaves something on its stack");
    job.mark.saturating_sub(bottom + used * 8)
}

/// Prints the stack that each contender uses, at most over the events and over the verdicts.
pub fn print() {
    let nothing = depth(&|| {});
    println!("stack, bytes written below the caller's frame: the most over all of these");
    println!("{:14} {:>9} {:>9}", "", "event", "verdict");
    for contender in Contender::ALL {
        let event = events()
            .iter()
            .map(|case| {
                // The copy of the image that the call works on is not the call's.
                depth(&|| contender.event(case, Contender::NOTHING, Contender::NOTHING))
                    .saturating_sub(std::mem::size_of_val(&case.image))
            })
            .max()
            .unwrap_or(0);
        let verdict = verdicts()
            .iter()
            .take(3)
            .map(|(_, words)| {
                depth(&|| contender.verdict(words, Contender::NOTHING, Contender::NOTHING))
            })
            .max()
            .unwrap_or(0);
        println!(
            "{:14} {:9} {:9}",
            contender.name(),
            event.saturating_sub(nothing),
            verdict.saturating_sub(nothing)
        );
    }
}
